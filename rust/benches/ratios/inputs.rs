//! Inputs of which no two are alike: a code on another curve with its points in another order, other places, another message.
use vakhudle::plain::field::{size, width};
use vakhudle::plain::{fast, Random};
use vakhudle::{Code, ABSENT, MASK_BYTES, MOST_POINTS, ROLLING_STATE, WORKING_SPACE};

/// The codes of a group of rows: all points of curves over one field that have as many as a curve can have.
#[derive(Clone, Copy)]
pub struct Kind {
    pub field: u8,
    pub n: usize,
    pub k: usize,
    /// How many inputs a row has.
    pub inputs: usize,
}

impl Kind {
    pub fn named(&self, job: &str) -> String {
        format!("{job}, m = {}, n = {}, k = {}", self.field, self.n, self.k)
    }

    pub fn hours(&self) -> usize {
        self.k * width(self.field) / 15
    }
}

/// A code with its points.
#[derive(Clone)]
pub struct OwnCode {
    field: u8,
    curve: [u8; 5],
    xs: Vec<u8>,
    ys: Vec<u8>,
    k: usize,
}

impl OwnCode {
    pub fn code(&self) -> Code<'_> {
        Code { field: self.field, curve: self.curve, xs: &self.xs, ys: &self.ys, k: self.k }
    }
}

/// Any curve that is not singular, and its points.
pub fn curve(field: u8, random: &mut Random) -> ([u8; 5], Vec<(u8, u8)>) {
    with_points(field, || random.symbols(field, 5).try_into().unwrap(), |_| true)
}

/// Any curve with n points, and its points. Only curves with g1 = 0 have the most.
pub fn full_curve(kind: &Kind, random: &mut Random) -> ([u8; 5], Vec<(u8, u8)>) {
    let mut any = || {
        let mut curve: [u8; 5] = random.symbols(kind.field, 5).try_into().unwrap();
        curve[0] = 0;
        curve
    };
    with_points(kind.field, &mut any, |count| count == kind.n)
}

fn with_points(field: u8, mut any: impl FnMut() -> [u8; 5], wanted: impl Fn(usize) -> bool) -> ([u8; 5], Vec<(u8, u8)>) {
    let (mut xs, mut ys) = ([0; MOST_POINTS], [0; MOST_POINTS]);
    loop {
        let curve = any();
        if let Ok(count) = fast::points(field, curve, &mut xs, &mut ys) {
            if wanted(count as usize) {
                return (curve, xs.into_iter().zip(ys).take(count as usize).collect());
            }
        }
    }
}

pub fn code(kind: &Kind, random: &mut Random) -> OwnCode {
    let (curve, mut points) = full_curve(kind, random);
    random.shuffle(&mut points);
    let (xs, ys) = points.into_iter().unzip();
    OwnCode { field: kind.field, curve, xs, ys, k: kind.k }
}

/// So many places of eight are heard.
pub fn mask(kind: &Kind, eighths: u64, random: &mut Random) -> Vec<u8> {
    let mut mask = vec![0; MASK_BYTES];
    for p in (0..kind.n).filter(|_| random.below(8) < eighths) {
        mask[p / 8] |= 1 << (p % 8);
    }
    mask
}

pub fn reading(random: &mut Random) -> i16 {
    random.between(-2_000, 20_000) as i16
}

/// One mean of ten is absent.
fn mean(random: &mut Random) -> i16 {
    if random.once_in(10) {
        ABSENT
    } else {
        reading(random)
    }
}

/// As many means as a block holds.
pub fn block_means(kind: &Kind, random: &mut Random) -> Vec<i16> {
    (0..kind.hours()).map(|_| mean(random)).collect()
}

/// One place more than k, in no order, so that k of them always do.
pub fn heard(kind: &Kind, random: &mut Random) -> Vec<u16> {
    let mut heard: Vec<u16> = (1..=kind.n as u16).collect();
    random.shuffle(&mut heard);
    heard.truncate(kind.k + 1);
    heard
}

/// k places that are not dependent, in no order.
pub fn choice(kind: &Kind, code: &OwnCode, random: &mut Random) -> Vec<u16> {
    let mut choice = vec![0; kind.k];
    fast::pick(&code.code(), &heard(kind, random), &mut choice, &mut [0; WORKING_SPACE]).unwrap();
    choice
}

/// Any codeword.
fn word(kind: &Kind, code: &OwnCode, random: &mut Random) -> Vec<u8> {
    let mut word = vec![0; kind.n];
    fast::plain(&code.code(), &random.symbols(kind.field, kind.k), &mut word).unwrap();
    word
}

/// A word with so many symbols changed.
pub fn wrong_word(kind: &Kind, code: &OwnCode, errors: usize, random: &mut Random) -> Vec<u8> {
    let mut word = word(kind, code, random);
    let mut indices: Vec<usize> = (0..kind.n).collect();
    random.shuffle(&mut indices);
    indices[..errors].iter().for_each(|&i| word[i] ^= random.between(1, size(kind.field) as i64 - 1) as u8);
    word
}

/// A word with so many symbols changed, and the trusts of all. A wrong symbol has a trust of 0 to 127, a right one of 128 to 255, or once in four times any;
/// or all have any.
pub fn trusted_word(kind: &Kind, code: &OwnCode, errors: usize, any: bool, random: &mut Random) -> (Vec<u8>, Vec<u8>) {
    let mut received = word(kind, code, random);
    let mut indices: Vec<usize> = (0..kind.n).collect();
    random.shuffle(&mut indices);
    let mut trusts = vec![0; kind.n];
    for (count, i) in indices.into_iter().enumerate() {
        let wrong = count < errors;
        let (least, most) = match wrong {
            _ if any => (0, 255),
            true => (0, 127),
            false if random.once_in(4) => (0, 255),
            false => (128, 255),
        };
        trusts[i] = random.between(least, most) as u8;
        if wrong {
            received[i] ^= random.between(1, size(kind.field) as i64 - 1) as u8;
        }
    }
    (received, trusts)
}

/// Places that are heard, and the symbols of a word there.
pub fn heard_word(kind: &Kind, code: &OwnCode, random: &mut Random) -> (Vec<u16>, Vec<u8>) {
    let heard = heard(kind, random);
    let word = word(kind, code, random);
    let symbols = heard.iter().map(|&p| word[p as usize - 1]).collect();
    (heard, symbols)
}

/// A day from any hour on: stamps and readings of seven minutes of eight.
pub fn day(random: &mut Random) -> (u32, Vec<u32>, Vec<i16>) {
    let first_hour = random.below(70_000_000) as u32;
    let stamps: Vec<u32> = (1..=24 * 60).map(|minute| first_hour * 60 + minute).filter(|_| !random.once_in(8)).collect();
    let readings = stamps.iter().map(|_| reading(random)).collect();
    (first_hour, stamps, readings)
}

/// The state of a run of up to 100 hours from any hour on, the next hour, and its mean.
pub fn next_hour(random: &mut Random) -> (Vec<u8>, u32, i16) {
    let mut state = vec![0; ROLLING_STATE];
    fast::rolling_fresh(&mut state).unwrap();
    let first_hour = random.below(70_000_000) as u32;
    let next = first_hour + random.between(0, 100) as u32;
    for hour in first_hour..next {
        fast::rolling(&mut state, hour, mean(random), &mut [0]).unwrap();
    }
    (state, next, mean(random))
}
