//! What the tests share: codes at random, lent memory with a border, and calls that are spoilt in one or two ways.
#![allow(dead_code, unused_imports, unused_macros)] // no test uses all of it
pub mod each;
pub mod places;

use std::fmt::Debug;
use vakhudle::plain::field::size;
use vakhudle::plain::{curve, Random};
use vakhudle::{Answer, Code, WORKING_SPACE};

pub const FIELDS: std::ops::RangeInclusive<u8> = 2..=9;

/// The fields whose symbols are all bytes.
pub const FIELDS_OF_256: [u8; 2] = [8, 9];

/// Each field with its number of trials.
pub fn trials(counts: [usize; 8]) -> impl Iterator<Item = (u8, usize)> {
    FIELDS.zip(counts)
}

/// Bytes on each side of lent memory that no call may touch.
const BORDER: usize = 64;

/// A number that fills memory at random.
pub trait Filler: Copy + PartialEq + Debug {
    fn from_bits(bits: u64) -> Self;
}

impl Filler for u8 {
    fn from_bits(bits: u64) -> Self {
        bits as u8
    }
}

impl Filler for u16 {
    fn from_bits(bits: u64) -> Self {
        bits as u16
    }
}

impl Filler for u32 {
    fn from_bits(bits: u64) -> Self {
        bits as u32
    }
}

impl Filler for i16 {
    fn from_bits(bits: u64) -> Self {
        bits as i16
    }
}

/// Memory to lend, amid a border, with the content that it had at first.
#[derive(Clone)]
pub struct Lent<T> {
    all: Vec<T>,
    before: Vec<T>,
}

impl<T: Filler> Lent<T> {
    pub fn new(length: usize, random: &mut Random) -> Self {
        let all: Vec<T> = (0..length + 2 * BORDER).map(|_| T::from_bits(random.next())).collect();
        Lent { before: all.clone(), all }
    }

    /// The same number everywhere.
    pub fn filled(length: usize, with: T) -> Self {
        let all = vec![with; length + 2 * BORDER];
        Lent { before: all.clone(), all }
    }

    /// This content, amid a border at random.
    pub fn holding(content: &[T], random: &mut Random) -> Self {
        let mut lent = Lent::new(content.len(), random);
        lent.slice().copy_from_slice(content);
        Lent { before: lent.all.clone(), ..lent }
    }

    pub fn slice(&mut self) -> &mut [T] {
        let end = self.all.len() - BORDER;
        &mut self.all[BORDER..end]
    }

    pub fn content(&self) -> &[T] {
        &self.all[BORDER..self.all.len() - BORDER]
    }

    pub fn is_unchanged(&self) -> bool {
        self.all == self.before
    }

    /// Equal with the borders.
    pub fn is_all_equal(&self, other: &Self) -> bool {
        self.all == other.all
    }

    pub fn border_is_unchanged(&self) -> bool {
        let end = self.all.len() - BORDER;
        self.all[..BORDER] == self.before[..BORDER] && self.all[end..] == self.before[end..]
    }
}

impl Lent<u8> {
    /// A working space: mostly nowhere zero, so that a byte left as it was shows.
    pub fn work(length: usize, random: &mut Random) -> Self {
        if random.once_in(4) {
            Lent::new(length, random)
        } else {
            Lent::filled(length, random.between(1, 255) as u8)
        }
    }

    /// Whether its first bytes are zero, as they are after acceptance, and the rest as it was.
    pub fn is_cleared(&self) -> bool {
        let (zeros, rest) = self.all[BORDER..].split_at(WORKING_SPACE);
        zeros.iter().all(|&b| b == 0) && rest == &self.before[BORDER + WORKING_SPACE..]
    }
}

/// One call by the three implementations: the proved one, the simple one and the fast one. Their answers and all that they were lent must be equal,
/// borders must stay, and a refusal must change nothing.
pub fn agree<T: Filler>(
    length: usize,
    random: &mut Random,
    ours: impl Fn(&mut [T]) -> Answer,
    plain: impl Fn(&mut [T]) -> Answer,
    fast: impl Fn(&mut [T]) -> Answer,
) -> (Answer, Lent<T>) {
    let lent = Lent::new(length, random);
    let mut memory = [lent.clone(), lent.clone(), lent];
    let answer = ours(memory[0].slice());
    assert_eq!(answer, plain(memory[1].slice()), "answer");
    assert_eq!(answer, fast(memory[2].slice()), "answer of the fast version");
    assert_eq!(memory[0].content(), memory[1].content(), "what is written");
    assert_eq!(memory[0].content(), memory[2].content(), "what the fast version writes");
    let [ours, ..] = memory;
    assert!(ours.border_is_unchanged(), "the border of a lent slice");
    assert!(answer.is_ok() || ours.is_unchanged(), "a refused call wrote");
    (answer, ours)
}

/// The same for the operations that are lent two slices to write in; the proved implementation comes first.
pub fn agree_on_two<T: Filler, U: Filler, I>(
    one: Lent<T>,
    two: Lent<U>,
    implementations: &[I],
    run: impl Fn(&I, &mut [T], &mut [U]) -> Answer,
) -> (Answer, Lent<T>, Lent<U>) {
    let mut results = implementations.iter().map(|implementation| {
        let (mut one, mut two) = (one.clone(), two.clone());
        let answer = run(implementation, one.slice(), two.slice());
        (answer, one, two)
    });
    let (answer, one, two) = results.next().expect("an implementation");
    for (i, (other, other_one, other_two)) in results.enumerate() {
        assert_eq!(answer, other, "answer of version {i}");
        assert_eq!(one.content(), other_one.content(), "what version {i} writes");
        assert!(two.is_all_equal(&other_two), "the second slice of version {i}");
    }
    assert!(one.border_is_unchanged() && two.border_is_unchanged(), "the border of a lent slice");
    assert!(answer.is_ok() || one.is_unchanged() && two.is_unchanged(), "a refused call wrote");
    (answer, one, two)
}

/// The same where the second is a working space: its first bytes must be zero after acceptance, the rest as it was. `lengths` are those of the output
/// and the working space.
pub fn agree_with_work<T: Filler, I>(
    lengths: [usize; 2],
    random: &mut Random,
    implementations: &[I],
    run: impl Fn(&I, &mut [T], &mut [u8]) -> Answer,
) -> (Answer, Lent<T>) {
    let (out, work) = (Lent::new(lengths[0], random), Lent::work(lengths[1], random));
    let (answer, out, work) = agree_on_two(out, work, implementations, run);
    assert!(answer.is_err() || work.is_cleared(), "the working space");
    (answer, out)
}

/// A code that owns its points.
#[derive(Clone, Debug)]
pub struct OwnCode {
    pub field: u8,
    pub curve: [u8; 5],
    pub xs: Vec<u8>,
    pub ys: Vec<u8>,
    pub k: usize,
}

/// Coefficients of any curve over the field.
pub fn any_curve(field: u8, random: &mut Random) -> [u8; 5] {
    // zeros are where the special cases are
    [(); 5].map(|_| if random.once_in(4) { 0 } else { random.below(size(field) as u64) as u8 })
}

pub fn curve_that(singular: bool, field: u8, random: &mut Random) -> [u8; 5] {
    loop {
        let curve = any_curve(field, random);
        if curve::is_singular(field, curve) == singular {
            return curve;
        }
    }
}

/// A curve over a field of 256 elements with 288 affine points, the most there can be. With g1 = 0 about one curve in 24 is such.
pub fn fullest_curve(field: u8, random: &mut Random) -> [u8; 5] {
    loop {
        let curve = [0, 0, random.between(1, 255) as u8, random.next() as u8, random.next() as u8];
        if curve::all_points(field, curve).len() == 288 {
            return curve;
        }
    }
}

impl OwnCode {
    /// All points of the curve as the places.
    pub fn whole(field: u8, curve: [u8; 5], k: usize) -> Self {
        let (xs, ys) = curve::all_points(field, curve).into_iter().unzip();
        OwnCode { field, curve, xs, ys, k }
    }

    /// All 288 points of a curve over a field of 256 elements.
    pub fn fullest(field: u8, k: usize, random: &mut Random) -> Self {
        OwnCode::whole(field, fullest_curve(field, random), k)
    }

    /// A valid code: some or all points of a curve, shuffled or not, and any dimension.
    pub fn random(field: u8, random: &mut Random) -> Self {
        loop {
            let curve = curve_that(false, field, random);
            let mut points = curve::all_points(field, curve);
            if points.len() < 2 {
                continue;
            }
            if !random.once_in(4) {
                random.shuffle(&mut points);
            }
            if !random.once_in(3) {
                points.truncate(random.between(2, points.len() as i64) as usize);
            }
            let n = points.len();
            let k = match random.below(6) {
                0 => 1,
                1 => n - 1,
                _ => random.between(1, n as i64 - 1) as usize,
            };
            let (xs, ys) = points.into_iter().unzip();
            return OwnCode { field, curve, xs, ys, k };
        }
    }

    pub fn code(&self) -> Code<'_> {
        Code { field: self.field, curve: self.curve, xs: &self.xs, ys: &self.ys, k: self.k }
    }

    pub fn n(&self) -> usize {
        self.xs.len()
    }

    pub fn size(&self) -> usize {
        size(self.field)
    }

    fn spoil_lists(&mut self, random: &mut Random) {
        match random.below(7) {
            0 => drop(self.xs.pop()),
            1 => drop(self.ys.pop()),
            2 => self.xs.push(self.xs[0]),
            3 => self.ys.clear(),
            4 => self.list(1),
            5 => self.list(0),
            _ => self.list(random.pick(&[289, 290, 320, 513])),
        }
    }

    /// Spoils the code so that its test finds this number, 1 to 7, if it finds none before. Answers whether that can be done.
    pub fn spoil(&mut self, number: u8, random: &mut Random) -> bool {
        let (q, n) = (self.size(), self.n());
        match number {
            1 => self.field = random.pick(&[0, 1, 10, 11, 16, 64, 255]),
            // every byte is below 256
            2 if q == 256 => return false,
            2 => self.curve[random.below(5) as usize] = above(q, random),
            3 => self.curve = curve_that(true, self.field, random),
            4 => self.spoil_lists(random),
            5 => {
                let i = random.below(n as u64) as usize;
                match random.below(3) {
                    0 if q < 256 => self.xs[i] = above(q, random),
                    1 if q < 256 => self.ys[i] = above(q, random),
                    _ => loop {
                        (self.xs[i], self.ys[i]) = (random.below(q as u64) as u8, random.below(q as u64) as u8);
                        if !curve::on_curve(self.field, self.curve, self.xs[i], self.ys[i]) {
                            break;
                        }
                    },
                }
            }
            6 => {
                let i = random.below(n as u64) as usize;
                let j = (i + 1 + random.below(n as u64 - 1) as usize) % n;
                (self.xs[i], self.ys[i]) = (self.xs[j], self.ys[j]);
            }
            // the larger ones look right when cut to 16 or 32 bits
            7 => self.k = random.pick(&[0, n, n + 1, 288, 289, self.k + (1 << 16), self.k + (1 << 32), usize::MAX]),
            _ => unreachable!(),
        }
        true
    }

    /// Lists this many places, the same ones again and again.
    fn list(&mut self, n: usize) {
        self.xs = self.xs.iter().copied().cycle().take(n).collect();
        self.ys = self.ys.iter().copied().cycle().take(n).collect();
    }
}

/// A byte that is not below q, which is less than 256.
pub fn above(q: usize, random: &mut Random) -> u8 {
    if random.once_in(2) {
        q as u8
    } else {
        random.between(q as i64, 255) as u8
    }
}

/// Another length than this one, shorter or longer.
pub fn other_length(length: usize, random: &mut Random) -> usize {
    loop {
        let other = match random.below(5) {
            0 => 0,
            1 => length + 1,
            2 => length.saturating_sub(1),
            3 => length + random.below(40) as usize,
            _ => random.below(length as u64 + 1) as usize,
        };
        if other != length {
            return other;
        }
    }
}

/// A call of one operation with its inputs.
pub trait Call: Clone + Debug {
    /// The refusals in the order in which they are sought.
    const ORDER: &'static [u8];

    /// Spoils the call so that this entry of the order applies, if none before it does. Answers whether that can be done.
    fn spoil(&mut self, entry: usize, random: &mut Random) -> bool;

    /// Makes the call by all implementations.
    fn run(&self, random: &mut Random) -> Answer;
}

/// Makes an acceptable call, then spoils it in every single way, and in every two ways, of which the first must be the answer.
pub fn spoil_all<C: Call>(call: &C, random: &mut Random) {
    assert!(call.run(random).is_ok(), "{call:?}");
    for first in 0..C::ORDER.len() {
        for second in first..C::ORDER.len() {
            let mut spoilt = call.clone();
            if (second == first || spoilt.spoil(second, random)) && spoilt.spoil(first, random) {
                assert_eq!(spoilt.run(random), Err(C::ORDER[first]), "spoilt at {first} and {second}: {spoilt:?}");
            }
        }
    }
}
