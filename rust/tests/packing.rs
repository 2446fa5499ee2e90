//! Packing means in symbols and back, against lists of bits.
mod common;
use common::{above, agree, other_length, Call, OwnCode, FIELDS};
use vakhudle::plain::field::{size, width};
use vakhudle::plain::{fast, hours, Random};
use vakhudle::{pack, unpack, Answer, ABSENT};

/// Means that a block may hold, the ends of the range among them.
fn any_means(count: usize, random: &mut Random) -> Vec<i16> {
    (0..count)
        .map(|_| match random.below(4) {
            0 => random.pick(&[-2_000, -1_999, -1, 0, 1, 19_999, 20_000]),
            1 => ABSENT,
            _ => random.between(-2_000, 20_000) as i16,
        })
        .collect()
}

#[derive(Clone, Debug)]
struct Pack {
    code: OwnCode,
    means: Vec<i16>,
    room: usize,
}

impl Pack {
    fn random(code: OwnCode, random: &mut Random) -> Self {
        let means = any_means(hours::hours(&code.code()), random);
        Pack { room: code.k, code, means }
    }

    fn symbols(&self, random: &mut Random) -> (Answer, Vec<u8>) {
        let (code, means) = (self.code.code(), &self.means[..]);
        let (answer, lent) =
            agree(self.room, random, |out| pack(&code, means, out), |out| hours::pack(&code, means, out), |out| fast::pack(&code, means, out));
        (answer, lent.content().to_vec())
    }
}

impl Call for Pack {
    const ORDER: &'static [u8] = &[1, 2, 3, 4, 5, 6, 7, 8, 16];

    fn spoil(&mut self, entry: usize, random: &mut Random) -> bool {
        match Self::ORDER[entry] {
            8 if random.once_in(2) => self.room = other_length(self.room, random),
            8 => self.means.resize(other_length(self.means.len(), random), 0),
            16 if self.means.is_empty() => return false,
            16 => {
                let i = random.below(self.means.len() as u64) as usize;
                self.means[i] = random.pick(&[-2_001, 20_001, 22_000, 32_766, i16::MIN]);
            }
            number => return self.code.spoil(number, random),
        }
        true
    }

    fn run(&self, random: &mut Random) -> Answer {
        self.symbols(random).0
    }
}

#[derive(Clone, Debug)]
struct Unpack {
    code: OwnCode,
    symbols: Vec<u8>,
    room: usize,
}

impl Unpack {
    fn new(code: OwnCode, symbols: Vec<u8>) -> Self {
        Unpack { room: hours::hours(&code.code()), code, symbols }
    }

    fn random(code: OwnCode, random: &mut Random) -> Self {
        let (answer, symbols) = Pack::random(code.clone(), random).symbols(random);
        assert_eq!(answer, Ok(0));
        Unpack::new(code, symbols)
    }

    fn means(&self, random: &mut Random) -> (Answer, Vec<i16>) {
        let (code, block) = (self.code.code(), &self.symbols[..]);
        let (answer, lent) =
            agree(self.room, random, |out| unpack(&code, block, out), |out| hours::unpack(&code, block, out), |out| fast::unpack(&code, block, out));
        (answer, lent.content().to_vec())
    }

    fn bits(&self) -> usize {
        self.code.k * width(self.code.field)
    }

    /// Sets the bits from `start` on, high bit first.
    fn set(&mut self, start: usize, count: usize, number: u16) {
        let m = width(self.code.field);
        for i in 0..count {
            let (symbol, mask) = (&mut self.symbols[(start + i) / m], 1 << (m - 1 - (start + i) % m));
            *symbol = *symbol & !mask | if number >> (count - 1 - i) & 1 == 1 { mask } else { 0 };
        }
    }
}

impl Call for Unpack {
    const ORDER: &'static [u8] = &[1, 2, 3, 4, 5, 6, 7, 8, 11, 17];

    fn spoil(&mut self, entry: usize, random: &mut Random) -> bool {
        match Self::ORDER[entry] {
            8 if random.once_in(2) => self.room = other_length(self.room, random),
            8 => self.symbols.resize(other_length(self.symbols.len(), random), 0),
            11 if self.code.size() == 256 => return false,
            11 => {
                let i = random.below(self.symbols.len() as u64) as usize;
                self.symbols[i] = above(self.code.size(), random);
            }
            17 => {
                let (held, rest) = (self.room, self.bits() - 15 * self.room);
                if held > 0 && (rest == 0 || random.once_in(2)) {
                    let any = random.between(22_001, 32_766) as u16;
                    let value = random.pick(&[22_001, 22_002, 32_766, any]);
                    self.set(15 * random.below(held as u64) as usize, 15, value);
                } else if rest > 0 {
                    self.set(15 * held + random.below(rest as u64) as usize, 1, 1);
                } else {
                    return false;
                }
            }
            number => return self.code.spoil(number, random),
        }
        true
    }

    fn run(&self, random: &mut Random) -> Answer {
        self.means(random).0
    }
}

fn round_trip(code: &OwnCode, random: &mut Random) {
    let call = Pack::random(code.clone(), random);
    let (answer, symbols) = call.symbols(random);
    assert_eq!(answer, Ok(0));
    assert_eq!(Unpack::new(code.clone(), symbols).means(random), (Ok(0), call.means));
}

#[test]
fn random_round_trips() {
    let mut random = Random(51);
    for field in FIELDS {
        for _ in 0..300 {
            round_trip(&OwnCode::random(field, &mut random), &mut random);
        }
    }
}

/// Every dimension in every field, up to the 153 hours of the longest block; H = 0 gives zeros.
#[test]
fn every_dimension() {
    let mut random = Random(52);
    for field in FIELDS {
        let curve = if size(field) == 256 { common::fullest_curve(field, &mut random) } else { [0, 0, 1, 0, 0] };
        let mut code = OwnCode::whole(field, curve, 1);
        for k in 1..code.n() {
            code.k = k;
            round_trip(&code, &mut random);
            if hours::hours(&code.code()) == 0 {
                let none = Pack { code: code.clone(), means: vec![], room: k };
                assert_eq!(none.symbols(&mut random), (Ok(0), vec![0; k]));
            }
        }
    }
}

#[test]
fn spoilt_packing() {
    let mut random = Random(53);
    for field in FIELDS {
        for _ in 0..150 {
            let call = Pack::random(OwnCode::random(field, &mut random), &mut random);
            common::spoil_all(&call, &mut random);
        }
    }
}

#[test]
fn spoilt_unpacking() {
    let mut random = Random(54);
    for field in FIELDS {
        for _ in 0..150 {
            let call = Unpack::random(OwnCode::random(field, &mut random), &mut random);
            common::spoil_all(&call, &mut random);
        }
    }
}

/// Every bit of a block flipped, those of each byte above the field's among them: no flip gives the same means.
#[test]
fn every_bit_flipped() {
    let mut random = Random(55);
    for field in FIELDS {
        for _ in 0..6 {
            let call = Unpack::random(OwnCode::random(field, &mut random), &mut random);
            let (_, means) = call.means(&mut random);
            for i in 0..8 * call.code.k {
                let mut flipped = call.clone();
                flipped.symbols[i / 8] ^= 1 << (i % 8);
                let (answer, other) = flipped.means(&mut random);
                if i % 8 >= width(field) {
                    assert_eq!(answer, Err(11));
                } else {
                    assert!(answer == Err(17) || answer == Ok(0) && means != other);
                }
            }
        }
    }
}

/// All 16-bit means and all 15-bit values in a block that holds one, with symbols whose width divides 15 and others.
#[test]
fn every_value() {
    let mut random = Random(56);
    for (field, k) in [(5, 3), (3, 5), (4, 4), (8, 2), (9, 2)] {
        let mut code = OwnCode::whole(field, [0, 0, 1, 0, 0], k);
        code.xs.truncate(k + 1);
        code.ys.truncate(k + 1);
        for mean in i16::MIN..=i16::MAX {
            let expected = if (-2_000..=20_000).contains(&mean) || mean == ABSENT { Ok(0) } else { Err(16) };
            assert_eq!(Pack { code: code.clone(), means: vec![mean], room: k }.run(&mut random), expected);
        }
        let mut call = Unpack::new(code, vec![0; k]);
        for value in 0..1 << 15 {
            call.set(0, 15, value);
            let expected = if value <= 22_000 || value == 32_767 { Ok(0) } else { Err(17) };
            assert_eq!(call.run(&mut random), expected);
        }
    }
}

/// Symbols at random are mostly what packing never writes.
#[test]
fn symbols_at_random() {
    let mut random = Random(57);
    for field in FIELDS {
        for _ in 0..300 {
            let code = OwnCode::random(field, &mut random);
            let symbols = random.symbols(field, code.k);
            let _ = Unpack::new(code, symbols).run(&mut random);
        }
    }
}

#[test]
fn known_cases() {
    let mut random = Random(58);
    let code = OwnCode::whole(6, [0, 0, 1, 0, 0], 5);
    assert_eq!(code.n(), 80);
    let call = Pack { code: code.clone(), means: vec![0, ABSENT], room: 5 };
    assert_eq!(call.symbols(&mut random), (Ok(0), vec![3, 58, 7, 63, 63]));
    assert_eq!(Unpack::new(code.clone(), vec![3, 58, 7, 63, 63]).means(&mut random), (Ok(0), vec![0, ABSENT]));
    // with k = 60 a block holds 24 hours
    let day = OwnCode { k: 60, ..code };
    assert_eq!(Pack { code: day.clone(), means: vec![0; 24], room: 60 }.run(&mut random), Ok(0));
    assert_eq!(Pack { code: day.clone(), means: vec![0; 23], room: 60 }.run(&mut random), Err(8));
    assert_eq!(Pack { code: day, means: vec![0; 25], room: 60 }.run(&mut random), Err(8));
}
