//! Heard places against the rule for each bit.
mod common;
use common::{agree, Call, OwnCode, FIELDS};
use vakhudle::plain::{code, fast, Random};
use vakhudle::{heard, Answer, MASK_BYTES, MOST_POINTS};

#[derive(Clone, Debug)]
struct Heard {
    code: OwnCode,
    mask: Vec<u8>,
    room: usize,
}

impl Heard {
    /// A mask of these places.
    fn of(code: OwnCode, places: impl Iterator<Item = usize>) -> Self {
        let mut mask = vec![0; MASK_BYTES];
        for p in places {
            mask[(p - 1) / 8] |= 1 << ((p - 1) % 8);
        }
        Heard { code, mask, room: MOST_POINTS }
    }

    fn random(code: OwnCode, random: &mut Random) -> Self {
        let dense = random.below(5);
        let places: Vec<usize> = (1..=code.n()).filter(|_| random.below(4) < dense).collect();
        Heard::of(code, places.into_iter())
    }

    fn places(&self, random: &mut Random) -> (Answer, Vec<u16>) {
        let (code, mask) = (self.code.code(), &self.mask[..]);
        let (answer, lent) =
            agree(self.room, random, |out| heard(&code, mask, out), |out| code::heard(&code, mask, out), |out| fast::heard(&code, mask, out));
        (answer, lent.content()[..answer.unwrap_or(0) as usize].to_vec())
    }
}

impl Call for Heard {
    const ORDER: &'static [u8] = &[1, 2, 3, 4, 5, 6, 7, 8, 9];

    fn spoil(&mut self, entry: usize, random: &mut Random) -> bool {
        match Self::ORDER[entry] {
            8 if random.once_in(2) => self.room = random.pick(&[0, 1, 40, 287, 289, 576]),
            8 => self.mask.resize(random.pick(&[0, 1, 36, 39, 41, 80]), 0),
            9 => {
                let bit = random.between(self.code.n() as i64, 8 * MASK_BYTES as i64 - 1) as usize;
                self.mask[bit / 8] |= 1 << (bit % 8);
            }
            number => return self.code.spoil(number, random),
        }
        true
    }

    fn run(&self, random: &mut Random) -> Answer {
        self.places(random).0
    }
}

#[test]
fn random_masks() {
    let mut random = Random(31);
    for field in FIELDS {
        for _ in 0..300 {
            let call = Heard::random(OwnCode::random(field, &mut random), &mut random);
            assert!(call.run(&mut random).is_ok());
        }
    }
}

#[test]
fn spoilt_calls() {
    let mut random = Random(32);
    for field in FIELDS {
        for _ in 0..150 {
            let call = Heard::random(OwnCode::random(field, &mut random), &mut random);
            common::spoil_all(&call, &mut random);
        }
    }
}

/// Each bit of the mask alone, all of them, none, and exactly the code's places.
#[test]
fn bits_of_the_mask() {
    let mut random = Random(33);
    let mut codes: Vec<OwnCode> = FIELDS.map(|field| OwnCode::random(field, &mut random)).collect();
    codes.extend(common::FIELDS_OF_256.map(|field| OwnCode::fullest(field, 200, &mut random)));
    codes.push(OwnCode::whole(6, [0, 0, 1, 0, 0], 60));
    for code in codes {
        let n = code.n();
        for p in 1..=8 * MASK_BYTES {
            let one = Heard::of(code.clone(), [p].into_iter());
            assert_eq!(one.places(&mut random), if p <= n { (Ok(1), vec![p as u16]) } else { (Err(9), vec![]) });
            let but_one = Heard::of(code.clone(), (1..=n).filter(|&o| o != p));
            assert_eq!(but_one.run(&mut random), Ok(if p <= n { n - 1 } else { n } as u32));
        }
        assert_eq!(Heard::of(code.clone(), 1..=8 * MASK_BYTES).run(&mut random), Err(9));
        assert_eq!(Heard::of(code.clone(), std::iter::empty()).run(&mut random), Ok(0));
        assert_eq!(Heard::of(code, 1..=n).places(&mut random), (Ok(n as u32), (1..=n as u16).collect()));
    }
}

/// Codes whose n is at or beside the end of a 64-bit word: in each word no bit, its lowest or highest, every other one, all, or any.
#[test]
fn ends_of_words() {
    let mut random = Random(35);
    let whole = OwnCode::fullest(8, 1, &mut random);
    let (mut accepted, mut refused) = (0, 0);
    for n in [2, 63, 64, 65, 127, 128, 129, 191, 192, 193, 255, 256, 257, 287, 288] {
        let mut code = whole.clone();
        code.xs.truncate(n);
        code.ys.truncate(n);
        for _ in 0..400 {
            let any = random.next();
            let kinds = [0, 1, 1 << 63, 1 | 1 << 63, 0x5555_5555_5555_5555, u64::MAX, any];
            let words: Vec<u64> = (0..MASK_BYTES / 8).map(|_| random.pick(&kinds)).collect();
            let is_set = |p: usize| words[(p - 1) / 64] >> ((p - 1) % 64) & 1 == 1;
            let heard: Vec<usize> = (1..=n).filter(|&p| is_set(p)).collect();
            let within = Heard::of(code.clone(), heard.iter().copied());
            assert_eq!(within.run(&mut random), Ok(heard.len() as u32));
            let all = Heard { mask: words.iter().flat_map(|word| word.to_le_bytes()).collect(), ..within };
            let past = (n + 1..=8 * MASK_BYTES).any(is_set);
            assert_eq!(all.run(&mut random), if past { Err(9) } else { Ok(heard.len() as u32) });
            *(if past { &mut refused } else { &mut accepted }) += 1;
        }
    }
    assert!(accepted > 100 && refused > 1000);
}

#[test]
fn every_length() {
    let mut random = Random(34);
    let code = OwnCode::whole(2, [0, 0, 1, 0, 0], 5);
    for length in 0..=600 {
        let call = Heard { code: code.clone(), mask: vec![0; length % 50], room: if random.once_in(2) { MOST_POINTS } else { length } };
        assert_eq!(call.run(&mut random).is_ok(), call.mask.len() == MASK_BYTES && call.room == MOST_POINTS);
    }
}
