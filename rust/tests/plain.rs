//! The code test and plain coding against sums of monomials.
mod common;
use common::{above, agree, other_length, Call, OwnCode, FIELDS};
use vakhudle::plain::{code, curve, fast, Random};
use vakhudle::{plain, Answer};

#[derive(Clone, Debug)]
struct Plain {
    code: OwnCode,
    coefficients: Vec<u8>,
    room: usize,
}

impl Plain {
    fn new(code: OwnCode, coefficients: Vec<u8>) -> Self {
        Plain { room: code.n(), code, coefficients }
    }

    fn random(code: OwnCode, random: &mut Random) -> Self {
        let coefficients = random.symbols(code.field, code.k);
        Plain::new(code, coefficients)
    }

    fn symbols(&self, random: &mut Random) -> (Answer, Vec<u8>) {
        let (code, f) = (self.code.code(), &self.coefficients[..]);
        let (answer, lent) = agree(self.room, random, |out| plain(&code, f, out), |out| code::plain(&code, f, out), |out| fast::plain(&code, f, out));
        (answer, lent.content().to_vec())
    }
}

impl Call for Plain {
    const ORDER: &'static [u8] = &[1, 2, 3, 4, 5, 6, 7, 8, 11];

    fn spoil(&mut self, entry: usize, random: &mut Random) -> bool {
        match Self::ORDER[entry] {
            8 if random.once_in(2) => self.room = other_length(self.room, random),
            8 => self.coefficients.resize(other_length(self.coefficients.len(), random), 0),
            11 if self.code.size() == 256 => return false,
            11 => {
                let i = random.below(self.coefficients.len() as u64) as usize;
                self.coefficients[i] = above(self.code.size(), random);
            }
            number => return self.code.spoil(number, random),
        }
        true
    }

    fn run(&self, random: &mut Random) -> Answer {
        self.symbols(random).0
    }
}

#[test]
fn random_codes() {
    let mut random = Random(21);
    for field in FIELDS {
        for _ in 0..300 {
            let call = Plain::random(OwnCode::random(field, &mut random), &mut random);
            assert_eq!(call.run(&mut random), Ok(0), "{call:?}");
        }
    }
}

#[test]
fn spoilt_calls() {
    let mut random = Random(22);
    for field in FIELDS {
        for _ in 0..150 {
            let call = Plain::random(OwnCode::random(field, &mut random), &mut random);
            common::spoil_all(&call, &mut random);
        }
    }
}

/// Whatever the bytes are, the answer is the definition's. Most of these are refused, each number by many.
#[test]
fn bytes_at_random() {
    let mut random = Random(23);
    for _ in 0..20_000 {
        let field = random.between(1, 4) as u8;
        let mut bytes = |most| (0..random.below(most)).map(|_| random.below(9) as u8).collect::<Vec<u8>>();
        let (xs, ys, coefficients) = (bytes(6), bytes(6), bytes(5));
        let curve = [(); 5].map(|_| random.below(5) as u8);
        let room = if random.once_in(4) { random.below(6) as usize } else { xs.len() };
        let code = OwnCode { field, curve, xs, ys, k: random.below(5) as usize };
        let _ = Plain { code, coefficients, room }.run(&mut random);
    }
}

#[test]
fn empty_slices() {
    let mut random = Random(24);
    for field in FIELDS {
        let whole = OwnCode::whole(field, [0, 0, 1, 0, 0], 1);
        let none = OwnCode { xs: vec![], ys: vec![], ..whole.clone() };
        assert_eq!(Plain { code: none, coefficients: vec![], room: 0 }.run(&mut random), Err(4));
        let room = whole.n();
        assert_eq!(Plain { code: whole.clone(), coefficients: vec![], room }.run(&mut random), Err(8));
        assert_eq!(Plain { code: whole, coefficients: vec![1], room: 0 }.run(&mut random), Err(8));
    }
}

/// Every accepted curve over 4 elements, with every dimension, and every function of a few coefficients.
#[test]
fn every_curve_over_4_elements() {
    let mut random = Random(25);
    let mut curves = 0;
    for i in 0..1024u32 {
        let curve = [0, 2, 4, 6, 8].map(|shift| (i >> shift & 3) as u8);
        let n = curve::all_points(2, curve).len();
        if curve::is_singular(2, curve) || n < 2 {
            let call = Plain { code: OwnCode::whole(2, curve, 1), coefficients: vec![1], room: n };
            assert_eq!(call.run(&mut random), Err(if curve::is_singular(2, curve) { 3 } else { 4 }));
            continue;
        }
        curves += 1;
        for k in 1..n {
            let code = OwnCode::whole(2, curve, k);
            for j in 0..64u32 {
                let coefficients = match k {
                    1..=3 if j >> (2 * k) == 0 => (0..k).map(|c| (j >> (2 * c) & 3) as u8).collect(),
                    4.. if j < 8 => random.symbols(2, k),
                    _ => break,
                };
                assert_eq!(Plain::new(code.clone(), coefficients).run(&mut random), Ok(0));
            }
        }
    }
    assert!(curves > 600, "{curves}");
}

/// Each monomial by itself, the zero function, and the largest coefficients, at every dimension of a full code in each field.
#[test]
fn single_monomials() {
    let mut random = Random(26);
    for field in FIELDS {
        let mut code = OwnCode::whole(field, common::curve_that(false, field, &mut random), 1);
        while code.n() < 3 {
            code = OwnCode::whole(field, common::curve_that(false, field, &mut random), 1);
        }
        for k in 1..code.n() {
            code.k = k;
            let mut unit = vec![0; k];
            unit[k - 1] = random.between(1, code.size() as i64 - 1) as u8;
            Plain::new(code.clone(), unit).run(&mut random).unwrap();
        }
        let k = code.k;
        assert_eq!(Plain::new(code.clone(), vec![0; k]).symbols(&mut random), (Ok(0), vec![0; code.n()]));
        let largest = code.size() as u8;
        Plain::new(code, vec![largest.wrapping_sub(1); k]).run(&mut random).unwrap();
    }
}

#[test]
fn all_288_points() {
    let mut random = Random(27);
    for field in common::FIELDS_OF_256 {
        let mut code = OwnCode::fullest(field, 1, &mut random);
        for k in [1, 2, 3, 4, 5, 143, 144, 200, 286, 287] {
            code.k = k;
            Plain::random(code.clone(), &mut random).run(&mut random).unwrap();
            common::spoil_all(&Plain::random(code.clone(), &mut random), &mut random);
        }
    }
}

/// A repeated point is found wherever the two stand; a point off the curve, too.
#[test]
fn every_pair_of_places() {
    let mut random = Random(28);
    for field in FIELDS {
        let code = OwnCode::random(field, &mut random);
        let n = code.n();
        for i in 0..n {
            for j in (0..n).filter(|&j| j != i && (n < 20 || random.once_in(40))).collect::<Vec<_>>() {
                let mut call = Plain::new(code.clone(), vec![0; code.k]);
                (call.code.xs[i], call.code.ys[i]) = (code.xs[j], code.ys[j]);
                assert_eq!(call.run(&mut random), Err(6));
            }
            let mut call = Plain::new(code.clone(), vec![0; code.k]);
            call.code.ys[i] = (0..code.size()).map(|y| y as u8).find(|&y| !curve::on_curve(field, code.curve, code.xs[i], y)).unwrap();
            assert_eq!(call.run(&mut random), Err(5));
        }
    }
}

#[test]
fn known_cases() {
    let mut random = Random(29);
    let a = |k| OwnCode::whole(2, [0, 0, 1, 0, 0], k);
    let b = OwnCode::whole(2, [1, 0, 0, 0, 1], 2);
    let mut word = |code: OwnCode, f: &[u8]| Plain::new(code, f.to_vec()).symbols(&mut random);
    assert_eq!(word(a(5), &[1, 0, 1, 2, 3]), (Ok(0), vec![1, 0, 0, 2, 0, 0, 3, 0]));
    assert_eq!(word(b, &[1, 1]), (Ok(0), vec![1, 0, 0, 3, 3, 2, 2]));
    // the functions of the unit messages at places 1, 2, 3, 5, 8
    let functions = [[1, 0, 1, 2, 3], [0, 1, 1, 1, 1], [0, 0, 0, 2, 2], [0, 2, 0, 1, 2], [0, 3, 0, 0, 2]];
    for (i, f) in functions.iter().enumerate() {
        let (_, word) = word(a(5), f);
        let chosen: Vec<u8> = [1, 2, 3, 5, 8].iter().map(|p| word[p - 1]).collect();
        assert_eq!(chosen, (0..5).map(|j| (i == j) as u8).collect::<Vec<u8>>());
    }
    // the relations are zero at their places
    let (_, relation) = word(a(3), &[2, 0, 1]);
    assert!([3, 5, 7].iter().all(|p| relation[p - 1] == 0));
    let (_, relation) = word(a(4), &[0, 1, 0, 1]);
    assert!(relation[..4].iter().all(|&s| s == 0));
    assert_eq!(word(a(0), &[]).0, Err(7));
    assert_eq!(word(a(8), &[0; 8]).0, Err(7));
    assert_eq!(word(a(1), &[3]), (Ok(0), vec![3; 8]));
    assert_eq!(word(a(7), &[0; 7]), (Ok(0), vec![0; 8]));
}
