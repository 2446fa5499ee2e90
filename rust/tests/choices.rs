//! The operations on chosen places at the same choice, and what they must have to do with one another; dependence by the curve's group.
mod common;
use common::places::*;
use common::{Call, OwnCode, FIELDS, FIELDS_OF_256};
use vakhudle::plain::field::product;
use vakhudle::plain::{code, Random};

/// All six operations at one choice, usable or not, and what they must have to do with one another.
fn all_at(code: &OwnCode, places: &[u16], random: &mut Random) -> bool {
    let k = code.k;
    let n = code.n();
    let message = random.symbols(code.field, k);
    let function = Job::<Function>::new(code, places, &message).result(random);
    let word = Job::<Word>::new(code, places, &message).result(random);
    let relation = Job::<Relation>::new(code, places, &[]).result(random);
    let rebuilt = Job::<Rebuild>::new(code, places, &message).result(random);
    let picked = Job::<Pick>::new(code, places, &[]).result(random);
    let dependent = word.0 == Err(12);
    // with one more place there is always enough
    let mut more = places.to_vec();
    more.push(another(places, n, random));
    let picked_more = Job::<Pick>::new(code, &more, &[]).result(random);
    assert_eq!(picked_more.0, Ok(0));
    if dependent {
        assert_eq!([function.0, rebuilt.0, picked.0], [Err(12); 3]);
        assert_eq!(relation.0, Ok(0));
        assert_eq!(leading(&relation.1), Some(1));
        let zeros: Vec<bool> = (0..n).map(|i| code::value(code.field, &relation.1, code.xs[i], code.ys[i]) == 0).collect();
        assert!((1..=n as u16).all(|p| zeros[p as usize - 1] == places.contains(&p)));
        more.remove(k - 1);
        assert_eq!(picked_more.1, more);
        let word = word_of(code, &more, &message);
        let recovered = Job::<Recover>::new(code, &[], &word).result(random);
        assert_eq!(recovered.0, Ok(0));
    } else {
        assert_eq!([function.0, word.0, rebuilt.0, picked.0, relation.0], [Ok(0), Ok(0), Ok(0), Ok(0), Err(15)]);
        assert_eq!((rebuilt.1, picked.1, picked_more.1), (word.1.clone(), places.to_vec(), places.to_vec()));
        assert_eq!(symbols_at(&word.1, places), message);
        assert_eq!(Job::<Recover>::new(code, &[], &word.1).result(random), (Ok(0), function.1));
        assert_eq!(Job::<Rebuild>::new(code, &more, &symbols_at(&word.1, &more)).result(random), (Ok(0), word.1));
    }
    dependent
}

/// Rebuilding from any number of heard places, right and with wrong symbols; picking from them, also from too few.
fn heard_at(code: &OwnCode, random: &mut Random) {
    let (n, k) = (code.n(), code.k);
    let word = word_of(code, &usable_choice(code, random), &random.symbols(code.field, k));
    let count = random.between(k as i64 + 1, n as i64) as usize;
    let heard = some_places(n, count, random);
    let mut job = Job::<Rebuild>::new(code, &heard, &symbols_at(&word, &heard));
    assert_eq!(job.result(random), (Ok(0), word.clone()));
    let picked = Job::<Pick>::new(code, &heard, &[]).result(random);
    assert_eq!(picked.0, Ok(0));
    assert!(picked.1 == heard[..k] || picked.1[..k - 1] == heard[..k - 1] && picked.1[k - 1] == heard[k]);
    // one or more wrong symbols: whether another codeword agrees is for elimination to say
    for _ in 0..=random.below(3) {
        let i = random.below(count as u64) as usize;
        job.symbols[i] = random.below(code.size() as u64) as u8;
        assert!(matches!(job.run(random), Ok(0) | Err(14)));
    }
    let mut received = Job::<Recover>::new(code, &[], &word);
    let i = random.below(n as u64) as usize;
    received.symbols[i] ^= random.between(1, code.size() as i64 - 1) as u8;
    assert!(matches!(received.run(random), Ok(0) | Err(14)));
    let few = some_places(n, random.below(k as u64) as usize, random);
    assert_eq!(Job::<Rebuild>::new(code, &few, &symbols_at(&word, &few)).run(random), Err(13));
    assert_eq!(Job::<Pick>::new(code, &few, &[]).run(random), Err(13));
}

fn opposite(code: &OwnCode, i: usize) -> (u8, u8) {
    let [g1, _, g3, _, _] = code.curve;
    (code.xs[i], code.ys[i] ^ product(code.field, g1, code.xs[i]) ^ g3)
}

/// The places of each pair of opposite points, and of each point that is its own opposite.
fn opposites(code: &OwnCode) -> (Vec<[u16; 2]>, Vec<u16>) {
    let (mut pairs, mut own) = (vec![], vec![]);
    for i in 0..code.n() {
        let point = opposite(code, i);
        match (0..=i).find(|&j| (code.xs[j], code.ys[j]) == point) {
            Some(j) if j == i => own.push(i as u16 + 1),
            Some(j) => pairs.push([i as u16 + 1, j as u16 + 1]),
            None => {}
        }
    }
    (pairs, own)
}

/// The operations at a choice, and that it is dependent exactly if its points add up to zero.
fn dependent_at(code: &OwnCode, places: &[u16], random: &mut Random) -> bool {
    let dependent = all_at(code, places, random);
    assert_eq!(dependent, adds_up_to_zero(code, places));
    dependent
}

#[test]
fn every_choice_over_4_elements() {
    common::places::every_choice_over_4_elements(&mut Random(61), dependent_at);
}

/// Heard places of every accepted curve over 4 elements with all its points, for every dimension.
#[test]
fn heard_places_over_4_elements() {
    let mut random = Random(67);
    for mut code in whole_codes(2, |_| true) {
        for k in 1..code.n() {
            code.k = k;
            heard_at(&code, &mut random);
        }
    }
}

/// A sample of the curves over 8 elements, every dimension, and some choices of each.
#[test]
fn choices_over_8_elements() {
    let mut random = Random(63);
    let mut dependent = 0;
    for mut code in whole_codes(3, |i| i % 53 == 5) {
        for k in 1..code.n() {
            code.k = k;
            for _ in 0..4 {
                let places = some_places(code.n(), k, &mut random);
                dependent += dependent_at(&code, &places, &mut random) as u32;
            }
            if let Some(places) = dependent_choice(&code, 2, &mut random) {
                assert!(dependent_at(&code, &places, &mut random));
                dependent += 1;
            }
        }
    }
    assert!(dependent > 3_000, "{dependent}");
}

#[test]
fn random_codes() {
    choices_of_random_codes(&mut Random(64), [200, 50], |code, places, random| {
        heard_at(code, random);
        dependent_at(code, places, random)
    });
}

/// Choices made of opposite pairs are dependent; with a point that is its own opposite in place of the last, or of a pair, they aren't.
#[test]
fn opposite_points() {
    let mut random = Random(65);
    for field in FIELDS {
        let (mut some_own, mut some_without) = (0, 0);
        for _ in 0..if field < 7 { 60 } else { 12 } {
            let mut code = OwnCode::random(field, &mut random);
            let (mut pairs, own) = opposites(&code);
            if pairs.is_empty() {
                continue;
            }
            random.shuffle(&mut pairs);
            let count = random.between(1, pairs.len() as i64) as usize;
            let mut places: Vec<u16> = pairs[..count].concat();
            random.shuffle(&mut places);
            code.k = 2 * count;
            if code.k < code.n() {
                assert!(all_at(&code, &places, &mut random));
                some_without += 1;
            }
            let Some(&middle) = own.first() else {
                continue;
            };
            some_own += 1;
            places.push(middle);
            code.k += 1;
            if code.k < code.n() {
                random.shuffle(&mut places);
                assert!(!all_at(&code, &places, &mut random));
            }
            code.k = 1;
            assert!(!all_at(&code, &[middle], &mut random));
        }
        assert!(some_own > 0 && some_without > 0, "field {field}");
    }
}

/// The least and the largest dimension, with all points and with fewer, and a point that is its own opposite among them where there is one.
#[test]
fn extreme_dimensions() {
    let mut random = Random(66);
    for field in FIELDS {
        for _ in 0..if field < 7 { 20 } else { 4 } {
            let mut code = OwnCode::random(field, &mut random);
            for k in [1, 2, 3, code.n() - 2, code.n() - 1] {
                if (1..code.n()).contains(&k) {
                    code.k = k;
                    let places = some_places(code.n(), k, &mut random);
                    assert_eq!(all_at(&code, &places, &mut random), adds_up_to_zero(&code, &places));
                    heard_at(&code, &mut random);
                }
            }
        }
    }
}

/// The daily block: about one choice in 81 is dependent.
#[test]
fn daily_block() {
    let mut random = Random(67);
    let code = daily();
    assert_eq!(code.n(), 80);
    let mut dependent = 0;
    for _ in 0..600 {
        let places = some_places(80, 60, &mut random);
        assert_eq!(all_at(&code, &places, &mut random), adds_up_to_zero(&code, &places));
        dependent += adds_up_to_zero(&code, &places) as u32;
    }
    assert!((1..20).contains(&dependent), "{dependent}");
    for _ in 0..100 {
        heard_at(&code, &mut random);
        assert!(all_at(&code, &dependent_choice(&code, 99, &mut random).unwrap(), &mut random));
    }
}

#[test]
fn all_288_points() {
    let mut random = Random(68);
    for field in FIELDS_OF_256 {
        let mut code = OwnCode::fullest(field, 1, &mut random);
        for k in [1, 2, 3, 4, 5, 100, 143, 144, 200, 285, 286, 287] {
            code.k = k;
            let places = some_places(288, k, &mut random);
            assert_eq!(all_at(&code, &places, &mut random), adds_up_to_zero(&code, &places));
            heard_at(&code, &mut random);
            if let Some(places) = dependent_choice(&code, 4, &mut random) {
                assert!(all_at(&code, &places, &mut random));
            }
        }
    }
}

/// Of the curve's eight points any one is usable, and any seven are.
#[test]
fn one_place_and_all_but_one() {
    let random = &mut Random(74);
    for p in 1..=8 {
        assert!(!all_at(&curve_a(1), &[p], random));
        let but_one: Vec<u16> = (1..=8).filter(|&o| o != p).collect();
        assert!(!all_at(&curve_a(7), &but_one, random));
    }
}
