//! Matrix against elimination of the generator matrix, against the words of the unit messages, and against listing all codewords.
mod common;
use common::each::{listed_codes, tests_of_each};
use common::places::{
    adds_up_to_zero, choices_of_random_codes, curve_a, daily, dependent_choice, some_places, symbols_at, usable_choice, word_of, Job, Matrix,
};
use common::{Call, OwnCode, FIELDS, FIELDS_OF_256};
use vakhudle::plain::field::product;
use vakhudle::plain::{code, Random};
use vakhudle::{Code, WORKING_SPACE};

tests_of_each! { Matrix }

fn job(code: &OwnCode, places: &[u16]) -> Job<Matrix> {
    Job::new(code, places, &[])
}

/// The message that is 1 at one index.
fn unit(k: usize, i: usize) -> Vec<u8> {
    (0..k).map(|j| (i == j) as u8).collect()
}

/// One choice, usable or not: each row agrees with its message, one of them is solved for by itself, and the rows make every word.
fn at(code: &OwnCode, places: &[u16], random: &mut Random) -> bool {
    let k = code.k;
    let (answer, out) = job(code, places).result(random);
    let dependent = adds_up_to_zero(code, places);
    if dependent {
        assert_eq!(answer, Err(12));
        return true;
    }
    assert_eq!(answer, Ok(0));
    let rows: Vec<&[u8]> = out.chunks(code.n()).collect();
    assert_eq!(rows.len(), k);
    for (i, row) in rows.iter().enumerate() {
        assert_eq!(symbols_at(row, places), unit(k, i));
    }
    let i = random.below(k as u64) as usize;
    assert_eq!(rows[i], word_of(code, places, &unit(k, i)));
    let message = random.symbols(code.field, k);
    let mut word = vec![0; code.n()];
    for (row, &symbol) in rows.iter().zip(&message) {
        word.iter_mut().zip(*row).for_each(|(w, &r)| *w ^= product(code.field, symbol, r));
    }
    assert_eq!(word, word_of(code, places, &message));
    false
}

#[test]
fn every_choice_over_4_elements() {
    common::places::every_choice_over_4_elements(&mut Random(81), at);
}

/// The definition itself: row i is the one codeword of all that agrees with its message.
#[test]
fn all_codewords_over_4_elements() {
    let random = &mut Random(82);
    for listed in listed_codes() {
        let (n, k) = (listed.code.n(), listed.code.k);
        for _ in 0..4 {
            let places = some_places(n, k, random);
            let (answer, out) = job(&listed.code, &places).result(random);
            for i in 0..k {
                match listed.agreeing(&places, &unit(k, i))[..] {
                    [word] => assert_eq!((answer, &out[i * n..(i + 1) * n]), (Ok(0), &listed.words[word][..])),
                    ref several => assert!(answer == Err(12) && [0, 4].contains(&several.len())),
                }
            }
        }
    }
}

#[test]
fn random_codes() {
    choices_of_random_codes(&mut Random(83), [200, 20], at);
}

/// The least and the largest dimension.
#[test]
fn extreme_dimensions() {
    let mut random = Random(84);
    for field in FIELDS {
        for _ in 0..if field < 7 { 20 } else { 3 } {
            let mut code = OwnCode::random(field, &mut random);
            for k in [1, 2, 3, code.n() - 2, code.n() - 1] {
                if (1..code.n()).contains(&k) {
                    code.k = k;
                    at(&code, &some_places(code.n(), k, &mut random), &mut random);
                }
            }
        }
    }
}

#[test]
fn the_largest_codes() {
    let mut random = Random(85);
    let mut code = daily();
    assert_eq!(code.n(), 80);
    for _ in 0..20 {
        at(&code, &some_places(80, 60, &mut random), &mut random);
        assert!(at(&code, &dependent_choice(&code, 99, &mut random).unwrap(), &mut random));
    }
    for field in FIELDS_OF_256 {
        code = OwnCode::fullest(field, 1, &mut random);
        for k in [1, 2, 144, 200, 287] {
            code.k = k;
            assert!(!at(&code, &usable_choice(&code, &mut random), &mut random));
        }
    }
}

/// Only k·n symbols are right: not n·n, not k·k, and not one more or less.
#[test]
fn lengths_of_the_buffer() {
    let mut random = Random(89);
    let code = daily();
    let places = usable_choice(&code, &mut random);
    for room in [0, 60, 80, 3_600, 4_799, 4_800, 4_801, 4_860, 4_880, 6_400] {
        let expected = if room == 4_800 { Ok(0) } else { Err(8) };
        assert_eq!(Job { room, ..job(&code, &places) }.run(&mut random), expected);
    }
}

#[test]
fn known_cases() {
    let random = &mut Random(91);
    let choice = [1, 2, 3, 5, 8];
    // the functions of the unit messages are known, and the first of their words
    let functions = [[1, 0, 1, 2, 3], [0, 1, 1, 1, 1], [0, 0, 0, 2, 2], [0, 2, 0, 1, 2], [0, 3, 0, 0, 2]];
    let code = curve_a(5);
    let words = functions.iter().flat_map(|f| (0..8).map(|i| code::value(2, f, code.xs[i], code.ys[i])).collect::<Vec<_>>());
    let (answer, out) = job(&code, &choice).result(random);
    assert_eq!((answer, &out), (Ok(0), &words.collect()));
    assert_eq!(out[..8], [1, 0, 0, 2, 0, 0, 3, 0]);
    assert_eq!(job(&curve_a(2), &[1, 2]).run(random), Err(12));
    assert_eq!(job(&curve_a(3), &[3, 5, 7]).run(random), Err(12));
    assert_eq!(job(&curve_a(4), &[1, 2, 3, 4]).run(random), Err(12));
    let b = OwnCode::whole(2, [1, 0, 0, 0, 1], 2);
    assert_eq!(job(&b, &[1, 2]).result(random).1[..7], [1, 0, 0, 3, 3, 2, 2]);
    for p in 1..=8 {
        assert_eq!(job(&curve_a(1), &[p]).result(random), (Ok(0), vec![1; 8]));
        let but_one: Vec<u16> = (1..=8).filter(|&o| o != p).collect();
        assert!(!at(&curve_a(7), &but_one, random));
    }
    for k in [0, 8] {
        assert_eq!(job(&curve_a(k), &(1..=k as u16).collect::<Vec<_>>()).run(random), Err(7));
    }
}

#[test]
fn a_code_by_hand() {
    let code = Code { field: 2, curve: [0, 0, 1, 0, 0], xs: &[0, 0, 1], ys: &[0, 1, 2], k: 2 };
    let (mut symbols, mut work) = ([9; 6], [7; WORKING_SPACE]);
    assert_eq!(vakhudle::matrix(&code, &[3, 1], &mut symbols, &mut work), Ok(0));
    // X is 0 at the first two and 1 at the third; X + 1 the other way round
    assert_eq!((symbols, work), ([0, 0, 1, 1, 1, 0], [0; WORKING_SPACE]));
}
