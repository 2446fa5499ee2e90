//! Systematic function and Systematic word against elimination, and against the list of all codewords.
mod common;
use common::each::{listed_codes, tests_of_each};
use common::places::{curve_a, some_places, Function, Job, Word};
use common::{Call, OwnCode};
use vakhudle::plain::Random;
use vakhudle::{Code, WORKING_SPACE};

tests_of_each! { Function, Word }

/// How many codewords agree with the message, and which.
#[test]
fn all_codewords_over_4_elements() {
    let random = &mut Random(62);
    for listed in listed_codes() {
        let (code, k) = (&listed.code, listed.code.k);
        for _ in 0..8 {
            let choice = some_places(code.n(), k, random);
            let message = random.symbols(2, k);
            let agreeing = listed.agreeing(&choice, &message);
            let function = Job::<Function>::new(code, &choice, &message).result(random);
            let word = Job::<Word>::new(code, &choice, &message).result(random);
            if listed.zero_at(&choice).is_empty() {
                assert_eq!(agreeing.len(), 1);
                assert_eq!(function, (Ok(0), listed.functions[agreeing[0]].clone()));
                assert_eq!(word, (Ok(0), listed.words[agreeing[0]].clone()));
            } else {
                assert!([0, 4].contains(&agreeing.len()));
                assert_eq!([function.0, word.0], [Err(12); 2]);
            }
        }
    }
}

#[test]
fn known_cases() {
    let random = &mut Random(74);
    let b = OwnCode::whole(2, [1, 0, 0, 0, 1], 2);
    let choice = [1, 2, 3, 5, 8];
    let functions = [[1, 0, 1, 2, 3], [0, 1, 1, 1, 1], [0, 0, 0, 2, 2], [0, 2, 0, 1, 2], [0, 3, 0, 0, 2]];
    for (i, function) in functions.iter().enumerate() {
        let message: Vec<u8> = (0..5).map(|j| (i == j) as u8).collect();
        assert_eq!(Job::<Function>::new(&curve_a(5), &choice, &message).result(random), (Ok(0), function.to_vec()));
    }
    assert_eq!(Job::<Word>::new(&curve_a(5), &choice, &[1, 0, 0, 0, 0]).result(random), (Ok(0), vec![1, 0, 0, 2, 0, 0, 3, 0]));
    assert_eq!(Job::<Function>::new(&curve_a(2), &[1, 2], &[1, 0]).run(random), Err(12));
    assert_eq!(Job::<Function>::new(&b, &[1, 2], &[1, 0]).result(random), (Ok(0), vec![1, 1]));
    assert_eq!(Job::<Word>::new(&b, &[1, 2], &[1, 0]).result(random), (Ok(0), vec![1, 0, 0, 3, 3, 2, 2]));
    assert_eq!(Job::<Word>::new(&curve_a(3), &[3, 5, 7], &[0, 0, 0]).run(random), Err(12));
    for p in 1..=8 {
        assert_eq!(Job::<Word>::new(&curve_a(1), &[p], &[3]).result(random), (Ok(0), vec![3; 8]));
    }
    for k in [0, 8] {
        let places: Vec<u16> = (1..=k as u16).collect();
        assert_eq!(Job::<Word>::new(&curve_a(k), &places, &vec![0; k]).run(random), Err(7));
    }
}

/// The code type is shared with the other operations.
#[test]
fn a_code_by_hand() {
    let code = Code { field: 2, curve: [0, 0, 1, 0, 0], xs: &[0, 0, 1], ys: &[0, 1, 2], k: 2 };
    let (mut symbols, mut work) = ([9; 3], [7; WORKING_SPACE]);
    assert_eq!(vakhudle::systematic_word(&code, &[3, 1], &[1, 0], &mut symbols, &mut work), Ok(0));
    // X is 0 at the first two and 1 at the third
    assert_eq!((symbols, work), ([0, 0, 1], [0; WORKING_SPACE]));
}
