//! Recover against elimination, and against the list of all codewords.
mod common;
use common::each::{listed_codes, tests_of_each};
use common::places::{curve_a, Job, Recover};
use vakhudle::plain::Random;

tests_of_each! { Recover }

/// A codeword with one symbol changed or not.
#[test]
fn all_codewords_over_4_elements() {
    let random = &mut Random(62);
    for listed in listed_codes() {
        for _ in 0..8 {
            let mut word = listed.words[random.below(listed.words.len() as u64) as usize].clone();
            let i = random.below(listed.code.n() as u64) as usize;
            word[i] = random.below(4) as u8;
            let expected = match listed.words.iter().position(|w| *w == word) {
                Some(i) => (Ok(0), listed.functions[i].clone()),
                None => (Err(14), vec![]),
            };
            assert_eq!(Job::<Recover>::new(&listed.code, &[], &word).result(random), expected);
        }
    }
}

#[test]
fn known_cases() {
    let random = &mut Random(74);
    let word = [1, 0, 0, 2, 0, 0, 3, 0];
    assert_eq!(Job::<Recover>::new(&curve_a(5), &[], &word).result(random), (Ok(0), vec![1, 0, 1, 2, 3]));
}
