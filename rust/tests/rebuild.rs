//! Rebuild against elimination, and against the list of all codewords.
mod common;
use common::each::{listed_places, tests_of_each};
use common::places::{curve_a, symbols_at, Job, Rebuild};
use common::Call;
use vakhudle::plain::Random;

tests_of_each! { Rebuild }

/// The symbols of a codeword at k places or more, one of them changed or not.
#[test]
fn all_codewords_over_4_elements() {
    listed_places(&mut Random(62), |listed, places, random| {
        let k = listed.code.k;
        let mut received = symbols_at(&listed.words[random.below(listed.words.len() as u64) as usize], &places);
        if random.once_in(2) {
            received[random.below(places.len() as u64) as usize] = random.below(4) as u8;
        }
        let expected = match listed.agreeing(&places, &received)[..] {
            _ if places.len() == k && !listed.zero_at(&places).is_empty() => (Err(12), vec![]),
            [] => (Err(14), vec![]),
            [i] => (Ok(0), listed.words[i].clone()),
            ref several => panic!("{several:?}"),
        };
        assert_eq!(Job::<Rebuild>::new(&listed.code, &places, &received).result(random), expected);
    });
}

#[test]
fn known_cases() {
    let random = &mut Random(74);
    let word = vec![1, 0, 0, 2, 0, 0, 3, 0];
    assert_eq!(Job::<Rebuild>::new(&curve_a(5), &[1, 2, 3, 5, 8], &[1, 0, 0, 0, 0]).result(random), (Ok(0), word));
    assert_eq!(Job::<Rebuild>::new(&curve_a(5), &[1, 2, 3, 5, 8, 4], &[1, 0, 0, 0, 0, 0]).run(random), Err(14));
}
