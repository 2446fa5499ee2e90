//! Relation against elimination, and against the list of all codewords.
mod common;
use common::each::{listed_codes, tests_of_each};
use common::places::{curve_a, leading, some_places, Job, Relation};
use vakhudle::plain::Random;

tests_of_each! { Relation }

/// The functions that are zero at a choice: none but zero, or three more, of which one leads with 1.
#[test]
fn all_codewords_over_4_elements() {
    let random = &mut Random(62);
    for listed in listed_codes() {
        for _ in 0..8 {
            let choice = some_places(listed.code.n(), listed.code.k, random);
            let zero = listed.zero_at(&choice);
            let relation = Job::<Relation>::new(&listed.code, &choice, &[]).result(random);
            if zero.is_empty() {
                assert_eq!(relation.0, Err(15));
            } else {
                assert_eq!(zero.len(), 3);
                let one = zero.iter().find(|&&i| leading(&listed.functions[i]) == Some(1)).unwrap();
                assert_eq!(relation, (Ok(0), listed.functions[*one].clone()));
            }
        }
    }
}

#[test]
fn known_cases() {
    let random = &mut Random(74);
    assert_eq!(Job::<Relation>::new(&curve_a(3), &[3, 5, 7], &[]).result(random), (Ok(0), vec![2, 0, 1]));
    assert_eq!(Job::<Relation>::new(&curve_a(4), &[1, 2, 3, 4], &[]).result(random), (Ok(0), vec![0, 1, 0, 1]));
}
