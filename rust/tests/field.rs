//! The field's products against polynomial arithmetic: every pair of bytes in every field, and every refusal.
use std::collections::BTreeSet;
use vakhudle::plain::{self, Random};
use vakhudle::products;

#[test]
fn every_pair_of_bytes() {
    for field in 2..=9 {
        for a in 0..=255u8 {
            let left = [a; 256];
            let right: Vec<u8> = (0..=255).collect();
            let (mut ours, mut theirs) = ([1u8; 256], [2u8; 256]);
            assert_eq!(products(field, &left, &right, &mut ours), Ok(0));
            assert_eq!(plain::products(field, &left, &right, &mut theirs), Ok(0));
            assert_eq!(ours, theirs, "field {field}, factor {a}");
        }
    }
}

/// The product of two symbols of field 9.
fn product_9(a: u8, b: u8) -> u8 {
    let mut out = [0];
    assert_eq!(products(9, &[a], &[b], &mut out), Ok(0));
    out[0]
}

/// The products that the standard (FIPS 197) gives for the modulus 11B, and its best known pair of inverses.
#[test]
fn products_of_the_standard() {
    assert_eq!([product_9(0x57, 0x83), product_9(0x57, 0x13), product_9(0x53, 0xCA)], [0xC1, 0xFE, 0x01]);
    assert_eq!([0x02, 0x04, 0x08, 0x10].map(|b| product_9(0x57, b)), [0xAE, 0x47, 0x8E, 0x07]);
}

/// The powers of 2 in field 9 are 51 elements, so that tables of them would lack the others; those of 3 are all but 0.
#[test]
fn generators_of_field_9() {
    let powers = |g: u8| std::iter::successors(Some(1), move |&a| Some(product_9(a, g))).skip(1);
    let order = |g: u8| powers(g).position(|a| a == 1).unwrap() + 1;
    assert_eq!((order(2), order(3)), (51, 255));
    let of = |g: u8| powers(g).take(255).collect::<BTreeSet<u8>>();
    assert_eq!((of(2).len(), of(3).len()), (51, 255));
    assert!(!of(2).contains(&3) && !of(3).contains(&0));
}

/// Fields 8 and 9 have the same bytes, the same sum and the same width; their products differ as soon as there is something to reduce.
#[test]
fn the_two_fields_of_256_differ() {
    let all: Vec<u8> = (0..=255).collect();
    let mut differ = 0;
    for a in 0..=255u8 {
        let [mut eight, mut nine] = [[0; 256]; 2];
        assert_eq!(products(8, &[a; 256], &all, &mut eight), Ok(0));
        assert_eq!(products(9, &[a; 256], &all, &mut nine), Ok(0));
        for b in 0..256 {
            let fits = (a as u32).checked_ilog2().unwrap_or(0) + (b as u32).checked_ilog2().unwrap_or(0) < 8;
            assert!(!fits || eight[b] == nine[b], "{a} by {b}");
            differ += (eight[b] != nine[b]) as u32;
        }
    }
    assert!(differ > 40_000, "{differ}");
}

#[test]
fn refusals_change_nothing() {
    let mut random = Random(1);
    for _ in 0..5000 {
        let field = random.below(256) as u8 % if random.below(2) == 0 { 12 } else { 255 };
        let lengths: Vec<usize> = (0..3).map(|_| random.below(3) as usize + 7).collect();
        let bytes = |n: usize, random: &mut Random| (0..n).map(|_| random.next() as u8).collect::<Vec<u8>>();
        let (a, b) = (bytes(lengths[0], &mut random), bytes(lengths[1], &mut random));
        let before = bytes(lengths[2], &mut random);
        let (mut ours, mut theirs) = (before.clone(), before.clone());
        let answer = products(field, &a, &b, &mut ours);
        assert_eq!(answer, plain::products(field, &a, &b, &mut theirs));
        assert_eq!(ours, theirs);
        assert!(answer.is_ok() || ours == before);
    }
}

#[test]
fn empty_lists() {
    assert_eq!(products(8, &[], &[], &mut []), Ok(0));
    assert_eq!(products(1, &[], &[], &mut []), Err(1));
    assert_eq!(products(8, &[1], &[], &mut []), Err(8));
}
