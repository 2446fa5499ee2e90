//! Pick against elimination, against the list of all codewords, and against all choices from its ranking.
mod common;
use common::each::{listed_places, tests_of_each, Listed};
use common::places::{adds_up_to_zero, curve_a, dependent_choice, some_places, symbols_at, Job, Pick};
use common::{OwnCode, FIELDS, FIELDS_OF_256};
use std::collections::HashSet;
use vakhudle::plain::Random;
use vakhudle::WORKING_SPACE;

tests_of_each! { Pick }

/// Rank by rank, a place is kept if the codewords take every combination of symbols at those kept so far and it.
#[test]
fn all_codewords_over_4_elements() {
    listed_places(&mut Random(62), |listed, ranked, random| {
        let k = listed.code.k;
        let mut kept = vec![];
        for &p in &ranked {
            kept.push(p);
            let combinations: HashSet<Vec<u8>> = listed.words.iter().map(|word| symbols_at(word, &kept)).collect();
            if kept.len() > k || combinations.len() != 1 << (2 * kept.len()) {
                kept.pop();
            }
        }
        let expected = if kept.len() == k { (Ok(0), kept) } else { (Err(12), vec![]) };
        assert_eq!(Job::<Pick>::new(&listed.code, &ranked, &[]).result(random), expected);
    });
}

/// All places are ranked, and the first k of them are dependent.
#[test]
fn all_288_places_ranked() {
    let random = &mut Random(68);
    for field in FIELDS_OF_256 {
        let code = OwnCode::fullest(field, 200, random);
        let mut ranked = dependent_choice(&code, 99, random).unwrap();
        let mut expected = ranked.clone();
        let rest: Vec<u16> = (1..=288).filter(|p| !ranked.contains(p)).collect();
        expected[199] = rest[0];
        ranked.extend(&rest);
        assert_eq!(Job::<Pick>::new(&code, &ranked, &[]).result(random), (Ok(0), expected));
    }
}

/// All usable choices of k places from a ranking, each by its ranks, counted from 0, in rank order.
fn usable_from(ranked: &[u16], k: usize, usable: impl Fn(&[u16]) -> bool) -> Vec<Vec<usize>> {
    let sets = (0..1u32 << ranked.len()).filter(|set| set.count_ones() as usize == k);
    let choices = sets.map(|set| (0..ranked.len()).filter(|r| set >> r & 1 == 1).collect::<Vec<_>>());
    choices.filter(|choice| usable(&places_of(choice, ranked))).collect()
}

fn places_of(choice: &[usize], ranked: &[u16]) -> Vec<u16> {
    choice.iter().map(|&r| ranked[r]).collect()
}

/// Numbers for the ranks that never rise. Any such numbers are sums of steps, which are 1 up to some rank and then 0: no choice can have a larger total
/// than another if it has none with a step. Some others are there too.
fn falling_numbers(count: usize, random: &mut Random) -> Vec<Vec<u32>> {
    let mut lists: Vec<Vec<u32>> = (0..=count).map(|step| (0..count).map(|r| (r < step) as u32).collect()).collect();
    for most in [255, 255, 3] {
        let mut numbers: Vec<u32> = (0..count).map(|_| random.between(0, most) as u32).collect();
        numbers.sort_by(|a, b| b.cmp(a));
        lists.push(numbers);
    }
    lists
}

/// Of all usable choices from the ranking Pick gives the one that comes first, by rank from the front, and none has a larger total. It refuses exactly if there is
/// none. Answers whether it passed a rank by.
fn best_of(code: &OwnCode, ranked: &[u16], usable: impl Fn(&[u16]) -> bool, random: &mut Random) -> bool {
    let mut picked = vec![0; code.k];
    let answer = vakhudle::pick(&code.code(), ranked, &mut picked, &mut [0; WORKING_SPACE]);
    let choices = usable_from(ranked, code.k, usable);
    // lists are compared from the front
    let Some(first) = choices.iter().min() else {
        assert_eq!(answer, Err(12));
        return false;
    };
    assert_eq!((answer, picked), (Ok(0), places_of(first, ranked)));
    for numbers in falling_numbers(ranked.len(), random) {
        let total = |choice: &Vec<usize>| choice.iter().map(|&r| numbers[r]).sum::<u32>();
        assert_eq!(choices.iter().map(total).max(), Some(total(first)), "{numbers:?}");
    }
    first[code.k - 1] == code.k
}

/// Every list of `least` different places or more.
fn every_ranking(n: usize, least: usize, ranked: &mut Vec<u16>, test: &mut impl FnMut(&[u16])) {
    if ranked.len() >= least {
        test(ranked);
    }
    for p in 1..=n as u16 {
        if !ranked.contains(&p) {
            ranked.push(p);
            every_ranking(n, least, ranked, test);
            ranked.pop();
        }
    }
}

/// Every ranking of the curves with eight and with seven points over 4 elements, every dimension; which choices are usable is searched among all codewords.
#[test]
fn best_of_every_ranking() {
    let random = &mut Random(80);
    for (curve, expected) in [([0, 0, 1, 0, 0], (726_888, 66_384)), ([1, 0, 0, 0, 1], (77_161, 6_966))] {
        let whole = OwnCode::whole(2, curve, 1);
        let (mut rankings, mut passed_by) = (0, 0);
        for k in 1..whole.n() {
            let listed = Listed::new(OwnCode { k, ..whole.clone() });
            // by the set of the places, one bit for each
            let places_in = |set: usize| (1..=whole.n() as u16).filter(|p| set >> (p - 1) & 1 == 1).collect::<Vec<_>>();
            let set_of = |places: &[u16]| places.iter().fold(0, |set, p| set | 1 << (p - 1));
            let usable: Vec<bool> = (0..1 << whole.n()).map(|set| listed.zero_at(&places_in(set)).is_empty()).collect();
            every_ranking(whole.n(), k, &mut vec![], &mut |ranked| {
                rankings += 1;
                passed_by += best_of(&listed.code, ranked, |places| usable[set_of(places)], random) as u32;
            });
        }
        assert_eq!((rankings, passed_by), expected);
    }
}

/// Some rankings of small codes over every field.
#[test]
fn best_in_every_field() {
    let random = &mut Random(81);
    for field in FIELDS {
        let mut passed_by = 0;
        for _ in 0..100 {
            let mut code = OwnCode::random(field, random);
            let n = code.n().min(12);
            code.xs.truncate(n);
            code.ys.truncate(n);
            code.k = random.between(1, n as i64 - 1) as usize;
            for _ in 0..10 {
                let ranked = some_places(n, random.between(code.k as i64, n as i64) as usize, random);
                passed_by += best_of(&code, &ranked, |places| !adds_up_to_zero(&code, places), random) as u32;
            }
        }
        assert!(passed_by > 0, "field {field}");
    }
}

#[test]
fn known_cases() {
    let random = &mut Random(74);
    assert_eq!(Job::<Pick>::new(&curve_a(3), &[3, 5, 7, 1], &[]).result(random), (Ok(0), vec![3, 5, 1]));
}
