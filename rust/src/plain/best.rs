//! Best in the request's words: the picked places, the changes of these in their order, the codeword of each, and the least that an untried change costs.
use super::code::check;
use super::field::{product, size};
use super::places::{accept, check_symbols, matrix, pick};
use crate::{Answer, Code, FIGURES, MOST_TRIES, WORKING_SPACE};
use std::cmp::Reverse;
use std::collections::HashSet;
use std::iter::once;

/// Picked places, each by its index among them, and what its symbol is changed by.
pub type Change = Vec<(usize, u8)>;

/// All places by trust, higher first, equal trust by lower place.
pub fn ranking(trusts: &[u8]) -> Vec<u16> {
    let mut places: Vec<u16> = (1..=trusts.len() as u16).collect();
    places.sort_by_key(|&p| (Reverse(trusts[p as usize - 1]), p));
    places
}

/// The places that Pick gives of all, ranked by trust.
pub fn picked(code: &Code, trusts: &[u8]) -> Vec<u16> {
    let mut places = vec![0; code.k];
    pick(code, &ranking(trusts), &mut places, &mut [0; WORKING_SPACE]).expect("k of all places are independent");
    places
}

/// The changes of k picked places that are tried, in their order: none, then one place, then two.
pub fn changes(k: usize, q: usize) -> impl Iterator<Item = Change> {
    let values = move || (1..q).map(|e| e as u8);
    let singles = (0..k).rev().flat_map(move |i| values().map(move |e| vec![(i, e)]));
    let pairs = (0..k).rev().flat_map(|later| (0..later).rev().map(move |earlier| (later, earlier)));
    let of_pair = move |(later, earlier)| values().flat_map(move |d| values().map(move |e| vec![(later, d), (earlier, e)]));
    once(vec![]).chain(singles).chain(pairs.flat_map(of_pair))
}

/// The number of all these tries.
pub fn all_tries(k: usize, q: usize) -> usize {
    1 + k * (q - 1) + k * (k - 1) / 2 * (q - 1) * (q - 1)
}

/// The total trust of the places where two words differ.
pub fn cost(word: &[u8], received: &[u8], trusts: &[u8]) -> u32 {
    (0..word.len()).filter(|&i| word[i] != received[i]).map(|i| trusts[i] as u32).sum()
}

/// The least total trust of a change that is not among the first `tries`, in closed form, from the trusts of the picked places. A place or a pair has an
/// untried change while one of its values is untried. All changes of three places or more are untried, and those of three are the least.
pub fn least_untried(trusts: &[u8], q: usize, tries: usize) -> Option<u32> {
    let k = trusts.len();
    let trust = |i: usize| trusts[i] as u32;
    let singles = (0..k).rev().map(|i| (q - 1, trust(i)));
    let pairs = (0..k).rev().flat_map(|later| (0..later).rev().map(move |earlier| ((q - 1) * (q - 1), trust(later) + trust(earlier))));
    let mut so_far = 1;
    let untried = singles.chain(pairs).filter(|&(values, _)| {
        so_far += values;
        so_far > tries
    });
    let mut ascending = trusts.to_vec();
    ascending.sort();
    let three = (k >= 3).then(|| ascending[..3].iter().map(|&t| t as u32).sum());
    untried.map(|(_, total)| total).chain(three).min()
}

/// The same by search of all changes, so for small codes only.
pub fn least_untried_of_all(trusts: &[u8], q: usize, tries: usize) -> Option<u32> {
    let k = trusts.len();
    let tried: HashSet<Vec<u8>> = changes(k, q).take(tries).map(|change| all_values(&change, k)).collect();
    let every = (0..q.pow(k as u32)).map(|number| (0..k as u32).map(|i| (number / q.pow(i) % q) as u8).collect::<Vec<u8>>());
    let total = |values: Vec<u8>| values.iter().zip(trusts).filter(|(&e, _)| e != 0).map(|(_, &t)| t as u32).sum();
    every.filter(|values| !tried.contains(values)).map(total).min()
}

/// What each picked place is changed by, 0 at most of them.
fn all_values(change: &Change, k: usize) -> Vec<u8> {
    let mut values = vec![0; k];
    change.iter().for_each(|&(i, e)| values[i] = e);
    values
}

/// The cost less the least total trust of an untried change.
pub fn gap(cost: u32, least: Option<u32>) -> u32 {
    least.map_or(0, |least| cost.saturating_sub(least))
}

pub fn best(code: &Code, received: &[u8], trusts: &[u8], budget: u32, symbols_out: &mut [u8], figures_out: &mut [u32], work: &mut [u8]) -> Answer {
    check(code)?;
    let (n, k, q) = (code.xs.len(), code.k, size(code.field));
    if [received.len(), trusts.len(), symbols_out.len()] != [n; 3] || figures_out.len() != FIGURES || work.len() < WORKING_SPACE {
        return Err(8);
    }
    check_symbols(code, received)?;
    if !(1..=MOST_TRIES).contains(&budget) {
        return Err(23);
    }
    let places = picked(code, trusts);
    let mut rows = vec![0; k * n];
    matrix(code, &places, &mut rows, &mut [0; WORKING_SPACE])?;
    let with_multiple = |mut word: Vec<u8>, (i, e): (usize, u8)| {
        word.iter_mut().zip(&rows[i * n..]).for_each(|(s, &r)| *s ^= product(code.field, e, r));
        word
    };
    let at_picked = places.iter().map(|&p| received[p as usize - 1]);
    let agreeing = at_picked.enumerate().fold(vec![0; n], with_multiple);
    let tried = changes(k, q).take(budget as usize).map(|change| change.into_iter().fold(agreeing.clone(), with_multiple));
    let mut tries = 0;
    let costs = tried.inspect(|_| tries += 1).map(|word| (cost(&word, received, trusts), word));
    // the first of equals
    let (cost, word) = costs.min_by_key(|&(cost, _)| cost).expect("the first try is always made");
    let of_picked: Vec<u8> = places.iter().map(|&p| trusts[p as usize - 1]).collect();
    figures_out.copy_from_slice(&[cost, tries, gap(cost, least_untried(&of_picked, q, tries as usize))]);
    accept(&word, symbols_out, work)
}

#[cfg(test)]
mod tests {
    use super::*;
    use crate::plain::Random;

    /// Ways to fill a list of trusts: all alike, few different ones, any.
    fn some_trusts(k: usize, random: &mut Random) -> Vec<u8> {
        let most = random.pick(&[0, 1, 3, 255]);
        let least = if random.once_in(4) { most } else { 0 };
        (0..k).map(|_| random.between(least, most) as u8).collect()
    }

    #[test]
    fn closed_form_beside_all_changes() {
        let random = &mut Random(90);
        for (q, most) in [(4, 6), (8, 4), (16, 3), (32, 2), (64, 2), (128, 2), (256, 2)] {
            for k in 1..=most {
                let all = all_tries(k, q);
                assert_eq!(changes(k, q).count(), all);
                let block = (q - 1) * (q - 1);
                let ends = [1, 1 + k * (q - 1), 1 + k * (q - 1) + block, all - 1, all];
                let near_ends = ends.iter().flat_map(|&end| end - 1..=end + 1).filter(|tries| (1..=all).contains(tries));
                let any: Vec<usize> = (0..10).map(|_| random.between(1, all as i64) as usize).collect();
                for tries in near_ends.chain(any) {
                    let mut trusts = some_trusts(k, random);
                    // the closed form needs no order
                    if !random.once_in(3) {
                        trusts.sort_by_key(|&t| Reverse(t));
                    }
                    assert_eq!(least_untried(&trusts, q, tries), least_untried_of_all(&trusts, q, tries), "{trusts:?}, {q}, {tries}");
                }
            }
        }
    }

    #[test]
    fn order_of_changes() {
        let listed: Vec<Change> = changes(3, 4).collect();
        assert_eq!(listed.len(), 37);
        assert_eq!(listed[..5], [vec![], vec![(2, 1)], vec![(2, 2)], vec![(2, 3)], vec![(1, 1)]]);
        assert_eq!(listed[9..12], [vec![(0, 3)], vec![(2, 1), (1, 1)], vec![(2, 1), (1, 2)]]);
        assert_eq!(listed[13..14], [vec![(2, 2), (1, 1)]]);
        assert_eq!(listed[19..20], [vec![(2, 1), (0, 1)]]);
        assert_eq!(listed[28..29], [vec![(1, 1), (0, 1)]]);
        assert_eq!(listed[36], vec![(1, 3), (0, 3)]);
        assert_eq!(listed.into_iter().collect::<HashSet<_>>().len(), 37);
    }

    #[test]
    fn rank_by_trust_then_place() {
        assert_eq!(ranking(&[5, 9, 5, 0, 255, 9]), [5, 2, 6, 1, 3, 4]);
        assert_eq!(ranking(&[7; 4]), [1, 2, 3, 4]);
    }
}
