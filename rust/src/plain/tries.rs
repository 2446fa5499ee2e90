//! Best for speed: one elimination with the most trusted places first, and tries over the symbols at the other places alone.
use super::elimination::{eliminate, generator};
use super::fast::check;
use super::field::Field;
use crate::{Answer, Code, FIGURES, MOST_TRIES, WORKING_SPACE};

/// All places with the picked ones first, in their order, and the rows of the matrix in these columns, right past the first k.
fn picked_rows(field: &Field, code: &Code, trusts: &[u8]) -> (Vec<u16>, Vec<u8>) {
    let (n, k) = (code.xs.len(), code.k);
    let mut order: Vec<u16> = (1..=n as u16).collect();
    order.sort_by_key(|&p| 255 - trusts[p as usize - 1]);
    let mut rows = generator(field, code, &order);
    if !eliminate(field, &mut rows, n, k) {
        order.swap(k - 1, k);
        rows = generator(field, code, &order);
        assert!(eliminate(field, &mut rows, n, k), "ranks 1 to k − 1 and k + 1 do if ranks 1 to k don't");
    }
    (order, rows)
}

/// The cheapest try so far: its cost, and the changed places with their changes; a change of 0 is none.
#[derive(Clone, Copy)]
struct Found {
    cost: u32,
    later: (usize, u8),
    earlier: (usize, u8),
}

/// What is searched: a row for each picked place, k of them, with a symbol for each of the others.
struct Search<'a> {
    field: &'a Field,
    width: usize,
    /// By logarithms.
    rows: Vec<u16>,
    /// The trusts of the picked places, which never rise.
    picked: Vec<u32>,
    /// The trusts of the others.
    others: Vec<u32>,
}

impl Search<'_> {
    fn row(&self, i: usize) -> &[u16] {
        &self.rows[i * self.width..][..self.width]
    }

    /// The trust of the other places where a codeword differs from the received one.
    #[inline]
    fn weight(&self, difference: &[u8], multiple: &[u8]) -> u32 {
        let symbols = difference.iter().zip(multiple);
        symbols.zip(&self.others).map(|((a, b), &trust)| if a == b { 0 } else { trust }).sum()
    }

    /// The multiples of a row by 1, 2, up to the largest that is needed.
    fn fill_multiples(&self, i: usize, count: usize, multiples: &mut [u8]) {
        for (e, multiple) in multiples.chunks_exact_mut(self.width).take(count).enumerate() {
            let log = self.field.log(e as u8 + 1);
            multiple.iter_mut().zip(self.row(i)).for_each(|(m, &r)| *m = self.field.power(log, r));
        }
    }

    /// The cheapest of the first `budget` tries. A place or a pair whose trust alone is as much as the cheapest costs is passed by, and so are those in
    /// front of it, which are trusted no less.
    fn cheapest(&self, difference: &[u8], budget: usize) -> Found {
        let (k, values) = (self.picked.len(), self.field.size() - 1);
        let none = vec![0; self.width];
        let mut found = Found { cost: self.weight(difference, &none), later: (0, 0), earlier: (0, 0) };
        let mut multiples = vec![0; values * self.width];
        let mut left = budget - 1;
        for i in (0..k).rev() {
            if left == 0 || self.picked[i] >= found.cost {
                break;
            }
            let count = left.min(values);
            self.fill_multiples(i, count, &mut multiples);
            for (e, multiple) in (1..=count).zip(multiples.chunks_exact(self.width)) {
                let cost = self.picked[i] + self.weight(difference, multiple);
                if cost < found.cost {
                    found = Found { cost, later: (i, e as u8), earlier: (0, 0) };
                }
            }
            left -= count;
        }
        left = (budget - 1).saturating_sub(k * values);
        let mut moved = vec![0; self.width];
        for later in (1..k).rev() {
            // what is left where the pairs of the next one begin
            let after = left.saturating_sub(later * values * values);
            for earlier in (0..later).rev() {
                let trust = self.picked[later] + self.picked[earlier];
                if left == 0 || trust >= found.cost {
                    break;
                }
                self.fill_multiples(earlier, left.min(values), &mut multiples);
                for d in 1..=values as u8 {
                    let count = left.min(values);
                    moved.copy_from_slice(difference);
                    self.field.add_multiple(d, self.row(later), &mut moved);
                    for (e, multiple) in (1..=count).zip(multiples.chunks_exact(self.width)) {
                        let cost = trust + self.weight(&moved, multiple);
                        if cost < found.cost {
                            found = Found { cost, later: (later, d), earlier: (earlier, e as u8) };
                        }
                    }
                    left -= count;
                }
            }
            left = after;
        }
        found
    }

    /// The least trust of an untried change, or `None` if there is none. Of places or pairs in a row the last is trusted least.
    fn least_untried(&self, tries: usize) -> Option<u32> {
        let (k, values, t) = (self.picked.len(), self.field.size() - 1, &self.picked);
        let singles = (tries - 1) / values;
        let mut least = (singles < k).then(|| t[k - 1 - singles]);
        let mut take = |trust: u32| least = Some(least.map_or(trust, |least| least.min(trust)));
        // pairs by their later place, up to the first that has one untried, and the next
        let mut pairs = (tries - 1).saturating_sub(k * values) / (values * values);
        for later in (1..k).rev() {
            if pairs < later {
                take(t[later] + t[later - 1 - pairs]);
                if later > 1 {
                    take(t[later - 1] + t[later - 2]);
                }
                break;
            }
            pairs -= later;
        }
        if k >= 3 {
            take(t[k - 1] + t[k - 2] + t[k - 3]);
        }
        least
    }
}

pub fn best(code: &Code, received: &[u8], trusts: &[u8], budget: u32, symbols_out: &mut [u8], figures_out: &mut [u32], work: &mut [u8]) -> Answer {
    let field = check(code)?;
    let (n, k) = (code.xs.len(), code.k);
    if received.len() != n || trusts.len() != n || symbols_out.len() != n || figures_out.len() != FIGURES || work.len() < WORKING_SPACE {
        return Err(8);
    }
    if received.iter().any(|&s| s as usize >= field.size()) {
        return Err(11);
    }
    if !(1..=MOST_TRIES).contains(&budget) {
        return Err(23);
    }
    let (order, rows) = picked_rows(field, code, trusts);
    let trust = |&p: &u16| trusts[p as usize - 1] as u32;
    let search = Search {
        field,
        width: n - k,
        rows: rows.chunks_exact(n).flat_map(|row| &row[k..]).map(|&r| field.log(r)).collect(),
        picked: order[..k].iter().map(trust).collect(),
        others: order[k..].iter().map(trust).collect(),
    };
    // how the codeword that agrees at the picked places differs at the others
    let mut difference: Vec<u8> = order[k..].iter().map(|&p| received[p as usize - 1]).collect();
    for (i, &p) in order[..k].iter().enumerate() {
        field.add_multiple(received[p as usize - 1], search.row(i), &mut difference);
    }
    let found = search.cheapest(&difference, budget as usize);
    let values = field.size() as u64 - 1;
    let pairs = (k * (k - 1) / 2) as u64;
    let tries = (budget as u64).min(1 + k as u64 * values + pairs * values * values) as u32;
    let gap = search.least_untried(tries as usize).map_or(0, |least| found.cost.saturating_sub(least));
    symbols_out.copy_from_slice(received);
    for (i, e) in [found.later, found.earlier] {
        symbols_out[order[i] as usize - 1] ^= e;
        field.add_multiple(e, search.row(i), &mut difference);
    }
    order[k..].iter().zip(&difference).for_each(|(&p, d)| symbols_out[p as usize - 1] ^= d);
    figures_out.copy_from_slice(&[found.cost, tries, gap]);
    work[..WORKING_SPACE].fill(0);
    Ok(0)
}
