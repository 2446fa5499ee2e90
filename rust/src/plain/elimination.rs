//! The same for speed, over places: linear equations by elimination, with logarithms kept.
use super::fast::{check, value};
use super::field::{Field, LOG_OF_ZERO};
use crate::{Answer, Code, MOST_POINTS, WORKING_SPACE};

/// The values at (x, y) of as many monomials as the row is long.
pub(super) fn monomials(field: &Field, x: u8, y: u8, row: &mut [u8]) {
    for i in 0..row.len() {
        row[i] = match i {
            0 => 1,
            1 => x,
            2 => y,
            _ => field.product(x, row[i - 2]),
        };
    }
}

/// Equations in k unknowns in row echelon form. A row is k factors and the right side as logarithms, and begins with 1 at its pivot.
pub(super) struct Echelon<'a> {
    field: &'a Field,
    k: usize,
    rows: Vec<u16>,
    pivots: Vec<usize>,
}

impl<'a> Echelon<'a> {
    pub(super) fn new(field: &'a Field, k: usize) -> Self {
        Echelon { field, k, rows: Vec::with_capacity(k * (k + 1)), pivots: Vec::with_capacity(k) }
    }

    /// Takes the equation for a symbol at (x, y); answers whether the rank grows.
    fn add(&mut self, x: u8, y: u8, symbol: u8) -> bool {
        let (field, k) = (self.field, self.k);
        let mut row = [0u8; MOST_POINTS];
        let row = &mut row[..k + 1];
        monomials(field, x, y, &mut row[..k]);
        row[k] = symbol;
        for (other, &pivot) in self.rows.chunks_exact(k + 1).zip(&self.pivots) {
            field.add_multiple(row[pivot], &other[pivot..], &mut row[pivot..]);
        }
        let Some(pivot) = row[..k].iter().position(|&c| c != 0) else {
            return false;
        };
        let leading = row[pivot];
        self.rows.extend(row.iter().map(|&c| field.log(field.quotient(c, leading))));
        self.pivots.push(pivot);
        true
    }

    /// Takes places in turn until k equations are independent; answers the unknowns, or `None` if the places don't do.
    pub(super) fn solve(&mut self, code: &Code, places: &[u16], symbols: &[u8]) -> Option<[u8; MOST_POINTS]> {
        let (field, k) = (self.field, self.k);
        for (&p, &symbol) in places.iter().zip(symbols) {
            if self.pivots.len() < k {
                self.add(code.xs[p as usize - 1], code.ys[p as usize - 1], symbol);
            }
        }
        if self.pivots.len() < k {
            return None;
        }
        let mut unknowns = [0; MOST_POINTS];
        for (row, &pivot) in self.rows.chunks_exact(k + 1).zip(&self.pivots).rev() {
            let right_side = field.power(row[k], 0);
            let others = row[pivot + 1..k].iter().zip(&unknowns[pivot + 1..k]);
            unknowns[pivot] = others.fold(right_side, |sum, (&b, &unknown)| sum ^ field.power(b, field.log(unknown)));
        }
        Some(unknowns)
    }
}

/// The tests 9 and 10.
fn check_places(code: &Code, places: &[u16]) -> Result<(), u8> {
    if places.iter().any(|&p| p == 0 || p as usize > code.xs.len()) {
        return Err(9);
    }
    let mut seen = [false; MOST_POINTS];
    for &p in places {
        if std::mem::replace(&mut seen[p as usize - 1], true) {
            return Err(10);
        }
    }
    Ok(())
}

pub fn systematic_word(code: &Code, places: &[u16], message: &[u8], symbols_out: &mut [u8], work: &mut [u8]) -> Answer {
    let field = check(code)?;
    if places.len() != code.k || message.len() != code.k || symbols_out.len() != code.xs.len() || work.len() < WORKING_SPACE {
        return Err(8);
    }
    check_places(code, places)?;
    if message.iter().any(|&s| s as usize >= field.size()) {
        return Err(11);
    }
    let function = Echelon::new(field, code.k).solve(code, places, message).ok_or(12)?;
    for ((s, &x), &y) in symbols_out.iter_mut().zip(code.xs).zip(code.ys) {
        *s = value(field, &function[..code.k], x, y);
    }
    work[..WORKING_SPACE].fill(0);
    Ok(0)
}

/// The generator matrix: a row for each monomial, a column for each of these places.
pub(super) fn generator(field: &Field, code: &Code, places: &[u16]) -> Vec<u8> {
    let n = places.len();
    let mut rows = vec![1; code.k * n];
    for j in 1..code.k {
        let (before, row) = rows.split_at_mut(j * n);
        for (i, &p) in places.iter().enumerate() {
            row[i] = match j {
                1 => code.xs[p as usize - 1],
                2 => code.ys[p as usize - 1],
                _ => field.product(code.xs[p as usize - 1], before[(j - 2) * n + i]),
            };
        }
    }
    rows
}

/// Makes the first k columns of k rows of n those of the unit matrix; answers whether that can be done. What is past them is all that it leaves
/// right, so that the way back from the last row up is through fewer columns.
pub(super) fn eliminate(field: &Field, rows: &mut [u8], n: usize, k: usize) -> bool {
    let mut logs = [LOG_OF_ZERO; MOST_POINTS];
    for i in 0..k {
        let Some(found) = (i..k).find(|&j| rows[j * n + i] != 0) else {
            return false;
        };
        let (above, below) = rows.split_at_mut((i + 1) * n);
        let row = &mut above[i * n..];
        if found > i {
            row.swap_with_slice(&mut below[(found - i - 1) * n..(found - i) * n]);
        }
        let leading = row[i];
        for j in i..n {
            row[j] = field.quotient(row[j], leading);
            logs[j] = field.log(row[j]);
        }
        for other in below.chunks_exact_mut(n) {
            field.add_multiple(other[i], &logs[i..n], &mut other[i..]);
        }
    }
    for i in (1..k).rev() {
        let (above, row) = rows.split_at_mut(i * n);
        for j in k..n {
            logs[j] = field.log(row[j]);
        }
        for other in above.chunks_exact_mut(n) {
            field.add_multiple(other[i], &logs[k..n], &mut other[k..]);
        }
    }
    true
}

pub fn matrix(code: &Code, places: &[u16], symbols_out: &mut [u8], work: &mut [u8]) -> Answer {
    let field = check(code)?;
    let (n, k) = (code.xs.len(), code.k);
    if places.len() != k || symbols_out.len() != k * n || work.len() < WORKING_SPACE {
        return Err(8);
    }
    check_places(code, places)?;
    let mut chosen = [false; MOST_POINTS];
    places.iter().for_each(|&p| chosen[p as usize - 1] = true);
    let order: Vec<u16> = places.iter().copied().chain((1..=n as u16).filter(|&p| !chosen[p as usize - 1])).collect();
    let mut rows = generator(field, code, &order);
    if !eliminate(field, &mut rows, n, k) {
        return Err(12);
    }
    for (i, (row, out)) in rows.chunks_exact(n).zip(symbols_out.chunks_exact_mut(n)).enumerate() {
        out.fill(0);
        out[places[i] as usize - 1] = 1;
        for j in k..n {
            out[order[j] as usize - 1] = row[j];
        }
    }
    work[..WORKING_SPACE].fill(0);
    Ok(0)
}

pub fn pick(code: &Code, ranked: &[u16], places_out: &mut [u16], work: &mut [u8]) -> Answer {
    let field = check(code)?;
    if ranked.len() > code.xs.len() || places_out.len() != code.k || work.len() < WORKING_SPACE {
        return Err(8);
    }
    check_places(code, ranked)?;
    if ranked.len() < code.k {
        return Err(13);
    }
    let mut echelon = Echelon::new(field, code.k);
    let mut kept = [0; MOST_POINTS];
    for &p in ranked {
        let count = echelon.pivots.len();
        if count < code.k && echelon.add(code.xs[p as usize - 1], code.ys[p as usize - 1], 0) {
            kept[count] = p;
        }
    }
    if echelon.pivots.len() < code.k {
        return Err(12);
    }
    places_out.copy_from_slice(&kept[..code.k]);
    work[..WORKING_SPACE].fill(0);
    Ok(0)
}

pub fn rebuild(code: &Code, places: &[u16], symbols: &[u8], symbols_out: &mut [u8], work: &mut [u8]) -> Answer {
    let field = check(code)?;
    let n = code.xs.len();
    if places.len() > n || symbols.len() != places.len() || symbols_out.len() != n || work.len() < WORKING_SPACE {
        return Err(8);
    }
    check_places(code, places)?;
    if symbols.iter().any(|&s| s as usize >= field.size()) {
        return Err(11);
    }
    if places.len() < code.k {
        return Err(13);
    }
    let function = Echelon::new(field, code.k).solve(code, places, symbols).ok_or(12)?;
    let mut word = [0; MOST_POINTS];
    for ((s, &x), &y) in word.iter_mut().zip(code.xs).zip(code.ys) {
        *s = value(field, &function[..code.k], x, y);
    }
    // k symbols made the word; the others must be found in it
    if places.iter().zip(symbols).any(|(&p, &symbol)| word[p as usize - 1] != symbol) {
        return Err(14);
    }
    symbols_out.copy_from_slice(&word[..n]);
    work[..WORKING_SPACE].fill(0);
    Ok(0)
}
