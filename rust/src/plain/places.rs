//! The operations on chosen places, by linear equations: a function's symbol at a place is the sum of its k coefficients, each times the value of
//! its monomial there.
use super::code::{check, monomial, value};
use super::curve::elements;
use super::field::{power, product, size};
use crate::{Answer, Code, WORKING_SPACE};

/// Equations in k unknowns, each solved for one of them, its pivot, which no other equation has. A row is k factors and the right side.
struct Equations {
    field: u8,
    k: usize,
    solved: Vec<(usize, Vec<u8>)>,
}

impl Equations {
    fn new(code: &Code) -> Self {
        Equations { field: code.field, k: code.k, solved: Vec::new() }
    }

    /// Takes one more equation. Answers whether the rank grows; if it doesn't, the left side follows from the others, and the second answer is
    /// whether the right side does.
    fn add(&mut self, mut row: Vec<u8>) -> (bool, bool) {
        for (pivot, other) in &self.solved {
            clear(self.field, &mut row, *pivot, other);
        }
        let Some(pivot) = row[..self.k].iter().position(|&c| c != 0) else {
            return (false, row[self.k] == 0);
        };
        let inverse = power(self.field, row[pivot], size(self.field) - 2);
        row.iter_mut().for_each(|c| *c = product(self.field, inverse, *c));
        for (_, other) in &mut self.solved {
            clear(self.field, other, pivot, &row);
        }
        self.solved.push((pivot, row));
        (true, true)
    }

    fn rank(&self) -> usize {
        self.solved.len()
    }
}

/// Makes a row zero at the pivot of another by adding a multiple of that.
fn clear(field: u8, row: &mut [u8], pivot: usize, other: &[u8]) {
    let factor = row[pivot];
    if factor != 0 {
        row.iter_mut().zip(other).for_each(|(a, &b)| *a ^= product(field, factor, b));
    }
}

/// The function has this symbol at this place.
fn equation(code: &Code, place: u16, symbol: u8) -> Vec<u8> {
    let i = place as usize - 1;
    (0..code.k).map(|j| monomial(code.field, j, code.xs[i], code.ys[i])).chain([symbol]).collect()
}

/// The functions that are zero at all these places.
fn zeros(code: &Code, places: &[u16]) -> Equations {
    let mut equations = Equations::new(code);
    for &p in places {
        equations.add(equation(code, p, 0));
    }
    equations
}

/// How many of the equations for these places are independent.
pub fn rank(code: &Code, places: &[u16]) -> usize {
    zeros(code, places).rank()
}

/// The function with leading coefficient 1 that is zero at all these places, if there is only one.
pub fn only_zero_function(code: &Code, places: &[u16]) -> Option<Vec<u8>> {
    let equations = zeros(code, places);
    if equations.rank() + 1 != code.k {
        return None;
    }
    // one unknown is free: it is 1, and the others are what their equations then say
    let mut function = vec![0; code.k];
    let free = (0..code.k).find(|j| equations.solved.iter().all(|(pivot, _)| pivot != j))?;
    function[free] = 1;
    for (pivot, row) in &equations.solved {
        function[*pivot] = row[free];
    }
    let leading = *function.iter().rfind(|&&c| c != 0)?;
    let inverse = power(code.field, leading, size(code.field) - 2);
    Some(function.iter().map(|&c| product(code.field, inverse, c)).collect())
}

/// The function with these symbols at these places, k or more: 12 if k places leave it open, 14 if there is none.
fn function(code: &Code, places: &[u16], symbols: &[u8]) -> Result<Vec<u8>, u8> {
    let mut equations = Equations::new(code);
    let mut agree = true;
    for (&p, &s) in places.iter().zip(symbols) {
        agree &= equations.add(equation(code, p, s)).1;
    }
    if equations.rank() < code.k {
        assert_eq!(places.len(), code.k, "more than k places leave no function open");
        return Err(12);
    }
    if !agree {
        return Err(14);
    }
    let mut function = vec![0; code.k];
    for (pivot, row) in &equations.solved {
        function[*pivot] = row[code.k];
    }
    Ok(function)
}

/// The tests 9 and 10.
fn check_places(code: &Code, places: &[u16]) -> Result<(), u8> {
    if places.iter().any(|&p| p == 0 || p as usize > code.xs.len()) {
        return Err(9);
    }
    if (0..places.len()).any(|i| places[..i].contains(&places[i])) {
        return Err(10);
    }
    Ok(())
}

/// The test 11.
pub(super) fn check_symbols(code: &Code, symbols: &[u8]) -> Result<(), u8> {
    if symbols.iter().any(|&s| s as usize >= size(code.field)) {
        return Err(11);
    }
    Ok(())
}

/// Writes what is accepted.
pub(super) fn accept<T: Copy>(result: &[T], out: &mut [T], work: &mut [u8]) -> Answer {
    out.copy_from_slice(result);
    work[..WORKING_SPACE].fill(0);
    Ok(0)
}

fn word(code: &Code, function: &[u8]) -> Vec<u8> {
    code.xs.iter().zip(code.ys).map(|(&x, &y)| value(code.field, function, x, y)).collect()
}

pub fn recover(code: &Code, symbols: &[u8], coefficients_out: &mut [u8], work: &mut [u8]) -> Answer {
    check(code)?;
    if symbols.len() != code.xs.len() || coefficients_out.len() != code.k || work.len() < WORKING_SPACE {
        return Err(8);
    }
    check_symbols(code, symbols)?;
    let all: Vec<u16> = (1..=symbols.len() as u16).collect();
    accept(&function(code, &all, symbols)?, coefficients_out, work)
}

pub fn systematic_function(code: &Code, places: &[u16], message: &[u8], coefficients_out: &mut [u8], work: &mut [u8]) -> Answer {
    check(code)?;
    if [places.len(), message.len(), coefficients_out.len()] != [code.k; 3] || work.len() < WORKING_SPACE {
        return Err(8);
    }
    check_places(code, places)?;
    check_symbols(code, message)?;
    accept(&function(code, places, message)?, coefficients_out, work)
}

pub fn systematic_word(code: &Code, places: &[u16], message: &[u8], symbols_out: &mut [u8], work: &mut [u8]) -> Answer {
    check(code)?;
    if [places.len(), message.len()] != [code.k; 2] || symbols_out.len() != code.xs.len() || work.len() < WORKING_SPACE {
        return Err(8);
    }
    check_places(code, places)?;
    check_symbols(code, message)?;
    accept(&word(code, &function(code, places, message)?), symbols_out, work)
}

/// The generator matrix, a row for each monomial and a column for each place, is eliminated until the chosen columns are those of the unit matrix.
pub fn matrix(code: &Code, places: &[u16], symbols_out: &mut [u8], work: &mut [u8]) -> Answer {
    check(code)?;
    let (field, n, k) = (code.field, code.xs.len(), code.k);
    if places.len() != k || symbols_out.len() != k * n || work.len() < WORKING_SPACE {
        return Err(8);
    }
    check_places(code, places)?;
    let mut rows: Vec<Vec<u8>> = (0..k).map(|j| (0..n).map(|i| monomial(field, j, code.xs[i], code.ys[i])).collect()).collect();
    for (i, &p) in places.iter().enumerate() {
        let column = p as usize - 1;
        let found = (i..k).find(|&j| rows[j][column] != 0).ok_or(12)?;
        rows.swap(i, found);
        let inverse = power(field, rows[i][column], size(field) - 2);
        rows[i].iter_mut().for_each(|c| *c = product(field, inverse, *c));
        let row = rows[i].clone();
        for j in (0..k).filter(|&j| j != i) {
            clear(field, &mut rows[j], column, &row);
        }
    }
    accept(&rows.concat(), symbols_out, work)
}

pub fn relation(code: &Code, places: &[u16], coefficients_out: &mut [u8], work: &mut [u8]) -> Answer {
    check(code)?;
    if [places.len(), coefficients_out.len()] != [code.k; 2] || work.len() < WORKING_SPACE {
        return Err(8);
    }
    check_places(code, places)?;
    if rank(code, places) == code.k {
        return Err(15);
    }
    let relation = only_zero_function(code, places).expect("dependent places have one relation");
    accept(&relation, coefficients_out, work)
}

/// In rank order a place is kept if the codewords take every combination of symbols at it and those kept so far: if the rank grows.
pub fn pick(code: &Code, ranked: &[u16], places_out: &mut [u16], work: &mut [u8]) -> Answer {
    check(code)?;
    if ranked.len() > code.xs.len() || places_out.len() != code.k || work.len() < WORKING_SPACE {
        return Err(8);
    }
    check_places(code, ranked)?;
    if ranked.len() < code.k {
        return Err(13);
    }
    let mut equations = Equations::new(code);
    let kept: Vec<u16> = ranked.iter().copied().filter(|&p| equations.rank() < code.k && equations.add(equation(code, p, 0)).0).collect();
    if kept.len() < code.k {
        assert_eq!(ranked.len(), code.k, "k can be picked from more than k places");
        return Err(12);
    }
    accept(&kept, places_out, work)
}

pub fn rebuild(code: &Code, places: &[u16], symbols: &[u8], symbols_out: &mut [u8], work: &mut [u8]) -> Answer {
    check(code)?;
    let n = code.xs.len();
    if places.len() > n || symbols.len() != places.len() || symbols_out.len() != n || work.len() < WORKING_SPACE {
        return Err(8);
    }
    check_places(code, places)?;
    check_symbols(code, symbols)?;
    if places.len() < code.k {
        return Err(13);
    }
    accept(&word(code, &function(code, places, symbols)?), symbols_out, work)
}

/// How many wrong symbols are put right.
pub fn radius(code: &Code) -> usize {
    (code.xs.len() - code.k).saturating_sub(2) / 2
}

/// At how many places two words differ.
pub fn distance(word: &[u8], other: &[u8]) -> usize {
    word.iter().zip(other).filter(|(a, b)| a != b).count()
}

/// All codewords: the multiples of one monomial after the other are added to those found so far.
fn codewords(code: &Code) -> Vec<Vec<u8>> {
    let (field, n) = (code.field, code.xs.len());
    (0..code.k).fold(vec![vec![0; n]], |words, j| {
        let row: Vec<u8> = (0..n).map(|i| monomial(field, j, code.xs[i], code.ys[i])).collect();
        let sum = |word: &[u8], c| word.iter().zip(&row).map(|(&s, &b)| s ^ product(field, c, b)).collect();
        words.iter().flat_map(|word| elements(field).map(move |c| sum(word, c))).collect()
    })
}

/// By search of all codewords, so for small codes only.
pub fn correct(code: &Code, received: &[u8], symbols_out: &mut [u8], work: &mut [u8]) -> Answer {
    check(code)?;
    if [received.len(), symbols_out.len()] != [code.xs.len(); 2] || work.len() < WORKING_SPACE {
        return Err(8);
    }
    check_symbols(code, received)?;
    let near: Vec<Vec<u8>> = codewords(code).into_iter().filter(|word| distance(word, received) <= radius(code)).collect();
    assert!(near.len() <= 1, "two codewords are near");
    let word = near.first().ok_or(21)?;
    accept(word, symbols_out, work)?;
    Ok(distance(word, received) as u32)
}
