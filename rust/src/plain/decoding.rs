//! Correct for speed: which places can be trusted, by elimination, and the word from these, by elimination.
use super::elimination::{monomials, Echelon};
use super::fast::{check, value};
use super::field::{Field, LOG_OF_ZERO};
use super::places::{distance, radius};
use crate::{Answer, Code, WORKING_SPACE};

/// The coefficients of a function E, t + 1 of them, for which some N has the value received·E at every place; they are not both zero. If t symbols
/// or fewer are wrong there is such a pair, and each has E zero at the wrong places. N has k coefficients, and where t is not 0, t + 1 more.
fn locator(field: &Field, code: &Code, received: &[u8], t: usize) -> Option<Vec<u8>> {
    let n = code.xs.len();
    let span = if t == 0 { code.k } else { code.k + t + 1 };
    let width = span + t + 1;
    // an equation for each place, with the coefficients of N as the first unknowns, then those of E
    let mut rows = vec![0; n * width];
    for (i, row) in rows.chunks_exact_mut(width).enumerate() {
        let (of_n, of_e) = row.split_at_mut(span);
        monomials(field, code.xs[i], code.ys[i], of_n);
        of_e.iter_mut().zip(of_n).for_each(|(e, a)| *e = field.product(received[i], *a));
    }
    // rows begin one unknown after the other, up to an unknown with which none begins
    let mut logs = vec![LOG_OF_ZERO; width];
    let mut free = 0;
    while let Some(found) = (free..n).find(|&i| free < width && rows[i * width + free] != 0) {
        let (above, below) = rows.split_at_mut((free + 1) * width);
        let row = &mut above[free * width..];
        if found > free {
            row.swap_with_slice(&mut below[(found - free - 1) * width..(found - free) * width]);
        }
        let leading = row[free];
        for j in free..width {
            row[j] = field.quotient(row[j], leading);
            logs[j] = field.log(row[j]);
        }
        for other in below.chunks_exact_mut(width) {
            field.add_multiple(other[free], &logs[free..], &mut other[free..]);
        }
        free += 1;
    }
    // that unknown is 1, and those past it are 0; N is not needed
    let mut unknowns = vec![0; width];
    *unknowns.get_mut(free)? = 1;
    for i in (span..free).rev() {
        unknowns[i] = (i + 1..=free).fold(0, |sum, j| sum ^ field.product(rows[i * width + j], unknowns[j]));
    }
    Some(unknowns.split_off(span))
}

pub fn correct(code: &Code, received: &[u8], symbols_out: &mut [u8], work: &mut [u8]) -> Answer {
    let field = check(code)?;
    let n = code.xs.len();
    if received.len() != n || symbols_out.len() != n || work.len() < WORKING_SPACE {
        return Err(8);
    }
    if received.iter().any(|&s| s as usize >= field.size()) {
        return Err(11);
    }
    let t = radius(code);
    let locator = locator(field, code, received, t).ok_or(21)?;
    let values = |function: &[u8]| -> Vec<u8> { code.xs.iter().zip(code.ys).map(|(&x, &y)| value(field, function, x, y)).collect() };
    let trusted: Vec<u16> = (1..).zip(values(&locator)).filter(|&(_, e)| e != 0).map(|(p, _)| p).collect();
    let symbols: Vec<u8> = trusted.iter().map(|&p| received[p as usize - 1]).collect();
    let function = Echelon::new(field, code.k).solve(code, &trusted, &symbols).ok_or(21)?;
    let word = values(&function[..code.k]);
    let changed = distance(&word, received);
    if changed > t {
        return Err(21);
    }
    symbols_out.copy_from_slice(&word);
    work[..WORKING_SPACE].fill(0);
    Ok(changed as u32)
}
