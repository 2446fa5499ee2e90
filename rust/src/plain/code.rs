//! Codes: their test, plain coding, and the heard places.
use super::curve::{self, on_curve};
use super::field::{power, product, size};
use crate::{Answer, Code, MASK_BYTES, MOST_POINTS};

/// The tests 1 to 7.
pub fn check(code: &Code) -> Result<(), u8> {
    let &Code { field, curve, xs, ys, k } = code;
    curve::check(field, curve)?;
    let n = xs.len();
    if n != ys.len() || !(2..=MOST_POINTS).contains(&n) {
        return Err(4);
    }
    let outside = |a: u8| a as usize >= size(field);
    if (0..n).any(|i| outside(xs[i]) || outside(ys[i]) || !on_curve(field, curve, xs[i], ys[i])) {
        return Err(5);
    }
    if (0..n).any(|i| (0..i).any(|j| (xs[i], ys[i]) == (xs[j], ys[j]))) {
        return Err(6);
    }
    if !(1..n).contains(&k) {
        return Err(7);
    }
    Ok(())
}

/// The value at (x, y) of the monomial at an index. In order of weight, which is 2 for X and 3 for Y, they are 1, X, Y, X², XY, ..; none weighs 1.
pub fn monomial(field: u8, index: usize, x: u8, y: u8) -> u8 {
    let weight = if index == 0 { 0 } else { index + 1 };
    if weight % 2 == 0 {
        power(field, x, weight / 2)
    } else {
        product(field, power(field, x, (weight - 3) / 2), y)
    }
}

/// The value at (x, y) of the function with these coefficients.
pub fn value(field: u8, coefficients: &[u8], x: u8, y: u8) -> u8 {
    coefficients.iter().enumerate().fold(0, |sum, (i, &c)| sum ^ product(field, c, monomial(field, i, x, y)))
}

pub fn plain(code: &Code, coefficients: &[u8], symbols_out: &mut [u8]) -> Answer {
    check(code)?;
    if coefficients.len() != code.k || symbols_out.len() != code.xs.len() {
        return Err(8);
    }
    if coefficients.iter().any(|&c| c as usize >= size(code.field)) {
        return Err(11);
    }
    for (i, s) in symbols_out.iter_mut().enumerate() {
        *s = value(code.field, coefficients, code.xs[i], code.ys[i]);
    }
    Ok(0)
}

pub fn heard(code: &Code, mask: &[u8], places_out: &mut [u16]) -> Answer {
    check(code)?;
    if mask.len() != MASK_BYTES || places_out.len() != MOST_POINTS {
        return Err(8);
    }
    let places: Vec<u16> = (1..=8 * MASK_BYTES as u16).filter(|p| mask[(p - 1) as usize / 8] >> ((p - 1) % 8) & 1 == 1).collect();
    if places.iter().any(|&p| p as usize > code.xs.len()) {
        return Err(9);
    }
    places_out[..places.len()].copy_from_slice(&places);
    Ok(places.len() as u32)
}
