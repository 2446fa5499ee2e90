//! Curves and their points, by searching all (X, Y).
use super::field::{is_field, power, product, size};
use crate::{Answer, MOST_POINTS};

/// Y² + g1·XY + g3·Y = X³ + g2·X² + g4·X + g6.
pub fn on_curve(field: u8, [g1, g2, g3, g4, g6]: [u8; 5], x: u8, y: u8) -> bool {
    let p = |a, b| product(field, a, b);
    p(y, y) ^ p(g1, p(x, y)) ^ p(g3, y) == power(field, x, 3) ^ p(g2, p(x, x)) ^ p(g4, x) ^ g6
}

/// Every element of the field.
pub fn elements(field: u8) -> impl Iterator<Item = u8> {
    (0..size(field)).map(|a| a as u8)
}

/// Some (X, Y) lies on the curve with g1·X + g3 = 0 and g1·Y + X² + g4 = 0.
pub fn is_singular(field: u8, curve: [u8; 5]) -> bool {
    let [g1, _, g3, g4, _] = curve;
    let p = |a, b| product(field, a, b);
    elements(field).any(|x| p(g1, x) ^ g3 == 0 && elements(field).any(|y| p(g1, y) ^ p(x, x) ^ g4 == 0 && on_curve(field, curve, x, y)))
}

/// The tests 1, 2 and 3.
pub fn check(field: u8, curve: [u8; 5]) -> Result<(), u8> {
    if !is_field(field) {
        return Err(1);
    }
    if curve.iter().any(|&g| g as usize >= size(field)) {
        return Err(2);
    }
    if is_singular(field, curve) {
        return Err(3);
    }
    Ok(())
}

/// All affine points by X, then Y.
pub fn all_points(field: u8, curve: [u8; 5]) -> Vec<(u8, u8)> {
    elements(field).flat_map(|x| elements(field).map(move |y| (x, y))).filter(|&(x, y)| on_curve(field, curve, x, y)).collect()
}

pub fn points(field: u8, curve: [u8; 5], xs_out: &mut [u8], ys_out: &mut [u8]) -> Answer {
    check(field, curve)?;
    if xs_out.len() != MOST_POINTS || ys_out.len() != MOST_POINTS {
        return Err(8);
    }
    let points = all_points(field, curve);
    for (i, &(x, y)) in points.iter().enumerate() {
        xs_out[i] = x;
        ys_out[i] = y;
    }
    Ok(points.len() as u32)
}
