//! Fields by polynomial arithmetic, and by tables built from it.
use std::sync::OnceLock;

/// The modulus of each field number from 2 on, the bits of a symbol, and an element whose powers are all others but 0.
const ROWS: [(u32, u32, u8); 8] = [(0x7, 2, 2), (0xB, 3, 2), (0x13, 4, 2), (0x25, 5, 2), (0x43, 6, 2), (0x89, 7, 2), (0x11D, 8, 2), (0x11B, 8, 3)];

pub fn is_field(field: u8) -> bool {
    (2..=9).contains(&field)
}

const fn row(field: u8) -> (u32, u32, u8) {
    ROWS[field as usize - 2]
}

/// The bits of a symbol.
pub const fn width(field: u8) -> usize {
    row(field).1 as usize
}

/// The number of elements.
pub const fn size(field: u8) -> usize {
    1 << width(field)
}

/// The product of two polynomials over GF(2), reduced by the field's modulus, one bit at a time.
pub const fn slow_product(field: u8, a: u8, b: u8) -> u8 {
    let (modulus, width, _) = row(field);
    let mut r = 0u32;
    let mut i = 0;
    while i < 8 {
        if b >> i & 1 == 1 {
            r ^= (a as u32) << i;
        }
        i += 1;
    }
    let mut i = 15;
    while i >= width {
        if r >> i & 1 == 1 {
            r ^= modulus << (i - width);
        }
        i -= 1;
    }
    r as u8
}

/// The product of two symbols. All of a field's products are found once by `slow_product`, so that searches over all points stay quick.
pub fn product(field: u8, a: u8, b: u8) -> u8 {
    static PRODUCTS: [OnceLock<Vec<u8>>; ROWS.len()] = [const { OnceLock::new() }; ROWS.len()];
    let q = size(field);
    let all = PRODUCTS[field as usize - 2].get_or_init(|| (0..q * q).map(|i| slow_product(field, (i / q) as u8, (i % q) as u8)).collect());
    all[a as usize * q + b as usize]
}

/// `a` to the power `n`, by squaring; the power 0 is 1.
pub fn power(field: u8, a: u8, n: usize) -> u8 {
    if n == 0 {
        return 1;
    }
    let half = power(field, a, n / 2);
    let square = product(field, half, half);
    if n % 2 == 1 {
        product(field, square, a)
    } else {
        square
    }
}

/// What stands for the logarithm of zero: added to any logarithm it leads past the powers.
pub const LOG_OF_ZERO: u16 = 510;

/// Tables of one field, which give products and quotients without a branch: a zero factor or divisor gives zero.
#[derive(Clone)]
pub struct Field {
    pub number: u8,
    /// The 255 powers twice, then zeros; masking an index to its length spares a test of the bound.
    powers: [u8; 1024],
    logs: [u16; 256],
    /// The logarithm of the inverse.
    inverse_logs: [u16; 256],
}

impl Field {
    pub const fn new(number: u8) -> Self {
        let mut powers = [0; 1024];
        let mut logs = [LOG_OF_ZERO; 256];
        let mut inverse_logs = [LOG_OF_ZERO; 256];
        let (order, generator) = (size(number) - 1, row(number).2);
        let mut power = 1;
        let mut i = 0;
        while i < 510 {
            powers[i] = power;
            if i < order {
                logs[power as usize] = i as u16;
                inverse_logs[power as usize] = (order - i) as u16;
            }
            power = slow_product(number, power, generator);
            i += 1;
        }
        Field { number, powers, logs, inverse_logs }
    }

    pub fn size(&self) -> usize {
        size(self.number)
    }

    #[inline]
    pub fn log(&self, a: u8) -> u16 {
        self.logs[a as usize]
    }

    /// The power whose exponent is the sum of two logarithms.
    #[inline]
    pub fn power(&self, a: u16, b: u16) -> u8 {
        self.powers[(a + b) as usize & 1023]
    }

    #[inline]
    pub fn product(&self, a: u8, b: u8) -> u8 {
        self.power(self.log(a), self.log(b))
    }

    #[inline]
    pub fn quotient(&self, a: u8, b: u8) -> u8 {
        self.power(self.log(a), self.inverse_logs[b as usize])
    }

    /// A row gains a multiple of another, as long and given by logarithms. Eight at a time, from a window that begins at the factor's power.
    #[inline]
    pub fn add_multiple(&self, factor: u8, logs: &[u16], row: &mut [u8]) {
        let factor = self.log(factor) as usize & 511;
        let window: &[u8; 512] = self.powers[factor..][..512].try_into().unwrap();
        let multiple = |b: u16| window[b as usize & 511];
        let (eights, rest) = row.as_chunks_mut::<8>();
        let (eights_too, rest_too) = logs.as_chunks::<8>();
        for (a, b) in eights.iter_mut().zip(eights_too) {
            for i in 0..8 {
                a[i] ^= multiple(b[i]);
            }
        }
        for (a, &b) in rest.iter_mut().zip(rest_too) {
            *a ^= multiple(b);
        }
    }
}

pub fn products(field: u8, a: &[u8], b: &[u8], out: &mut [u8]) -> crate::Answer {
    if !is_field(field) {
        return Err(1);
    }
    if a.len() != out.len() || b.len() != out.len() {
        return Err(8);
    }
    for (o, (a, b)) in out.iter_mut().zip(a.iter().zip(b)) {
        *o = slow_product(field, *a, *b);
    }
    Ok(0)
}
