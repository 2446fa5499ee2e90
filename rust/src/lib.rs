//! Safe wrappers of the proved block coder. `plain` is an independent implementation in plain Rust that tests and benchmarks compare with.
//!
//! A refused call changes nothing that it was lent. Places are numbered from 1.
pub mod plain;
mod raw;

/// What a call answers: a count (0 where the operation has none), or the number of the refusal.
pub type Answer = Result<u32, u8>;

/// The length of the buffers that `points` and `heard` fill: no curve over these fields has more affine points.
pub const MOST_POINTS: usize = 288;

/// The length of the mask that `heard` reads.
pub const MASK_BYTES: usize = 40;

/// The least length of the working space that some operations are lent. After acceptance this many bytes of it are zero, and the rest is as it was.
pub const WORKING_SPACE: usize = 8_192;

/// How many figures `best` writes: the cost, the tries made, and the gap.
pub const FIGURES: usize = 3;

/// The largest budget that `best` takes.
pub const MOST_TRIES: u32 = 65_535;

/// The least length of the buffer for the answer to a job sheet: no answer is longer.
pub const SHEET_ROOM: usize = 4_096;

/// The length of a rolling state. The header says what is in it.
pub const ROLLING_STATE: usize = 64;

/// The mean of an hour with too few readings, or of a day with too few hours.
pub const ABSENT: i16 = 32_767;

/// A code: a field, a curve, a list of points on it, and a dimension. Nothing is tested before a call.
#[derive(Clone, Copy, Debug)]
pub struct Code<'a> {
    /// The field number, 2 to 9: m for the field of 2^m elements, and 9 for the other one of 256.
    pub field: u8,
    /// The coefficients g1, g2, g3, g4, g6.
    pub curve: [u8; 5],
    /// The X of each place.
    pub xs: &'a [u8],
    /// The Y of each place.
    pub ys: &'a [u8],
    /// The dimension.
    pub k: usize,
}

fn answer(status: i32) -> Answer {
    if status < 0 {
        Err(status.unsigned_abs() as u8)
    } else {
        Ok(status as u32)
    }
}

// SAFETY of every call below: each pointer comes with the length of its slice, and the borrow checker keeps what is written apart from the rest.

/// `out[i] = a[i] * b[i]` in the field.
pub fn products(field: u8, a: &[u8], b: &[u8], out: &mut [u8]) -> Answer {
    answer(unsafe { raw::vakhudle_products(field, a.as_ptr(), a.len(), b.as_ptr(), b.len(), out.as_mut_ptr(), out.len()) })
}

/// Writes the curve's affine points by X, then Y, into two buffers of 288 bytes, and answers their count.
pub fn points(field: u8, curve: [u8; 5], xs_out: &mut [u8], ys_out: &mut [u8]) -> Answer {
    let [g1, g2, g3, g4, g6] = curve;
    answer(unsafe { raw::vakhudle_points(field, g1, g2, g3, g4, g6, xs_out.as_mut_ptr(), xs_out.len(), ys_out.as_mut_ptr(), ys_out.len()) })
}

/// The answer to a job sheet, any bytes, at the front of a buffer of at least 4,096 bytes, and its length.
pub fn sheet(text: &[u8], out: &mut [u8]) -> Answer {
    answer(unsafe { raw::vakhudle_sheet(text.as_ptr(), text.len(), out.as_mut_ptr(), out.len()) })
}

/// The mean of each hour from `first_hour` on, one for each entry of `means_out`: readings and means in tenths of a degree, stamps in minutes, each of which
/// names its minute's end. Hour h holds stamps 60 h + 1 to 60 h + 60, and stamp 0 is in no hour.
pub fn means(stamps: &[u32], readings: &[i16], first_hour: u32, means_out: &mut [i16]) -> Answer {
    answer(unsafe {
        raw::vakhudle_means(stamps.as_ptr(), stamps.len(), readings.as_ptr(), readings.len(), first_hour, means_out.as_mut_ptr(), means_out.len())
    })
}

/// Writes the rolling state before the first hour into a buffer of 64 bytes.
pub fn rolling_fresh(state_out: &mut [u8]) -> Answer {
    answer(unsafe { raw::vakhudle_rolling_fresh(state_out.as_mut_ptr(), state_out.len()) })
}

/// Takes the next hour with its mean or 32,767: replaces the state, and writes the mean of the present hours among the last 24, if there are 18, or else
/// 32,767, into a list of one.
pub fn rolling(state: &mut [u8], hour: u32, mean: i16, rolling_out: &mut [i16]) -> Answer {
    answer(unsafe { raw::vakhudle_rolling(state.as_mut_ptr(), state.len(), hour, mean, rolling_out.as_mut_ptr(), rolling_out.len()) })
}

/// Defines operations over a code, each by the lists that it reads and, behind the semicolon, those that it writes.
macro_rules! over_code {
    ($($(#[$doc:meta])+ $name:ident = $raw:ident($($input:ident: $read:ty),+; $($output:ident: $written:ty),+);)+) => {$(
        $(#[$doc])+
        pub fn $name(code: &Code, $($input: &[$read],)+ $($output: &mut [$written]),+) -> Answer {
            let Code { field, curve: [g1, g2, g3, g4, g6], xs, ys, k } = *code;
            answer(unsafe {
                raw::$raw(
                    field,
                    g1,
                    g2,
                    g3,
                    g4,
                    g6,
                    xs.as_ptr(),
                    xs.len(),
                    ys.as_ptr(),
                    ys.len(),
                    k,
                    $($input.as_ptr(), $input.len(),)+
                    $($output.as_mut_ptr(), $output.len()),+
                )
            })
        }
    )+};
}

over_code! {
    /// The n symbols of the function with these k coefficients, which stand in order of weight.
    plain = vakhudle_plain(coefficients: u8; symbols_out: u8);

    /// Writes the heard places, ascending, into a buffer of 288, and answers their count; place p is bit (p − 1) mod 8 of byte (p − 1) div 8.
    heard = vakhudle_heard(mask: u8; places_out: u16);

    /// The k coefficients of the codeword with these n symbols.
    recover = vakhudle_recover(symbols: u8; coefficients_out: u8, work: u8);

    /// The k coefficients of the function whose value at the i-th of k places is the i-th symbol of the message.
    systematic_function = vakhudle_systematic_function(places: u16, message: u8; coefficients_out: u8, work: u8);

    /// The n symbols of the codeword whose symbol at the i-th of k places is the i-th of the message.
    systematic_word = vakhudle_systematic_word(places: u16, message: u8; symbols_out: u8, work: u8);

    /// The k rows of n symbols, one after the other: row i is the codeword whose symbol is 1 at the i-th of k places and 0 at the others.
    matrix = vakhudle_matrix(places: u16; symbols_out: u8, work: u8);

    /// The k coefficients of the function with leading coefficient 1 that is zero at all of k dependent places.
    relation = vakhudle_relation(places: u16; coefficients_out: u8, work: u8);

    /// Of places ranked best first, the first k that are not dependent: ranks 1 to k, or ranks 1 to k − 1 and k + 1.
    pick = vakhudle_pick(ranked: u16; places_out: u16, work: u8);

    /// The n symbols of the codeword that has these symbols at these places, k or more.
    rebuild = vakhudle_rebuild(places: u16, symbols: u8; symbols_out: u8, work: u8);

    /// The n symbols of the codeword that differs from the n received ones in at most t places: t is (n − k − 2) div 2, and 0 where n − k is 1.
    /// Answers the count of places changed.
    correct = vakhudle_correct(received: u8; symbols_out: u8, work: u8);

    /// Packs k·m div 15 means into k symbols of m bits: m is the field number, and 8 for field 9.
    pack = vakhudle_pack(means: i16; symbols_out: u8);

    /// The means that were packed into these k symbols.
    unpack = vakhudle_unpack(symbols: u8; means_out: i16);
}

/// The cheapest codeword within a budget of 1 to 65,535 tries, and into `figures_out` its cost, the tries made, and the gap.
///
/// A codeword costs the total trust of the places where it differs from the n received symbols. k places are picked, of highest trust first and equal
/// trust by lower place. Tried is the codeword that agrees with the received symbols there, then those with one picked place changed, from the last
/// picked to the first, then two; the earliest of equally cheap ones is written. The gap is the cost less the least total trust of an untried change of
/// picked places, and 0 if that is negative or nothing is untried: no codeword is cheaper by more than it. A larger budget never gives a dearer one.
pub fn best(code: &Code, received: &[u8], trusts: &[u8], budget: u32, symbols_out: &mut [u8], figures_out: &mut [u32], work: &mut [u8]) -> Answer {
    let Code { field, curve: [g1, g2, g3, g4, g6], xs, ys, k } = *code;
    answer(unsafe {
        raw::vakhudle_best(
            field,
            g1,
            g2,
            g3,
            g4,
            g6,
            xs.as_ptr(),
            xs.len(),
            ys.as_ptr(),
            ys.len(),
            k,
            received.as_ptr(),
            received.len(),
            trusts.as_ptr(),
            trusts.len(),
            budget,
            symbols_out.as_mut_ptr(),
            symbols_out.len(),
            figures_out.as_mut_ptr(),
            figures_out.len(),
            work.as_mut_ptr(),
            work.len(),
        )
    })
}
