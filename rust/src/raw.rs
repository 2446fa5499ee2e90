//! The C interface, as include/vakhudle.h has it.

extern "C" {
    pub fn vakhudle_products(field: u8, a: *const u8, a_len: usize, b: *const u8, b_len: usize, out: *mut u8, out_len: usize) -> i32;

    pub fn vakhudle_points(
        field: u8,
        g1: u8,
        g2: u8,
        g3: u8,
        g4: u8,
        g6: u8,
        xs: *mut u8,
        xs_len: usize,
        ys: *mut u8,
        ys_len: usize,
    ) -> i32;

    pub fn vakhudle_means(
        stamps: *const u32,
        stamps_len: usize,
        readings: *const i16,
        readings_len: usize,
        first: u32,
        means_out: *mut i16,
        means_out_len: usize,
    ) -> i32;

    pub fn vakhudle_rolling_fresh(state_out: *mut u8, state_out_len: usize) -> i32;

    pub fn vakhudle_rolling(state: *mut u8, state_len: usize, hour: u32, mean: i16, rolling_out: *mut i16, rolling_out_len: usize) -> i32;

    pub fn vakhudle_sheet(text: *const u8, text_len: usize, out: *mut u8, out_len: usize) -> i32;
}

/// Declares operations over a code: each takes the code, and then pointers to lists, each with its length behind it.
macro_rules! over_code {
    ($($name:ident($($list:ident: $pointer:ty),+);)+) => {
        extern "C" {
            $(pub fn $name(
                field: u8, g1: u8, g2: u8, g3: u8, g4: u8, g6: u8, xs: *const u8, xs_len: usize, ys: *const u8, ys_len: usize, k: usize,
                $($list: $pointer, _: usize),+
            ) -> i32;)+
        }
    };
}

over_code! {
    vakhudle_plain(coefficients: *const u8, symbols_out: *mut u8);
    vakhudle_heard(mask: *const u8, places_out: *mut u16);
    vakhudle_pack(means: *const i16, symbols_out: *mut u8);
    vakhudle_unpack(symbols: *const u8, means_out: *mut i16);
    vakhudle_recover(symbols: *const u8, coefficients_out: *mut u8, work: *mut u8);
    vakhudle_systematic_function(places: *const u16, message: *const u8, coefficients_out: *mut u8, work: *mut u8);
    vakhudle_systematic_word(places: *const u16, message: *const u8, symbols_out: *mut u8, work: *mut u8);
    vakhudle_matrix(places: *const u16, symbols_out: *mut u8, work: *mut u8);
    vakhudle_relation(places: *const u16, coefficients_out: *mut u8, work: *mut u8);
    vakhudle_pick(ranked: *const u16, places_out: *mut u16, work: *mut u8);
    vakhudle_rebuild(places: *const u16, symbols: *const u8, symbols_out: *mut u8, work: *mut u8);
    vakhudle_correct(received: *const u8, symbols_out: *mut u8, work: *mut u8);
}

extern "C" {
    pub fn vakhudle_best(
        field: u8,
        g1: u8,
        g2: u8,
        g3: u8,
        g4: u8,
        g6: u8,
        xs: *const u8,
        xs_len: usize,
        ys: *const u8,
        ys_len: usize,
        k: usize,
        received: *const u8,
        received_len: usize,
        trusts: *const u8,
        trusts_len: usize,
        budget: u32,
        symbols_out: *mut u8,
        symbols_out_len: usize,
        figures_out: *mut u32,
        figures_out_len: usize,
        work: *mut u8,
        work_len: usize,
    ) -> i32;
}
