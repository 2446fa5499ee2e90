//! The same in plain Rust. `field`, `curve`, `code`, `places`, `best`, `hours`, `rolling` and `sheet` follow the definitions as simply as they can, for
//! tests to compare with; `fast`, `elimination`, `decoding` and `tries` are what one would write for speed, for benchmarks to compare with.
pub mod best;
pub mod code;
pub mod curve;
mod decoding;
mod elimination;
pub mod fast;
pub mod field;
pub mod hours;
pub mod places;
pub mod random;
pub mod rolling;
pub mod sheet;
mod tries;

pub use field::{products, Field};
pub use random::Random;
