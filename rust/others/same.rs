//! The text of the proved library as safe Rust, for the benchmark: what the same functions, loops and arrays cost where nothing
//! is proved.
//!
//! The modules are the files of `src` in `crates/lattice`, `crates/passes`, `crates/codec` and `crates/levels`, and
//! `crates/varmintfoil/src/operations.rt`, with their contracts left out; the build translates them (`build/same.rs`). A refusal
//! is the number that `include/varmintfoil.h` lists. Who includes this file names the module `same` and puts it at the root of a
//! crate.

#![deny(unsafe_code)]
#![allow(dead_code, unused_variables)]
#![allow(clippy::all)]

include!(concat!(env!("OUT_DIR"), "/same.rs"));

use lattice::refusal::Refusal;

pub use lattice::shape::{ShapeNumbers, Window};

/// Encode (write): 1, 2, 11, 3, 4.
pub fn encode(shape: ShapeNumbers, payload: &[u8], field: &mut [u8]) -> Result<(), usize> {
    operations::encode_in(shape, payload, field).map_err(Refusal::number)
}

/// Decode (read): 1, 2, 11, 3, 4, 5, 10, 6, 7. Gives the number of cells changed on the way.
pub fn decode(shape: ShapeNumbers, payload: &mut [u8], field: &[u8]) -> Result<usize, usize> {
    operations::decode_in(shape, payload, field).map_err(Refusal::number)
}

/// Correct (mend) a field where it lies: 1, 2, 11, 4, 5, 10, 6, 7. Gives the number of cells changed.
pub fn correct(shape: ShapeNumbers, field: &mut [u8]) -> Result<usize, usize> {
    operations::correct_in(shape, field).map_err(Refusal::number)
}

/// Encode levels (shaded write): 1, 2, 11, 3, 4, 12.
pub fn encode_levels(shape: ShapeNumbers, payload: &[u8], field: &mut [u8]) -> Result<(), usize> {
    operations::encode_levels_in(shape, payload, field).map_err(Refusal::number)
}

/// Decode levels (shaded read): 1, 2, 11, 3, 4, 12, 6. Gives the number of cells of words corrected on the way.
pub fn decode_levels(shape: ShapeNumbers, payload: &mut [u8], field: &[u8]) -> Result<usize, usize> {
    operations::decode_levels_in(shape, payload, field).map_err(Refusal::number)
}

/// Correct levels (shaded mend) where they lie: 1, 2, 11, 4, 12, 6. Gives the number of all cells changed.
pub fn correct_levels(shape: ShapeNumbers, field: &mut [u8]) -> Result<usize, usize> {
    operations::correct_levels_in(shape, field).map_err(Refusal::number)
}
