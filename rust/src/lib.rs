//! Varmintfoil: a payload in a field of black and white cells that outlives any one hole of at most t connected cells or, by another
//! setting, any damage inside one window of p by q cells; or in a field of cells of 25 levels, where each cell of the hole or the
//! window may be read as at most 3 higher or 1 lower than it was written.
//!
//! The codec itself is proved and lies in the static library that `rt lib --cpu x86-64` writes in crates/varmintfoil;
//! this is a safe wrapper over it. Nothing handed to it can upset it: each operation succeeds or gives its first listed
//! [`Refusal`].
//!
#![cfg_attr(feature = "archive", doc = "```")]
#![cfg_attr(not(feature = "archive"), doc = "```ignore")]
//! use varmintfoil::{correct, decode, encode, Refusal, Shape};
//!
//! let shape = Shape::new(5, 5, 1, 3)?;
//! assert_eq!((shape.classes(), shape.capacity(), shape.payload_bytes()), (5, 10, 1));
//! let field = encode(&shape, &[0xa5])?;
//!
//! // A hole of three connected cells.
//! let mut damaged = field.clone();
//! for (row, column) in [(2, 2), (2, 3), (3, 2)] {
//!     damaged[shape.cell(row, 0, column)?] ^= 1;
//! }
//! let decoded = decode(&shape, &damaged)?;
//! assert_eq!((decoded.payload.as_slice(), decoded.mended), ([0xa5].as_slice(), 3));
//!
//! assert_eq!(correct(&shape, &mut damaged)?, 3);
//! assert_eq!(damaged, field);
//! # Ok::<(), Refusal>(())
//! ```
//!
//! A cell that was not read is handed in as [`ERASED`]. Two holes of erased cells, of at most t connected cells each, are filled.
//!
//! `Shape::with_window` makes a shape for damage that tears across corners: any cells flipped inside one window are undone.
//!
//! A cell may have a level, 0 to [`MAX_LEVEL`], and the payload is then digits of as many values: `encode_levels`, `decode_levels` and
//! `correct_levels` undo a hole whose cells are read as up to 1 lower or 3 higher than they were written.
//!
//! Two holes of t flipped cells are mostly not refused but read as another payload. Where no cell is erased, the function
//! `within_promise` of the example `beyond` tells most of them, from the field before and after `correct`.

#![deny(unsafe_code)]

#[cfg(feature = "archive")]
#[allow(unsafe_code)]
pub mod ffi;
mod refusal;
#[cfg(feature = "archive")]
mod wrapper;

/// An erased cell, in a field that is decoded or corrected: a cell that was not read.
pub const ERASED: u8 = 2;

/// The greatest level of a cell of a field of levels, and the greatest digit of its payload.
pub const MAX_LEVEL: u8 = 24;

pub use refusal::Refusal;
#[cfg(feature = "archive")]
pub use wrapper::*;
