//! The C interface of the proved library, as numbers and slices. All unsafe code is here.
//!
//! Each function takes any numbers and slices of any length. It answers the number 0, or the first refusal that applies, in the order
//! listed with it; then all figures are 0 and the slices keep their bytes. A slice is valid for its length and a mutable one overlaps no
//! other, which is what the library cannot see for itself. `include/varmintfoil.h` is the same interface for C.

/// A window of some rows and columns; both are 0 where a shape has none. In C its sides are two members of the shape.
#[repr(C)]
#[derive(Clone, Copy, Debug, Default, PartialEq, Eq, Hash)]
pub struct Window {
    pub rows: usize,
    pub columns: usize,
}

/// The numbers of a shape, of any size. A number left out is 0: `ShapeNumbers { columns: 5, ..ShapeNumbers::default() }`.
#[repr(C)]
#[derive(Clone, Copy, Debug, Default, PartialEq, Eq, Hash)]
pub struct ShapeNumbers {
    pub columns: usize,
    pub rows: usize,
    pub planes: usize,
    /// 0 where a window rules.
    pub strength: usize,
    pub window: Window,
}

/// The answer of `plan`.
#[repr(C)]
#[non_exhaustive]
#[derive(Clone, Copy, Debug, PartialEq, Eq)]
pub struct PlanAnswer {
    pub number: usize,
    pub classes: usize,
    pub capacity: usize,
    pub bytes: usize,
    pub cells: usize,
    pub used: usize,
    pub digits: usize,
}

/// The answer of `class_of`.
#[repr(C)]
#[non_exhaustive]
#[derive(Clone, Copy, Debug, PartialEq, Eq)]
pub struct ClassAnswer {
    pub number: usize,
    pub class_index: usize,
}

/// The answer of `decode` and `correct`, and of the same for levels.
#[repr(C)]
#[non_exhaustive]
#[derive(Clone, Copy, Debug, PartialEq, Eq)]
pub struct CountAnswer {
    pub number: usize,
    pub count: usize,
}

/// The answer of `distance_test`; `holds` is 1 or 0.
#[repr(C)]
#[non_exhaustive]
#[derive(Clone, Copy, Debug, PartialEq, Eq)]
pub struct DistanceAnswer {
    pub number: usize,
    pub holds: usize,
    pub row: i32,
    pub plane: i32,
    pub column: i32,
    pub tried: usize,
}

extern "C" {
    fn varmintfoil_plan(shape: ShapeNumbers) -> PlanAnswer;
    fn varmintfoil_class(shape: ShapeNumbers, row: usize, plane: usize, column: usize) -> ClassAnswer;
    fn varmintfoil_encode(shape: ShapeNumbers, payload: *const u8, payload_len: usize, field: *mut u8, field_len: usize)
        -> usize;
    fn varmintfoil_decode(
        shape: ShapeNumbers,
        payload: *mut u8,
        payload_len: usize,
        field: *const u8,
        field_len: usize,
    ) -> CountAnswer;
    fn varmintfoil_correct(shape: ShapeNumbers, field: *mut u8, field_len: usize) -> CountAnswer;
    fn varmintfoil_encode_levels(
        shape: ShapeNumbers,
        payload: *const u8,
        payload_len: usize,
        field: *mut u8,
        field_len: usize,
    ) -> usize;
    fn varmintfoil_decode_levels(
        shape: ShapeNumbers,
        payload: *mut u8,
        payload_len: usize,
        field: *const u8,
        field_len: usize,
    ) -> CountAnswer;
    fn varmintfoil_correct_levels(shape: ShapeNumbers, field: *mut u8, field_len: usize) -> CountAnswer;
    fn varmintfoil_distance_test(m: usize, b: usize, c: usize, t: usize) -> DistanceAnswer;
}

/// Classes, capacity, payload bytes, cells, classes that hold a cell, and payload digits of a field of levels, of a shape: 1, 2, 11.
#[must_use]
pub fn plan(shape: ShapeNumbers) -> PlanAnswer {
    // SAFETY: only numbers pass.
    unsafe { varmintfoil_plan(shape) }
}

/// The class of a cell: 1, 2, 11, 4.
#[must_use]
pub fn class_of(shape: ShapeNumbers, row: usize, plane: usize, column: usize) -> ClassAnswer {
    // SAFETY: only numbers pass.
    unsafe { varmintfoil_class(shape, row, plane, column) }
}

/// Writes the field of a payload: 1, 2, 11, 3, 4.
#[must_use]
pub fn encode(shape: ShapeNumbers, payload: &[u8], field: &mut [u8]) -> usize {
    let (bytes, cells) = (payload.len(), field.len());
    // SAFETY: the slices are valid for their lengths, and a mutable slice overlaps no other.
    unsafe { varmintfoil_encode(shape, payload.as_ptr(), bytes, field.as_mut_ptr(), cells) }
}

/// Reads a field into a payload: 1, 2, 11, 3, 4, 5, 10, 6, 7.
#[must_use]
pub fn decode(shape: ShapeNumbers, payload: &mut [u8], field: &[u8]) -> CountAnswer {
    let (bytes, cells) = (payload.len(), field.len());
    // SAFETY: the slices are valid for their lengths, and a mutable slice overlaps no other.
    unsafe { varmintfoil_decode(shape, payload.as_mut_ptr(), bytes, field.as_ptr(), cells) }
}

/// Corrects a field where it lies: 1, 2, 11, 4, 5, 10, 6, 7.
#[must_use]
pub fn correct(shape: ShapeNumbers, field: &mut [u8]) -> CountAnswer {
    // SAFETY: the slice is valid for its length.
    unsafe { varmintfoil_correct(shape, field.as_mut_ptr(), field.len()) }
}

/// Writes the field of levels of some digits: 1, 2, 11, 3, 4, 12.
#[must_use]
pub fn encode_levels(shape: ShapeNumbers, payload: &[u8], field: &mut [u8]) -> usize {
    let (digits, cells) = (payload.len(), field.len());
    // SAFETY: the slices are valid for their lengths, and a mutable slice overlaps no other.
    unsafe { varmintfoil_encode_levels(shape, payload.as_ptr(), digits, field.as_mut_ptr(), cells) }
}

/// Reads a field of levels into a payload of digits: 1, 2, 11, 3, 4, 12, 6.
#[must_use]
pub fn decode_levels(shape: ShapeNumbers, payload: &mut [u8], field: &[u8]) -> CountAnswer {
    let (digits, cells) = (payload.len(), field.len());
    // SAFETY: the slices are valid for their lengths, and a mutable slice overlaps no other.
    unsafe { varmintfoil_decode_levels(shape, payload.as_mut_ptr(), digits, field.as_ptr(), cells) }
}

/// Corrects a field of levels where it lies: 1, 2, 11, 4, 12, 6.
#[must_use]
pub fn correct_levels(shape: ShapeNumbers, field: &mut [u8]) -> CountAnswer {
    // SAFETY: the slice is valid for its length.
    unsafe { varmintfoil_correct_levels(shape, field.as_mut_ptr(), field.len()) }
}

/// Are all different cells of one class at least t apart in an endless stack? 2, 9.
#[must_use]
pub fn distance_test(m: usize, b: usize, c: usize, t: usize) -> DistanceAnswer {
    // SAFETY: only numbers pass.
    unsafe { varmintfoil_distance_test(m, b, c, t) }
}
