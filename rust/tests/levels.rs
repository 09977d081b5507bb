//! Fields of levels: the proved library against the reference implementation and against what is promised of them; numbers, figures and
//! the final bytes of every buffer.

mod common;

use common::archive::{answered, counted, decoded, numbers, shape_of};
use common::*;
use varmintfoil::{ffi, Refusal};

/// How often each operation is compared where `VARMINTFOIL_ROUNDS` does not say otherwise.
const TIMES: usize = 200_000;

/// The C interface, with its figures of a refusal tested.
struct Proved;

impl Codec for Proved {
    type Reference = ReferenceLevels;
    const ERASURES: bool = false;

    fn encode(s: &Numbers, payload: &[u8], field: &mut [u8]) -> Result<(), usize> {
        answered(ffi::encode_levels(numbers(s), payload, field))
    }

    fn decode(s: &Numbers, payload: &mut [u8], field: &[u8]) -> Result<usize, usize> {
        counted(ffi::decode_levels(numbers(s), payload, field))
    }

    fn correct(s: &Numbers, field: &mut [u8]) -> Result<usize, usize> {
        counted(ffi::correct_levels(numbers(s), field))
    }
}

/// The safe wrapper; a shape that it refuses has no further operation.
struct Wrapper;

impl Codec for Wrapper {
    type Reference = ReferenceLevels;
    const ERASURES: bool = false;

    fn encode(s: &Numbers, payload: &[u8], field: &mut [u8]) -> Result<(), usize> {
        let shape = shape_of(s)?;
        let answer = varmintfoil::encode_levels_into(&shape, payload, field);
        let owned = varmintfoil::encode_levels(&shape, payload);
        match answer {
            Ok(()) => assert_eq!(owned.as_deref(), Ok(&*field)),
            Err(Refusal::FieldLength) => assert!(owned.is_ok() || owned == Err(Refusal::BadLevel)),
            Err(refusal) => assert_eq!(owned, Err(refusal)),
        }
        answer.map_err(Refusal::number)
    }

    fn decode(s: &Numbers, payload: &mut [u8], field: &[u8]) -> Result<usize, usize> {
        let shape = shape_of(s)?;
        let answer = varmintfoil::decode_levels_into(&shape, field, payload);
        decoded(answer, varmintfoil::decode_levels(&shape, field), payload)
    }

    fn correct(s: &Numbers, field: &mut [u8]) -> Result<usize, usize> {
        varmintfoil::correct_levels(&shape_of(s)?, field).map_err(Refusal::number)
    }
}

#[test]
fn the_worked_examples() {
    levels::try_worked_examples::<Proved>();
    levels::try_worked_examples::<Wrapper>();
}

#[test]
fn encodings() {
    levels::compare_encodings::<Proved>(TIMES);
}

#[test]
fn decodings() {
    levels::compare_decodings::<Proved>(TIMES);
}

#[test]
fn corrections() {
    levels::compare_corrections::<Proved>(TIMES);
}

#[test]
fn the_wrapper() {
    levels::compare_encodings::<Wrapper>(TIMES / 10);
    levels::compare_decodings::<Wrapper>(TIMES / 10);
    levels::compare_corrections::<Wrapper>(TIMES / 10);
}

#[test]
fn large_fields() {
    levels::compare_large::<Proved>();
}

#[test]
fn edges_of_the_classes() {
    levels::compare_edges::<Proved>(2);
}

#[test]
fn windows_near_the_limits() {
    levels::compare_near_the_limits::<Proved>();
    levels::compare_near_the_limits::<Wrapper>();
}

#[test]
fn every_length() {
    levels::compare_lengths::<Proved>();
    levels::compare_lengths::<Wrapper>();
}

#[test]
fn every_fault() {
    faults::undo_every_fault::<Proved>();
}

#[test]
fn faults_from_no_level() {
    faults::refuse_faults_from_no_level::<Proved>();
}

#[test]
fn two_faults_in_a_word() {
    faults::compare_two_faults::<Proved>(10);
}

#[test]
fn ignored_cells() {
    faults::change_ignored_cells::<Proved>();
}

#[test]
fn bad_levels() {
    faults::refuse_bad_levels::<Proved>();
    faults::refuse_bad_levels::<Wrapper>();
}

#[test]
fn clusters_are_undone() {
    faults::undo_clusters::<Proved>(TIMES);
}
