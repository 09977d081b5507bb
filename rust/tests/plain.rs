//! The baseline of the benchmark against the reference implementation. Needs no archive.

mod common;
#[path = "../others/plain/mod.rs"]
mod plain;

use common::*;

// It reads no erased cells and knows no windows.
codec!(Plain like Reference, plain::{encode, decode, correct}, s => (s.w, s.h, s.d, s.t), no ERASURES, no WINDOWS);

codec!(
    PlainLevels like ReferenceLevels,
    plain::{encode_levels, decode_levels, correct_levels},
    s => (s.w, s.h, s.d, s.t), no ERASURES, no WINDOWS
);

#[test]
fn encodings() {
    compare_encodings::<Plain>(20_000);
}

#[test]
fn decodings() {
    compare_decodings::<Plain>(20_000);
}

#[test]
fn corrections() {
    compare_corrections::<Plain>(20_000);
}

#[test]
fn large_fields() {
    compare_large::<Plain>();
}

#[test]
fn long_classes() {
    compare_long_classes::<Plain>();
}

#[test]
fn edges_of_the_classes() {
    edges::compare_edges::<Plain>(1);
}

#[test]
fn every_padding() {
    padding::try_every_value::<Plain>();
}

#[test]
fn clusters_are_undone() {
    undo_clusters::<Plain>(10_000);
    undo_clusters::<Reference>(10_000);
}

#[test]
fn levels_compared() {
    levels::try_worked_examples::<PlainLevels>();
    levels::compare_encodings::<PlainLevels>(20_000);
    levels::compare_decodings::<PlainLevels>(20_000);
    levels::compare_corrections::<PlainLevels>(20_000);
    levels::compare_large::<PlainLevels>();
    levels::compare_edges::<PlainLevels>(1);
    levels::compare_lengths::<PlainLevels>();
}

#[test]
fn faults_of_levels() {
    faults::undo_every_fault::<PlainLevels>();
    faults::refuse_faults_from_no_level::<PlainLevels>();
    faults::compare_two_faults::<PlainLevels>(2);
    faults::change_ignored_cells::<PlainLevels>();
    faults::refuse_bad_levels::<PlainLevels>();
    faults::undo_clusters::<PlainLevels>(10_000);
}
