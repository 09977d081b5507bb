//! The proved library's text as Rust, against the reference implementation. Needs no archive.

mod common;
#[path = "../others/same.rs"]
mod same;

use common::*;

/// The numbers of a shape as this text has them.
fn numbers(s: &Numbers) -> same::ShapeNumbers {
    let window = same::Window { rows: s.p, columns: s.q };
    same::ShapeNumbers { columns: s.w, rows: s.h, planes: s.d, strength: s.t, window }
}

codec!(Same like Reference, same::{encode, decode, correct}, s => (numbers(s)));
codec!(SameLevels like ReferenceLevels, same::{encode_levels, decode_levels, correct_levels}, s => (numbers(s)), no ERASURES);

#[test]
fn encodings() {
    compare_encodings::<Same>(20_000);
}

#[test]
fn decodings() {
    compare_decodings::<Same>(20_000);
}

#[test]
fn corrections() {
    compare_corrections::<Same>(20_000);
}

#[test]
fn large_fields() {
    compare_large::<Same>();
}

#[test]
fn edges_of_the_classes() {
    edges::compare_edges::<Same>(1);
}

#[test]
fn windows_near_the_limits() {
    windows::compare_near_the_limits::<Same>();
}

#[test]
fn every_padding() {
    padding::try_every_value::<Same>();
}

#[test]
fn levels_compared() {
    levels::try_worked_examples::<SameLevels>();
    levels::compare_encodings::<SameLevels>(20_000);
    levels::compare_decodings::<SameLevels>(20_000);
    levels::compare_corrections::<SameLevels>(20_000);
    levels::compare_large::<SameLevels>();
    levels::compare_edges::<SameLevels>(1);
    levels::compare_near_the_limits::<SameLevels>();
    levels::compare_lengths::<SameLevels>();
}

#[test]
fn faults_of_levels() {
    faults::undo_every_fault::<SameLevels>();
    faults::refuse_faults_from_no_level::<SameLevels>();
    faults::compare_two_faults::<SameLevels>(2);
    faults::change_ignored_cells::<SameLevels>();
    faults::refuse_bad_levels::<SameLevels>();
    faults::undo_clusters::<SameLevels>(10_000);
}
