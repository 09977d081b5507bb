//! The numbers that the C header names are those of the library: its version, the refusals, the erased cell, the greatest level and the
//! limits.

use std::mem::size_of;
use std::path::Path;
use varmintfoil::ffi::{self, ShapeNumbers};
use varmintfoil::{Refusal, Window};

/// The header.
fn text() -> String {
    let header = Path::new(env!("CARGO_MANIFEST_DIR")).parent().unwrap().join("include/varmintfoil.h");
    std::fs::read_to_string(header).unwrap()
}

/// What the header defines a name as.
fn defined(name: &str) -> String {
    let text = text();
    let start = format!("#define VARMINTFOIL_{name} ");
    let line = text.lines().find_map(|line| line.strip_prefix(&start)).unwrap_or_else(|| panic!("the header has {start}"));
    line.split("/*").next().unwrap().trim().to_string()
}

fn number(name: &str) -> usize {
    defined(name).parse().unwrap()
}

#[test]
fn the_version() {
    let version = env!("CARGO_PKG_VERSION");
    assert_eq!(defined("VERSION"), format!("\"{version}\""));
    let parts = ["VERSION_MAJOR", "VERSION_MINOR", "VERSION_PATCH"].map(defined);
    assert_eq!(parts.join("."), version);
}

/// A refusal's name as the header writes it: `OutOfReach` is `OUT_OF_REACH`.
fn in_header(refusal: Refusal) -> String {
    let mut name = String::new();
    for letter in format!("{refusal:?}").chars() {
        if letter.is_uppercase() && !name.is_empty() {
            name.push('_');
        }
        name.extend(letter.to_uppercase());
    }
    name
}

#[test]
fn the_refusals() {
    assert_eq!(number("OK"), 0);
    for refusal in [
        Refusal::BadSize,
        Refusal::BadStrength,
        Refusal::PayloadLength,
        Refusal::FieldLength,
        Refusal::OutsideShape,
        Refusal::BadCell,
        Refusal::OutOfReach,
        Refusal::BadPadding,
        Refusal::BadSettings,
        Refusal::TooManyErasures,
        Refusal::BadWindow,
        Refusal::BadLevel,
    ] {
        assert_eq!(number(&in_header(refusal)), refusal.number(), "{refusal:?}");
    }
}

/// The erased cell is the one value above 1 that the library does not refuse.
#[test]
fn the_erased_cell() {
    assert_eq!(number("ERASED"), usize::from(varmintfoil::ERASED));
    let shape = ShapeNumbers { columns: 2, rows: 1, planes: 1, strength: 1, ..ShapeNumbers::default() };
    for cell in 0..=255 {
        let answer = ffi::decode(shape, &mut [], &[0, cell]);
        let expected = match cell {
            0 => (0, 0),
            1 | varmintfoil::ERASED => (0, 1),
            _ => (Refusal::BadCell.number(), 0),
        };
        assert_eq!((answer.number, answer.count), expected, "{cell}");
    }
}

/// Up to the greatest level the library takes every cell of a field of levels and every digit, and none above it.
#[test]
fn the_greatest_level() {
    assert_eq!(number("MAX_LEVEL"), usize::from(varmintfoil::MAX_LEVEL));
    let shape = ShapeNumbers { columns: 7, rows: 1, planes: 1, strength: 1, ..ShapeNumbers::default() };
    for level in 0..=255 {
        let refusal = if level > varmintfoil::MAX_LEVEL { Refusal::BadLevel.number() } else { 0 };
        let (mut digits, mut field) = ([0; 5], [0, 0, 0, 0, 0, 0, level]);
        assert_eq!(ffi::decode_levels(shape, &mut digits, &field).number, refusal, "{level}");
        assert_eq!(ffi::correct_levels(shape, &mut field).number, refusal, "{level}");
        assert_eq!(ffi::encode_levels(shape, &[0, 0, 0, 0, level], &mut field), refusal, "{level}");
    }
}

/// Every shape within the limits.
fn for_each_shape(mut look: impl FnMut(ShapeNumbers)) {
    for planes in 1..=16 {
        for columns in 1..=256 {
            for rows in (1..=256).take_while(|rows| columns * rows * planes <= 65_536) {
                for strength in 1..=if planes == 1 { 32 } else { 8 } {
                    look(ShapeNumbers { columns, rows, planes, strength, ..ShapeNumbers::default() });
                }
            }
        }
    }
}

/// Every window within the limits, in fields of one cell and in the largest.
fn for_each_window(mut look: impl FnMut(ShapeNumbers)) {
    for side in [1, 256] {
        for rows in 1..=512 {
            for columns in 1..=512 / rows {
                let window = Window { rows, columns };
                look(ShapeNumbers { columns: side, rows: side, planes: 1, strength: 0, window });
            }
        }
    }
}

/// No accepted shape has more cells, payload bytes, classes or digits, and some shape has as many. A payload bit takes a cell, so a shape
/// is planned only where it has cells enough for the limit's bytes, which are fewer than those of the limit's digits, where five take six
/// cells; classes depend on planes, strength and window alone, so that one cell a plane does.
#[test]
fn the_limits() {
    let limits = [number("MAX_CELLS"), number("MAX_PAYLOAD_BYTES"), number("MAX_CLASSES"), number("MAX_DIGITS")];
    assert!(8 * limits[1] <= limits[3] / 5 * 6);
    let mut most = [0; 4];
    let mut look = |s: ShapeNumbers| {
        let cells = s.columns * s.rows * s.planes;
        if cells < 8 * limits[1] && cells != s.planes {
            return;
        }
        let plan = ffi::plan(s);
        assert_eq!(plan.number, 0, "{s:?}");
        for (most, figure) in most.iter_mut().zip([plan.cells, plan.bytes, plan.classes, plan.digits]) {
            *most = figure.max(*most);
        }
    };
    for_each_shape(&mut look);
    for_each_window(&mut look);
    assert_eq!(most, limits);
}

/// The names of the members of a struct of the header, all of one type, in their order.
fn members(end: &str) -> Vec<String> {
    let text = text();
    let before = text.lines().take_while(|line| *line != end).collect::<Vec<&str>>();
    let names = before.iter().rev().map_while(|line| line.trim().strip_prefix("size_t ")?.split([' ', ';']).next());
    let mut names: Vec<String> = names.map(String::from).collect();
    names.reverse();
    names
}

/// The members of a plan in C are the figures of one in Rust, in the same order.
#[test]
fn the_members_of_a_plan() {
    assert_eq!(members("} varmintfoil_plan_t;"), ["number", "classes", "capacity", "bytes", "cells", "used", "digits"]);
    let plan = ffi::plan(ShapeNumbers { columns: 7, rows: 7, planes: 1, strength: 2, ..ShapeNumbers::default() });
    let places = [&plan.number, &plan.classes, &plan.capacity, &plan.bytes, &plan.cells, &plan.used, &plan.digits];
    let offsets = places.map(|place| (place as *const usize as usize - places[0] as *const usize as usize) / size_of::<usize>());
    assert_eq!(offsets, [0, 1, 2, 3, 4, 5, 6]);
    assert_eq!(size_of::<ffi::PlanAnswer>(), 7 * size_of::<usize>());
    assert_eq!(places.map(|&figure| figure), [0, 2, 39, 4, 49, 2, 40]);
}

/// The members of a shape in C are the numbers of one in Rust, in the same order.
#[test]
fn the_members_of_a_shape() {
    let names = members("} varmintfoil_shape_t;");
    assert_eq!(names, ["columns", "rows", "planes", "strength", "window_rows", "window_columns"]);
    let window = Window { rows: 5, columns: 6 };
    let shape = ShapeNumbers { columns: 1, rows: 2, planes: 3, strength: 4, window };
    // Six numbers in a row: what C reads at the offset of each member.
    let places = [&shape.columns, &shape.rows, &shape.planes, &shape.strength, &shape.window.rows, &shape.window.columns];
    let first = places[0] as *const usize as usize;
    let offsets = places.map(|place| (place as *const usize as usize - first) / size_of::<usize>());
    assert_eq!(offsets, [0, 1, 2, 3, 4, 5]);
    assert_eq!(size_of::<ShapeNumbers>(), 6 * size_of::<usize>());
}
