//! The test that tells damage beyond the promise, as the example has it: its bounds, and damage within the promise.

#[path = "../examples/beyond.rs"]
#[allow(dead_code)]
mod beyond;
mod common;

use beyond::within_promise;
use common::*;
use varmintfoil::{correct, encode, Shape, Window};

/// What the test says of an empty field of 9 by 9 by 9 cells at strength 3 in which these cells are flipped: rows, planes, columns.
fn flipped(cells: &[[usize; 3]]) -> bool {
    let shape = Shape::new(9, 9, 9, 3).unwrap();
    let before = vec![0; shape.cells()];
    let mut after = before.clone();
    for &[row, plane, column] in cells {
        after[shape.cell(row, plane, column).unwrap()] = 1;
    }
    within_promise(&shape, &before, &after)
}

#[test]
fn the_bounds() {
    assert!(flipped(&[]));
    for (near, far) in [([4, 4, 6], [4, 4, 7]), ([4, 6, 4], [4, 7, 4]), ([6, 4, 4], [7, 4, 4]), ([5, 4, 3], [5, 5, 3])] {
        assert!(flipped(&[[4, 4, 4], near]), "two cells that are 2 apart: {near:?}");
        assert!(!flipped(&[[4, 4, 4], far]), "two cells that are 3 apart: {far:?}");
    }
    // The last cell of a line is not beside the first of the next, nor that of a plane.
    assert!(!flipped(&[[4, 4, 8], [5, 4, 0]]));
    assert!(!flipped(&[[8, 4, 8], [0, 5, 0]]));
    assert!(flipped(&[[4, 4, 4], [4, 4, 5], [5, 4, 4]]), "three cells");
    assert!(!flipped(&[[4, 4, 4], [4, 4, 5], [5, 4, 4], [5, 4, 5]]), "four cells that are near each other");
    assert!(!flipped(&[[4, 4, 3], [4, 4, 5], [4, 4, 7]]), "three cells in a row of near ones");
}

/// The same of an empty field of 9 by 9 cells that a window of 2 by 3 rules: rows and columns.
fn flipped_by_window(cells: &[[usize; 2]]) -> bool {
    let shape = Shape::with_window(9, 9, Window { rows: 2, columns: 3 }).unwrap();
    let before = vec![0; shape.cells()];
    let mut after = before.clone();
    for &[row, column] in cells {
        after[shape.cell(row, 0, column).unwrap()] = 1;
    }
    within_promise(&shape, &before, &after)
}

#[test]
fn the_bounds_of_a_window() {
    assert!(flipped_by_window(&[]));
    assert!(flipped_by_window(&[[4, 4], [5, 6]]), "two corners of a window");
    assert!(flipped_by_window(&[[4, 6], [5, 4]]), "its other two corners");
    assert!(!flipped_by_window(&[[4, 4], [6, 4]]), "a row too far");
    assert!(!flipped_by_window(&[[4, 4], [4, 7]]), "a column too far");
    assert!(!flipped_by_window(&[[4, 8], [5, 0]]), "the last cell of a line and the first of the next");
    assert!(flipped_by_window(&[[4, 4], [4, 5], [4, 6], [5, 4], [5, 5], [5, 6]]), "a whole window");
    assert!(!flipped_by_window(&[[4, 3], [4, 5], [4, 7]]), "three cells in a row of near ones");
}

/// Any cells of any one cluster of at most t cells, or of any one window.
#[test]
fn one_hole() {
    let mut random = outside::random(11);
    for _ in 0..outside::rounds(20_000) {
        let numbers = lawful_shape(&mut random, true);
        let window = Window { rows: numbers.p, columns: numbers.q };
        let shape = if numbers.is_ruled() {
            Shape::with_window(numbers.w, numbers.h, window).unwrap()
        } else {
            Shape::new(numbers.w, numbers.h, numbers.d, numbers.t).unwrap()
        };
        let mut before = encode(&shape, &random.bytes(shape.payload_bytes())).unwrap();
        let cells = hole(&mut random, &numbers);
        let cells = some_of(&mut random, &cells);
        for &cell in &cells {
            before[cell] ^= 1;
        }
        let mut after = before.clone();
        assert_eq!(guards::lend(&mut after, |field| correct(&shape, field)), Ok(cells.len()));
        assert!(within_promise(&shape, &before, &after), "{numbers:?} {cells:?}");
    }
}
