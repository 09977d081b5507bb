//! What the tests of the archive share: a shape's numbers in its types, and its answers as results.

use super::Numbers;
use varmintfoil::{ffi, Decoded, Refusal, Shape, Window};

/// The numbers of a shape as the C interface has them.
pub fn numbers(s: &Numbers) -> ffi::ShapeNumbers {
    let window = Window { rows: s.p, columns: s.q };
    ffi::ShapeNumbers { columns: s.w, rows: s.h, planes: s.d, strength: s.t, window }
}

/// The number of an answer that has no figure as a result.
pub fn answered(number: usize) -> Result<(), usize> {
    match number {
        0 => Ok(()),
        number => Err(number),
    }
}

/// The number as a result; the count of a refusal is 0.
pub fn counted(answer: ffi::CountAnswer) -> Result<usize, usize> {
    if answer.number == 0 {
        return Ok(answer.count);
    }
    assert_eq!(answer.count, 0);
    Err(answer.number)
}

/// The wrapper's shape of some numbers, by each of its constructors that takes them.
pub fn shape_of(s: &Numbers) -> Result<Shape, usize> {
    let shape = Shape::of_numbers(numbers(s));
    if (s.p, s.q) == (0, 0) {
        assert_eq!(shape, Shape::new(s.w, s.h, s.d, s.t));
    }
    if (s.d, s.t) == (1, 0) {
        assert_eq!(shape, Shape::with_window(s.w, s.h, Window { rows: s.p, columns: s.q }));
    }
    shape.map_err(Refusal::number)
}

/// The answer of the wrapper's decoding into a payload; the one that gives a payload of its own says the same.
pub fn decoded(answer: Result<usize, Refusal>, owned: Result<Decoded, Refusal>, payload: &[u8]) -> Result<usize, usize> {
    match answer {
        Ok(count) => {
            let owned = owned.unwrap();
            assert_eq!((owned.payload.as_slice(), owned.mended), (payload, count));
        }
        Err(Refusal::PayloadLength) => {}
        Err(refusal) => assert_eq!(owned, Err(refusal)),
    }
    answer.map_err(Refusal::number)
}
