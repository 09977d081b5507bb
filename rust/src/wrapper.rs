//! The safe wrapper over the C interface.

pub use crate::ffi::Window;
use crate::ffi::{self, ShapeNumbers};
use crate::Refusal;

/// What follows from a shape alone.
#[non_exhaustive]
#[derive(Clone, Copy, Debug, PartialEq, Eq, Hash)]
pub struct Plan {
    /// The number of interleaving classes, m.
    pub classes: usize,
    /// The number of cells that hold no check, K.
    pub capacity: usize,
    /// The payload's length in bytes.
    pub bytes: usize,
    /// The number of cells, one byte each.
    pub cells: usize,
    /// The number of classes that hold at least one cell.
    pub used: usize,
    /// The length in digits of the payload of a field of levels.
    pub digits: usize,
}

/// A shape within the limits, with its strength or its window.
#[derive(Clone, Copy, Debug, PartialEq, Eq, Hash)]
pub struct Shape {
    numbers: ShapeNumbers,
    plan: Plan,
}

impl Shape {
    /// The shape for holes of at most `strength` connected cells, or `BadSize`, or `BadStrength`.
    pub fn new(columns: usize, rows: usize, planes: usize, strength: usize) -> Result<Shape, Refusal> {
        Shape::of_numbers(ShapeNumbers { columns, rows, planes, strength, ..ShapeNumbers::default() })
    }

    /// The flat shape for damage inside a window of some rows by some columns, or `BadSize`, or `BadStrength` where both sides are
    /// 0, or `BadWindow` where one is 0 or the window has more than 512 cells. Its sides may exceed the field's.
    ///
    /// An awl tears across corners, and such cells are not connected. Here any cells flipped inside one window are undone, wherever it
    /// lies, also over the field's edge. A patch of t cells that touch by sides or corners lies in a window of t by t.
    ///
    /// ```
    /// use varmintfoil::{decode, encode, Refusal, Shape, Window};
    ///
    /// let shape = Shape::with_window(9, 9, Window { rows: 3, columns: 3 })?;
    /// assert_eq!((shape.classes(), shape.payload_bytes()), (9, 5));
    /// let mut field = encode(&shape, b"torn!")?;
    /// for (row, column) in [(4, 4), (5, 5), (6, 6)] {
    ///     field[shape.cell(row, 0, column)?] ^= 1;
    /// }
    /// let decoded = decode(&shape, &field)?;
    /// assert_eq!((decoded.payload.as_slice(), decoded.mended), (b"torn!".as_slice(), 3));
    /// # Ok::<(), Refusal>(())
    /// ```
    pub fn with_window(columns: usize, rows: usize, window: Window) -> Result<Shape, Refusal> {
        Shape::of_numbers(ShapeNumbers { columns, rows, planes: 1, strength: 0, window })
    }

    /// The shape of these numbers, or `BadSize`, then `BadStrength`, then `BadWindow`.
    pub fn of_numbers(numbers: ShapeNumbers) -> Result<Shape, Refusal> {
        let ffi::PlanAnswer { number, classes, capacity, bytes, cells, used, digits } = ffi::plan(numbers);
        check(number)?;
        Ok(Shape { numbers, plan: Plan { classes, capacity, bytes, cells, used, digits } })
    }

    pub fn columns(&self) -> usize {
        self.numbers.columns
    }

    pub fn rows(&self) -> usize {
        self.numbers.rows
    }

    pub fn planes(&self) -> usize {
        self.numbers.planes
    }

    /// The strength; 0 where a window rules.
    pub fn strength(&self) -> usize {
        self.numbers.strength
    }

    /// The window; 0 by 0 where the shape has a strength.
    pub fn window(&self) -> Window {
        self.numbers.window
    }

    pub fn plan(&self) -> Plan {
        self.plan
    }

    /// The number of interleaving classes.
    pub fn classes(&self) -> usize {
        self.plan.classes
    }

    /// The number of cells that hold no check.
    pub fn capacity(&self) -> usize {
        self.plan.capacity
    }

    /// The payload's length in bytes.
    pub fn payload_bytes(&self) -> usize {
        self.plan.bytes
    }

    /// The number of cells.
    pub fn cells(&self) -> usize {
        self.plan.cells
    }

    /// The number of classes that hold at least one cell. In a field that is small for its strength or its window it can be fewer than
    /// all of them.
    ///
    /// ```
    /// use varmintfoil::{Refusal, Shape};
    ///
    /// let narrow = Shape::new(3, 1, 1, 5)?;
    /// assert_eq!((narrow.classes(), narrow.used_classes()), (13, 3));
    /// # Ok::<(), Refusal>(())
    /// ```
    pub fn used_classes(&self) -> usize {
        self.plan.used
    }

    /// The length in digits of the payload of a field of levels: five for each word of six cells of a class.
    pub fn payload_digits(&self) -> usize {
        self.plan.digits
    }

    /// The byte of a cell in the field, or `OutsideShape`.
    pub fn cell(&self, row: usize, plane: usize, column: usize) -> Result<usize, Refusal> {
        let ShapeNumbers { columns, rows, planes, .. } = self.numbers;
        if row < rows && plane < planes && column < columns {
            Ok((plane * rows + row) * columns + column)
        } else {
            Err(Refusal::OutsideShape)
        }
    }
}

/// A payload read from a field, and the number of cells that were corrected on the way, erased ones among them; of a field of levels
/// the cells of words alone count.
#[non_exhaustive]
#[derive(Clone, Debug, PartialEq, Eq, Hash)]
pub struct Decoded {
    pub payload: Vec<u8>,
    pub mended: usize,
}

/// The verdict of the distance test, with the number of difference triples tried.
#[non_exhaustive]
#[derive(Clone, Copy, Debug, PartialEq, Eq, Hash)]
pub enum Distance {
    /// All different cells of one class are at least t apart.
    #[non_exhaustive]
    Holds { tried: usize },
    /// Two cells that differ by this triple are of one class and closer than t.
    #[non_exhaustive]
    Fails { row: i32, plane: i32, column: i32, tried: usize },
}

/// Success for 0, else the refusal.
fn check(number: usize) -> Result<(), Refusal> {
    if number == 0 {
        return Ok(());
    }
    Err(Refusal::from_number(number).unwrap_or_else(|| panic!("the library gave the unlisted number {number}")))
}

/// The interleaving class of a cell, or `OutsideShape`.
pub fn class_of(shape: &Shape, row: usize, plane: usize, column: usize) -> Result<usize, Refusal> {
    let answer = ffi::class_of(shape.numbers, row, plane, column);
    match answer.number {
        4 => Err(Refusal::OutsideShape),
        number => check(number).map(|()| answer.class_index),
    }
}

/// The field of a payload, or `PayloadLength`.
///
/// The cells after the payload's last bit that hold no check, its padding, are 1, 0, 1, 0 and on, from the first in byte order.
pub fn encode(shape: &Shape, payload: &[u8]) -> Result<Vec<u8>, Refusal> {
    let mut field = vec![0; shape.cells()];
    encode_into(shape, payload, &mut field)?;
    Ok(field)
}

/// Writes the field of a payload into a buffer, or gives `PayloadLength`, then `FieldLength`.
pub fn encode_into(shape: &Shape, payload: &[u8], field: &mut [u8]) -> Result<(), Refusal> {
    check(ffi::encode(shape.numbers, payload, field))
}

/// The payload of a field whose cells are 0, 1, or 2 for an erased one, [`crate::ERASED`]; or `FieldLength`, then `BadCell`,
/// `TooManyErasures`, `OutOfReach`, `BadPadding`.
///
/// A class with one or two erased cells is read as the codeword that agrees with every cell that was read, and any other as the
/// codeword that differs in at most one cell. Zeros for padding, as they were written before version 0.4.0, are read too.
pub fn decode(shape: &Shape, field: &[u8]) -> Result<Decoded, Refusal> {
    let mut payload = vec![0; shape.payload_bytes()];
    let mended = decode_into(shape, field, &mut payload)?;
    Ok(Decoded { payload, mended })
}

/// Reads the payload of a field into a buffer and gives the number of cells corrected on the way, or `PayloadLength`, then as `decode`.
pub fn decode_into(shape: &Shape, field: &[u8], payload: &mut [u8]) -> Result<usize, Refusal> {
    let answer = ffi::decode(shape.numbers, payload, field);
    check(answer.number).map(|()| answer.count)
}

/// Corrects a field where it lies and gives the number of cells changed, erased ones among them, or refuses as `decode` does. The
/// corrected field holds no erased cell; where it has zeros for padding, it keeps them.
///
/// ```
/// use varmintfoil::{correct, encode, Refusal, Shape};
///
/// let shape = Shape::new(3, 1, 1, 1)?;
/// assert_eq!((shape.capacity(), shape.payload_bytes()), (1, 0));
/// assert_eq!(encode(&shape, &[])?, [1, 1, 1]);
///
/// // Written before, and a cell flipped.
/// let mut earlier = [0, 1, 0];
/// assert_eq!(correct(&shape, &mut earlier)?, 1);
/// assert_eq!(earlier, [0, 0, 0]);
/// # Ok::<(), Refusal>(())
/// ```
pub fn correct(shape: &Shape, field: &mut [u8]) -> Result<usize, Refusal> {
    let answer = ffi::correct(shape.numbers, field);
    check(answer.number).map(|()| answer.count)
}

/// The field of levels of some digits, each at most 24, [`crate::MAX_LEVEL`]; or `PayloadLength`, then `BadLevel`.
///
/// The cells of each class, in byte order, are cut into words of six, of which the first is the check; the digits fill the others, in
/// byte order over the field. The last cells of a class, fewer than six, belong to no word and are 0.
///
/// ```
/// use varmintfoil::{encode_levels, Refusal, Shape};
///
/// let shape = Shape::new(12, 1, 1, 2)?;
/// assert_eq!(shape.payload_digits(), 10);
/// assert_eq!(encode_levels(&shape, &[1, 2, 3, 4, 5, 6, 7, 8, 9, 10])?, [21, 12, 1, 2, 3, 4, 5, 6, 7, 8, 9, 10]);
/// # Ok::<(), Refusal>(())
/// ```
pub fn encode_levels(shape: &Shape, payload: &[u8]) -> Result<Vec<u8>, Refusal> {
    let mut field = vec![0; shape.cells()];
    encode_levels_into(shape, payload, &mut field)?;
    Ok(field)
}

/// Writes the field of levels of some digits into a buffer, or gives `PayloadLength`, then `FieldLength`, `BadLevel`.
pub fn encode_levels_into(shape: &Shape, payload: &[u8], field: &mut [u8]) -> Result<(), Refusal> {
    check(ffi::encode_levels(shape.numbers, payload, field))
}

/// The digits of a field of levels, each cell at most 24; or `FieldLength`, then `BadLevel`, `OutOfReach`.
///
/// A word is read as the lawful word of levels from which it comes by a change of −1, 1, 2 or 3, read less written, in at most one cell.
/// The cells that belong to no word are not looked at, save that they are levels, and are not counted.
///
/// ```
/// use varmintfoil::{decode_levels, Refusal, Shape};
///
/// let shape = Shape::new(7, 1, 1, 1)?;
/// let decoded = decode_levels(&shape, &[0, 4, 0, 0, 0, 0, 24])?;
/// assert_eq!((decoded.payload.as_slice(), decoded.mended), ([5, 0, 0, 0, 0].as_slice(), 1));
/// assert_eq!(decode_levels(&shape, &[24, 0, 0, 0, 0, 0, 0]), Err(Refusal::OutOfReach));
/// assert_eq!(decode_levels(&shape, &[0, 3, 0, 0, 0, 0, 25]), Err(Refusal::BadLevel));
/// # Ok::<(), Refusal>(())
/// ```
pub fn decode_levels(shape: &Shape, field: &[u8]) -> Result<Decoded, Refusal> {
    let mut payload = vec![0; shape.payload_digits()];
    let mended = decode_levels_into(shape, field, &mut payload)?;
    Ok(Decoded { payload, mended })
}

/// Reads the digits of a field of levels into a buffer and gives the number of cells of words corrected on the way, or
/// `PayloadLength`, then as `decode_levels`.
pub fn decode_levels_into(shape: &Shape, field: &[u8], payload: &mut [u8]) -> Result<usize, Refusal> {
    let answer = ffi::decode_levels(shape.numbers, payload, field);
    check(answer.number).map(|()| answer.count)
}

/// Corrects a field of levels where it lies and gives the number of all cells changed, or refuses as `decode_levels` does. The cells
/// that belong to no word are left 0.
///
/// ```
/// use varmintfoil::{correct_levels, Refusal, Shape};
///
/// let shape = Shape::new(7, 1, 1, 1)?;
/// let mut field = [0, 3, 0, 0, 0, 0, 9];
/// assert_eq!(correct_levels(&shape, &mut field)?, 2);
/// assert_eq!(field, [0; 7]);
/// # Ok::<(), Refusal>(())
/// ```
pub fn correct_levels(shape: &Shape, field: &mut [u8]) -> Result<usize, Refusal> {
    let answer = ffi::correct_levels(shape.numbers, field);
    check(answer.number).map(|()| answer.count)
}

/// Are all different cells of one class, (column − b × row − c × plane) mod m, at least t apart in an endless stack?
/// `BadStrength` for t outside 1 to 18, then `BadSettings`.
pub fn distance_test(m: usize, b: usize, c: usize, t: usize) -> Result<Distance, Refusal> {
    let ffi::DistanceAnswer { number, holds, row, plane, column, tried } = ffi::distance_test(m, b, c, t);
    check(number)?;
    Ok(if holds == 1 { Distance::Holds { tried } } else { Distance::Fails { row, plane, column, tried } })
}
