//! Why an operation declines.

use std::fmt;

/// The first reason, in the listed order, for which an operation declines. It has then changed no byte of any buffer.
#[non_exhaustive]
#[derive(Clone, Copy, Debug, PartialEq, Eq, Hash)]
pub enum Refusal {
    /// 1: columns, rows, planes or their product outside the limits.
    BadSize,
    /// 2: a strength outside the limits, or 0 with no window.
    BadStrength,
    /// 3: a payload whose length is not the plan's.
    PayloadLength,
    /// 4: a field whose length is not the plan's.
    FieldLength,
    /// 4: a row, plane or column outside the shape.
    OutsideShape,
    /// 5: a cell above 2.
    BadCell,
    /// 6: some class with no codeword in reach, or some word of levels with no lawful one.
    OutOfReach,
    /// 7: padding that is neither 1, 0, 1, 0 and on nor all zeros after correction.
    BadPadding,
    /// 8: a fault of form in a card text, or a card too large for it.
    BadForm,
    /// 9: settings of the distance test outside its limits.
    BadSettings,
    /// 10: some class with three erasures or more.
    TooManyErasures,
    /// 11: a window outside the limits or in more than one plane, or a window beside a strength.
    BadWindow,
    /// 12: a digit or a cell of a field of levels above 24.
    BadLevel,
}

impl Refusal {
    /// The number that the C interface and the card program give.
    pub fn number(self) -> usize {
        match self {
            Refusal::BadSize => 1,
            Refusal::BadStrength => 2,
            Refusal::PayloadLength => 3,
            Refusal::FieldLength | Refusal::OutsideShape => 4,
            Refusal::BadCell => 5,
            Refusal::OutOfReach => 6,
            Refusal::BadPadding => 7,
            Refusal::BadForm => 8,
            Refusal::BadSettings => 9,
            Refusal::TooManyErasures => 10,
            Refusal::BadWindow => 11,
            Refusal::BadLevel => 12,
        }
    }

    /// The refusal that a number stands for; 4 is read as a field's length.
    pub fn from_number(number: usize) -> Option<Refusal> {
        Some(match number {
            1 => Refusal::BadSize,
            2 => Refusal::BadStrength,
            3 => Refusal::PayloadLength,
            4 => Refusal::FieldLength,
            5 => Refusal::BadCell,
            6 => Refusal::OutOfReach,
            7 => Refusal::BadPadding,
            8 => Refusal::BadForm,
            9 => Refusal::BadSettings,
            10 => Refusal::TooManyErasures,
            11 => Refusal::BadWindow,
            12 => Refusal::BadLevel,
            _ => return None,
        })
    }
}

impl fmt::Display for Refusal {
    fn fmt(&self, f: &mut fmt::Formatter<'_>) -> fmt::Result {
        f.write_str(match self {
            Refusal::BadSize => {
                "the shape is outside the limits: 1 to 256 columns, 1 to 256 rows, 1 to 16 planes, at most 65,536 cells"
            }
            Refusal::BadStrength => {
                "the strength is outside the limits: 1 to 32 for one plane, 1 to 8 for more, 1 to 18 for the distance test"
            }
            Refusal::PayloadLength => "the payload's length is not the one that the plan gives",
            Refusal::FieldLength => "the field's length is not the shape's number of cells",
            Refusal::OutsideShape => "the row, plane or column lies outside the shape",
            Refusal::BadCell => "a cell is above 2",
            Refusal::OutOfReach => {
                "the field is damaged beyond correction: some class has no codeword in reach, or some word of levels no lawful one"
            }
            Refusal::BadPadding => "the padding is neither 1, 0, 1, 0 and on nor all zeros after correction",
            Refusal::BadForm => "the card text is malformed or too large",
            Refusal::BadSettings => "the settings are outside the limits: m from 1 to 4,096, b and c below m",
            Refusal::TooManyErasures => "some class has three erasures or more",
            Refusal::BadWindow => {
                "the window is outside the limits: one plane, strength 0, two sides of at least 1 and at most 512 cells"
            }
            Refusal::BadLevel => "a digit or a cell of a field of levels is above 24",
        })
    }
}

impl std::error::Error for Refusal {}
