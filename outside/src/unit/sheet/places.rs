//! Where the lines and fields of a sheet stand, of either length.

use super::{FIELD, SHEET, SHORT_SHEET};
use crate::unit::{FEEDBACK_COUNT, REMAINDER, STRIP_COUNT};
use std::ops::Range;

/// A line of a sheet: its letter, where it begins, and which of the unit's numbers it carries.
#[derive(Clone, Copy)]
pub struct Line {
    pub letter: u8,
    pub begin: usize,
    pub first: usize,
    pub count: usize,
}

impl Line {
    /// The columns of a field.
    pub fn field(&self, column: usize) -> Range<usize> {
        let begin = self.begin + 1 + FIELD * column;
        begin..begin + FIELD
    }

    /// Where its line feed stands.
    pub const fn end(&self) -> usize {
        self.begin + 1 + FIELD * self.count
    }

    /// The number of the unit behind those of this line. An S line without a fifth field passes over its remainder.
    const fn next(&self) -> usize {
        self.first + if self.letter == b'S' { STRIP_COUNT } else { self.count }
    }
}

/// "33 lines": "V (volume, target); ten C (A, B, G); L (x1, x2, flag); ten S (y1, y2, gain, target); R as L; ten S. The
/// S lines of bands 0 to 3 have a fifth field at the end, the remainder."
pub type Lines = [Line; 33];
const LETTERS: &[u8; 33] = b"VCCCCCCCCCCLSSSSSSSSSSRSSSSSSSSSS";
/// The first S line, and how many lines there are from it to that of the same band on the other side.
const FIRST_S: usize = 12;
const TO_OTHER_SIDE: usize = 11;

/// The lines of a sheet whose first S lines of each side, so many of them, have a fifth field.
const fn lines(fed: usize) -> Lines {
    let mut lines = [Line { letter: b'V', begin: 0, first: 0, count: 2 }; 33];
    let mut n = 1;
    while n < 33 {
        let (letter, before) = (LETTERS[n], lines[n - 1]);
        let count = match letter {
            b'S' if (n - FIRST_S) % TO_OTHER_SIDE < fed => STRIP_COUNT,
            b'S' => REMAINDER,
            _ => 3,
        };
        lines[n] = Line { letter, begin: before.end() + 1, first: before.next(), count };
        n += 1;
    }
    lines
}

/// A length that a sheet may have, in bytes, and the lines of such a sheet.
#[derive(Clone, Copy)]
pub struct Length {
    pub bytes: usize,
    pub lines: &'static Lines,
}

pub const LONG: Length = Length { bytes: SHEET, lines: &lines(FEEDBACK_COUNT) };
pub const SHORT: Length = Length { bytes: SHORT_SHEET, lines: &lines(0) };
pub const LENGTHS: [Length; 2] = [LONG, SHORT];

impl Length {
    /// The length of so many bytes, where a sheet may have it.
    pub fn of(bytes: usize) -> Option<Length> {
        LENGTHS.into_iter().find(|length| length.bytes == bytes)
    }

    /// The places of the numbers that such a sheet carries, each with its columns.
    pub fn fields(self) -> impl Iterator<Item = (usize, Range<usize>)> {
        self.lines.iter().flat_map(|line| (0..line.count).map(|column| (line.first + column, line.field(column))))
    }
}
