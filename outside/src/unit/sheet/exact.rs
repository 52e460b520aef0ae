//! The plain meaning of a sheet: a field is a number as it is formatted, and a sheet is read from its first byte on.

use super::{BADLY_WRITTEN, FIELD, LETTER_OR_END, LINE_FEED, NOT_A_SHEET, OUTSIDE, SHEET, SHORT_SHEET};
use crate::reference::{band_refusal, is_word, ACCEPTED};
use crate::unit::{exact::fit, feeds_back, Level, Numbers, Unit, UNIT_COUNT};
use std::fmt::Write;

/// "each a letter, fields of nine columns with decimal numbers right-justified in blanks, and a line feed".
fn write_line(text: &mut String, letter: char, numbers: &[i32]) {
    text.push(letter);
    for number in numbers {
        write!(text, "{number:>9}").expect("a string takes all");
    }
    text.push('\n');
}

/// "In order: V (volume, target); ten C (A, B, G); L (x1, x2, flag); ten S (y1, y2, gain, target); R as L; ten S. The S
/// lines of bands 0 to 3 have a fifth field at the end, the remainder."
fn text(unit: &Unit) -> String {
    let mut text = String::with_capacity(SHEET);
    let Level { present, target } = unit.volume;
    write_line(&mut text, 'V', &[present, target]);
    for band in &unit.bands {
        write_line(&mut text, 'C', &[band.a, band.b, band.g]);
    }
    for (letter, side) in ['L', 'R'].into_iter().zip(&unit.sides) {
        write_line(&mut text, letter, &[side.x1, side.x2, side.flag]);
        for (band, strip) in side.strips.iter().enumerate() {
            let Level { present, target } = strip.gain;
            let numbers = [strip.y1, strip.y2, present, target, strip.remainder];
            write_line(&mut text, 'S', if feeds_back(band) { &numbers } else { &numbers[..4] });
        }
    }
    text
}

/// Writes the sheet to the front of the buffer and gives its length; "from a shorter buffer, or for an unfit unit", 0,
/// "and writes nothing. Bytes behind the sheet keep their contents."
pub fn write(numbers: &Numbers, buffer: &mut [u8]) -> usize {
    if buffer.len() < SHEET || !fit(numbers) {
        return 0;
    }
    let text = text(&Unit::from_numbers(numbers));
    buffer[..SHEET].copy_from_slice(text.as_bytes());
    SHEET
}

/// "No leading zeros, no plus, minus only before a number that isn't 0": behind its blanks a field holds just what its
/// number formats to.
fn parsed(field: &[u8]) -> Option<i32> {
    let text = std::str::from_utf8(field).ok()?.trim_start_matches(' ');
    let number: i32 = text.parse().ok()?;
    (number.to_string() == text).then_some(number)
}

/// Whether a number is inside its range.
type Range = fn(i32) -> bool;

/// "the volume V is 0 to 8,388,607", and its target too.
const VOLUME: Range = |number| (0..=8_388_607).contains(&number);
/// "x1 and x2 are words and multiples of 256; a flag is 0 or 1."
const INPUT: Range = |number| is_word(number) && number % 256 == 0;
const FLAG: Range = |number| number == 0 || number == 1;
/// Results, gains and targets.
const WORD: Range = is_word;
/// "the remainder from -2,097,152 to 2,097,152".
const REMAINDER: Range = |number| (-2_097_152..=2_097_152).contains(&number);
/// "a C line tests 8 to 10 after its three fields, in place of 14".
const LATER: Range = |_| true;

/// What is left of a sheet, and the numbers read so far.
struct Reading<'a> {
    rest: &'a [u8],
    numbers: Vec<i32>,
}

impl Reading<'_> {
    fn byte(&mut self, wanted: u8) -> Result<(), u32> {
        let (byte, rest) = self.rest.split_first().expect("a whole sheet");
        self.rest = rest;
        (*byte == wanted).then_some(()).ok_or(LETTER_OR_END)
    }

    /// A letter, and the fields of numbers that have these ranges.
    fn fields(&mut self, letter: u8, ranges: &[Range]) -> Result<(), u32> {
        self.byte(letter)?;
        for inside in ranges {
            let (field, rest) = self.rest.split_at(FIELD);
            self.rest = rest;
            let number = parsed(field).ok_or(BADLY_WRITTEN)?;
            if !inside(number) {
                return Err(OUTSIDE);
            }
            self.numbers.push(number);
        }
        Ok(())
    }

    fn line(&mut self, letter: u8, ranges: &[Range]) -> Result<(), u32> {
        self.fields(letter, ranges)?;
        self.byte(LINE_FEED)
    }

    /// An S line with a fifth field, or without one: then the remainder is 0. "Of 1,128 bytes every S line is read with
    /// four fields."
    fn strip(&mut self, has_remainder: bool) -> Result<(), u32> {
        if has_remainder {
            return self.line(b'S', &[WORD, WORD, WORD, WORD, REMAINDER]);
        }
        self.line(b'S', &[WORD; 4])?;
        self.numbers.push(0);
        Ok(())
    }

    /// A C line, with 8 to 10 "ahead of its line end."
    fn band(&mut self) -> Result<(), u32> {
        self.fields(b'C', &[LATER; 3])?;
        let band = self.numbers.last_chunk::<3>().expect("three numbers");
        match band_refusal(band[0], band[1], band[2]) {
            ACCEPTED => self.byte(LINE_FEED),
            refusal => Err(refusal),
        }
    }
}

/// The numbers of a sheet, or its refusal.
fn sheet(bytes: &[u8]) -> Result<Vec<i32>, u32> {
    if ![SHEET, SHORT_SHEET].contains(&bytes.len()) {
        return Err(NOT_A_SHEET);
    }
    let mut reading = Reading { rest: bytes, numbers: Vec::with_capacity(UNIT_COUNT) };
    reading.line(b'V', &[VOLUME; 2])?;
    (0..10).try_for_each(|_| reading.band())?;
    for letter in [b'L', b'R'] {
        reading.line(letter, &[INPUT, INPUT, FLAG])?;
        (0..10).try_for_each(|band| reading.strip(bytes.len() == SHEET && feeds_back(band)))?;
    }
    Ok(reading.numbers)
}

/// Reads a sheet into the numbers. After a refusal "The given unit comes back, unexamined."
pub fn read(numbers: &mut Numbers, bytes: &[u8]) -> u32 {
    sheet(bytes).map(|read| numbers.copy_from_slice(&read)).err().unwrap_or(ACCEPTED)
}
