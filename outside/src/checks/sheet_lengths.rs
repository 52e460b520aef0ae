//! Bytes that are no sheet for their count: 11 for any but the two lengths, ahead of what they hold. "The given unit
//! comes back, unexamined." And sheets of one length with the lines of the other.

use super::run::{Checked, Run};
use super::sheet_makers::{sheet_of, shortened};
use crate::unit::house_unit;
use crate::unit::sheet::places::{Length, Line, LONG};
use crate::unit::sheet::{BADLY_WRITTEN, LETTER_OR_END, NOT_A_SHEET, SHEET, SHORT_SHEET};
use crate::unit::UNIT_COUNT;

/// Counts beyond a sheet's, among them those of two sheets, and those that equal a sheet's modulo 2^12 and 2^16.
const BEYOND: [usize; 15] =
    [1_260, 1_272, 2_255, 2_256, 2_257, 2_328, 2_399, 2_400, 2_401, 4_096, 5_224, 5_296, 65_536, 66_664, 66_736];

/// One refused reading into a given unit, and into one unfit in all.
fn refused(run: &mut Run, bytes: &[u8]) -> Checked {
    run.read(bytes)?;
    run.leaves(bytes, &[-1; UNIT_COUNT], (NOT_A_SHEET, [-1; UNIT_COUNT]))
}

/// A sheet cut short at every count, and with something behind it; right from its first byte on, and wrong. Then with
/// other line ends.
fn counts(run: &mut Run, sheet: &[u8]) -> Checked {
    let wrong = [b"X", &sheet[1..]].concat();
    let is_wrong = |count: &usize| Length::of(*count).is_none();
    for bytes in [sheet, wrong.as_slice()] {
        for length in (0..sheet.len()).filter(is_wrong) {
            refused(run, &bytes[..length])?;
        }
        for length in (sheet.len()..SHEET + 60).chain(BEYOND).filter(is_wrong) {
            let again: Vec<u8> = bytes.iter().copied().cycle().take(length).collect();
            refused(run, &again)?;
            let mut padded = bytes.to_vec();
            padded.resize(length, run.maker.random.pick(b"\n \0\x1A"));
            refused(run, &padded)?;
        }
    }
    let text = String::from_utf8_lossy(sheet);
    for (from, to) in [("\n", "\r\n"), ("\n", ""), (" ", "")] {
        refused(run, text.replace(from, to).as_bytes())?;
    }
    refused(run, text.trim_end().as_bytes())
}

/// A sheet without the fifth fields of some of the S lines that have one: a bit for each.
fn without_some(sheet: &[u8], lines: u32) -> Vec<u8> {
    let mut some = sheet.to_vec();
    let fed: Vec<&Line> = LONG.lines.iter().filter(|line| line.count == 5).collect();
    for (_, line) in fed.iter().enumerate().rev().filter(|(n, _)| lines & (1 << n) != 0) {
        some.drain(line.field(4));
    }
    some
}

/// A sheet with fifth fields on some of the lines that have them, 11; and with as many of them as there must be, on
/// other lines: then the line end of the first without one is in the place of a field.
fn other_lines(run: &mut Run, sheet: &[u8]) -> Checked {
    for lines in 1..255 {
        refused(run, &without_some(sheet, lines))?;
    }
    for line in LONG.lines.iter().filter(|line| line.letter == b'S' && line.count == 4) {
        let mut moved = sheet.to_vec();
        moved.splice(line.end()..line.end(), *b"        0");
        run.stated_sheet(&without_some(&moved, 1), BADLY_WRITTEN)?;
    }
    Ok(())
}

/// A sheet cut off where a short one ends: the first S line goes on where it must end. And a short one with something
/// behind it that makes up for the fifth fields.
fn wrong_length(run: &mut Run, sheet: &[u8]) -> Checked {
    run.stated_sheet(&sheet[..SHORT_SHEET], LETTER_OR_END)?;
    let short = shortened(sheet);
    for behind in [b' ', b'0', b'\n'] {
        run.stated_sheet(&[&short[..], &[behind; SHEET - SHORT_SHEET]].concat(), BADLY_WRITTEN)?;
    }
    Ok(())
}

pub fn wrong(run: &mut Run) -> Checked {
    let mut sheets = vec![sheet_of(&house_unit())];
    sheets.extend((0..6).map(|turn| run.maker.sheet(turn)));
    for sheet in sheets {
        counts(run, &sheet)?;
        counts(run, &shortened(&sheet))?;
        other_lines(run, &sheet)?;
        wrong_length(run, &sheet)?;
    }
    for _ in 0..2_000 {
        let length = run.maker.random.below(3_000) as usize;
        let bytes = run.maker.bytes(length);
        if Length::of(length).is_none() {
            refused(run, &bytes)?;
        }
    }
    Ok(())
}
