//! Sheets with something wrong, and play with them: one line with the number, nothing played, nothing written.

use outside::checks::sheet_makers::{lines_of, SheetMaker};
use outside::checks::sheet_texts::{any_field, badly_written};
use outside::checks::Difference;
use outside::figures;
use outside::unit::exact::Met;
use outside::unit::sheet::places::Line;
use outside::unit::sheet::FIELD;

use crate::expected::{self, line};
use crate::folder::{and_file, with_sheet, without_and_with_old, Contents, NEW_NAME, OLD, PART_NAME};
use crate::format::{RAW, WAVE};
use crate::run::Input;
use crate::seen::Seen;
use crate::test::Test;

/// Lines of each kind: the volume, a band, both sides, and a strip of each, the left one of a band that feeds back.
const V: usize = 0;
const C: usize = 4;
const L: usize = 11;
const S: usize = 14;
const R: usize = 22;
const LAST: usize = 32;

/// Where a number is put wrongly - line, column, text - and the refusal.
const FIELDS: [(usize, usize, &str, u32); 33] = [
    (C, 0, "       -1", 8),
    (C, 0, "  8388608", 8),
    (C, 1, "  4194304", 9),
    (C, 1, " -4194304", 9),
    (C, 2, "  8388607", 10),
    (C, 2, " -8388607", 10),
    (V, 0, "         ", 13),
    (V, 0, "       00", 13),
    (V, 1, "       +1", 13),
    (C, 0, "       -0", 13),
    (C, 1, "       1 ", 13),
    (L, 0, "       \t0", 13),
    (L, 2, "       01", 13),
    (S, 3, "      1-1", 13),
    (R, 1, "        x", 13),
    (LAST, 3, "0        ", 13),
    (S, 4, "       -0", 13),
    (S, 4, "         ", 13),
    (V, 0, "       -1", 14),
    (V, 0, "  8388608", 14),
    (V, 1, "  8388608", 14),
    (L, 0, "        1", 14),
    (L, 1, "  8388608", 14),
    (L, 2, "        2", 14),
    (R, 0, " -8388864", 14),
    (R, 1, "      255", 14),
    (R, 2, "       -1", 14),
    (S, 0, "  8388608", 14),
    (S, 1, " -8388609", 14),
    (S, 2, "999999999", 14),
    (LAST, 3, "-99999999", 14),
    (S, 4, "  2097153", 14),
    (S, 4, " -2097153", 14),
];

/// A sheet with other bytes from this place on.
fn with_bytes(sheet: &[u8], place: usize, bytes: &[u8]) -> Vec<u8> {
    let mut changed = sheet.to_vec();
    changed[place..place + bytes.len()].copy_from_slice(bytes);
    changed
}

/// A refused sheet: its fault in words, the sheet and the number.
type Refused = (String, Vec<u8>, u32);

/// Bytes that are no sheet for their count: this sheet cut short, with something behind it, and with a field left out.
fn lengths(sheet: &[u8]) -> Vec<Refused> {
    let more = |bytes: &[u8]| [sheet, bytes].concat();
    let (last, megabyte) = (sheet.len() - 1, sheet.repeat((1 << 20) / sheet.len() + 1));
    let without_field = [&sheet[..last - FIELD], b"\n"].concat();
    let lengths = [vec![], sheet[..1].to_vec(), sheet[..last].to_vec(), without_field, more(b"\n"), more(b"\n\n")];
    let every = lengths.into_iter().chain([more(sheet), megabyte]);
    every.map(|bytes| (format!("{} bytes", bytes.len()), bytes, 11)).collect()
}

/// Every refused sheet that is made of this one by hand.
pub fn refused(sheet: &[u8]) -> Vec<Refused> {
    let (lines, mut refused) = (lines_of(sheet), lengths(sheet));
    for place in [V, C, L, S, R, LAST] {
        let Line { begin, letter, .. } = lines[place];
        refused.push((format!("small letter in line {place}"), with_bytes(sheet, begin, &[letter + 32]), 12));
        for byte in [b'\r', b' ', 0] {
            let changed = with_bytes(sheet, lines[place].end(), &[byte]);
            refused.push((format!("line {place} ends with {byte}"), changed, 12));
        }
    }
    let swapped = with_bytes(&with_bytes(sheet, lines[L].begin, b"R"), lines[R].begin, b"L");
    refused.push(("R before L".to_string(), swapped, 12));
    for (line, column, text, number) in FIELDS.into_iter().filter(|(line, column, ..)| *column < lines[*line].count) {
        let changed = with_bytes(sheet, lines[line].field(column).start, text.as_bytes());
        refused.push((format!("{text:?} in line {line}, column {column}"), changed, number));
    }
    refused
}

/// Random damage is tried so often.
pub const DAMAGED: u64 = 60;

/// Any damage to any sheet, by turns in one byte or in a field; some are still accepted.
pub fn damaged(turn: u64, maker: &mut SheetMaker) -> Vec<u8> {
    let sheet = maker.any_sheet(turn);
    let random = &mut maker.random;
    if turn.is_multiple_of(3) {
        let place = random.below(sheet.len() as u64) as usize;
        return with_bytes(&sheet, place, &[random.draw() as u8]);
    }
    let line = random.pick(lines_of(&sheet));
    let column = random.below(line.count as u64) as usize;
    let text = any_field(&badly_written(), random);
    with_bytes(&sheet, line.field(column).start, &text)
}

/// The input that is not to be played: whole frames and a tail, and no wave file.
fn input(test: &mut Test) -> Vec<u8> {
    let count = test.maker.random.below(400) as usize;
    test.maker.bytes(count)
}

/// A folder whose sheet is refused.
fn nothing_happens(test: &mut Test, case: &str, folder: &Contents, number: u32) -> Result<(), Difference> {
    let input = input(test);
    let case = format!("{number}: {case}");
    for before in without_and_with_old(folder) {
        let expected = Seen::nothing_but(&line(number), &before);
        let by_reader = expected::play(&before, &input, &mut Met::default());
        assert!(expected == by_reader, "{case}: another refusal");
        for format in [RAW, WAVE] {
            test.expect(&case, &before, format.run(Input::Pipe(&input)), &expected)?;
        }
    }
    Ok(())
}

pub fn all(test: &mut Test) -> Result<(), Difference> {
    let [cleared, short] = [figures::sheet, figures::short_sheet].map(|sheet| sheet(figures::CLEARED));
    for (case, sheet, number) in refused(&cleared).into_iter().chain(refused(&short)) {
        nothing_happens(test, &case, &with_sheet(&sheet), number)?;
    }
    let no_sheet = and_file(&Contents::new(), "strip.sheet", &cleared);
    nothing_happens(test, "no strip.sht", &no_sheet, 11)?;
    nothing_happens(test, "a part left over", &and_file(&no_sheet, PART_NAME, OLD), 11)?;
    for turn in 0..DAMAGED {
        let sheet = damaged(turn, &mut test.maker);
        let input = input(test);
        let before = and_file(&with_sheet(&sheet), NEW_NAME, OLD);
        test.plain(&format!("damage {turn}"), &before, Input::Pipe(&input), &input)?;
    }
    Ok(())
}
