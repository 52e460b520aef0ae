//! Sheets of the fast form, spoiled.

use super::feedback::remainders;
use super::sound::strips;
use crate::checks::sheet_makers::shortened;
use crate::reference::ACCEPTED;
use crate::unit::sheet::fast::{read, write};
use crate::unit::sheet::places::{Length, LONG};
use crate::unit::sheet::{FIELD, LETTER_OR_END, LINE_FEED, SHEET, SHORT_SHEET};
use crate::unit::{house_unit, strip_at, Numbers, LEFT, RIGHT};

type Text = &'static [u8; FIELD];
const ZERO: Text = b"        0";

/// The unit with y1 and y2 exchanged in each band.
pub fn exchanged(unit: &Numbers) -> Numbers {
    let mut other = *unit;
    strips().for_each(|(_, strip)| other.swap(strip, strip + 1));
    other
}

/// A reader that takes fields for others: for that of a place, as it stands, the text that is read in its place, and
/// the number that the unit has of it then.
fn read_for(unit: &mut Numbers, bytes: &[u8], taken: impl Fn(usize, &[u8]) -> Option<(Text, i32)>) -> u32 {
    let (mut other, mut numbers) = (bytes.to_vec(), Vec::new());
    for (place, field) in Length::of(bytes.len()).into_iter().flat_map(Length::fields) {
        if let Some((text, number)) = taken(place, &bytes[field.clone()]) {
            other[field].copy_from_slice(text);
            numbers.push((place, number));
        }
    }
    let refusal = read(unit, &other);
    if refusal == ACCEPTED {
        numbers.into_iter().for_each(|(place, number)| unit[place] = number);
    }
    refusal
}

/// A reader that takes 2 for a flag.
pub fn flag_2(unit: &mut Numbers, bytes: &[u8]) -> u32 {
    read_for(unit, bytes, |place, field| match field {
        b"        2" if [LEFT + 2, RIGHT + 2].contains(&place) => Some((b"        1", 2)),
        _ => None,
    })
}

/// A reader that takes remainders one beyond their range.
pub fn wide_remainders(unit: &mut Numbers, bytes: &[u8]) -> u32 {
    read_for(unit, bytes, |place, field| match field {
        _ if remainders().all(|remainder| remainder != place) => None,
        b"  2097153" => Some((b"  2097152", 2_097_153)),
        b" -2097153" => Some((b" -2097152", -2_097_153)),
        _ => None,
    })
}

/// A reader that passes over the fifth fields.
pub fn remainders_unread(unit: &mut Numbers, bytes: &[u8]) -> u32 {
    read_for(unit, bytes, |place, _| remainders().any(|remainder| remainder == place).then_some((ZERO, 0)))
}

/// A reader that leaves the numbers of the last line as they were given.
pub fn last_line_unread(unit: &mut Numbers, bytes: &[u8]) -> u32 {
    let given = *unit;
    read_for(unit, bytes, |place, _| (place >= strip_at(RIGHT, 9)).then(|| (ZERO, given[place])))
}

/// A reader that looks at all letters and line ends first. They stand where those of any other sheet of that length do.
pub fn letters_first(unit: &mut Numbers, bytes: &[u8]) -> u32 {
    let right = Length::of(bytes.len()).map_or(Vec::new(), |length| length.sheet_of(&house_unit()));
    let is_tested = |byte: &u8| byte.is_ascii_uppercase() || *byte == LINE_FEED;
    if right.iter().zip(bytes).any(|(right, byte)| is_tested(right) && byte != right) {
        LETTER_OR_END
    } else {
        read(unit, bytes)
    }
}

/// A reader that takes a field for one digit where its first four columns are blank.
pub fn four_blanks_for_eight(unit: &mut Numbers, bytes: &[u8]) -> u32 {
    let mut other = bytes.to_vec();
    for (_, field) in Length::of(bytes.len()).into_iter().flat_map(Length::fields) {
        if bytes[field.clone()].starts_with(b"    ") {
            other[field.start + 4..field.end - 1].fill(b' ');
        }
    }
    read(unit, &other)
}

/// A reader that takes a sheet whose right side has no fifth fields, with remainders 0 there.
pub fn right_side_short(unit: &mut Numbers, bytes: &[u8]) -> u32 {
    let fed = LONG.lines.iter().filter(|line| line.first > RIGHT && line.count == 5);
    let mut other = bytes.to_vec();
    if bytes.len() == SHEET - 4 * FIELD {
        fed.for_each(|line| _ = other.splice(line.end() - FIELD..line.end() - FIELD, *ZERO));
    }
    read(unit, &other)
}

/// A writer of short sheets.
pub fn write_short(unit: &Numbers, buffer: &mut [u8]) -> usize {
    let mut sheet = [0; SHEET];
    if buffer.len() < SHORT_SHEET || write(unit, &mut sheet) == 0 {
        return 0;
    }
    buffer[..SHORT_SHEET].copy_from_slice(&shortened(&sheet));
    SHORT_SHEET
}
