//! What the programs must do, by the independent implementation.

use outside::checks::sheet_makers::sheet_of;
use outside::reference::ACCEPTED;
use outside::unit::exact::{self, Met};
use outside::unit::orders::{exact as orders, Order};
use outside::unit::sheet::{exact as sheet, FIELD};
use outside::unit::{house_unit, Numbers, PART_OF_A_FRAME, UNIT_COUNT};
use outside::wave::{heading, walk, MOST, NO_DATA};

use super::folder::{and_file, file_in, Contents, NEW_NAME, SHEET_NAME};
use super::run::{DESK, HOUSE, PLAY};
use super::seen::Seen;

/// How a program is used, in one line.
pub fn usage(program: &str) -> &'static str {
    match program {
        PLAY => "usage: play [--wave | --help | --version] <FRAMES >SOUND\n",
        HOUSE => "usage: house [--help | --version] >SHEET\n",
        DESK => "usage: desk SIDE BAND POSITION [SIDE BAND POSITION ...] <SHEET >SHEET\n",
        _ => "",
    }
}

/// A refusal as it is told: "one line on standard error, its number".
pub fn line(number: u32) -> String {
    format!("{number}\n")
}

/// The unit that a sheet carries, or its refusal.
fn unit_of(bytes: &[u8]) -> Result<Numbers, u32> {
    let mut unit = [0; UNIT_COUNT];
    match sheet::read(&mut unit, bytes) {
        ACCEPTED => Ok(unit),
        refusal => Err(refusal),
    }
}

/// A run of play with nothing wrong but the sheet or the length of the input.
pub fn play(before: &Contents, input: &[u8], met: &mut Met) -> Seen {
    // "A `strip.sht` that can't be opened counts as empty."
    let mut unit = match unit_of(file_in(before, SHEET_NAME).unwrap_or_default()) {
        Ok(unit) => unit,
        Err(refusal) => return Seen::nothing_but(&line(refusal), before),
    };
    let whole = &input[..input.len() / 4 * 4];
    let mut sound = vec![0; whole.len()];
    assert_eq!(exact::block(&mut unit, whole, &mut sound, met), ACCEPTED);
    let errors = if whole.len() < input.len() { line(PART_OF_A_FRAME) } else { String::new() };
    let after = and_file(before, NEW_NAME, &sheet_of(&unit));
    Seen { sound, errors: errors.into_bytes(), after, ..Seen::written(&[], before) }
}

/// The bytes of standard input in which the headings of a wave file must end.
pub const FRONT: usize = 65_536;

/// A run of play --wave with nothing wrong but the sheet or the wave file.
pub fn wave(before: &Contents, input: &[u8], met: &mut Met) -> Seen {
    let unplayed = play(before, &[], met);
    if !unplayed.errors.is_empty() {
        return unplayed;
    }
    let (from, size) = match walk(&input[..input.len().min(FRONT)]) {
        Ok(data) => data,
        Err(refusal) => return Seen::nothing_but(&line(refusal), before),
    };
    let came = input[from..].len().min(size as usize);
    let is_whole = came == size as usize;
    // No heading can be written for such data.
    if size % 4 != 0 || size as usize > MOST {
        return Seen::nothing_but(&line(if is_whole { PART_OF_A_FRAME } else { NO_DATA }), before);
    }
    let mut seen = play(before, &input[from..][..came / 4 * 4], met);
    seen.sound.splice(..0, heading(size));
    if is_whole {
        return seen;
    }
    Seen { errors: line(NO_DATA).into(), after: before.clone(), ..seen }
}

/// What house writes.
pub fn house_sheet() -> Vec<u8> {
    sheet_of(&house_unit())
}

/// A number not below zero, written as in a field of the strip sheet: nine columns at most, and only blanks before
/// its digits.
fn number(text: &[u8]) -> Option<u32> {
    let text = std::str::from_utf8(text).ok()?;
    let digits = text.trim_start_matches(' ');
    let number: u32 = digits.parse().ok()?;
    (text.len() <= FIELD && number.to_string() == digits).then_some(number)
}

/// The order that three arguments give, if they give one.
fn order(arguments: &[&[u8]]) -> Option<Order> {
    let (side, band) = (number(arguments[0])?, number(arguments[1])?);
    if arguments[2] == b"mute" {
        return Some(Order::mute(side, band));
    }
    // Every position over 31 is refused alike.
    Some(Order::position(side, band, number(arguments[2])?.min(32) as u8))
}

/// The most orders of one call.
pub const MOST_ORDERS: usize = 31;

/// The orders that the arguments of desk give, if they give some.
fn orders_in(arguments: &[&[u8]]) -> Option<Vec<Order>> {
    let is_count = arguments.len().is_multiple_of(3) && (3..=3 * MOST_ORDERS).contains(&arguments.len());
    is_count.then(|| arguments.chunks(3).map(order).collect())?
}

/// The sheet after these orders, or the first refusal.
fn ordered(bytes: &[u8], list: &[Order]) -> Result<Vec<u8>, u32> {
    let mut unit = unit_of(bytes)?;
    for order in list {
        match orders::order(&mut unit, order) {
            ACCEPTED => {}
            refusal => return Err(refusal),
        }
    }
    Ok(sheet_of(&unit))
}

/// A run of desk with nothing wrong but the arguments, the sheet or an order.
pub fn desk(arguments: &[&[u8]], bytes: &[u8], before: &Contents) -> Seen {
    let Some(list) = orders_in(arguments) else {
        return Seen::nothing_but(usage(DESK), before);
    };
    match ordered(bytes, &list) {
        Ok(sheet) => Seen::written(&sheet, before),
        Err(refusal) => Seen::nothing_but(&line(refusal), before),
    }
}
