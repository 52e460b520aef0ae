//! The sheet for use: its columns are filled and read one by one, and nothing is allocated.

use super::places::Length;
use super::{BADLY_WRITTEN, FIELD, LETTER_OR_END, LINE_FEED, NOT_A_SHEET, OUTSIDE, SHEET};
use crate::reference::{band_refusal, is_word, ACCEPTED, WORD_MAX};
use crate::unit::{fast::fit, Numbers, BANDS, LEFT, RIGHT, STRIPS, STRIP_COUNT, UNIT_COUNT, VOLUME};
use crate::unit::{FEEDBACK_COUNT, REMAINDER, REMAINDER_SIZE};

/// Writes a number of at most eight columns.
fn write_field(field: &mut [u8; FIELD], number: i32) {
    *field = [b' '; FIELD];
    let mut rest = number.unsigned_abs();
    let mut place = FIELD;
    loop {
        place -= 1;
        field[place] = b'0' + (rest % 10) as u8;
        rest /= 10;
        if rest == 0 {
            break;
        }
    }
    if number < 0 {
        field[place - 1] = b'-';
    }
}

/// Writes the sheet to the front of the buffer.
pub fn write(numbers: &Numbers, buffer: &mut [u8]) -> usize {
    if buffer.len() < SHEET || !fit(numbers) {
        return 0;
    }
    let mut rest = write_line::<2>(buffer, b'V', &numbers[VOLUME..]);
    for band in numbers[BANDS..LEFT].chunks_exact(3) {
        rest = write_line::<3>(rest, b'C', band);
    }
    for (letter, side) in [(b'L', &numbers[LEFT..RIGHT]), (b'R', &numbers[RIGHT..])] {
        rest = write_line::<3>(rest, letter, side);
        let (fed, plain) = side[STRIPS..].split_at(FEEDBACK_COUNT * STRIP_COUNT);
        for strip in fed.chunks_exact(STRIP_COUNT) {
            rest = write_line::<5>(rest, b'S', strip);
        }
        for strip in plain.chunks_exact(STRIP_COUNT) {
            rest = write_line::<4>(rest, b'S', strip);
        }
    }
    SHEET
}

/// Writes a line of the first N numbers to the front of the bytes, and gives the bytes behind it.
#[inline(always)]
fn write_line<'a, const N: usize>(bytes: &'a mut [u8], letter: u8, numbers: &[i32]) -> &'a mut [u8] {
    let (line, rest) = bytes.split_at_mut(2 + N * FIELD);
    line[0] = letter;
    let (fields, _) = line[1..].as_chunks_mut();
    for n in 0..N {
        write_field(&mut fields[n], numbers[n]);
    }
    line[1 + N * FIELD] = LINE_FEED;
    rest
}

/// Blanks, a minus or none, and digits that begin with 0 only for 0 itself. Nine digits are less than 2^31.
pub fn read_field(field: &[u8; FIELD]) -> Result<i32, u32> {
    let blanks = field.iter().take_while(|&&byte| byte == b' ').count();
    let (negative, digits) = match &field[blanks..] {
        [b'-', digits @ ..] => (true, digits),
        digits => (false, digits),
    };
    match digits {
        [] => return Err(BADLY_WRITTEN),
        [b'0'] if !negative => return Ok(0),
        [b'0', ..] => return Err(BADLY_WRITTEN),
        _ => {}
    }
    let mut size = 0;
    for &digit in digits {
        if !digit.is_ascii_digit() {
            return Err(BADLY_WRITTEN);
        }
        size = 10 * size + i32::from(digit - b'0');
    }
    Ok(if negative { -size } else { size })
}

/// Whether a number is in the range of its column; those of a C line are tested together.
fn is_inside(letter: u8, column: usize, number: i32) -> bool {
    match (letter, column) {
        (b'V', _) => (0..=WORD_MAX).contains(&number),
        (b'C', _) => true,
        (b'L' | b'R', 2) => matches!(number, 0 | 1),
        (b'L' | b'R', _) => is_word(number) && number & 0xFF == 0,
        (b'S', REMAINDER) => (-REMAINDER_SIZE..=REMAINDER_SIZE).contains(&number),
        _ => is_word(number),
    }
}

/// Reads a line. 8 to 10 come after the three fields of a C line and ahead of its line end.
#[inline(always)]
fn read_line<const N: usize>(line: &[u8], letter: u8, numbers: &mut [i32]) -> Result<(), u32> {
    if line[0] != letter {
        return Err(LETTER_OR_END);
    }
    let (fields, _) = line[1..1 + N * FIELD].as_chunks();
    for column in 0..N {
        numbers[column] = read_field(&fields[column])?;
        if !is_inside(letter, column, numbers[column]) {
            return Err(OUTSIDE);
        }
    }
    let refusal = if letter == b'C' { band_refusal(numbers[0], numbers[1], numbers[2]) } else { ACCEPTED };
    match refusal {
        ACCEPTED if line[1 + N * FIELD] != LINE_FEED => Err(LETTER_OR_END),
        ACCEPTED => Ok(()),
        _ => Err(refusal),
    }
}

fn read_sheet(bytes: &[u8]) -> Result<Numbers, u32> {
    let length = Length::of(bytes.len()).ok_or(NOT_A_SHEET)?;
    let mut numbers = [0; UNIT_COUNT];
    for line in length.lines {
        let (bytes, numbers) = (&bytes[line.begin..=line.end()], &mut numbers[line.first..][..line.count]);
        match (line.letter, line.count) {
            (b'V', _) => read_line::<2>(bytes, b'V', numbers),
            (b'S', 4) => read_line::<4>(bytes, b'S', numbers),
            (b'S', _) => read_line::<5>(bytes, b'S', numbers),
            (b'C', _) => read_line::<3>(bytes, b'C', numbers),
            (letter, _) => read_line::<3>(bytes, letter, numbers),
        }?;
    }
    Ok(numbers)
}

/// Reads a sheet into the numbers, which a refusal leaves as they were.
pub fn read(numbers: &mut Numbers, bytes: &[u8]) -> u32 {
    read_sheet(bytes).map(|read| *numbers = read).err().unwrap_or(ACCEPTED)
}
