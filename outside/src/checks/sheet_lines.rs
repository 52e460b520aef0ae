//! Every line with a wrong letter, wrong fields and a wrong line end, in all ways together: the first from the left
//! gives the refusal, but "a C line tests 8 to 10 after its three fields, in place of 14 and ahead of its line end."

use super::run::{Checked, Run};
use super::sheet_texts::{outside_numbers, well_written};
use crate::random::Random;
use crate::reference::{ACCEPTED, REFUSED_A};
use crate::unit::sheet::places::{Length, Line, LENGTHS};
use crate::unit::sheet::{BADLY_WRITTEN, LETTER_OR_END, LINE_FEED, OUTSIDE};
use crate::unit::Numbers;

/// What stands for a letter, and for a line feed.
const WRONG_LETTERS: &[u8] = b"VCLSRvclsrXD \n-0\0\xD6\xFF";
const WRONG_ENDS: &[u8] = b"\r \t\x0B\x0C09VS-\0\x8A\xFF";

/// One of these bytes that isn't the right one.
fn wrong_byte(right: u8, bytes: &[u8], random: &mut Random) -> u8 {
    loop {
        let byte = random.pick(bytes);
        if byte != right {
            return byte;
        }
    }
}

impl Line {
    /// Puts a wrong letter in front of the line.
    pub fn spoil_letter(&self, sheet: &mut [u8], random: &mut Random) {
        sheet[self.begin] = wrong_byte(self.letter, WRONG_LETTERS, random);
    }

    /// Puts something else at the line's end.
    pub fn spoil_end(&self, sheet: &mut [u8], random: &mut Random) {
        sheet[self.end()] = wrong_byte(LINE_FEED, WRONG_ENDS, random);
    }
}

/// How a field stands.
#[derive(Clone, Copy)]
enum Written {
    Right,
    Badly,
    Outside,
}

/// What is wrong in a line.
struct Wrong {
    letter: bool,
    fields: Vec<Written>,
    end: bool,
}

impl Wrong {
    /// All combinations: two ways for the letter, two for the end and three for each field.
    fn every(line: &Line) -> impl Iterator<Item = Wrong> {
        let count = line.count as u32;
        (0..4 * 3_usize.pow(count)).map(move |combination| {
            let kinds = [Written::Right, Written::Badly, Written::Outside];
            let written = |column| kinds[combination / 4 / 3_usize.pow(column) % 3];
            let (letter, end) = (combination & 1 != 0, combination & 2 != 0);
            Wrong { letter, fields: (0..count).map(written).collect(), end }
        })
    }

    /// The refusal of this line.
    fn number(&self, line: &Line) -> u32 {
        if self.letter {
            return LETTER_OR_END;
        }
        let mut of_the_band = ACCEPTED;
        for (column, written) in (0..).zip(&self.fields) {
            match written {
                Written::Right => {}
                Written::Badly => return BADLY_WRITTEN,
                Written::Outside if line.letter != b'C' => return OUTSIDE,
                Written::Outside if of_the_band == ACCEPTED => of_the_band = REFUSED_A + column,
                Written::Outside => {}
            }
        }
        match of_the_band {
            ACCEPTED if self.end => LETTER_OR_END,
            number => number,
        }
    }

    /// The sheet of a unit with this line wrong.
    fn sheet(&self, line: &Line, numbers: &Numbers, right: &[u8], run: &mut Run) -> Vec<u8> {
        let (mut sheet, random) = (right.to_vec(), &mut run.maker.random);
        if self.letter {
            line.spoil_letter(&mut sheet, random);
        }
        for (column, written) in self.fields.iter().enumerate() {
            let text = match written {
                Written::Right => continue,
                Written::Badly => random.pick(&run.badly),
                Written::Outside => well_written(random.pick(&outside_numbers(numbers, line.first + column))),
            };
            sheet[line.field(column)].copy_from_slice(&text);
        }
        if self.end {
            line.spoil_end(&mut sheet, random);
        }
        sheet
    }
}

/// Each line of the unit's sheet of this length.
fn each_line(run: &mut Run, length: Length, numbers: &Numbers) -> Checked {
    let right = length.sheet_of(numbers);
    for line in length.lines {
        for wrong in Wrong::every(line) {
            let sheet = wrong.sheet(line, numbers, &right, run);
            run.stated_sheet(&sheet, wrong.number(line))?;
        }
    }
    Ok(())
}

pub fn every(run: &mut Run) -> Checked {
    for turn in 0..12 {
        let numbers = run.maker.unit(turn);
        LENGTHS.into_iter().try_for_each(|length| each_line(run, length, &numbers))?;
    }
    Ok(())
}
