//! Sheets written and read by the reference and by the subject, and compared.

use super::run::{same_left, Checked, Run};
use super::sheet_makers::{shortened, without_remainders};
use crate::reference::ACCEPTED;
use crate::unit::sheet::{exact, SHEET, SHORT_SHEET};
use crate::unit::Numbers;

/// A form of the writer.
pub type Writer = fn(&Numbers, &mut [u8]) -> usize;

/// Bytes in words.
fn spell(bytes: &[u8]) -> String {
    format!("sheet of {} bytes \"{}\"", bytes.len(), bytes.escape_ascii())
}

impl Run<'_> {
    /// Writes a sheet with this form of the reference and with the subject into copies of the lent buffer. Compares the
    /// answer and every byte, and gives the buffer.
    pub fn write(&mut self, reference: Writer, numbers: &Numbers, lent: &[u8]) -> Checked<Vec<u8>> {
        let (mut expected, mut got) = (lent.to_vec(), lent.to_vec());
        let written = reference(numbers, &mut expected);
        let answer = self.subject.sheet_write(numbers, &mut got);
        let inputs = || format!("writing the unit {numbers:?} into {} bytes", lent.len());
        same_left([written, answer], [&expected, &got], inputs)?;
        self.tally.count_written(written, lent.len());
        Ok(got)
    }

    /// Writes the sheet of a fit unit, and reads it back with the subject into the given unit, which must then equal
    /// the first; the short sheet reads as that one with remainders 0. The bytes behind the sheet must be those that
    /// were lent.
    pub fn write_and_read(&mut self, reference: Writer, numbers: &Numbers, lent: &[u8], given: &Numbers) -> Checked {
        let buffer = self.write(reference, numbers, lent)?;
        let (sheet, behind) = buffer.split_at(SHEET);
        self.same(&lent[SHEET..], behind, || format!("bytes behind the sheet of {numbers:?}"))?;
        self.read_back(sheet, given, numbers)?;
        self.read_back(&shortened(sheet), given, &without_remainders(numbers))
    }

    /// Reads a right sheet with the subject into a copy of the given unit, which is then this one.
    fn read_back(&mut self, sheet: &[u8], given: &Numbers, numbers: &Numbers) -> Checked {
        let mut read = *given;
        let answer = self.subject.sheet_read(&mut read, sheet);
        same_left([ACCEPTED, answer], [numbers, &read], || format!("{} read back", spell(sheet)))?;
        self.tally.count_read(sheet.len(), ACCEPTED);
        Ok(())
    }

    /// Reads a sheet into copies of the given unit. Compares the answer and all numbers of the unit, which a refusal
    /// leaves as they were; an accepted sheet is written again to the byte, a short one but for its fifth fields. Gives
    /// the answer.
    pub fn read_into(&mut self, given: &Numbers, bytes: &[u8]) -> Checked<u32> {
        let (mut expected, mut got) = (*given, *given);
        let refusal = exact::read(&mut expected, bytes);
        let answer = self.subject.sheet_read(&mut got, bytes);
        let inputs = || format!("{} read into the unit {given:?}", spell(bytes));
        same_left([refusal, answer], [&expected, &got], inputs)?;
        self.tally.count_read(bytes.len(), refusal);
        if refusal == ACCEPTED {
            let mut again = vec![0; SHEET];
            let written = self.subject.sheet_write(&got, &mut again);
            if bytes.len() == SHORT_SHEET {
                again = shortened(&again);
            }
            self.same((SHEET, bytes), (written, &again), || format!("{} written again", spell(bytes)))?;
        } else {
            same_left([answer; 2], [given, &got], inputs)?;
        }
        Ok(refusal)
    }

    /// One sheet into a unit drawn for it.
    pub fn read(&mut self, bytes: &[u8]) -> Checked<u32> {
        let given = self.maker.given();
        self.read_into(&given, bytes)
    }

    /// One sheet, with its number as the specification states it.
    pub fn stated_sheet(&mut self, bytes: &[u8], number: u32) -> Checked {
        let answer = self.read(bytes)?;
        self.same(number, answer, || spell(bytes))
    }

    /// Reads into this unit with the subject alone: the answer and the numbers must be these.
    pub fn leaves(&mut self, bytes: &[u8], given: &Numbers, expected: (u32, Numbers)) -> Checked {
        let mut after = *given;
        let answer = self.subject.sheet_read(&mut after, bytes);
        self.same(expected, (answer, after), || spell(bytes))
    }
}
