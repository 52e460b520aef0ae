//! Wave files read and written by the reference and by the subject, and compared.

use super::run::{briefly, same_left, Checked, Run};
use crate::reference::ACCEPTED;
use crate::wave::{self, Read, HEADING};

/// A file in words; of a long one its beginning.
fn spell(file: &[u8]) -> String {
    let shown = &file[..file.len().min(300)];
    format!("wave file of {} bytes \"{}\"", file.len(), shown.escape_ascii())
}

impl Run<'_> {
    /// Reads a file: compares the refusal's number, and where the data begins and ends. Gives the answer.
    pub fn wave(&mut self, file: &[u8]) -> Checked<Read> {
        let expected = wave::read(file);
        let got = self.subject.wave_read(file);
        self.same(expected, got, || spell(file))?;
        self.tally.count_wave(file, expected);
        Ok(expected)
    }

    /// Reads a file, with its answer as it is typed.
    pub fn stated_wave(&mut self, file: &[u8], stated: Read) -> Checked {
        let answer = self.wave(file)?;
        self.same(stated, answer, || spell(file))
    }

    /// Writes frames into copies of the lent buffer. Compares the answer and every byte, those behind the file too, and
    /// gives the answer and the buffer.
    pub fn write_wave(&mut self, frames: &[u8], lent: &[u8]) -> Checked<(u32, Vec<u8>)> {
        let (mut expected, mut got) = (lent.to_vec(), lent.to_vec());
        let refusal = wave::write(frames, &mut expected);
        let answer = self.subject.wave_write(frames, &mut got);
        let inputs = || format!("writing frames of bytes, {}, into {}", briefly(frames), lent.len());
        same_left([refusal, answer], [&expected, &got], inputs)?;
        self.tally.count_wave_written(refusal);
        Ok((answer, got))
    }

    /// Writes frames, with the answer as it is typed. A refusal must leave the buffer as it was; an accepted file is
    /// read back, and its data are the frames.
    pub fn stated_write(&mut self, frames: &[u8], lent: &[u8], stated: u32) -> Checked {
        let (answer, buffer) = self.write_wave(frames, lent)?;
        self.same(stated, answer, || format!("writing {} bytes of frames into {}", frames.len(), lent.len()))?;
        if answer != ACCEPTED {
            return self.same(lent, &buffer, || format!("a buffer after the refusal {answer}"));
        }
        let end = HEADING + frames.len();
        self.stated_wave(&buffer[..end], (ACCEPTED, HEADING, frames.len()))?;
        let parts = (&buffer[HEADING..end], &buffer[end..]);
        self.same((frames, &lent[end..]), parts, || format!("{}, and what lies behind it", spell(&buffer[..end])))
    }
}
