//! Lists previewed by the exact reference and by the subject, and compared; and the preview held against the same
//! subject's section.

use super::bands::Band;
use super::run::{briefly, same_left, Checked, Run};
use crate::preview::exact;
use crate::random::Random;
use crate::reference::{ACCEPTED, WORD_MAX, WORD_MIN};

/// The two buffers of a preview: for the results and for the remainders.
pub type Buffers = [Vec<i32>; 2];

/// Buffers of so many entries each, many of them no words.
pub fn buffers(rooms: [usize; 2], random: &mut Random) -> Buffers {
    rooms.map(|room| buffer(room, random))
}

fn buffer(room: usize, random: &mut Random) -> Vec<i32> {
    const KNOWN: [i32; 6] = [i32::MIN, i32::MAX, WORD_MIN - 1, WORD_MAX + 1, 0, -1];
    let entry = |_| match random.below(3) {
        0 => random.pick(&KNOWN),
        1 => random.word(),
        _ => random.any_i32(),
    };
    (0..room).map(entry).collect()
}

/// A preview in words.
fn what(band: Band, words: &[i32], rooms: [usize; 2]) -> String {
    format!("preview with A, B, G = {band:?} of words, {}, into {rooms:?}", briefly(words))
}

impl Run<'_> {
    /// The subject's preview of a list.
    pub fn asked_preview(&self, band: Band, words: &[i32], [results, remainders]: &mut Buffers) -> u32 {
        self.subject.preview(band, words, results, remainders)
    }

    /// Previews a list into copies of the lent buffers. Compares the answer and every entry, those past the results and
    /// the remainders too; accepted ones are compared with the subject's section as well.
    pub fn preview_into(&mut self, band: Band, words: &[i32], lent: &Buffers) -> Checked {
        let (mut expected, mut got) = (lent.clone(), lent.clone());
        let count = |before: &_, x, answer| self.tally.count_previewed(before, x, answer);
        let refusal = exact::preview(band, words, expected.each_mut().map(|buffer| &mut buffer[..]), count);
        let answer = self.asked_preview(band, words, &mut got);
        for (buffer, name) in ["results", "remainders"].into_iter().enumerate() {
            let inputs = || format!("{}, {name}", what(band, words, lent.each_ref().map(Vec::len)));
            same_left([refusal, answer], [&expected[buffer], &got[buffer]], inputs)?;
        }
        self.tally.count_preview(words, refusal);
        match refusal {
            ACCEPTED => self.as_the_section(band, words, &got),
            _ => Ok(()),
        }
    }

    /// Steps the subject's own section over the words from a cleared start: each result of the preview must be its y,
    /// and each remainder what it leaves.
    pub fn as_the_section(&mut self, band: Band, words: &[i32], [results, remainders]: &Buffers) -> Checked {
        let [a, b, g] = band;
        let mut section = [a, b, g, 0, 0, 0, 0];
        for (place, (&x, got)) in words.iter().zip(results.iter().zip(remainders)).enumerate() {
            let before = section;
            let step = self.subject.section_step(&mut section, x);
            if step.refusal != ACCEPTED || (&step.y, &step.remainder) != got {
                let step = format!("the section's step of {before:?} with x = {x} gives {step:?}");
                return Err(format!("place {place} of a list: the preview gives {got:?}, {step}"));
            }
        }
        self.tally.answers += 1;
        Ok(())
    }

    /// One list into buffers of so many entries.
    pub fn preview(&mut self, band: Band, words: &[i32], rooms: [usize; 2]) -> Checked<Buffers> {
        let lent = buffers(rooms, &mut self.random);
        self.preview_into(band, words, &lent)?;
        Ok(lent)
    }

    /// One list into buffers of so many entries, with its number as the specification states it. All entries from the
    /// given one on must be those that were lent.
    pub fn stated_preview(&mut self, band: Band, words: &[i32], rooms: [usize; 2], stated: (u32, usize)) -> Checked {
        let lent = self.preview(band, words, rooms)?;
        let (number, filled) = stated;
        let mut after = lent.clone();
        let answer = self.asked_preview(band, words, &mut after);
        let kept = after.iter().zip(&lent).all(|(after, lent)| after[filled..] == lent[filled..]);
        self.same((number, true), (answer, kept), || format!("{}, entries kept", what(band, words, rooms)))
    }
}
