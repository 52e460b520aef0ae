//! What a group went through.

use crate::exact_sound::judge::Distances;
use crate::reference::{exact, Section, Step, ACCEPTED};
use crate::unit::exact::{Halves, Met};
use crate::unit::orders::{Order, Setting};
use crate::unit::sheet::{SHEET, SHORT_SHEET};
use crate::wave;

/// The largest S and the smallest: A, B and |G| as large as they may be, and words at their ends.
const LARGEST: i128 = 8_388_607 * 16_777_215 + 8_388_606 * 8_388_608 + 4_194_303 * 8_388_608;
const SMALLEST: i128 = -8_388_607 * 16_777_215 - 8_388_606 * 8_388_608 - 4_194_303 * 8_388_607;

/// What accepted steps of a section met.
#[derive(Clone, Copy, Default)]
pub struct Steps {
    pub count: u64,
    /// Steps that limited at the upper end of a word, and at the lower end.
    high: u64,
    low: u64,
    /// Steps where S / 2^22 lay at a half.
    halves: Halves,
    /// Steps that left nothing, and those that limited and left something.
    whole: u64,
    limited_left: u64,
    /// Steps with the largest S and with the smallest.
    largest: u64,
    smallest: u64,
}

impl Steps {
    /// Counts an accepted step by what the exact reference says of it.
    pub fn count(&mut self, before: &Section, x: i32, Step { y, limited, remainder, .. }: Step) {
        let (sum, limited) = (exact::sum(before, x), limited == 1);
        self.count += 1;
        self.high += u64::from(limited && y > 0);
        self.low += u64::from(limited && y < 0);
        self.halves.count(sum, 22);
        self.whole += u64::from(remainder == 0);
        self.limited_left += u64::from(limited && remainder != 0);
        self.largest += u64::from(sum == LARGEST);
        self.smallest += u64::from(sum == SMALLEST);
    }
}

/// Counts of one group, or of all.
#[derive(Clone, Copy, Default)]
pub struct Tally {
    /// Answers compared.
    pub answers: u64,
    /// Steps that were refused, and what the accepted ones met.
    pub refused: u64,
    pub steps: Steps,
    /// Frames of accepted blocks, and what they met.
    pub frames: u64,
    pub met: Met,
    /// Blocks, orders, sheets, short sheets and previews by their refusal; accepted ones at 0.
    blocks: [u64; 16],
    orders: [u64; 16],
    sheets: [u64; 16],
    short_sheets: [u64; 16],
    previews: [u64; 16],
    /// Accepted factors where f × 2^23 lay at a half.
    factor_halves: Halves,
    /// Sheets that were written, not written for a short buffer, and not written for an unfit unit.
    written: u64,
    too_short: u64,
    unfit: u64,
    /// Sheets that were accepted with a byte changed or several.
    pub accepted_changed: u64,
    /// Accepted lists of no words, the words of all accepted lists, and what the words met.
    empty: u64,
    pub words: u64,
    previewed: Steps,
    /// Words with S below zero and the result 0: minus zero, in floats.
    zeros_from_below: u64,
    /// Wave files read and written, by their refusal; accepted ones at 0.
    waves: [u64; 19],
    waves_written: [u64; 16],
    /// Accepted wave files of no frames, those that were damaged, and those with their data behind 2^32 bytes.
    waves_of_nothing: u64,
    pub waves_damaged: u64,
    waves_far: u64,
    /// Chunks passed over ahead of the data in accepted wave files: in all, those with a pad byte, and formats behind
    /// the first.
    chunks: u64,
    pads: u64,
    formats: u64,
    /// How far the lists lay from the exact sound.
    pub distances: Distances,
}

impl Tally {
    pub fn count_block(&mut self, input: &[u8], refusal: u32) {
        self.answers += 1;
        self.blocks[refusal as usize] += 1;
        if refusal == ACCEPTED {
            self.frames += input.len() as u64 / 4;
        }
    }

    /// f × 2^24 is exact in f64, and whole where f × 2^23 lies at a half.
    pub fn count_order(&mut self, order: &Order, refusal: u32) {
        self.answers += 1;
        self.orders[refusal as usize] += 1;
        if let (ACCEPTED, Setting::Factor(f)) = (refusal, order.setting) {
            let number = f64::from(f) * 16_777_216.0;
            if number == number.floor() {
                self.factor_halves.count(number as i128, 1);
            }
        }
    }

    pub fn count_written(&mut self, written: usize, room: usize) {
        self.answers += 1;
        match written {
            SHEET => self.written += 1,
            _ if room < SHEET => self.too_short += 1,
            _ => self.unfit += 1,
        }
    }

    pub fn count_read(&mut self, bytes: usize, refusal: u32) {
        self.answers += 1;
        let sheets = if bytes == SHORT_SHEET { &mut self.short_sheets } else { &mut self.sheets };
        sheets[refusal as usize] += 1;
    }

    pub fn count_preview(&mut self, words: &[i32], refusal: u32) {
        self.answers += 1;
        self.previews[refusal as usize] += 1;
        if refusal == ACCEPTED {
            self.empty += u64::from(words.is_empty());
            self.words += words.len() as u64;
        }
    }

    pub fn count_previewed(&mut self, before: &Section, x: i32, answer: Step) {
        self.previewed.count(before, x, answer);
        self.zeros_from_below += u64::from(answer.y == 0 && exact::sum(before, x) < 0);
    }

    pub fn count_wave(&mut self, file: &[u8], (refusal, from, size): wave::Read) {
        self.waves[refusal as usize] += 1;
        if refusal == ACCEPTED {
            self.waves_of_nothing += u64::from(size == 0);
            self.waves_far += u64::from(from as u64 > 1 << 32);
            let chunks = wave::chunks(&file[..from]);
            let count = |what: fn(&wave::Chunk) -> bool| chunks.iter().filter(|chunk| what(chunk)).count() as u64;
            // The heading of the data, and the format that counts.
            self.chunks += chunks.len() as u64 - 2;
            self.pads += count(|chunk| chunk.size % 2 == 1);
            self.formats += count(|chunk| chunk.name == b"fmt ") - 1;
        }
    }

    pub fn count_wave_written(&mut self, refusal: u32) {
        self.answers += 1;
        self.waves_written[refusal as usize] += 1;
    }

    pub fn count_distances(&mut self, distances: Distances) {
        self.add(&Tally { answers: distances.judged, distances, ..Tally::default() });
    }
}

/// Adds up and names the counts.
macro_rules! counts {
    ($($what:literal ($($count:tt)+))*) => {
        impl Tally {
            pub fn add(&mut self, other: &Tally) {
                self.answers += other.answers;
                $(self.$($count)+ += other.$($count)+;)*
                self.distances.widen(&other.distances);
            }

            /// Everything that a comparison must reach, by name: one that never limits or never meets a half proves
            /// nothing of them.
            pub fn reached(&self) -> Vec<(&'static str, u64)> {
                vec![$(($what, self.$($count)+)),*]
            }
        }
    };
}

counts! {
    "steps" (steps.count)
    "refused steps" (refused)
    "steps limited at the upper end" (steps.high)
    "steps limited at the lower end" (steps.low)
    "halves of steps rounded up" (steps.halves.up)
    "halves of steps rounded down" (steps.halves.down)
    "steps that left no remainder" (steps.whole)
    "limited steps that left a remainder" (steps.limited_left)
    "steps with the largest S" (steps.largest)
    "steps with the smallest S" (steps.smallest)
    "frames" (frames)
    "blocks refused with 5" (blocks[5])
    "blocks refused with 6" (blocks[6])
    "blocks refused with 14" (blocks[14])
    "sections limited at the upper end" (met.sections_high)
    "sections limited at the lower end" (met.sections_low)
    "flags raised" (met.flags_raised)
    "remainders carried on at the upper end" (met.fed.highest)
    "remainders carried on at the lower end" (met.fed.lowest)
    "limited sections that carried on no remainder" (met.fed.dropped)
    "results turned by what was fed back" (met.fed.turned)
    "sections limited by what was fed back" (met.fed.into_limiting)
    "sections kept from limiting by it" (met.fed.out_of_limiting)
    "outputs limited at the upper end" (met.outputs_high)
    "outputs limited at the lower end" (met.outputs_low)
    "halves of sections rounded up" (met.section_halves.up)
    "halves of sections rounded down" (met.section_halves.down)
    "halves of mixes rounded up" (met.mix_halves.up)
    "halves of mixes rounded down" (met.mix_halves.down)
    "halves of outputs rounded up" (met.output_halves.up)
    "halves of outputs rounded down" (met.output_halves.down)
    "accepted orders" (orders[0])
    "orders refused with 1" (orders[1])
    "orders refused with 2" (orders[2])
    "orders refused with 3" (orders[3])
    "orders refused with 4" (orders[4])
    "orders refused with 14" (orders[14])
    "halves of factors rounded up" (factor_halves.up)
    "halves of factors rounded down" (factor_halves.down)
    "sheets written" (written)
    "sheets not written for a short buffer" (too_short)
    "sheets not written for an unfit unit" (unfit)
    "accepted sheets" (sheets[0])
    "accepted sheets with bytes changed" (accepted_changed)
    "sheets refused with 8" (sheets[8])
    "sheets refused with 9" (sheets[9])
    "sheets refused with 10" (sheets[10])
    "sheets refused with 11" (sheets[11])
    "sheets refused with 12" (sheets[12])
    "sheets refused with 13" (sheets[13])
    "sheets refused with 14" (sheets[14])
    "accepted short sheets" (short_sheets[0])
    "short sheets refused with 8" (short_sheets[8])
    "short sheets refused with 9" (short_sheets[9])
    "short sheets refused with 10" (short_sheets[10])
    "short sheets refused with 12" (short_sheets[12])
    "short sheets refused with 13" (short_sheets[13])
    "short sheets refused with 14" (short_sheets[14])
    "accepted previews" (previews[0])
    "accepted previews of nothing" (empty)
    "words previewed" (words)
    "previews limited at the upper end" (previewed.high)
    "previews limited at the lower end" (previewed.low)
    "halves of previews rounded up" (previewed.halves.up)
    "halves of previews rounded down" (previewed.halves.down)
    "previewed words that left no remainder" (previewed.whole)
    "previewed words that limited and left a remainder" (previewed.limited_left)
    "previewed words with the largest S" (previewed.largest)
    "previewed words with the smallest S" (previewed.smallest)
    "previews rounded up to zero" (zeros_from_below)
    "previews refused with 6" (previews[6])
    "previews refused with 8" (previews[8])
    "previews refused with 9" (previews[9])
    "previews refused with 10" (previews[10])
    "previews refused with 15" (previews[15])
    "accepted waves" (waves[0])
    "accepted waves of no frames" (waves_of_nothing)
    "accepted waves that were damaged" (waves_damaged)
    "accepted waves with their data behind 2^32 bytes" (waves_far)
    "chunks of waves passed over" (chunks)
    "pad bytes of waves passed over" (pads)
    "formats of waves behind the first" (formats)
    "waves refused with 16" (waves[16])
    "waves refused with 17" (waves[17])
    "waves refused with 18" (waves[18])
    "waves refused with 5" (waves[5])
    "waves written" (waves_written[0])
    "waves not written with 5" (waves_written[5])
    "waves not written with 6" (waves_written[6])
    "lists held against the exact sound" (distances.lists)
    "lists in which a section limited" (distances.limited)
    "samples held to the bound" (distances.judged)
    "samples that need the sections' part of it" (distances.need_sections)
    "samples left out, a section having limited" (distances.skipped)
    "samples left out and beyond the bound" (distances.skipped_beyond)
}
