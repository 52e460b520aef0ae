//! Previews that are refused: "8 to 10, then 6 (either buffer shorter than the words), then 15 a number that is no word.
//! Refused, both buffers are unchanged".

use super::bands::{corner_bands, random_accepted, Band};
use super::run::{Checked, Run};
use super::sounds::{Sound, WORD_SOUNDS};
use super::steps::{number_for, spoil, wrong_numbers};
use crate::preview::BUFFER_TOO_SHORT;
use crate::reference::{NO_WORD, WORD_MAX, WORD_MIN};

/// Accepted bands, into which wrong numbers are put.
const FIT_BANDS: [Band; 4] =
    [[6_606, 4_181_093, 8_375_315], [8_388_607, 4_194_303, -8_388_606], [8_388_607, -4_194_303, 0], [0, 0, 0]];

/// What can be wrong in a call; the first three are A, B and G.
const BAND: u32 = 7;
const RESULTS: u32 = 8;
const REMAINDERS: u32 = 16;
const SHORT: u32 = RESULTS | REMAINDERS;
const WORD: u32 = 32;

/// A number that is no word.
fn no_word(turn: usize) -> i32 {
    let wrong = wrong_numbers(0, 3);
    wrong[turn % wrong.len()]
}

fn words(run: &mut Run, length: usize) -> Vec<i32> {
    let sound = run.random.pick(WORD_SOUNDS);
    sound.list(length, &mut run.random)
}

/// A call with all of this wrong, by the wrong numbers of this turn: 8 to 10 ahead of 6 ahead of 15.
fn spoilt(run: &mut Run, fit: Band, length: usize, wrong: u32, turn: usize) -> Checked {
    let band = spoil(&fit, wrong & BAND, |_| turn);
    let mut words = words(run, length);
    if wrong & WORD != 0 {
        words[turn % length] = no_word(turn);
    }
    let rooms = [RESULTS, REMAINDERS].map(|short| match (wrong & short != 0, turn % 3) {
        (true, 0) => length - 1,
        (true, _) => run.random.below(length as u64) as usize,
        (false, more) => length + more,
    });
    let number = if wrong & BAND == 0 && wrong & SHORT != 0 { BUFFER_TOO_SHORT } else { number_for(wrong) };
    run.stated_preview(band, &words, rooms, (number, 0))
}

/// Everything that can be wrong, alone and together.
fn together(run: &mut Run, fit: Band) -> Checked {
    for length in [1, 2, 3, 8, 33] {
        for wrong in 1..64 {
            for turn in 0..20 {
                spoilt(run, fit, length, wrong, turn)?;
            }
        }
    }
    Ok(())
}

/// A wrong number at each place of lists of every small length, beside the ends of a word; then several.
fn each_place(run: &mut Run, fit: Band) -> Checked {
    for length in 1..=40 {
        let right = Sound::Ends.list(length, &mut run.random);
        for place in 0..length {
            for turn in 0..10 {
                let mut words = right.clone();
                words[place] = no_word(turn);
                run.stated_preview(fit, &words, [length + turn % 2, length], (NO_WORD, 0))?;
                let other = run.random.below(length as u64) as usize;
                words[other] = no_word(turn + 3);
                run.stated_preview(fit, &words, [length; 2], (NO_WORD, 0))?;
            }
        }
    }
    Ok(())
}

/// A long list with one number wrong, and into short buffers.
fn long(run: &mut Run, fit: Band) -> Checked {
    const LENGTH: usize = 100_000;
    let right = words(run, LENGTH);
    for place in [0, 1, 34_463, 65_535, 65_536, LENGTH - 1] {
        let mut words = right.clone();
        words[place] = run.random.pick(&[WORD_MIN - 1, WORD_MAX + 1]);
        run.stated_preview(fit, &words, [LENGTH; 2], (NO_WORD, 0))?;
    }
    for room in [0, 34_464, 65_536, LENGTH - 1] {
        for rooms in [[room, LENGTH], [LENGTH, room]] {
            run.stated_preview(fit, &right, rooms, (BUFFER_TOO_SHORT, 0))?;
        }
    }
    Ok(())
}

/// A band with right words, with short buffers and with a wrong number.
fn any_band(run: &mut Run, band: Band) -> Checked {
    let right = words(run, 3);
    let wrong = [right[0], no_word(run.random.below(10) as usize), right[2]];
    for (words, rooms) in [(&right[..], [3, 4]), (&right, [2, 3]), (&wrong, [4, 3]), (&wrong, [3, 1]), (&[], [2, 0])] {
        run.preview(band, words, rooms)?;
    }
    Ok(())
}

pub fn calls(run: &mut Run) -> Checked {
    for fit in FIT_BANDS {
        together(run, fit)?;
        each_place(run, fit)?;
        long(run, fit)?;
    }
    for band in corner_bands() {
        any_band(run, band)?;
    }
    for _ in 0..30_000 {
        let anything = [(); 3].map(|()| run.random.any_i32());
        any_band(run, anything)?;
        let words = [(); 3].map(|()| run.random.word());
        any_band(run, words)?;
        let accepted = random_accepted(&mut run.random);
        any_band(run, accepted)?;
    }
    Ok(())
}
