//! Lists previewed with bands of every kind, held against the exact reference, and against the section of the subject
//! and nothing else. Lists and buffers of every small length and of larger ones, the two buffers of one length and of
//! different ones: "6 (either buffer shorter than the words)"; "after an accepted call entries past the results, and
//! past the remainders, keep their contents."

use super::bands::{extreme_accepted, half_accepted, house_bands, random_accepted, slow_accepted, Band};
use super::run::{Checked, Run};
use super::same_preview::buffers;
use super::sounds::{Sound, WORD_SOUNDS};
use crate::preview::BUFFER_TOO_SHORT;
use crate::reference::{ACCEPTED, WORD_MAX, WORD_MIN};

const MILLION: usize = 1_000_000;

/// How a list is compared.
type Compare = fn(&mut Run, Band, &[i32]) -> Checked;

/// With the exact reference, a few entries of room behind the results and behind the remainders.
fn with_the_exact(run: &mut Run, band: Band, words: &[i32]) -> Checked {
    let rooms = [(); 2].map(|()| words.len() + run.random.below(9) as usize);
    run.preview(band, words, rooms).map(|_| ())
}

/// With the subject's own section, the buffers just long enough: "its results and remainders equal the section's".
fn with_the_section(run: &mut Run, band: Band, words: &[i32]) -> Checked {
    let mut filled = buffers([words.len(); 2], &mut run.random);
    let answer = run.asked_preview(band, words, &mut filled);
    run.same(ACCEPTED, answer, || format!("preview with {band:?} of {} words", words.len()))?;
    run.tally.words += words.len() as u64;
    run.as_the_section(band, words, &filled)
}

fn list(run: &mut Run, compare: Compare, band: Band, sound: Sound, length: usize) -> Checked {
    let words = sound.list(length, &mut run.random);
    compare(run, band, &words)
}

/// Every sound and silence with each band.
fn every_sound(run: &mut Run, compare: Compare, bands: &[Band], length: usize) -> Checked {
    for &band in bands {
        for &sound in WORD_SOUNDS.iter().chain(&[Sound::Silence]) {
            list(run, compare, band, sound, length)?;
        }
    }
    Ok(())
}

/// Any sound with random bands and with slow ones.
fn random_bands(run: &mut Run, compare: Compare, length: usize) -> Checked {
    for _ in 0..4_000 {
        let sound = run.random.pick(WORD_SOUNDS);
        for draw in [random_accepted, slow_accepted] {
            let band = draw(&mut run.random);
            list(run, compare, band, sound, length)?;
        }
    }
    Ok(())
}

pub fn lists(run: &mut Run) -> Checked {
    let house = house_bands();
    for (bands, length) in [(&extreme_accepted(), 100), (&half_accepted(), 200), (&house, 2_000)] {
        every_sound(run, with_the_exact, bands, length)?;
    }
    random_bands(run, with_the_exact, 500)?;
    for &band in &house {
        list(run, with_the_exact, band, Sound::Noise, MILLION)?;
    }
    list(run, with_the_exact, house[5], Sound::Samples, MILLION)?;
    list(run, with_the_exact, [8_388_607, 4_194_303, 8_388_606], Sound::Noise, MILLION)?;
    list(run, with_the_exact, [8_388_607, -4_194_303, 0], Sound::Ends, MILLION)
}

pub fn beside_section(run: &mut Run) -> Checked {
    let house = house_bands();
    for bands in [&house, &extreme_accepted(), &half_accepted()] {
        every_sound(run, with_the_section, bands, 600)?;
    }
    random_bands(run, with_the_section, 1_000)?;
    for &band in &house {
        list(run, with_the_section, band, Sound::Noise, 500_000)?;
    }
    Ok(())
}

/// What lies behind a list in memory: no words.
const BEHIND: [i32; 4] = [WORD_MAX + 1, i32::MIN, i32::MAX, WORD_MIN - 1];

/// A list of so many words with both buffers of each of these lengths, and with one of them just long enough or longer.
fn with_rooms(run: &mut Run, band: Band, length: usize, rooms: impl IntoIterator<Item = usize>) -> Checked {
    let sound = match run.random.below(3) {
        0 => Sound::Ends,
        _ => run.random.pick(WORD_SOUNDS),
    };
    let mut numbers = sound.list(length, &mut run.random);
    numbers.extend(BEHIND);
    for room in rooms {
        let other = length + run.random.below(5) as usize;
        let stated = if room < length { (BUFFER_TOO_SHORT, 0) } else { (ACCEPTED, length) };
        for rooms in [[room; 2], [room, other], [other, room]] {
            run.stated_preview(band, &numbers[..length], rooms, stated)?;
        }
    }
    Ok(())
}

pub fn lengths(run: &mut Run) -> Checked {
    let mut bands = house_bands();
    bands.extend(extreme_accepted().into_iter().step_by(8));
    bands.extend(half_accepted().into_iter().step_by(8));
    for band in bands {
        for length in 0..=48 {
            let rooms = (0..length + 8).chain([length + 40, length + 500]);
            with_rooms(run, band, length, rooms)?;
        }
    }
    for length in [255, 256, 257, 1_024, 4_095, 4_096, 4_097, 65_535, 65_536, 65_537] {
        let rooms = [0, 1, length / 2, length - 1, length, length + 1, 2 * length];
        let band = random_accepted(&mut run.random);
        with_rooms(run, band, length, rooms)?;
    }
    Ok(())
}
