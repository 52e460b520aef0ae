//! Steps of a section: long lists of words, the corners of a word in every place, and refused steps: which number, the
//! result and the remainder 0, the section unchanged.

use super::bands::{extreme_accepted, half_accepted, house_bands, random_accepted, Band};
use super::run::{Checked, Run};
use super::sounds::{Sound, WORD_SOUNDS};
use crate::random::Random;
use crate::reference::{Section, Step, NO_WORD, REFUSED_A, REFUSED_B, REFUSED_G, WORD_MAX, WORD_MIN};

/// What a cleared section remembers.
const CLEARED: [i32; 4] = [0; 4];

/// Any words to remember.
fn start(random: &mut Random) -> [i32; 4] {
    [(); 4].map(|()| random.word())
}

/// One list of words through a section that starts with these x1 to y2.
fn list(run: &mut Run, [a, b, g]: Band, [x1, x2, y1, y2]: [i32; 4], sound: Sound, length: usize) -> Checked {
    let mut section = [a, b, g, x1, x2, y1, y2];
    for place in 0..length {
        let x = sound.word(place, length, &mut run.random);
        run.step(&mut section, x).map_err(|difference| format!("place {place} of a list, {difference}"))?;
    }
    Ok(())
}

/// Every sound through each band, cleared and from a random start.
fn every_sound(run: &mut Run, bands: &[Band], length: usize) -> Checked {
    for &band in bands {
        for &sound in WORD_SOUNDS {
            list(run, band, CLEARED, sound, length)?;
            let start = start(&mut run.random);
            list(run, band, start, sound, length)?;
        }
    }
    Ok(())
}

pub fn lists(run: &mut Run) -> Checked {
    let house = house_bands();
    list(run, house[0], CLEARED, Sound::Noise, 1_000_000)?;
    list(run, house[5], CLEARED, Sound::Samples, 1_000_000)?;
    list(run, [8_388_607, 4_194_303, 8_388_606], CLEARED, Sound::Noise, 1_000_000)?;
    every_sound(run, &house, 5_000)?;
    every_sound(run, &extreme_accepted(), 250)?;
    every_sound(run, &half_accepted(), 500)?;
    for _ in 0..1_000 {
        let band = random_accepted(&mut run.random);
        let (sound, start) = (run.random.pick(WORD_SOUNDS), start(&mut run.random));
        list(run, band, start, sound, 1_000)?;
    }
    for _ in 0..1_000_000 {
        let (band, start) = (random_accepted(&mut run.random), start(&mut run.random));
        list(run, band, start, Sound::Noise, 1)?;
    }
    Ok(())
}

pub fn corners(run: &mut Run) -> Checked {
    const WORDS: [i32; 7] = [WORD_MIN, WORD_MIN + 1, -1, 0, 1, WORD_MAX - 1, WORD_MAX];
    for [a, b, g] in [extreme_accepted(), half_accepted(), house_bands()].concat() {
        for combination in 0..WORDS.len().pow(5) {
            let place = |n: u32| WORDS[combination / WORDS.len().pow(n) % WORDS.len()];
            let mut section: Section = [a, b, g, place(1), place(2), place(3), place(4)];
            run.step(&mut section, place(0))?;
        }
    }
    Ok(())
}

/// The eight numbers of a call: A, B, G, x1, x2, y1, y2, x.
type Call = [i32; 8];

/// Accepted calls, into which wrong numbers are put.
const FIT_CALLS: [Call; 5] = [
    [6_606, 4_181_093, 8_375_315, 0, 0, 0, 0, 0],
    [8_388_607, 4_194_303, -8_388_606, 8_388_607, -8_388_608, 8_388_607, -8_388_608, 8_388_607],
    [8_388_607, -4_194_303, 0, -8_388_608, 8_388_607, -8_388_608, 8_388_607, -8_388_608],
    [0, 0, 0, 1, 2, 3, 4, 5],
    [4_194_304, 2_000_000, 3_000_000, -700_000, 800_000, -900_000, 1_000_000, 256_000],
];

/// Numbers outside the range of one place of a call, by one and by far. Those of G are outside beside this accepted B.
pub fn wrong_numbers(b: i32, place: usize) -> Vec<i32> {
    let edge = 4_194_304 + b;
    let mut wrong = match place {
        0 => vec![-1, 8_388_608, -8_388_608, 16_777_216],
        1 => vec![-4_194_304, 4_194_304, -4_194_305, 4_194_305, 8_388_607, -8_388_608],
        2 => vec![-edge, edge, -edge - 1, edge + 1, 8_388_608, -8_388_609],
        _ => vec![-8_388_609, 8_388_608, -8_388_610, 8_388_609, -16_777_216, 16_777_216],
    };
    wrong.extend([i32::MIN, i32::MIN + 1, i32::MAX - 1, i32::MAX]);
    wrong
}

/// The number that a call with these wrong places must give: 8 to 10 by the band, then 15.
pub fn number_for(places: u32) -> u32 {
    match places {
        _ if places & 1 != 0 => REFUSED_A,
        _ if places & 2 != 0 => REFUSED_B,
        _ if places & 4 != 0 => REFUSED_G,
        _ => NO_WORD,
    }
}

/// Accepted numbers that begin A, B, G, with the wrong number of this turn in each of these places.
pub fn spoil<const N: usize>(fit: &[i32; N], places: u32, mut turn: impl FnMut(usize) -> usize) -> [i32; N] {
    let mut spoilt = *fit;
    for place in (0..N).filter(|place| places & (1 << place) != 0) {
        let wrong = wrong_numbers(fit[1], place);
        spoilt[place] = wrong[turn(place) % wrong.len()];
    }
    spoilt
}

/// One refused call: compared with the reference, and its answer and the unchanged section as the specification states.
fn refused(run: &mut Run, call: Call, number: u32) -> Checked {
    let [a, b, g, x1, x2, y1, y2, x] = call;
    let before: Section = [a, b, g, x1, x2, y1, y2];
    run.step(&mut before.clone(), x)?;
    let mut section = before;
    let answer = run.subject.section_step(&mut section, x);
    run.same((Step::refused(number), before), (answer, section), || format!("step of {before:?} with x = {x}"))
}

pub fn refused_calls(run: &mut Run) -> Checked {
    for fit in &FIT_CALLS {
        for places in 1..256_u32 {
            for turn in 0..20 {
                let call = spoil(fit, places, |place| turn + turn / 10 * place);
                refused(run, call, number_for(places))?;
            }
            for _ in 0..100 {
                let call = spoil(fit, places, |_| run.random.below(1 << 20) as usize);
                refused(run, call, number_for(places))?;
            }
        }
    }
    for _ in 0..300_000 {
        let mut section = [(); 7].map(|()| run.random.any_i32());
        let x = run.random.any_i32();
        run.step(&mut section, x)?;
        let mut section = [(); 7].map(|()| run.random.between(-8_400_000, 8_400_000));
        let x = run.random.word();
        run.step(&mut section, x)?;
    }
    Ok(())
}
