//! Times blocks of noise, with every gain and the volume moving all through and with sections that limit in every
//! frame, and the cost of a call, by blocks of one frame and of none.

use outside::random::Random;
use outside::reference::{ACCEPTED, WORD_MAX};
use outside::subject::Form;
use outside::timer::{fold, timed, within, Goal};
use outside::unit::exact::Met;
use outside::unit::{cleared, exact, house_unit, strip_at, Numbers, GAIN, LEFT, RIGHT, VOLUME};

use super::processes::best_of_all;
use super::{best, race, told, NO_GOAL, ROUNDS, SEED, WITH_RUST};

/// The most that a block of 4,096 frames may take, in times of the Rust form, and what is aimed at.
const MOST: f64 = 2.0;
const GOAL: Goal = Goal { ratio: 0.75, ..NO_GOAL };
/// What is aimed at for a block of no frames.
const CALL_GOAL: Goal = Goal { ratio: 2.0, time: 120.0 };
/// The rounds of a process.
pub const IN_A_PROCESS: usize = 12;
/// The levels turn round after so many frames.
const TURN: usize = 4_096;
/// Blocks of no frames in a run.
const CALLS: usize = 100_000;
/// The least part of the frames in which a section must limit, where that is timed.
const LIMITING: f64 = 0.99;
/// The bands that limit: A and B as large as can be, and these G.
const EXTREME_A: i32 = 8_388_607;
const EXTREME_B: i32 = 4_194_303;
const EVERY_G: [i32; 5] = [8_388_606, 4_194_303, 0, -4_194_303, -8_388_606];
/// Frames in a second of sound.
const RATE: f64 = 44_100.0;

/// What is played: its name, the frames of a block, the turns of the noise, the unit at the start, its targets at each
/// turn, and the samples of the noise.
pub struct Played {
    pub name: &'static str,
    size: usize,
    turns: usize,
    start: fn() -> Numbers,
    turn: fn(&mut Numbers, usize),
    sample: fn(&mut Random) -> i16,
}

const MOVING: Played = Played {
    name: "blocks of 4,096, all levels moving, a frame",
    size: TURN,
    turns: 250,
    start: half_way,
    turn: turn_round,
    sample: |random| random.draw() as i16,
};
const LOUD: Played = Played {
    name: "blocks of 4,096, sections limiting, a frame",
    start: loud,
    turn: |_, _| (),
    sample: |random| random.pick(&[-1, 1]) * random.between(24_576, 32_767) as i16,
    ..MOVING
};
const SINGLE: Played = Played { name: "blocks of 1, a frame", size: 1, turns: 10, ..MOVING };
pub const PLAYED: [Played; 3] = [MOVING, LOUD, SINGLE];

/// The places of the twenty gains; each target stands behind its gain.
fn gains() -> impl Iterator<Item = usize> {
    [LEFT, RIGHT].into_iter().flat_map(|side| (0..10).map(move |band| strip_at(side, band) + GAIN))
}

/// The house unit, with the volume so high that it never comes back to 0.
fn half_way() -> Numbers {
    let mut unit = house_unit();
    unit[VOLUME] = 4_194_304;
    unit
}

/// A unit of extreme bands, every gain as high as can be.
fn loud() -> Numbers {
    let bands = EVERY_G.map(|g| [EXTREME_A, EXTREME_B, g]);
    let mut unit = cleared(&[bands; 2].as_flattened().concat().try_into().expect("thirty numbers"));
    unit[VOLUME..VOLUME + 2].fill(WORD_MAX);
    gains().for_each(|gain| unit[gain..gain + 2].fill(WORD_MAX));
    unit
}

/// Sends every level towards the far end of its range, half of the gains up and half down, each turn the other way. No
/// level has arrived.
fn turn_round(unit: &mut Numbers, turn: usize) {
    assert!(turn == 0 || gains().chain([VOLUME]).all(|level| unit[level] != unit[level + 1]));
    for (n, gain) in gains().enumerate() {
        let up = (n + turn).is_multiple_of(2);
        unit[gain + 1] = if up { 8_388_607 } else { -8_388_608 };
    }
    unit[VOLUME + 1] = if turn.is_multiple_of(2) { 8_388_607 } else { 0 };
}

/// The checksum of frames and of a unit.
fn checksum(sound: &[u8], unit: &Numbers) -> u64 {
    let frames = sound.as_chunks().0.iter().map(|frame| i32::from_le_bytes(*frame));
    frames.chain(*unit).fold(0, |sum, number| fold(sum, number.into()))
}

impl Played {
    fn noise(&self, turns: usize) -> Vec<u8> {
        let random = &mut Random::new(SEED);
        (0..2 * TURN * turns).flat_map(|_| (self.sample)(random).to_le_bytes()).collect()
    }

    /// The noise block by block: the time, and the checksum of sound and unit.
    fn play(&self, form: &Form, noise: &[u8]) -> (f64, u64) {
        // No page of the sound's memory is new to the form that is timed.
        let (mut unit, mut sound) = ((self.start)(), vec![1; noise.len()]);
        let (time, ()) = timed(|| {
            for (turn, (noise, sound)) in noise.chunks(4 * TURN).zip(sound.chunks_mut(4 * TURN)).enumerate() {
                (self.turn)(&mut unit, turn);
                for (input, output) in noise.chunks(4 * self.size).zip(sound.chunks_mut(4 * self.size)) {
                    assert_eq!((form.block)(&mut unit, input, output), ACCEPTED);
                }
            }
        });
        (time, checksum(&sound, &unit))
    }

    /// The best times of a frame in this process.
    pub fn time_here(&self) -> Result<[f64; 2], String> {
        let noise = self.noise(self.turns);
        best(&WITH_RUST, [IN_A_PROCESS, noise.len() / 4], |form| self.play(form, &noise))
    }

    /// The best times of several processes, printed.
    fn time(&self, goal: Goal) -> Result<[f64; 2], String> {
        let times = best_of_all(self)?;
        told(self.name, &WITH_RUST, times, goal);
        let [library, rust] = times.map(|time| 1e9 / RATE / time);
        println!("  library {library:.0} times real time, Rust {rust:.0} times");
        Ok(times)
    }

    /// The part of the frames in which a section limits, by the exact form.
    fn limiting(&self) -> f64 {
        let (noise, mut unit) = (self.noise(1), (self.start)());
        let limits = |frame: &&[u8]| {
            let mut met = Met::default();
            assert_eq!(exact::block(&mut unit, frame, &mut [0; 4], &mut met), ACCEPTED);
            met.sections_high + met.sections_low > 0
        };
        noise.chunks_exact(4).filter(limits).count() as f64 / TURN as f64
    }
}

/// Blocks of no frames.
fn time_calls() -> Result<(), String> {
    race("blocks of no frames, a block", &WITH_RUST, [ROUNDS, CALLS], CALL_GOAL, |form| {
        let mut unit = half_way();
        let (time, accepted) = timed(|| (0..CALLS).all(|_| (form.block)(&mut unit, &[], &mut []) == ACCEPTED));
        assert!(accepted);
        (time, checksum(&[], &unit))
    })?;
    Ok(())
}

/// All of these. True where every limit is kept.
pub fn time() -> Result<bool, String> {
    let limiting = LOUD.limiting();
    println!("blocks with sections limiting: they do in {:.2}% of the frames", 100.0 * limiting);
    if limiting < LIMITING {
        return Err("too few frames limit".to_string());
    }
    let mut all_kept = true;
    for played in [MOVING, LOUD] {
        all_kept &= within(played.name, MOST, || played.time(GOAL))?;
    }
    SINGLE.time(NO_GOAL)?;
    time_calls()?;
    Ok(all_kept)
}
