//! Blocks on fit units of every kind: long ones, single frames, every small size, one sound cut in several ways, and
//! blocks of wrong lengths: "5 input bytes no multiple of four; 6 output shorter than input. Unit and output
//! unchanged."

use super::bands::slow_accepted;
use super::run::{marks, Checked, Run};
use super::sounds::{Sound, SOUNDS};
use super::units::{half_unit, random_fit, set_gain, strips};
use crate::random::Random;
use crate::reference::{ACCEPTED, WORD_MAX, WORD_MIN};
use crate::unit::{cleared, house_unit, Numbers, BANDS, GAIN, LEFT, OUTPUT_TOO_SHORT, PART_OF_A_FRAME};

/// One block with a few bytes of room behind it.
fn block(run: &mut Run, numbers: &mut Numbers, sound: Sound, frames: usize) -> Checked {
    let input = sound.block(frames, &mut run.random);
    let room = input.len() + run.random.below(9) as usize;
    run.block(numbers, &input, room).map(|_| ())
}

/// Sets every target anew.
fn new_targets(run: &mut Run, numbers: &mut Numbers) {
    numbers[1] = run.random.between(0, WORD_MAX);
    strips(numbers).for_each(|strip| strip[GAIN + 1] = run.random.word());
}

/// A long sound of twenty blocks, the targets set anew before each.
fn long_sound(run: &mut Run, numbers: &mut Numbers) -> Checked {
    for turn in 0..20 {
        new_targets(run, numbers);
        block(run, numbers, SOUNDS[turn % SOUNDS.len()], 4_096)?;
    }
    Ok(())
}

/// A sound and the silence behind it, with every gain at this end and the volume at rest.
fn loud(run: &mut Run, set: &[i32; 30], [gain, volume]: [i32; 2], sound: Sound) -> Checked {
    let mut numbers = cleared(set);
    numbers[..2].fill(volume);
    strips(&mut numbers).for_each(|strip| set_gain(strip, [gain; 2]));
    block(run, &mut numbers, sound, 1_000)?;
    block(run, &mut numbers, Sound::Silence, 500)
}

/// Every sound with all gains high, all low and anywhere. At the volume 700,000 the largest mix isn't limited.
fn every_sound(run: &mut Run, turn: u64) -> Checked {
    for &sound in SOUNDS {
        let set = run.sets.draw(turn, &mut run.random);
        for gain in [WORD_MAX, WORD_MIN] {
            for volume in [WORD_MAX, 700_000] {
                loud(run, &set, [gain, volume], sound)?;
            }
        }
        let mut anywhere = random_fit(&set, &mut run.random);
        block(run, &mut anywhere, sound, 1_000)?;
        new_targets(run, &mut anywhere);
        block(run, &mut anywhere, Sound::Silence, 500)?;
    }
    Ok(())
}

pub fn long(run: &mut Run) -> Checked {
    long_sound(run, &mut house_unit())?;
    for turn in 0..10 {
        let mut numbers = run.fit_unit(turn);
        long_sound(run, &mut numbers)?;
        every_sound(run, turn)?;
    }
    for turn in 0..500 {
        let mut numbers = run.fit_unit(turn);
        let sound = run.random.pick(SOUNDS);
        block(run, &mut numbers, sound, 500)?;
        let mut halves = half_unit(&run.sets, &mut run.random);
        block(run, &mut halves, sound, 500)?;
    }
    Ok(())
}

/// Single frames from random fit units.
pub fn frames(run: &mut Run) -> Checked {
    for turn in 0..200_000 {
        let mut numbers = run.fit_unit(turn);
        let sound = run.random.pick(&[Sound::Noise, Sound::Ends, Sound::Faint]);
        block(run, &mut numbers, sound, 1)?;
        if turn % 4 == 0 {
            let mut halves = half_unit(&run.sets, &mut run.random);
            block(run, &mut halves, sound, 1)?;
        }
    }
    Ok(())
}

/// The sizes of blocks: every one to 200 frames, and the neighbours of multiples of 64, the frames of a pass.
fn every_size() -> impl Iterator<Item = usize> {
    let beside = |multiple: usize| multiple - 1..=multiple + 1;
    (0..=200).chain([256, 320, 512, 1_024, 2_048, 4_096].into_iter().flat_map(beside))
}

/// Every size of this sound, with 0 to 7 bytes of room behind.
fn sizes(run: &mut Run, start: &Numbers, sound: Sound) -> Checked {
    for frames in every_size() {
        let input = sound.block(frames, &mut run.random);
        let behind = if frames <= 64 { 0..8 } else { frames % 8..frames % 8 + 1 };
        for behind in behind {
            run.block(&mut start.clone(), &input, input.len() + behind)?;
        }
    }
    Ok(())
}

/// Every size on units whose sections limit, whose levels all move to the far ends of their ranges, and that ring on in
/// silence.
fn sizes_of_every_kind(run: &mut Run, start: &Numbers) -> Checked {
    let extreme = run.sets.draw(2, &mut run.random);
    let mut limiting = *start;
    limiting[BANDS..LEFT].copy_from_slice(&extreme);
    sizes(run, &limiting, Sound::Ends)?;
    let mut moving = *start;
    moving[..2].copy_from_slice(&[WORD_MAX, 0]);
    strips(&mut moving).for_each(|strip| set_gain(strip, [WORD_MIN, WORD_MAX]));
    sizes(run, &moving, Sound::Noise)?;
    let mut ringing = *start;
    ringing[..2].fill(WORD_MAX);
    for band in ringing[BANDS..LEFT].chunks_exact_mut(3) {
        band.copy_from_slice(&slow_accepted(&mut run.random));
    }
    sizes(run, &ringing, Sound::Silence)
}

/// One sound whole, and cut where `next` says. Sound and unit must be alike.
fn cut(run: &mut Run, start: &Numbers, sound: &[u8], next: impl Fn(&mut Random) -> usize) -> Checked {
    let (mut whole, mut parts) = (*start, *start);
    let expected = run.block(&mut whole, sound, sound.len())?;
    let mut got = vec![0; sound.len()];
    let mut begun = 0;
    while begun < sound.len() {
        let end = sound.len().min(begun + 4 * next(&mut run.random));
        let answer = run.subject.block(&mut parts, &sound[begun..end], &mut got[begun..end]);
        run.same(0, answer, || "a part".to_string())?;
        begun = end;
    }
    run.same((whole, expected), (parts, got), || format!("a sound of {} bytes cut into blocks", sound.len()))
}

pub fn sizes_and_cuts(run: &mut Run) -> Checked {
    for turn in 0..20 {
        let start = run.fit_unit(turn);
        sizes_of_every_kind(run, &start)?;
        let sound = Sound::Noise.block(3_000, &mut run.random);
        for size in [1, 2, 3, 63, 64, 65, 128, 441, 2_999, 3_000] {
            cut(run, &start, &sound, |_| size)?;
        }
        // Empty blocks between the others too.
        cut(run, &start, &sound, |random| random.below(40) as usize)?;
    }
    Ok(())
}

/// One block: compared with the reference, its number as the specification states it, "The first that applies, in
/// numerical order", and after a refusal unit and output unchanged.
fn stated(run: &mut Run, numbers: &Numbers, length: usize, room: usize) -> Checked {
    let input = vec![0x5A; length];
    run.block(&mut numbers.clone(), &input, room)?;
    let number = match (length % 4, room < length) {
        (1..=3, _) => PART_OF_A_FRAME,
        (_, true) => OUTPUT_TOO_SHORT,
        _ => ACCEPTED,
    };
    let (mut after, mut output) = (*numbers, marks(room));
    let answer = run.subject.block(&mut after, &input, &mut output);
    let what = || format!("block of {length} bytes into {room} on the unit {numbers:?}");
    run.same(number, answer, what)?;
    if number != ACCEPTED {
        run.same((*numbers, marks(room)), (after, output), what)?;
    }
    Ok(())
}

pub fn lengths(run: &mut Run) -> Checked {
    let mut units = vec![house_unit()];
    units.extend((0..10).map(|turn| run.fit_unit(turn)));
    for numbers in &units {
        for length in 0..=33 {
            for room in 0..=37 {
                stated(run, numbers, length, room)?;
            }
        }
        for length in 4_093..=4_100 {
            for room in [0, 1, 3, 4, 4_092, length - 1, length, length + 1, 5_000] {
                stated(run, numbers, length, room)?;
            }
        }
        for _ in 0..300 {
            let [length, room] = [(); 2].map(|()| run.random.below(3_000) as usize);
            stated(run, numbers, length, room)?;
        }
    }
    Ok(())
}
