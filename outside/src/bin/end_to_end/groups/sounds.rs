//! Sounds through play: with tails, long ones, in pieces, and cut in two.

use outside::checks::sounds::Sound;
use outside::checks::Difference;

use crate::folder::{and_file, file_in, with_sheet, without_and_with_old, Contents, NEW_NAME};
use crate::format::{Format, RAW};
use crate::run::Input;
use crate::seen::{same, Seen};
use crate::test::Test;

/// Frames before a tail: few, and about the likely lengths of buffers.
const BEFORE_A_TAIL: [usize; 14] = [0, 1, 2, 3, 250, 1_023, 1_024, 2_048, 4_096, 8_192, 16_383, 16_384, 16_385, 32_768];

/// Inputs of every length by four: 5 is told after the whole frames are played and the sheet is written.
pub fn tails(test: &mut Test) -> Result<(), Difference> {
    for (turn, frames) in (3..).zip(BEFORE_A_TAIL) {
        let [without, with_old] = without_and_with_old(&with_sheet(&test.maker.any_sheet(turn)));
        let noise = test.sound(Sound::Noise, frames + 1);
        for tail in 0..4 {
            let bytes = &noise[..4 * frames + tail];
            let case = format!("{frames} frames and {tail} bytes");
            test.plain(&case, &without, Input::File(bytes), bytes)?;
            test.plain(&case, &with_old, Input::Pipe(bytes), bytes)?;
        }
    }
    Ok(())
}

/// Long sounds through random sheets. Sounds that met no limiting and no raised flag would show too little.
pub fn long(test: &mut Test) -> Result<(), Difference> {
    const KINDS: [Sound; 4] = [Sound::Noise, Sound::Soft(9), Sound::Ends, Sound::ThenSilence];
    for (turn, kind) in (0..test.setup.sounds).zip(KINDS.into_iter().cycle()) {
        let before = test.loud_sheet(turn);
        let bytes = test.sound(kind, test.setup.frames);
        test.plain(&format!("sound {turn}"), &before, Input::by_turns(turn, &bytes), &bytes)?;
    }
    for (what, count) in [
        ("section limited upwards", test.met.sections_high),
        ("section limited downwards", test.met.sections_low),
        ("output limited upwards", test.met.outputs_high),
        ("output limited downwards", test.met.outputs_low),
        ("flag raised", test.met.flags_raised),
    ] {
        if count == 0 {
            return Err(format!("the sounds met no {what}"));
        }
    }
    Ok(())
}

/// Bytes for small pieces, and for pieces about the lengths of buffers.
const FEW: usize = 8_003;
const MANY: usize = 600_001;

/// Lengths of pieces beside those that buffers are likely to have.
const WIDE: [&[usize]; 8] = [
    &[4_095, 4_097],
    &[32_767, 32_769, 1],
    &[65_535],
    &[65_536],
    &[65_537],
    &[65_534, 3, 65_535, 65_538, 2],
    &[131_071, 131_073],
    &[131_072, 1, 131_070],
];

/// One sound through a pipe in odd pieces: equal sound and sheet however it comes.
pub fn chunks(test: &mut Test, format: Format) -> Result<(), Difference> {
    let before = test.loud_sheet(0);
    let bytes = test.sound(Sound::Soft(13), MANY / 4 + 1);
    let lengths: Vec<usize> = (0..1_009).map(|_| 1 + test.maker.random.below(7) as usize).collect();
    let short: [&[usize]; 6] = [&[1], &[2], &[3], &[5], &[7, 1], &lengths];
    for (count, lists) in [(FEW, &short[..]), (MANY, &WIDE)] {
        let input = format.input(&bytes[..count]);
        let expected = (format.expected)(&before, &input, &mut test.met);
        for lengths in lists {
            let case = format!("pieces of {:?} bytes", &lengths[..lengths.len().min(12)]);
            test.expect(&case, &before, format.run(Input::Pieces(&input, lengths)), &expected)?;
        }
    }
    Ok(())
}

/// A run in a folder with this sheet: what is seen, the sound without its heading, and the sheet that it wrote.
fn with_new_sheet(
    test: &mut Test,
    format: Format,
    before: &Contents,
    bytes: &[u8],
) -> Result<(Seen, Vec<u8>), Difference> {
    let mut seen = test.run(before, format.run(Input::File(&format.input(bytes))))?;
    let new = file_in(&seen.after, NEW_NAME).ok_or("no strip.new was written")?.to_vec();
    let heading = (format.heading)(bytes.len());
    seen.sound = seen.sound.strip_prefix(&heading[..]).ok_or("another heading was written")?.to_vec();
    Ok((seen, new))
}

/// A sound cut in two, with so many sheets: a second run, on from the first one's sheet, gives what one run over the raw
/// frames of both gives. Only the program's own runs are compared.
pub fn continued(test: &mut Test, format: Format, sheets: u64) -> Result<(), Difference> {
    const FRAMES: usize = 20_000;
    for turn in 0..sheets {
        let before = test.loud_sheet(turn);
        let bytes = test.sound(Sound::Noise, FRAMES);
        let (whole, _) = with_new_sheet(test, RAW, &before, &bytes)?;
        for cut in [0, 1, 2, 9_999, FRAMES - 1, FRAMES] {
            let (first, middle) = with_new_sheet(test, format, &before, &bytes[..4 * cut])?;
            let (second, last) = with_new_sheet(test, format, &with_sheet(&middle), &bytes[4 * cut..])?;
            let both = Seen {
                sound: [first.sound, second.sound].concat(),
                errors: [first.errors, second.errors].concat(),
                after: and_file(&before, NEW_NAME, &last),
                ending: second.ending,
            };
            same(&whole, &both).map_err(|difference| format!("sheet {turn}, cut at {cut}: {difference}"))?;
            test.frames += FRAMES as u64;
        }
    }
    Ok(())
}
