//! Faults of standard input and standard output, and closed ones.

use outside::checks::sounds::Sound;
use outside::checks::Difference;
use outside::wave::heading;

use crate::expected::{self, FRONT};
use crate::folder::{with_sheet, without_and_with_old, Contents};
use crate::format::{Format, RAW, WAVE};
use crate::run::{Input, Output, Run, Way, PLAY};
use crate::seen::Seen;
use crate::test::Test;

const FRAMES: usize = 200_000;

/// A run of so many frames that stops: the case, where its sound goes, how it is started, what it tells, and how many
/// bytes are heard.
type Stop = (&'static str, usize, Output, Way, &'static str, usize);

const FULL: &str = "standard output: No space left on device\n";
const TOO_LARGE: &str = "standard output: File too large\n";
const BROKEN: &str = "standard output: Broken pipe\n";
const NO_INPUT: &str = "standard input: closed\n";
const NO_OUTPUT: &str = "standard output: closed\n";
/// Room for a part of the sound.
const LIMITED: Way = Way::Shell("ulimit -f 8; trap '' XFSZ", "");
const UNBROKEN: Way = Way::Shell("trap '' PIPE", "");

/// Closed streams; no room at all, and room for a part of the sound, of one write too; broken pipes, with
/// their signal ignored where the program is started, and not.
const STOPS: [Stop; 17] = [
    ("input closed", FRAMES, Output::Pipe, Way::Shell("", "<&-"), NO_INPUT, 0),
    ("output closed", FRAMES, Output::Pipe, Way::Shell("", ">&-"), NO_OUTPUT, 0),
    ("both closed", FRAMES, Output::Pipe, Way::Shell("", "<&- >&-"), NO_INPUT, 0),
    ("error closed", FRAMES, Output::Pipe, Way::Shell("", "2>&-"), "", 0),
    ("input and error closed", FRAMES, Output::Pipe, Way::Shell("", "<&- 2>&-"), "", 0),
    ("output and error closed", FRAMES, Output::Pipe, Way::Shell("", ">&- 2>&-"), "", 0),
    ("a full device", 1, Output::Full, Way::Bare, FULL, 0),
    ("a full device", 2_000, Output::Full, Way::Bare, FULL, 0),
    ("a full device", FRAMES, Output::Full, Way::Bare, FULL, 0),
    ("a full file", 2_000, Output::File, LIMITED, TOO_LARGE, 4_096),
    ("a full file", FRAMES, Output::File, LIMITED, TOO_LARGE, 4_096),
    ("a broken pipe, ignored", FRAMES, Output::ClosedAfter(0), UNBROKEN, BROKEN, 0),
    ("a broken pipe, ignored", FRAMES, Output::ClosedAfter(1), UNBROKEN, BROKEN, 1),
    ("a broken pipe, ignored", FRAMES, Output::ClosedAfter(100_002), UNBROKEN, BROKEN, 100_002),
    ("a broken pipe", FRAMES, Output::ClosedAfter(0), Way::Bare, BROKEN, 0),
    ("a broken pipe", FRAMES, Output::ClosedAfter(1), Way::Bare, BROKEN, 1),
    ("a broken pipe", FRAMES, Output::ClosedAfter(100_002), Way::Bare, BROKEN, 100_002),
];

/// Bytes before a read fault, without an old `strip.new` and with one.
const BEFORE_A_FAULT: [[usize; 5]; 2] = [[0, 4, 1, 7, 4_001], [4_000, 40_000, 3, 6, 40_002]];
const BROKEN_OFF: &str = "standard input: Connection reset by peer\n";
const A_FOLDER: &str = "standard input: Is a directory\n";

/// An input that fails after these bytes: the whole frames are played and the sheet after them is written. A tail is
/// told after the fault.
fn read_fault(test: &mut Test, before: &Contents, input: Input, bytes: &[u8], fault: &str) -> Result<(), Difference> {
    let mut expected = expected::play(before, bytes, &mut test.met);
    expected.errors.splice(..0, fault.bytes());
    test.expect(&format!("a fault after {} bytes", bytes.len()), before, Run::of(PLAY, input), &expected)
}

/// Every stop, with the input in this format.
fn stops(test: &mut Test, format: Format, folders: &[Contents], noise: &[u8]) -> Result<(), Difference> {
    let sound = expected::play(&folders[0], noise, &mut test.met).sound;
    for (case, frames, output, way, line, heard) in STOPS {
        let bytes = format.input(&noise[..4 * frames]);
        let sound = [&(format.heading)(4 * frames), &sound[..heard]].concat()[..heard].to_vec();
        for before in folders {
            let expected = Seen { sound: sound.clone(), ..Seen::nothing_but(line, before) };
            for input in [Input::File(&bytes), Input::Pipe(&bytes)] {
                test.expect(case, before, Run { output, way, ..format.run(input) }, &expected)?;
            }
        }
    }
    Ok(())
}

pub fn all(test: &mut Test) -> Result<(), Difference> {
    let sheet = with_sheet(&test.maker.sheet(4));
    let folders = without_and_with_old(&sheet);
    let noise = test.sound(Sound::Noise, FRAMES);
    for (before, counts) in folders.iter().zip(BEFORE_A_FAULT) {
        for bytes in counts.map(|count| &noise[..count]) {
            read_fault(test, before, Input::BrokenOff(bytes), bytes, BROKEN_OFF)?;
        }
        read_fault(test, before, Input::Folder, &[], A_FOLDER)?;
    }
    stops(test, RAW, &folders, &noise)
}

/// Wave files that break off: the bytes of the data, and of the file up to the fault.
const WAVE_FAULTS: [(u32, usize); 15] = [
    (400_000, 0),
    (400_000, 3),
    (400_000, 43),
    (400_000, 48),
    (400_000, FRONT - 1),
    (4, 48),
    (5, 60),
    (400_000, FRONT),
    (400_000, FRONT + 1),
    (400_000, FRONT + 4),
    (400_000, 80_002),
    (400_001, 80_002),
    (65_496, FRONT),
    (65_497, FRONT),
    (4_000, 80_000),
];

/// Inputs of play --wave that fail. Ahead of the front's end nothing is played; later the fault is told, and then it is
/// as if the input had ended there.
fn wave_faults(test: &mut Test, before: &Contents, noise: &[u8]) -> Result<(), Difference> {
    let run = WAVE.run(Input::Folder);
    test.expect("a folder", before, run, &Seen::nothing_but(A_FOLDER, before))?;
    for (size, count) in WAVE_FAULTS {
        let bytes = &[&heading(size), noise].concat()[..count];
        let mut expected = Seen::nothing_but(BROKEN_OFF, before);
        if count >= FRONT {
            expected = expected::wave(before, bytes, &mut test.met);
            expected.errors.splice(..0, BROKEN_OFF.bytes());
        }
        let case = format!("data of {size} bytes, and a fault after {count}");
        test.expect(&case, before, WAVE.run(Input::BrokenOff(bytes)), &expected)?;
    }
    // No wave file: the fault is told where it comes ahead of the refusal.
    for (count, told) in [(FRONT - 1, BROKEN_OFF), (FRONT, "16\n")] {
        let run = WAVE.run(Input::BrokenOff(&noise[..count]));
        test.expect("no wave file", before, run, &Seen::nothing_but(told, before))?;
    }
    Ok(())
}

pub fn waves(test: &mut Test) -> Result<(), Difference> {
    let sheet = with_sheet(&test.maker.sheet(4));
    let folders = without_and_with_old(&sheet);
    let noise = test.sound(Sound::Noise, FRAMES);
    for before in &folders {
        wave_faults(test, before, &noise)?;
        // A heading is written for no frames, too.
        let no_frames = heading(0);
        let run = Run { output: Output::Full, ..WAVE.run(Input::Pipe(&no_frames)) };
        test.expect("a full device", before, run, &Seen::nothing_but(FULL, before))?;
    }
    stops(test, WAVE, &folders[1..], &noise)
}
