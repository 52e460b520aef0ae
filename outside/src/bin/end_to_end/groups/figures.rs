//! The figures of the specification that the play program can show.

use outside::checks::Difference;
use outside::figures::{sheet, short_sheet, Lines, CLEARED, FRAME, PLAYED};

use crate::folder::{and_file, with_sheet, NEW_NAME};
use crate::run::{Input, Run, PLAY};
use crate::seen::Seen;
use crate::test::Test;

/// S lines: that of a band that feeds back, and that of another.
type Strips = [&'static str; 2];

/// The cleared sheet with this volume and these strips.
const fn silent(volume: &'static str, [fed, plain]: Strips) -> Lines {
    let [_, bands, left, _, _, right, _, _] = CLEARED;
    [volume, bands, left, fed, plain, right, fed, plain]
}

/// Volume and gains on their way from 0 to position 31, with silence.
const AT_0: Strips = ["S        0        0        0  8380215        0", "S        0        0        0  8380215"];
const SLOPES: Lines = silent("V        0  8388600", AT_0);
const BEFORE_31: Strips = ["S        0        0  8379932  8380215        0", "S        0        0  8379932  8380215"];
const AT_31: Strips = ["S        0        0  8380215  8380215        0", "S        0        0  8380215  8380215"];

/// A figure: the sheet before, the frames, their sound, and the sheet after.
type Figure = (&'static str, Lines, &'static [u8], &'static [u8], Lines);

const FIGURES: [Figure; 7] = [
    ("after the frame (1000, 0) the sound is (0, 0)", CLEARED, &FRAME, &[0; 4], PLAYED),
    ("9,988 frames", SLOPES, &[0; 39_952], &[0; 39_952], silent("V  4184972  8388600", BEFORE_31)),
    ("9,989 frames for a band", SLOPES, &[0; 39_956], &[0; 39_956], silent("V  4185391  8388600", AT_31)),
    ("20,020 frames", SLOPES, &[0; 80_080], &[0; 80_080], silent("V  8388380  8388600", AT_31)),
    ("20,021 for the volume", SLOPES, &[0; 80_084], &[0; 80_084], silent("V  8388600  8388600", AT_31)),
    (
        "31 Hz, cleared, x = 256,000, 256,000, 0: y = 403, 1,208, 1,607",
        CLEARED,
        &[232, 3, 232, 3, 232, 3, 232, 3, 0, 0, 0, 0],
        &[0; 12],
        [
            CLEARED[0],
            CLEARED[1],
            "L        0   256000        0",
            "S     1607     1208        0        0  1517714",
            "S     1607     1208        0        0",
            "R        0   256000        0",
            "S     1607     1208        0        0  1517714",
            "S     1607     1208        0        0",
        ],
    ),
    // The right has the lowest sample, by which the sides can be told apart.
    (
        "V = 419, gains 0, s = 32,767: output 2",
        silent("V        0      419", [CLEARED[3], CLEARED[4]]),
        &[255, 127, 0, 128],
        &[2, 0, 254, 255],
        [
            "V      419      419",
            CLEARED[1],
            "L  8388352        0        0",
            "S    13212        0        0        0 -1691136",
            "S    13212        0        0        0",
            "R -8388608        0        0",
            "S   -13212        0        0        0        0",
            "S   -13212        0        0        0",
        ],
    ),
];

/// Each from a sheet and from the short one: the remainders of all of them are 0.
pub fn all(test: &mut Test) -> Result<(), Difference> {
    for (case, before, frames, sound, after) in FIGURES {
        for before in [sheet(before), short_sheet(before)].map(|sheet| with_sheet(&sheet)) {
            let after = and_file(&before, NEW_NAME, &sheet(after));
            let expected = Seen { after, ..Seen::written(sound, &before) };
            for input in [Input::File(frames), Input::Pipe(frames)] {
                test.expect(case, &before, Run::of(PLAY, input), &expected)?;
            }
        }
    }
    Ok(())
}
