//! The figures of the specification: what is asked, and what must come. Quoted sentences are the specification's.

use crate::reference::Section;
use crate::unit::orders::{FACTOR_NOT_FINITE, FACTOR_OUTSIDE};
use crate::unit::sheet::FIELD;

/// "S = 2,097,152 gives 0; 2,097,153 gives 1; 6,291,456 gives 2; -2,097,152 gives 0; -6,291,456 gives -2." And "S =
/// 2,097,152 leaves the remainder 2,097,152; 2,097,153 leaves -2,097,151; 6,291,456 leaves -2,097,152; -2,097,152
/// leaves -2,097,152; -6,291,456 leaves 2,097,152."
pub const ROUNDED: [(i32, i32, i32); 5] = [
    (2_097_152, 0, 2_097_152),
    (2_097_153, 1, -2_097_151),
    (6_291_456, 2, -2_097_152),
    (-2_097_152, 0, -2_097_152),
    (-6_291_456, -2, 2_097_152),
];

/// "Rounded 8,388,607 and -8,388,608 don't limit; 8,388,608 and -8,388,609 do. S = 2^22 × 8,388,608 + 5 limits, and
/// leaves 5." A section, x, whether it limits, y and the remainder. With A = 2^22 and B = G = 0 the rounded number is
/// x - x2; with A = G = 2^21 it is (x - x2 + y1) / 2 rounded, so a half beyond the end of a word goes either way. G = 5
/// and y1 = 1 or -1 leave 5 or -5.
pub const STEPS_AT_THE_ENDS: [(Section, i32, bool, i32, i32); 10] = [
    ([4_194_304, 0, 0, 0, 0, 0, 0], 8_388_607, false, 8_388_607, 0),
    ([4_194_304, 0, 0, 0, 0, 0, 0], -8_388_608, false, -8_388_608, 0),
    ([4_194_304, 0, 0, 0, -1, 0, 0], 8_388_607, true, 8_388_607, 0),
    ([4_194_304, 0, 0, 0, 1, 0, 0], -8_388_608, true, -8_388_608, 0),
    ([2_097_152, 0, 2_097_152, 0, -8_388_607, 0, 0], 8_388_607, false, 8_388_607, 0),
    ([2_097_152, 0, 2_097_152, 0, -8_388_608, 0, 0], 8_388_607, true, 8_388_607, -2_097_152),
    ([2_097_152, 0, 2_097_152, 0, 8_388_607, -2, 0], -8_388_608, false, -8_388_608, -2_097_152),
    ([2_097_152, 0, 2_097_152, 0, 8_388_607, -3, 0], -8_388_608, true, -8_388_608, 0),
    ([4_194_304, 0, 5, 0, -1, 1, 0], 8_388_607, true, 8_388_607, 5),
    ([4_194_304, 0, 5, 0, 1, -1, 0], -8_388_608, true, -8_388_608, -5),
];

/// Numbers of a list of four words.
type Four = [i32; 4];

/// The ends of a word in previews, and "The limited y is the one remembered." A band, a list, its results and its
/// remainders. With A = 2^22 and B = G = 0 the rounded number is x - x2; with G = 2^21 too it is that and half of y1;
/// with B = 2^21 too, that less half of y2.
pub const PREVIEWS_AT_THE_ENDS: [([i32; 3], Four, Four, Four); 7] = [
    ([4_194_304, 0, 0], [0, 0, 8_388_607, 0], [0, 0, 8_388_607, 0], [0; 4]),
    ([4_194_304, 0, 0], [0, 0, -8_388_608, 0], [0, 0, -8_388_608, 0], [0; 4]),
    ([4_194_304, 0, 0], [-1, 0, 8_388_607, 0], [-1, 0, 8_388_607, 0], [0; 4]),
    ([4_194_304, 0, 0], [1, 0, -8_388_608, 0], [1, 0, -8_388_608, 0], [0; 4]),
    (
        [4_194_304, 0, 2_097_152],
        [8_388_607, 8_388_607, 0, 0],
        [8_388_607, 8_388_607, -4_194_304, -8_388_608],
        [0, 2_097_152, 2_097_152, 0],
    ),
    ([4_194_304, 0, 2_097_152], [-8_388_608, -8_388_608, 0, 0], [-8_388_608, -8_388_608, 4_194_304, 8_388_607], [0; 4]),
    (
        [4_194_304, 2_097_152, 2_097_152],
        [8_388_607; 4],
        [8_388_607, 8_388_607, 0, -4_194_304],
        [0, 2_097_152, 0, 2_097_152],
    ),
];

/// "The first two bands are 6,606, 4,181,093, 8,375,315 (31 Hz) and 13,191, 4,167,923, 8,361,900 (62 Hz)."
pub const FIRST_TWO: [i32; 6] = [6_606, 4_181_093, 8_375_315, 13_191, 4_167_923, 8_361_900];

/// "31 Hz, cleared, x = 256,000, 256,000, 0: y = 403, 1,208, 1,607; the remainders are 831,488, -331,287, 1,017,513."
pub const RUN_WORDS: [i32; 3] = [256_000, 256_000, 0];
pub const RUN_RESULTS: [i32; 3] = [403, 1_208, 1_607];
pub const RUN_REMAINDERS: [i32; 3] = [831_488, -331_287, 1_017_513];
/// In a unit band 0 feeds its remainder back: 831,488 - 331,287, and 500,201 + 1,017,513. The results are the same.
pub const RUN_CARRIED: [i32; 3] = [831_488, 500_201, 1_517_714];

/// "31 Hz as band 0 of a cleared unit, x = 256, 256, 0: y = 0, 1, 1; the remainders are 1,691,136, -812,032, 1,677,843.
/// As band 4: y = 0, 0, 0; the remainders are 0, 0, 0." The samples, and y and the remainder of both bands after each.
pub const QUIET_RUN: [(i16, [i32; 2], [i32; 2]); 3] =
    [(1, [0, 1_691_136], [0, 0]), (1, [1, -812_032], [0, 0]), (0, [1, 1_677_843], [0, 0])];

/// A step of a section in a unit: x, y1 and y2, and the remainder before it; whether it limits, y, and the remainder
/// that it carries on.
pub type FedStep = ([i32; 3], i32, bool, i32, i32);

/// Steps about the ends of a word and about halves. With this band S is 2^22 × x + 2,097,151 × y1 + y2.
pub const FED_BAND: [i32; 3] = [4_194_304, -1, 2_097_151];
pub const FED_STEPS: [FedStep; 12] = [
    ([8_388_352, 511, 510], 0, false, 8_388_607, 2_097_151),
    ([8_388_352, 511, 510], 1, true, 8_388_607, 0),
    ([8_388_352, 511, 510], 2_097_152, true, 8_388_607, 0),
    ([8_388_352, 511, 510], -2_097_152, false, 8_388_607, -1),
    ([-8_388_608, -1, -2], 0, true, -8_388_608, 0),
    ([-8_388_608, -1, -2], 1, false, -8_388_608, -2_097_152),
    ([-8_388_608, -1, -2], 2_097_152, false, -8_388_608, -1),
    ([-8_388_608, -1, -2], -2_097_152, true, -8_388_608, 0),
    ([0, 1, 0], 0, false, 0, 2_097_151),
    ([0, 1, 0], 1, false, 0, 2_097_152),
    ([0, 1, 0], 2, false, 1, -2_097_151),
    ([0, 3, 0], 3, false, 2, -2_097_152),
];

/// "V = 419, gains 0, s = 32,767: output 2. V = 0: output 0." The volume's target, V after the first move towards it
/// and the output.
pub const QUIET: [(i32, i32, u8); 7] =
    [(0, 0, 0), (419, 419, 2), (420, 419, 2), (8_388_607, 419, 2), (418, 418, 2), (256, 256, 1), (128, 128, 0)];

/// "From 0, position 31 takes 9,989 frames for a band, 20,021 for the volume; mute takes 9,999 for a band." The target,
/// the way of a frame and the frames.
pub const BAND_31: (i32, i32, i32) = (8_380_215, 839, 9_989);
pub const VOLUME_31: (i32, i32, i32) = (8_388_600, 419, 20_021);
pub const BAND_MUTED: (i32, i32, i32) = (-8_388_608, -839, 9_999);

/// The target that an order sets, or its refusal.
pub type Wanted = Result<i32, u32>;

/// Factors by their bits, with the targets or refusals that a band and the volume have for them. 2^-24 × 2^23 is a
/// half, and so is (2^24 - 1) × 2^-24.
pub const FACTORS: [(u32, Wanted, Wanted); 22] = [
    // "Factor 1 - 2^-24: target 8,388,607. Factor -1: -8,388,608."
    (0x3F7F_FFFF, Ok(8_388_607), Ok(8_388_607)),
    (0xBF80_0000, Ok(-8_388_608), Err(FACTOR_OUTSIDE)),
    (0xBF7F_FFFF, Ok(-8_388_608), Err(FACTOR_OUTSIDE)),
    (0x3F7F_FFFE, Ok(8_388_607), Ok(8_388_607)),
    (0x3F7F_FFFD, Ok(8_388_606), Ok(8_388_606)),
    (0x0000_0000, Ok(0), Ok(0)),
    // "minus zero is zero."
    (0x8000_0000, Ok(0), Ok(0)),
    (0x0000_0001, Ok(0), Ok(0)),
    (0x8000_0001, Ok(0), Err(FACTOR_OUTSIDE)),
    // A half, above it, one and a half, two and a half, and minus these.
    (0x3380_0000, Ok(0), Ok(0)),
    (0x3380_0001, Ok(1), Ok(1)),
    (0x3440_0000, Ok(2), Ok(2)),
    (0x34A0_0000, Ok(2), Ok(2)),
    (0xB380_0000, Ok(0), Err(FACTOR_OUTSIDE)),
    (0xB380_0001, Ok(-1), Err(FACTOR_OUTSIDE)),
    (0xB440_0000, Ok(-2), Err(FACTOR_OUTSIDE)),
    (0xB4A0_0000, Ok(-2), Err(FACTOR_OUTSIDE)),
    (0x3F00_0000, Ok(4_194_304), Ok(4_194_304)),
    (0x3F80_0000, Err(FACTOR_OUTSIDE), Err(FACTOR_OUTSIDE)),
    (0xBF80_0001, Err(FACTOR_OUTSIDE), Err(FACTOR_OUTSIDE)),
    (0xFF80_0000, Err(FACTOR_NOT_FINITE), Err(FACTOR_NOT_FINITE)),
    (0x7FC0_0000, Err(FACTOR_NOT_FINITE), Err(FACTOR_NOT_FINITE)),
];

/// "(p - 16) × 558,681 from 16 up and (p - 16) × 104,857 below; it sets the volume's to p × 270,600." Positions with
/// the targets of a band and of the volume.
pub const POSITIONS: [(u8, i32, i32); 6] = [
    (0, -1_677_712, 0),
    (1, -1_572_855, 270_600),
    (15, -104_857, 4_059_000),
    (16, 0, 4_329_600),
    (17, 558_681, 4_600_200),
    (31, 8_380_215, 8_388_600),
];

/// A sheet by its lines V and C; L, the S lines of the bands that feed back, and those of the others; R, and its S
/// lines. C stands ten times, the S lines stand four times and six times.
pub type Lines = [&'static str; 8];

/// "Ten bands all 31 Hz, cleared."
pub const CLEARED: Lines = [
    "V        0        0",
    "C     6606  4181093  8375315",
    "L        0        0        0",
    "S        0        0        0        0        0",
    "S        0        0        0        0",
    "R        0        0        0",
    "S        0        0        0        0        0",
    "S        0        0        0        0",
];

/// "After `play` has taken the frame (1000, 0), bytes 232, 3, 0, 0, the sound is (0, 0), four zero bytes, the L line is
/// `L   256000        0        0`, the left S lines are `S      403        0        0        0   831488` in bands 0 to
/// 3 and `S      403        0        0        0` in bands 4 to 9, the rest is as before."
pub const FRAME: [u8; 4] = [232, 3, 0, 0];
pub const PLAYED: Lines = [
    CLEARED[0],
    CLEARED[1],
    "L   256000        0        0",
    "S      403        0        0        0   831488",
    "S      403        0        0        0",
    CLEARED[5],
    CLEARED[6],
    CLEARED[7],
];

/// The ends of every range.
pub const ENDS: Lines = [
    "V  8388607        0",
    "C  8388607  4194303 -8388606",
    "L -8388608  8388352        1",
    "S -8388608  8388607  8388607 -8388608  2097152",
    "S -8388608  8388607  8388607 -8388608",
    "R  8388352 -8388608        0",
    "S  8388607 -8388608       -1       10 -2097152",
    "S  8388607 -8388608       -1       10",
];

/// The bytes of a sheet.
pub fn sheet(lines: Lines) -> Vec<u8> {
    let times = [1, 10, 1, 4, 6, 1, 4, 6];
    let text: String = lines.iter().zip(times).map(|(line, times)| format!("{line}\n").repeat(times)).collect();
    text.into_bytes()
}

/// The bytes of the short sheet: no line has more than four fields.
pub fn short_sheet(lines: Lines) -> Vec<u8> {
    sheet(lines.map(|line| &line[..line.len().min(1 + 4 * FIELD)]))
}

/// The sheets that are typed out here, and the short ones of them.
pub fn typed_sheets() -> Vec<Vec<u8>> {
    [CLEARED, PLAYED, ENDS].into_iter().flat_map(|lines| [sheet(lines), short_sheet(lines)]).collect()
}
