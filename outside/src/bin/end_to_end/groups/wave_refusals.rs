//! Wave files that are refused: one line with the number, nothing played, nothing written.

use outside::checks::sounds::Sound;
use outside::checks::Difference;
use outside::unit::PART_OF_A_FRAME;
use outside::wave::{FORMAT, MOST, NO_DATA, NO_WAVE, OTHER_FORMAT};

use super::waves::{chunk, data_from, file, format, named, other};
use crate::expected::{line, FRONT};
use crate::folder::without_and_with_old;
use crate::format::WAVE;
use crate::run::Input;
use crate::seen::Seen;
use crate::test::Test;

/// A refused file: its fault in words, and its bytes.
type Refused = (String, Vec<u8>);

/// These files in words that last.
fn told<const N: usize>(files: [(&str, Vec<u8>); N]) -> Vec<Refused> {
    files.map(|(case, file)| (case.to_string(), file)).to_vec()
}

/// Files without a heading of RIFF and WAVE.
fn no_wave(data: &[u8]) -> Vec<Refused> {
    let fitting = file(&[&format(0), data]);
    let named = |begin: &[u8; 4], kind: &[u8; 4]| [begin, &fitting[4..8], kind, &fitting[12..]].concat();
    told([
        ("nothing", vec![]),
        ("four bytes", fitting[..4].to_vec()),
        ("eleven bytes", fitting[..11].to_vec()),
        ("raw frames", data.to_vec()),
        ("a byte ahead", [b"\0", &fitting[..]].concat()),
        ("RIFX", named(b"RIFX", b"WAVE")),
        ("RF64", named(b"RF64", b"WAVE")),
        ("riff", named(b"riff", b"WAVE")),
        ("no wave", named(b"RIFF", b"AVI ")),
        ("wave", named(b"RIFF", b"wave")),
    ])
}

/// Files whose `fmt ` differs, runs past the file or its front, or is missing when the data comes.
fn other_format(data: &[u8]) -> Vec<Refused> {
    let changed = (0..16).map(|place| {
        let mut bytes = *FORMAT;
        bytes[place] ^= 3;
        (format!("byte {place} of fmt changed"), file(&[&chunk(b"fmt ", &bytes), data]))
    });
    let short = |count| file(&[&chunk(b"fmt ", &FORMAT[..count]), data]);
    let past = file(&[&named(b"fmt ", 17), FORMAT]);
    let second = file(&[&chunk(b"fmt ", &[0; 16]), &format(0), data]);
    let others = told([
        ("an empty fmt", short(0)),
        ("a fmt of 14 bytes", short(14)),
        ("a fmt of 15 bytes, and a pad byte that would fit", file(&[&named(b"fmt ", 15), FORMAT, data])),
        ("a fmt that runs past by a byte", past),
        ("a fmt that runs past by much", file(&[&named(b"fmt ", u32::MAX), FORMAT, data])),
        ("a fmt of which nothing came", file(&[&named(b"fmt ", 16)])),
        ("a first fmt that differs", second),
        ("no fmt", file(&[&other(3), data])),
        ("a fmt behind the data", file(&[data, &format(0)])),
        ("no fmt, and data that runs past", file(&[&named(b"data", u32::MAX), data])),
        ("a fmt that ends behind the front", file(&[&format(FRONT - 35), data])),
        ("a fmt whose heading ends with the front", file(&[&other(FRONT - 28), &format(0), data])),
    ]);
    changed.chain(others).collect()
}

/// Files in which no data comes, in the front or at all.
fn no_data(data: &[u8]) -> Vec<Refused> {
    let plain = format(0);
    told([
        ("no chunk", file(&[])),
        ("fmt alone", file(&[&plain])),
        ("neither fmt nor data", file(&[&other(3), &other(4)])),
        ("no data", file(&[&plain, &other(40)])),
        ("a heading of seven bytes", file(&[&plain, &data[..7]])),
        ("a heading of seven bytes, and no fmt", file(&[&data[..7]])),
        ("a chunk that runs past by a byte", file(&[&plain, &named(b"LIST", 5), &[0; 4]])),
        ("a chunk that runs past the data", file(&[&plain, &named(b"LIST", u32::MAX), data])),
        ("a chunk of half of all sizes", file(&[&plain, &named(b"LIST", 1 << 31), data])),
        ("a first chunk that runs past", file(&[&named(b"LIST", u32::MAX - 7), &plain, data])),
        ("a second fmt that runs past", file(&[&plain, &named(b"fmt ", u32::MAX), data])),
        ("no pad byte", file(&[&plain, &named(b"LIST", 3), &[0; 3], data])),
        ("headings of two bytes more than the front", data_from(FRONT + 2, data)),
        ("headings of eight bytes more than the front", data_from(FRONT + 8, data)),
        ("headings of much more than the front", data_from(200_000, data)),
        ("a fmt that ends with the front", file(&[&format(FRONT - 36), data])),
    ])
}

/// Bytes of data that are no whole frames: few, and about the end of the front.
const ODD: [usize; 10] = [1, 2, 3, 5, 6, 4_003, 65_491, 65_493, 65_494, 130_001];

/// Data of this size that is all there or more, without a pad byte too; and data of which bytes are missing.
fn part_of_a_frame(size: usize, bytes: &[u8]) -> [(Vec<Refused>, u32); 2] {
    let begun = file(&[&format(0), &named(b"data", size as u32)]);
    let with = |count: usize| (format!("{count} bytes of {size}"), [&begun, &bytes[..count]].concat());
    let whole = [size, size + 1, size + 5, size + 100_000].map(with);
    let short = [0, size / 2, size - 1].map(with);
    [(whole.to_vec(), PART_OF_A_FRAME), (short.to_vec(), NO_DATA)]
}

pub fn all(test: &mut Test) -> Result<(), Difference> {
    let noise = test.sound(Sound::Noise, 60_000);
    let data = chunk(b"data", &noise[..400]);
    let large = [MOST as u32 + 1, MOST as u32 + 4, u32::MAX - 3, u32::MAX].map(|size| {
        let bytes = file(&[&format(0), &named(b"data", size), &noise]);
        (format!("data of {size} bytes"), bytes)
    });
    let mut files = vec![
        (no_wave(&data), NO_WAVE),
        (other_format(&data), OTHER_FORMAT),
        (no_data(&data), NO_DATA),
        (large.to_vec(), NO_DATA),
    ];
    files.extend(ODD.iter().flat_map(|&size| part_of_a_frame(size, &noise)));
    let folders = without_and_with_old(&test.loud_sheet(0));
    for (files, number) in files {
        for (turn, (case, bytes)) in (0..).zip(&files) {
            let before = &folders[turn / 2 % 2];
            let case = format!("{number}: {case}");
            let expected = Seen::nothing_but(&line(number), before);
            assert!(expected == (WAVE.expected)(before, bytes, &mut test.met), "{case}: another refusal");
            test.expect(&case, before, WAVE.run(Input::by_turns(turn as u64, bytes)), &expected)?;
        }
    }
    Ok(())
}
