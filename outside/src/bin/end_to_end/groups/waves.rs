//! Wave files through play: chunks of every kind around the data, and data that is not all there.

use outside::checks::sounds::Sound;
use outside::checks::Difference;
use outside::wave::{heading, FORMAT, MOST};

use crate::expected::FRONT;
use crate::folder::{and_file, without_and_with_old, NEW_NAME, OLD};
use crate::format::{RAW, WAVE};
use crate::run::Input;
use crate::test::Test;

/// The name and the size that stand ahead of a chunk's bytes.
pub fn named(name: &[u8; 4], size: u32) -> Vec<u8> {
    [*name, size.to_le_bytes()].concat()
}

/// A chunk; a pad byte stands behind an odd count of bytes.
pub fn chunk(name: &[u8; 4], bytes: &[u8]) -> Vec<u8> {
    [&named(name, bytes.len() as u32), bytes, &b"d"[..bytes.len() % 2]].concat()
}

/// A chunk that is skipped, of so many bytes.
pub fn other(count: usize) -> Vec<u8> {
    chunk(b"LIST", &vec![b'd'; count])
}

/// A `fmt ` that fits, with so many bytes behind its first sixteen.
pub fn format(more: usize) -> Vec<u8> {
    chunk(b"fmt ", &[FORMAT, &vec![255; more][..]].concat())
}

/// A file of these chunks. Its own size is wrong, since that is not used.
pub fn file(chunks: &[&[u8]]) -> Vec<u8> {
    [b"RIFF\x07\0\0\0WAVE", &chunks.concat()[..]].concat()
}

/// A file whose heading of the data ends with this byte.
pub fn data_from(from: usize, data: &[u8]) -> Vec<u8> {
    file(&[&other(from - 52), &format(0), data])
}

/// Files with these frames as their data: the case, and the chunks of the file.
fn fitting(data: &[u8]) -> Vec<(&'static str, Vec<u8>)> {
    let [plain, short] = [format(0), chunk(b"fmt ", &[])];
    let mono = chunk(b"fmt ", &[&[1, 0, 1, 0], &FORMAT[4..]].concat());
    let hidden = chunk(b"LIST", &chunk(b"data", &[1; 8]));
    let like_data = [chunk(b"DATA", &[1; 4]), chunk(b"dat ", &[1; 4]), chunk(b"adat", &[1; 4])].concat();
    let like_format = [chunk(b"FMT ", &[1; 4]), chunk(b"fmt\0", &[1; 16])].concat();
    let second = chunk(b"data", &[77; 400]);
    vec![
        ("no other chunk", file(&[&plain, data])),
        ("another ahead", file(&[&other(4), &plain, data])),
        ("odd sizes ahead", file(&[&other(1), &other(3), &plain, &other(5), &other(7), data])),
        ("empty chunks", file(&[&other(0), &plain, &other(0), &other(0), data])),
        ("many chunks", file(&[&other(9).repeat(500), &plain, &other(10).repeat(500), data])),
        ("a longer fmt", file(&[&format(2), data])),
        ("an odd fmt", file(&[&format(1), data])),
        ("a fmt of 40 bytes", file(&[&format(24), &chunk(b"fact", &[1; 4]), data])),
        ("a second fmt that differs", file(&[&plain, &mono, data])),
        ("a second fmt that is short", file(&[&plain, &short, &other(3), data])),
        ("data within another chunk", file(&[&plain, &hidden, data])),
        ("names like data", file(&[&plain, &like_data, data])),
        ("names like fmt", file(&[&like_format, &plain, data])),
        ("another behind", file(&[&plain, data, &other(30)])),
        ("an odd one behind", file(&[&plain, data, &other(31)])),
        ("a second data", file(&[&plain, data, &second])),
        ("a fmt behind that differs", file(&[&plain, data, &mono])),
        ("one behind that runs past", file(&[&plain, data, &named(b"LIST", u32::MAX)])),
        ("a byte behind", file(&[&plain, data, &[7]])),
        ("three bytes behind", file(&[&plain, data, &[7; 3]])),
        ("much behind", file(&[&plain, data, &other(300_001)])),
        ("headings of two bytes less than the front", data_from(FRONT - 2, data)),
        ("headings of the front's size", data_from(FRONT, data)),
        ("a fmt as long as can be", file(&[&format(FRONT - 44), data])),
    ]
}

/// Bytes of data: none, few, and about the end of the front.
const SIZES: [usize; 10] = [0, 4, 8, 4_000, 65_488, 65_492, 65_496, 65_536, 65_540, 131_072];

pub fn all(test: &mut Test) -> Result<(), Difference> {
    let [before, with_old] = without_and_with_old(&test.loud_sheet(0));
    let noise = test.sound(Sound::Noise, 40_000);
    for frames in [1_001, 0] {
        for (turn, (case, file)) in (0..).zip(fitting(&chunk(b"data", &noise[..4 * frames]))) {
            test.played(WAVE, case, &before, Input::by_turns(turn, &file), &file)?;
        }
    }
    for size in SIZES {
        // In the second file the front ends inside a frame.
        for file in [WAVE.input(&noise[..size]), data_from(1_026, &chunk(b"data", &noise[..size]))] {
            test.played(WAVE, &format!("{size} bytes"), &with_old, Input::Pipe(&file), &file)?;
        }
    }
    // Without the argument it is a sound like any other.
    let file = WAVE.input(&noise[..4_000]);
    test.played(RAW, "as raw frames", &before, Input::File(&file), &file)
}

/// Bytes that come of the data: within the front, about its end, and behind it.
const CAME: [usize; 6] = [0, 4, 4_000, 65_488, 65_492, 80_000];

/// Data that ends too soon, by one byte to four and by much: what came is played, and no sheet is left.
pub fn unfinished(test: &mut Test) -> Result<(), Difference> {
    let before = test.loud_sheet(0);
    let noise = test.sound(Sound::Noise, 30_000);
    for (turn, came) in (0..).zip(CAME.iter().flat_map(|came| [0, 1, 2, 3].map(|tail| came + tail))) {
        let next = came / 4 * 4 + 4;
        for size in [next, [next + 100_000, 0x7FFF_F000, MOST][turn % 3]] {
            let file = [&heading(size as u32), &noise[..came]].concat();
            let before = if turn % 2 == 0 { before.clone() } else { and_file(&before, NEW_NAME, OLD) };
            let case = format!("{came} bytes of {size}");
            test.played(WAVE, &case, &before, Input::by_turns(turn as u64 / 2, &file), &file)?;
        }
    }
    Ok(())
}
