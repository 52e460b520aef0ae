//! Wave files and frames of 2^32 bytes and more, of which all but a few pages are never touched.

use super::run::{Checked, Run};
use crate::reference::ACCEPTED;
use crate::unit::{OUTPUT_TOO_SHORT, PART_OF_A_FRAME};
use crate::wave::{heading, refused, Read, MOST, NO_DATA};

const GIANT: usize = 1 << 32;
/// The files are as long as this, or cut from it.
const LENGTH: usize = GIANT + 200;

/// Bytes and the place where they are written.
type Part = (usize, Vec<u8>);

/// A plain heading for data of this size.
fn with_data(size: u32) -> Vec<Part> {
    vec![(0, [&heading(0)[..40], &size.to_le_bytes()].concat())]
}

/// A chunk of this size, then a format and data of one frame, so many bytes behind its contents.
fn with_chunk(size: u32, behind: usize) -> Vec<Part> {
    let front = [b"RIFF    WAVELIST".as_slice(), &size.to_le_bytes()].concat();
    vec![(0, front), (20 + size as usize + behind, heading(4)[12..].to_vec())]
}

/// Zeros but for these parts. Pages that nothing is written to take no memory.
fn huge(parts: &[Part]) -> Vec<u8> {
    let mut bytes = vec![0; LENGTH];
    parts.iter().for_each(|(place, part)| bytes[*place..][..part.len()].copy_from_slice(part));
    bytes
}

/// A file of this length by its parts, with its answer.
fn read(run: &mut Run, parts: &[Part], length: usize, stated: Read) -> Checked {
    run.stated_wave(&huge(parts)[..length], stated)
}

/// So many bytes of frames into a buffer that is too short for them.
fn write(run: &mut Run, count: usize, stated: u32) -> Checked {
    run.stated_write(&huge(&[])[..count], &[0xA5; 100], stated)
}

pub fn beyond_32_bits(run: &mut Run) -> Checked {
    let all = u32::MAX as usize;
    read(run, &with_data(u32::MAX - 3), 44 + all - 3, (ACCEPTED, 44, all - 3))?;
    read(run, &with_data(u32::MAX - 3), 44 + all - 4, refused(NO_DATA))?;
    read(run, &with_data(u32::MAX), 44 + all, refused(PART_OF_A_FRAME))?;
    read(run, &with_data(u32::MAX), 44 + all - 1, refused(NO_DATA))?;
    read(run, &with_chunk(u32::MAX, 1), LENGTH, (ACCEPTED, GIANT + 52, 4))?;
    read(run, &with_chunk(u32::MAX - 1, 0), LENGTH, (ACCEPTED, GIANT + 50, 4))?;
    read(run, &with_chunk(u32::MAX, 1), GIANT + 55, refused(NO_DATA))?;
    for count in [MOST + 1, MOST + 4, GIANT, GIANT + 4, GIANT + 40] {
        write(run, count, PART_OF_A_FRAME)?;
    }
    write(run, MOST, OUTPUT_TOO_SHORT)?;
    write(run, MOST - 4, OUTPUT_TOO_SHORT)
}
