//! Readers and writers of wave files, spoiled.

use crate::reference::ACCEPTED;
use crate::unit::PART_OF_A_FRAME;
use crate::wave::{read, refused, write, Read, FORMAT, HEADING, NO_DATA, NO_WAVE, OTHER_FORMAT};

/// A chunk: its name, where its contents begin, and their size.
type Chunk<'a> = (&'a [u8], usize, usize);

/// What a reader goes by.
pub struct Rules {
    /// Where the next chunk begins, given where the contents of one begin and their size.
    pub next: fn(usize, usize) -> usize,
    /// The place of the `data` that counts, out of all chunks.
    pub data: fn(&[Chunk]) -> Option<usize>,
    /// The place of the `fmt ` that counts, out of all chunks, given that of the data or their count.
    pub format: fn(&[Chunk], usize) -> Option<usize>,
    /// Whether a format fits, given the file from its contents on, and its size.
    pub fits: fn(&[u8], usize) -> bool,
}

/// The rules with nothing wrong in them.
pub const RULES: Rules = Rules {
    next: |from, size| from + size + size % 2,
    data: |chunks| chunks.iter().position(|chunk| chunk.0 == b"data"),
    format: |chunks, data| chunks[..data].iter().position(|chunk| chunk.0 == b"fmt "),
    fits: |rest, size| (16..=rest.len()).contains(&size) && rest[..16] == *FORMAT,
};

/// The number of 32 bits at this place.
pub fn number(file: &[u8], at: usize) -> usize {
    (0..4).map(|n| usize::from(file[at + n]) << (8 * n)).sum()
}

fn chunks(file: &[u8], next: fn(usize, usize) -> usize) -> Vec<Chunk<'_>> {
    let (mut chunks, mut at) = (Vec::new(), 12);
    while at + 8 <= file.len() {
        let (from, size) = (at + 8, number(file, at + 4));
        chunks.push((&file[at..at + 4], from, size));
        at = next(from, size);
    }
    chunks
}

/// Reads a file by these rules.
pub fn read_by(file: &[u8], rules: Rules) -> Read {
    if read(&file[..file.len().min(12)]) == refused(NO_WAVE) {
        return refused(NO_WAVE);
    }
    let chunks = chunks(file, rules.next);
    let data = (rules.data)(&chunks);
    let format = (rules.format)(&chunks, data.unwrap_or(chunks.len())).map(|place| chunks[place]);
    let fits = format.map(|(_, from, size)| (rules.fits)(&file[from..], size));
    match (fits, data.map(|place| chunks[place])) {
        (Some(false), _) | (None, Some(_)) => refused(OTHER_FORMAT),
        (_, Some((_, from, size))) if from + size <= file.len() && size % 4 != 0 => refused(PART_OF_A_FRAME),
        (_, Some((_, from, size))) if from + size <= file.len() => (ACCEPTED, from, size),
        _ => refused(NO_DATA),
    }
}

/// A writer that spoils the file that it has written, or the bytes behind it.
pub fn write_with(frames: &[u8], buffer: &mut [u8], spoil: impl FnOnce(&mut [u8], &mut [u8])) -> u32 {
    let refusal = write(frames, buffer);
    if refusal == ACCEPTED {
        let (file, behind) = buffer.split_at_mut(HEADING + frames.len());
        spoil(file, behind);
    }
    refusal
}

/// A writer of this RIFF size, given the count of the frames' bytes.
pub fn write_riff(frames: &[u8], buffer: &mut [u8], size: fn(u32) -> u32) -> u32 {
    let size = size(frames.len() as u32).to_le_bytes();
    write_with(frames, buffer, |file, _| file[4..8].copy_from_slice(&size))
}
