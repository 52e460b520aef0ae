//! Wave files of two channels, 44,100 frames a second and 16 bits, read and written by the rules of the specification.
//! The reader collects all chunks of a file, and looks for the first `fmt ` and the first `data` among them.

use crate::reference::ACCEPTED;
use crate::unit::{OUTPUT_TOO_SHORT, PART_OF_A_FRAME};

/// The bytes of the plain heading, and the most bytes of frames that it can tell.
pub const HEADING: usize = 44;
pub const MOST: usize = 4_294_967_256;

/// No RIFF or WAVE heading; a `fmt ` that differs or is missing; no `data`, or one that runs past the file.
pub const NO_WAVE: u32 = 16;
pub const OTHER_FORMAT: u32 = 17;
pub const NO_DATA: u32 = 18;

/// PCM, two channels, 44,100 frames and 176,400 bytes a second, four bytes a frame, 16 bits.
pub const FORMAT: &[u8; 16] = b"\x01\0\x02\0\x44\xAC\0\0\x10\xB1\x02\0\x04\0\x10\0";

/// The answer of a reader: the refusal's number, where the data begins, and the count of its bytes.
pub type Read = (u32, usize, usize);

/// A refused reading hands back no part of the file.
pub fn refused(refusal: u32) -> Read {
    (refusal, 0, 0)
}

/// A chunk, which may run past the file: its name, its size, and all that stands behind its heading.
pub struct Chunk<'a> {
    pub name: &'a [u8; 4],
    pub size: u32,
    behind: &'a [u8],
}

impl Chunk<'_> {
    fn fits(&self) -> bool {
        let contents = self.behind.get(..self.size as usize);
        contents.is_some_and(|contents| contents.starts_with(FORMAT))
    }
}

/// All chunks of a file, whatever their names are. A size that is odd has a pad byte behind it.
pub fn chunks(file: &[u8]) -> Vec<Chunk<'_>> {
    let mut rest = file.get(12..).unwrap_or_default();
    let next = || {
        let (name, sized) = rest.split_first_chunk()?;
        let (size, behind) = sized.split_first_chunk()?;
        let size = u32::from_le_bytes(*size);
        rest = behind.get((size as usize).next_multiple_of(2)..).unwrap_or_default();
        Some(Chunk { name, size, behind })
    };
    std::iter::from_fn(next).collect()
}

/// Where the data begins and the size that its heading tells, or the refusal. The data may run past the file.
pub fn walk(file: &[u8]) -> Result<(usize, u32), u32> {
    let [b'R', b'I', b'F', b'F', _, _, _, _, b'W', b'A', b'V', b'E', ..] = file else {
        return Err(NO_WAVE);
    };
    let chunks = chunks(file);
    let ahead = chunks.iter().take_while(|chunk| chunk.name != b"data").count();
    let format = chunks[..ahead].iter().find(|chunk| chunk.name == b"fmt ");
    match (format.map(Chunk::fits), chunks.get(ahead)) {
        (Some(false), _) | (None, Some(_)) => Err(OTHER_FORMAT),
        (_, None) => Err(NO_DATA),
        (Some(true), Some(data)) => Ok((file.len() - data.behind.len(), data.size)),
    }
}

/// Reads a file.
pub fn read(file: &[u8]) -> Read {
    match walk(file) {
        Err(refusal) => refused(refusal),
        Ok((from, size)) if file[from..].get(..size as usize).is_none() => refused(NO_DATA),
        Ok((_, size)) if size % 4 != 0 => refused(PART_OF_A_FRAME),
        Ok((from, size)) => (ACCEPTED, from, size as usize),
    }
}

/// The plain heading for so many bytes of frames.
pub fn heading(size: u32) -> [u8; HEADING] {
    let [riff, format, data] = [36 + size, 16, size].map(u32::to_le_bytes);
    let parts = [b"RIFF", &riff, b"WAVE", b"fmt ", &format, &FORMAT[..], b"data", &data];
    parts.concat().try_into().expect("44 bytes")
}

/// Writes heading and frames to the front of the buffer. A refusal writes nothing, and bytes behind the file stay.
pub fn write(frames: &[u8], buffer: &mut [u8]) -> u32 {
    let end = HEADING + frames.len();
    if !frames.len().is_multiple_of(4) || frames.len() > MOST {
        return PART_OF_A_FRAME;
    }
    if buffer.len() < end {
        return OUTPUT_TOO_SHORT;
    }
    buffer[..HEADING].copy_from_slice(&heading(frames.len() as u32));
    buffer[HEADING..end].copy_from_slice(frames);
    ACCEPTED
}
