//! The formats in which play takes a sound: raw frames and wave files.

use outside::unit::exact::Met;
use outside::wave::heading;

use super::expected::{self, FRONT};
use super::folder::Contents;
use super::run::{Input, Run, PLAY};
use super::seen::Seen;

/// A format.
#[derive(Clone, Copy)]
pub struct Format {
    /// What play is called with.
    pub arguments: &'static [&'static [u8]],
    /// The bytes of the input behind which every whole frame is heard at once: the front of a wave file.
    pub front: usize,
    /// What stands ahead of so many bytes of frames.
    pub heading: fn(usize) -> Vec<u8>,
    /// A run of play with this input and nothing wrong but the sheet or the input.
    pub expected: fn(&Contents, &[u8], &mut Met) -> Seen,
}

pub const RAW: Format = Format { arguments: &[], front: 0, heading: |_| Vec::new(), expected: expected::play };

pub const WAVE: Format = Format {
    arguments: &[b"--wave"],
    front: FRONT,
    heading: |size| heading(size as u32).to_vec(),
    expected: expected::wave,
};

impl Format {
    /// An input of these bytes: their whole frames, and the others behind them.
    pub fn input(&self, bytes: &[u8]) -> Vec<u8> {
        [&(self.heading)(bytes.len() / 4 * 4), bytes].concat()
    }

    /// A run of play with this input, the sound to a pipe, started by itself.
    pub fn run<'a>(&self, input: Input<'a>) -> Run<'a> {
        Run { arguments: self.arguments, ..Run::of(PLAY, input) }
    }
}
