//! Frames and buffers of every small length and of larger ones. What is written is read back.

use super::run::{marks, Checked, Run};
use crate::reference::ACCEPTED;
use crate::unit::{OUTPUT_TOO_SHORT, PART_OF_A_FRAME};
use crate::wave::HEADING;

/// Counts with which one of the sizes in the heading comes to 2^16 or 2^24, or just not.
const CARRIES: [usize; 6] = [65_496, 65_500, 65_532, 65_536, 16_777_180, 16_777_216];

/// So many bytes of frames into a buffer of so many.
fn write(run: &mut Run, count: usize, room: usize) -> Checked {
    let turn = run.random.draw() as u8;
    let frames: Vec<u8> = (0..count).map(|n| (n as u8).wrapping_mul(29) ^ turn).collect();
    let stated = match (count % 4, room < HEADING + count) {
        (1..=3, _) => PART_OF_A_FRAME,
        (_, true) => OUTPUT_TOO_SHORT,
        _ => ACCEPTED,
    };
    run.stated_write(&frames, &marks(room), stated)
}

pub fn lengths(run: &mut Run) -> Checked {
    for count in 0..=64 {
        for room in 0..=HEADING + count + 12 {
            write(run, count, room)?;
        }
    }
    for count in 65..2_000 {
        for room in [0, HEADING - 1, count, HEADING + count - 1, HEADING + count, HEADING + count + 9] {
            write(run, count, room)?;
        }
    }
    CARRIES.iter().try_for_each(|&count| write(run, count, HEADING + count + 1))
}
