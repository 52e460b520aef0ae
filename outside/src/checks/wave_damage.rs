//! Wave files with bytes changed, most of them in headings and formats, and cut at every byte.

use super::run::{Checked, Run};
use super::wave_makers::Wave;
use crate::reference::ACCEPTED;

/// Files that are damaged, and how often bytes of each are changed.
const FILES: u64 = 6_000;
const TIMES: u64 = 120;

/// What a byte is changed into, its neighbours apart.
const BYTES: &[u8] = b"\0\x01\x02\x03\x04\x08\x0F\x10\x11\x7F\x80\xFE\xFF fmtdaRIFXWVE64";

fn read(run: &mut Run, right: &[u8], file: &[u8]) -> Checked {
    let (refusal, ..) = run.wave(file)?;
    run.tally.waves_damaged += u64::from(refusal == ACCEPTED && right != file);
    Ok(())
}

/// A size for the chunk at this place: small, such as end near the end of the file, or near 2^31 or 2^32.
fn any_size(run: &mut Run, file: &[u8], heading: usize) -> u32 {
    let small = run.random.below(20) as u32;
    let near = run.random.below(12) as u32;
    let rest = (file.len() - heading) as u32;
    let from = run.random.pick(&[0, 1 << 31, rest, rest - 8, file.len() as u32, 0_u32.wrapping_sub(heading as u32)]);
    run.random.pick(&[small, from.wrapping_add(near), from.wrapping_sub(near)])
}

/// One change: of a chunk's size, of its name, of the bytes that begin its contents, or anywhere.
fn change(run: &mut Run, wave: &Wave, file: &mut [u8]) {
    let heading = run.random.pick(&wave.headings);
    let place = match run.random.below(6) {
        0 | 1 => {
            let size = any_size(run, &wave.file, heading);
            file[heading + 4..heading + 8].copy_from_slice(&size.to_le_bytes());
            return;
        }
        2 => heading + run.random.below(4) as usize,
        3 => heading + 8 + run.random.below(16) as usize,
        4 => run.random.below(12) as usize,
        _ => run.random.below(file.len() as u64) as usize,
    };
    if let Some(byte) = file.get_mut(place) {
        let other = run.random.pick(BYTES);
        let beside = [byte.wrapping_sub(1), byte.wrapping_add(1), *byte ^ 0x20, *byte ^ 0x80];
        *byte = run.random.pick(&[[other; 4], beside].concat());
    }
}

pub fn anywhere(run: &mut Run) -> Checked {
    for _ in 0..FILES {
        let wave = Wave::draw(&mut run.random);
        for length in 0..wave.file.len() {
            read(run, &wave.file, &wave.file[..length])?;
        }
        for _ in 0..TIMES {
            let mut file = wave.file.clone();
            for _ in 0..run.random.pick(&[1, 1, 2, 4]) {
                change(run, &wave, &mut file);
            }
            read(run, &wave.file, &file)?;
        }
    }
    Ok(())
}
