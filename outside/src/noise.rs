//! How much rounding takes in each band of a set, over a sound: what the program noise prints, by the exact section.

use crate::reference::exact;

/// The remainders of a band, over the left samples and then over the right.
fn remainders(band: &[i32], frames: &[u8]) -> Vec<i32> {
    let mut remainders = Vec::new();
    for side in [0, 2] {
        let mut section = [band[0], band[1], band[2], 0, 0, 0, 0];
        for frame in frames.chunks_exact(4) {
            let sample = i16::from_le_bytes([frame[side], frame[side + 1]]);
            remainders.push(exact::step(&mut section, 256 * i32::from(sample)).remainder);
        }
    }
    remainders
}

/// The whole number next to sum / count, the even one of two.
fn mean(sum: i128, count: i128) -> i128 {
    let below = sum.div_euclid(count);
    let distance = |number: i128| (sum - number * count).abs();
    let ahead = (distance(below + 1), (below + 1).rem_euclid(2)) < (distance(below), below.rem_euclid(2));
    below + i128::from(ahead)
}

/// The lines of an accepted set over one frame or more.
pub fn lines(set: &[i32; 30], frames: &[u8]) -> String {
    let mut lines = format!("{:4}{:>10}{:>11}{:>11}\n", "band", "mean", "mean size", "largest");
    for (number, band) in set.chunks_exact(3).enumerate() {
        let remainders = remainders(band, frames);
        let count = remainders.len() as i128;
        let sum = remainders.iter().copied().map(i128::from).sum();
        let sizes = remainders.iter().map(|remainder| i128::from(remainder.abs()));
        let largest = sizes.clone().max().expect("a frame or more");
        lines += &format!("{number:4}{:10}{:11}{largest:11}\n", mean(sum, count), mean(sizes.sum(), count));
    }
    lines
}
