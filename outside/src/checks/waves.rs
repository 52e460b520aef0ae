//! Wave files with their chunks in any order: most have a fitting format ahead of whole data.

use super::run::{Checked, Run};
use super::wave_makers::Wave;

const FILES: u64 = 300_000;

/// A file, now and then with one of its chunks moved to the front, left out, or without the pad byte behind the last.
fn file(run: &mut Run) -> Checked {
    let Wave { file, headings } = Wave::draw(&mut run.random);
    run.wave(&file)?;
    let one = run.random.below(headings.len() as u64) as usize;
    let begin = headings[one];
    let end = headings.get(one + 1).copied().unwrap_or(file.len());
    let moved = [&file[..12], &file[begin..end], &file[12..begin], &file[end..]].concat();
    run.wave(&moved)?;
    run.wave(&[&file[..begin], &file[end..]].concat())?;
    run.wave(&file[..file.len() - 1])?;
    Ok(())
}

pub fn files(run: &mut Run) -> Checked {
    for _ in 0..FILES / 4 {
        file(run)?;
    }
    Ok(())
}
