//! The groups of cases. A group runs a program again and again, each time in a folder of its own, and stops at the
//! first difference.

mod arguments;
mod bad_sheets;
mod chains;
mod desk;
mod desk_arguments;
mod figures;
mod files;
mod house;
mod live;
mod sounds;
mod streams;
mod wave_refusals;
mod waves;

use outside::checks::Difference;

use crate::format::{RAW, WAVE};
use crate::test::Test;

/// The cases of a group.
type Cases = fn(&mut Test) -> Result<(), Difference>;

/// A group of cases: its name, what it tries, the seed of its random numbers and what it runs.
#[derive(Clone, Copy)]
pub struct Group {
    pub name: &'static str,
    pub what: &'static str,
    pub seed: u64,
    pub run: Cases,
}

/// A group with the seed of this number.
const fn group(name: &'static str, what: &'static str, run: Cases, number: u64) -> Group {
    Group { name, what, seed: 0xF0DD_00D0 + number, run }
}

#[rustfmt::skip]
pub const GROUPS: [Group; 22] = [
    group("figures", "those of the specification that the program can show, to the byte", figures::all, 12),
    group("refused sheets", "8 to 14, missing, short and long sheets, random damage; an old strip.new", bad_sheets::all, 0),
    group("tails", "one to three bytes, alone and after frames; no input", sounds::tails, 1),
    group("sounds", "long ones through random sheets", sounds::long, 2),
    group("chunks", "one sound through a pipe in odd pieces", |test| sounds::chunks(test, RAW), 3),
    group("continued", "a sound cut in two, the second run on from the first one's sheet", |test| sounds::continued(test, RAW, 5), 4),
    group("live", "sound while the input stays open; the folder meanwhile", |test| live::all(test, RAW), 5),
    group("files", "sheets that can't be read or written, links, and how strip.new is replaced", files::all, 6),
    group("streams", "faults of standard input and output, and closed ones", streams::all, 7),
    group("play arguments", "help, version, and usage ahead of everything else", arguments::play, 13),
    group("wave files", "chunks of every kind around the data; headings up to 65,536 bytes", waves::all, 15),
    group("refused waves", "16, 17, 18 and 5; an old strip.new", wave_refusals::all, 16),
    group("unfinished waves", "18 behind the sound of the data that came, and no sheet", waves::unfinished, 17),
    group("wave chunks", "one wave file through a pipe in odd pieces", |test| sounds::chunks(test, WAVE), 18),
    group("wave continued", "wave files cut in two, against raw frames", |test| sounds::continued(test, WAVE, 2), 19),
    group("live waves", "as live; and what stands behind the data", live::waves, 20),
    group("wave faults", "how strip.new is replaced, and faults of the streams", wave_faults, 21),
    group("house", "the cleared house unit's sheet, whatever the input is; help, version, usage", house::all, 14),
    group("desk orders", "every side and band on random sheets, all positions, lists of orders, odd pieces", desk::orders, 8),
    group("desk refusals", "the sheet's numbers ahead of the orders', and streams that fail", desk::refusals, 9),
    group("desk arguments", "badly written, missing and needless ones; help, version", desk_arguments::all, 10),
    group("chains", "house, desk and play one after the other", chains::all, 11),
];

/// How strip.new is replaced by a pass of a wave file, and faults of the streams.
fn wave_faults(test: &mut Test) -> Result<(), Difference> {
    files::waves(test)?;
    streams::waves(test)
}

/// The group of this name.
pub fn named(name: &str) -> Result<Group, Difference> {
    GROUPS.into_iter().find(|group| group.name == name).ok_or_else(|| format!("no group {name}"))
}
