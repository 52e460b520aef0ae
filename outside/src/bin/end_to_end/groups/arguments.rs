//! Arguments of all three programs: help and version, and those that play and house do not take.

use outside::checks::Difference;

use crate::expected::usage;
use crate::folder::{and, other_files, with_sheet, Contents, Entry, NEW_NAME, PART_NAME};
use crate::run::{Input, Run, PLAY};
use crate::seen::{same, Seen};
use crate::test::Test;

/// Lists that every program answers with its usage.
const NOT_TAKEN: [&[&[u8]]; 20] = [
    &[b""],
    &[b"-"],
    &[b"--"],
    &[b"-h"],
    &[b"--hel"],
    &[b"--helpx"],
    &[b" --help"],
    &[b"--help\n"],
    &[b"--HELP"],
    &[b"--versio"],
    &[b"--versions"],
    &[b"--help=1"],
    &[b"strip.sht"],
    &[b"\xff\n"],
    &[b"--help", b"--help"],
    &[b"--help", b""],
    &[b"", b"--version"],
    &[b"--version", b"--help"],
    &[b"-", b"mute", b"-1", b"0"],
    &[&[b'-'; 100_000]],
];

/// Inputs, none of which is read.
const INPUTS: [Input; 5] =
    [Input::File(&[]), Input::File(b"not a sheet"), Input::Pipe(&[1; 40]), Input::BrokenOff(&[0; 4]), Input::Folder];

/// Folders, none of which is looked at: no sheet, a refused one, a fit one, and one where nothing could be saved.
fn folders(test: &mut Test) -> [Contents; 4] {
    let fit = with_sheet(&test.maker.sheet(4));
    let unsaved = and(&and(&fit, NEW_NAME, Entry::Folder), PART_NAME, Entry::Folder);
    [Contents::new(), other_files(), fit, unsaved]
}

/// A program and its arguments in words, not too many of them.
pub fn shown(program: &str, arguments: &[&[u8]]) -> String {
    let text = arguments.join(&b' ');
    format!("{program} {}", text[..text.len().min(200)].escape_ascii())
}

/// These arguments in every folder with every input: what is written begins so, and is only that where it is whole.
fn answered(
    test: &mut Test,
    program: &'static str,
    arguments: &[&[u8]],
    begin: &str,
    is_whole: bool,
) -> Result<(), Difference> {
    for before in folders(test) {
        for input in INPUTS {
            let seen = test.run(&before, Run { arguments, ..Run::of(program, input) })?;
            let is_begin = seen.sound.starts_with(begin.as_bytes()) && seen.sound.ends_with(b"\n") && !is_whole;
            let sound = if is_begin { &seen.sound } else { begin.as_bytes() };
            same(&Seen::written(sound, &before), &seen)
                .map_err(|difference| format!("{}: {difference}", shown(program, arguments)))?;
        }
    }
    Ok(())
}

/// All of the input is left for the next program.
fn unread(test: &mut Test, program: &'static str, arguments: &[&[u8]]) -> Result<(), Difference> {
    let text = [&test.setup.in_shell(program, arguments)[..], b" >/dev/null 2>&1; cat"].concat();
    let bytes = [7; 10_000];
    test.shell(&text, &other_files(), &bytes, &Seen::written(&bytes, &other_files()))
}

/// The usage line and nothing else.
pub fn not_taken(test: &mut Test, program: &'static str, arguments: &[&[u8]]) -> Result<(), Difference> {
    unread(test, program, arguments)?;
    for (before, input) in folders(test).iter().cycle().zip(INPUTS) {
        let run = Run { arguments, ..Run::of(program, input) };
        test.expect(&shown(program, arguments), before, run, &Seen::nothing_but(usage(program), before))?;
    }
    Ok(())
}

/// What every program answers alike.
pub fn every(test: &mut Test, program: &'static str) -> Result<(), Difference> {
    answered(test, program, &[b"--help"], usage(program), false)?;
    answered(test, program, &[b"--version"], &format!("{program} (Fonddrys) 1.5\n"), true)?;
    unread(test, program, &[b"--help"])?;
    unread(test, program, &[b"--version"])?;
    for arguments in NOT_TAKEN {
        not_taken(test, program, arguments)?;
    }
    Ok(())
}

/// Lists about --wave that play answers with its usage.
const NO_WAVE: [&[&[u8]]; 12] = [
    &[b"2", b"10", b"25"],
    &[b"--wav"],
    &[b"--waves"],
    &[b"--WAVE"],
    &[b"-wave"],
    &[b"--wave "],
    &[b"--wave=1"],
    &[b"--wave", b"reel.wav"],
    &[b"reel.wav", b"--wave"],
    &[b"--wave", b"--wave"],
    &[b"--wave", b"--help"],
    &[b"--version", b"--wave"],
];

pub fn play(test: &mut Test) -> Result<(), Difference> {
    every(test, PLAY)?;
    NO_WAVE.iter().try_for_each(|arguments| not_taken(test, PLAY, arguments))
}
