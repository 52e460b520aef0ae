//! Holds the library against sox: wave files and others that sox writes, wave files that both read, and those that the
//! library writes. Exit status 0 only if all answers are right and wrong implementations are found.

use std::fs;
use std::process::{Command, ExitCode, Stdio};

use outside::checks::report::report;
use outside::checks::Difference;
use outside::faults::WRONG;
use outside::random::Random;
use outside::reference::ACCEPTED;
use outside::subject::{Form, LIBRARY};
use outside::temporary::Temporary;
use outside::wave::{refused, HEADING, NO_DATA, NO_WAVE, OTHER_FORMAT};

const SEED: u64 = 0xF0DD_002C;

/// What sox is told to write of a thousand frames, and the number that the reader has for it.
const WRITTEN_BY_SOX: [(&str, u32); 15] = [
    ("-t wav FILE", ACCEPTED),
    ("-t wav -c 1 FILE", OTHER_FORMAT),
    ("-t wav -c 6 FILE", OTHER_FORMAT),
    ("-t wav -b 8 FILE", OTHER_FORMAT),
    ("-t wav -b 24 FILE", OTHER_FORMAT),
    ("-t wavpcm -b 24 FILE", OTHER_FORMAT),
    ("-t wav -e floating-point -b 32 FILE", OTHER_FORMAT),
    ("-t wav -e a-law FILE", OTHER_FORMAT),
    ("-t wav -r 48000 FILE", OTHER_FORMAT),
    ("-t wav -B FILE", NO_WAVE),
    ("-t w64 FILE", NO_WAVE),
    ("-t aiff FILE", NO_WAVE),
    ("-t flac FILE", NO_WAVE),
    // The heading that goes out through a pipe has the right size where sox knows it beforehand.
    ("-t wav -", ACCEPTED),
    ("-t wav - repeat 1", NO_DATA),
];

/// What is put into the plain file, at which place, and where the data begins then. Sox finds the frames too.
const READ_BY_SOX: [(usize, &[u8], usize); 5] = [
    (12, b"junk\x01\0\0\0\x01\0", 54),
    (36, b"LIST\x0B\0\0\0INFOICMT\x01\x02\x03\0", 64),
    (36, b"fmt \x10\0\0\0\x01\0\x02\0\x44\xAC\0\0\x10\xB1\x02\0\x04\0\x10\0", 68),
    (4_044, b"LIST\x03\0\0\0\x01\x02\x03\0", 44),
    (4_044, b"data\x04\0\0\0\x01\x02\x03\x04", 44),
];

/// Wrong implementations that must be found.
const FOUND: [&str; 8] = [
    "the RIFF size used",
    "pad bytes forgotten",
    "the last data taken",
    "data that runs past the file cut off at its end",
    "17 and 18 exchanged",
    "each wave file refused",
    "the RIFF size that of the whole file",
    "silence written",
];

/// A folder with the frames, as sox reads them.
struct Sox {
    folder: Temporary,
    frames: Vec<u8>,
}

const FRAMES: &str = "-t raw -r 44100 -e signed -b 16 -c 2 frames";

impl Sox {
    fn new() -> std::io::Result<Sox> {
        let mut random = Random::new(SEED);
        let frames = (0..500).flat_map(|_| random.draw().to_le_bytes()).collect();
        let sox = Sox { folder: Temporary::new("wave_files")?, frames };
        fs::write(sox.folder.path().join("frames"), &sox.frames)?;
        Ok(sox)
    }

    /// Runs sox: what it leaves in FILE, or on standard output.
    fn run(&self, words: &str) -> Result<Vec<u8>, Difference> {
        let mut command = Command::new("sox");
        command.arg("-V1").args(words.split(' ')).current_dir(self.folder.path()).stderr(Stdio::inherit());
        let ended = command.output().map_err(|error| format!("sox can't be started: {error}"))?;
        if !ended.status.success() {
            return Err(format!("sox {words} failed"));
        }
        if !ended.stdout.is_empty() {
            return Ok(ended.stdout);
        }
        fs::read(self.folder.path().join("FILE")).map_err(|error| format!("sox {words}: {error}"))
    }

    /// The frames of a file, and the file as sox writes it again.
    fn reads(&self, file: &[u8]) -> Result<[Vec<u8>; 2], Difference> {
        fs::write(self.folder.path().join("given.wav"), file).map_err(|error| format!("given.wav: {error}"))?;
        Ok([self.run("given.wav -t raw -")?, self.run("given.wav -t wav FILE")?])
    }
}

fn same<T: PartialEq + std::fmt::Debug>(what: &str, expected: T, got: T) -> Result<(), Difference> {
    match expected == got {
        true => Ok(()),
        false => Err(format!("{what}: expected {expected:?}, got {got:?}")),
    }
}

/// Holds a subject against sox.
fn agree(sox: &Sox, subject: &Form) -> Result<(), Difference> {
    for (options, refusal) in WRITTEN_BY_SOX {
        let file = sox.run(&format!("{FRAMES} {options}"))?;
        let read = if refusal == ACCEPTED { (ACCEPTED, HEADING, sox.frames.len()) } else { refused(refusal) };
        same(options, read, (subject.wave_read)(&file))?;
    }
    let mut plain = vec![0; HEADING + sox.frames.len()];
    same("writing", ACCEPTED, (subject.wave_write)(&sox.frames, &mut plain))?;
    same("the file written", &[sox.frames.clone(), plain.clone()], &sox.reads(&plain)?)?;
    for (place, more, from) in READ_BY_SOX {
        let file = [&plain[..place], more, &plain[place..]].concat();
        let what = format!("with {}", more.escape_ascii());
        same(&what, (ACCEPTED, from, sox.frames.len()), (subject.wave_read)(&file))?;
        same(&what, &sox.frames, &sox.reads(&file)?[0])?;
    }
    Ok(())
}

fn everything() -> Result<(), Difference> {
    let sox = Sox::new().map_err(|error| format!("the frames: {error}"))?;
    agree(&sox, &LIBRARY)?;
    let (written, read) = (WRITTEN_BY_SOX.len(), READ_BY_SOX.len() + 1);
    println!("{written} files that sox writes and {read} that it reads");
    for name in FOUND {
        let wrong = WRONG.iter().find(|wrong| wrong.name == name).ok_or(format!("{name}: no such fault"))?;
        agree(&sox, &wrong.form).err().ok_or(format!("{name}: not found"))?;
    }
    println!("{} wrong implementations found", FOUND.len());
    Ok(())
}

fn main() -> ExitCode {
    report(&[("frames", SEED)], "All agree.", everything)
}
