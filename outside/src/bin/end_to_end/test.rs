//! What runs the programs for a group of cases, and what it counts.

use std::ffi::{OsStr, OsString};
use std::os::unix::ffi::OsStrExt;
use std::path::PathBuf;
use std::time::Duration;

use outside::checks::sheet_makers::{sheet_of, SheetMaker};
use outside::checks::sounds::Sound;
use outside::checks::units::{random_fit, Sets};
use outside::checks::Difference;
use outside::unit::exact::Met;

use super::folder::{system_fault, with_sheet, Contents, Folder};
use super::format::{Format, RAW};
use super::run::{seen, Input, Run, PLAY, SHELL};
use super::seen::{same, Seen};

/// A program in place of some of those under test: a shell's text, which has the path of the real one as `$0`.
#[derive(Clone)]
pub struct Wrapper {
    pub programs: &'static [&'static str],
    pub text: String,
}

/// The programs under test, and how far they are tested.
#[derive(Clone)]
pub struct Setup {
    /// The folder of the programs.
    pub home: PathBuf,
    pub wrapper: Option<Wrapper>,
    /// How many long sounds, and their frames.
    pub sounds: u64,
    pub frames: usize,
    /// How long to wait for what ought to come at once.
    pub patience: Duration,
}

/// The test of a group under way.
pub struct Test {
    pub setup: Setup,
    pub maker: SheetMaker,
    pub runs: u64,
    pub frames: u64,
    pub met: Met,
    /// Cases that can't be tried here, in words.
    pub left_out: Vec<&'static str>,
}

/// A word that a shell takes as it is.
fn quoted(word: &OsStr) -> Vec<u8> {
    let parts: Vec<&[u8]> = word.as_bytes().split(|&byte| byte == b'\'').collect();
    [b"'", parts.join(&b"'\\''"[..]).as_slice(), b"'"].concat()
}

impl Setup {
    /// What starts a program with these arguments.
    pub fn words(&self, program: &str, arguments: &[&[u8]]) -> Vec<OsString> {
        let path = self.home.join(program).into_os_string();
        let mut words = match &self.wrapper {
            _ if program == SHELL => vec![SHELL.into()],
            Some(Wrapper { programs, text }) if programs.contains(&program) => {
                vec![SHELL.into(), "-c".into(), text.into(), path]
            }
            _ => vec![path],
        };
        words.extend(arguments.iter().map(|text| OsStr::from_bytes(text).to_os_string()));
        words
    }

    /// A program and its arguments as a shell takes them.
    pub fn in_shell(&self, program: &str, arguments: &[&[u8]]) -> Vec<u8> {
        let words: Vec<Vec<u8>> = self.words(program, arguments).iter().map(|word| quoted(word)).collect();
        words.join(&b' ')
    }
}

impl Test {
    pub fn new(setup: Setup, seed: u64) -> Test {
        let maker = SheetMaker::new(seed);
        Test { setup, maker, runs: 0, frames: 0, met: Met::default(), left_out: Vec::new() }
    }

    /// Runs a program in a new folder that holds this.
    pub fn run(&mut self, before: &Contents, run: Run) -> Result<Seen, Difference> {
        let folder = Folder::new(before).map_err(system_fault)?;
        self.runs += 1;
        let words = self.setup.words(run.program, run.arguments);
        seen(run.until_its_end(words, &folder, self.setup.patience)?, &folder)
    }

    /// Runs a program and holds what is seen against what must be.
    pub fn expect(&mut self, case: &str, before: &Contents, run: Run, expected: &Seen) -> Result<(), Difference> {
        if run.program == PLAY {
            self.frames += expected.sound.len() as u64 / 4;
        }
        let seen = self.run(before, run);
        seen.and_then(|seen| same(expected, &seen)).map_err(|difference| format!("{case}: {difference}"))
    }

    /// Runs play with nothing wrong but the sheet or the length of these bytes, which the input carries.
    pub fn plain(&mut self, case: &str, before: &Contents, input: Input, bytes: &[u8]) -> Result<(), Difference> {
        self.played(RAW, case, before, input, bytes)
    }

    /// Runs play with nothing wrong but the sheet or these bytes, which the input carries in this format.
    pub fn played(
        &mut self,
        format: Format,
        case: &str,
        before: &Contents,
        input: Input,
        bytes: &[u8],
    ) -> Result<(), Difference> {
        let expected = (format.expected)(before, bytes, &mut self.met);
        self.expect(case, before, format.run(input), &expected)
    }

    /// Runs this text by a shell in a new folder that holds this.
    pub fn shell(&mut self, text: &[u8], before: &Contents, input: &[u8], expected: &Seen) -> Result<(), Difference> {
        let run = Run { arguments: &[b"-c", text], ..Run::of(SHELL, Input::File(input)) };
        self.expect(&String::from_utf8_lossy(text), before, run, expected)
    }

    /// The sheet of a random fit unit. A quiet unit would show little of its sound.
    pub fn loud_sheet(&mut self, turn: u64) -> Contents {
        let random = &mut self.maker.random;
        let mut unit = random_fit(&Sets::all().draw(turn, random), random);
        unit[1] |= 1 << 22;
        with_sheet(&sheet_of(&unit))
    }

    /// A sound of so many frames.
    pub fn sound(&mut self, kind: Sound, frames: usize) -> Vec<u8> {
        kind.block(frames, &mut self.maker.random)
    }
}
