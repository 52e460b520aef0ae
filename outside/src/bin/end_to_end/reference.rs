//! A play and a noise of the independent implementation, for tests that have no other: no fault of a file or stream is
//! looked for.

use std::fs;
use std::io::{self, Read, Write};
use std::process::ExitCode;

use outside::noise::lines;
use outside::unit::exact::Met;

use super::folder::{file_in, with_sheet, NEW_NAME, SHEET_NAME};
use super::format::Format;

/// Plays standard input through `strip.sht`, and writes `strip.new`.
pub fn play(format: Format) -> ExitCode {
    status(pass(format))
}

/// Prints what rounding takes in the bands of an accepted set, over standard input.
pub fn noise(set: &str) -> ExitCode {
    status(heard(set))
}

fn status(ended: io::Result<()>) -> ExitCode {
    match ended {
        Ok(()) => ExitCode::SUCCESS,
        Err(error) => {
            eprintln!("{error}");
            ExitCode::FAILURE
        }
    }
}

fn input() -> io::Result<Vec<u8>> {
    let mut input = Vec::new();
    io::stdin().read_to_end(&mut input)?;
    Ok(input)
}

fn heard(set: &str) -> io::Result<()> {
    let text = fs::read_to_string(set)?;
    let numbers: Vec<i32> = text.split_whitespace().map(|number| number.parse().expect("a number")).collect();
    print!("{}", lines(&numbers.try_into().expect("thirty numbers"), &input()?));
    Ok(())
}

fn pass(format: Format) -> io::Result<()> {
    let sheet = fs::read(SHEET_NAME).unwrap_or_default();
    let input = input()?;
    let expected = (format.expected)(&with_sheet(&sheet), &input, &mut Met::default());
    io::stdout().write_all(&expected.sound)?;
    if let Some(new) = file_in(&expected.after, NEW_NAME) {
        fs::write(NEW_NAME, new)?;
    }
    io::stderr().write_all(&expected.errors)
}
