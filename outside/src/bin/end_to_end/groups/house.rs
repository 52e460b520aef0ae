//! The program house: the sheet of the cleared house unit, whatever its input is.

use outside::checks::Difference;

use super::arguments;
use crate::expected::house_sheet;
use crate::folder::{other_files, system_fault, Folder};
use crate::run::{seen, Input, Output, Run, Way, HOUSE};
use crate::seen::{same, Seen};
use crate::test::Test;

/// The sheet comes while the input stays open.
fn at_once(test: &mut Test, expected: &Seen) -> Result<(), Difference> {
    let folder = Folder::new(&other_files()).map_err(system_fault)?;
    let session = Run::of(HOUSE, Input::Pipe(&[])).start(test.setup.words(HOUSE, &[]), &folder)?;
    test.runs += 1;
    if !session.wait_for_sound(expected.sound.len(), test.setup.patience) {
        return Err("no whole sheet came while the input stayed open".to_string());
    }
    same(expected, &seen(session.end(&[])?, &folder)?)
}

pub fn all(test: &mut Test) -> Result<(), Difference> {
    let sheet = house_sheet();
    let (before, run) = (other_files(), Run::of(HOUSE, Input::Pipe(&sheet)));
    let expected = Seen::written(&sheet, &before);
    for input in [run.input, Input::File(&[]), Input::File(b"not a sheet"), Input::BrokenOff(&[0; 4]), Input::Folder] {
        test.expect("house", &before, Run { input, ..run }, &expected)?;
    }
    let closed = Run { output: Output::File, way: Way::Shell("", "<&-"), ..run };
    test.expect("input closed", &before, closed, &expected)?;
    let told = Seen::nothing_but("standard output: No space left on device\n", &before);
    test.expect("a full device", &before, Run { output: Output::Full, ..run }, &told)?;
    at_once(test, &expected)?;
    arguments::every(test, HOUSE)?;
    arguments::not_taken(test, HOUSE, &[b"--wave"])?;
    arguments::not_taken(test, HOUSE, &[b"2", b"10", b"25"])
}
