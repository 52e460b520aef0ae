//! What a run shows to the outside, and how two of these differ.

use std::os::unix::process::ExitStatusExt;
use std::process::ExitStatus;

use outside::checks::Difference;

use super::folder::{Contents, Entry};

/// Everything that a run leaves behind.
#[derive(Clone, PartialEq)]
pub struct Seen {
    /// Standard output.
    pub sound: Vec<u8>,
    /// Standard error.
    pub errors: Vec<u8>,
    pub after: Contents,
    pub ending: ExitStatus,
}

impl Seen {
    /// A run that writes nothing, changes nothing and says this.
    pub fn nothing_but(errors: &str, before: &Contents) -> Seen {
        Seen { errors: errors.into(), ..Seen::written(&[], before) }
    }

    /// A run that writes this to standard output, says nothing and changes nothing.
    pub fn written(bytes: &[u8], before: &Contents) -> Seen {
        Seen { sound: bytes.to_vec(), errors: Vec::new(), after: before.clone(), ending: ExitStatus::from_raw(0) }
    }
}

/// How two lists of bytes differ: their lengths, and what stands from the first different byte on.
fn same_bytes(what: &str, expected: &[u8], got: &[u8]) -> Result<(), Difference> {
    if expected == got {
        return Ok(());
    }
    let same = expected.iter().zip(got).take_while(|(one, other)| one == other).count();
    let shown = |bytes: &[u8]| bytes[same..].iter().take(80).copied().collect::<Vec<u8>>();
    Err(format!(
        "{what}: {} bytes expected, {} got; from byte {same} on \"{}\" expected, \"{}\" got",
        expected.len(),
        got.len(),
        shown(expected).escape_ascii(),
        shown(got).escape_ascii(),
    ))
}

/// An entry of a folder as bytes that can be shown.
fn shown(entry: Option<&Entry>) -> Vec<u8> {
    match entry {
        Some(Entry::File(bytes)) => bytes.clone(),
        Some(Entry::Folder) => b"(a folder)".to_vec(),
        Some(Entry::Link(target)) => format!("(a link to {target})").into_bytes(),
        Some(Entry::Second(first)) => format!("(a second name of {first})").into_bytes(),
        None => b"(nothing)".to_vec(),
    }
}

fn same_contents(expected: &Contents, got: &Contents) -> Result<(), Difference> {
    for name in expected.keys().chain(got.keys()) {
        let [one, other] = [expected, got].map(|contents| contents.get(name));
        if one != other {
            same_bytes(name, &shown(one), &shown(other))?;
            return Err(format!("{name} is no longer what it was"));
        }
    }
    Ok(())
}

/// Says how a run differs from the expected one, if it does.
pub fn same(expected: &Seen, got: &Seen) -> Result<(), Difference> {
    same_bytes("standard error", &expected.errors, &got.errors)?;
    same_bytes("standard output", &expected.sound, &got.sound)?;
    same_contents(&expected.after, &got.after)?;
    if expected.ending != got.ending {
        return Err(format!("the end should be \"{}\" and is \"{}\"", expected.ending, got.ending));
    }
    Ok(())
}
