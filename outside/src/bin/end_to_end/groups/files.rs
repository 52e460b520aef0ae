//! Sheets that can't be read or written, links, and how `strip.new` is replaced.

use std::fs::{self, Permissions};
use std::io;
use std::os::unix::fs::PermissionsExt;

use outside::checks::sounds::Sound;
use outside::checks::Difference;

use crate::folder::{and, file_in, system_fault, with_sheet, without_and_with_old, Contents, Entry, Folder};
use crate::folder::{ELSEWHERE, NEW_NAME, OLD, PART_NAME, SHEET_NAME};
use crate::format::{Format, RAW, WAVE};
use crate::run::{seen, without_rights, Input, Run, Way, PLAY};
use crate::seen::{same, Seen};
use crate::test::{Setup, Test};

/// A sheet in its folder, an input of a format, and the run that they ought to give.
struct Material {
    format: Format,
    sheet: Contents,
    bytes: Vec<u8>,
    expected: Seen,
}

impl Material {
    fn new(test: &mut Test, format: Format) -> Material {
        let sheet = with_sheet(&test.maker.sheet(4));
        let bytes = format.input(&test.sound(Sound::Noise, 20_000));
        let expected = (format.expected)(&sheet, &bytes, &mut test.met);
        Material { format, sheet, bytes, expected }
    }

    /// A run with the input through a pipe.
    fn run(&self) -> Run<'_> {
        self.format.run(Input::Pipe(&self.bytes))
    }
}

fn old() -> Entry {
    Entry::File(OLD.to_vec())
}

fn link(target: &str) -> Entry {
    Entry::Link(target.to_string())
}

fn with(contents: &Contents, entries: Vec<(&str, Entry)>) -> Contents {
    entries.into_iter().fold(contents.clone(), |contents, (name, entry)| and(&contents, name, entry))
}

/// What lies in the folder besides the sheet where `strip.new` is still written: a case, and the entries.
fn passing() -> Vec<(&'static str, Vec<(&'static str, Entry)>)> {
    let elsewhere = || (ELSEWHERE, old());
    vec![
        // Under its second name the old one stays as it was: the new one takes its place and isn't written over it.
        ("an old strip.new with a second name", vec![(NEW_NAME, old()), ("strip.new.second", Entry::Second(NEW_NAME))]),
        ("another file", vec![("strip.new.old", old())]),
        ("strip.new.part left over", vec![("strip.new.old", old()), (PART_NAME, Entry::File(vec![b'9'; 5_000]))]),
        ("strip.new.part empty, an old strip.new", vec![(NEW_NAME, old()), (PART_NAME, Entry::File(vec![]))]),
        ("strip.new.part a link elsewhere", vec![(PART_NAME, link(ELSEWHERE)), elsewhere()]),
        ("strip.new.part a link to nothing", vec![(PART_NAME, link(ELSEWHERE))]),
        ("strip.new.part a link to a folder", vec![(PART_NAME, link(ELSEWHERE)), (ELSEWHERE, Entry::Folder)]),
        ("strip.new.part a link to strip.sht", vec![(PART_NAME, link(SHEET_NAME))]),
        ("strip.new.part a link to strip.new", vec![(NEW_NAME, old()), (PART_NAME, link(NEW_NAME))]),
        ("strip.new.part a link to itself", vec![(PART_NAME, link(PART_NAME))]),
        ("strip.new a link elsewhere", vec![(NEW_NAME, link(ELSEWHERE)), elsewhere()]),
        ("strip.new a link to nothing", vec![(NEW_NAME, link(ELSEWHERE))]),
        ("strip.new a link to strip.sht", vec![(NEW_NAME, link(SHEET_NAME))]),
        ("both links elsewhere", vec![(NEW_NAME, link(ELSEWHERE)), (PART_NAME, link(ELSEWHERE)), elsewhere()]),
    ]
}

/// The sheet is written: a part and links are gone, and all else stays as it was.
fn passes(test: &mut Test, material: &Material) -> Result<(), Difference> {
    let new = &material.expected.after[NEW_NAME];
    for (case, entries) in passing() {
        let before = with(&material.sheet, entries);
        let mut after = and(&before, NEW_NAME, new.clone());
        after.remove(PART_NAME);
        after.values_mut().filter(|entry| matches!(entry, Entry::Second(_))).for_each(|entry| *entry = old());
        let expected = Seen { after, ..material.expected.clone() };
        test.expect(case, &before, material.run(), &expected)?;
    }
    // The sheet may be a link too.
    let before =
        with(&material.sheet, vec![(SHEET_NAME, link(ELSEWHERE)), (ELSEWHERE, material.sheet[SHEET_NAME].clone())]);
    let expected = Seen { after: and(&before, NEW_NAME, new.clone()), ..material.expected.clone() };
    test.expect("strip.sht a link", &before, material.run(), &expected)
}

const SHEET_A_FOLDER: &str = "strip.sht: Is a directory\n";
const PART_A_FOLDER: &str = "strip.new.part: File exists\n";
const NEW_A_FOLDER: &str = "strip.new: Is a directory\n";
const NEW_A_LOOP: &str = "strip.new: Too many levels of symbolic links\n";
const NO_INPUT: &str = "standard input: closed\n";
const NO_OUTPUT: &str = "standard output: closed\n";

/// What keeps a pass from beginning: which names are folders, whether there is a sheet, what is closed, and the one
/// line that is told. Where several apply it is that of the first.
const NOT_BEGUN: [(&[&str], bool, &str, &str); 15] = [
    (&[SHEET_NAME], true, "", SHEET_A_FOLDER),
    (&[SHEET_NAME, PART_NAME], true, "", SHEET_A_FOLDER),
    (&[SHEET_NAME, NEW_NAME], true, "", SHEET_A_FOLDER),
    (&[SHEET_NAME, NEW_NAME], true, "<&-", SHEET_A_FOLDER),
    (&[PART_NAME], false, "", "11\n"),
    (&[NEW_NAME], false, "", "11\n"),
    (&[NEW_NAME, PART_NAME], false, "<&- >&-", "11\n"),
    (&[PART_NAME], true, "", PART_A_FOLDER),
    (&[PART_NAME, NEW_NAME], true, "", PART_A_FOLDER),
    (&[PART_NAME], true, "<&-", PART_A_FOLDER),
    (&[NEW_NAME], true, "", NEW_A_FOLDER),
    (&[NEW_NAME], true, "2>&-", ""),
    (&[NEW_NAME], true, "<&-", NO_INPUT),
    (&[NEW_NAME], true, ">&-", NO_OUTPUT),
    (&[NEW_NAME], true, "<&- >&-", NO_INPUT),
];

/// Nothing is played and nothing changes, whatever the input is.
fn not_begun(test: &mut Test, material: &Material) -> Result<(), Difference> {
    let (bytes, tail) = (&material.bytes[..], &material.bytes[..4_001]);
    let inputs = [Input::Pipe(bytes), Input::File(tail), Input::File(&[]), Input::BrokenOff(tail), Input::Folder];
    // A link to a folder is as good as one; a link to itself leads nowhere.
    let links = [
        (vec![(NEW_NAME, link(ELSEWHERE)), (ELSEWHERE, Entry::Folder)], NEW_A_FOLDER),
        (vec![(NEW_NAME, link(NEW_NAME))], NEW_A_LOOP),
    ];
    for (entries, line) in links {
        let before = with(&material.sheet, entries);
        let run = RAW.run(Input::File(tail));
        test.expect("strip.new a link", &before, run, &Seen::nothing_but(line, &before))?;
    }
    for (folders, has_sheet, closed, line) in NOT_BEGUN {
        let sheet = if has_sheet { material.sheet.clone() } else { Contents::new() };
        for begin in without_and_with_old(&sheet) {
            let before = folders.iter().fold(begin, |contents, name| and(&contents, name, Entry::Folder));
            for run in inputs.map(|input| RAW.run(input)).into_iter().chain([WAVE.run(inputs[1])]) {
                let run = Run { way: Way::Shell("", closed), ..run };
                let case = format!("{} folders, {closed}", folders.join(", "));
                test.expect(&case, &before, run, &Seen::nothing_but(line, &before))?;
            }
        }
    }
    Ok(())
}

/// Files may have no bytes: the sheet is told, and after it a tail.
fn unwritten(test: &mut Test, material: &Material) -> Result<(), Difference> {
    let new = file_in(&material.expected.after, NEW_NAME).unwrap_or_default();
    for before in without_and_with_old(&material.sheet) {
        for tail in 0..4 {
            let bytes = [&material.bytes[..], &[99; 3][..tail]].concat();
            let told = (material.format.expected)(&before, &bytes, &mut test.met).errors;
            let errors = [b"strip.new: File too large\n", new, &told].concat();
            let expected = Seen { errors, after: before.clone(), ..material.expected.clone() };
            let way = Way::Shell("ulimit -f 0; trap '' XFSZ", "");
            let run = Run { way, ..material.format.run(Input::Pipe(&bytes)) };
            test.expect(&format!("files of no bytes, a tail of {tail}"), &before, run, &expected)?;
        }
    }
    Ok(())
}

/// The rights of all to the folder and to the sheet in it.
fn set_rights(folder: &Folder, [of_folder, of_sheet]: [u32; 2]) -> io::Result<()> {
    fs::set_permissions(folder.path().join(SHEET_NAME), Permissions::from_mode(of_sheet))?;
    fs::set_permissions(folder.path(), Permissions::from_mode(of_folder))
}

/// Play in a place from which anybody may start it.
fn for_anybody(setup: &Setup, place: &Folder) -> io::Result<Setup> {
    let path = place.path().join(PLAY);
    fs::copy(setup.home.join(PLAY), &path)?;
    for path in [place.path(), path] {
        fs::set_permissions(path, Permissions::from_mode(0o755))?;
    }
    Ok(Setup { home: place.path(), ..setup.clone() })
}

/// Folders and files without the rights that the program needs. The superuser has them always, so nobody starts the
/// program then.
fn rights(test: &mut Test, material: &Material) -> Result<(), Difference> {
    let Some(way) = without_rights() else {
        test.left_out.push("rights of folders and files");
        return Ok(());
    };
    let place = Folder::new(&Contents::new()).map_err(system_fault)?;
    let setup = for_anybody(&test.setup, &place).map_err(system_fault)?;
    let run = Run { way, ..material.run() };
    let sheet = &material.sheet;
    for (case, modes, expected) in [
        ("an unwritable folder", [0o555, 0o444], &Seen::nothing_but("strip.new.part: Permission denied\n", sheet)),
        ("an unreadable sheet", [0o777, 0o000], &Seen::nothing_but("11\n", sheet)),
        ("rights enough", [0o777, 0o444], &material.expected),
    ] {
        test.runs += 1;
        let folder = Folder::new(sheet).map_err(system_fault)?;
        set_rights(&folder, modes).map_err(system_fault)?;
        let ended = run.until_its_end(setup.words(PLAY, &[]), &folder, setup.patience)?;
        set_rights(&folder, [0o755, 0o644]).map_err(system_fault)?;
        same(expected, &seen(ended, &folder)?).map_err(|difference| format!("{case}: {difference}"))?;
    }
    Ok(())
}

/// How the new sheet is written, and where it can't be.
fn saved(test: &mut Test, material: &Material) -> Result<(), Difference> {
    passes(test, material)?;
    unwritten(test, material)
}

pub fn all(test: &mut Test) -> Result<(), Difference> {
    let material = Material::new(test, RAW);
    saved(test, &material)?;
    rights(test, &material)?;
    not_begun(test, &material)
}

pub fn waves(test: &mut Test) -> Result<(), Difference> {
    let material = Material::new(test, WAVE);
    saved(test, &material)
}
