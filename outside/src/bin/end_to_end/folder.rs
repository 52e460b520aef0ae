//! Folders for one run each, and what lies in them.

use std::collections::BTreeMap;
use std::os::unix::fs::symlink;
use std::path::{Path, PathBuf};
use std::{fs, io};

use outside::checks::Difference;
use outside::temporary::Temporary;

/// What a name in a folder stands for.
#[derive(Clone, PartialEq)]
pub enum Entry {
    File(Vec<u8>),
    Folder,
    /// A symbolic link to this name.
    Link(String),
    /// A second name of this file. Afterwards it is seen as a file.
    Second(&'static str),
}

/// Everything in a folder by its name. A name that begins with `../` lies beside the folder.
pub type Contents = BTreeMap<String, Entry>;

pub const SHEET_NAME: &str = "strip.sht";
pub const NEW_NAME: &str = "strip.new";
pub const PART_NAME: &str = "strip.new.part";
/// A name beside the folder, for links to lead to.
pub const ELSEWHERE: &str = "../elsewhere";

/// What stands in a file that is there before a run.
pub const OLD: &[u8] = b"an old sheet";

/// These contents with an entry more, or with that entry changed.
pub fn and(contents: &Contents, name: &str, entry: Entry) -> Contents {
    let mut more = contents.clone();
    more.insert(name.to_string(), entry);
    more
}

pub fn and_file(contents: &Contents, name: &str, bytes: &[u8]) -> Contents {
    and(contents, name, Entry::File(bytes.to_vec()))
}

/// The bytes of the file of this name.
pub fn file_in<'a>(contents: &'a Contents, name: &str) -> Option<&'a [u8]> {
    match contents.get(name) {
        Some(Entry::File(bytes)) => Some(bytes),
        _ => None,
    }
}

/// A folder that holds this sheet as `strip.sht` and nothing else.
pub fn with_sheet(sheet: &[u8]) -> Contents {
    and_file(&Contents::new(), SHEET_NAME, sheet)
}

/// These contents without an old `strip.new`, and with one.
pub fn without_and_with_old(contents: &Contents) -> [Contents; 2] {
    [contents.clone(), and_file(contents, NEW_NAME, OLD)]
}

/// A folder with files that are neither read nor changed.
pub fn other_files() -> Contents {
    and_file(&with_sheet(b"a sheet"), NEW_NAME, b"another sheet")
}

/// A fault of the system that is not the program's.
pub fn system_fault(error: io::Error) -> Difference {
    format!("the test itself failed: {error}")
}

/// A folder for one run, removed in the end. The run's input and output may lie in files beside it.
pub struct Folder {
    around: Temporary,
}

impl Folder {
    pub fn new(contents: &Contents) -> io::Result<Folder> {
        let folder = Folder { around: Temporary::new("end_to_end")? };
        fs::create_dir(folder.path())?;
        for (name, entry) in contents {
            let path = folder.path().join(name);
            match entry {
                Entry::File(bytes) => fs::write(path, bytes)?,
                Entry::Folder => fs::create_dir(path)?,
                Entry::Link(target) => symlink(target, path)?,
                Entry::Second(first) => fs::hard_link(folder.path().join(first), path)?,
            }
        }
        Ok(folder)
    }

    pub fn path(&self) -> PathBuf {
        self.around.path().join("folder")
    }

    pub fn input(&self) -> PathBuf {
        self.around.path().join("input")
    }

    pub fn output(&self) -> PathBuf {
        self.around.path().join("output")
    }

    /// What lies there now, and beside it.
    pub fn contents(&self) -> io::Result<Contents> {
        let mut contents = Contents::new();
        look(&self.path(), "", &mut contents)?;
        look(self.around.path(), "../", &mut contents)?;
        contents.retain(|name, _| !["../folder", "../input", "../output"].contains(&name.as_str()));
        Ok(contents)
    }
}

/// Adds what lies in a folder, each name behind this begin. A file that is removed meanwhile is not there.
fn look(folder: &Path, begin: &str, contents: &mut Contents) -> io::Result<()> {
    for entry in fs::read_dir(folder)? {
        let entry = entry?;
        let kind = entry.file_type()?;
        let found = if kind.is_symlink() {
            Entry::Link(fs::read_link(entry.path())?.to_string_lossy().into_owned())
        } else if kind.is_dir() {
            Entry::Folder
        } else {
            match fs::read(entry.path()) {
                Err(error) if error.kind() == io::ErrorKind::NotFound => continue,
                bytes => Entry::File(bytes?),
            }
        };
        contents.insert(format!("{begin}{}", entry.file_name().to_string_lossy()), found);
    }
    Ok(())
}
