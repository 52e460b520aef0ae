//! A run: what a program is given, and how it is started.

use std::ffi::OsString;
use std::fs::{self, File, OpenOptions};
use std::io::{self, Write};
use std::os::fd::OwnedFd;
use std::os::unix::fs::MetadataExt;
use std::os::unix::net::UnixStream;
use std::process::{Command, Stdio};
use std::time::Duration;

use outside::checks::Difference;

use super::folder::{system_fault, Folder};
use super::seen::Seen;
use super::session::{Ended, Session};

/// The names of the programs.
pub const PLAY: &str = "play";
pub const HOUSE: &str = "house";
pub const DESK: &str = "desk";
/// A shell, which runs several of them.
pub const SHELL: &str = "sh";

/// Where the input comes from.
#[derive(Clone, Copy)]
pub enum Input<'a> {
    /// A file.
    File(&'a [u8]),
    /// A pipe.
    Pipe(&'a [u8]),
    /// A pipe, in pieces of these lengths again and again. Each has been read before the next is sent, and now and
    /// then there is a pause.
    Pieces(&'a [u8], &'a [usize]),
    /// A socket whose other end is broken off after these bytes.
    BrokenOff(&'a [u8]),
    /// A folder.
    Folder,
}

impl<'a> Input<'a> {
    /// A file and a pipe by turns.
    pub fn by_turns(turn: u64, bytes: &'a [u8]) -> Input<'a> {
        match turn % 2 {
            0 => Input::File(bytes),
            _ => Input::Pipe(bytes),
        }
    }
}

/// Where the sound goes.
#[derive(Clone, Copy)]
pub enum Output {
    Pipe,
    /// A pipe that is closed after so many bytes.
    ClosedAfter(usize),
    /// A file.
    File,
    /// A device that is always full.
    Full,
}

/// How the program is started.
#[derive(Clone, Copy)]
pub enum Way {
    /// By itself.
    Bare,
    /// By a shell that first does this and is then replaced, with these redirections.
    Shell(&'static str, &'static str),
    /// As the user nobody, who has no rights of the superuser.
    Nobody,
}

/// What makes setpriv become nobody.
const NOBODY: [&str; 5] = ["setpriv", "--reuid=65534", "--regid=65534", "--clear-groups", "--"];

/// A run.
#[derive(Clone, Copy)]
pub struct Run<'a> {
    pub program: &'static str,
    pub arguments: &'a [&'a [u8]],
    pub input: Input<'a>,
    pub output: Output,
    pub way: Way,
}

impl<'a> Run<'a> {
    /// This program with this input and no arguments, the sound to a pipe, started by itself.
    pub fn of(program: &'static str, input: Input<'a>) -> Run<'a> {
        Run { program, arguments: &[], input, output: Output::Pipe, way: Way::Bare }
    }

    /// Starts the program that these words name in this folder, its input not yet sent.
    pub fn start(&self, words: Vec<OsString>, folder: &Folder) -> Result<Session, Difference> {
        let begin: Vec<OsString> = match self.way {
            Way::Bare => Vec::new(),
            Way::Shell(first, redirections) => {
                let text = format!("{first}\nexec \"$0\" \"$@\" {redirections}");
                vec!["sh".into(), "-c".into(), text.into()]
            }
            Way::Nobody => NOBODY.map(OsString::from).to_vec(),
        };
        let words = [begin, words].concat();
        let mut command = Command::new(&words[0]);
        command.args(&words[1..]).current_dir(folder.path());
        command.stdin(self.source(folder).map_err(system_fault)?);
        let (goal, most) = self.goal(folder).map_err(system_fault)?;
        command.stdout(goal);
        Session::start(command, most)
    }

    fn source(&self, folder: &Folder) -> io::Result<Stdio> {
        Ok(match self.input {
            Input::File(bytes) => {
                fs::write(folder.input(), bytes)?;
                Stdio::from(File::open(folder.input())?)
            }
            Input::Pipe(_) | Input::Pieces(..) => Stdio::piped(),
            Input::BrokenOff(bytes) => Stdio::from(broken_off(bytes)?),
            Input::Folder => Stdio::from(File::open("/")?),
        })
    }

    /// Where the output goes, and the most bytes that are taken of it.
    fn goal(&self, folder: &Folder) -> io::Result<(Stdio, usize)> {
        Ok(match self.output {
            Output::Pipe => (Stdio::piped(), usize::MAX),
            Output::ClosedAfter(most) => (Stdio::piped(), most),
            Output::File => (Stdio::from(File::create(folder.output())?), 0),
            Output::Full => (Stdio::from(OpenOptions::new().write(true).open("/dev/full")?), 0),
        })
    }

    /// Runs the program that these words name in this folder to its end.
    pub fn until_its_end(
        &self,
        words: Vec<OsString>,
        folder: &Folder,
        patience: Duration,
    ) -> Result<Ended, Difference> {
        let mut session = self.start(words, folder)?;
        let mut ended = match self.input {
            Input::Pipe(bytes) => session.end(bytes)?,
            Input::Pieces(bytes, lengths) => {
                send_pieces(&mut session, bytes, lengths, patience);
                session.end(&[])?
            }
            _ => session.end(&[])?,
        };
        if let Output::File = self.output {
            ended.sound = fs::read(folder.output()).map_err(system_fault)?;
        }
        Ok(ended)
    }
}

/// What is seen after a program has ended in this folder.
pub fn seen(ended: Ended, folder: &Folder) -> Result<Seen, Difference> {
    let Ended { sound, errors, ending } = ended;
    Ok(Seen { sound, errors, after: folder.contents().map_err(system_fault)?, ending })
}

/// One end of a broken socket that still holds these bytes. Its other end goes with a byte unread, so reading past
/// them is a fault and no end.
fn broken_off(bytes: &[u8]) -> io::Result<OwnedFd> {
    let (mut near, mut far) = UnixStream::pair()?;
    near.write_all(&[0])?;
    far.set_nonblocking(true)?;
    far.write_all(bytes)?;
    Ok(near.into())
}

/// After so many pieces there is a pause.
const PIECES: usize = 1_000;
const PAUSE: Duration = Duration::from_millis(5);

/// Sends the input in pieces.
fn send_pieces(session: &mut Session, bytes: &[u8], lengths: &[usize], patience: Duration) {
    let mut rest = bytes;
    for (count, &length) in lengths.iter().cycle().enumerate() {
        let (piece, others) = rest.split_at(length.min(rest.len()));
        session.send(piece);
        if others.is_empty() || !session.wait_until_read(patience) {
            break;
        }
        if count % PIECES == PIECES / 2 {
            std::thread::sleep(PAUSE);
        }
        rest = others;
    }
}

/// A way to start a program without the rights of the superuser, where there is one: the owner of this process is
/// another user, or can become nobody.
pub fn without_rights() -> Option<Way> {
    if fs::metadata("/proc/self").is_ok_and(|process| process.uid() != 0) {
        return Some(Way::Bare);
    }
    let mut trial = Command::new(NOBODY[0]);
    trial.args(&NOBODY[1..]).arg("true").stderr(Stdio::null());
    trial.status().is_ok_and(|status| status.success()).then_some(Way::Nobody)
}
