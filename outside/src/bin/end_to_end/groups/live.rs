//! A pipe that stays open: every whole frame comes out at once, and until the end of the input nothing changes in the
//! folder.

use std::os::unix::process::ExitStatusExt;
use std::process::ExitStatus;
use std::time::Duration;

use outside::checks::sounds::Sound;
use outside::checks::Difference;

use crate::folder::{system_fault, without_and_with_old, Contents, Folder, PART_NAME};
use crate::format::{Format, WAVE};
use crate::run::{seen, Input, Run, PLAY};
use crate::seen::{same, Seen};
use crate::session::Session;
use crate::test::Test;

const SIGKILL: i32 = 9;

/// Play while it waits for input.
struct Live<'a> {
    session: Session,
    folder: Folder,
    format: Format,
    before: &'a Contents,
    bytes: &'a [u8],
    sent: usize,
    patience: Duration,
}

impl<'a> Live<'a> {
    /// Begins a pass, and sends the front.
    fn new(test: &mut Test, format: Format, before: &'a Contents, bytes: &'a [u8]) -> Result<Live<'a>, Difference> {
        let folder = Folder::new(before).map_err(system_fault)?;
        test.runs += 1;
        let words = test.setup.words(PLAY, format.arguments);
        let session = Run::of(PLAY, Input::Pipe(bytes)).start(words, &folder)?;
        let mut live = Live { session, folder, format, before, bytes, sent: 0, patience: test.setup.patience };
        live.send(format.front)?;
        Ok(live)
    }

    /// Sends so many bytes more; the heading and all whole frames up to there must come out, and nothing may have
    /// changed in the folder.
    fn send(&mut self, count: usize) -> Result<(), Difference> {
        self.session.send(&self.bytes[self.sent..self.sent + count]);
        self.sent += count;
        if !self.session.wait_for_sound(self.sent / 4 * 4, self.patience) {
            let came = self.session.sound_count();
            return Err(format!("{came} bytes came out while the input of {} stayed open", self.sent));
        }
        let mut now = self.folder.contents().map_err(system_fault)?;
        // Ahead of its first sound play makes this file, and removes it again.
        if self.sent < 4 {
            now.remove(PART_NAME);
        }
        if now == *self.before {
            return Ok(());
        }
        Err(format!("after {} bytes the folder has changed", self.sent))
    }

    /// What is seen once the program has ended, and what must be, with nothing wrong but the length of the input.
    fn end(self, test: &mut Test) -> Result<(Seen, Seen), Difference> {
        let seen = seen(self.session.end(&[])?, &self.folder)?;
        Ok((seen, (self.format.expected)(self.before, &self.bytes[..self.sent], &mut test.met)))
    }
}

/// Frames one by one, in parts, in crowds; then the end of the input.
fn waits(test: &mut Test, format: Format, before: &Contents, bytes: &[u8]) -> Result<(), Difference> {
    let mut live = Live::new(test, format, before, bytes)?;
    for count in [4, 4, 8, 1, 1, 1, 1, 3, 1, 2, 2, 5, 7, 4_000, 65_536, 131_072] {
        live.send(count)?;
    }
    for _ in 0..200 {
        live.send(4)?;
    }
    live.send(3)?;
    let (seen, expected) = live.end(test)?;
    test.frames += expected.sound.len() as u64 / 4;
    same(&expected, &seen)
}

/// A program that is ended from outside has changed nothing.
fn ended(test: &mut Test, format: Format, before: &Contents, bytes: &[u8]) -> Result<(), Difference> {
    let mut live = Live::new(test, format, before, bytes)?;
    live.send(40_000)?;
    live.session.kill();
    let (seen, expected) = live.end(test)?;
    let killed = Seen { ending: ExitStatus::from_raw(SIGKILL), ..Seen::written(&expected.sound, before) };
    same(&killed, &seen)
}

/// What stands behind the data is read while the folder does not change.
fn behind(test: &mut Test, before: &Contents, bytes: &[u8]) -> Result<(), Difference> {
    let mut live = Live::new(test, WAVE, before, bytes)?;
    live.send(bytes.len() - WAVE.front)?;
    for behind in [&b"LIST"[..], &[0; 200_000]] {
        live.session.send(behind);
        if !live.session.wait_until_read(live.patience) {
            return Err("what stands behind the data was not read".to_string());
        }
        live.send(0)?;
    }
    let (seen, expected) = live.end(test)?;
    same(&expected, &seen)
}

pub fn all(test: &mut Test, format: Format) -> Result<(), Difference> {
    let sheet = test.loud_sheet(0);
    let bytes = format.input(&test.sound(Sound::Noise, 80_000));
    for before in without_and_with_old(&sheet) {
        waits(test, format, &before, &bytes)?;
        ended(test, format, &before, &bytes)?;
    }
    Ok(())
}

pub fn waves(test: &mut Test) -> Result<(), Difference> {
    let sheet = test.loud_sheet(1);
    let bytes = WAVE.input(&test.sound(Sound::Noise, 20_000));
    for before in without_and_with_old(&sheet) {
        behind(test, &before, &bytes)?;
    }
    all(test, WAVE)
}
