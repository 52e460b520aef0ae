//! A program under way: it is fed, its sound and its errors are collected, and where it takes too long it is ended.

use std::io::{Read, Write};
use std::os::fd::AsFd;
use std::process::{Child, ChildStdin, Command, ExitStatus, Stdio};
use std::sync::atomic::{AtomicUsize, Ordering};
use std::sync::Arc;
use std::thread::{self, JoinHandle};
use std::time::{Duration, Instant};

use outside::checks::Difference;
use outside::system;

/// The longest that a run may take.
const LIMIT: Duration = Duration::from_secs(60);
/// The room that a pipe is given.
const PIPE_ROOM: i32 = 1 << 20;
/// How long to wait before looking again.
const GLANCE: Duration = Duration::from_micros(100);

/// Takes what comes out of a pipe, all of it or so many bytes.
struct Collector {
    count: Arc<AtomicUsize>,
    thread: JoinHandle<Vec<u8>>,
}

impl Collector {
    fn new(pipe: impl Read + Send + 'static, most: usize) -> Collector {
        let count = Arc::new(AtomicUsize::new(0));
        let counted = Arc::clone(&count);
        let thread = thread::spawn(move || {
            let mut pipe = pipe.take(most as u64);
            let (mut bytes, mut buffer) = (Vec::new(), vec![0; 65_536]);
            while let Ok(more @ 1..) = pipe.read(&mut buffer) {
                bytes.extend(&buffer[..more]);
                counted.store(bytes.len(), Ordering::Relaxed);
            }
            bytes
        });
        Collector { count, thread }
    }

    /// All that came, once the pipe is at its end. A collector that failed gives nothing, which shows.
    fn end(self) -> Vec<u8> {
        self.thread.join().unwrap_or_default()
    }
}

/// A program under way.
pub struct Session {
    child: Child,
    input: Option<ChildStdin>,
    sound: Option<Collector>,
    errors: Option<Collector>,
}

/// What a program left behind.
pub struct Ended {
    pub sound: Vec<u8>,
    pub errors: Vec<u8>,
    pub ending: ExitStatus,
}

impl Session {
    /// Starts a program whose errors go to a pipe. Where its sound goes to one, that is closed after so many bytes.
    pub fn start(mut command: Command, most_sound: usize) -> Result<Session, Difference> {
        command.stderr(Stdio::piped());
        let mut child = command.spawn().map_err(|error| format!("can't be started: {error}"))?;
        let input = child.stdin.take();
        if let Some(pipe) = &input {
            system::widen_pipe(pipe.as_fd(), PIPE_ROOM);
        }
        let sound = child.stdout.take().map(|pipe| Collector::new(pipe, most_sound));
        let errors = child.stderr.take().map(|pipe| Collector::new(pipe, usize::MAX));
        Ok(Session { child, input, sound, errors })
    }

    /// Writes to the program's input. A program that no longer reads loses it.
    pub fn send(&mut self, bytes: &[u8]) {
        if let Some(input) = &mut self.input {
            let _ = input.write_all(bytes);
        }
    }

    /// Waits until the program has read all of its input; false where it did not.
    pub fn wait_until_read(&mut self, patience: Duration) -> bool {
        let begun = Instant::now();
        while self.input.as_ref().is_some_and(|input| system::unread(input.as_fd()) > 0) {
            if begun.elapsed() > patience || self.has_ended() {
                return false;
            }
            thread::yield_now();
        }
        true
    }

    /// Waits for so many bytes of sound; false where they did not come.
    pub fn wait_for_sound(&self, count: usize, patience: Duration) -> bool {
        let begun = Instant::now();
        while self.sound_count() < count {
            if begun.elapsed() > patience {
                return false;
            }
            thread::sleep(GLANCE);
        }
        true
    }

    /// Waits for the end of the program, its input still open; false where it did not come.
    pub fn wait_for_end(&mut self, patience: Duration) -> bool {
        let begun = Instant::now();
        while !self.has_ended() {
            if begun.elapsed() > patience {
                return false;
            }
            thread::sleep(GLANCE);
        }
        true
    }

    /// The bytes of sound up to now.
    pub fn sound_count(&self) -> usize {
        self.sound.as_ref().map_or(0, |sound| sound.count.load(Ordering::Relaxed))
    }

    /// Ends the program from outside. One that has ended can't be ended again.
    pub fn kill(&mut self) {
        let _ = self.child.kill();
    }

    fn has_ended(&mut self) -> bool {
        !matches!(self.child.try_wait(), Ok(None))
    }

    /// Sends the rest of the input, closes it and waits for the end of the program.
    pub fn end(mut self, rest: &[u8]) -> Result<Ended, Difference> {
        let input = self.input.take();
        let ending = thread::scope(|scope| {
            // A program that no longer reads loses the rest.
            scope.spawn(move || input.map(|mut input| input.write_all(rest)));
            self.wait()
        })?;
        let collected = |pipe: Option<Collector>| pipe.map_or(Vec::new(), Collector::end);
        Ok(Ended { sound: collected(self.sound.take()), errors: collected(self.errors.take()), ending })
    }

    fn wait(&mut self) -> Result<ExitStatus, Difference> {
        if !self.wait_for_end(LIMIT) {
            self.kill();
            return Err(format!("it ran longer than {LIMIT:?}"));
        }
        self.child.wait().map_err(|error| format!("can't be waited for: {error}"))
    }
}

impl Drop for Session {
    /// No program outlives its test.
    fn drop(&mut self) {
        drop(self.input.take());
        self.kill();
        let _ = self.child.wait();
    }
}
