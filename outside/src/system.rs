//! The calls of the system that `std` has no name for. Linux only.

use std::ffi::c_int;
use std::io;
use std::os::fd::{AsRawFd, BorrowedFd};
use std::time::Duration;

mod raw {
    use std::ffi::{c_int, c_long, c_ulong};

    #[repr(C)]
    #[derive(Clone, Copy, Default)]
    pub struct Timeval {
        pub seconds: c_long,
        pub microseconds: c_long,
    }

    /// The user's time, the system's, and fourteen numbers that are not used here.
    #[repr(C)]
    #[derive(Clone, Copy, Default)]
    pub struct Rusage(pub [Timeval; 2], pub [c_long; 14]);

    extern "C" {
        pub fn fcntl(descriptor: c_int, command: c_int, ...) -> c_int;
        pub fn ioctl(descriptor: c_int, request: c_ulong, ...) -> c_int;
        pub fn wait4(process: c_int, status: *mut c_int, options: c_int, usage: *mut Rusage) -> c_int;
        pub fn getrusage(who: c_int, usage: *mut Rusage) -> c_int;
    }
}

const F_SETPIPE_SZ: c_int = 1_031;
const FIONREAD: std::ffi::c_ulong = 0x541B;
const RUSAGE_SELF: c_int = 0;

/// Gives a pipe this much room; where that is refused it stays as it was.
pub fn widen_pipe(pipe: BorrowedFd, bytes: c_int) {
    // SAFETY: the command takes one number.
    unsafe { raw::fcntl(pipe.as_raw_fd(), F_SETPIPE_SZ, bytes) };
}

/// The bytes that stand in a pipe and nobody has read.
pub fn unread(pipe: BorrowedFd) -> usize {
    let mut bytes: c_int = 0;
    // SAFETY: the request fills one number, which is this function's own.
    unsafe { raw::ioctl(pipe.as_raw_fd(), FIONREAD, &mut bytes as *mut c_int) };
    bytes as usize
}

/// The time that a process has used: the user's, and the user's and the system's.
pub type Used = [Duration; 2];

fn used_by(raw::Rusage(times, _): raw::Rusage) -> Used {
    let [user, system] = times.map(|raw::Timeval { seconds, microseconds }| {
        Duration::from_secs(seconds as u64) + Duration::from_micros(microseconds as u64)
    });
    [user, user + system]
}

/// The time that this process has used up to now.
pub fn used() -> Used {
    let mut usage = raw::Rusage::default();
    // SAFETY: fills what is this function's own.
    unsafe { raw::getrusage(RUSAGE_SELF, &mut usage) };
    used_by(usage)
}

/// Waits for the end of a child: the status as the system packs it, which is 0 for an exit status of 0, and the time it
/// used. The child is gone afterwards.
pub fn wait_for(process: u32) -> io::Result<(i32, Used)> {
    let (mut status, mut usage) = (0, raw::Rusage::default());
    // SAFETY: fills what is this function's own.
    let ended = unsafe { raw::wait4(process as c_int, &mut status, 0, &mut usage) };
    if ended == -1 {
        return Err(io::Error::last_os_error());
    }
    Ok((status, used_by(usage)))
}
