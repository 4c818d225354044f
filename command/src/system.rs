//! The three standard descriptors as the caller left them, and waiting for one.
//!
//! Rust's own start-up opens /dev/null in place of a descriptor that is closed, and its `Stdin` and `Stdout` take a closed one for an end or
//! for a success. Here a closed descriptor is an error, so the program has a `main` of its own and reads and writes plain files.
use std::ffi::{c_int, c_short, c_ulong};
use std::fs::File;
use std::io;
use std::mem::ManuallyDrop;
use std::os::fd::{FromRawFd, RawFd};
use std::sync::atomic::{AtomicBool, Ordering};

#[repr(C)]
struct PollFd {
    fd: c_int,
    events: c_short,
    revents: c_short,
}

extern "C" {
    fn fcntl(fd: c_int, command: c_int, ...) -> c_int;
    fn open(path: *const std::ffi::c_char, flags: c_int, ...) -> c_int;
    fn poll(fds: *mut PollFd, count: c_ulong, timeout: c_int) -> c_int;
    fn signal(number: c_int, handler: usize) -> usize;
}

const F_GETFD: c_int = 1;
const O_RDWR: c_int = 2;
const SIGPIPE: c_int = 13;
const SIG_IGN: usize = 1;
const EBADF: i32 = 9;
pub const POLLIN: c_short = 1;
pub const POLLOUT: c_short = 4;

pub const STDIN: RawFd = 0;
pub const STDOUT: RawFd = 1;
pub const STDERR: RawFd = 2;

static CLOSED: [AtomicBool; 3] = [const { AtomicBool::new(false) }; 3];

/// Notes which standard descriptors are closed and takes their numbers, so that no journal is opened under one of them. A write to a pipe
/// that nobody reads is an error and no signal. To be called before anything is opened.
pub fn begin() {
    for fd in [STDIN, STDOUT, STDERR] {
        // SAFETY: F_GETFD takes no third argument; the path ends in 0. The lowest free number is `fd`, since those below it are taken.
        unsafe {
            if fcntl(fd, F_GETFD) == -1 {
                CLOSED[fd as usize].store(true, Ordering::Relaxed);
                open(c"/dev/null".as_ptr(), O_RDWR);
            }
        }
    }
    // SAFETY: no handler of ours is named.
    unsafe {
        signal(SIGPIPE, SIG_IGN);
    }
}

/// A standard descriptor as a file that is not closed when it is dropped, or the error that using it would have given.
pub fn standard(fd: RawFd) -> io::Result<ManuallyDrop<File>> {
    if CLOSED[fd as usize].load(Ordering::Relaxed) {
        return Err(io::Error::from_raw_os_error(EBADF));
    }
    // SAFETY: the number is taken, by the caller or by `begin`, and `ManuallyDrop` leaves it open.
    Ok(ManuallyDrop::new(unsafe { File::from_raw_fd(fd) }))
}

/// Waits until a descriptor that was not ready can be read or written, or has failed.
pub fn wait(fd: RawFd, events: c_short) {
    let mut one = PollFd { fd, events, revents: 0 };
    // SAFETY: one entry, which outlives the call. A signal ends the wait early, and the caller's next call then waits again.
    unsafe {
        poll(&mut one, 1, -1);
    }
}
