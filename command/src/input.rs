//! Reading a journal whole, or saying why not.
use crate::system;
use std::ffi::{OsStr, OsString};
use std::fmt;
use std::fs::File;
use std::io::{self, ErrorKind, Read};
use std::os::fd::AsRawFd;

/// Where a journal comes from.
pub enum Source {
    Input,
    File(OsString),
}

impl Source {
    /// `-` is standard input.
    pub fn named(name: &OsStr) -> Source {
        if name == "-" {
            Source::Input
        } else {
            Source::File(name.to_owned())
        }
    }

    /// All of its bytes, or the bytes up to where `enough` says that no more are wanted. `enough` is asked now and then.
    pub fn read(&self, enough: impl Fn(&[u8]) -> bool) -> io::Result<Vec<u8>> {
        match self {
            Source::Input => whole(&*system::standard(system::STDIN)?, enough),
            Source::File(path) => whole(&File::open(path)?, enough),
        }
    }
}

impl fmt::Display for Source {
    fn fmt(&self, f: &mut fmt::Formatter<'_>) -> fmt::Result {
        match self {
            Source::Input => f.write_str("standard input"),
            // A name with control characters does not steer the terminal.
            Source::File(path) => f.write_str(&path.to_string_lossy().replace(char::is_control, "?")),
        }
    }
}

/// How many bytes are read before `enough` is asked for the first time; then at each doubling.
const FIRST: usize = 1 << 20;

fn whole(file: &File, enough: impl Fn(&[u8]) -> bool) -> io::Result<Vec<u8>> {
    let mut bytes = Vec::new();
    let mut most = FIRST;
    loop {
        bytes.try_reserve_exact(most - bytes.len()).map_err(|_| io::Error::from(ErrorKind::OutOfMemory))?;
        fill(file, &mut bytes, most)?;
        if bytes.len() < most || enough(&bytes) {
            return Ok(bytes);
        }
        most = most.checked_mul(2).ok_or(ErrorKind::OutOfMemory)?;
    }
}

/// Reads until there are so many bytes or the file ends. A read that a signal interrupts is made again, and one that is not ready waited for.
fn fill(mut file: &File, bytes: &mut Vec<u8>, most: usize) -> io::Result<()> {
    loop {
        match file.by_ref().take((most - bytes.len()) as u64).read_to_end(bytes) {
            Ok(_) => return Ok(()),
            Err(error) if error.kind() == ErrorKind::WouldBlock => system::wait(file.as_raw_fd(), system::POLLIN),
            Err(error) => return Err(error),
        }
    }
}
