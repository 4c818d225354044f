//! Writing what is told, plain or for a terminal, and complaints.
use crate::system;
use std::ffi::OsString;
use std::fs::File;
use std::io::{self, ErrorKind, IsTerminal, Write};
use std::os::fd::AsRawFd;

/// When what is told is coloured.
#[derive(Clone, Copy, PartialEq)]
pub enum Colour {
    Auto,
    Always,
    Never,
}

pub struct Output {
    pub coloured: bool,
    pub terminal: bool,
}

impl Output {
    pub fn new(colour: Colour) -> Output {
        let terminal = system::standard(system::STDOUT).is_ok_and(|file| file.is_terminal());
        let set = |name: &str| std::env::var_os(name).filter(|value| !value.is_empty());
        let plain = set("NO_COLOR").is_some() || set("TERM") == Some(OsString::from("dumb"));
        let coloured = match colour {
            Colour::Auto => terminal && !plain,
            Colour::Always => true,
            Colour::Never => false,
        };
        Output { coloured, terminal }
    }

    /// All of some bytes, as they are.
    pub fn put(&self, bytes: &[u8]) -> io::Result<()> {
        all(&*system::standard(system::STDOUT)?, bytes)
    }

    /// Lines, each of which is painted by its words.
    pub fn lines(&self, lines: &str) -> io::Result<()> {
        if !self.coloured {
            return self.put(lines.as_bytes());
        }
        self.put(lines.lines().map(painted).collect::<String>().as_bytes())
    }
}

fn all(mut file: &File, mut bytes: &[u8]) -> io::Result<()> {
    while !bytes.is_empty() {
        match file.write(bytes) {
            Ok(0) => return Err(ErrorKind::WriteZero.into()),
            Ok(count) => bytes = &bytes[count..],
            Err(error) if error.kind() == ErrorKind::Interrupted => {}
            Err(error) if error.kind() == ErrorKind::WouldBlock => system::wait(file.as_raw_fd(), system::POLLOUT),
            Err(error) => return Err(error),
        }
    }
    Ok(())
}

const BOLD: &str = "\x1b[1m";
const DIM: &str = "\x1b[2m";
const RED: &str = "\x1b[31m";
const GREEN: &str = "\x1b[32m";
const CYAN: &str = "\x1b[36m";
const OFF: &str = "\x1b[0m";

/// A line with its first word in one colour and the rest in another; without the colours it is the line.
fn painted(line: &str) -> String {
    let (word, rest) = line.split_at(line.find(' ').unwrap_or(line.len()));
    let (first, second) = match word {
        "refused" => (RED, RED),
        "no" => (DIM, DIM),
        "final" if rest != " none" => (BOLD, GREEN),
        "completable" if rest == " yes" => (BOLD, GREEN),
        "bytes" => (RED, DIM),
        "round" | "prevote" | "precommit" | "ghost" | "estimate" | "final" | "completable" | "differing" => {
            (BOLD, if rest == " none" { DIM } else { "" })
        }
        "tail" => (DIM, DIM),
        "Vt" | "Rt" | "Bk" | "Op" | "Pv" | "Pc" => (CYAN, ""),
        _ => (BOLD, BOLD),
    };
    format!("{first}{word}{OFF}{second}{rest}{OFF}\n")
}

/// A line on standard error. Nothing is left to be done where that fails too.
pub fn complain(words: &str) {
    if let Ok(file) = system::standard(system::STDERR) {
        let _ = all(&file, format!("beamtassel: {words}\n").as_bytes());
    }
}
