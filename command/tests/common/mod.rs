//! Real processes on inputs and outputs that fail, come late or are closed.
#![allow(dead_code)]

use std::ffi::OsStr;
use std::fs::{self, File};
use std::io::Write;
use std::os::fd::OwnedFd;
use std::os::unix::net::UnixStream;
use std::path::{Path, PathBuf};
use std::process::{Child, Command, Output, Stdio};
use std::time::Duration;

pub fn root() -> PathBuf {
    Path::new(env!("CARGO_MANIFEST_DIR")).join("..")
}

pub fn example(name: &str) -> PathBuf {
    root().join("examples").join(name)
}

pub fn bytes_of(name: &str) -> Vec<u8> {
    fs::read(example(name)).unwrap_or_else(|error| panic!("{name}: {error}"))
}

pub fn lines_of(name: &str) -> String {
    String::from_utf8(bytes_of(name)).unwrap()
}

/// The command, with no colours asked for by the environment.
pub fn command() -> Command {
    let mut command = Command::new(env!("CARGO_BIN_EXE_beamtassel"));
    command.env_remove("NO_COLOR").env("TERM", "xterm").stdin(Stdio::null());
    command
}

/// A program of the gate.
pub fn program(name: &str) -> Command {
    let path = root().join("target/bin").join(name);
    assert!(path.is_file(), "{} is not there: `tools/proved {name}` makes it", path.display());
    let mut command = Command::new(path);
    command.stdin(Stdio::null());
    command
}

/// A folder of its own for a test, removed at the end.
pub struct Folder(pub PathBuf);

impl Folder {
    pub fn new(name: &str) -> Folder {
        let path = std::env::temp_dir().join(format!("beamtassel-{}-{name}", std::process::id()));
        fs::create_dir_all(&path).unwrap();
        Folder(path)
    }

    pub fn file(&self, name: &str, bytes: &[u8]) -> PathBuf {
        let path = self.0.join(name);
        fs::write(&path, bytes).unwrap();
        path
    }
}

impl Drop for Folder {
    fn drop(&mut self) {
        let _ = fs::remove_dir_all(&self.0);
    }
}

/// What a process said.
#[derive(Debug)]
pub struct Said {
    pub status: Option<i32>,
    pub out: String,
    pub error: String,
}

impl From<Output> for Said {
    fn from(output: Output) -> Said {
        let text = |bytes: &[u8]| String::from_utf8_lossy(bytes).into_owned();
        Said { status: output.status.code(), out: text(&output.stdout), error: text(&output.stderr) }
    }
}

pub fn said(command: &mut Command) -> Said {
    command.output().unwrap().into()
}

/// With some bytes on standard input, in a pipe.
pub fn fed(command: &mut Command, bytes: &[u8]) -> Said {
    let mut child = piped(command.stdin(Stdio::piped()));
    let mut input = child.stdin.take().unwrap();
    let bytes = bytes.to_vec();
    let writer = std::thread::spawn(move || {
        let _ = input.write_all(&bytes);
    });
    let said = child.wait_with_output().unwrap().into();
    writer.join().unwrap();
    said
}

pub fn piped(command: &mut Command) -> Child {
    command.stdout(Stdio::piped()).stderr(Stdio::piped()).spawn().unwrap()
}

/// With a standard input that never waits, and whose last bytes come late.
pub fn late(command: &mut Command, bytes: &[u8], first: usize) -> Said {
    let (mut ours, theirs) = UnixStream::pair().unwrap();
    theirs.set_nonblocking(true).unwrap();
    ours.write_all(&bytes[..first]).unwrap();
    let child = piped(command.stdin(OwnedFd::from(theirs)));
    // The command line holds the other end too.
    command.stdin(Stdio::null());
    std::thread::sleep(Duration::from_millis(300));
    let _ = ours.write_all(&bytes[first..]);
    drop(ours);
    child.wait_with_output().unwrap().into()
}

/// By way of a shell, with its redirections.
pub fn shell(command: &Command, rest: &str) -> Said {
    let mut line = Command::new("sh");
    line.arg("-c").arg(format!("exec \"$@\" {rest}")).arg("sh").arg(command.get_program()).args(command.get_args());
    said(line.stdin(Stdio::null()))
}

pub fn with_input(command: &mut Command, path: impl AsRef<Path>) -> Said {
    said(command.stdin(File::open(path).unwrap()))
}

pub fn onto(command: &mut Command, path: &str) -> Said {
    let out = File::options().write(true).open(path).unwrap();
    let child = command.stdout(out).stderr(Stdio::piped()).spawn().unwrap();
    child.wait_with_output().unwrap().into()
}

/// With calls of read and write that fail, as bindings/c/faults.c has them fail.
pub fn with_faults<'a>(command: &'a mut Command, faults: &str) -> &'a mut Command {
    let made = std::env::var_os("BEAMTASSEL_FAULTS")
        .expect("BEAMTASSEL_FAULTS names the library that bindings/test makes of faults.c");
    assert!(Path::new(&made).is_file(), "{} is not there", made.to_string_lossy());
    command.env("LD_PRELOAD", made).env("FAULTS", OsStr::new(faults))
}
