//! The command as a process: statuses, words, and what it does with inputs and outputs that fail.
#[path = "../../oracle/tools/generate.rs"]
#[allow(dead_code)]
mod generate;
#[path = "../../oracle/tools/journal.rs"]
#[allow(dead_code)]
mod journal;

mod common;
use common::*;
use std::fs::{self, File};
use std::io::{Read, Write};
use std::os::fd::{FromRawFd, IntoRawFd, OwnedFd};
use std::os::unix::fs::PermissionsExt;
use std::os::unix::process::CommandExt;
use std::process::{Command, Stdio};
use std::time::{Duration, Instant};

const EXAMPLES: [&str; 5] = ["case-j", "equivocation", "fork", "refused", "cut"];

fn beamtassel(words: &[&str]) -> Command {
    let mut command = command();
    command.args(words).current_dir(root().join("examples"));
    command
}

fn told(words: &[&str], out: &str) {
    let said = said(&mut beamtassel(words));
    assert_eq!((said.status, &*said.out, &*said.error), (Some(0), out, ""), "{words:?}");
}

fn fails(words: &[&str], status: i32, error: &str) {
    let said = said(&mut beamtassel(words));
    assert_eq!((said.status, &*said.out), (Some(status), ""), "{words:?}: {}", said.error);
    assert!(said.error.contains(error), "{words:?}: {}", said.error);
}

#[test]
fn the_examples_are_told() {
    for name in EXAMPLES {
        let said = said(&mut beamtassel(&["replay", &format!("{name}.journal")]));
        assert_eq!(said.out, lines_of(&format!("{name}.lines")));
        assert_eq!(said.status, Some(i32::from(name == "refused")));
        let made = command().arg("bytes").arg(example(&format!("{name}.txt"))).output().unwrap();
        assert_eq!((made.stdout, made.stderr), (bytes_of(&format!("{name}.journal")), Vec::new()));
    }
}

#[test]
fn a_refusal_has_words() {
    let said = said(&mut beamtassel(&["replay", "refused.journal"]));
    assert_eq!(said.error, "beamtassel: refused.journal: record 8 (Bk 12 under 13, at byte 82): refused 5: block id already in the table\n");
    fails(&["finalizing", "refused.journal"], 1, "record 8 (Bk 12 under 13, at byte 82): refused 5");
    fails(&["finalizing", "cut.journal"], 1, "beamtassel: cut.journal: refused 15: nothing is final\n");
    fails(&["two-views", "case-j.journal", "refused.journal"], 1, "beamtassel: refused.journal: record 8");
    fails(
        &["two-views", "case-j.journal", "fork.journal"],
        1,
        "case-j.journal and fork.journal: refused 16: the journals are not of one round: round 7 and round 8\n",
    );
}

#[test]
fn unknown_marks_have_words() {
    let said = fed(&mut beamtassel(&["replay", "-"]), b"Vt\x01\0\0\0\x01\0\0\0\0\0\0\0Xx");
    assert_eq!((said.status, &*said.out), (Some(1), "refused 17 at 2\n"));
    assert_eq!(said.error, "beamtassel: standard input: record 2 (bytes 5878, at byte 14): refused 17: unknown mark\n");
}

#[test]
fn several_journals_are_told_in_order() {
    let said = said(&mut beamtassel(&["replay", "case-j.journal", "no such", "refused.journal", "cut.journal"]));
    assert_eq!(said.out, ["case-j", "refused", "cut"].map(|name| lines_of(&format!("{name}.lines"))).concat());
    assert_eq!(said.status, Some(3), "not read is graver than refused");
    assert!(said.error.contains("no such: No such file or directory"), "{}", said.error);
    let said = common::said(&mut beamtassel(&["replay", "--names", "case-j.journal"]));
    assert_eq!(said.out, format!("case-j.journal:\n{}", lines_of("case-j.lines")));
}

#[test]
fn standard_input_is_a_dash() {
    for name in EXAMPLES {
        let said = fed(&mut beamtassel(&["replay", "-"]), &bytes_of(&format!("{name}.journal")));
        assert_eq!(said.out, lines_of(&format!("{name}.lines")));
    }
    let said = fed(&mut beamtassel(&["two-views", "-", "case-j.journal"]), &bytes_of("case-j.journal"));
    assert_eq!((said.status, &*said.out), (Some(0), "differing 0\n"));
    fails(&["replay", "-", "-"], 2, "standard input can be read once only");
    fails(&["two-views", "-", "-"], 2, "standard input can be read once only");
}

#[test]
fn finalizing_precommits_are_lines() {
    told(
        &["finalizing", "case-j.journal"],
        "Pc 1 for 12 number 2 signature 0\nPc 2 for 12 number 2 signature 0\nPc 3 for 11 number 1 signature 0\n",
    );
}

#[test]
fn two_views_of_one_round() {
    told(&["two-views", "case-j.journal", "case-j.journal"], "differing 0\n");
    // The same blocks in another order are no view of the round, until both are put in one order.
    let folder = Folder::new("views");
    let lines = lines_of("case-j.txt").replace("Bk 12 under 11\nBk 13 under 11\n", "Bk 13 under 11\nBk 12 under 11\n");
    let other =
        fed(&mut beamtassel(&["bytes", "-"]), lines.replace("Pc 3 for 11 number 1", "Pc 3 for 13 number 2").as_bytes());
    let other = folder.file("other", other.out.as_bytes());
    let other = other.to_str().unwrap();
    fails(
        &["two-views", "case-j.journal", other],
        1,
        "the same blocks in another order; `beamtassel text --sort-blocks` gives both one order\n",
    );
    let sorted = |path: &str, name: &str| {
        let text = said(&mut beamtassel(&["text", "--sort-blocks", path]));
        let bytes = fed(&mut beamtassel(&["bytes", "-"]), text.out.as_bytes());
        folder.file(name, bytes.out.as_bytes()).to_str().unwrap().to_owned()
    };
    told(&["two-views", &sorted("case-j.journal", "a"), &sorted(other, "b")], "differing 1\n");
    fails(&["text", "--sort-blocks", "refused.journal"], 1, "refused 5");
}

#[test]
fn usage_is_told_apart() {
    for words in [
        &[][..],
        &["replya", "case-j.journal"],
        &["replay"],
        &["finalizing", "case-j.journal", "cut.journal"],
        &["two-views", "case-j.journal"],
        &["text"],
        &["bytes"],
        &["replay", "--colour=blue", "case-j.journal"],
        &["replay", "--color"],
        &["replay", "--sort-blocks", "case-j.journal"],
        &["text", "--names", "case-j.journal"],
        &["replay", "-x", "case-j.journal"],
        &["replay", "--help=yes"],
    ] {
        fails(words, 2, "usage: beamtassel ");
    }
    // A name that begins with a dash.
    fails(&["replay", "--", "--names"], 3, "--names: No such file or directory");
}

#[test]
fn help_and_version_for_each() {
    for name in ["replay", "finalizing", "two-views", "text", "bytes"] {
        let help = said(&mut beamtassel(&[name, "--help"]));
        assert_eq!((help.status, &*help.error), (Some(0), ""));
        assert!(help.out.starts_with(&format!("Usage: beamtassel {name} ")), "{}", help.out);
        assert!(help.out.contains("Status: 0 told, 1 refused, 2 wrong usage, 3 input not read, 4 output not written."));
        told(
            &[name, "--version"],
            &format!("beamtassel {} (library {})\n", env!("CARGO_PKG_VERSION"), beamtassel::version()),
        );
        assert!(said(&mut beamtassel(&["-h"])).out.contains(&format!("  beamtassel {name} ")));
    }
    assert_eq!(env!("CARGO_PKG_VERSION"), beamtassel::version());
    let header = fs::read_to_string(root().join("include/beamtassel.h")).unwrap();
    assert!(header.contains(&format!("#define BEAMTASSEL_VERSION \"{}\"\n", beamtassel::version())));
    assert!(fs::read_to_string(root().join("CHANGELOG.md"))
        .unwrap()
        .contains(&format!("## {}", beamtassel::version())));
}

#[test]
fn an_input_that_fails_is_status_3() {
    fails(&["replay", "no such"], 3, "beamtassel: no such: No such file or directory");
    for name in ["replay", "finalizing", "text", "bytes"] {
        fails(&[name, "."], 3, "beamtassel: .: Is a directory");
        let said = shell(&beamtassel(&[name, "-"]), "<&-");
        assert_eq!((said.status, &*said.out), (Some(3), ""), "{name}");
        assert_eq!(said.error, "beamtassel: standard input: Bad file descriptor (os error 9)\n");
        let said =
            fed(with_faults(&mut beamtassel(&[name, "-"]), "read short EIO 1 after 100"), &bytes_of("case-j.journal"));
        assert_eq!((said.status, &*said.out), (Some(3), ""), "{name}");
        assert!(said.error.contains("standard input: Input/output error"), "{}", said.error);
    }
}

/// A file that is opened does not get the number of a standard input that is closed.
#[test]
fn a_file_does_not_stand_in_for_a_closed_input() {
    let said = shell(command().arg("replay").arg(example("case-j.journal")).arg("-"), "<&-");
    assert_eq!((said.status, said.out), (Some(3), lines_of("case-j.lines")));
    assert_eq!(said.error, "beamtassel: standard input: Bad file descriptor (os error 9)\n");
}

#[test]
fn a_file_that_may_not_be_read() {
    let folder = Folder::new("locked");
    fs::set_permissions(&folder.0, fs::Permissions::from_mode(0o755)).unwrap();
    let binary = folder.0.join("beamtassel");
    fs::copy(env!("CARGO_BIN_EXE_beamtassel"), &binary).unwrap();
    fs::set_permissions(&binary, fs::Permissions::from_mode(0o755)).unwrap();
    let locked = folder.file("locked", &bytes_of("case-j.journal"));
    fs::set_permissions(&locked, fs::Permissions::from_mode(0o000)).unwrap();
    let mut command = Command::new(&binary);
    if fs::metadata("/proc/self").is_ok_and(|it| std::os::unix::fs::MetadataExt::uid(&it) == 0) {
        command.gid(65534).uid(65534);
    }
    let said = said(command.arg("replay").arg(&locked).current_dir("/"));
    assert_eq!((said.status, &*said.out), (Some(3), ""), "{}", said.error);
    assert!(said.error.contains("locked: Permission denied"), "{}", said.error);
}

#[test]
fn an_input_that_is_not_ready_is_waited_for() {
    for name in EXAMPLES {
        let journal = bytes_of(&format!("{name}.journal"));
        for first in [0, 1, journal.len() - 22] {
            let said = late(&mut beamtassel(&["replay", "-"]), &journal, first);
            assert_eq!(said.out, lines_of(&format!("{name}.lines")), "{name} {first}: {}", said.error);
        }
    }
}

#[test]
fn an_interrupted_call_is_made_again() {
    for faults in ["read EINTR 5", "read short", "read EAGAIN 3", "write EINTR 5", "write short", "write EAGAIN 3"] {
        let said = fed(with_faults(&mut beamtassel(&["replay", "-"]), faults), &bytes_of("case-j.journal"));
        assert_eq!((said.status, said.out, &*said.error), (Some(0), lines_of("case-j.lines"), ""), "{faults}");
    }
}

/// Stopped and gone on with while it waits for its input.
#[test]
fn a_signal_while_reading() {
    let journal = bytes_of("case-j.journal");
    let mut child = piped(beamtassel(&["replay", "-"]).stdin(Stdio::piped()));
    let mut input = child.stdin.take().unwrap();
    input.write_all(&journal[..100]).unwrap();
    for signal in ["STOP", "CONT", "WINCH", "CONT"] {
        std::thread::sleep(Duration::from_millis(50));
        assert!(Command::new("sh").arg("-c").arg(format!("kill -{signal} {}", child.id())).status().unwrap().success());
    }
    input.write_all(&journal[100..]).unwrap();
    drop(input);
    let said: Said = child.wait_with_output().unwrap().into();
    assert_eq!((said.status, said.out), (Some(0), lines_of("case-j.lines")));
}

#[test]
fn an_output_that_fails_is_status_4() {
    let words: [&[&str]; 7] = [
        &["replay", "case-j.journal"],
        &["finalizing", "case-j.journal"],
        &["two-views", "case-j.journal", "case-j.journal"],
        &["text", "case-j.journal"],
        &["bytes", "case-j.txt"],
        &["replay", "--help"],
        &["--version"],
    ];
    for words in words {
        let said = onto(&mut beamtassel(words), "/dev/full");
        assert_eq!(said.status, Some(4), "{words:?}");
        assert_eq!(said.error, "beamtassel: standard output: No space left on device (os error 28)\n");
        let mut line = Command::new("sh");
        line.arg("-c").arg("exec \"$@\" >&-").arg("sh").arg(env!("CARGO_BIN_EXE_beamtassel")).args(words);
        let said = common::said(line.current_dir(root().join("examples")));
        assert_eq!(
            (said.status, &*said.error),
            (Some(4), "beamtassel: standard output: Bad file descriptor (os error 9)\n")
        );
    }
    // A pipe that nobody reads.
    let (ours, theirs) = std::os::unix::net::UnixStream::pair().unwrap();
    drop(ours);
    let child =
        beamtassel(&["replay", "case-j.journal"]).stdout(OwnedFd::from(theirs)).stderr(Stdio::piped()).spawn().unwrap();
    let said: Said = child.wait_with_output().unwrap().into();
    assert_eq!(said.status, Some(4));
    assert!(said.error.contains("standard output: Broken pipe"), "{}", said.error);
    // All three closed: the status is all that is left.
    let mut line = Command::new("sh");
    line.arg("-c")
        .arg("exec \"$@\" <&- >&- 2>&-")
        .arg("sh")
        .arg(env!("CARGO_BIN_EXE_beamtassel"))
        .args(["replay", "case-j.journal"]);
    assert_eq!(line.current_dir(root().join("examples")).status().unwrap().code(), Some(4));
}

#[test]
fn four_gigabytes() {
    let folder = Folder::new("command-4g");
    let path = folder.file("zeros", b"");
    File::options().write(true).open(&path).unwrap().set_len(4 << 30).unwrap();
    let begun = Instant::now();
    let said = common::said(command().arg("replay").arg(&path));
    assert_eq!((said.status, &*said.out), (Some(1), "refused 17 at 1\n"));
    assert!(begun.elapsed() < Duration::from_secs(20), "what is after a refusal is not read");

    // A journal that does not end, with less memory than it would take.
    let mut line = Command::new("sh");
    line.arg("-c").arg("ulimit -v 300000; exec \"$@\" replay -").arg("sh").arg(env!("CARGO_BIN_EXE_beamtassel"));
    let mut child = piped(line.stdin(Stdio::piped()));
    let mut input = child.stdin.take().unwrap();
    let vote = bytes_of("case-j.journal")[264 - 22..].repeat(3000);
    let writer = std::thread::spawn(move || {
        let mut left = 4u64 << 30;
        let _ = input.write_all(&bytes_of("case-j.journal"));
        while left > 0 && input.write_all(&vote).is_ok() {
            left = left.saturating_sub(vote.len() as u64);
        }
        left
    });
    let said: Said = child.wait_with_output().unwrap().into();
    assert!(writer.join().unwrap() > 0);
    assert_eq!((said.status, &*said.out), (Some(3), ""), "{}", said.error);
    assert!(said.error.contains("standard input: ") && said.error.contains("memory"), "{}", said.error);
}

#[test]
fn a_fault_in_a_text_is_named_and_nothing_written() {
    let said = fed(&mut beamtassel(&["bytes", "-"]), b"Vt 1 weight 1\nVt 2 wieght 1\n");
    assert_eq!((said.status, &*said.out), (Some(1), ""));
    assert_eq!(said.error, "beamtassel: standard input:2:6: 'weight' is due, and 'wieght' is here\n");
}

/// When piped, what the proved program prints.
#[test]
fn replay_is_the_proved_programs() {
    for class in generate::CLASSES {
        for index in 0..4 {
            let journal = generate::journal(class, 3, index);
            let one = fed(&mut program("replay"), &journal);
            let other = fed(command().args(["replay", "-"]), &journal);
            assert_eq!(one.out, other.out, "{class} {index}");
            assert_eq!(other.status, Some(i32::from(one.out.starts_with("refused"))), "{class} {index}");
        }
    }
}

mod terminal {
    use std::ffi::{c_char, c_int};
    extern "C" {
        pub fn posix_openpt(flags: c_int) -> c_int;
        pub fn grantpt(fd: c_int) -> c_int;
        pub fn unlockpt(fd: c_int) -> c_int;
        pub fn ptsname(fd: c_int) -> *const c_char;
    }
}

/// What is written to a terminal, with line ends as a file has them.
fn on_a_terminal(words: &[&str], plain: bool) -> String {
    // SAFETY: each call is made as its manual page has it, and the name is copied at once.
    let (mut ours, name) = unsafe {
        let fd = terminal::posix_openpt(0o2 | 0o400);
        assert!(fd >= 0 && terminal::grantpt(fd) == 0 && terminal::unlockpt(fd) == 0);
        (File::from_raw_fd(fd), std::ffi::CStr::from_ptr(terminal::ptsname(fd)).to_str().unwrap().to_owned())
    };
    let theirs = File::options().read(true).write(true).open(name).unwrap();
    let mut command = beamtassel(words);
    if plain {
        command.env("NO_COLOR", "1");
    }
    // SAFETY: the number is given away.
    let mut child = command.stdout(unsafe { Stdio::from_raw_fd(theirs.into_raw_fd()) }).spawn().unwrap();
    drop(command);
    let mut text = Vec::new();
    let mut some = [0; 4096];
    // The terminal is over (EIO) when its last user has gone.
    while let Ok(count) = ours.read(&mut some) {
        if count == 0 {
            break;
        }
        text.extend_from_slice(&some[..count]);
    }
    child.wait().unwrap();
    String::from_utf8(text).unwrap().replace("\r\n", "\n")
}

fn without_colours(text: &str) -> String {
    let mut parts = text.split("\x1b[");
    let first = parts.next().unwrap().to_owned();
    parts.fold(first, |all, part| all + part.split_once('m').unwrap().1)
}

#[test]
fn names_and_colour_on_a_terminal() {
    let lines = lines_of("case-j.lines");
    let one = on_a_terminal(&["replay", "case-j.journal"], false);
    assert!(one.contains("\x1b[32m 11 1\x1b[0m"), "{one:?}");
    assert_eq!(without_colours(&one), lines);
    assert_eq!(on_a_terminal(&["replay", "case-j.journal"], true), lines);
    assert_eq!(on_a_terminal(&["replay", "--color=never", "case-j.journal"], false), lines);
    let two = on_a_terminal(&["replay", "case-j.journal", "cut.journal"], false);
    assert_eq!(without_colours(&two), format!("case-j.journal:\n{lines}cut.journal:\n{}", lines_of("cut.lines")));
    // Plain when piped, unless colour is asked for.
    let asked = said(&mut beamtassel(&["replay", "--color", "always", "case-j.journal"])).out;
    assert_eq!(asked, one);
}

/// Every command and option stands in the help, the man page and each completion.
#[test]
fn manual_and_completion_are_whole() {
    let of = |name: &str| fs::read_to_string(root().join("command").join(name)).unwrap();
    let manual = of("beamtassel.1").replace("\\-", "-");
    assert!(manual.contains(&format!("\"Beamtassel {}\"", beamtassel::version())));
    let help = said(&mut beamtassel(&["--help"])).out;
    let shells = ["beamtassel.bash", "_beamtassel", "beamtassel.fish"].map(|name| of(&format!("completion/{name}")));
    for word in
        ["replay", "finalizing", "two-views", "text", "bytes", "color", "names", "sort-blocks", "help", "version"]
    {
        assert!(help.contains(word) && manual.contains(word), "{word}");
        assert!(shells.iter().all(|shell| shell.contains(word)), "{word}");
    }
}

#[test]
fn bash_completes() {
    let case = [
        ("beamtassel re", "replay"),
        ("beamtassel replay --n", "--names"),
        ("beamtassel text --s", "--sort-blocks"),
        ("beamtassel replay --color al", "always"),
        ("beamtassel two-views case-j.journal case-j.t", "case-j.txt"),
    ];
    for (words, completed) in case {
        let script = format!(
            "source ../command/completion/beamtassel.bash; COMP_WORDS=({words}); COMP_CWORD=$((${{#COMP_WORDS[@]}} - 1)); _beamtassel; echo \"${{COMPREPLY[*]}}\""
        );
        let said = said(Command::new("bash").arg("-c").arg(script).current_dir(root().join("examples")));
        assert_eq!(said.out, format!("{completed}\n"), "{words}: {}", said.error);
    }
}
