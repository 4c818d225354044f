//! The proved programs as processes: an input that fails is said on standard error and nothing is told; so is an output that fails.
mod common;
use common::*;
use std::fs::File;
use std::process::Stdio;

/// The programs that read a journal, and what case J is to each.
const READERS: [&str; 3] = ["replay", "watch", "pieces"];

fn expected(name: &str) -> String {
    std::fs::read_to_string(root().join("crates").join(name).join("stdout")).unwrap()
}

fn nothing_told(said: &Said, name: &str, reason: &str) {
    assert_eq!(said.out, "", "{name}");
    assert_eq!(said.error, format!("{name}: standard input: {reason}\n"));
}

#[test]
fn case_j_is_told() {
    for name in READERS {
        let said = fed(&mut program(name), &bytes_of("case-j.journal"));
        assert_eq!((said.out, said.error), (expected(name), String::new()), "{name}");
    }
    let said = with_input(&mut program("oracle_list"), root().join("oracle/list/answers.bin"));
    assert_eq!((said.out, said.error), (expected("oracle_list"), String::new()));
}

#[test]
fn a_directory_is_no_journal() {
    for name in ["replay", "watch", "pieces", "oracle_list"] {
        nothing_told(&with_input(&mut program(name), root()), name, "Is a directory");
    }
}

#[test]
fn a_closed_input_is_no_journal() {
    for name in ["replay", "watch", "pieces", "oracle_list"] {
        nothing_told(&shell(&program(name), "<&-"), name, "Bad file descriptor");
    }
}

#[test]
fn an_input_that_is_not_ready_is_no_end() {
    let journal = bytes_of("case-j.journal");
    for name in ["replay", "pieces", "oracle_list"] {
        let said = late(&mut program(name), &journal, journal.len() - 22);
        nothing_told(&said, name, "Resource temporarily unavailable");
    }
    // watch tells as it reads, and has no last lines.
    let said = late(&mut program("watch"), &journal, journal.len() - 22);
    assert_eq!(said.error, "watch: standard input: Resource temporarily unavailable\n");
    assert!(!said.out.contains("tail"), "{}", said.out);
}

#[test]
fn an_interrupted_read_is_made_again() {
    for name in READERS {
        let said = fed(with_faults(&mut program(name), "read EINTR 5"), &bytes_of("case-j.journal"));
        assert_eq!((said.out, said.error), (expected(name), String::new()), "{name}");
    }
}

#[test]
fn short_reads_and_writes_are_gone_on_with() {
    for name in READERS {
        for faults in ["read short", "write short"] {
            let said = fed(with_faults(&mut program(name), faults), &bytes_of("case-j.journal"));
            assert_eq!((said.out, said.error), (expected(name), String::new()), "{name}, {faults}");
        }
    }
}

#[test]
fn a_read_that_fails_later_tells_nothing() {
    for name in ["replay", "pieces", "oracle_list"] {
        let said = fed(with_faults(&mut program(name), "read short EIO 1 after 100"), &bytes_of("case-j.journal"));
        nothing_told(&said, name, "Input/output error");
    }
    let said = fed(with_faults(&mut program("watch"), "read short EIO 1 after 200"), &bytes_of("case-j.journal"));
    assert_eq!(said.error, "watch: standard input: Input/output error\n");
    assert!(!said.out.contains("tail"), "{}", said.out);
}

#[test]
fn an_output_that_fails_is_said_once() {
    let case = |name: &str| {
        let mut program = program(name);
        if READERS.contains(&name) {
            program.stdin(File::open(example("case-j.journal")).unwrap());
        }
        program
    };
    for name in ["replay", "watch", "pieces", "numbers"] {
        let said = onto(&mut case(name), "/dev/full");
        assert_eq!(said.error, format!("{name}: standard output: No space left on device\n"));
        let said = shell(&program(name), &format!("<{} >&-", example("case-j.journal").display()));
        assert_eq!(said.error, format!("{name}: standard output: Bad file descriptor\n"));
    }
    let said = onto(program("oracle_list").stdin(Stdio::null()), "/dev/full");
    assert_eq!(said.error, "oracle_list: standard output: No space left on device\n");
}

#[test]
fn nothing_is_written_behind_a_gap() {
    let said = said(with_faults(&mut program("numbers"), "write ENOSPC 1 after 20"));
    assert_eq!(said.error, "numbers: standard output: No space left on device\n");
    assert!(expected("numbers").starts_with(&said.out) && said.out.len() < expected("numbers").len(), "{}", said.out);
}

#[test]
fn pieces_takes_what_fits() {
    let said = fed(&mut program("pieces"), &[0; 4096]);
    assert_eq!((&*said.out, &*said.error), ("", "pieces: standard input: more than 4095 bytes\n"));
}

#[test]
fn four_gigabytes_are_read() {
    let folder = Folder::new("replay-4g");
    let path = folder.file("zeros", b"");
    File::options().write(true).open(&path).unwrap().set_len(4 << 30).unwrap();
    let said = with_input(&mut program("replay"), &path);
    assert_eq!((&*said.out, &*said.error), ("refused 17 at 1\n", ""));
}
