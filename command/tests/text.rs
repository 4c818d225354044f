//! Journals as text and back, and faults by line and column.
#![allow(dead_code)]

#[path = "../../oracle/tools/generate.rs"]
mod generate;
#[path = "../../oracle/tools/journal.rs"]
mod journal;
#[path = "../src/text.rs"]
mod text;

use std::convert::Infallible;
use std::path::Path;

fn lines(journal: &[u8]) -> String {
    let mut all = String::new();
    let Ok(()) = text::lines(journal, |some| {
        all.push_str(some);
        Ok::<(), Infallible>(())
    });
    all
}

fn there_and_back(journal: &[u8], what: &str) {
    let lines = lines(journal);
    assert_eq!(text::journal(lines.as_bytes()).as_deref(), Ok(journal), "{what}:\n{lines}");
}

#[test]
fn all_classes_come_back() {
    for class in generate::CLASSES {
        for index in 0..300 {
            there_and_back(&generate::journal(class, 1, index), &format!("{class} {index}"));
        }
    }
    there_and_back(&generate::journal(generate::LONG, 1, 0), generate::LONG);
}

#[test]
fn recorded_journals_come_back() {
    let mut journals = 0;
    for list in ["answers.bin", "traces.bin"] {
        let list = std::fs::read(Path::new(env!("CARGO_MANIFEST_DIR")).join("../oracle/list").join(list)).unwrap();
        let size = |at: usize| u32::from_le_bytes(list[at..at + 4].try_into().unwrap()) as usize;
        let mut at = 0;
        while at < list.len() {
            let start = at + 8;
            let end = start + size(at);
            there_and_back(&list[start..end], &format!("recorded journal {journals}"));
            at = end + size(at + 4);
            journals += 1;
        }
    }
    assert!(journals > 800, "{journals}");
}

/// Every journal of up to three bytes whose bytes are those of marks, and some that are no text.
#[test]
fn short_journals_come_back() {
    let bytes = b"VtRBkOpPvc\0\n #\xff";
    there_and_back(b"", "nothing");
    for a in bytes {
        there_and_back(&[*a], "one byte");
        for b in bytes {
            there_and_back(&[*a, *b], "two bytes");
            for c in bytes {
                there_and_back(&[*a, *b, *c], "three bytes");
            }
        }
    }
}

#[test]
fn a_line_a_record() {
    let case = [
        ("Vt 4294967295 weight 18446744073709551615\n", &b"Vt\xff\xff\xff\xff\xff\xff\xff\xff\xff\xff\xff\xff"[..]),
        ("Rt 10 number 7\n", b"Rt\x0a\0\0\0\x07\0\0\0"),
        ("Bk 11 under 10\n", b"Bk\x0b\0\0\0\x0a\0\0\0"),
        ("Op 258 base 10\n", b"Op\x02\x01\0\0\0\0\0\0\x0a\0\0\0"),
        ("Pv 2 for 12 number 2 signature 0\n", b"Pv\x02\0\0\0\x0c\0\0\0\x02\0\0\0\0\0\0\0\0\0\0\0"),
        ("Pc 2 for 12 number 2 signature 256\n", b"Pc\x02\0\0\0\x0c\0\0\0\x02\0\0\0\0\x01\0\0\0\0\0\0"),
        ("bytes 507602 # a record that is cut off\n", b"Pv\x02"),
        ("bytes 587801 # an unknown mark, and all after it\n", b"Xx\x01"),
    ];
    for (line, bytes) in case {
        assert_eq!(lines(bytes), line);
        assert_eq!(text::journal(line.as_bytes()).as_deref(), Ok(bytes));
    }
    let many = "Vt 1 weight 1\n\n  # nothing\n\tVt  2\tweight 2 # two\r\nRt 10 number 0";
    assert_eq!(text::journal(many.as_bytes()), text::journal(b"Vt 1 weight 1\nVt 2 weight 2\nRt 10 number 0\n"));
}

#[test]
fn faults_are_named_by_line_and_column() {
    let case: [(&[u8], usize, usize, &str); 15] = [
        (b"Vt 1 weight 1\nVx 2\n", 2, 1, "'Vx' is none of Vt, Rt, Bk, Op, Pv, Pc and bytes"),
        (b"Vt", 1, 3, "the line ends where the voter, a number, is due"),
        (b"Vt 1", 1, 5, "the line ends where 'weight' is due"),
        (b"Vt 1 weigth 1", 1, 6, "'weight' is due, and 'weigth' is here"),
        (b"\n\n  Rt ten number 0", 3, 6, "the block, a number, is due, and 'ten' is here"),
        (b"Bk -1 under 10", 1, 4, "the block, a number, is due, and '-1' is here"),
        (b"Bk 4294967296 under 10", 1, 4, "'4294967296' is over 4294967295, the most that a block can be"),
        (
            b"Vt 1 weight 18446744073709551616",
            1,
            13,
            "'18446744073709551616' is over 18446744073709551615, the most that a weight can be",
        ),
        (
            b"Op 7 base 99999999999999999999999",
            1,
            11,
            "'99999999999999999999..' is over 4294967295, the most that a base can be",
        ),
        (b"Pv 1 for 12 number 2 signature", 1, 31, "the line ends where the signature, a number, is due"),
        (b"Rt 10 number 0 0", 1, 16, "the record is whole, and '0' is here"),
        (b"bytes 123", 1, 10, "a hexadecimal digit is missing: two make a byte"),
        (b"bytes 12g4", 1, 9, "'g' is no hexadecimal digit"),
        (b"bytes", 1, 6, "the line ends where a pair of hexadecimal digits is due"),
        (b"Vt\x01\0\0\0\x01\0\0\0\0\0\0\0", 1, 1, "'Vt\\x01\\x00"),
    ];
    for (given, line, column, words) in case {
        let fault = text::journal(given).unwrap_err();
        assert_eq!((fault.line, fault.column), (line, column), "{given:?}: {}", fault.words);
        assert!(fault.words.starts_with(words), "{given:?}: {}", fault.words);
    }
}

#[test]
fn a_record_is_found_by_its_count() {
    let journal = text::journal(b"Vt 1 weight 1\nRt 10 number 0\nbytes 5878\n").unwrap();
    assert_eq!(text::record(&journal, 1), Some((0, "Vt 1 weight 1".into())));
    assert_eq!(text::record(&journal, 2), Some((14, "Rt 10 number 0".into())));
    assert_eq!(text::record(&journal, 3), Some((24, "bytes 5878".into())));
    assert_eq!(text::record(&journal, 4), None);
}
