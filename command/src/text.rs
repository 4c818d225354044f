//! Journals as lines and back. A record is a line; what is no record is its bytes in hexadecimal. There and back is the same bytes.
use std::fmt::Write;

/// A field of a record: its word in a line, what it is, and how many bytes it has.
struct Field {
    word: &'static str,
    what: &'static str,
    bytes: usize,
}

const fn field(word: &'static str, what: &'static str, bytes: usize) -> Field {
    Field { word, what, bytes }
}

struct Shape {
    mark: &'static str,
    fields: &'static [Field],
}

const VOTE: &[Field] = &[
    field("", "voter", 4),
    field("for", "target", 4),
    field("number", "number", 4),
    field("signature", "signature", 8),
];

/// docs/RULES.md, "The journal". A first field without a word stands right after the mark.
const SHAPES: [Shape; 6] = [
    Shape { mark: "Vt", fields: &[field("", "voter", 4), field("weight", "weight", 8)] },
    Shape { mark: "Rt", fields: &[field("", "block", 4), field("number", "number", 4)] },
    Shape { mark: "Bk", fields: &[field("", "block", 4), field("under", "parent", 4)] },
    Shape { mark: "Op", fields: &[field("", "round", 8), field("base", "base", 4)] },
    Shape { mark: "Pv", fields: VOTE },
    Shape { mark: "Pc", fields: VOTE },
];

impl Shape {
    fn size(&self) -> usize {
        2 + self.fields.iter().map(|field| field.bytes).sum::<usize>()
    }
}

/// What stands at the start of some bytes.
enum Start {
    Whole(&'static Shape),
    Cut,
    Unknown,
}

fn start(bytes: &[u8]) -> Start {
    let Some(mark) = bytes.get(..2) else {
        return Start::Cut;
    };
    match SHAPES.iter().find(|shape| shape.mark.as_bytes() == mark) {
        None => Start::Unknown,
        Some(shape) if bytes.len() < shape.size() => Start::Cut,
        Some(shape) => Start::Whole(shape),
    }
}

fn number(bytes: &[u8]) -> u64 {
    bytes.iter().rev().fold(0, |sum, byte| sum << 8 | u64::from(*byte))
}

fn put_record(shape: &Shape, record: &[u8], out: &mut String) {
    out.push_str(shape.mark);
    let mut at = 2;
    for field in shape.fields {
        if !field.word.is_empty() {
            let _ = write!(out, " {}", field.word);
        }
        let _ = write!(out, " {}", number(&record[at..at + field.bytes]));
        at += field.bytes;
    }
    out.push('\n');
}

fn put_bytes(bytes: &[u8], why: &str, out: &mut String) {
    out.push_str("bytes ");
    for byte in bytes {
        for digit in [byte >> 4, byte & 15] {
            out.push(char::from(b"0123456789abcdef"[usize::from(digit)]));
        }
    }
    if !why.is_empty() {
        let _ = write!(out, " # {why}");
    }
    out.push('\n');
}

/// How many bytes a line of `bytes` has.
const ROW: usize = 32;
/// Lines are handed on when there are so many bytes of them.
const SOME: usize = 1 << 16;

/// A journal's lines, handed on some at a time.
pub fn lines<E>(journal: &[u8], mut put: impl FnMut(&str) -> Result<(), E>) -> Result<(), E> {
    let mut out = String::new();
    let mut rest = journal;
    let why = loop {
        if SOME <= out.len() {
            put(&out)?;
            out.clear();
        }
        match start(rest) {
            Start::Whole(shape) => {
                put_record(shape, rest, &mut out);
                rest = &rest[shape.size()..];
            }
            Start::Cut => break "a record that is cut off",
            Start::Unknown => break "an unknown mark, and all after it",
        }
    };
    for (k, row) in rest.chunks(ROW).enumerate() {
        put_bytes(row, if k == 0 { why } else { "" }, &mut out);
        if SOME <= out.len() {
            put(&out)?;
            out.clear();
        }
    }
    put(&out)
}

/// The records of a journal, counted from 1: where one starts, and its line. None where there is no such record.
pub fn record(journal: &[u8], wanted: u64) -> Option<(usize, String)> {
    let (mut at, mut count) = (0, 1);
    loop {
        let rest = &journal[at..];
        let found = start(rest);
        if count == wanted {
            let mut line = String::new();
            match found {
                Start::Whole(shape) => put_record(shape, rest, &mut line),
                Start::Cut => return None,
                Start::Unknown => put_bytes(&rest[..2], "", &mut line),
            }
            line.pop();
            return Some((at, line));
        }
        let Start::Whole(shape) = found else {
            return None;
        };
        at += shape.size();
        count += 1;
    }
}

/// Why a text is no journal, and where: line and column count from 1.
#[derive(Debug, PartialEq)]
pub struct Fault {
    pub line: usize,
    pub column: usize,
    pub words: String,
}

/// A word of a line and the column it starts at.
struct Word<'a> {
    bytes: &'a [u8],
    column: usize,
}

/// The words of a line up to a comment, and the column after the last.
fn words(line: &[u8]) -> (Vec<Word<'_>>, usize) {
    let line = &line[..line.iter().position(|byte| *byte == b'#').unwrap_or(line.len())];
    let mut found = Vec::new();
    let mut at = 0;
    while at < line.len() {
        let size = line[at..].iter().position(u8::is_ascii_whitespace).unwrap_or(line.len() - at);
        if size == 0 {
            at += 1;
            continue;
        }
        found.push(Word { bytes: &line[at..at + size], column: at + 1 });
        at += size;
    }
    let end = found.last().map_or(1, |word| word.column + word.bytes.len());
    (found, end)
}

/// A word as it is shown in a complaint.
fn shown(bytes: &[u8]) -> String {
    let text: String = bytes.iter().take(20).flat_map(|byte| byte.escape_ascii()).map(char::from).collect();
    format!("'{text}{}'", if bytes.len() > 20 { ".." } else { "" })
}

/// The words of one line, taken one by one.
struct Line<'a> {
    words: std::vec::IntoIter<Word<'a>>,
    end: usize,
    at: usize,
}

impl<'a> Line<'a> {
    fn fault(&self, column: usize, words: String) -> Fault {
        Fault { line: self.at, column, words }
    }

    fn next(&mut self, wanted: &str) -> Result<Word<'a>, Fault> {
        self.words.next().ok_or_else(|| self.fault(self.end, format!("the line ends where {wanted} is due")))
    }

    fn word(&mut self, wanted: &str) -> Result<(), Fault> {
        let word = self.next(&format!("'{wanted}'"))?;
        if word.bytes == wanted.as_bytes() {
            return Ok(());
        }
        Err(self.fault(word.column, format!("'{wanted}' is due, and {} is here", shown(word.bytes))))
    }

    fn number(&mut self, what: &str, bytes: usize) -> Result<u64, Fault> {
        let word = self.next(&format!("the {what}, a number,"))?;
        let most = u64::MAX >> (64 - 8 * bytes);
        if !word.bytes.iter().all(u8::is_ascii_digit) {
            return Err(
                self.fault(word.column, format!("the {what}, a number, is due, and {} is here", shown(word.bytes)))
            );
        }
        let value =
            word.bytes.iter().try_fold(0u64, |sum, digit| sum.checked_mul(10)?.checked_add(u64::from(digit - b'0')));
        value.filter(|value| *value <= most).ok_or_else(|| {
            self.fault(word.column, format!("{} is over {most}, the most that a {what} can be", shown(word.bytes)))
        })
    }

    fn record(&mut self, shape: &Shape, out: &mut Vec<u8>) -> Result<(), Fault> {
        out.extend_from_slice(shape.mark.as_bytes());
        for field in shape.fields {
            if !field.word.is_empty() {
                self.word(field.word)?;
            }
            let value = self.number(field.what, field.bytes)?;
            out.extend_from_slice(&value.to_le_bytes()[..field.bytes]);
        }
        Ok(())
    }

    fn bytes(&mut self, out: &mut Vec<u8>) -> Result<(), Fault> {
        let word = self.next("a pair of hexadecimal digits")?;
        let digit = |k: usize| (word.bytes[k] as char).to_digit(16).map(|digit| digit as u8);
        if let Some(k) = (0..word.bytes.len()).find(|k| digit(*k).is_none()) {
            return Err(
                self.fault(word.column + k, format!("{} is no hexadecimal digit", shown(&word.bytes[k..k + 1])))
            );
        }
        if word.bytes.len() % 2 == 1 {
            return Err(
                self.fault(word.column + word.bytes.len(), "a hexadecimal digit is missing: two make a byte".into())
            );
        }
        out.extend((0..word.bytes.len() / 2).filter_map(|k| Some(digit(2 * k)? * 16 + digit(2 * k + 1)?)));
        Ok(())
    }

    fn all(mut self, out: &mut Vec<u8>) -> Result<(), Fault> {
        let Some(first) = self.words.next() else {
            return Ok(());
        };
        match SHAPES.iter().find(|shape| shape.mark.as_bytes() == first.bytes) {
            Some(shape) => self.record(shape, out)?,
            None if first.bytes == b"bytes" => self.bytes(out)?,
            None => {
                let words = format!("{} is none of Vt, Rt, Bk, Op, Pv, Pc and bytes", shown(first.bytes));
                return Err(self.fault(first.column, words));
            }
        }
        match self.words.next() {
            None => Ok(()),
            Some(more) => {
                Err(self.fault(more.column, format!("the record is whole, and {} is here", shown(more.bytes))))
            }
        }
    }
}

/// The journal that some lines stand for.
pub fn journal(text: &[u8]) -> Result<Vec<u8>, Fault> {
    let mut out = Vec::new();
    for (k, line) in text.split(|byte| *byte == b'\n').enumerate() {
        let (words, end) = words(line);
        Line { words: words.into_iter(), end, at: k + 1 }.all(&mut out)?;
    }
    Ok(out)
}
