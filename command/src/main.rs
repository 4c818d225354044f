//! `beamtassel`: what a desk's journal tells, for people. The counting is the proved library's; here is reading, words and writing.
#![no_main]

mod help;
mod input;
mod output;
mod system;
mod text;
mod views;

use beamtassel::{Refusal, Report};
use help::Command;
use input::Source;
use output::{complain, Colour, Output};
use std::ffi::{c_char, c_int, CStr, OsStr, OsString};
use std::io;
use std::os::unix::ffi::OsStrExt;

/// What the command ends with, the gravest of what happened.
#[derive(Clone, Copy, PartialEq, PartialOrd)]
enum Status {
    Told = 0,
    Refused = 1,
    Usage = 2,
    NotRead = 3,
    NotWritten = 4,
}

fn graver(a: Status, b: Status) -> Status {
    if a < b {
        b
    } else {
        a
    }
}

/// What was asked for.
struct Asked {
    command: Command,
    colour: Colour,
    names: bool,
    sort_blocks: bool,
    sources: Vec<Source>,
}

enum Arguments {
    Asked(Asked),
    Help(Option<Command>),
    Version,
}

fn arguments(words: &[OsString]) -> Result<Arguments, (Option<Command>, String)> {
    let (mut command, mut colour, mut sources) = (None, Colour::Auto, Vec::new());
    let (mut names, mut sort_blocks) = (false, false);
    let mut inputs = 0;
    let mut options = true;
    let mut words = words.iter();
    while let Some(word) = words.next() {
        let text = word.to_string_lossy();
        if options && text.starts_with('-') && text != "-" {
            let (option, value) = match text.split_once('=') {
                Some((option, value)) => (option, Some(value.to_owned())),
                None => (&*text, None),
            };
            match (option, value) {
                ("--", None) => options = false,
                ("-h" | "--help", None) => return Ok(Arguments::Help(command)),
                ("-V" | "--version", None) => return Ok(Arguments::Version),
                ("--names", None) if command == Some(Command::Replay) => names = true,
                ("--sort-blocks", None) if command == Some(Command::Text) => sort_blocks = true,
                ("--color" | "--colour", value) => {
                    let value = value.or_else(|| words.next().map(|next| next.to_string_lossy().into_owned()));
                    colour = match value.as_deref() {
                        Some("auto") => Colour::Auto,
                        Some("always") => Colour::Always,
                        Some("never") => Colour::Never,
                        _ => return Err((command, format!("{option} takes auto, always or never"))),
                    };
                }
                _ => return Err((command, format!("no option {text}"))),
            }
        } else if command.is_none() {
            command = Some(Command::named(word).ok_or_else(|| (None, format!("no command '{text}'")))?);
        } else {
            inputs += usize::from(word == OsStr::new("-"));
            sources.push(Source::named(word));
        }
    }
    let Some(command) = command else {
        return Err((None, "a command is due".into()));
    };
    if inputs > 1 {
        return Err((Some(command), "standard input can be read once only".into()));
    }
    let (least, most) = command.files();
    if sources.len() < least || most < sources.len() {
        return Err((Some(command), command.wants().into()));
    }
    Ok(Arguments::Asked(Asked { command, colour, names, sort_blocks, sources }))
}

/// A journal's bytes, or the status that stands for them. The replay of a journal that was refused is over, so no more of it is read.
fn journal(source: &Source) -> Result<Vec<u8>, Status> {
    whole(source, |bytes| matches!(beamtassel::replay(bytes), Report::Refused { .. }))
}

fn whole(source: &Source, enough: impl Fn(&[u8]) -> bool) -> Result<Vec<u8>, Status> {
    source.read(enough).map_err(|error| {
        complain(&format!("{source}: {error}"));
        Status::NotRead
    })
}

fn written(result: io::Result<()>, told: Status) -> Status {
    match result {
        Ok(()) => told,
        Err(error) => {
            complain(&format!("standard output: {error}"));
            Status::NotWritten
        }
    }
}

/// Words for a journal that was refused at a record.
fn refused(source: &Source, bytes: &[u8], refusal: Refusal, record: u64) -> Status {
    let place = match text::record(bytes, record) {
        Some((at, line)) => format!(" ({line}, at byte {at})"),
        None => String::new(),
    };
    complain(&format!("{source}: record {record}{place}: {refusal}"));
    Status::Refused
}

fn replay(source: &Source, output: &Output) -> Result<Status, Status> {
    let bytes = journal(source)?;
    let told = match beamtassel::replay(&bytes) {
        Report::Refused { .. } => Status::Refused,
        _ => Status::Told,
    };
    let status = written(output.lines(&beamtassel::lines(&bytes)), told);
    if let Report::Refused { refusal, record } = beamtassel::replay(&bytes) {
        refused(source, &bytes, refusal, record);
    }
    Ok(status)
}

/// Words for a refusal of a call: the journal's own at its record, or the call's.
fn call_refused(source: &Source, bytes: &[u8], refusal: Refusal) -> Status {
    match beamtassel::replay(bytes) {
        Report::Refused { refusal, record } => refused(source, bytes, refusal, record),
        Report::NoRound { .. } => {
            complain(&format!("{source}: {refusal}: the journal ends before its round is opened"));
            Status::Refused
        }
        Report::Round(_) => {
            complain(&format!("{source}: {refusal}"));
            Status::Refused
        }
    }
}

fn finalizing(source: &Source, output: &Output) -> Result<Status, Status> {
    let bytes = journal(source)?;
    match beamtassel::finalizing(&bytes) {
        Err(refusal) => Ok(call_refused(source, &bytes, refusal)),
        Ok(records) => Ok(written(text::lines(&records, |lines| output.lines(lines)), Status::Told)),
    }
}

fn two_views(first: &Source, second: &Source, output: &Output) -> Result<Status, Status> {
    let (a, b) = (journal(first)?, journal(second)?);
    match beamtassel::two_views(&a, &b) {
        Ok(weight) => Ok(written(output.lines(&format!("differing {weight}\n")), Status::Told)),
        Err(Refusal::NOT_ONE_ROUND) => {
            let why = views::apart(&a, &b).map_or(String::new(), |why| format!(": {why}"));
            complain(&format!("{first} and {second}: {}{why}", Refusal::NOT_ONE_ROUND));
            Ok(Status::Refused)
        }
        Err(refusal) => match beamtassel::replay(&a) {
            Report::Refused { .. } => Ok(call_refused(first, &a, refusal)),
            _ => Ok(call_refused(second, &b, refusal)),
        },
    }
}

fn to_text(source: &Source, output: &Output, sort_blocks: bool) -> Result<Status, Status> {
    let mut bytes = whole(source, |_| false)?;
    if sort_blocks {
        if let Report::Refused { refusal, record } = beamtassel::replay(&bytes) {
            return Ok(refused(source, &bytes, refusal, record));
        }
        bytes = views::in_one_order(&bytes);
    }
    Ok(written(text::lines(&bytes, |lines| output.lines(lines)), Status::Told))
}

fn to_bytes(source: &Source, output: &Output) -> Result<Status, Status> {
    let lines = whole(source, |_| false)?;
    match text::journal(&lines) {
        Ok(journal) => Ok(written(output.put(&journal), Status::Told)),
        Err(fault) => {
            complain(&format!("{source}:{}:{}: {}", fault.line, fault.column, fault.words));
            Ok(Status::Refused)
        }
    }
}

/// One file after the other; one that is not read does not keep the others from being told, an output that is not written does.
fn each(asked: &Asked, output: &Output, tell: impl Fn(&Source, &Output) -> Result<Status, Status>) -> Status {
    let named = asked.names || output.terminal && asked.sources.len() > 1;
    let mut status = Status::Told;
    for source in &asked.sources {
        if named {
            status = graver(status, written(output.lines(&format!("{source}:\n")), Status::Told));
        }
        if status == Status::NotWritten {
            return status;
        }
        let (Ok(next) | Err(next)) = tell(source, output);
        status = graver(status, next);
    }
    status
}

fn run(words: &[OsString]) -> Status {
    let asked = match arguments(words) {
        Ok(Arguments::Asked(asked)) => asked,
        Ok(Arguments::Help(command)) => {
            return written(Output::new(Colour::Never).put(help::of(command).as_bytes()), Status::Told)
        }
        Ok(Arguments::Version) => {
            return written(Output::new(Colour::Never).put(help::version().as_bytes()), Status::Told)
        }
        Err((command, why)) => {
            complain(&format!("{why}\n{}", help::usage(command)));
            return Status::Usage;
        }
    };
    let output = Output::new(asked.colour);
    match asked.command {
        Command::Replay => each(&asked, &output, replay),
        Command::Finalizing => each(&asked, &output, finalizing),
        Command::Text => each(&asked, &output, |source, output| to_text(source, output, asked.sort_blocks)),
        Command::Bytes => each(&asked, &output, to_bytes),
        Command::TwoViews => {
            let (Ok(status) | Err(status)) = two_views(&asked.sources[0], &asked.sources[1], &output);
            status
        }
    }
}

/// Called by the C library's start-up, so that closed descriptors are seen as such (see `system`).
///
/// # Safety
/// `words` points to `count` pointers, each to text that ends in 0 and stays, as C's start-up passes them.
#[no_mangle]
pub unsafe extern "C" fn main(count: c_int, words: *const *const c_char) -> c_int {
    system::begin();
    let words: Vec<OsString> = (1..usize::try_from(count).unwrap_or(0))
        .map(|k| {
            // SAFETY: as above.
            let word = unsafe { CStr::from_ptr(*words.add(k)) };
            OsStr::from_bytes(word.to_bytes()).to_owned()
        })
        .collect();
    run(&words) as c_int
}
