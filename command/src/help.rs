//! The commands, and their words for `--help`.
use std::ffi::OsStr;

#[derive(Clone, Copy, PartialEq)]
pub enum Command {
    Replay,
    Finalizing,
    TwoViews,
    Text,
    Bytes,
}

const ALL: [Command; 5] = [Command::Replay, Command::Finalizing, Command::TwoViews, Command::Text, Command::Bytes];

impl Command {
    pub fn named(name: &OsStr) -> Option<Command> {
        ALL.into_iter().find(|command| name == command.name())
    }

    fn name(self) -> &'static str {
        match self {
            Command::Replay => "replay",
            Command::Finalizing => "finalizing",
            Command::TwoViews => "two-views",
            Command::Text => "text",
            Command::Bytes => "bytes",
        }
    }

    /// The least and the most files that it takes.
    pub fn files(self) -> (usize, usize) {
        match self {
            Command::Replay => (1, usize::MAX),
            Command::TwoViews => (2, 2),
            Command::Finalizing | Command::Text | Command::Bytes => (1, 1),
        }
    }

    pub fn wants(self) -> &'static str {
        match self {
            Command::Replay => "replay takes one journal or more; - is standard input",
            Command::TwoViews => "two-views takes two journals; - is standard input",
            Command::Finalizing => "finalizing takes one journal; - is standard input",
            Command::Text => "text takes one journal; - is standard input",
            Command::Bytes => "bytes takes one text; - is standard input",
        }
    }

    fn usage(self) -> &'static str {
        match self {
            Command::Replay => "beamtassel replay [--names] [--color WHEN] FILE..",
            Command::Finalizing => "beamtassel finalizing [--color WHEN] FILE",
            Command::TwoViews => "beamtassel two-views [--color WHEN] A B",
            Command::Text => "beamtassel text [--sort-blocks] [--color WHEN] FILE",
            Command::Bytes => "beamtassel bytes FILE",
        }
    }

    fn about(self) -> &'static str {
        match self {
            Command::Replay => {
                "Replays journals and tells what a desk knew at the end of each: round, weights heard, prevote-GHOST,\n\
                 estimate, final block, whether the next round may begin, and the bytes of a record that was cut off.\n\
                 A journal that is refused is told as `refused N at K`, with words on standard error.\n\
                 With several files on a terminal, or with --names, each begins with its name.\n"
            }
            Command::Finalizing => {
                "Prints the precommits that make a journal's block final, one line each, as `beamtassel text` writes them.\n\
                 Refused with 15 where nothing is final.\n"
            }
            Command::TwoViews => {
                "Compares the precommits in two journals of one round and prints `differing W`: the two-view sum of\n\
                 docs/RULES.md, \"Two views\", in weight. Refused with 16 where the two are not of one round, also where they\n\
                 learned the same blocks in another order; the words on standard error say what differs, and\n\
                 `beamtassel text --sort-blocks` gives both one order.\n"
            }
            Command::Text => {
                "Prints a journal as text, one line a record, and bytes that are no record in hexadecimal. `beamtassel bytes`\n\
                 turns it back into the same bytes. With --sort-blocks the blocks of a journal that is not refused come right after\n\
                 the root, by number and then by id, so that two desks that learned them in another order can be compared.\n"
            }
            Command::Bytes => {
                "Turns text into a journal, and writes nothing where a line is wrong. Lines, in any order that a journal may have:\n\
                 \n\
                 \x20 Vt VOTER weight WEIGHT\n\
                 \x20 Rt BLOCK number NUMBER\n\
                 \x20 Bk BLOCK under PARENT\n\
                 \x20 Op ROUND base BLOCK\n\
                 \x20 Pv VOTER for BLOCK number NUMBER signature SIGNATURE\n\
                 \x20 Pc VOTER for BLOCK number NUMBER signature SIGNATURE\n\
                 \x20 bytes HEXADECIMAL\n\
                 \n\
                 # starts a comment. docs/RULES.md says what the records mean.\n"
            }
        }
    }
}

const OPTIONS: &str = "\
Options:
  --color WHEN    colour: auto (on a terminal, the default), always or never
  --names         print each file's name before what it tells (replay)
  --sort-blocks   print the blocks in one order (text)
  -h, --help      print this
  -V, --version   print the version

Status: 0 told, 1 refused, 2 wrong usage, 3 input not read, 4 output not written.
";

pub fn of(command: Option<Command>) -> String {
    match command {
        Some(command) => format!("Usage: {}\n\n{}\n{OPTIONS}", command.usage(), command.about()),
        None => {
            let commands: String = ALL.iter().map(|command| format!("  {}\n", command.usage())).collect();
            format!(
                "Usage:\n{commands}\nReplays, reads and writes a desk's journal; FILE may be - for standard input.\n\
                 `beamtassel COMMAND --help` says more of each.\n\n{OPTIONS}"
            )
        }
    }
}

pub fn usage(command: Option<Command>) -> String {
    match command {
        Some(command) => format!("usage: {}", command.usage()),
        None => "usage: beamtassel COMMAND FILE..; `beamtassel --help` lists the commands".into(),
    }
}

/// The command's version and the library's, which it was linked with.
pub fn version() -> String {
    format!("beamtassel {} (library {})\n", env!("CARGO_PKG_VERSION"), beamtassel::version())
}
