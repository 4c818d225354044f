//! Times Beamtassel's static library beside the Rust, both in this program, on the same journals.
//! bench/run builds and starts it.

#[allow(dead_code)]
#[path = "../oracle/tools/generate.rs"]
mod generate;
#[allow(dead_code)]
#[path = "../oracle/tools/journal.rs"]
mod journal;
mod journals;

use finality_grandpa::driver::bench::{replay as rust_replay, Numbers};
use journals::Case;
use std::hint::black_box;
use std::time::{Duration, Instant};

extern "C" {
    fn beamtassel_replay(journal: *const u8, size: usize, out: *mut u8, room: usize) -> u64;
    #[cfg(imports)]
    fn beamtassel_imports(journal: *const u8, size: usize, opened: usize) -> u64;
}

/// Who does the work of one timed call.
#[derive(Clone, Copy, PartialEq)]
enum Side {
    /// A replay by the library.
    Ours,
    /// A replay by the Rust.
    Rust,
    /// Replay to the Op, then each vote by the tested public call.
    Tested,
}

fn ours(journal: &[u8]) -> (u64, [u8; 176]) {
    let mut out = [0; 176];
    let said = unsafe { beamtassel_replay(journal.as_ptr(), journal.len(), out.as_mut_ptr(), out.len()) };
    (said, out)
}

#[cfg(imports)]
fn tested(journal: &[u8], opened: usize) -> u64 {
    unsafe { beamtassel_imports(journal.as_ptr(), journal.len(), opened) }
}

#[cfg(not(imports))]
fn tested(_: &[u8], _: usize) -> u64 {
    panic!("built without the tested imports: bench/run --imports ARCHIVE")
}

/// One call. It has a name of its own, so that callgrind can be told to count it alone.
#[no_mangle]
#[inline(never)]
fn bench_counted(side: Side, journal: &[u8], opened: usize) {
    match side {
        Side::Ours => {
            black_box(ours(black_box(journal)));
        }
        Side::Rust => {
            let mut numbers = [0; 22];
            rust_replay(black_box(journal), &mut numbers);
            black_box(&numbers);
        }
        Side::Tested => {
            black_box(tested(black_box(journal), opened));
        }
    }
}

/// Both sides must tell the same, or their times say nothing.
fn compare(case: &Case) {
    let (said, out) = ours(&case.journal);
    assert_eq!(said, 176, "{}: the library refused the call", case.name);
    let mut here: Numbers = [0; 22];
    for (at, number) in here.iter_mut().enumerate() {
        *number = u64::from_le_bytes(out[8 * at..8 * at + 8].try_into().unwrap());
    }
    let mut there: Numbers = [0; 22];
    rust_replay(&case.journal, &mut there);
    assert_eq!(here, there, "{}: the library and the Rust differ", case.name);
}

/// A call to be timed: its side, and the part of the journal that it gets.
struct Call<'a> {
    side: Side,
    journal: &'a [u8],
    opened: usize,
    best: f64,
    batch: u32,
}

impl<'a> Call<'a> {
    fn whole(side: Side, case: &'a Case) -> Self {
        Call { side, journal: &case.journal, opened: case.opened, best: f64::INFINITY, batch: 1 }
    }
    fn cut(side: Side, case: &'a Case) -> Self {
        Call { journal: &case.journal[..case.opened], ..Call::whole(side, case) }
    }
    fn batch(&self) -> Duration {
        let start = Instant::now();
        for _ in 0..self.batch {
            bench_counted(self.side, self.journal, self.opened);
        }
        start.elapsed()
    }
}

/// So many passes over all journals, so that one that falls into a busy second is timed again in others.
const PASSES: u32 = 10;

/// Nanoseconds a call, the best of so many batches each. The calls for a journal take turns, so that a busy machine is
/// busy for all of them.
fn time<const N: usize>(groups: Vec<[Call; N]>, rounds: u32) -> Vec<[f64; N]> {
    let mut groups = groups;
    for call in groups.iter_mut().flatten() {
        while call.batch() < Duration::from_micros(200) {
            call.batch *= 2;
        }
    }
    for _ in 0..PASSES {
        for group in &mut groups {
            for _ in 0..rounds.div_ceil(PASSES) {
                for call in group.iter_mut() {
                    let took = call.batch().as_nanos() as f64 / call.batch as f64;
                    call.best = call.best.min(took);
                }
            }
        }
    }
    groups.into_iter().map(|group| group.map(|call| call.best)).collect()
}

/// A table as text, or as markdown.
struct Table {
    markdown: bool,
    rows: Vec<Vec<String>>,
}

impl Table {
    fn new(markdown: bool, head: &[&str]) -> Self {
        Table { markdown, rows: vec![head.iter().map(|s| s.to_string()).collect()] }
    }
    fn row(&mut self, cells: Vec<String>) {
        self.rows.push(cells);
    }
    /// Nothing where no row was wanted.
    fn print(&self) {
        if self.rows.len() == 1 {
            return;
        }
        let widths: Vec<usize> =
            (0..self.rows[0].len()).map(|at| self.rows.iter().map(|row| row[at].len()).max().unwrap()).collect();
        for (n, row) in self.rows.iter().enumerate() {
            if self.markdown {
                println!("| {} |", row.join(" | "));
                if n == 0 {
                    println!("|{}", "---|".repeat(row.len()));
                }
                continue;
            }
            let cells: Vec<String> = row
                .iter()
                .enumerate()
                .map(|(at, cell)| {
                    let width = widths[at];
                    if at == 0 {
                        format!("{cell:<width$}")
                    } else {
                        format!("{cell:>width$}")
                    }
                })
                .collect();
            println!("{}", cells.join("  "));
        }
        println!();
    }
}

fn per(ns: f64, votes: usize) -> String {
    if votes == 0 {
        return String::from("-");
    }
    format!("{:.0}", ns / votes as f64)
}

struct Settings {
    markdown: bool,
    rounds: u32,
    only: Option<String>,
}

impl Settings {
    fn wanted(&self, mut cases: Vec<Case>) -> Vec<Case> {
        if let Some(name) = &self.only {
            cases.retain(|case| case.name.contains(name.as_str()));
        }
        cases
    }
}

/// The journals whose replays are timed.
fn all() -> Vec<Case> {
    journals::replays().into_iter().chain(journals::voteless()).collect()
}

fn both(case: &Case) -> [Call<'_>; 2] {
    [Call::whole(Side::Ours, case), Call::whole(Side::Rust, case)]
}

/// The whole journal, and what comes before its first vote.
fn parts(side: Side, case: &Case) -> [Call<'_>; 2] {
    [Call::whole(side, case), Call::cut(side, case)]
}

fn replays(settings: &Settings) {
    let head = ["journal", "votes", "ours, ns a replay", "Rust", "ours, ns a vote", "Rust", "times as fast"];
    let mut table = Table::new(settings.markdown, &head);
    let cases = settings.wanted(all());
    cases.iter().for_each(compare);
    let times = time(cases.iter().map(both).collect(), settings.rounds);
    let (mut logs, mut count, mut slower) = (0.0, 0, Vec::new());
    for (case, [here, there]) in cases.iter().zip(times) {
        let ratio = there / here;
        // The mean is of journals with votes.
        if case.votes > 0 {
            logs += ratio.ln();
            count += 1;
        }
        if ratio < 1.0 {
            slower.push(format!("{} ({ratio:.2})", case.name));
        }
        table.row(vec![
            case.name.clone(),
            case.votes.to_string(),
            format!("{here:.0}"),
            format!("{there:.0}"),
            per(here, case.votes),
            per(there, case.votes),
            format!("{ratio:.2}"),
        ]);
    }
    table.print();
    if count > 0 {
        let mean = f64::exp(logs / count as f64);
        println!("Geometric mean of the {count} journals with votes: {mean:.2} times as fast (goal: 4).\n");
    }
    if !slower.is_empty() {
        println!("Slower than the Rust on {} of {} (goal: none): {}.\n", slower.len(), cases.len(), slower.join(", "));
    } else if !cases.is_empty() {
        println!("Slower than the Rust on none of {} (goal: none).\n", cases.len());
    }
}

fn imports(settings: &Settings) {
    if !cfg!(imports) {
        println!("Tested imports: not linked (bench/run --imports ARCHIVE).\n");
        return;
    }
    let head = ["tested import at", "votes", "ours, ns an import", "Rust, untested", "ours to the Rust"];
    let mut table = Table::new(settings.markdown, &head);
    let cases = settings.wanted(journals::imports());
    for case in &cases {
        assert_eq!(tested(&case.journal, case.opened), case.votes as u64, "{}: an import was refused", case.name);
    }
    let four = |case| {
        let [whole, cut] = parts(Side::Tested, case);
        let [rust, short] = parts(Side::Rust, case);
        [whole, cut, rust, short]
    };
    let times = time(cases.iter().map(four).collect(), settings.rounds);
    let mut worst = (0.0, "");
    for (case, [whole, cut, rust, short]) in cases.iter().zip(times) {
        let votes = case.votes as f64;
        let (here, there) = ((whole - cut) / votes, (rust - short) / votes);
        if here / there > worst.0 {
            worst = (here / there, &case.name);
        }
        table.row(vec![
            case.name.clone(),
            case.votes.to_string(),
            format!("{here:.0}"),
            format!("{there:.0}"),
            format!("{:.2}", here / there),
        ]);
    }
    table.print();
    if worst.0 > 0.0 {
        println!("At most {:.2} times the Rust's import (goal: 2.5), with {}.\n", worst.0, worst.1);
    }
}

fn sweeps(settings: &Settings) {
    for (name, cases) in journals::sweeps() {
        let head =
            [name, "votes", "ours, ns a replay", "ours, ns a vote", "Rust", "times as fast", "tested, ns an import"];
        let mut table = Table::new(settings.markdown, &head);
        cases.iter().for_each(compare);
        let times = time(cases.iter().map(both).collect(), settings.rounds);
        let tested: Vec<String> = if cfg!(imports) {
            let two = |case| parts(Side::Tested, case);
            let times = time(cases.iter().map(two).collect(), settings.rounds);
            cases.iter().zip(times).map(|(case, [whole, cut])| per(whole - cut, case.votes)).collect()
        } else {
            vec![String::from("-"); cases.len()]
        };
        for ((case, [here, there]), tested) in cases.iter().zip(times).zip(tested) {
            table.row(vec![
                case.name.clone(),
                case.votes.to_string(),
                format!("{here:.0}"),
                per(here, case.votes),
                per(there, case.votes),
                format!("{:.2}", there / here),
                tested,
            ]);
        }
        table.print();
    }
}

/// One call a case, in the order of `names`: callgrind counts each `bench_counted` by itself.
fn count(side: Side, cases: &[Case], cut: bool) {
    for case in cases {
        let call = if cut { Call::cut(side, case) } else { Call::whole(side, case) };
        bench_counted(call.side, call.journal, call.opened);
    }
}

/// How far down the stack a call goes, in bytes.
fn stack(side: Side, case: &Case) -> usize {
    const ROOM: usize = 1 << 20;
    let (journal, opened) = (case.journal.clone(), case.opened);
    let run = move || {
        let top: usize;
        unsafe { std::arch::asm!("mov {}, rsp", out(reg) top) };
        // Below what this function and the painting itself use.
        let from = top - 4096;
        for at in (from - ROOM..from).step_by(8) {
            unsafe { (at as *mut u64).write_volatile(PAINT) };
        }
        bench_counted(side, &journal, opened);
        let low = (from - ROOM..from).step_by(8).find(|&at| unsafe { (at as *const u64).read_volatile() } != PAINT);
        top - low.unwrap_or(from)
    };
    std::thread::Builder::new().stack_size(4 << 20).spawn(run).unwrap().join().unwrap()
}

fn stacks(settings: &Settings) {
    let head = ["stack of a call, bytes", "replay", "tested imports", "Rust's replay"];
    let mut table = Table::new(settings.markdown, &head);
    for case in journals::imports().iter().chain(&journals::voteless()) {
        let import = if cfg!(imports) { stack(Side::Tested, case).to_string() } else { String::from("-") };
        let both = [Side::Ours, Side::Rust].map(|side| stack(side, case).to_string());
        let [here, there] = both;
        table.row(vec![case.name.clone(), here, import, there]);
    }
    table.print();
}

/// What the stack is painted with, to see how far down a call writes.
const PAINT: u64 = 0x5A5A_5A5A_A5A5_A5A5;

const USAGE: &str = "driver time | imports | sweeps | stacks | names | import-names | compare
       driver count SIDE, driver count-imports SIDE whole|cut    (under callgrind)
       driver only SIDE CASE N
       SIDE is ours, rust or tested; --markdown, --rounds N, --only NAME go with time, imports, sweeps";

fn side(word: Option<&String>) -> Side {
    match word.map(String::as_str) {
        Some("ours") => Side::Ours,
        Some("rust") => Side::Rust,
        Some("tested") => Side::Tested,
        _ => stop(),
    }
}

fn stop() -> ! {
    eprintln!("usage: {USAGE}");
    std::process::exit(2)
}

fn main() {
    let mut words: Vec<String> = Vec::new();
    let mut settings = Settings { markdown: false, rounds: 100, only: None };
    let mut given = std::env::args().skip(1);
    while let Some(word) = given.next() {
        match word.as_str() {
            "--markdown" => settings.markdown = true,
            "--rounds" => settings.rounds = given.next().and_then(|n| n.parse().ok()).unwrap_or_else(|| stop()),
            "--only" => settings.only = Some(given.next().unwrap_or_else(|| stop())),
            _ => words.push(word),
        }
    }
    match words.first().map(String::as_str) {
        Some("time") => replays(&settings),
        Some("imports") => imports(&settings),
        Some("sweeps") => sweeps(&settings),
        Some("stacks") => stacks(&settings),
        Some("names") => all().iter().for_each(|case| println!("{}\t{}", case.votes, case.name)),
        Some("import-names") => journals::imports().iter().for_each(|case| println!("{}\t{}", case.votes, case.name)),
        Some("compare") => all().iter().for_each(compare),
        Some("count") => count(side(words.get(1)), &all(), false),
        Some("count-imports") => {
            count(side(words.get(1)), &journals::imports(), words.get(2).is_some_and(|word| word == "cut"))
        }
        Some("only") => {
            let cases: Vec<Case> = all().into_iter().chain(journals::imports()).collect();
            let case =
                words.get(2).and_then(|name| cases.iter().find(|case| case.name == *name)).unwrap_or_else(|| stop());
            let times: u32 = words.get(3).and_then(|n| n.parse().ok()).unwrap_or_else(|| stop());
            for _ in 0..times {
                bench_counted(side(words.get(1)), &case.journal, case.opened);
            }
        }
        _ => stop(),
    }
}
