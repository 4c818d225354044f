//! The oracle's tools: journals, comparison, definitions, recording. Scripts in oracle/ call them.

/// A line on standard output; a reader that has gone away is no reason to panic.
macro_rules! say {
    ($($words:tt)*) => {{
        use std::io::Write;
        let _ = writeln!(std::io::stdout(), $($words)*);
    }};
}

mod definitions;
mod generate;
mod journal;
mod record;
mod runner;

use generate::{CLASSES, LONG};
use journal::{case_j, hex, text, Record::*};
use runner::{shrink, Runner};
use std::{
    io::{Read, Write},
    process::exit,
    time::Instant,
};

/// Journals of one run, in batches.
struct Source {
    classes: Vec<String>,
    seed: u64,
    count: u64,
    tiny: Option<(usize, usize)>,
    totals: bool,
}

const BATCH: usize = 2000;

impl Source {
    /// Calls `each` with batches and the number of the first journal, until it says stop.
    fn batches(&self, mut each: impl FnMut(u64, Vec<Vec<u8>>) -> bool) {
        if self.totals {
            each(0, generate::totals());
            return;
        }
        if let Some((blocks, length)) = self.tiny {
            let (mut batch, mut first, mut go) = (Vec::new(), 0, true);
            generate::tiny(blocks, length, |journal| {
                if go {
                    batch.push(journal.to_vec());
                }
                if batch.len() == BATCH {
                    go = each(first, std::mem::take(&mut batch));
                    first += BATCH as u64;
                }
            });
            if go && !batch.is_empty() {
                each(first, batch);
            }
            return;
        }
        let mut first = 0;
        let size = if self.classes.iter().any(|c| c == LONG) { 10 } else { BATCH as u64 };
        while first < self.count {
            let last = self.count.min(first + size);
            let batch = (first..last).map(|i| self.journal(i)).collect();
            if !each(first, batch) {
                return;
            }
            first = last;
        }
    }
    fn class(&self, index: u64) -> &str {
        &self.classes[(index % self.classes.len() as u64) as usize]
    }
    fn journal(&self, index: u64) -> Vec<u8> {
        generate::journal(self.class(index), self.seed, index / self.classes.len() as u64)
    }
    fn name(&self, index: u64) -> String {
        match self.tiny {
            _ if self.totals => format!("journal {index} of the totals"),
            Some((blocks, length)) => format!("tiny journal {index} of {blocks} blocks and {length} votes"),
            None => format!(
                "journal {index} (class {}, seed {}, index {})",
                self.class(index),
                self.seed,
                index / self.classes.len() as u64
            ),
        }
    }
}

/// The options, and what is left after them.
struct Options {
    source: Source,
    oracle: String,
    telling: Vec<String>,
    piped: bool,
    fault: String,
    bite: bool,
    keep: Option<String>,
    rest: Vec<String>,
}

fn usage() -> ! {
    eprintln!(
        "usage: journals [--class C] [--seed S] [--count N] [--tiny BLOCKS LENGTH | --totals]
       compare [the same] [--answers | --trace | --trace-every N] [--pipe] [--keep FILE] PROGRAM [WORDS]
       definitions [the same as journals] [--fault NAME] | definitions --bite
       faults ORACLE-FAULTY LIST
       numbers
       show --class C --seed S --count INDEX | text | classes | case-j
       record ORACLE-FAULTY LIST FOLDER
--oracle FILE names the judge. Classes: {} and, by name only, {LONG}",
        CLASSES.join(" ")
    );
    exit(2)
}

fn options(words: &[String]) -> Options {
    let mut out = Options {
        source: Source {
            classes: CLASSES.iter().map(|c| c.to_string()).collect(),
            seed: 1,
            count: 100_000,
            tiny: None,
            totals: false,
        },
        oracle: "oracle/out/oracle".into(),
        telling: Vec::new(),
        piped: false,
        fault: String::new(),
        bite: false,
        keep: None,
        rest: Vec::new(),
    };
    let mut words = words.iter().cloned();
    while let Some(word) = words.next() {
        let mut value = || words.next().unwrap_or_else(|| usage());
        match word.as_str() {
            "--class" => {
                out.source.classes = value().split(',').map(|c| c.to_string()).collect();
                if !out.source.classes.iter().all(|c| CLASSES.contains(&c.as_str()) || c == LONG) {
                    usage();
                }
            }
            "--seed" => out.source.seed = value().parse().unwrap_or_else(|_| usage()),
            "--count" => out.source.count = value().parse().unwrap_or_else(|_| usage()),
            "--tiny" => {
                let mut number = || value().parse().unwrap_or_else(|_| usage());
                out.source.tiny = Some((number(), number()));
            }
            "--totals" => out.source.totals = true,
            "--oracle" => out.oracle = value(),
            "--answers" | "--trace" => out.telling = vec![word],
            "--trace-every" => out.telling = vec![word, value()],
            "--pipe" => out.piped = true,
            "--fault" => out.fault = value(),
            "--bite" => out.bite = true,
            "--keep" => out.keep = Some(value()),
            _ => {
                out.rest = std::iter::once(word).chain(words).collect();
                break;
            }
        }
    }
    out
}

impl Options {
    fn judge(&self) -> Runner {
        let words = [vec![self.oracle.clone(), "--pipe".into()], self.telling.clone()].concat();
        Runner { words, piped: true }
    }
}

fn frame(out: &mut impl Write, bytes: &[u8]) {
    let _ = out.write_all(&(bytes.len() as u32).to_le_bytes());
    let _ = out.write_all(bytes);
}

fn journals(o: &Options) {
    let mut out = std::io::BufWriter::new(std::io::stdout().lock());
    o.source.batches(|_, batch| {
        batch.iter().for_each(|j| frame(&mut out, j));
        true
    });
}

/// Both sides at once, each on its own core.
fn run_both(a: &Runner, b: &Runner, journals: &[Vec<u8>]) -> (Vec<Vec<u8>>, Vec<Vec<u8>>) {
    std::thread::scope(|scope| {
        let first = scope.spawn(|| a.run(journals));
        let second = b.run(journals);
        (first.join().unwrap(), second)
    })
}

fn compare(o: &Options) {
    if o.rest.is_empty() {
        usage();
    }
    let (judge, program) = (o.judge(), Runner { words: o.rest.clone(), piped: o.piped });
    let start = Instant::now();
    let (mut equal, mut size, mut found) = (0u64, 0u64, None);
    let mut seen = std::collections::BTreeMap::<String, u64>::new();
    o.source.batches(|first, batch| {
        let (right, given) = run_both(&judge, &program, &batch);
        for (i, journal) in batch.iter().enumerate() {
            if right[i] != given[i] {
                found = Some((first + i as u64, journal.clone()));
                return false;
            }
            equal += 1;
            size += journal.len() as u64;
            let last = String::from_utf8_lossy(&right[i]);
            let last = last
                .lines()
                .rev()
                .find(|l| l.starts_with("refused") || l.starts_with("no round") || l.starts_with("ghost"));
            let kind = match last.map(|l| l.split(' ').collect::<Vec<_>>()).as_deref() {
                Some(["refused", n, ..]) => format!("refused {n:>2}"),
                Some(["no", ..]) => "no round".to_string(),
                Some(["ghost", "none"]) => "round, no GHOST".to_string(),
                Some(["ghost", ..]) => "round with a GHOST".to_string(),
                _ => "other".to_string(),
            };
            *seen.entry(kind).or_default() += 1;
        }
        true
    });
    let took = start.elapsed().as_secs_f64();
    let Some((index, journal)) = found else {
        say!("{equal} journals, {size} bytes, no difference, {took:.1} s");
        for (kind, count) in seen {
            say!("{count:9} {kind}");
        }
        return;
    };
    say!("{}: different, after {equal} equal ones", o.source.name(index));
    let small = shrink(&journal, &|candidates: &[Vec<u8>]| {
        let (right, given) = run_both(&judge, &program, candidates);
        right.iter().zip(&given).map(|(a, b)| a != b).collect()
    });
    let (right, given) = run_both(&judge, &program, std::slice::from_ref(&small));
    say!("shrunk from {} bytes to {}:\n{}bytes {}", journal.len(), small.len(), text(&small), hex(&small));
    say!("the judge:\n{}", String::from_utf8_lossy(&right[0]));
    say!("{}:\n{}", o.rest[0], String::from_utf8_lossy(&given[0]));
    if let Some(file) = &o.keep {
        std::fs::write(file, &small).unwrap_or_else(|e| eprintln!("{file}: {e}"));
    }
    exit(1);
}

/// Holds the judge against the definitions; the first difference, if any.
fn defined(o: &Options, fault: &str, counts: &mut definitions::Counts) -> Option<(u64, Vec<u8>, String)> {
    let judge = Runner { words: vec![o.oracle.clone(), "--pipe".into(), "--trace".into()], piped: true };
    let mut found = None;
    o.source.batches(|first, batch| {
        let traces = judge.run(&batch);
        // Two cores: each half of the batch on its own, the counts joined after.
        let half = batch.len().div_ceil(2);
        let results = std::thread::scope(|scope| {
            let parts: Vec<_> = batch
                .chunks(half)
                .zip(traces.chunks(half))
                .map(|(journals, traces)| {
                    scope.spawn(move || {
                        let mut counts = definitions::Counts::default();
                        let bad = journals.iter().zip(traces).enumerate().find_map(|(i, (journal, trace))| {
                            let trace = std::str::from_utf8(trace).unwrap_or("not text");
                            definitions::check(journal, trace, fault, &mut counts).err().map(|e| (i, e))
                        });
                        (counts, bad)
                    })
                })
                .collect();
            parts.into_iter().map(|p| p.join().unwrap()).collect::<Vec<_>>()
        });
        for (part, (more, bad)) in results.into_iter().enumerate() {
            counts.add(&more);
            if let Some((i, error)) = bad {
                let i = part * half + i;
                found = Some((first + i as u64, batch[i].clone(), error));
                return false;
            }
        }
        true
    });
    found
}

fn definitions(o: &Options) {
    let start = Instant::now();
    if o.bite {
        let mut missed = 0;
        for fault in definitions::FAULTS {
            match defined(o, fault, &mut Default::default()) {
                Some((index, _, error)) => {
                    let what = error.lines().next().unwrap_or("");
                    say!("{fault}: found at {} ({what})", o.source.name(index));
                }
                None => {
                    say!("{fault}: NOT FOUND");
                    missed += 1;
                }
            }
        }
        say!("{} faults planted in the definitions, {missed} not found", definitions::FAULTS.len());
        exit((missed > 0) as i32);
    }
    let mut counts = definitions::Counts::default();
    let found = defined(o, &o.fault, &mut counts);
    if let Some((index, journal, error)) = found {
        say!("{}: {error}\n{}", o.source.name(index), text(&journal));
        let judge = Runner { words: vec![o.oracle.clone(), "--pipe".into(), "--trace".into()], piped: true };
        let small = shrink(&journal, &|candidates: &[Vec<u8>]| {
            let traces = judge.run(candidates);
            let bad = |(j, t): (&Vec<u8>, &Vec<u8>)| {
                definitions::check(j, &String::from_utf8_lossy(t), &o.fault, &mut Default::default()).is_err()
            };
            candidates.iter().zip(&traces).map(bad).collect()
        });
        let trace = judge.run(std::slice::from_ref(&small));
        let again = definitions::check(&small, &String::from_utf8_lossy(&trace[0]), &o.fault, &mut Default::default());
        say!("shrunk: {}\n{}", again.unwrap_err(), text(&small));
        exit(1);
    }
    say!(
        "{} journals as defined, {:.1} s: {} refused, {} vote records; after {} of them the equivocators
of both phases weigh at most F: {} with a GHOST, {} with a finalized block, {} completable.
The GHOST moved {} times, the finalized block {} times, the estimate of a completable round {} times.",
        counts.journals,
        start.elapsed().as_secs_f64(),
        counts.refused,
        counts.votes,
        counts.within,
        counts.with_ghost,
        counts.with_final,
        counts.with_completable,
        counts.ghost_moves,
        counts.final_moves,
        counts.estimate_moves,
    );
}

/// Runs the faulty judge with each fault against the judge.
fn faults(o: &Options) {
    let [faulty, list] = &o.rest[..] else { usage() };
    let names = std::fs::read_to_string(list).unwrap_or_else(|_| usage());
    let mut missed = 0;
    for name in names.lines() {
        match first_differences(o, faulty, name, 1).first() {
            Some((index, _, telling)) => {
                let how = if *telling == "--trace" { " by its trace" } else { "" };
                say!("{name}: found{how} at {}", o.source.name(*index));
            }
            None => {
                say!("{name}: NOT FOUND");
                missed += 1;
            }
        }
    }
    say!("{} faults planted in the judge, {missed} not found", names.lines().count());
    exit((missed > 0) as i32);
}

/// A judge, faulty or not, over one pipe.
fn judge(program: &str, telling: &str, fault: Option<&str>) -> Runner {
    let mut words = vec![program, "--pipe"];
    if !telling.is_empty() {
        words.push(telling);
    }
    if let Some(fault) = fault {
        words.extend(["--fault", fault]);
    }
    Runner { words: words.into_iter().map(|w| w.to_string()).collect(), piped: true }
}

/// The first journals on which a fault shows in the replay lines, or else in the trace, at most one
/// of each class and `most` in all.
fn first_differences(o: &Options, faulty: &str, name: &str, most: usize) -> Vec<(u64, Vec<u8>, &'static str)> {
    for telling in ["", "--trace"] {
        let (right, wrong) = (judge(&o.oracle, telling, None), judge(faulty, telling, Some(name)));
        let mut found: Vec<(u64, Vec<u8>, &'static str)> = Vec::new();
        o.source.batches(|first, batch| {
            let (right, given) = run_both(&right, &wrong, &batch);
            for i in (0..batch.len()).filter(|&i| right[i] != given[i]) {
                let index = first + i as u64;
                let class = o.source.class(index);
                if found.len() < most && found.iter().all(|f| o.source.class(f.0) != class) {
                    found.push((index, batch[i].clone(), telling));
                }
            }
            // The rest of the classes may never show it; a few batches are enough once one did.
            found.is_empty() || (found.len() < most && first < 10 * BATCH as u64)
        });
        if !found.is_empty() {
            return found;
        }
    }
    Vec::new()
}

/// "Numbers to hold it to" of document 01, as far as the Rust can be asked.
fn numbers(o: &Options) {
    let bad = std::cell::Cell::new(0);
    let mut count = 0;
    let mut expect = |what: &str, got: String, wanted: &str| {
        count += 1;
        if got != wanted {
            say!("{what}:\n{got}but document 01 has:\n{wanted}");
            bad.set(bad.get() + 1);
        }
    };
    let say = |records: &[journal::Record], telling: &[&str]| {
        let words = std::iter::once(o.oracle.clone()).chain(telling.iter().map(|w| w.to_string())).collect();
        let answers = Runner { words, piped: false }.run(&[journal::bytes(records)]);
        String::from_utf8_lossy(&answers[0]).into_owned()
    };
    let line = |text: &str, name: &str| text.lines().find(|l| l.starts_with(name)).unwrap_or("").to_string() + "\n";
    let four = |text: &str| ["ghost", "estimate", "final", "completable"].map(|n| line(text, n)).concat();

    let j = case_j();
    let eight = "round 7
prevote 4 of 4 need 3 voters 4
precommit 3 of 4 need 3 voters 3
ghost 12 2
estimate 12 2
final 11 1
completable yes
tail 0
";
    expect("case J", say(&j, &[]), eight);
    expect("case J's length", format!("{} {}\n", j.len(), journal::bytes(&j).len()), "16 264\n");
    expect(
        "case J after three prevotes",
        four(&say(&j[..12], &[])),
        "ghost 11 1\nestimate 11 1\nfinal none\ncompletable no\n",
    );
    let more = [&j[..], &[Vote(true, 3, 13, 2, 0)]].concat();
    expect("case J, voter 3's second precommit", line(&say(&more, &[]), "final"), "final 12 2\n");
    let mut other = j[..13].to_vec();
    other.extend([Vote(true, 1, 12, 2, 0), Vote(true, 2, 11, 1, 0), Vote(true, 3, 13, 2, 0)]);
    expect("precommits 12, 11, 13", line(&say(&other, &[]), "estimate"), "estimate 12 2\n");
    other.push(Vote(true, 4, 11, 1, 0));
    let said = say(&other, &[]);
    expect("then 11", line(&said, "estimate") + &line(&said, "completable"), "estimate 11 1\ncompletable yes\n");
    let open = line(&say(&j, &["--trace"]), "open");
    expect("primary of round 7", open.split("primary ").nth(1).unwrap_or("").to_string(), "4\n");
    let opened = |voters: Vec<journal::Record>| [voters, vec![Rt(10, 0), Op(7, 10)]].concat();
    for (total, need) in
        [(1, 1), (2, 2), (3, 3), (4, 3), (5, 4), (6, 5), (7, 5), (10, 7), (u64::MAX, 12297829382473034411u64)]
    {
        let said = line(&say(&opened(vec![Vt(1, total)]), &[]), "prevote");
        expect("threshold", said, &format!("prevote 0 of {total} need {need} voters 0\n"));
    }
    let heavy = opened(vec![Vt(1, u64::MAX), Vt(2, 1)]);
    expect("one more weight", say(&heavy, &[]), "refused 2 at 3\n");
    for (ids, wanted) in [(64, "round 7\n"), (65, "refused 4 at 66\n")] {
        let said = say(&opened((0..ids).map(|v| Vt(v, 1)).collect()), &[]);
        expect("ids", said.lines().next().unwrap_or("").to_string() + "\n", wanted);
    }
    let chain = |n: u32| [vec![Vt(1, 1), Rt(0, 0)], (1..n).map(|b| Bk(b, b - 1)).collect::<Vec<_>>()].concat();
    expect("block 256", say(&chain(256), &[]), "no round\ntail 0\n");
    expect("block 257", say(&chain(257), &[]), "refused 8 at 258\n");
    for (place, phase, words) in
        [(0, 0, "[9223372036854775808]"), (32, 0, "[0, 9223372036854775808]"), (63, 1, "[0, 1]")]
    {
        let bit = (2 * place + phase).to_string();
        expect("words", say(&[], &["--bit", &bit]), &format!("Bitfield {{ bits: {words} }}\n"));
    }
    say!("{count} numbers of document 01, {} of them differ", bad.get());
    exit((bad.get() > 0) as i32);
}

fn main() {
    let words: Vec<String> = std::env::args().skip(1).collect();
    let Some(command) = words.first() else { usage() };
    let o = options(&words[1..]);
    match command.as_str() {
        "journals" => journals(&o),
        "compare" => compare(&o),
        "definitions" => definitions(&o),
        "faults" => faults(&o),
        "numbers" => numbers(&o),
        "record" => record::record(&o),
        "show" => {
            // One generated journal without a length before it: of the first class, at index --count.
            let journal = generate::journal(&o.source.classes[0], o.source.seed, o.source.count);
            let _ = std::io::stdout().write_all(&journal);
        }
        "case-j" => {
            let _ = std::io::stdout().write_all(&journal::bytes(&case_j()));
        }
        "text" => {
            let mut bytes = Vec::new();
            let _ = std::io::stdin().read_to_end(&mut bytes);
            say!("{}", text(&bytes).trim_end());
        }
        "classes" => say!("{}", CLASSES.join("\n")),
        _ => usage(),
    }
}
