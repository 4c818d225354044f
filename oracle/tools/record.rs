//! The fixed list: journals chosen by hand, by planted faults and by class, with the judge's answers.
//!
//! A list is entries end to end: journal length and answer length, u32 little-endian each, then the
//! journal's bytes, then the answer's. Nothing depends on time or chance, so it can be made again
//! byte for byte.

use crate::{
    first_differences,
    generate::{self, CLASSES},
    journal::{bytes, case_j, Record, Record::*},
    runner::{shrink, Runner},
    Options,
};
use std::{collections::BTreeSet, process::exit};

struct List {
    entries: Vec<(String, Vec<u8>)>,
    present: BTreeSet<Vec<u8>>,
}

impl List {
    fn add(&mut self, name: &str, journal: Vec<u8>) {
        if self.present.insert(journal.clone()) {
            self.entries.push((name.to_string(), journal));
        }
    }
    fn put(&mut self, name: &str, records: &[Record]) {
        self.add(name, bytes(records));
    }
}

fn pv(voter: u32, target: u32, number: u32, signature: u64) -> Record {
    Vote(false, voter, target, number, signature)
}

fn pc(voter: u32, target: u32, number: u32, signature: u64) -> Record {
    Vote(true, voter, target, number, signature)
}

/// Every vote rule, on case J's tree, voters and opening.
fn vote_rules(list: &mut List) {
    let head = case_j()[..9].to_vec();
    let seconds: [(&str, u32, u32, u64); 7] = [
        ("another target", 13, 2, 0),
        ("the same target, another signature", 12, 2, 1),
        ("the same id, another number", 12, 3, 0),
        ("an unknown target", 99, 7, 5),
        ("a known target, a wrong number", 13, 9, 0),
        ("the base", 10, 0, 0),
        ("the same pair", 12, 2, 0),
    ];
    for precommit in [false, true] {
        let phase = if precommit { "precommit" } else { "prevote" };
        let vote = |voter, target, number, signature| Vote(precommit, voter, target, number, signature);
        list.put(&format!("a stranger's {phase}"), &[&head[..], &[vote(9, 12, 2, 0)]].concat());
        list.put(&format!("a stranger's {phase} for an unknown target"), &[&head[..], &[vote(9, 77, 2, 0)]].concat());
        list.put(&format!("a {phase} for the base"), &[&head[..], &[vote(1, 10, 0, 0)]].concat());
        for (what, target, number, signature) in seconds {
            let mut votes: Vec<Record> = (1..4).map(|v| vote(v, 12, 2, 0)).collect();
            votes.push(vote(1, target, number, signature));
            let two = [&head[..], &votes].concat();
            list.put(&format!("second {phase}: {what}"), &two);
            // The other phase counts its own votes.
            votes.extend([Vote(!precommit, 1, 13, 2, 0), Vote(!precommit, 2, 12, 2, 0), Vote(!precommit, 3, 12, 2, 0)]);
            list.put(&format!("second {phase}: {what}, then the other phase"), &[&head[..], &votes].concat());
            let third =
                [&two[..], &[vote(1, 11, 1, 7), vote(1, target, number, signature), vote(1, 12, 2, 0)]].concat();
            list.put(&format!("third {phase} and duplicates after {what}"), &third);
        }
    }
}

fn refusals(list: &mut List) {
    let many = |n: u32, weight: u64| (0..n).map(|v| Vt(v % 64, weight)).collect::<Vec<_>>();
    let ids = |n: u32| (0..n).map(|v| Vt(v, 1)).collect::<Vec<_>>();
    let rooted = |voters: Vec<Record>| [voters, vec![Rt(10, 0), Op(7, 10)]].concat();
    list.put("256 Vt", &rooted(many(256, 1)));
    list.put("257 Vt", &rooted(many(257, 1)));
    list.put("257 Vt of weight 0", &many(257, 0));
    list.put("256 Vt of weight 0", &rooted(many(256, 0)));
    list.put("no Vt", &rooted(vec![]));
    list.put("one Vt of weight 0", &rooted(vec![Vt(1, 0)]));
    list.put("the largest total", &rooted(vec![Vt(1, u64::MAX)]));
    list.put("the largest total in parts", &rooted(vec![Vt(1, u64::MAX - 5), Vt(2, 2), Vt(1, 3)]));
    list.put("one weight more", &rooted(vec![Vt(1, u64::MAX), Vt(2, 1)]));
    list.put("one weight more, same id", &rooted(vec![Vt(1, u64::MAX), Vt(1, 1)]));
    list.put("64 ids", &rooted(ids(64)));
    list.put("65 ids", &rooted(ids(65)));
    list.put("65 ids, one of weight 0", &rooted([ids(64), vec![Vt(64, 0)]].concat()));
    list.put("65 ids, 2 before 4", &rooted([ids(65), vec![Vt(3, u64::MAX)]].concat()));
    let start = [vec![Vt(1, 1), Rt(10, u32::MAX - 1), Bk(11, 10)], vec![]].concat();
    let with = |more: &[Record]| [&start[..], more].concat();
    list.put("block 11 twice", &with(&[Bk(11, 10)]));
    list.put("the root's id again", &with(&[Bk(10, 11)]));
    list.put("unknown parent", &with(&[Bk(12, 99)]));
    list.put("its own parent", &with(&[Bk(12, 12)]));
    list.put("a child of the last number", &with(&[Bk(12, 11)]));
    list.put("5 before 6", &with(&[Bk(11, 99)]));
    list.put("5 before 7", &with(&[Bk(10, 11)]));
    let full = with(&(12..266).map(|b| Bk(b, 10)).collect::<Vec<_>>());
    list.put("256 blocks", &full);
    let over = |more: Record| [&full[..], &[more]].concat();
    list.put("8", &over(Bk(999, 10)));
    list.put("5 before 8", &over(Bk(11, 10)));
    list.put("6 before 8", &over(Bk(999, 998)));
    list.put("7 before 8", &over(Bk(999, 11)));
    list.put("8 in the round", &[&full[..], &[Op(7, 10), pv(1, 11, u32::MAX, 0), Bk(999, 10)]].concat());
    list.put("unknown base", &with(&[Op(7, 99)]));
    list.put("the last number as base", &with(&[Op(u64::MAX, 11), pv(1, 11, u32::MAX, 0), pc(1, 11, u32::MAX, 0)]));

    let tree = [&case_j()[..8], &[Op(7, 12)]].concat();
    let voted = |more: &[Record]| [&tree[..], more].concat();
    for precommit in [false, true] {
        let phase = if precommit { "precommit" } else { "prevote" };
        let vote = |voter, target, number| Vote(precommit, voter, target, number, 0);
        list.put(&format!("11, {phase}"), &voted(&[vote(1, 99, 2)]));
        list.put(&format!("12, {phase}"), &voted(&[vote(1, 12, 1)]));
        list.put(&format!("13, {phase} beside the base"), &voted(&[vote(1, 13, 2)]));
        list.put(&format!("13, {phase} above the base"), &voted(&[vote(1, 11, 1)]));
        list.put(&format!("12 before 13, {phase}"), &voted(&[vote(1, 13, 3)]));
        list.put(&format!("a stranger's {phase} is never 11 to 13"), &voted(&[vote(9, 99, 2), vote(9, 13, 2)]));
        list.put(
            &format!("a second {phase} is never 11 to 13"),
            &voted(&[vote(1, 12, 2), vote(1, 99, 2), vote(1, 13, 2)]),
        );
        list.put(
            &format!("11 with the other phase heard, {phase}"),
            &voted(&[Vote(!precommit, 1, 12, 2, 0), vote(1, 99, 2)]),
        );
        list.put(
            &format!("a late block, {phase}"),
            &voted(&[vote(1, 12, 2), Bk(14, 12), vote(2, 14, 3), Bk(15, 13), vote(3, 15, 3)]),
        );
    }

    // Every mark in every turn, whole and cut by one byte: 18 only when whole.
    let turns: [(&str, Vec<Record>); 4] = [
        ("at the start", vec![]),
        ("after Vt", vec![Vt(1, 1)]),
        ("after Rt", vec![Vt(1, 1), Rt(10, 0)]),
        ("after Op", vec![Vt(1, 1), Rt(10, 0), Op(7, 10)]),
    ];
    let all = [Vt(2, 1), Rt(20, 0), Bk(11, 10), Op(8, 10), pv(1, 10, 0, 0), pc(1, 10, 0, 0)];
    for (when, before) in &turns {
        for record in &all {
            let whole = bytes(&[&before[..], std::slice::from_ref(record)].concat());
            list.add(&format!("{} {when}", name(record)), whole.clone());
            list.add(&format!("{} {when}, cut", name(record)), whole[..whole.len() - 1].to_vec());
        }
        for mark in ["vt", "PV", "Pd", "Sm", "\0\0"] {
            let raw = bytes(&[&before[..], &[Raw(mark.as_bytes().to_vec())]].concat());
            list.add(&format!("unknown mark {when}"), raw.clone());
            list.add(&format!("half an unknown mark {when}"), raw[..raw.len() - 1].to_vec());
        }
    }
    list.put("a vote before Op from a stranger", &[Vt(1, 1), Rt(10, 0), pv(9, 10, 0, 0)]);
    list.put("the 257th Vt, cut", &[many(256, 1), vec![Raw(b"Vt\0\0\0".to_vec())]].concat());
}

fn name(record: &Record) -> &'static str {
    match record {
        Vt(..) => "Vt",
        Rt(..) => "Rt",
        Bk(..) => "Bk",
        Op(..) => "Op",
        Vote(false, ..) => "Pv",
        Vote(true, ..) => "Pc",
        Raw(_) => "bytes",
    }
}

/// All sizes at their limits at once.
fn limits(list: &mut List) {
    let voters: Vec<Record> = (0..64).map(|v| Vt(1000 - v, 1 + v as u64 % 3)).collect();
    // 129 vote-nodes: the base and a target of its own for each first vote; 256 history entries.
    let wide = |id: &dyn Fn(u32) -> u32, parent: &dyn Fn(u32) -> u32, number: &dyn Fn(u32) -> u32, double: bool| {
        let mut out = voters.clone();
        out.push(Rt(id(0), 0));
        out.extend((1..256).map(|b| Bk(id(b), id(parent(b)))));
        out.push(Op(u64::MAX, id(0)));
        for round in 0..1 + double as u32 {
            for phase in [false, true] {
                for v in 0..64 {
                    let b = 1 + (v * 2 + phase as u32 + round * 128) % 255;
                    out.push(Vote(phase, 1000 - v, id(b), number(b), round as u64));
                }
            }
        }
        // Full: nothing more is recorded.
        out.extend([pv(1000, id(0), 0, 9), pc(937, id(0), 0, 9)]);
        out
    };
    let plain = |b: u32| b;
    let falling = |b: u32| 5000 - b;
    for double in [false, true] {
        let what = if double { "256 history entries" } else { "129 vote-nodes" };
        list.put(&format!("{what}, a line"), &wide(&plain, &|b| b - 1, &|b| b, double));
        list.put(&format!("{what}, a star"), &wide(&falling, &|_| 0, &|_| 1, double));
        list.put(
            &format!("{what}, a comb"),
            &wide(&falling, &|b| if b % 2 == 1 { b.saturating_sub(2) } else { b - 1 }, &|b| b / 2 + 1, double),
        );
    }
    let third = u64::MAX / 3;
    let heavy = [Vt(1, third), Vt(2, third), Vt(3, third), Rt(10, 0), Bk(11, 10), Bk(12, 10), Op(0, 10)];
    let votes = [
        pv(1, 11, 1, 0),
        pv(2, 11, 1, 0),
        pc(1, 11, 1, 0),
        pc(2, 12, 1, 0),
        pv(3, 12, 1, 0),
        pc(3, 11, 1, 0),
        pc(2, 11, 1, 0),
        pc(1, 12, 1, 0),
        pv(1, 12, 1, 0),
    ];
    for n in 0..=votes.len() {
        list.put("weights of a third of 2^64 - 1", &[&heavy[..], &votes[..n]].concat());
    }
}

fn numbers(list: &mut List) {
    let j = case_j();
    list.put("case J", &j);
    list.put("case J, voter 3's second precommit", &[&j[..], &[pc(3, 13, 2, 0)]].concat());
    let mut other = j[..13].to_vec();
    other.extend([pc(1, 12, 2, 0), pc(2, 11, 1, 0), pc(3, 13, 2, 0)]);
    list.put("precommits 12, 11, 13", &other);
    other.push(pc(4, 11, 1, 0));
    list.put("precommits 12, 11, 13, 11", &other);
    for total in [1, 2, 3, 4, 5, 6, 7, 10, u64::MAX] {
        list.put(&format!("total {total}"), &[Vt(1, total), Rt(10, 0), Op(7, 10)]);
    }
}

fn write(o: &Options, list: &[(String, Vec<u8>)], telling: &[&str], file: &str) -> Vec<Vec<u8>> {
    let words = [vec![o.oracle.clone(), "--pipe".into()], telling.iter().map(|w| w.to_string()).collect()].concat();
    let journals: Vec<Vec<u8>> = list.iter().map(|e| e.1.clone()).collect();
    let answers = Runner { words, piped: true }.run(&journals);
    let mut out = Vec::new();
    let mut names = String::new();
    for ((name, journal), answer) in list.iter().zip(&answers) {
        out.extend((journal.len() as u32).to_le_bytes());
        out.extend((answer.len() as u32).to_le_bytes());
        out.extend(journal);
        out.extend(answer);
        names += name;
        names.push('\n');
    }
    for (path, bytes) in [(format!("{file}.bin"), &out[..]), (format!("{file}.txt"), names.as_bytes())] {
        std::fs::write(&path, bytes).unwrap_or_else(|e| {
            eprintln!("{path}: {e}");
            exit(1)
        });
    }
    say!("{file}.bin: {} journals, {} bytes", list.len(), out.len());
    answers
}

/// The faults that a list does not show.
fn unseen(
    faulty: &str,
    names: &[&str],
    list: &[(String, Vec<u8>)],
    right: &[Vec<u8>],
    telling: &[&str],
) -> Vec<String> {
    let journals: Vec<Vec<u8>> = list.iter().map(|e| e.1.clone()).collect();
    let blind = |name: &&str| {
        let words = [&[faulty, "--pipe", "--fault", name], telling].concat();
        let given = Runner { words: words.iter().map(|w| w.to_string()).collect(), piped: true }.run(&journals);
        given == right
    };
    names.iter().copied().filter(blind).map(|n| n.to_string()).collect()
}

pub fn record(o: &Options) {
    let [faulty, faults, folder] = &o.rest[..] else { crate::usage() };
    let faults = std::fs::read_to_string(faults).unwrap_or_else(|_| crate::usage());
    let faults: Vec<&str> = faults.lines().collect();
    let mut list = List { entries: Vec::new(), present: BTreeSet::new() };
    let mut traced = List { entries: Vec::new(), present: BTreeSet::new() };

    numbers(&mut list);
    vote_rules(&mut list);
    traced.entries.extend(list.entries.iter().filter(|e| !e.0.starts_with("total")).cloned());
    traced.entries.retain(|e| !e.0.ends_with("then the other phase"));
    refusals(&mut list);
    limits(&mut list);
    let j = bytes(&case_j());
    for n in 0..j.len() {
        list.add(&format!("case J cut after {n} bytes"), j[..n].to_vec());
    }

    // For each fault the two smallest journals of those first found, one a class.
    for fault in &faults {
        let mut small: Vec<(Vec<u8>, &str)> = first_differences(o, faulty, fault, 4)
            .into_iter()
            .map(|(_, journal, telling)| {
                let judge = crate::judge(&o.oracle, telling, None);
                let program = crate::judge(faulty, telling, Some(fault));
                let shrunk = shrink(&journal, &|candidates: &[Vec<u8>]| {
                    let (right, given) = crate::run_both(&judge, &program, candidates);
                    right.iter().zip(&given).map(|(a, b)| a != b).collect()
                });
                (shrunk, telling)
            })
            .collect();
        small.sort_by_key(|(journal, _)| (journal.len(), journal.clone()));
        small.dedup();
        for (journal, telling) in small.into_iter().take(2) {
            // A fault that only a trace shows belongs to the traces.
            let name = format!("shows {fault}");
            if !telling.is_empty() {
                traced.add(&name, journal);
                continue;
            }
            if journal.len() < 500 {
                traced.add(&name, journal.clone());
            }
            list.add(&name, journal);
        }
    }
    for class in CLASSES {
        let (many, most) = match class {
            "full" => (2, usize::MAX),
            "spread" => (2, 6000),
            _ => (12, 1500),
        };
        let small = (0..).map(|i| generate::journal(class, o.source.seed, i)).filter(|j| j.len() <= most);
        for (i, journal) in small.take(many).enumerate() {
            if i < 2 && journal.len() < 500 {
                traced.add(class, journal.clone());
            }
            list.add(class, journal);
        }
    }

    let answers = write(o, &list.entries, &[], &format!("{folder}/answers"));
    let traces = write(o, &traced.entries, &["--trace"], &format!("{folder}/traces"));

    let mut bad = false;
    let said: BTreeSet<String> = answers
        .iter()
        .filter_map(|a| {
            String::from_utf8_lossy(a).split(" at ").next()?.strip_prefix("refused ").map(|n| n.to_string())
        })
        .collect();
    for number in [1, 2, 3, 4, 5, 6, 7, 8, 10, 11, 12, 13, 17, 18] {
        if !said.contains(&number.to_string()) {
            say!("no journal of the list is refused with {number}");
            bad = true;
        }
    }
    let missed = unseen(faulty, &faults, &list.entries, &answers, &[]);
    let missed_traced =
        unseen(faulty, &missed.iter().map(|m| &m[..]).collect::<Vec<_>>(), &traced.entries, &traces, &["--trace"]);
    say!(
        "{} planted faults: {} show in the answers, {} only in the traces, {} in neither",
        faults.len(),
        faults.len() - missed.len(),
        missed.len() - missed_traced.len(),
        missed_traced.len()
    );
    for name in &missed_traced {
        say!("{name} shows in no list");
        bad = true;
    }
    exit(bad as i32);
}
