//! Runs a program over many journals, by frames over one pipe or one process a journal.

use crate::journal::{bytes, records, Record, Record::*};
use std::{
    io::{Read, Write},
    process::{Command, Stdio},
    sync::mpsc::{channel, RecvTimeoutError},
    thread,
    time::Duration,
};

#[derive(Clone)]
pub struct Runner {
    pub words: Vec<String>,
    /// Frames: u32 little-endian length and the bytes, many on one pipe.
    pub piped: bool,
}

impl Runner {
    fn spawn(&self) -> std::process::Child {
        Command::new(&self.words[0])
            .args(&self.words[1..])
            .stdin(Stdio::piped())
            .stdout(Stdio::piped())
            .spawn()
            .unwrap_or_else(|e| {
                eprintln!("cannot run {}: {e}", self.words[0]);
                std::process::exit(2)
            })
    }

    /// What a program says to one input. It may stop reading before the end, so a broken pipe on
    /// our side is no fault of it. One that does not end is ended, and its status shows it.
    fn talk(&self, input: Vec<u8>, limit: Duration) -> (Vec<u8>, String) {
        let mut child = self.spawn();
        let (mut stdin, id) = (child.stdin.take().unwrap(), child.id().to_string());
        let (done, wait) = channel::<()>();
        let writer = thread::spawn(move || {
            let _ = stdin.write_all(&input);
        });
        let watch = thread::spawn(move || {
            if wait.recv_timeout(limit) == Err(RecvTimeoutError::Timeout) {
                let _ = Command::new("kill").args(["-9", &id]).status();
            }
        });
        let mut output = Vec::new();
        let _ = child.stdout.take().unwrap().read_to_end(&mut output);
        let status = child.wait().map(|s| s.to_string()).unwrap_or_default();
        drop(done);
        let _ = (writer.join(), watch.join());
        (output, status)
    }

    /// One answer a journal. Where the program gave none, the answer says how it ended, which no
    /// right answer equals.
    pub fn run(&self, journals: &[Vec<u8>]) -> Vec<Vec<u8>> {
        if !self.piped {
            let half = journals.len().div_ceil(2).max(1);
            return thread::scope(|scope| {
                let parts: Vec<_> = journals.chunks(half).map(|part| scope.spawn(|| self.one_by_one(part))).collect();
                parts.into_iter().flat_map(|p| p.join().unwrap()).collect()
            });
        }
        let mut input = Vec::with_capacity(journals.iter().map(|j| j.len() + 4).sum());
        for journal in journals {
            input.extend((journal.len() as u32).to_le_bytes());
            input.extend(journal);
        }
        // The program is started anew for every batch and sees its end, so it may buffer as it likes.
        let (output, status) = self.talk(input, Duration::from_secs(600));
        let mut rest = &output[..];
        let mut answers = Vec::with_capacity(journals.len());
        for _ in journals {
            let size = rest.get(..4).map(|b| u32::from_le_bytes(b.try_into().unwrap()) as usize);
            match size.and_then(|size| rest.get(4..4 + size)) {
                Some(answer) => {
                    answers.push(answer.to_vec());
                    rest = &rest[4 + answer.len()..];
                }
                None => {
                    answers.push(format!("(no whole answer; {status})\n").into_bytes());
                    rest = &[];
                }
            }
        }
        if !rest.is_empty() && !answers.is_empty() {
            let last = answers.last_mut().unwrap();
            last.extend(b"(and more bytes than answers)\n");
        }
        answers
    }

    fn one_by_one(&self, journals: &[Vec<u8>]) -> Vec<Vec<u8>> {
        let mut answers = Vec::with_capacity(journals.len());
        for journal in journals {
            let (mut output, status) = self.talk(journal.clone(), Duration::from_secs(10));
            // The exit status is the program's own affair, an end by a signal is not. The first one
            // is a difference, so what comes after it is not looked at.
            let ended = status.contains("signal");
            if ended {
                output.extend(format!("(ended by {status})\n").into_bytes());
            }
            answers.push(output);
            if ended {
                break;
            }
        }
        answers.resize(journals.len(), b"(not run)\n".to_vec());
        answers
    }
}

/// A smaller journal that still has the property, tried in batches. The same result every time.
pub fn shrink(journal: &[u8], has: &dyn Fn(&[Vec<u8>]) -> Vec<bool>) -> Vec<u8> {
    let mut best = records(journal);
    let first = |candidates: Vec<Vec<Record>>| {
        let made: Vec<Vec<u8>> = candidates.iter().map(|c| bytes(c)).collect();
        let hit = has(&made).into_iter().position(|hit| hit)?;
        candidates.into_iter().nth(hit)
    };
    // Fewer records: halves, then smaller pieces, from the end so that late records go first.
    let mut piece = best.len().div_ceil(2).max(1);
    loop {
        let starts: Vec<usize> = (0..best.len()).step_by(piece).rev().collect();
        let candidates =
            starts.into_iter().map(|at| [&best[..at], &best[(at + piece).min(best.len())..]].concat()).collect();
        match first(candidates) {
            Some(smaller) => {
                best = smaller;
                piece = piece.min(best.len().div_ceil(2).max(1));
            }
            None if piece > 1 => piece = piece.div_ceil(2),
            None => break,
        }
    }
    // Plainer records, until none can be made plainer.
    while let Some(plainer) = first(plainer(&best)) {
        best = plainer;
    }
    bytes(&best)
}

fn plainer(records: &[Record]) -> Vec<Vec<Record>> {
    let mut out = Vec::new();
    // Small ids in the same order, numbers from 0.
    let rank = |ids: Vec<u32>, from: u32| {
        let mut ids = ids;
        ids.sort();
        ids.dedup();
        move |id: u32| ids.iter().position(|i| *i == id).map_or(id, |at| from + at as u32)
    };
    let blocks = records.iter().flat_map(|r| match r {
        Rt(id, _) | Op(_, id) | Vote(_, _, id, ..) => vec![*id],
        Bk(id, parent) => vec![*id, *parent],
        _ => vec![],
    });
    let voters = records.iter().filter_map(|r| match r {
        Vt(id, _) | Vote(_, id, ..) => Some(*id),
        _ => None,
    });
    let (block, voter) = (rank(blocks.collect(), 10), rank(voters.collect(), 1));
    let root = records.iter().find_map(|r| if let Rt(_, n) = r { Some(*n) } else { None }).unwrap_or(0);
    let whole = |change: &dyn Fn(&Record) -> Record| records.iter().map(change).collect::<Vec<_>>();
    out.push(whole(&|r| match r.clone() {
        Rt(id, n) => Rt(block(id), n),
        Op(n, id) => Op(n, block(id)),
        Bk(id, parent) => Bk(block(id), block(parent)),
        Vote(p, v, id, n, s) => Vote(p, v, block(id), n, s),
        other => other,
    }));
    out.push(whole(&|r| match r.clone() {
        Vt(id, w) => Vt(voter(id), w),
        Vote(p, v, id, n, s) => Vote(p, voter(v), id, n, s),
        other => other,
    }));
    out.push(whole(&|r| match r.clone() {
        Rt(id, n) => Rt(id, n - root),
        Vote(p, v, id, n, s) => Vote(p, v, id, n.wrapping_sub(root), s),
        other => other,
    }));
    out.retain(|list| list != records);
    for at in 0..records.len() {
        let plainer = match records[at].clone() {
            Vt(v, w) if w > 1 => vec![Vt(v, 1), Vt(v, w / 2)],
            Op(r, b) if r > 0 => vec![Op(0, b)],
            Vote(p, v, t, n, s) if s > 1 => vec![Vote(p, v, t, n, 0), Vote(p, v, t, n, 1)],
            Vote(p, v, t, n, 1) => vec![Vote(p, v, t, n, 0)],
            Raw(b) if b.len() > 1 => vec![Raw(b[..b.len() - 1].to_vec())],
            _ => vec![],
        };
        for record in plainer {
            let mut list = records.to_vec();
            list[at] = record;
            out.push(list);
        }
    }
    out
}
