//! Measuring: rounds in turn, the least of each, and one call alone for counting instructions.

use crate::peers::Peer;
use std::cell::RefCell;
use std::hint::black_box;
use std::io::Write;
use std::path::PathBuf;

/// What is measured of a candidate: a call of this process, or a call of a peer's program over a file.
pub enum Work<'a> {
    Call(Box<dyn FnMut() -> usize + 'a>),
    Peer(&'a Peer, &'static str, PathBuf),
}

/// Something that is measured, and whose answer is to be that of the others of its row.
pub struct Candidate<'a> {
    pub name: &'static str,
    pub work: Work<'a>,
}

/// A candidate of this process.
pub fn by<'a>(name: &'static str, call: impl FnMut() -> usize + 'a) -> Candidate<'a> {
    Candidate { name, work: Work::Call(Box::new(call)) }
}

/// A share of the least time of the candidates whose names begin with a word, which is to be reached.
pub type Goal = (&'static str, f64);

/// The share of the limit's time that every row with a limit is to reach.
const OF_LIMIT: f64 = 2.0;

/// What to run.
pub struct Plan {
    /// Parts of the names of the rows that are run, with | between; all where it is empty.
    pub rows: String,
    /// The candidate that is called once, and nothing else measured.
    pub once: Option<String>,
    /// The rounds of a row, where not its own number.
    pub rounds: Option<usize>,
    /// What the names of candidates begin with whose calls are not in this program.
    pub missing: Vec<&'static str>,
    /// Where each row's times go too, for the picture: row, candidate, nanoseconds, and the goal, with tabs between.
    pub kept: Option<RefCell<std::fs::File>>,
}

#[repr(C)]
struct Time {
    seconds: i64,
    nanoseconds: i64,
}

unsafe extern "C" {
    fn clock_gettime(clock: i32, time: *mut Time) -> i32;
}

const THREAD_CPU_TIME: i32 = 3;

/// The nanoseconds of this thread on its processor.
fn now() -> i64 {
    let mut time = Time { seconds: 0, nanoseconds: 0 };
    // SAFETY: the call writes the struct.
    unsafe { clock_gettime(THREAD_CPU_TIME, &mut time) };
    time.seconds * 1_000_000_000 + time.nanoseconds
}

/// One call, by a name that a counter of instructions finds.
#[inline(never)]
#[unsafe(no_mangle)]
pub extern "Rust" fn measured(call: &mut dyn FnMut() -> usize) -> usize {
    black_box(call())
}

impl Candidate<'_> {
    /// The nanoseconds of so many rounds, and the answer of one; none where there is no such call.
    fn rounds(&mut self, rounds: i64) -> Option<(i64, usize)> {
        match &mut self.work {
            Work::Call(call) => {
                let (start, mut answer) = (now(), 0);
                for _ in 0..rounds {
                    answer = measured(&mut **call);
                }
                Some((now() - start, answer))
            }
            Work::Peer(peer, call, file) => peer.ask(call, file, rounds),
        }
    }
}

impl Plan {
    /// Whether a row of this name is run.
    pub fn has(&self, row: &str) -> bool {
        self.rows.split('|').any(|part| row.contains(part))
    }

    /// Measures the candidates in turn, and prints the least time of each for one of `items`, and the share of it that
    /// the first takes.
    pub fn row(&self, row: &str, items: usize, rounds: usize, goals: &[Goal], mut candidates: Vec<Candidate>) {
        if !self.has(row) {
            return;
        }
        candidates.retain(|candidate| !self.missing.iter().any(|name| candidate.name.starts_with(name)));
        if let Some(once) = &self.once {
            for candidate in candidates.iter_mut().filter(|c| c.name == once) {
                call_once(row, items, candidate);
            }
            return;
        }
        let answers: Vec<_> = candidates.iter_mut().map(|c| c.rounds(1).map(|(_, answer)| answer)).collect();
        let mut is_there = answers.iter().map(Option::is_some);
        candidates.retain(|_| is_there.next().unwrap());
        let answers: Vec<usize> = answers.into_iter().flatten().collect();
        if answers.iter().any(|answer| *answer != answers[0]) {
            println!("{row}: the answers differ: {:?}", candidates.iter().map(|c| c.name).zip(&answers).collect::<Vec<_>>());
        }
        let times = least_times(&mut candidates, self.rounds.unwrap_or(rounds));
        let times: Vec<(&str, f64)> = candidates.iter().zip(times).map(|(c, time)| (c.name, time / items as f64)).collect();
        self.print(row, &times, goals);
    }

    fn print(&self, row: &str, times: &[(&str, f64)], goals: &[Goal]) {
        for (name, time) in times {
            println!("{row:<36} {name:<24} {time:>10.2} ns");
        }
        let limit = times.iter().any(|(name, _)| *name == "limit").then_some(("limit", OF_LIMIT));
        let goals: Vec<Goal> = goals.iter().copied().chain(limit).collect();
        if let Some(kept) = &self.kept {
            let goals: Vec<String> = goals.iter().map(|(name, most)| format!("{name} {most}")).collect();
            for (name, time) in times {
                let _ = writeln!(kept.borrow_mut(), "{row}\t{name}\t{time:.3}\t{}", goals.join(", "));
            }
        }
        let Some(((first, here), others)) = times.split_first() else {
            return;
        };
        if *first != "here" {
            return;
        }
        for (name, time) in others {
            println!("{row:<36}   here/{name:<24} {:>6.2}", here / time);
        }
        for (name, most) in goals {
            let of_name = others.iter().filter(|(other, _)| other.starts_with(name));
            match of_name.min_by(|a, b| a.1.total_cmp(&b.1)) {
                Some((other, time)) => {
                    let verdict = if here / time <= most { "met" } else { "not met" };
                    println!("{row:<36}   goal {most} of {other}: {verdict}, {:.2}", here / time);
                }
                None => println!("{row:<36}   goal {most} of {name}: not measured"),
            }
        }
    }
}

/// One call of a candidate. A call of this process is counted by who runs it; a peer's program is run under a counter.
fn call_once(row: &str, items: usize, candidate: &mut Candidate) {
    let name = candidate.name;
    match &mut candidate.work {
        Work::Call(call) => println!("{row}\t{name}\t{items}\t{}", measured(&mut **call)),
        Work::Peer(peer, call, file) => {
            if peer.ask(call, file, 1).is_none() {
                return;
            }
            match peer.instructions(call, file) {
                Some(count) => println!("{row:<36} {name:<24} {:>10.1} instructions", count as f64 / items as f64),
                None => println!("{row:<36} {name:<24} was not counted"),
            }
        }
    }
}

fn least_times(candidates: &mut [Candidate], rounds: usize) -> Vec<f64> {
    let mut calls = Vec::new();
    for candidate in candidates.iter_mut() {
        let (time, _) = candidate.rounds(1).unwrap();
        calls.push((300_000 / time.max(1)).clamp(1, 10_000));
    }
    let mut least = vec![f64::MAX; candidates.len()];
    for _ in 0..rounds {
        for (i, candidate) in candidates.iter_mut().enumerate() {
            let (time, _) = candidate.rounds(calls[i]).unwrap();
            least[i] = least[i].min(time as f64 / calls[i] as f64);
        }
    }
    least
}
