//! Rounds of the two sides in turn, on the same inputs, and their best times.

use std::hint::black_box;

use crate::library::Library;
use crate::original_side;
use crate::workload::{Op, Pair, Workload};

#[derive(Debug)]
pub enum Answer {
    Nothing,
    Number(f64),
    Truth(bool),
    /// A blob of 65 bytes.
    Line(Vec<u8>),
}

/// Bit by bit, a NaN's sign and payload aside.
fn same(one: &Answer, other: &Answer) -> bool {
    match (one, other) {
        (Answer::Nothing, Answer::Nothing) => true,
        (Answer::Number(x), Answer::Number(y)) => x.to_bits() == y.to_bits() || x.is_nan() && y.is_nan(),
        (Answer::Truth(x), Answer::Truth(y)) => x == y,
        (Answer::Line(x), Answer::Line(y)) => x == y,
        _ => false,
    }
}

#[repr(C)]
struct Timespec {
    seconds: i64,
    nanoseconds: i64,
}

const CLOCK_PROCESS_CPUTIME_ID: i32 = 2;

unsafe extern "C" {
    fn clock_gettime(clock: i32, time: *mut Timespec) -> i32;
}

/// The processor time that this process has used, in nanoseconds.
fn now() -> u64 {
    let mut time = Timespec { seconds: 0, nanoseconds: 0 };
    let failed = unsafe { clock_gettime(CLOCK_PROCESS_CPUTIME_ID, &mut time) };
    assert!(failed == 0, "the clock can be read");
    time.seconds as u64 * 1_000_000_000 + time.nanoseconds as u64
}

/// The processor time that some work takes, in nanoseconds.
pub fn timed(work: impl FnOnce()) -> u64 {
    let start = now();
    work();
    now() - start
}

/// One round: every call of the workload, and the time that all took.
fn round(w: &Workload, mut call: impl FnMut(Op, &Pair)) -> u64 {
    timed(|| {
        for _ in 0..w.times {
            for pair in w.pairs.iter() {
                for op in &w.ops {
                    call(*op, pair);
                }
            }
        }
    })
}

/// Nanoseconds of a round.
#[derive(Debug, Clone, Copy)]
pub struct Times {
    pub original: f64,
    pub ours: f64,
    /// How much longer than the best round the median took, as a share of the best: that of the less steady side.
    pub spread: f64,
}

impl Times {
    pub fn ratio(self) -> f64 {
        self.ours / self.original
    }
}

/// A side runs for at least so long for each round that is asked for, in nanoseconds: short rounds get more of them.
const LEAST: u64 = 30_000_000;

/// Rounds of two sides in turn, until they are enough.
pub trait Rounds {
    fn done(&self, rounds: usize) -> bool;
    fn go_on(&mut self);
}

/// A workload's rounds so far.
pub struct Run<'a> {
    pub workload: &'a Workload,
    library: Library,
    /// The rounds' times: the original's, ours.
    rounds: Vec<[u64; 2]>,
}

impl<'a> Run<'a> {
    /// The first round keeps the answers of both sides, which are compared: an error where they differ. By rule 2 ours
    /// are held to that rule's, which are not timed.
    pub fn new(w: &'a Workload) -> Result<Run<'a>, String> {
        let mut library = Library::new(w);
        let (mut theirs, mut ours) = (Vec::new(), Vec::new());
        let first = [
            round(w, |op, pair| theirs.push(original_side::answer(op, pair))),
            round(w, |op, pair| ours.push(library.answer(op, pair))),
        ];
        if w.rule == 2 {
            let by_2 = |pair| w.ops.iter().map(move |op| original_side::answer_by_2(*op, pair));
            theirs = w.pairs.iter().flat_map(by_2).collect();
        }
        compare(w, &theirs, &ours)?;
        Ok(Run { workload: w, library, rounds: vec![first] })
    }

    pub fn times(&self) -> Times {
        best(&self.rounds)
    }
}

impl Rounds for Run<'_> {
    fn done(&self, rounds: usize) -> bool {
        self.rounds.len() >= self.workload.rounds || enough(&self.rounds, rounds)
    }

    /// One more round: the original, then ours.
    fn go_on(&mut self) {
        let (w, library) = (self.workload, &mut self.library);
        let original = round(w, |op, pair| drop(black_box(original_side::answer(op, pair))));
        let ours = round(w, |op, pair| library.call(op, pair));
        self.rounds.push([original, ours]);
    }
}

/// The best round of each side.
pub fn best(rounds: &[[u64; 2]]) -> Times {
    let sides = [0, 1].map(|side| {
        let mut times: Vec<u64> = rounds.iter().map(|round| round[side]).collect();
        times.sort_unstable();
        [times[0], times[times.len() / 2]].map(|time| time as f64)
    });
    let [spread, other] = sides.map(|[best, median]| median / best - 1.0);
    Times { original: sides[0][0], ours: sides[1][0], spread: spread.max(other) }
}

/// Whether these are as many rounds as were asked for, and each side ran for long enough.
pub fn enough(done: &[[u64; 2]], rounds: usize) -> bool {
    let spent = done.iter().map(|[original, ours]| original.min(ours)).sum::<u64>();
    done.len() >= rounds && spent >= rounds as u64 * LEAST
}

fn compare(w: &Workload, theirs: &[Answer], ours: &[Answer]) -> Result<(), String> {
    match theirs.iter().zip(ours).position(|(t, o)| !same(t, o)) {
        None => Ok(()),
        Some(i) => {
            let (pair, op) = (i / w.ops.len() % w.pairs.len(), w.ops[i % w.ops.len()]);
            let (t, o) = (&theirs[i], &ours[i]);
            Err(format!("{}: {} of pair {pair} differs: the original {t:?}, ours {o:?}", w.name, op.name()))
        }
    }
}

/// Our side alone: nanoseconds of a round, at best.
pub fn ours_alone(w: &Workload, rounds: usize) -> f64 {
    let mut library = Library::new(w);
    let mut done: Vec<[u64; 2]> = Vec::new();
    while done.len() < w.rounds && !enough(&done, rounds) {
        done.push([round(w, |op, pair| library.call(op, pair)); 2]);
    }
    best(&done).ours
}
