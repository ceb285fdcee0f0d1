//! Jobs: many matches on one tape, beside as many single calls of distance.

use std::hint::black_box;

use viskorrel_sys::{ANSWERED, RULE_1, viskorrel_3d_distance, viskorrel_job, viskorrel_sizes};

use crate::measure::{self, Rounds, Times};
use crate::small;

/// A tape, and the same matches as single calls take them.
#[derive(Debug)]
pub struct Job {
    pub name: String,
    tape: Vec<u8>,
    tolerance: f64,
    /// The numbers of each match, and the place of both blobs in `blobs`.
    matches: Vec<([u8; 2], [usize; 2])>,
    blobs: Vec<Vec<u8>>,
    /// The greatest ratio of the job to the single calls that meets the target.
    pub target: Option<f64>,
}

/// So many blobs are loaded, then each is matched with the others, in turn, until there are so many matches.
const GROUP: usize = 10;
const MATCHES: usize = 200;

/// Numbers that are in use; then the first is loaded again.
const NUMBERS: usize = 250;

/// With few hits, which a job keeps until the whole tape is read, and with more, for which it runs the tape twice.
const TARGET: f64 = 1.15;
const TARGET_MANY: f64 = 2.2;

impl Job {
    fn new(name: &str, matches: usize, tolerance: f64, target: Option<f64>) -> Job {
        let groups = matches / MATCHES;
        let pairs = small::whole();
        let blobs: Vec<Vec<u8>> =
            pairs.iter().flat_map(|pair| [pair.a.clone(), pair.b.clone()]).take(groups * GROUP).collect();
        let mut tape = vec![2];
        tape.extend(tolerance.to_le_bytes());
        let mut all = Vec::new();
        for group in 0..groups {
            let place = |i: usize| group * GROUP + i;
            let number = |i: usize| (place(i) % NUMBERS) as u8;
            for i in 0..GROUP {
                tape.extend([1, number(i)]);
                tape.extend((blobs[place(i)].len() as u32).to_le_bytes());
                tape.extend(&blobs[place(i)]);
            }
            let each = (1..GROUP).flat_map(|step| (0..GROUP).map(move |i| (i, (i + step) % GROUP)));
            for (i, j) in each.cycle().take(MATCHES) {
                tape.extend([3, number(i), number(j)]);
                all.push(([number(i), number(j)], [place(i), place(j)]));
            }
        }
        tape.push(4);
        Job { name: name.to_string(), tape, tolerance, matches: all, blobs, target }
    }

    pub fn matches(&self) -> usize {
        self.matches.len()
    }
}

pub fn all() -> Vec<Job> {
    let near = small::TOLERANCE;
    vec![
        Job::new("tape 10000", 10_000, near, Some(TARGET)),
        Job::new("tape 20000", 20_000, near, Some(TARGET)),
        Job::new("tape 40000", 40_000, near, Some(TARGET)),
        Job::new("tape 40000, every match a hit", 40_000, f64::INFINITY, Some(TARGET_MANY)),
    ]
}

/// What is lent, enough for every blob and every match.
struct Lent {
    floats: [Vec<f64>; 2],
    tables: [Vec<u32>; 2],
    first: Vec<u16>,
    second: Vec<u16>,
    distances: Vec<f64>,
}

impl Lent {
    fn new(job: &Job) -> Lent {
        let sizes = job.blobs.iter().map(|blob| unsafe { viskorrel_sizes(blob.as_ptr(), blob.len()) });
        let (floats, table) = sizes.fold((0, 0), |most, size| (most.0.max(size.first), most.1.max(size.second)));
        let places = job.matches();
        Lent {
            floats: [vec![0.0; floats], vec![0.0; floats]],
            tables: [vec![0; table], vec![0; table]],
            first: vec![0; places],
            second: vec![0; places],
            distances: vec![0.0; places],
        }
    }

    /// The number of hits, which stand in the lists.
    fn job(&mut self, job: &Job) -> usize {
        let ([floats1, floats2], [table1, table2]) = (&mut self.floats, &mut self.tables);
        let pair = unsafe {
            viskorrel_job(
                job.tape.as_ptr(),
                job.tape.len(),
                floats1.as_mut_ptr(),
                floats1.len(),
                table1.as_mut_ptr(),
                table1.len(),
                floats2.as_mut_ptr(),
                floats2.len(),
                table2.as_mut_ptr(),
                table2.len(),
                self.first.as_mut_ptr(),
                self.first.len(),
                self.second.as_mut_ptr(),
                self.second.len(),
                self.distances.as_mut_ptr(),
                self.distances.len(),
            )
        };
        assert!(pair.outcome == ANSWERED, "{}: refused with {}", job.name, pair.number);
        pair.first
    }

    /// The same by single calls.
    fn single_calls(&mut self, job: &Job) -> usize {
        let ([floats1, floats2], [table1, table2]) = (&mut self.floats, &mut self.tables);
        let mut hits = 0;
        for ([first, second], places) in &job.matches {
            let [a, b] = places.map(|place| &job.blobs[place]);
            let reply = unsafe {
                viskorrel_3d_distance(
                    a.as_ptr(),
                    a.len(),
                    b.as_ptr(),
                    b.len(),
                    RULE_1,
                    floats1.as_mut_ptr(),
                    floats1.len(),
                    table1.as_mut_ptr(),
                    table1.len(),
                    floats2.as_mut_ptr(),
                    floats2.len(),
                    table2.as_mut_ptr(),
                    table2.len(),
                )
            };
            if reply.outcome == ANSWERED && reply.value <= job.tolerance {
                self.first[hits] = u16::from(*first);
                self.second[hits] = u16::from(*second);
                self.distances[hits] = reply.value;
                hits += 1;
            }
        }
        hits
    }

    /// The time that one of the two takes.
    fn timed(&mut self, call: impl Fn(&mut Lent) -> usize) -> u64 {
        measure::timed(|| {
            black_box(call(self));
        })
    }

    /// The hits in an order of their own: that of a job is open.
    fn sorted(&self, hits: usize) -> Vec<(u16, u16, u64)> {
        let each = self.first.iter().zip(&self.second).zip(&self.distances).take(hits);
        let mut found: Vec<_> = each.map(|((first, second), distance)| (*first, *second, distance.to_bits())).collect();
        found.sort_unstable();
        found
    }
}

/// The rounds of a job so far.
pub struct Run<'a> {
    pub job: &'a Job,
    lent: Lent,
    /// Their times: the single calls', the job's.
    rounds: Vec<[u64; 2]>,
}

impl<'a> Run<'a> {
    /// An error where the hits differ.
    pub fn new(job: &'a Job) -> Result<Run<'a>, String> {
        let mut lent = Lent::new(job);
        let hits = lent.single_calls(job);
        let expected = lent.sorted(hits);
        let hits = lent.job(job);
        if lent.sorted(hits) != expected {
            return Err(format!("{}: {hits} hits, by single calls {}, or others", job.name, expected.len()));
        }
        Ok(Run { job, lent, rounds: Vec::new() })
    }

    /// The best round of each; the single calls stand in the original's place.
    pub fn times(&self) -> Times {
        measure::best(&self.rounds)
    }
}

impl Rounds for Run<'_> {
    fn done(&self, rounds: usize) -> bool {
        measure::enough(&self.rounds, rounds)
    }

    /// One more round: the single calls, then the job.
    fn go_on(&mut self) {
        let (job, lent) = (self.job, &mut self.lent);
        let single = lent.timed(|lent| lent.single_calls(job));
        let ours = lent.timed(|lent| lent.job(job));
        self.rounds.push([single, ours]);
    }
}

/// The job alone: nanoseconds of a match, at best.
pub fn ours_alone(job: &Job, rounds: usize) -> f64 {
    let mut lent = Lent::new(job);
    let best = (0..rounds).map(|_| lent.timed(|lent| lent.job(job))).min().expect("a round");
    best as f64 / job.matches() as f64
}
