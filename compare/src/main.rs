//! Feeds the original and our library the same calls and compares every result.
//!
//!     compare CALLS SEED [SAMPLES]                  compares at least CALLS calls, by rule 1
//!     compare rule2 CALLS SEED [SAMPLES]            the same by rule 2, beside its words over the original's parts
//!     compare records FOLDER COUNT SEED [SAMPLES]   writes a list of the original's answers

mod call;
mod cases;
mod check;
mod crossings;
mod encode;
mod library;
mod m;
mod oracle;
mod random;
mod records;
mod shapes;
mod shrink;

use std::collections::BTreeMap;
use std::path::Path;
use std::process::ExitCode;

use call::{Call, Op};
use cases::{Case, Rules};
use oracle::{Answer, Expected, Side, Source};
use random::Random;
use records::Records;

/// How many calls on which the sides disagree are made smaller and shown, for each operation.
const SHOWN: usize = 3;

#[derive(Default)]
struct Report {
    calls: usize,
    /// Calls, and those of them that a crossing decides.
    classes: BTreeMap<&'static str, [usize; 2]>,
    outcomes: BTreeMap<(Op, String), usize>,
    refusals: BTreeMap<(u32, u32), usize>,
    sources: BTreeMap<Source, usize>,
    disagreements: BTreeMap<Op, usize>,
    held: Held,
}

/// Coordinates of the workspaces that were compared, and what their m was.
#[derive(Default)]
struct Held {
    coordinates: usize,
    with_m: usize,
    nan: usize,
    minus_zero: usize,
    subnormal: usize,
}

impl Held {
    fn count(&mut self, m: &[Option<f64>]) {
        self.coordinates += m.len();
        for m in m.iter().flatten() {
            self.with_m += 1;
            self.nan += usize::from(m.is_nan());
            self.minus_zero += usize::from(m.to_bits() == 1 << 63);
            self.subnormal += usize::from(m.is_subnormal());
        }
    }
}

fn outcome(answer: &Answer) -> String {
    match answer {
        Answer::Nothing => "nothing".into(),
        Answer::Number(x) if x.is_nan() => "NaN".into(),
        Answer::Number(x) if *x == 0.0 => "zero".into(),
        Answer::Number(x) if x.is_infinite() => "infinite".into(),
        Answer::Number(_) => "number".into(),
        Answer::Truth(true) => "yes".into(),
        Answer::Truth(false) => "no".into(),
        Answer::Blob(_) | Answer::PointSomewhere(_) => "blob".into(),
        Answer::Part(..) => "part".into(),
        Answer::NoSurface => "no surface".into(),
        Answer::Lengths(..) => "lengths".into(),
        Answer::Refused(number, side) => format!("refused {number}.{side}"),
    }
}

impl Report {
    fn count(&mut self, class: &'static str, op: Op, expected: &Expected, sides: [&Side; 2]) {
        self.calls += 1;
        if !matches!(expected.answer, Answer::Refused(..)) {
            for read in sides.iter().take(op.workspaces()).flat_map(|side| &side.read) {
                self.held.count(&read.m);
            }
        }
        let [calls, crossing] = self.classes.entry(class).or_default();
        *calls += 1;
        *crossing += usize::from(expected.source == Source::Rule2Crossing);
        let label = match expected.answer {
            Answer::Refused(number, side) => {
                *self.refusals.entry((number, side)).or_default() += 1;
                "refused".into()
            }
            _ => outcome(&expected.answer),
        };
        *self.outcomes.entry((op, label)).or_default() += 1;
        *self.sources.entry(expected.source).or_default() += 1;
    }

    fn disagree(&mut self, class: &'static str, call: &Call, what: &str) {
        let seen = self.disagreements.entry(call.op).or_default();
        *seen += 1;
        if *seen > SHOWN {
            return;
        }
        println!("\ndisagreement ({class}): {what}\n  {call}");
        let small = shrink::shrink(call.clone(), &mut |call| difference(call).is_some());
        println!("  smallest: {small}\n  {}", difference(&small).expect("still differs"));
    }

    fn print(&self) {
        println!("\ncalls for each operation:");
        for op in Op::ALL {
            let of = self.outcomes.iter().filter(|((o, _), _)| *o == op);
            let total: usize = of.clone().map(|(_, n)| n).sum();
            let parts: Vec<String> = of.map(|((_, label), n)| format!("{label} {n}")).collect();
            println!("  {:24}{total:9}   {}", op.name(), parts.join(", "));
        }
        println!("calls for each class of case:");
        for (class, [calls, crossing]) in &self.classes {
            let decided = if *crossing == 0 { String::new() } else { format!("   by a crossing {crossing}") };
            println!("  {class:24}{calls:9}{decided}");
        }
        println!("refusals, number.side:");
        let list: Vec<String> =
            self.refusals.iter().map(|((number, side), n)| format!("{number}.{side} {n}")).collect();
        println!("  {}", list.join(", "));
        println!("where the expected answer comes from:");
        for source in Source::ALL {
            println!("  {:56}{:9}", source.name(), self.sources.get(&source).unwrap_or(&0));
        }
        let Held { coordinates, with_m, nan, minus_zero, subnormal } = self.held;
        println!("coordinates of compared workspaces: {coordinates}, of them with an m of their own: {with_m}");
        println!("  (NaN {nan}, -0 {minus_zero}, subnormal {subnormal})");
        for (op, n) in &self.disagreements {
            println!("disagreements of {}: {n}", op.name());
        }
        let disagreements: usize = self.disagreements.values().sum();
        println!("{} calls compared, {disagreements} disagreements", self.calls);
    }
}

/// What differs on a single call.
fn difference(call: &Call) -> Option<String> {
    let (a, b) = (Side::new(&call.a), Side::new(&call.b));
    check::check(call, &oracle::expected(call, &a, &b), [&a, &b], 1)
}

/// All fixed cases, then drawn ones for as long as `run` says.
fn every_case(rules: Rules, random: &mut Random, samples: &[Vec<u8>], run: &mut dyn FnMut(Case) -> bool) {
    let mut fixed = |case: Case| {
        run(case);
    };
    cases::fixtures(&mut fixed);
    cases::samples(samples, random, &mut fixed);
    if rules == Rules::One {
        cases::short_blobs(&mut fixed);
        cases::headers(&mut fixed);
        cases::type_codes(random, &mut fixed);
    } else {
        crossings::fixtures(&mut fixed);
    }
    let drawn = if rules == Rules::One { cases::drawn } else { crossings::drawn };
    let mut more = true;
    while more {
        drawn(random, &mut |case| more = run(case));
    }
}

fn compare(rules: Rules, least: usize, seed: u64, samples: &[Vec<u8>]) -> bool {
    let mut report = Report::default();
    let numbers = &mut Random::new(seed ^ 0x5EED);
    every_case(rules, &mut Random::new(seed), samples, &mut |case| {
        let sides = [&Side::new(&case.a), &Side::new(&case.b)];
        for call in case.calls(sides[0], sides[1], rules, numbers) {
            let expected = oracle::expected(&call, sides[0], sides[1]);
            report.count(case.class, call.op, &expected, sides);
            if let Some(what) = check::check(&call, &expected, sides, report.calls) {
                report.disagree(case.class, &call, &what);
            }
        }
        report.calls < least
    });
    report.print();
    report.disagreements.is_empty()
}

fn write_records(folder: &str, count: usize, seed: u64, samples: &[Vec<u8>]) -> std::io::Result<()> {
    let mut records = Records::default();
    let numbers = &mut Random::new(seed ^ 0x5EED);
    let mut cases = 0;
    every_case(Rules::One, &mut Random::new(seed), samples, &mut |case| {
        cases += 1;
        let sides = [&Side::new(&case.a), &Side::new(&case.b)];
        for call in case.calls(sides[0], sides[1], Rules::One, numbers) {
            let expected = oracle::expected(&call, sides[0], sides[1]);
            records.offer(case.class, outcome(&expected.answer), &call, &expected, sides);
        }
        records.count < count && cases < 1_000_000
    });
    records.write(Path::new(folder))?;
    println!("{} records written", records.count);
    Ok(())
}

/// The blobs of a file, each a little-endian u32 length and its bytes.
fn read_samples(path: &str) -> std::io::Result<Vec<Vec<u8>>> {
    let all = std::fs::read(path)?;
    let (mut rest, mut blobs) = (&all[..], Vec::new());
    while let Some((length, after)) = rest.split_first_chunk() {
        let length = u32::from_le_bytes(*length) as usize;
        blobs.push(after[..length].to_vec());
        rest = &after[length..];
    }
    Ok(blobs)
}

fn main() -> ExitCode {
    oracle::quiet_panics();
    let words: Vec<String> = std::env::args().skip(1).collect();
    let words: Vec<&str> = words.iter().map(String::as_str).collect();
    let number = |word: &str| word.parse::<u64>().expect("a whole number");
    let blobs = |path: &str| read_samples(path).expect("the samples can be read");
    let given = |samples: &[&str]| samples.first().map_or(Vec::new(), |path| blobs(path));
    let good = match words[..] {
        ["records", folder, count, seed, ref samples @ ..] => {
            let samples = given(samples);
            write_records(folder, number(count) as usize, number(seed), &samples).expect("the folder can be written");
            true
        }
        ["rule2", calls, seed, ref samples @ ..] => {
            compare(Rules::Drawn, number(calls) as usize, number(seed), &given(samples))
        }
        [calls, seed, ref samples @ ..] => compare(Rules::One, number(calls) as usize, number(seed), &given(samples)),
        _ => panic!("compare [rule2] CALLS SEED [SAMPLES], or compare records FOLDER COUNT SEED [SAMPLES]"),
    };
    if good { ExitCode::SUCCESS } else { ExitCode::FAILURE }
}
