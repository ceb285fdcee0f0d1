//! The results as Markdown tables.

use crate::digits::{self, Digits};
use crate::jobs::{self, Job};
use crate::measure::{Rounds, Run, Times};
use crate::workload::{Table, Workload};

/// With a comma between thousands.
fn grouped(number: f64) -> String {
    let digits = format!("{number:.0}");
    let mut out = String::new();
    for (i, digit) in digits.chars().enumerate() {
        if i > 0 && (digits.len() - i) % 3 == 0 {
            out.push(',');
        }
        out.push(digit);
    }
    out
}

fn heading(table: Table) -> &'static str {
    match table {
        Table::Small => "Small pairs",
        Table::Job => "The whole job: each small pair within, distance, shortest line and longest line in turn",
        Table::Kinds => "Small pairs by kind",
        Table::Large => "Large pairs",
        Table::Rule2 => "Ours by pair rule 2, the original by rule 1",
    }
}

/// What a time is given for: the unit's name and its count in a round.
fn unit(w: &Workload) -> (&'static str, f64) {
    match w.table {
        Table::Job => ("ms a job", 1e6),
        _ => ("ns a call", w.calls() as f64),
    }
}

/// What was measured of a workload.
struct Measured<'a> {
    name: &'a str,
    calls: usize,
    target: Option<f64>,
    times: Times,
}

impl<'a> Measured<'a> {
    fn of(w: &'a Workload, times: Times) -> Measured<'a> {
        Measured { name: &w.name, calls: w.calls(), target: w.target, times }
    }

    fn of_digits(d: &'a Digits, times: Times) -> Measured<'a> {
        Measured { name: d.name, calls: d.numbers.len(), target: d.target, times }
    }

    fn of_job(job: &'a Job, times: Times) -> Measured<'a> {
        Measured { name: &job.name, calls: job.matches(), target: job.target, times }
    }

    fn meets(&self) -> Option<bool> {
        self.target.map(|target| self.times.ratio() <= target)
    }

    /// The row of a table, with times divided by a unit's count.
    fn row(&self, by: f64) -> String {
        let Measured { name, times, .. } = self;
        let target = self.target.map_or(String::new(), |target| format!("{target}"));
        let met = self.meets().map_or("", |met| if met { "yes" } else { "no" });
        let [calls, original, ours] =
            [(self.calls as f64, 1.0), (times.original, by), (times.ours, by)].map(|(number, by)| grouped(number / by));
        format!("| {name} | {calls} | {original} | {ours} | {:.2} | {target} | {met} |", times.ratio())
    }
}

/// Takes the rounds of these. One of each comes in turn, so that a slow spell of the machine falls on all alike.
/// `equal` becomes false where an answer differs.
fn taken<R: Rounds>(made: impl Iterator<Item = Result<R, String>>, rounds: usize, equal: &mut bool) -> Vec<R> {
    let mut runs: Vec<R> = Vec::new();
    for run in made {
        match run {
            Ok(run) => runs.push(run),
            Err(difference) => {
                eprintln!("{difference}");
                *equal = false;
            }
        }
    }
    while runs.iter().any(|run| !run.done(rounds)) {
        runs.iter_mut().filter(|run| !run.done(rounds)).for_each(R::go_on);
    }
    runs
}

/// The heading of a table whose first side has this name.
fn head(title: &str, first: &str, unit: &str) {
    println!("\n{title}:\n");
    println!("| workload | calls in a round | {first}, {unit} | ours, {unit} | ratio | target | met |");
    println!("|---|--:|--:|--:|--:|--:|---|");
}

/// Measures and prints every workload; whether all answers were equal.
pub fn print(workloads: &[Workload], digits: &[Digits], jobs: &[Job], rounds: usize) -> bool {
    let (mut all, mut equal) = (Vec::new(), true);
    for table in Table::ALL {
        let some: Vec<&Workload> = workloads.iter().filter(|w| w.table == table).collect();
        let Some(first) = some.first() else { continue };
        head(heading(table), "original", unit(first).0);
        for run in taken(some.iter().map(|w| Run::new(w)), rounds, &mut equal) {
            println!("{}", Measured::of(run.workload, run.times()).row(unit(run.workload).1));
            all.push((run.workload, run.times()));
        }
    }
    growth(&all);
    let mut list: Vec<Measured> = all.iter().map(|(w, times)| Measured::of(w, *times)).collect();
    if !digits.is_empty() {
        head("Roots digit by digit", "all 53 digits", "ns a call");
        for run in taken(digits.iter().map(digits::Run::new), rounds, &mut equal) {
            let measured = Measured::of_digits(run.digits, run.times());
            println!("{}", measured.row(measured.calls as f64));
            list.push(measured);
        }
    }
    if !jobs.is_empty() {
        head("Jobs, each match beside a single call", "single calls", "ns a match");
        for run in taken(jobs.iter().map(jobs::Run::new), rounds, &mut equal) {
            let measured = Measured::of_job(run.job, run.times());
            println!("{}", measured.row(measured.calls as f64));
            list.push(measured);
        }
    }
    summary(&list, equal);
    equal
}

/// How the cost grows from one size to the next, where a family has several.
fn growth(measured: &[(&Workload, Times)]) {
    let per_call = |w: &Workload, time: f64| time / w.calls() as f64;
    let sized: Vec<(&str, usize, [f64; 2])> = measured
        .iter()
        .filter_map(|(w, t)| w.growth.map(|(f, size)| (f, size, [t.original, t.ours].map(|time| per_call(w, time)))))
        .collect();
    let steps: Vec<_> = sized.iter().zip(sized.iter().skip(1)).filter(|(small, large)| small.0 == large.0).collect();
    if steps.is_empty() {
        return;
    }
    println!("\nGrowth of the cost with the size:\n");
    println!("| family | sizes | original: factor | exponent | ours: factor | exponent |");
    println!("|---|---|--:|--:|--:|--:|");
    for ((family, small, before), (_, large, after)) in steps {
        let (from, to) = (*small as f64, *large as f64);
        let [theirs, ours] = [0, 1].map(|side| {
            let factor = after[side] / before[side];
            format!("{factor:.1} | {:.2}", factor.ln() / (to / from).ln())
        });
        println!("| {family} | {} to {} | {theirs} | {ours} |", grouped(from), grouped(to));
    }
}

fn summary(measured: &[Measured], equal: bool) {
    let aimed: Vec<bool> = measured.iter().filter_map(Measured::meets).collect();
    let met = aimed.iter().filter(|met| **met).count();
    let answers = if equal { "all answers equal" } else { "ANSWERS DIFFER" };
    println!("\n{} workloads, {met} of {} targets met, {answers}", measured.len(), aimed.len());
    if let Some(m) = measured.iter().max_by(|one, other| one.times.spread.total_cmp(&other.times.spread)) {
        println!(
            "Least steady: {}, whose median round took {:.0} % longer than the best",
            m.name,
            100.0 * m.times.spread
        );
    }
}
