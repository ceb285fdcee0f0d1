//! Times the original and our library on the same calls.

mod digits;
#[allow(dead_code)]
#[path = "../../compare/src/encode.rs"]
mod encode;
mod inputs;
mod jobs;
mod large;
mod library;
mod measure;
mod original_side;
#[allow(dead_code)]
#[path = "../../compare/src/random.rs"]
mod random;
mod shapes;
mod small;
mod table;
mod workload;

use std::path::Path;
use std::process::ExitCode;

use digits::Digits;
use jobs::Job;
use workload::Workload;

const USAGE: &str = "bench compare ROUNDS NAME
bench ours ROUNDS NAME
bench inputs FOLDER NAME";

/// The workload of this name; where there is none, those whose name contains it.
fn named(name: &str) -> (Vec<Workload>, Vec<Digits>, Vec<Job>) {
    let name = name.to_lowercase();
    let (mut pairs, mut roots, mut tapes) = (workload::all(), digits::all(), jobs::all());
    let exact = pairs.iter().any(|w| w.name.to_lowercase() == name)
        || roots.iter().any(|d| d.name == name)
        || tapes.iter().any(|job| job.name == name);
    let wanted = |of: &str| if exact { of.to_lowercase() == name } else { of.to_lowercase().contains(&name) };
    pairs.retain(|w| wanted(&w.name));
    roots.retain(|d| wanted(d.name));
    tapes.retain(|job| wanted(&job.name));
    if pairs.is_empty() && roots.is_empty() && tapes.is_empty() {
        eprintln!("no workload has a name with {name:?}");
        std::process::exit(2);
    }
    (pairs, roots, tapes)
}

/// Our side alone, nothing compared: for a profiler, and for other comparisons. Nanoseconds of a call, and the name.
fn ours(workloads: &[Workload], digits: &[Digits], jobs: &[Job], rounds: usize) {
    for w in workloads {
        println!("{:.0}\t{}", measure::ours_alone(w, rounds) / w.calls() as f64, w.name);
    }
    for d in digits {
        println!("{:.1}\t{}", digits::ours_alone(d, rounds), d.name);
    }
    for job in jobs {
        println!("{:.1}\t{}", jobs::ours_alone(job, rounds), job.name);
    }
}

fn main() -> ExitCode {
    let words: Vec<String> = std::env::args().skip(1).collect();
    let words: Vec<&str> = words.iter().map(String::as_str).collect();
    let rounds = |word: &str| word.parse::<usize>().expect("a number of rounds").max(1);
    let equal = match words[..] {
        ["compare", n, name] => {
            let (pairs, roots, tapes) = named(name);
            table::print(&pairs, &roots, &tapes, rounds(n))
        }
        ["ours", n, name] => {
            let (pairs, roots, tapes) = named(name);
            ours(&pairs, &roots, &tapes, rounds(n));
            true
        }
        ["inputs", folder, name] => {
            inputs::write(&named(name).0, Path::new(folder)).expect("the folder can be written");
            true
        }
        _ => {
            eprintln!("{USAGE}");
            return ExitCode::from(2);
        }
    };
    if equal { ExitCode::SUCCESS } else { ExitCode::FAILURE }
}
