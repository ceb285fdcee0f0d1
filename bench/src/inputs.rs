//! The same inputs for other programs: a file for each list of pairs, and a table of the workloads.

use std::fs::{self, File};
use std::io::{self, BufWriter, Write};
use std::path::Path;
use std::rc::Rc;

use crate::shapes;
use crate::small::TOLERANCE;
use crate::workload::{Pair, Workload};

fn hex(bytes: &[u8]) -> String {
    bytes.iter().map(|byte| format!("{byte:02X}")).collect()
}

/// `list-N`: a pair in each line, two geometries as hexadecimal WKB.
fn write_list(pairs: &[Pair], file: &Path) -> io::Result<()> {
    let mut out = BufWriter::new(File::create(file)?);
    for pair in pairs {
        let [a, b] = [&pair.a, &pair.b].map(|blob| hex(shapes::without_header(blob)));
        writeln!(out, "{a}\t{b}")?;
    }
    out.flush()
}

/// `workloads`: number of the list, operation, passes through the list in a round, calls in a round, most rounds, name.
/// Workloads of several operations, and those by rule 2, are left out. `tolerance`: that of within.
pub fn write(workloads: &[Workload], folder: &Path) -> io::Result<()> {
    fs::create_dir_all(folder)?;
    let mut lists: Vec<&Rc<Vec<Pair>>> = Vec::new();
    let mut table = String::new();
    for w in workloads.iter().filter(|w| w.ops.len() == 1 && w.rule == 1) {
        let number = lists.iter().position(|list| Rc::ptr_eq(list, &w.pairs)).unwrap_or(lists.len());
        if number == lists.len() {
            lists.push(&w.pairs);
            write_list(&w.pairs, &folder.join(format!("list-{number}")))?;
        }
        let (op, most) = (w.ops[0].name(), w.rounds.min(99));
        table += &format!("{number}\t{op}\t{}\t{}\t{most}\t{}\n", w.times, w.calls(), w.name);
    }
    fs::write(folder.join("tolerance"), format!("{TOLERANCE}\n"))?;
    fs::write(folder.join("workloads"), table)
}
