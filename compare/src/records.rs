//! Writes a list of the original's answers, which a program that needs no Rust replays.
//!
//! A file for each operation; records one after another, every number little-endian, no padding:
//!
//!     u32       the operation: 0 distance, 1 max_distance, 2 dwithin, 3 dfully_within, 4 intersects, 5 closest_point,
//!               6 shortest_line, 7 longest_line, 8 line_interpolate_point, 9 patch, 10 sizes
//!     u32 x 4   lengths: a, b, lent output, expected output bytes
//!     u32 x 4   lent floats and numbers of side 1, then of side 2
//!     u32 x 4   floats and numbers that the workspaces hold afterwards, in the same order (0 where refused)
//!     u32 x 3   case (0 nothing or no, 1 answered or yes, 2 refused, 3 no surface), refusal's number, its side
//!     u32       the pair rule, 1; 0 where the operation takes none
//!     u64       the distance's or fraction's pattern, or which patch
//!     u64 x 2   the answered number's pattern and 0; or a part's start and end; or the lengths to lend
//!     bytes     a; b; expected output; floats held on side 1 as u64 patterns; its numbers as u32; the same of side 2
//!
//! The floats held are x, y, z of the original and m of the blob's own bytes, 0 where it has none. A NaN is
//! 7FF8000000000000: any NaN in a workspace or an answered number agrees with it.

use std::collections::BTreeMap;
use std::fs;
use std::path::Path;

use crate::call::{Call, Op};
use crate::oracle::{Answer, Expected, Side, Source};

/// The most bytes of a file: `replay` holds it whole.
const FILE_LENGTH: usize = 1 << 18;
/// The most bytes of a record.
const RECORD_LENGTH: usize = 1200;
/// The most floats and numbers that `replay` can lend a side.
const LENT: (usize, usize) = (256, 64);

#[derive(Default)]
pub struct Records {
    files: BTreeMap<Op, Vec<u8>>,
    /// How many records there are of each operation, class and outcome.
    taken: BTreeMap<(Op, &'static str, String), usize>,
    pub count: usize,
}

fn pattern(x: f64) -> u64 {
    if x.is_nan() { 0x7FF8_0000_0000_0000 } else { x.to_bits() }
}

fn record(call: &Call, expected: &Expected, sides: [&Side; 2]) -> Vec<u8> {
    let mut words: Vec<u32> = Vec::new();
    let (case, number, side, first, second, output): (u32, u32, u32, u64, u64, &[u8]) = match &expected.answer {
        Answer::Nothing | Answer::Truth(false) => (0, 0, 0, 0, 0, &[]),
        Answer::Truth(true) => (1, 0, 0, 0, 0, &[]),
        Answer::Number(x) => (1, 0, 0, pattern(*x), 0, &[]),
        Answer::Blob(blob) => (1, 0, 0, 0, 0, blob),
        Answer::Part(s, e) | Answer::Lengths(s, e) => (1, 0, 0, *s as u64, *e as u64, &[]),
        Answer::NoSurface => (3, 0, 0, 0, 0, &[]),
        Answer::Refused(number, side) => (2, *number, *side, 0, 0, &[]),
        Answer::PointSomewhere(_) => unreachable!("not an answer of the original"),
    };
    let lent = call.lent;
    let workspaces = call.op.workspaces();
    let lent_output = if call.op.output().is_some() { lent.output } else { 0 };
    words.extend([call.op as usize, call.a.len(), call.b.len(), lent_output, output.len()].map(|n| n as u32));
    for i in 0..2 {
        let lends = i < workspaces;
        words.extend(if lends { [lent.floats[i] as u32, lent.numbers[i] as u32] } else { [0, 0] });
    }
    let mut held = Vec::new();
    for (i, side) in sides.into_iter().enumerate() {
        let read = if i < workspaces && case != 2 { side.read.as_ref().ok() } else { None };
        words.extend(read.map_or([0, 0], |r| [r.lengths().0 as u32, r.lengths().1 as u32]));
        if let Some(read) = read {
            held.extend(read.floats().iter().flat_map(|x| pattern(*x).to_le_bytes()));
            held.extend(read.numbers.iter().flat_map(|n| n.to_le_bytes()));
        }
    }
    words.extend([case, number, side, if call.op.takes_rule() { call.rule } else { 0 }]);
    let argument = if call.op == Op::Patch { call.index } else { pattern(call.number) };
    let mut out: Vec<u8> = words.iter().flat_map(|n| n.to_le_bytes()).collect();
    out.extend([argument, first, second].iter().flat_map(|n| n.to_le_bytes()));
    out.extend(&call.a);
    out.extend(&call.b);
    out.extend(output);
    out.extend(held);
    out
}

impl Records {
    /// Takes the call in, unless enough of its sort are there.
    pub fn offer(&mut self, class: &'static str, outcome: String, call: &Call, expected: &Expected, sides: [&Side; 2]) {
        if matches!(expected.source, Source::StopsEarly | Source::Panics) || call.op == Op::Read {
            return;
        }
        if call.lent.floats.iter().any(|n| *n > LENT.0) || call.lent.numbers.iter().any(|n| *n > LENT.1) {
            return;
        }
        let enough = if matches!(expected.answer, Answer::Refused(..)) { 5 } else { 25 };
        let taken = self.taken.entry((call.op, class, outcome)).or_default();
        if *taken >= enough {
            return;
        }
        let bytes = record(call, expected, sides);
        let file = self.files.entry(call.op).or_default();
        if bytes.len() <= RECORD_LENGTH && file.len() + bytes.len() <= FILE_LENGTH {
            *taken += 1;
            self.count += 1;
            file.extend(bytes);
        }
    }

    pub fn write(&self, folder: &Path) -> std::io::Result<()> {
        fs::create_dir_all(folder)?;
        for (op, bytes) in &self.files {
            fs::write(folder.join(op.name()), bytes)?;
        }
        Ok(())
    }
}
