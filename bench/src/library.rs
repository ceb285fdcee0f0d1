//! Our library as C sees it, and the memory that is lent to it: allocated once for all calls.

use std::hint::black_box;

use viskorrel_sys::*;

use crate::measure::Answer;
use crate::small::TOLERANCE;
use crate::workload::{Op, Pair, Workload};

/// A side's workspace.
struct Workspace {
    floats: Vec<f64>,
    table: Vec<u32>,
}

impl Workspace {
    /// Room for each of the blobs.
    fn of<'a>(blobs: impl Iterator<Item = &'a Vec<u8>>) -> Workspace {
        let (mut floats, mut table) = (1, 1);
        for blob in blobs {
            let sizes = unsafe { viskorrel_sizes(blob.as_ptr(), blob.len()) };
            assert!(sizes.outcome == ANSWERED, "refused: {} of side {}", sizes.number, sizes.side);
            floats = floats.max(sizes.first);
            table = table.max(sizes.second);
        }
        Workspace { floats: vec![0.0; floats], table: vec![0; table] }
    }
}

pub struct Library {
    rule: u32,
    first: Workspace,
    second: Workspace,
    output: [u8; LINE_BYTES],
}

impl Library {
    pub fn new(w: &Workload) -> Library {
        Library {
            rule: w.rule,
            first: Workspace::of(w.pairs.iter().map(|p| &p.a)),
            second: Workspace::of(w.pairs.iter().map(|p| &p.b)),
            output: [0; LINE_BYTES],
        }
    }

    #[inline]
    fn reply(&mut self, op: Op, pair: &Pair) -> Reply {
        let ((a, al), (b, bl)) = ((pair.a.as_ptr(), pair.a.len()), (pair.b.as_ptr(), pair.b.len()));
        let (f1, f1l, f2, f2l) = lent(&mut self.first.floats, &mut self.second.floats);
        let (t1, t1l, t2, t2l) = lent(&mut self.first.table, &mut self.second.table);
        let (o, ol, d, r) = (self.output.as_mut_ptr(), LINE_BYTES, TOLERANCE, self.rule);
        unsafe {
            match op {
                Op::Distance => viskorrel_3d_distance(a, al, b, bl, r, f1, f1l, t1, t1l, f2, f2l, t2, t2l),
                Op::Within => viskorrel_3d_dwithin(a, al, b, bl, d, r, f1, f1l, t1, t1l, f2, f2l, t2, t2l),
                Op::ShortestLine => {
                    viskorrel_3d_shortest_line(a, al, b, bl, r, f1, f1l, t1, t1l, f2, f2l, t2, t2l, o, ol)
                }
                Op::LongestLine => viskorrel_3d_longest_line(a, al, b, bl, f1, f1l, t1, t1l, f2, f2l, t2, t2l, o, ol),
            }
        }
    }

    /// A call whose answer nobody keeps.
    #[inline]
    pub fn call(&mut self, op: Op, pair: &Pair) {
        black_box(self.reply(op, pair));
        black_box(&self.output);
    }

    pub fn answer(&mut self, op: Op, pair: &Pair) -> Answer {
        let reply = self.reply(op, pair);
        match (reply.outcome, op) {
            (NOTHING | ANSWERED, Op::Within) => Answer::Truth(reply.outcome == ANSWERED),
            (NOTHING, _) => Answer::Nothing,
            (ANSWERED, Op::Distance) => Answer::Number(reply.value),
            (ANSWERED, _) => Answer::Line(self.output.to_vec()),
            _ => panic!("refused: {} of side {}", reply.number, reply.side),
        }
    }
}

fn lent<T>(first: &mut [T], second: &mut [T]) -> (*mut T, usize, *mut T, usize) {
    (first.as_mut_ptr(), first.len(), second.as_mut_ptr(), second.len())
}
