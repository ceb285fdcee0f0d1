//! Our library as C sees it, and the memory that is lent to it. Nothing else in the comparison knows its interface.

use viskorrel_sys::*;

use crate::call::{Call, Op};

/// A lent slice that stands between guards, which no call may change.
#[derive(Debug, Clone)]
pub struct Slice<T> {
    all: Vec<T>,
    length: usize,
}

const GUARD: usize = 8;

impl<T: Copy> Slice<T> {
    fn new(length: usize, mark: impl Fn(usize) -> T) -> Self {
        Slice { all: (0..length + 2 * GUARD).map(mark).collect(), length }
    }
    fn lent(&mut self) -> (*mut T, usize) {
        let length = self.length;
        (self.all[GUARD..GUARD + length].as_mut_ptr(), length)
    }
    pub fn get(&self) -> &[T] {
        &self.all[GUARD..GUARD + self.length]
    }
    /// The first `n` of the slice, and everything else with its guards.
    pub fn split(&self, n: usize) -> (&[T], [&[T]; 2]) {
        let (before, rest) = self.all.split_at(GUARD);
        let (used, after) = rest.split_at(n);
        (used, [before, after])
    }
}

/// Everything that a call is lent.
#[derive(Debug, Clone)]
pub struct Memory {
    pub floats: [Slice<f64>; 2],
    pub numbers: [Slice<u32>; 2],
    pub output: Slice<u8>,
}

fn mixed(n: usize) -> u64 {
    (n as u64 + 1).wrapping_mul(0x9E37_79B9_7F4A_7C15)
}

impl Memory {
    /// Filled with marks that depend on `turn`, some of them NaN.
    pub fn new(call: &Call, turn: usize) -> Memory {
        let float = |i: usize| {
            let bits = mixed(turn + i);
            f64::from_bits(if bits & 8 == 0 { bits | 0x7FF0_0000_0000_0000 } else { bits })
        };
        let number = |i: usize| mixed(turn + i) as u32;
        let byte = |i: usize| mixed(turn + i) as u8;
        let lent = call.lent;
        Memory {
            floats: lent.floats.map(|n| Slice::new(n, float)),
            numbers: lent.numbers.map(|n| Slice::new(n, number)),
            output: Slice::new(lent.output, byte),
        }
    }
}

#[derive(Debug, Clone, Copy, PartialEq)]
pub enum Returned {
    Nothing,
    Number(f64),
    Truth(bool),
    Written,
    Part(usize, usize),
    NoSurface,
    Lengths(usize, usize),
    Refused(u32, u32),
    /// An outcome that the interface does not have.
    Unknown(u32),
}

/// Calls the library.
pub fn run(call: &Call, memory: &mut Memory) -> Returned {
    let ((a, al), (b, bl)) = ((call.a.as_ptr(), call.a.len()), (call.b.as_ptr(), call.b.len()));
    let [f1, f2] = &mut memory.floats;
    let [t1, t2] = &mut memory.numbers;
    let ((f1, f1l), (t1, t1l), (f2, f2l), (t2, t2l)) = (f1.lent(), t1.lent(), f2.lent(), t2.lent());
    let (o, ol) = memory.output.lent();
    let (x, rule) = (call.number, call.rule);
    let reply = unsafe {
        match call.op {
            Op::Distance => viskorrel_3d_distance(a, al, b, bl, rule, f1, f1l, t1, t1l, f2, f2l, t2, t2l),
            Op::MaxDistance => viskorrel_3d_max_distance(a, al, b, bl, f1, f1l, t1, t1l, f2, f2l, t2, t2l),
            Op::Intersects => viskorrel_3d_intersects(a, al, b, bl, rule, f1, f1l, t1, t1l, f2, f2l, t2, t2l),
            Op::DWithin => viskorrel_3d_dwithin(a, al, b, bl, x, rule, f1, f1l, t1, t1l, f2, f2l, t2, t2l),
            Op::DFullyWithin => viskorrel_3d_dfully_within(a, al, b, bl, x, f1, f1l, t1, t1l, f2, f2l, t2, t2l),
            Op::ClosestPoint => {
                viskorrel_3d_closest_point(a, al, b, bl, rule, f1, f1l, t1, t1l, f2, f2l, t2, t2l, o, ol)
            }
            Op::ShortestLine => {
                viskorrel_3d_shortest_line(a, al, b, bl, rule, f1, f1l, t1, t1l, f2, f2l, t2, t2l, o, ol)
            }
            Op::LongestLine => viskorrel_3d_longest_line(a, al, b, bl, f1, f1l, t1, t1l, f2, f2l, t2, t2l, o, ol),
            Op::Interpolate => viskorrel_3d_line_interpolate_point(a, al, x, f1, f1l, t1, t1l, o, ol),
            Op::Patch => return returned_pair(viskorrel_patch(a, al, call.index), Returned::Part),
            Op::Sizes => return returned_pair(viskorrel_sizes(a, al), Returned::Lengths),
            Op::Read => return returned_pair(viskorrel_read(a, al, f1, f1l, t1, t1l), Returned::Lengths),
        }
    };
    returned(call.op, reply)
}

fn returned(op: Op, reply: Reply) -> Returned {
    let predicate = matches!(op, Op::DWithin | Op::DFullyWithin | Op::Intersects);
    match reply.outcome {
        REFUSED => Returned::Refused(reply.number, reply.side),
        NOTHING if predicate => Returned::Truth(false),
        ANSWERED if predicate => Returned::Truth(true),
        NOTHING => Returned::Nothing,
        ANSWERED if op.output().is_some() => Returned::Written,
        ANSWERED => Returned::Number(reply.value),
        other => Returned::Unknown(other),
    }
}

fn returned_pair(pair: Pair, answer: fn(usize, usize) -> Returned) -> Returned {
    match pair.outcome {
        NOTHING => Returned::Nothing,
        ANSWERED => answer(pair.first, pair.second),
        REFUSED => Returned::Refused(pair.number, pair.side),
        NO_SURFACE => Returned::NoSurface,
        other => Returned::Unknown(other),
    }
}
