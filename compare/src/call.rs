//! One call of an operation: its arguments, and how much memory is lent to it.

#[derive(Debug, Clone, Copy, PartialEq, Eq, PartialOrd, Ord)]
pub enum Op {
    Distance,
    MaxDistance,
    DWithin,
    DFullyWithin,
    Intersects,
    ClosestPoint,
    ShortestLine,
    LongestLine,
    Interpolate,
    Patch,
    Sizes,
    /// Not among the records, whose operations are those before it.
    Read,
}

pub const POINT_LENGTH: usize = 37;
pub const LINE_LENGTH: usize = 65;

impl Op {
    /// Those on two blobs stand first.
    pub const ALL: [Op; 12] = [
        Op::Distance,
        Op::MaxDistance,
        Op::DWithin,
        Op::DFullyWithin,
        Op::Intersects,
        Op::ClosestPoint,
        Op::ShortestLine,
        Op::LongestLine,
        Op::Interpolate,
        Op::Patch,
        Op::Sizes,
        Op::Read,
    ];
    pub const TWO_BLOBS: &[Op] = Op::ALL.split_at(8).0;
    pub const ONE_BLOB: &[Op] = Op::ALL.split_at(8).1;
    /// Those that run the closest sweep.
    pub const BY_RULE: &[Op] = &[Op::Distance, Op::DWithin, Op::Intersects, Op::ClosestPoint, Op::ShortestLine];

    pub fn name(self) -> &'static str {
        match self {
            Op::Distance => "distance",
            Op::MaxDistance => "max_distance",
            Op::DWithin => "dwithin",
            Op::DFullyWithin => "dfully_within",
            Op::Intersects => "intersects",
            Op::ClosestPoint => "closest_point",
            Op::ShortestLine => "shortest_line",
            Op::LongestLine => "longest_line",
            Op::Interpolate => "line_interpolate_point",
            Op::Patch => "patch",
            Op::Sizes => "sizes",
            Op::Read => "read",
        }
    }

    pub fn two_blobs(self) -> bool {
        Op::TWO_BLOBS.contains(&self)
    }

    pub fn takes_rule(self) -> bool {
        Op::BY_RULE.contains(&self)
    }

    pub fn takes_number(self) -> bool {
        matches!(self, Op::DWithin | Op::DFullyWithin | Op::Interpolate)
    }

    /// The length of the blob that it writes.
    pub fn output(self) -> Option<usize> {
        match self {
            Op::ClosestPoint | Op::Interpolate => Some(POINT_LENGTH),
            Op::ShortestLine | Op::LongestLine => Some(LINE_LENGTH),
            _ => None,
        }
    }

    /// How many sides lend a workspace.
    pub fn workspaces(self) -> usize {
        match self {
            Op::Interpolate | Op::Read => 1,
            Op::Patch | Op::Sizes => 0,
            _ => 2,
        }
    }
}

/// How many floats and numbers each side is lent, and how many bytes of output.
#[derive(Debug, Clone, Copy, Default, PartialEq, Eq)]
pub struct Lent {
    pub floats: [usize; 2],
    pub numbers: [usize; 2],
    pub output: usize,
}

#[derive(Debug, Clone)]
pub struct Call {
    pub op: Op,
    pub a: Vec<u8>,
    /// Empty where the operation takes one blob.
    pub b: Vec<u8>,
    /// The distance or the fraction.
    pub number: f64,
    /// The pair rule, of an operation that takes one.
    pub rule: u32,
    /// Which patch.
    pub index: u64,
    pub lent: Lent,
}

fn hex(bytes: &[u8]) -> String {
    bytes.iter().map(|b| format!("{b:02X}")).collect()
}

impl std::fmt::Display for Call {
    fn fmt(&self, f: &mut std::fmt::Formatter<'_>) -> std::fmt::Result {
        write!(f, "{} a={}", self.op.name(), hex(&self.a))?;
        if self.op.two_blobs() {
            write!(f, " b={}", hex(&self.b))?;
        }
        if self.op.takes_number() {
            write!(f, " number={:?} ({:016X})", self.number, self.number.to_bits())?;
        }
        if self.op.takes_rule() {
            write!(f, " rule={}", self.rule)?;
        }
        if self.op == Op::Patch {
            write!(f, " n={}", self.index)?;
        }
        for side in 0..self.op.workspaces() {
            write!(f, " lent{}={}+{}", side + 1, self.lent.floats[side], self.lent.numbers[side])?;
        }
        if self.op.output().is_some() {
            write!(f, " output={}", self.lent.output)?;
        }
        Ok(())
    }
}
