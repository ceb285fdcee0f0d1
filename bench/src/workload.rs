//! What is measured: which calls, how often, and what is hoped for.

use std::rc::Rc;

use crate::{large, small};

#[derive(Debug, Clone, Copy, PartialEq, Eq)]
pub enum Op {
    Distance,
    Within,
    ShortestLine,
    LongestLine,
}

impl Op {
    pub const ALL: [Op; 4] = [Op::Within, Op::Distance, Op::ShortestLine, Op::LongestLine];
    /// Those that take a rule.
    pub const BY_RULE: [Op; 3] = [Op::Within, Op::Distance, Op::ShortestLine];

    pub fn name(self) -> &'static str {
        match self {
            Op::Distance => "distance",
            Op::Within => "within",
            Op::ShortestLine => "shortest line",
            Op::LongestLine => "longest line",
        }
    }
}

/// Two blobs.
#[derive(Debug)]
pub struct Pair {
    pub a: Vec<u8>,
    pub b: Vec<u8>,
}

/// The table in which a workload is shown.
#[derive(Debug, Clone, Copy, PartialEq, Eq)]
pub enum Table {
    Small,
    Job,
    Kinds,
    Large,
    Rule2,
}

impl Table {
    pub const ALL: [Table; 5] = [Table::Small, Table::Job, Table::Kinds, Table::Large, Table::Rule2];
}

#[derive(Debug)]
pub struct Workload {
    pub name: String,
    pub table: Table,
    /// Every pair goes through these in turn.
    pub ops: Vec<Op>,
    /// The pair rule of our side; the original has rule 1 alone.
    pub rule: u32,
    pub pairs: Rc<Vec<Pair>>,
    /// How often a round goes through all pairs.
    pub times: usize,
    /// At most so many rounds.
    pub rounds: usize,
    /// The greatest ratio of ours to the original that meets the target.
    pub target: Option<f64>,
    /// The family whose growth is shown, and the size in it.
    pub growth: Option<(&'static str, usize)>,
}

impl Workload {
    /// The calls of a round.
    pub fn calls(&self) -> usize {
        self.times * self.pairs.len() * self.ops.len()
    }
}

/// Every workload, in the order of the tables.
pub fn all() -> Vec<Workload> {
    let mut list = small::workloads();
    list.extend(large::workloads());
    list
}
