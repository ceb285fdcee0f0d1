use std::error::Error;
use std::fmt;

/// Why a call was refused. The conditions, and which one is given where several hold, are those of `include/viskorrel.h`.
#[derive(Clone, Copy, Debug, PartialEq, Eq, Hash)]
pub struct Refusal {
    /// 1 to 14, 17 where a number was to be a [`Rule`](crate::Rule), 18 and 19 from [`join`](crate::join), 20 to 22 from
    /// [`job`](crate::job). A 15 or 16 (too little was lent) does not reach a caller.
    pub number: u32,
    /// 1 for `a` or the only blob, 2 for `b`, 0 for neither; of a match 1 for its first number, 2 for its second.
    pub side: u32,
}

/// The table of refusals stands in the header: a line has `*`, the number, and after two spaces its words.
const HEADER: &str = include_str!("../../include/viskorrel.h");

impl Refusal {
    /// The condition under which this number is given, in words.
    pub fn condition(&self) -> &'static str {
        let row = format!(" * {:4}  ", self.number);
        HEADER.lines().find_map(|line| line.strip_prefix(&row)).unwrap_or("a number outside the table")
    }
}

impl fmt::Display for Refusal {
    fn fmt(&self, f: &mut fmt::Formatter<'_>) -> fmt::Result {
        write!(f, "refusal {}", self.number)?;
        if self.side != 0 {
            write!(f, ", side {}", self.side)?;
        }
        write!(f, ": {}", self.condition())
    }
}

impl Error for Refusal {}
