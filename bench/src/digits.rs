//! Roots digit by digit: our library, which ends with the last digit that is needed, beside the same loop to its end.

use std::hint::black_box;

use viskorrel_sys::viskorrel_root_digits;

use crate::measure::{self, Rounds, Times};
use crate::random::Random;

/// Numbers whose roots are taken one after the other.
#[derive(Debug)]
pub struct Digits {
    pub name: &'static str,
    pub numbers: Vec<f64>,
    /// The greatest ratio of ours to the whole loop that meets the target.
    pub target: Option<f64>,
}

const COUNT: usize = 40_000;
const SEED: u64 = 1;

/// At least three times as fast.
const TARGET: f64 = 0.333;

/// Squares of 1 to 1023, whose roots have up to ten binary digits, as spans in whole metres along one axis have them.
fn squares() -> Vec<f64> {
    let random = &mut Random::new(SEED);
    (0..COUNT).map(|_| random.range(1, 1023).pow(2) as f64).collect()
}

/// Sums of three squares, of differences up to 40 metres to the millimetre, without those whose root is exact: of these
/// alone the root's square less the sum, rounded once, is 0.
fn others() -> Vec<f64> {
    let random = &mut Random::new(SEED);
    let mut square = || (random.range(1, 40_000) as f64 / 1000.0).powi(2);
    let sums = std::iter::repeat_with(|| square() + square() + square());
    sums.filter(|s| s.sqrt().mul_add(s.sqrt(), -s) != 0.0).take(COUNT).collect()
}

pub fn all() -> Vec<Digits> {
    vec![
        Digits { name: "digits of exact roots", numbers: squares(), target: Some(TARGET) },
        Digits { name: "digits of other roots", numbers: others(), target: None },
    ]
}

const UNIT: u64 = 1 << 52;

/// The whole root of m * 2^52 and the remainder, by all 53 turns: `root_digits` of `crates/ieee754` without its early
/// end, as it was before 0.4.0.
fn all_digits(m: u64) -> (u64, u64) {
    let (mut q, mut rest, mut x) = (0, 0, m);
    for _ in 0..53 {
        let d = x / UNIT;
        x = x % UNIT * 4;
        rest = rest * 4 + d;
        let t = q * 4 + 1;
        q *= 2;
        if t <= rest {
            rest -= t;
            q += 1;
        }
    }
    (q, rest)
}

/// A significand of 53 binary digits and an exponent, by `normalized` of `crates/ieee754`.
fn normalized(bits: u64) -> (u64, u64) {
    let (field, mut m) = (bits / UNIT, bits % UNIT);
    if field != 0 {
        return (m + UNIT, field + 51);
    }
    let mut exponent = 52;
    while m < UNIT {
        m *= 2;
        exponent -= 1;
    }
    (m, exponent)
}

/// The root with all its digits. Called like an export: nothing of it is moved into the loop of a round.
#[inline(never)]
extern "C" fn whole_loop(s: f64) -> f64 {
    if !(0.0 < s && s < f64::INFINITY) {
        return s.sqrt();
    }
    let (m, exponent) = normalized(s.to_bits());
    let g = exponent + 1022;
    let (digits, remainder) = all_digits(if g % 2 == 1 { m * 2 } else { m });
    f64::from_bits((g / 2 - 26) * UNIT + digits + u64::from(digits < remainder))
}

#[inline]
fn ours(s: f64) -> f64 {
    unsafe { viskorrel_root_digits(s) }.root
}

/// One round: the root of every number, and the time that all took.
fn round(numbers: &[f64], root: impl Fn(f64) -> f64) -> u64 {
    measure::timed(|| {
        for s in numbers {
            black_box(root(*s));
        }
    })
}

/// The rounds of some numbers so far.
pub struct Run<'a> {
    pub digits: &'a Digits,
    /// Their times: the whole loop's, ours.
    rounds: Vec<[u64; 2]>,
}

impl<'a> Run<'a> {
    /// An error where a root differs.
    pub fn new(digits: &'a Digits) -> Result<Run<'a>, String> {
        match digits.numbers.iter().find(|s| whole_loop(**s).to_bits() != ours(**s).to_bits()) {
            None => Ok(Run { digits, rounds: Vec::new() }),
            Some(s) => {
                Err(format!("{}: the root of {s:e} differs: {:e}, ours {:e}", digits.name, whole_loop(*s), ours(*s)))
            }
        }
    }

    /// The best round of each; the whole loop stands in the original's place.
    pub fn times(&self) -> Times {
        measure::best(&self.rounds)
    }
}

impl Rounds for Run<'_> {
    fn done(&self, rounds: usize) -> bool {
        measure::enough(&self.rounds, rounds)
    }

    /// One more round: the whole loop, then ours.
    fn go_on(&mut self) {
        let numbers = &self.digits.numbers;
        self.rounds.push([round(numbers, |s| whole_loop(s)), round(numbers, ours)]);
    }
}

/// Our side alone: nanoseconds of a call, at best.
pub fn ours_alone(digits: &Digits, rounds: usize) -> f64 {
    let best = (0..rounds).map(|_| round(&digits.numbers, ours)).min().expect("a round");
    best as f64 / digits.numbers.len() as f64
}
