//! Makes a call on which the two sides disagree smaller, as long as they still disagree.

use crate::call::Call;

const TRIALS: usize = 300_000;

struct Shrink<'a> {
    call: Call,
    differs: &'a mut dyn FnMut(&Call) -> bool,
    trials: usize,
}

impl Shrink<'_> {
    /// Keeps the changed call if the two sides still disagree on it.
    fn attempt(&mut self, change: impl FnOnce(&mut Call)) -> bool {
        if self.trials == TRIALS {
            return false;
        }
        self.trials += 1;
        let mut call = self.call.clone();
        change(&mut call);
        let kept = (self.differs)(&call);
        if kept {
            self.call = call;
        }
        kept
    }

    /// Takes bytes out of a blob: alone, or with a count before them made less by one.
    fn cut(&mut self, second: bool) -> bool {
        let all = blob(&mut self.call, second).clone();
        let counts: Vec<usize> = (0..all.len().saturating_sub(3)).filter(|at| count_at(&all, *at).is_some()).collect();
        for length in (1..=all.len()).rev() {
            for start in 0..=all.len() - length {
                let cut = |call: &mut Call| drop(blob(call, second).drain(start..start + length));
                if self.attempt(cut) {
                    return true;
                }
                for &at in counts.iter().filter(|at| **at + 4 <= start) {
                    let fewer = |call: &mut Call| {
                        blob(call, second)[at..at + 4].copy_from_slice(&count_at(&all, at).expect("a count"));
                        cut(call);
                    };
                    if self.attempt(fewer) {
                        return true;
                    }
                }
            }
        }
        false
    }

    /// Puts plain numbers and zeros in place of others.
    fn plainer(&mut self, second: bool) -> bool {
        let mut changed = false;
        for at in 0..blob(&mut self.call, second).len() {
            for x in [0.0f64, 1.0, 2.0, 3.0] {
                let old = blob(&mut self.call, second).get(at..at + 8).map(<[u8]>::to_vec);
                let Some(old) = old else { continue };
                let plain = |v: f64| [0.0f64, 1.0, 2.0, 3.0].iter().position(|p| p.to_bits() == v.to_bits());
                let now = plain(f64::from_le_bytes(old.try_into().expect("eight bytes")));
                if now.is_none_or(|now| x < now as f64) {
                    changed |= self.attempt(|call| blob(call, second)[at..at + 8].copy_from_slice(&x.to_le_bytes()));
                }
            }
            if blob(&mut self.call, second)[at] != 0 {
                changed |= self.attempt(|call| blob(call, second)[at] = 0);
            }
        }
        changed
    }
}

fn blob(call: &mut Call, second: bool) -> &mut Vec<u8> {
    if second { &mut call.b } else { &mut call.a }
}

/// The bytes of a small count at this place, less by one.
fn count_at(blob: &[u8], at: usize) -> Option<[u8; 4]> {
    let raw: [u8; 4] = blob[at..at + 4].try_into().expect("four bytes");
    let small = |n: u32| (1..=4096).contains(&n);
    match (u32::from_le_bytes(raw), u32::from_be_bytes(raw)) {
        (n, _) if small(n) => Some((n - 1).to_le_bytes()),
        (_, n) if small(n) => Some((n - 1).to_be_bytes()),
        _ => None,
    }
}

pub fn shrink(call: Call, differs: &mut dyn FnMut(&Call) -> bool) -> Call {
    let mut shrink = Shrink { call, differs, trials: 0 };
    for number in [0.0, 1.0, 0.5] {
        if shrink.call.op.takes_number() && shrink.attempt(|call| call.number = number) {
            break;
        }
    }
    loop {
        let mut changed = false;
        for second in [false, true] {
            while shrink.cut(second) {
                changed = true;
            }
            changed |= shrink.plainer(second);
        }
        if !changed || shrink.trials == TRIALS {
            return shrink.call;
        }
    }
}
