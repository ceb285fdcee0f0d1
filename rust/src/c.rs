//! The C exports, as functions that are safe to call. This is the only module with unsafe code.
//!
//! `include/viskorrel.h` asks three things of a caller. Slices give all of them:
//!
//! - No pointer is null, also where the length is 0. A slice's pointer never is: that of an empty one may dangle, but is aligned and not
//!   null, and nothing is read or written through it.
//! - A pointer is aligned for its type, and so many elements from it on belong to the caller. So it is with a slice.
//! - A buffer that the call may change overlaps no other, and no other thread uses it. So it is with a `&mut`, for as long as it lives.
//!   The blobs are shared slices: one may be passed twice.
//!
//! Lengths count elements, as those of slices do. The functions keep no pointer, and neither unwind nor call back.

use crate::{Refusal, Rule};
use viskorrel_sys as sys;

pub use sys::{Pair, Reply, Root};

/// What a reply says.
pub trait Outcome {
    /// Whether there is an answer, or yes is the answer.
    fn answered(self) -> Result<bool, Refusal>;
}

fn answered(outcome: u32, number: u32, side: u32) -> Result<bool, Refusal> {
    match outcome {
        sys::REFUSED => Err(Refusal { number, side }),
        outcome => Ok(outcome == sys::ANSWERED),
    }
}

impl Outcome for Reply {
    fn answered(self) -> Result<bool, Refusal> {
        answered(self.outcome, self.number, self.side)
    }
}

impl Outcome for Pair {
    fn answered(self) -> Result<bool, Refusal> {
        answered(self.outcome, self.number, self.side)
    }
}

/// Whether a patch was asked of a blob that is no surface.
pub fn is_no_surface(pair: Pair) -> bool {
    pair.outcome == sys::NO_SURFACE
}

/// The memory that one blob is read into. Two of them, each borrowed with `&mut`, do not overlap.
#[derive(Debug, Default)]
pub struct Workspace {
    pub floats: Vec<f64>,
    pub table: Vec<u32>,
}

/// The memory that the hits of a job are written into.
#[derive(Debug)]
pub struct Lists {
    pub first: Vec<u16>,
    pub second: Vec<u16>,
    pub distances: Vec<f64>,
}

/// The safe function over an export on two blobs. The export's number, rule and output are named where it has them.
macro_rules! on_two_blobs {
    ($(fn $name:ident = $export:ident ( $(number $number:ident)? $(rule $rule:ident)? $(output $output:ident)? );)*) => {
        $(pub fn $name(
            a: &[u8], b: &[u8], $($number: f64,)? $($rule: Rule,)? one: &mut Workspace, two: &mut Workspace, $($output: &mut [u8])?
        ) -> Reply {
            // SAFETY: every pointer and length are those of one live slice; see the head of this module.
            unsafe {
                sys::$export(
                    a.as_ptr(), a.len(), b.as_ptr(), b.len(), $($number,)? $($rule as u32,)?
                    one.floats.as_mut_ptr(), one.floats.len(), one.table.as_mut_ptr(), one.table.len(),
                    two.floats.as_mut_ptr(), two.floats.len(), two.table.as_mut_ptr(), two.table.len(),
                    $($output.as_mut_ptr(), $output.len())?
                )
            }
        })*
    };
}

on_two_blobs! {
    fn distance = viskorrel_3d_distance(rule rule);
    fn max_distance = viskorrel_3d_max_distance();
    fn intersects = viskorrel_3d_intersects(rule rule);
    fn dwithin = viskorrel_3d_dwithin(number d rule rule);
    fn dfully_within = viskorrel_3d_dfully_within(number d);
    fn closest_point = viskorrel_3d_closest_point(rule rule output output);
    fn shortest_line = viskorrel_3d_shortest_line(rule rule output output);
    fn longest_line = viskorrel_3d_longest_line(output output);
}

pub fn sizes(blob: &[u8]) -> Pair {
    // SAFETY: pointer and length are those of one live slice; see the head of this module.
    unsafe { sys::viskorrel_sizes(blob.as_ptr(), blob.len()) }
}

pub fn read(blob: &[u8], workspace: &mut Workspace) -> Pair {
    let Workspace { floats, table } = workspace;
    // SAFETY: every pointer and length are those of one live slice; see the head of this module.
    unsafe { sys::viskorrel_read(blob.as_ptr(), blob.len(), floats.as_mut_ptr(), floats.len(), table.as_mut_ptr(), table.len()) }
}

pub fn patch(blob: &[u8], n: u64) -> Pair {
    // SAFETY: pointer and length are those of one live slice; see the head of this module.
    unsafe { sys::viskorrel_patch(blob.as_ptr(), blob.len(), n) }
}

pub fn patches(blob: &[u8]) -> Pair {
    // SAFETY: pointer and length are those of one live slice; see the head of this module.
    unsafe { sys::viskorrel_patches(blob.as_ptr(), blob.len()) }
}

pub fn next_patch(blob: &[u8], at: usize, left: usize) -> Pair {
    // SAFETY: pointer and length are those of one live slice; see the head of this module.
    unsafe { sys::viskorrel_next_patch(blob.as_ptr(), blob.len(), at, left) }
}

pub fn line_interpolate_point(blob: &[u8], fraction: f64, workspace: &mut Workspace, output: &mut [u8]) -> Reply {
    let Workspace { floats, table } = workspace;
    // SAFETY: every pointer and length are those of one live slice; see the head of this module.
    unsafe {
        sys::viskorrel_3d_line_interpolate_point(
            blob.as_ptr(),
            blob.len(),
            fraction,
            floats.as_mut_ptr(),
            floats.len(),
            table.as_mut_ptr(),
            table.len(),
            output.as_mut_ptr(),
            output.len(),
        )
    }
}

pub fn join(a: &[u8], b: &[u8], output: &mut [u8]) -> Pair {
    // SAFETY: every pointer and length are those of one live slice; see the head of this module.
    unsafe { sys::viskorrel_join(a.as_ptr(), a.len(), b.as_ptr(), b.len(), output.as_mut_ptr(), output.len()) }
}

pub fn job(tape: &[u8], one: &mut Workspace, two: &mut Workspace, lists: &mut Lists) -> Pair {
    let Lists { first, second, distances } = lists;
    // SAFETY: every pointer and length are those of one live slice; see the head of this module.
    unsafe {
        sys::viskorrel_job(
            tape.as_ptr(),
            tape.len(),
            one.floats.as_mut_ptr(),
            one.floats.len(),
            one.table.as_mut_ptr(),
            one.table.len(),
            two.floats.as_mut_ptr(),
            two.floats.len(),
            two.table.as_mut_ptr(),
            two.table.len(),
            first.as_mut_ptr(),
            first.len(),
            second.as_mut_ptr(),
            second.len(),
            distances.as_mut_ptr(),
            distances.len(),
        )
    }
}

pub fn root_digits(s: f64) -> Root {
    // SAFETY: a number is passed, and nothing is lent.
    unsafe { sys::viskorrel_root_digits(s) }
}
