//! The C exports of the proved library, as `include/viskorrel.h` declares them; that header says what a caller must see to. The crate
//! `viskorrel` is the safe way to them.
#![allow(missing_docs)]

/// `enum viskorrel_outcome`: what came of a call.
pub const NOTHING: u32 = 0;
pub const ANSWERED: u32 = 1;
pub const REFUSED: u32 = 2;
pub const NO_SURFACE: u32 = 3;

/// The pair rules: how a segment and a triangle are measured.
pub const RULE_1: u32 = 1;
pub const RULE_2: u32 = 2;

/// The bytes of a written point, and of a written line.
pub const POINT_BYTES: usize = 37;
pub const LINE_BYTES: usize = 65;

/// The bytes that a join takes beside those of its two geometries.
pub const JOIN_BYTES: usize = 17;

/// `viskorrel_reply`
#[repr(C)]
#[derive(Clone, Copy, Debug)]
pub struct Reply {
    pub outcome: u32,
    pub number: u32,
    pub side: u32,
    pub value: f64,
}

/// `viskorrel_pair`
#[repr(C)]
#[derive(Clone, Copy, Debug)]
pub struct Pair {
    pub outcome: u32,
    pub number: u32,
    pub side: u32,
    pub first: usize,
    pub second: usize,
}

/// `viskorrel_root`
#[repr(C)]
#[derive(Clone, Copy, Debug)]
pub struct Root {
    pub root: f64,
    pub digits: u32,
}

/// Declares exports on two blobs, each with its workspace; the number, the rule and the output are named where an export has them.
macro_rules! on_two_blobs {
    ($(fn $name:ident ( $(number $number:ident)? $(rule $rule:ident)? $(output $output:ident)? );)*) => {
        extern "C" {
            $(pub fn $name(
                a: *const u8, a_length: usize, b: *const u8, b_length: usize, $($number: f64,)? $($rule: u32,)?
                floats1: *mut f64, floats1_length: usize, table1: *mut u32, table1_length: usize,
                floats2: *mut f64, floats2_length: usize, table2: *mut u32, table2_length: usize,
                $($output: *mut u8, output_length: usize)?
            ) -> Reply;)*
        }
    };
}

on_two_blobs! {
    fn viskorrel_3d_distance(rule rule);
    fn viskorrel_3d_max_distance();
    fn viskorrel_3d_intersects(rule rule);
    fn viskorrel_3d_dwithin(number d rule rule);
    fn viskorrel_3d_dfully_within(number d);
    fn viskorrel_3d_closest_point(rule rule output output);
    fn viskorrel_3d_shortest_line(rule rule output output);
    fn viskorrel_3d_longest_line(output output);
}

extern "C" {
    pub fn viskorrel_sizes(blob: *const u8, length: usize) -> Pair;
    pub fn viskorrel_read(
        blob: *const u8,
        length: usize,
        floats: *mut f64,
        floats_length: usize,
        table: *mut u32,
        table_length: usize,
    ) -> Pair;
    pub fn viskorrel_patch(blob: *const u8, length: usize, n: u64) -> Pair;
    pub fn viskorrel_patches(blob: *const u8, length: usize) -> Pair;
    pub fn viskorrel_next_patch(blob: *const u8, length: usize, at: usize, left: usize) -> Pair;
    pub fn viskorrel_root_digits(s: f64) -> Root;
    pub fn viskorrel_join(a: *const u8, a_length: usize, b: *const u8, b_length: usize, output: *mut u8, output_length: usize) -> Pair;
    pub fn viskorrel_job(
        tape: *const u8,
        tape_length: usize,
        floats1: *mut f64,
        floats1_length: usize,
        table1: *mut u32,
        table1_length: usize,
        floats2: *mut f64,
        floats2_length: usize,
        table2: *mut u32,
        table2_length: usize,
        first: *mut u16,
        first_length: usize,
        second: *mut u16,
        second_length: usize,
        distances: *mut f64,
        distances_length: usize,
    ) -> Pair;
    pub fn viskorrel_3d_line_interpolate_point(
        blob: *const u8,
        length: usize,
        fraction: f64,
        floats: *mut f64,
        floats_length: usize,
        table: *mut u32,
        table_length: usize,
        output: *mut u8,
        output_length: usize,
    ) -> Reply;
}
