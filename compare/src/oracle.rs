//! What the original says of a call, in the words of document 01; by pair rule 2 what document 02 says.

use std::cell::Cell;
use std::panic::{AssertUnwindSafe, catch_unwind};

use original::error::Error;
use original::functions::surface::inside::patch_ranges;
use original::functions::threed_metric as rust;
use rust::inside::{self, Parts, Point};

use crate::call::{Call, Op};
use crate::m;

thread_local! {
    /// A panic of the original is an answer.
    static QUIET: Cell<bool> = const { Cell::new(false) };
}

/// Leaves the panics of the original unprinted.
pub fn quiet_panics() {
    let print = std::panic::take_hook();
    std::panic::set_hook(Box::new(move |info| {
        if !QUIET.get() {
            print(info);
        }
    }));
}

/// What the original finds in one blob.
#[derive(Debug)]
pub struct Side {
    pub has_z: Result<bool, Error>,
    pub read: Result<Read, Error>,
    pub srid: i32,
}

/// What the workspace holds.
#[derive(Debug)]
pub struct Read {
    pub parts: Parts,
    /// x, y, z of each coordinate, as the original reads them.
    pub places: Vec<Point>,
    /// m of each coordinate, from the blob's bytes.
    pub m: Vec<Option<f64>>,
    /// Kind and count of each run.
    pub numbers: Vec<u32>,
}

impl Read {
    /// The floats of the workspace: x, y, z, m of each coordinate, 0 for an m that the encoding does not have.
    pub fn floats(&self) -> Vec<f64> {
        self.places.iter().zip(&self.m).flat_map(|([x, y, z], m)| [*x, *y, *z, m.unwrap_or(0.0)]).collect()
    }

    /// How many floats and numbers it takes.
    pub fn lengths(&self) -> (usize, usize) {
        (FLOATS_PER_COORDINATE * self.places.len(), self.numbers.len())
    }
}

/// x, y, z, m.
pub const FLOATS_PER_COORDINATE: usize = 4;

impl Side {
    pub fn new(blob: &[u8]) -> Side {
        let read = inside::parts_of(blob).map(|parts| {
            let runs = inside::runs_of(blob).expect("the same walk");
            let places: Vec<Point> = runs.iter().flat_map(|(_, run)| run).copied().collect();
            let m = m::of_coordinates(blob);
            assert_eq!(m.len(), places.len(), "the reader of m meets other coordinates than the original");
            Read { parts, places, m, numbers: runs.iter().flat_map(|(kind, run)| [*kind, run.len() as u32]).collect() }
        });
        Side { has_z: inside::has_z(blob), read, srid: inside::srid(blob).unwrap_or(0) }
    }
}

#[derive(Debug, Clone, PartialEq)]
pub enum Answer {
    Nothing,
    Number(f64),
    Truth(bool),
    /// The bytes of the output, a NaN as the document writes it.
    Blob(Vec<u8>),
    /// A point blob of which only the first 13 bytes are compared.
    PointSomewhere(Vec<u8>),
    Part(usize, usize),
    NoSurface,
    Lengths(usize, usize),
    Refused(u32, u32),
}

/// Where the answer comes from.
#[derive(Debug, Clone, Copy, PartialEq, Eq, PartialOrd, Ord)]
pub enum Source {
    /// The original.
    Original,
    /// The original falls back to 2D; the document refuses with 13.
    Falls2D,
    /// The original has no lent memory; 15 and 16 follow from what it read.
    Lent,
    /// The original stops at an earlier segment that equals the last: the point is not compared.
    StopsEarly,
    /// The original panics: the point is not compared.
    Panics,
    /// 17: the original has no rules.
    NoRule,
    /// By rule 2, the same as the original's.
    Rule2Same,
    /// By rule 2, where a crossing makes it another than the original's.
    Rule2Crossing,
}

impl Source {
    pub const ALL: [Source; 8] = [
        Source::Original,
        Source::Falls2D,
        Source::Lent,
        Source::StopsEarly,
        Source::Panics,
        Source::NoRule,
        Source::Rule2Same,
        Source::Rule2Crossing,
    ];

    pub fn name(self) -> &'static str {
        match self {
            Source::Original => "answers of the original",
            Source::Falls2D => "2D in the original, 13 here",
            Source::Lent => "15 and 16, from what the original read",
            Source::StopsEarly => "interpolation that stops early (point not compared)",
            Source::Panics => "interpolation that panics (point not compared)",
            Source::NoRule => "17, a rule other than 1 and 2",
            Source::Rule2Same => "by rule 2, the same as by rule 1",
            Source::Rule2Crossing => "by rule 2, another than by rule 1",
        }
    }
}

#[derive(Debug)]
pub struct Expected {
    pub answer: Answer,
    pub source: Source,
}

/// The document's number of an error, where it has one.
fn number_of(e: &Error) -> Option<u32> {
    let text: &str = match e {
        Error::InvalidGpb(text) => text,
        Error::InvalidWkb(text) => text,
        Error::Unsupported { reason, .. } => reason,
        _ => return None,
    };
    const TABLE: [(&str, u32); 16] = [
        ("tolerance cannot be less than zero", 1),
        ("fraction must be between 0 and 1", 2),
        ("blob shorter than the 8-byte header", 3),
        ("unsupported version", 4),
        ("ExtendedGeoPackageBinary", 5),
        ("reserved flag bits", 6),
        ("invalid envelope indicator", 7),
        ("blob truncated inside the envelope", 8),
        ("shorter than a 5-byte WKB header", 9),
        ("truncated WKB", 9),
        ("truncated inside a surface patch", 9),
        ("count overflow", 9),
        ("invalid byte-order marker", 10),
        ("unknown WKB geometry type", 11),
        ("geometry nesting too deep", 12),
        ("the first argument must be a LINESTRING", 14),
    ];
    TABLE.iter().find(|(start, _)| text.starts_with(start)).map(|(_, number)| *number)
}

fn refused(e: &Error, side: u32) -> Answer {
    let number = number_of(e).unwrap_or_else(|| panic!("an error without a number: {e:?}"));
    Answer::Refused(number, if number <= 2 { 0 } else { side })
}

/// The side of an error that a call on two blobs gave: the first that fails, in the order in which `both` looks.
fn side_of(e: &Error, a: &Side, b: &Side) -> u32 {
    let order = [
        (a.has_z.as_ref().err(), 1),
        (b.has_z.as_ref().err(), 2),
        (a.read.as_ref().err(), 1),
        (b.read.as_ref().err(), 2),
    ];
    let first = order.into_iter().find_map(|(error, side)| error.map(|error| (error, side)));
    match first {
        Some((error, side)) if error == e => side,
        _ => panic!("not the first error of the two blobs: {e:?}"),
    }
}

/// The blob with every NaN among its ordinates, which start at `from`, as the document writes it.
fn one_nan(mut blob: Vec<u8>, from: usize) -> Vec<u8> {
    for raw in blob[from..].chunks_exact_mut(8) {
        if f64::from_le_bytes(raw.try_into().expect("eight bytes")).is_nan() {
            raw.copy_from_slice(&0x7FF8_0000_0000_0000u64.to_le_bytes());
        }
    }
    blob
}

/// The first 13 bytes of a point blob.
fn point_head(srid: i32) -> Vec<u8> {
    let mut head = vec![0x47, 0x50, 0, 1];
    head.extend(srid.to_le_bytes());
    head.extend([0x01, 0xE9, 0x03, 0, 0]);
    head
}

/// What the original says of a call on two blobs that does not fall back to 2D.
fn two_blobs(call: &Call, a: &Side, b: &Side) -> Answer {
    let (x, y, d) = (&call.a, &call.b, call.number);
    let number = |v: Option<f64>| v.map_or(Answer::Nothing, Answer::Number);
    let line = |v: Option<Vec<u8>>| v.map_or(Answer::Nothing, |blob| Answer::Blob(one_nan(blob, 17)));
    let said = match call.op {
        Op::Distance => rust::st_3d_distance(x, y).map(number),
        Op::MaxDistance => rust::st_3d_max_distance(x, y).map(number),
        Op::DWithin => rust::st_3d_dwithin(x, y, d).map(Answer::Truth),
        Op::DFullyWithin => rust::st_3d_dfully_within(x, y, d).map(Answer::Truth),
        Op::Intersects => rust::st_3d_intersects(x, y).map(Answer::Truth),
        Op::ClosestPoint => {
            rust::st_3d_closest_point(x, y).map(|v| v.map_or(Answer::Nothing, |blob| Answer::Blob(one_nan(blob, 13))))
        }
        Op::ShortestLine => rust::st_3d_shortest_line(x, y).map(line),
        Op::LongestLine => rust::st_3d_longest_line(x, y).map(line),
        Op::Interpolate | Op::Patch | Op::Sizes | Op::Read => unreachable!("takes one blob"),
    };
    said.unwrap_or_else(|e| match number_of(&e) {
        Some(1) => Answer::Refused(1, 0),
        _ => refused(&e, side_of(&e, a, b)),
    })
}

/// What document 02 says of an accepted call by rule 2: the closest pair is another, and the rest is as in the original.
fn by_rule_2(call: &Call, a: &Side, b: &Side) -> Answer {
    let (Ok(x), Ok(y)) = (&a.read, &b.read) else { unreachable!("accepted") };
    let found = inside::closest_by_2_of(&x.parts, &y.parts, call.op == Op::Intersects);
    match (call.op, found) {
        (Op::DWithin, w) => Answer::Truth(w.is_some_and(|w| w.d <= call.number)),
        (Op::Intersects, w) => Answer::Truth(w.is_some_and(|w| w.d == 0.0)),
        (_, None) => Answer::Nothing,
        (Op::Distance, Some(w)) => Answer::Number(w.d),
        (Op::ClosestPoint, Some(w)) => Answer::Blob(one_nan(inside::point_blob(w.a, a.srid), 13)),
        (Op::ShortestLine, Some(w)) => Answer::Blob(one_nan(inside::line_blob(w.a, w.b, a.srid), 17)),
        _ => unreachable!("takes no rule"),
    }
}

/// The answer by the call's rule, of one that the original gives by its own.
fn by_the_rule(call: &Call, a: &Side, b: &Side, original: Answer) -> Expected {
    if !call.op.takes_rule() || call.rule == 1 || matches!(original, Answer::Refused(..)) {
        return Expected { answer: original, source: Source::Original };
    }
    let answer = by_rule_2(call, a, b);
    let source = if same_answer(&answer, &original) { Source::Rule2Same } else { Source::Rule2Crossing };
    Expected { answer, source }
}

/// All NaN being alike.
fn same_answer(one: &Answer, other: &Answer) -> bool {
    matches!((one, other), (Answer::Number(x), Answer::Number(y)) if x.is_nan() && y.is_nan()) || one == other
}

/// 17: after 1, and before anything of the blobs.
fn has_no_rule(call: &Call) -> bool {
    call.op.takes_rule() && !matches!(call.rule, 1 | 2) && !(call.op == Op::DWithin && call.number < 0.0)
}

/// Does an earlier segment equal the last in value?
fn stops_early(parts: &Parts) -> bool {
    let Some((last, earlier)) = parts.segments.split_last() else { return false };
    earlier.contains(last)
}

fn interpolated(call: &Call, a: &Side) -> Expected {
    QUIET.set(true);
    let said = catch_unwind(AssertUnwindSafe(|| rust::st_3d_line_interpolate_point(&call.a, call.number)));
    QUIET.set(false);
    let (answer, source) = match said {
        Err(panic) => {
            // Its `unreachable!`, and no other.
            let text = panic.downcast_ref::<&str>().copied().unwrap_or("of another type");
            assert!(text.contains("the loop always returns on its last iteration"), "another panic: {text}");
            (Answer::PointSomewhere(point_head(a.srid)), Source::Panics)
        }
        Ok(Err(e)) => (refused(&e, 1), Source::Original),
        Ok(Ok(blob)) => {
            let parts = &a.read.as_ref().expect("accepted").parts;
            if stops_early(parts) {
                (Answer::PointSomewhere(point_head(a.srid)), Source::StopsEarly)
            } else {
                (Answer::Blob(one_nan(blob, 13)), Source::Original)
            }
        }
    };
    Expected { answer, source }
}

fn patch(call: &Call) -> Answer {
    match patch_ranges(&call.a) {
        Err(e) => refused(&e, 1),
        Ok(None) => Answer::NoSurface,
        Ok(Some(ranges)) => {
            let n = usize::try_from(call.index).ok();
            n.and_then(|n| ranges.get(n)).map_or(Answer::Nothing, |(start, end)| Answer::Part(*start, *end))
        }
    }
}

/// 15 and 16, which the original does not have: by side, then the output.
fn lent_too_little(call: &Call, sides: [&Side; 2]) -> Option<Answer> {
    for (i, side) in sides.into_iter().enumerate().take(call.op.workspaces()) {
        let read = side.read.as_ref().expect("accepted");
        let (floats, numbers) = read.lengths();
        if call.lent.floats[i] < floats || call.lent.numbers[i] < numbers {
            return Some(Answer::Refused(15, i as u32 + 1));
        }
    }
    let needed = call.op.output()?;
    (call.lent.output < needed).then_some(Answer::Refused(16, 0))
}

/// The side whose top Z test fails, where the original falls back to 2D.
fn falls_back(call: &Call, a: &Side, b: &Side) -> Option<u32> {
    if matches!(call.op, Op::DWithin | Op::DFullyWithin) && call.number < 0.0 {
        return None;
    }
    match (&a.has_z, &b.has_z) {
        (Ok(false), _) => Some(1),
        (Ok(true), Ok(false)) => Some(2),
        _ => None,
    }
}

pub fn expected(call: &Call, a: &Side, b: &Side) -> Expected {
    let said = match call.op {
        Op::Interpolate => interpolated(call, a),
        Op::Patch => Expected { answer: patch(call), source: Source::Original },
        Op::Sizes | Op::Read => {
            let lengths = |r: &Read| Answer::Lengths(r.lengths().0, r.lengths().1);
            let answer = a.read.as_ref().map_or_else(|e| refused(e, 1), lengths);
            Expected { answer, source: Source::Original }
        }
        _ if has_no_rule(call) => Expected { answer: Answer::Refused(17, 0), source: Source::NoRule },
        _ => match falls_back(call, a, b) {
            Some(side) => Expected { answer: Answer::Refused(13, side), source: Source::Falls2D },
            None => by_the_rule(call, a, b, two_blobs(call, a, b)),
        },
    };
    if matches!(said.answer, Answer::Refused(..)) {
        return said;
    }
    match lent_too_little(call, [a, b]) {
        Some(answer) => Expected { answer, source: Source::Lent },
        None => said,
    }
}
