//! Compares one call: what came back, and every place of the memory that was lent.

use original::functions::threed_metric::inside::{Parts, Point};

use crate::call::Call;
use crate::library::{self, Memory, Returned, Slice};
use crate::oracle::{Answer, Expected, FLOATS_PER_COORDINATE, Read, Side};

/// The same number, the zero's sign included; any NaN is the same as another.
fn same(x: f64, y: f64) -> bool {
    x.to_bits() == y.to_bits() || (x.is_nan() && y.is_nan())
}

fn all_same(x: &[f64], y: &[f64]) -> bool {
    x.len() == y.len() && x.iter().zip(y).all(|(x, y)| same(*x, *y))
}

/// The first three of each four floats, a vertex.
fn places_held(floats: &[f64]) -> Vec<Point> {
    floats.chunks_exact(FLOATS_PER_COORDINATE).map(|c| [c[0], c[1], c[2]]).collect()
}

/// The fourth of each four floats.
fn m_held(floats: &[f64]) -> Vec<f64> {
    floats.chunks_exact(FLOATS_PER_COORDINATE).map(|c| c[3]).collect()
}

/// What a workspace's floats and numbers have that they must not have: x, y, z and the runs by the original, m by the
/// blob's bytes.
fn held_wrongly(floats: &[f64], numbers: &[u32], read: &Read) -> Option<String> {
    let (places, m) = (places_held(floats), m_held(floats));
    let own: Vec<f64> = read.m.iter().map(|m| m.unwrap_or(0.0)).collect();
    if numbers != read.numbers || !all_same(places.as_flattened(), read.places.as_flattened()) {
        return Some(format!("holds {places:?} {numbers:?}, the original {:?} {:?}", read.places, read.numbers));
    }
    if !all_same(&m, &own) {
        return Some(format!("holds m {m:?}, the blob {own:?}"));
    }
    (!same_parts(&parts_held(&places, numbers), &read.parts)).then(|| format!("has other parts than {:?}", read.parts))
}

/// The parts of a workspace, by the document's rule.
fn parts_held(places: &[Point], numbers: &[u32]) -> Parts {
    let mut parts = Parts::default();
    let mut left = places;
    for run in numbers.chunks_exact(2) {
        let (points, rest) = left.split_at(run[1] as usize);
        left = rest;
        match run[0] {
            1 => parts.points.extend(points),
            2 => parts.segments.extend(points.windows(2).map(|p| (p[0], p[1]))),
            _ => parts.faces.push(points.to_vec()),
        }
    }
    parts
}

fn flat(parts: &Parts) -> (Vec<usize>, Vec<f64>) {
    let shape = [parts.points.len(), parts.segments.len()].into_iter().chain(parts.faces.iter().map(Vec::len));
    let points = parts.points.iter().copied();
    let ends = parts.segments.iter().flat_map(|(a, b)| [*a, *b]);
    let faces = parts.faces.iter().flatten().copied();
    (shape.collect(), points.chain(ends).chain(faces).flatten().collect())
}

fn same_parts(x: &Parts, y: &Parts) -> bool {
    let ((shape, floats), (shape2, floats2)) = (flat(x), flat(y));
    shape == shape2 && all_same(&floats, &floats2)
}

/// Are the first `n` as they must be, and all others as they were?
fn changed<T: Copy>(now: &Slice<T>, before: &Slice<T>, n: usize, bits: impl Fn(T) -> u64) -> bool {
    let ((_, now), (_, before)) = (now.split(n), before.split(n));
    now.iter().zip(before).any(|(now, before)| now.iter().zip(before).any(|(x, y)| bits(*x) != bits(*y)))
}

/// What differs, if anything does.
pub fn check(call: &Call, expected: &Expected, sides: [&Side; 2], turn: usize) -> Option<String> {
    let before = Memory::new(call, turn);
    let mut memory = before.clone();
    let said = library::run(call, &mut memory);
    let accepted = !matches!(expected.answer, Answer::Refused(..));
    if !answers(&expected.answer, said) {
        return Some(format!("expected {:?}, got {said:?}", expected.answer));
    }
    for side in 0..2 {
        let used = if accepted && side < call.op.workspaces() { sides[side].read.as_ref().ok() } else { None };
        let (floats, numbers) = (&memory.floats[side], &memory.numbers[side]);
        let (n, k) = used.map_or((0, 0), Read::lengths);
        if let Some(read) = used {
            if let Some(what) = held_wrongly(floats.split(n).0, numbers.split(k).0, read) {
                return Some(format!("workspace {} {what}", side + 1));
            }
        }
        if changed(floats, &before.floats[side], n, f64::to_bits)
            || changed(numbers, &before.numbers[side], k, u64::from)
        {
            return Some(format!("workspace {} was changed where it must not be", side + 1));
        }
    }
    let written: &[u8] = match &expected.answer {
        Answer::Blob(blob) | Answer::PointSomewhere(blob) => blob,
        _ => &[],
    };
    let free = if matches!(expected.answer, Answer::PointSomewhere(_)) { 24 } else { 0 };
    if &memory.output.get()[..written.len()] != written {
        let got = &memory.output.get()[..written.len() + free];
        return Some(format!("expected bytes {written:02X?}, got {got:02X?}"));
    }
    if changed(&memory.output, &before.output, written.len() + free, u64::from) {
        return Some("output was changed where it must not be".into());
    }
    None
}

fn answers(expected: &Answer, said: Returned) -> bool {
    match (expected, said) {
        (Answer::Nothing, Returned::Nothing) | (Answer::NoSurface, Returned::NoSurface) => true,
        (Answer::Blob(_) | Answer::PointSomewhere(_), Returned::Written) => true,
        (Answer::Number(x), Returned::Number(y)) => same(*x, y),
        (Answer::Truth(x), Returned::Truth(y)) => *x == y,
        (Answer::Part(s, e), Returned::Part(t, f)) => (*s, *e) == (t, f),
        (Answer::Lengths(s, e), Returned::Lengths(t, f)) => (*s, *e) == (t, f),
        (Answer::Refused(n, s), Returned::Refused(m, t)) => (*n, *s) == (m, t),
        _ => false,
    }
}
