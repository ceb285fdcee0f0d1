//! Small pairs, drawn by a fixed seed: dents and fixes, dent groups, pipe pieces, fittings.

use std::f64::consts::TAU;
use std::rc::Rc;

use crate::encode::Geometry;
use crate::random::Random;
use crate::shapes::{self, Point, any_angle, around, between, moved};
use crate::workload::{Op, Pair, Table, Workload};

const COUNT: usize = 40_000;
const SEED: u64 = 1;
const TARGET: f64 = 0.7;

/// Of rule 2, which tries a crossing first: no slower than the original is without.
const TARGET_BY_2: f64 = 1.0;

/// About half of the pairs are within it, in metres.
pub const TOLERANCE: f64 = 4.0;

#[derive(Debug, Clone, Copy)]
enum Shape {
    Point,
    Line,
    Face,
    Multipoint,
}

/// Kinds of pair: name, shapes, share in a hundred.
const KINDS: [(&str, Shape, Shape, usize); 6] = [
    ("point-point", Shape::Point, Shape::Point, 25),
    ("point-line", Shape::Point, Shape::Line, 25),
    ("line-line", Shape::Line, Shape::Line, 15),
    ("line-face", Shape::Line, Shape::Face, 10),
    ("face-face", Shape::Face, Shape::Face, 10),
    ("multipoint-line", Shape::Multipoint, Shape::Line, 15),
];

/// A place on the route.
fn place(random: &mut Random) -> Point {
    [between(500_000.0, 510_000.0, random), between(4_000_000.0, 4_010_000.0, random), between(40.0, 100.0, random)]
}

/// A place nearby, up to 40 metres away, near ones being more frequent.
fn nearby(p: Point, random: &mut Random) -> Point {
    let share = random.unit();
    around(p, any_angle(random), 40.0 * share.powi(3), between(-2.0, 2.0, random))
}

/// A pipe piece of 2 to 8 vertices.
fn pipe(start: Point, random: &mut Random) -> Geometry {
    let mut angle = any_angle(random);
    let mut points = vec![start];
    for _ in 0..random.range(1, 7) {
        angle += between(-0.3, 0.3, random);
        let (length, rise) = (between(1.0, 6.0, random), between(-0.3, 0.3, random));
        points.push(around(points[points.len() - 1], angle, length, rise));
    }
    shapes::line(&points)
}

/// A dent group of 3 to 12 points.
fn group(p: Point, random: &mut Random) -> Geometry {
    let mut dent = || around(p, any_angle(random), between(0.0, 2.0, random), between(-0.4, 0.4, random));
    let dents: Vec<Point> = (0..12).map(|_| dent()).collect();
    shapes::multipoint(&dents[..random.range(3, 12) as usize])
}

/// A fitting: a triangle, a plate, a cap of 3 or 4 triangles, or a sleeve of 3 or 4 sides.
fn fitting(p: Point, random: &mut Random) -> Geometry {
    let (turn, size) = (any_angle(random), between(0.2, 1.5, random));
    let sides = random.range(3, 4) as usize;
    let rim: Vec<Point> =
        (0..sides).map(|i| around(p, turn + TAU * i as f64 / sides as f64, size, between(-0.2, 0.2, random))).collect();
    let next = |i: usize| rim[(i + 1) % sides];
    let up = |q: Point| moved(q, [0.0, 0.0, size]);
    match random.below(4) {
        0 => shapes::triangle([rim[0], rim[1], rim[2]]),
        1 => shapes::quad([rim[0], rim[1], up(rim[1]), up(rim[0])]),
        2 => shapes::tin(&(0..sides).map(|i| [rim[i], next(i), up(p)]).collect::<Vec<_>>()),
        _ => shapes::polyhedral(&(0..sides).map(|i| [rim[i], next(i), up(next(i)), up(rim[i])]).collect::<Vec<_>>()),
    }
}

fn draw(shape: Shape, p: Point, random: &mut Random) -> Geometry {
    match shape {
        Shape::Point => shapes::point(p),
        Shape::Line => pipe(p, random),
        Shape::Face => fitting(p, random),
        Shape::Multipoint => group(p, random),
    }
}

/// All pairs, each with its kind's place in `KINDS`.
fn draw_all() -> Vec<(usize, Geometry, Geometry)> {
    let random = &mut Random::new(SEED);
    (0..COUNT)
        .map(|_| {
            let mut share = random.below(100);
            let kind = KINDS.iter().position(|k| share.checked_sub(k.3).map(|rest| share = rest).is_none());
            let kind = kind.expect("the shares make a hundred");
            let here = place(random);
            let there = nearby(here, random);
            (kind, draw(KINDS[kind].1, here, random), draw(KINDS[kind].2, there, random))
        })
        .collect()
}

fn pairs<'a>(drawn: impl Iterator<Item = &'a (usize, Geometry, Geometry)>) -> Rc<Vec<Pair>> {
    Rc::new(drawn.map(|(_, a, b)| Pair { a: shapes::blob(a), b: shapes::blob(b) }).collect())
}

/// All pairs.
pub fn whole() -> Rc<Vec<Pair>> {
    pairs(draw_all().iter())
}

fn workload(name: String, table: Table, ops: Vec<Op>, pairs: &Rc<Vec<Pair>>) -> Workload {
    let (rule, target) = match table {
        Table::Rule2 => (2, Some(TARGET_BY_2)),
        Table::Kinds => (1, None),
        _ => (1, Some(TARGET)),
    };
    Workload { name, table, ops, rule, pairs: pairs.clone(), times: 1, rounds: usize::MAX, target, growth: None }
}

pub fn workloads() -> Vec<Workload> {
    let drawn = draw_all();
    let whole = pairs(drawn.iter());
    let mut list: Vec<Workload> = Vec::new();
    for op in Op::ALL {
        list.push(workload(format!("small {}", op.name()), Table::Small, vec![op], &whole));
    }
    list.push(workload("job".into(), Table::Job, Op::ALL.to_vec(), &whole));
    for (i, kind) in KINDS.iter().enumerate() {
        let some = pairs(drawn.iter().filter(|d| d.0 == i));
        for op in Op::ALL {
            list.push(workload(format!("{} {}", kind.0, op.name()), Table::Kinds, vec![op], &some));
        }
        if matches!((kind.1, kind.2), (_, Shape::Face) | (Shape::Face, _)) {
            for op in Op::BY_RULE {
                list.push(workload(format!("rule 2 {} {}", kind.0, op.name()), Table::Rule2, vec![op], &some));
            }
        }
    }
    list
}
