//! Large pairs: long lines, spheres, surveyed surfaces, groups of points, some of them chosen to be hard.

use std::f64::consts::{FRAC_PI_2, TAU};
use std::rc::Rc;

use crate::encode::Geometry;
use crate::random::Random;
use crate::shapes::{self, Point, around, between, moved};
use crate::workload::{Op, Pair, Table, Workload};

const ORIGIN: Point = [500_000.0, 4_000_000.0, 80.0];

/// A tracked pipe of `n` vertices along a corridor of one kilometre that runs slantwise, winds and jitters.
fn route(n: usize, beside: f64, random: &mut Random) -> Geometry {
    const HEADING: f64 = 0.5;
    let points: Vec<Point> = (0..n)
        .map(|i| {
            let along = 1_000.0 * i as f64 / n as f64;
            let side = 15.0 * (along / 110.0).sin() + 2.0 * (along / 17.0).cos() + beside;
            let axis = around(ORIGIN, HEADING, along, 3.0 * (along / 170.0).sin());
            let jitter = [between(-4.0, 4.0, random), between(-4.0, 4.0, random), between(-0.5, 0.5, random)];
            moved(around(axis, HEADING + FRAC_PI_2, side, 0.0), jitter)
        })
        .collect();
    shapes::line(&points)
}

/// A line of `n` vertices drawn evenly from a sphere.
fn sphere(n: usize, random: &mut Random) -> Geometry {
    let points: Vec<Point> = (0..n)
        .map(|_| {
            let (height, angle) = (between(-1.0, 1.0, random), random.unit() * TAU);
            around(ORIGIN, angle, 1_000.0 * (1.0 - height * height).sqrt(), 1_000.0 * height)
        })
        .collect();
    shapes::line(&points)
}

/// The length of a surface's side in metres, whatever its number of triangles.
const SIDE: f64 = 110.0;

/// A wavy surface of `n` triangles over a grid.
fn surface(n: usize, corner: Point, random: &mut Random) -> Geometry {
    let columns = (n as f64 / 2.0).sqrt().ceil() as usize;
    let step = SIDE / columns as f64;
    let rows = n.div_ceil(2 * columns);
    let grid: Vec<Vec<Point>> = (0..=rows)
        .map(|row| {
            (0..=columns)
                .map(|column| {
                    let (x, y) = (step * column as f64, step * row as f64);
                    let z = 2.0 * (x / 17.0).sin() + 1.5 * (y / 23.0).cos() + between(-0.2, 0.2, random);
                    moved(corner, [x, y, z])
                })
                .collect()
        })
        .collect();
    let mut triangles: Vec<[Point; 3]> = Vec::new();
    for (low, high) in grid.iter().zip(&grid[1..]) {
        for i in 0..columns {
            triangles.push([low[i], low[i + 1], high[i]]);
            triangles.push([low[i + 1], high[i + 1], high[i]]);
        }
    }
    shapes::tin(&triangles[..n])
}

/// Two surfaces, the second moved to the east, north and up.
fn surfaces(n: usize, east: f64, north: f64, up: f64, random: &mut Random) -> (Geometry, Geometry) {
    let there = moved(ORIGIN, [east, north, up]);
    (surface(n, ORIGIN, random), surface(n, there, random))
}

/// `n` points, drawn evenly from a square of 200 metres.
fn dents(n: usize, corner: Point, random: &mut Random) -> Geometry {
    let mut dent =
        || moved(corner, [between(0.0, 200.0, random), between(0.0, 200.0, random), between(-2.0, 2.0, random)]);
    shapes::multipoint(&(0..n).map(|_| dent()).collect::<Vec<_>>())
}

/// Two groups of dents, the second to the north-east; each drawn by `draw`.
fn two_groups(n: usize, random: &mut Random, draw: fn(usize, Point, &mut Random) -> Geometry) -> (Geometry, Geometry) {
    let there = moved(ORIGIN, [150.0, 150.0, 0.0]);
    (draw(n, ORIGIN, random), draw(n, there, random))
}

/// `dents` whose first is a point of NaN, as other software writes an empty one.
fn dents_after_empty(n: usize, corner: Point, random: &mut Random) -> Geometry {
    let Geometry::Collection(kind, mut members) = dents(n, corner, random) else { unreachable!("a multipoint") };
    members[0] = shapes::point([f64::NAN; 3]);
    Geometry::Collection(kind, members)
}

/// Two points as far from (0, 0, 0), though the second's sum of squares is one unit in the last place more.
const LESS: Point = [667.867, 715.879, 560.989];
const MORE: Point = [560.989, 667.867, 715.879];

/// The sum of squares of a point as it is written.
fn sum(p: Point) -> f64 {
    let Geometry::Point([x, y, z, _]) = shapes::point(p) else { unreachable!("a point") };
    x * x + y * y + z * z
}

/// `n` points at (0, 0, 0) against `first` and `n - 1` of `rest`, which are LESS and MORE or the other way round: to a
/// best that keeps the first's sum each later pair looks as if it won, and by its root none does.
fn equal_roots(n: usize, first: Point, rest: Point) -> (Geometry, Geometry) {
    let [less, more] = [LESS, MORE].map(sum);
    assert!(more.to_bits() == less.to_bits() + 1, "{less} and {more} are no neighbours in this order");
    assert!(less.sqrt() == more.sqrt(), "the roots of {less} and {more} differ");
    let mut points = vec![rest; n];
    points[0] = first;
    (shapes::multipoint(&vec![[0.0; 3]; n]), shapes::multipoint(&points))
}

/// Two routes side by side.
fn routes(n: usize, random: &mut Random) -> (Geometry, Geometry) {
    (route(n, 0.0, random), route(n, 25.0, random))
}

struct Family {
    name: &'static str,
    ops: &'static [Op],
    target: Option<f64>,
    /// How many pairs of each size are drawn.
    pairs: usize,
    /// Size, calls for each pair in a round, most rounds.
    sizes: &'static [(usize, usize, usize)],
    draw: fn(usize, &mut Random) -> (Geometry, Geometry),
    /// Its name where it is measured by rule 2 too.
    by_2: Option<&'static str>,
}

/// Of rule 2 on large pairs, whose sweep has no index of B, against the original by rule 1.
const TARGET_BY_2: f64 = 4.0;

const MOST: usize = usize::MAX;
const NEAR: &[Op] = &[Op::Distance];
const FAR: &[Op] = &[Op::LongestLine];
const BOTH: &[Op] = &[Op::Distance, Op::LongestLine];

/// One pair of each size, and no target.
const fn family(
    name: &'static str,
    ops: &'static [Op],
    sizes: &'static [(usize, usize, usize)],
    draw: fn(usize, &mut Random) -> (Geometry, Geometry),
) -> Family {
    Family { name, ops, target: None, pairs: 1, sizes, draw, by_2: None }
}

impl Family {
    const fn of_pairs(self, pairs: usize) -> Family {
        Family { pairs, ..self }
    }

    const fn target(self, ratio: f64) -> Family {
        Family { target: Some(ratio), ..self }
    }

    const fn by_2(self, name: &'static str) -> Family {
        Family { by_2: Some(name), ..self }
    }

    fn drawn(&self, size: usize) -> Vec<Pair> {
        let random = &mut Random::new(size as u64);
        (0..self.pairs)
            .map(|_| {
                let (a, b) = (self.draw)(size, random);
                Pair { a: shapes::blob(&a), b: shapes::blob(&b) }
            })
            .collect()
    }
}

const FAMILIES: [Family; 10] = [
    family("corridor", FAR, &[(1_000, 4, MOST), (4_000, 1, MOST), (16_000, 1, MOST)], routes).of_pairs(10).target(1.0),
    family("sphere", FAR, &[(1_000, 1, MOST), (4_000, 1, 3), (16_000, 1, 2)], |n, random| {
        (sphere(n, random), sphere(n, random))
    })
    .target(0.1),
    family("TIN", NEAR, &[(250, 20, MOST), (1_000, 4, MOST), (4_000, 1, 5)], |n, random| {
        surfaces(n, 30.0, -30.0, 12.0, random)
    })
    .target(1.0)
    .by_2("rule 2 TIN"),
    family("TIN near", NEAR, &[(250, 4, MOST), (1_000, 1, MOST), (4_000, 1, 3)], |n, random| {
        surfaces(n, 0.0, 0.0, 1.0, random)
    })
    .target(1.0)
    .by_2("rule 2 TIN near"),
    family("TIN far", NEAR, &[(250, 20, MOST), (1_000, 4, MOST), (4_000, 1, 5)], |n, random| {
        surfaces(n, 2_000.0, 2_000.0, 12.0, random)
    })
    .target(1.0)
    .by_2("rule 2 TIN far"),
    family("lines", NEAR, &[(1_000, 4, MOST), (4_000, 1, 5)], routes),
    family("multipoints", BOTH, &[(2_000, 1, MOST)], |n, random| two_groups(n, random, dents)),
    family("NaN first", BOTH, &[(1_000, 4, MOST)], |n, random| two_groups(n, random, dents_after_empty)),
    family("equal roots", NEAR, &[(1_000, 4, MOST)], |n, _| equal_roots(n, MORE, LESS)),
    family("equal roots", FAR, &[(1_000, 4, MOST)], |n, _| equal_roots(n, LESS, MORE)),
];

/// The workloads of a family by a rule, under a name.
fn of_family(family: &Family, name: &'static str, table: Table, pairs: &[Rc<Vec<Pair>>]) -> Vec<Workload> {
    let (rule, target) = if table == Table::Rule2 { (2, Some(TARGET_BY_2)) } else { (1, family.target) };
    let sized = family.sizes.iter().zip(pairs);
    let each = sized.flat_map(|(&(size, times, rounds), pairs)| {
        family.ops.iter().map(move |&op| Workload {
            name: format!("{name} {} {size}", op.name()),
            table,
            ops: vec![op],
            rule,
            pairs: pairs.clone(),
            times,
            rounds,
            target,
            growth: Some((name, size)).filter(|_| family.sizes.len() > 1),
        })
    });
    each.collect()
}

pub fn workloads() -> Vec<Workload> {
    let mut list = Vec::new();
    for family in &FAMILIES {
        let pairs: Vec<Rc<Vec<Pair>>> = family.sizes.iter().map(|sizes| Rc::new(family.drawn(sizes.0))).collect();
        list.extend(of_family(family, family.name, Table::Large, &pairs));
        if let Some(name) = family.by_2 {
            list.extend(of_family(family, name, Table::Rule2, &pairs));
        }
    }
    list
}
