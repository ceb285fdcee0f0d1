//! Geometries as surveys have them, in projected metres, and their blobs.

use std::f64::consts::TAU;

use crate::encode::{self, Geometry, Ordinates, Style};
use crate::random::Random;

pub type Point = [f64; 3];

const SRID: i32 = 25832;

/// Flags of the GP header: little-endian, without envelope, and with one of x, y and z.
const POINT_FLAGS: u8 = 0x01;
const OTHER_FLAGS: u8 = 0x05;

/// To the millimetre, as surveys are stored.
fn vertex(p: Point) -> Ordinates {
    let [x, y, z] = p.map(|v| (v * 1000.0).round() / 1000.0);
    [x, y, z, 0.0]
}

fn run(points: &[Point]) -> Vec<Ordinates> {
    points.iter().map(|p| vertex(*p)).collect()
}

fn ring(kind: u32, corners: &[Point]) -> Geometry {
    let mut ring = run(corners);
    ring.push(ring[0]);
    Geometry::Rings(kind, vec![ring])
}

pub fn point(p: Point) -> Geometry {
    Geometry::Point(vertex(p))
}

pub fn line(points: &[Point]) -> Geometry {
    Geometry::Line(run(points))
}

pub fn multipoint(points: &[Point]) -> Geometry {
    Geometry::Collection(4, points.iter().map(|p| point(*p)).collect())
}

pub fn triangle(corners: [Point; 3]) -> Geometry {
    ring(17, &corners)
}

pub fn quad(corners: [Point; 4]) -> Geometry {
    ring(3, &corners)
}

pub fn tin(triangles: &[[Point; 3]]) -> Geometry {
    Geometry::Collection(16, triangles.iter().map(|t| triangle(*t)).collect())
}

pub fn polyhedral(quads: &[[Point; 4]]) -> Geometry {
    Geometry::Collection(15, quads.iter().map(|q| quad(*q)).collect())
}

/// From `low` to `high`.
pub fn between(low: f64, high: f64, random: &mut Random) -> f64 {
    low + (high - low) * random.unit()
}

pub fn moved(p: Point, by: Point) -> Point {
    [p[0] + by[0], p[1] + by[1], p[2] + by[2]]
}

/// At an angle in plan, `reach` away and `rise` above.
pub fn around(p: Point, angle: f64, reach: f64, rise: f64) -> Point {
    moved(p, [reach * angle.cos(), reach * angle.sin(), rise])
}

pub fn any_angle(random: &mut Random) -> f64 {
    random.unit() * TAU
}

/// A blob as GeoPackage files hold it: little-endian WKB with ISO codes; all but points have an envelope of x, y and z.
pub fn blob(g: &Geometry) -> Vec<u8> {
    let flags = if matches!(g, Geometry::Point(_)) { POINT_FLAGS } else { OTHER_FLAGS };
    let mut out = vec![0x47, 0x50, 0, flags];
    out.extend(SRID.to_le_bytes());
    if flags == OTHER_FLAGS {
        let (mut low, mut high) = ([f64::INFINITY; 3], [f64::NEG_INFINITY; 3]);
        extent(g, &mut low, &mut high);
        for axis in 0..3 {
            out.extend(low[axis].to_le_bytes());
            out.extend(high[axis].to_le_bytes());
        }
    }
    out.extend(encode::wkb(g, Style::PLAIN, &mut Random::new(0)));
    out
}

fn extent(g: &Geometry, low: &mut Point, high: &mut Point) {
    let mut add = |p: &Ordinates| {
        for axis in 0..3 {
            low[axis] = low[axis].min(p[axis]);
            high[axis] = high[axis].max(p[axis]);
        }
    };
    match g {
        Geometry::Point(p) => add(p),
        Geometry::Line(run) => run.iter().for_each(add),
        Geometry::Rings(_, rings) => rings.iter().flatten().for_each(add),
        Geometry::Collection(_, members) => members.iter().for_each(|m| extent(m, low, high)),
    }
}

/// The WKB of a blob that `blob` made.
pub fn without_header(blob: &[u8]) -> &[u8] {
    if blob[3] == POINT_FLAGS { &blob[8..] } else { &blob[8 + 48..] }
}
