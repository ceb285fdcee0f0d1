//! Declared after the end of `functions/threed_metric.rs`, so it sees that file's private items.

#[path = "rule_2.rs"]
mod rule_2;

use super::{closest, farthest, line_z, parts, point_z};
use crate::error::Result;
use crate::{coords, geom};

pub type Point = [f64; 3];

/// `Parts`, with its fields in sight.
#[derive(Debug, Clone, Default)]
pub struct Parts {
    pub points: Vec<Point>,
    pub segments: Vec<(Point, Point)>,
    pub faces: Vec<Vec<Point>>,
}

/// `Witness`, with its fields in sight.
#[derive(Debug, Clone, Copy)]
pub struct Witness {
    pub d: f64,
    pub a: Point,
    pub b: Point,
}

fn shown(w: super::Witness) -> Witness {
    Witness { d: w.d, a: w.a, b: w.b }
}

fn hidden(p: &Parts) -> super::Parts {
    super::Parts { points: p.points.clone(), segments: p.segments.clone(), faces: p.faces.clone() }
}

pub fn parts_of(blob: &[u8]) -> Result<Parts> {
    let p = parts(blob, "compare")?;
    Ok(Parts { points: p.points, segments: p.segments, faces: p.faces })
}

pub fn closest_of(a: &Parts, b: &Parts, stop_at_zero: bool) -> Option<Witness> {
    closest(&hidden(a), &hidden(b), stop_at_zero).map(shown)
}

/// By pair rule 2, which is ours to define.
pub fn closest_by_2_of(a: &Parts, b: &Parts, stop_at_zero: bool) -> Option<Witness> {
    rule_2::closest_by_2(&hidden(a), &hidden(b), stop_at_zero).map(shown)
}

/// The blob of a point, and of a line, as the original writes it.
pub fn point_blob(p: Point, srid: i32) -> Vec<u8> {
    point_z(p, srid, "compare").expect("a point is written")
}

pub fn line_blob(a: Point, b: Point, srid: i32) -> Vec<u8> {
    line_z(a, b, srid, "compare").expect("a line is written")
}

pub fn farthest_of(a: &Parts, b: &Parts) -> Option<Witness> {
    farthest(&hidden(a), &hidden(b)).map(shown)
}

/// The non-empty runs in walk order: kind and coordinates.
pub fn runs_of(blob: &[u8]) -> Result<Vec<(u32, Vec<Point>)>> {
    let mut runs: Vec<(u32, Vec<Point>)> = Vec::new();
    coords::for_each_coord_typed(blob, &mut |c, first, base| {
        if first {
            runs.push((base, Vec::new()));
        }
        let last = runs.last_mut().expect("a run begins with its first coordinate");
        last.1.push([c.x, c.y, c.z.unwrap_or(0.0)]);
    })?;
    Ok(runs)
}

/// `both`'s test of one side.
pub fn has_z(blob: &[u8]) -> Result<bool> {
    geom::has_z_encoded(blob)
}

pub fn srid(blob: &[u8]) -> Result<i32> {
    geom::srid_of(blob)
}
