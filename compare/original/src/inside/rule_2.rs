//! Pair rule 2, which the original does not have, from the words of document 02, 3/13 (docs/SCOPE.md has them), over
//! the original's own vectors, pair measures, boxes and skip. It shares nothing with our library, so that the definition
//! is there twice.

use super::super::{
    Aabb, Boxed, Parts, Witness, closest, cross, dot, lerp, no_closer, pt_seg, pt_tri, seg_seg, sub, tri_tri,
};
use super::Point;

type Segment = (Point, Point);
type Triangle = (Point, Point, Point);

/// Which of the two rules a pair is measured by.
#[derive(Debug, Clone, Copy, PartialEq, Eq)]
pub enum Rule {
    One,
    Two,
}

/// What a sweep goes over.
#[derive(Clone, Copy)]
enum Item {
    Point(Point),
    Segment(Segment),
    Triangle(Triangle),
}

/// In `tri_tri`'s order.
fn edges(t: Triangle) -> [Segment; 3] {
    [(t.0, t.1), (t.1, t.2), (t.2, t.0)]
}

/// "`pt_tri`'s inside test": on the inner side of each edge, or on it.
fn is_inside(p: Point, t: Triangle, n: Point) -> bool {
    edges(t).iter().all(|(u, v)| dot(cross(sub(*v, *u), sub(p, *u)), n) >= 0.0)
}

/// Where a segment crosses a triangle, offered as both points.
fn crossing((start, end): Segment, t: Triangle) -> Option<Witness> {
    // "With n the cross product of second minus first and third minus first vertex"
    let n = cross(sub(t.1, t.0), sub(t.2, t.0));
    // "each end's side is the dot product of (end minus first vertex) with n"
    let side = |p: Point| dot(sub(p, t.0), n);
    let (of_start, of_end) = (side(start), side(end));
    // "If one is above 0 and the other below"
    let apart = (of_start > 0.0 && of_end < 0.0) || (of_start < 0.0 && of_end > 0.0);
    if !apart {
        return None;
    }
    // "the crossing is the interpolation at side of start / (side of start - side of end)"
    let p = lerp(start, end, of_start / (of_start - of_end));
    // "If n squared is above 0, it passes `pt_tri`'s inside test and its distance to itself is 0"
    let offered = Witness::between(p, p);
    (dot(n, n) > 0.0 && is_inside(p, t, n) && offered.d == 0.0).then_some(offered)
}

/// "`tri_tri`, before its edge pairs, tries each edge of one against the other, the first triangle's edges first, each
/// in `tri_tri`'s order": a crossing's distance is 0, and no later candidate is less.
fn tri_tri_by_2(t1: Triangle, t2: Triangle) -> Witness {
    let first = edges(t1).into_iter().find_map(|edge| crossing(edge, t2));
    let second = || edges(t2).into_iter().find_map(|edge| crossing(edge, t1));
    first.or_else(second).unwrap_or_else(|| tri_tri(t1, t2))
}

/// A segment and a triangle: "In rule 2 a segment against a triangle first tries a crossing"; then as `closest_inner`
/// has it, the triangle being of the first side or of the second.
fn seg_tri(s: Segment, t: Triangle, rule: Rule, triangle_first: bool) -> Vec<Witness> {
    let turned = |w: Witness| if triangle_first { w.flipped() } else { w };
    let ends = [s.0, s.1].map(|p| turned(pt_tri(p, t.0, t.1, t.2)));
    let along = edges(t).map(|e| if triangle_first { seg_seg(e.0, e.1, s.0, s.1) } else { seg_seg(s.0, s.1, e.0, e.1) });
    let tried = if rule == Rule::Two { crossing(s, t) } else { None };
    tried.into_iter().chain(ends).chain(along).collect()
}

/// What two items offer, in order.
fn candidates(a: Item, b: Item, rule: Rule) -> Vec<Witness> {
    match (a, b) {
        (Item::Point(p), Item::Point(q)) => vec![Witness::between(p, q)],
        (Item::Point(p), Item::Segment(s)) => vec![pt_seg(p, s.0, s.1)],
        (Item::Segment(s), Item::Point(q)) => vec![pt_seg(q, s.0, s.1).flipped()],
        (Item::Point(p), Item::Triangle(t)) => vec![pt_tri(p, t.0, t.1, t.2)],
        (Item::Triangle(t), Item::Point(q)) => vec![pt_tri(q, t.0, t.1, t.2).flipped()],
        (Item::Segment(s), Item::Segment(r)) => vec![seg_seg(s.0, s.1, r.0, r.1)],
        (Item::Segment(s), Item::Triangle(t)) => seg_tri(s, t, rule, false),
        (Item::Triangle(t), Item::Segment(s)) => seg_tri(s, t, rule, true),
        (Item::Triangle(t), Item::Triangle(u)) if rule == Rule::Two => vec![tri_tri_by_2(t, u)],
        (Item::Triangle(t), Item::Triangle(u)) => vec![tri_tri(t, u)],
    }
}

/// Points, segments, triangles, each with its box.
fn items(side: &Boxed) -> Vec<(Item, Aabb)> {
    let points = side.parts.points.iter().map(|p| (Item::Point(*p), Aabb::point(*p)));
    let segments = side.parts.segments.iter().zip(&side.segments).map(|(s, b)| (Item::Segment(*s), *b));
    let triangles = side.triangles.iter().zip(&side.triangle_boxes).map(|(t, b)| (Item::Triangle(*t), *b));
    points.chain(segments).chain(triangles).collect()
}

/// `closest_inner` with its skip, by a rule.
fn sweep(a: &Parts, b: &Parts, stop_at_zero: bool, rule: Rule) -> Option<Witness> {
    let (a, b) = (Boxed::new(a), Boxed::new(b));
    let (_, b_all) = (a.all?, b.all?);
    let (outer, inner) = (items(&a), items(&b));
    let mut best: Option<Witness> = None;
    for (x, x_box) in outer {
        if no_closer(best, x_box.min_dist_sq(&b_all)) {
            continue;
        }
        for (y, y_box) in &inner {
            if no_closer(best, x_box.min_dist_sq(y_box)) {
                continue;
            }
            for w in candidates(x, *y, rule) {
                best = Some(best.map_or(w, |seen| seen.min(w)));
                if stop_at_zero && best.is_some_and(|w| w.d == 0.0) {
                    return best;
                }
            }
        }
    }
    best
}

fn bits(w: Option<Witness>) -> Option<[u64; 7]> {
    let pattern = |x: f64| if x.is_nan() { f64::NAN.to_bits() } else { x.to_bits() };
    w.map(|w| [w.d, w.a[0], w.a[1], w.a[2], w.b[0], w.b[1], w.b[2]].map(pattern))
}

/// The closest pair by rule 2. That the sweep here is the original's is seen in each call: by rule 1 the two agree.
pub fn closest_by_2(a: &Parts, b: &Parts, stop_at_zero: bool) -> Option<Witness> {
    let (ours, theirs) = (sweep(a, b, stop_at_zero, Rule::One), closest(a, b, stop_at_zero));
    assert_eq!(bits(ours), bits(theirs), "the sweep here is not the original's");
    sweep(a, b, stop_at_zero, Rule::Two)
}
