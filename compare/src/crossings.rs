//! Cases for pair rule 2: rods through plates, plates through plates, and what comes close to it.

use crate::call::Op;
use crate::cases::{self, Case, SECOND};
use crate::encode::{self, Geometry, Ordinates, Style};
use crate::random::Random;
use crate::shapes::{self, Field, SPECIAL};

type P = [f64; 3];

fn add(a: P, b: P, by: f64) -> P {
    [a[0] + by * b[0], a[1] + by * b[1], a[2] + by * b[2]]
}

fn sub(a: P, b: P) -> P {
    [a[0] - b[0], a[1] - b[1], a[2] - b[2]]
}

fn cross(a: P, b: P) -> P {
    [a[1] * b[2] - a[2] * b[1], a[2] * b[0] - a[0] * b[2], a[0] * b[1] - a[1] * b[0]]
}

fn with_m(p: &[P], random: &mut Random) -> Vec<Ordinates> {
    p.iter().map(|[x, y, z]| [*x, *y, *z, shapes::any_m(random)]).collect()
}

fn vertex(field: Field, random: &mut Random) -> P {
    let [x, y, z, _] = field.vertex(random);
    [x, y, z]
}

/// Numbers of which crossings are often exact, and others.
fn field(random: &mut Random) -> Field {
    random.pick(&[Field::Grid, Field::Grid, Field::Grid, Field::Tenths, Field::Uniform, Field::Zeros, Field::Mixed])
}

/// The corners of a plate: three, or more whose fan may be flat.
fn plate(random: &mut Random) -> Vec<P> {
    let field = field(random);
    match random.below(6) {
        0..=2 => (0..3).map(|_| vertex(field, random)).collect(),
        3 => (0..3 + random.below(4)).map(|_| vertex(field, random)).collect(),
        4 => {
            let (axis, at, count) = (random.below(3), field.ordinate(random), 3 + random.below(3));
            let mut corner = |_| {
                let mut p = vertex(field, random);
                p[axis] = at;
                p
            };
            (0..count).map(&mut corner).collect()
        }
        _ => {
            let (p, along, up) = (vertex(field, random), vertex(field, random), vertex(field, random));
            vec![p, add(p, along, 1.0), add(add(p, along, 1.0), up, 1.0), add(p, up, 1.0)]
        }
    }
}

/// A ring of the corners, often closed: its fan then has a triangle without area.
fn face(corners: &[P], random: &mut Random) -> Geometry {
    let mut ring = corners.to_vec();
    if random.chance(50) {
        ring.extend(corners.first());
    }
    Geometry::Rings(random.pick(&[3, 17]), vec![with_m(&ring, random)])
}

/// A triangle of the plate's fan.
fn fanned(corners: &[P], random: &mut Random) -> [P; 3] {
    let i = 1 + random.below(corners.len() - 2);
    [corners[0], corners[i], corners[i + 1]]
}

/// A place in a triangle's plane: inside, on an edge, at a corner, or outside, by a little or far.
fn place(t: [P; 3], random: &mut Random) -> P {
    let (u, v) = match random.below(8) {
        0..=2 => {
            let u = random.range(1, 6);
            (u as f64 / 8.0, random.range(1, 7 - u) as f64 / 8.0)
        }
        3 => {
            let u = random.unit();
            (u, (1.0 - u) * random.unit())
        }
        4 => random.pick(&[(0.5, 0.0), (0.0, 0.5), (0.5, 0.5), (0.25, 0.75), (0.125, 0.0)]),
        5 => random.pick(&[(0.0, 0.0), (1.0, 0.0), (0.0, 1.0)]),
        6 => random.pick(&[(-1e-16, 0.5), (0.5, 0.5000000000000001), (0.25, -5e-17), (-0.0, 0.3)]),
        _ => (random.range(-8, 16) as f64 / 8.0, random.range(-8, 16) as f64 / 8.0),
    };
    add(add(t[0], sub(t[1], t[0]), u), sub(t[2], t[0]), v)
}

/// Through a plane: along its normal, along an axis, anyhow, or in the plane itself.
fn direction(t: [P; 3], random: &mut Random) -> P {
    let axes = [[1.0, 0.0, 0.0], [0.0, 1.0, 0.0], [0.0, 0.0, 1.0], [0.0, 0.0, -1.0]];
    match random.below(8) {
        0..=2 => cross(sub(t[1], t[0]), sub(t[2], t[0])),
        3 | 4 => random.pick(&axes),
        5 | 6 => vertex(field(random), random),
        _ => sub(t[1 + random.below(2)], t[0]),
    }
}

/// The two ends of a rod through a place of the triangle's plane; one may stand in it, or on the other's side of it.
fn rod(t: [P; 3], random: &mut Random) -> [P; 2] {
    const REACH: [f64; 12] = [1.0, 1.0, 1.0, 0.5, 2.0, 3.0, 0.1, 0.0, 1e-9, 1e9, 9.313225746154785e-10, -1.0];
    let (at, along) = (place(t, random), direction(t, random));
    let (before, after) = (random.pick(&REACH), random.pick(&REACH));
    let ends = [add(at, along, before), add(at, along, -after)];
    if random.chance(50) { ends } else { [ends[1], ends[0]] }
}

/// A line with the rod among its segments.
fn line_of(rod: [P; 2], random: &mut Random) -> Geometry {
    let mut run = rod.to_vec();
    for _ in 0..random.pick(&[0, 0, 0, 1, 2, 4]) {
        let more = vertex(field(random), random);
        run.insert(random.below(run.len() + 1), more);
    }
    Geometry::Line(with_m(&run, random))
}

/// A plate with the rod as one of its edges, whichever.
fn plate_of(rod: [P; 2], third: P, random: &mut Random) -> Geometry {
    let mut corners = [rod[0], rod[1], third];
    corners.rotate_left(random.below(3));
    if random.chance(30) {
        corners.swap(0, 1);
    }
    face(&corners, random)
}

/// The geometry among others, or alone.
fn among(g: Geometry, random: &mut Random) -> Geometry {
    if random.chance(70) {
        return g;
    }
    let mut members = vec![g];
    for _ in 0..1 + random.below(3) {
        let other = shapes::any(field(random), 0, random);
        members.insert(random.below(members.len() + 1), other);
    }
    Geometry::Collection(7, members)
}

fn rods(random: &mut Random) -> (Geometry, Geometry) {
    let corners = plate(random);
    let rod = rod(fanned(&corners, random), random);
    (line_of(rod, random), face(&corners, random))
}

fn plates(random: &mut Random) -> (Geometry, Geometry) {
    let corners = plate(random);
    let t = fanned(&corners, random);
    let rod = rod(t, random);
    let third = if random.chance(50) { vertex(field(random), random) } else { place(t, random) };
    (plate_of(rod, third, random), face(&corners, random))
}

/// A rod that ends in the plate, and a plate with a corner in it.
fn ends(random: &mut Random) -> (Geometry, Geometry) {
    let corners = plate(random);
    let t = fanned(&corners, random);
    let at = place(t, random);
    let mut rod = [at, add(at, direction(t, random), random.pick(&[1.0, -1.0, 0.1, 0.0]))];
    if random.chance(50) {
        rod.reverse();
    }
    let a = if random.chance(50) {
        line_of(rod, random)
    } else {
        let third = if random.chance(50) { place(t, random) } else { vertex(field(random), random) };
        plate_of(rod, third, random)
    };
    (a, face(&corners, random))
}

/// A rod or a plate whose edge meets, touches or lies on an edge of the plate.
fn edges(random: &mut Random) -> (Geometry, Geometry) {
    let corners = plate(random);
    let t = fanned(&corners, random);
    let i = random.below(3);
    let (u, v) = (t[i], t[(i + 1) % 3]);
    let at = add(u, sub(v, u), random.pick(&[0.0, 0.5, 1.0, 0.25, 0.1, 1.5, -0.5]));
    let along = if random.chance(50) { direction(t, random) } else { sub(v, u) };
    let rod = [add(at, along, random.pick(&[1.0, 0.5, 0.0])), add(at, along, random.pick(&[-1.0, -0.5, 0.25]))];
    let other = vertex(field(random), random);
    let third = random.pick(&[t[(i + 2) % 3], other, u]);
    let a = if random.chance(40) { line_of(rod, random) } else { plate_of(rod, third, random) };
    (a, face(&corners, random))
}

/// Plates without area, or with next to none, and a rod through where they stand.
fn degenerate(random: &mut Random) -> (Geometry, Geometry) {
    let field = field(random);
    let (p, q) = (vertex(field, random), vertex(field, random));
    let little = random.pick(&[0.0, 0.0, 1e-300, 1e-160, 1e-81, 1e-17, 5e-324]);
    let third = match random.below(4) {
        0 => p,
        1 => q,
        2 => add(add(p, sub(q, p), 0.5), [1.0, -1.0, 1.0], little),
        _ => add(add(p, sub(q, p), 2.0), vertex(field, random), little),
    };
    let mut corners = [p, q, third];
    corners.rotate_left(random.below(3));
    let rod = rod(corners, random);
    let a = if random.chance(60) { line_of(rod, random) } else { plate_of(rod, vertex(field, random), random) };
    (a, face(&corners, random))
}

/// Rods through the diagonals of a fan, whose triangles meet there.
fn fans(random: &mut Random) -> (Geometry, Geometry) {
    let field = random.pick(&[Field::Grid, Field::Tenths, Field::Uniform]);
    let (p, mut along, mut up) = (vertex(field, random), vertex(field, random), vertex(field, random));
    if random.chance(50) {
        (along[1], along[2], up[0], up[2]) = (0.0, 0.0, 0.0, 0.0);
    }
    let corners = [p, add(p, along, 1.0), add(add(p, along, 1.0), up, 1.0), add(p, up, 1.0)];
    let share = random.pick(&[0.2, 0.1, 0.3, 0.5, 0.7]);
    let at = add(p, sub(corners[2], p), share);
    let through = cross(along, up);
    let through = if random.chance(50) { [0.0, 0.0, 1.0] } else { through };
    let rod = [add(at, through, -1.0), add(at, through, random.pick(&[1.0, 0.5, 3.0]))];
    (line_of(rod, random), face(&corners, random))
}

/// A wavy surface over x and y, or over x and z, of small whole numbers.
fn surface(upright: bool, random: &mut Random) -> Geometry {
    let most = if random.chance(4) { 30 } else { 4 };
    let (wide, deep) = (1 + random.below(4), 1 + random.below(most));
    let mut corner = |i: usize, j: usize| {
        let (x, y, z) = (i as f64 - 1.0, j as f64 - 1.0, random.range(-2, 2) as f64 / 2.0);
        if upright { [x + 0.25, z, y] } else { [x, y, z] }
    };
    let grid: Vec<Vec<P>> = (0..=deep).map(|j| (0..=wide).map(|i| corner(i, j)).collect()).collect();
    let mut members = Vec::new();
    for (low, high) in grid.iter().zip(&grid[1..]) {
        for i in 0..wide {
            members.push(face(&[low[i], low[i + 1], high[i]], random));
            members.push(face(&[low[i + 1], high[i + 1], high[i]], random));
        }
    }
    Geometry::Collection(16, members)
}

/// Surfaces through surfaces, and lines through surfaces.
fn meshes(random: &mut Random) -> (Geometry, Geometry) {
    let a = match random.below(4) {
        0 => {
            let n = random.pick(&[2, 5, 12, 40]);
            Geometry::Line(Field::Grid.run(n, random))
        }
        1 => surface(false, random),
        _ => surface(true, random),
    };
    (a, surface(false, random))
}

/// Every place of a geometry, changed.
fn changed(g: &mut Geometry, change: &mut dyn FnMut(&mut f64)) {
    let mut all = |run: &mut Vec<Ordinates>| run.iter_mut().for_each(|p| p[..3].iter_mut().for_each(&mut *change));
    match g {
        Geometry::Point(p) => p[..3].iter_mut().for_each(change),
        Geometry::Line(run) => all(run),
        Geometry::Rings(_, rings) => rings.iter_mut().for_each(all),
        Geometry::Collection(_, members) => members.iter_mut().for_each(|g| changed(g, change)),
    }
}

/// A pair of which normals, their squares or sides overflow or vanish: sides go by the third power of the scale.
fn scaled(random: &mut Random) -> (Geometry, Geometry) {
    const POWERS: [i32; 18] =
        [-1040, -540, -400, -358, -345, -269, -268, -180, 170, 255, 256, 300, 339, 340, 341, 511, 700, 1000];
    let (mut a, mut b) = any_pair(random);
    let by = 2f64.powi(random.pick(&POWERS));
    let (both, axis) = (random.chance(75), random.chance(25));
    // One axis alone, or all: squeezed plates, too.
    let mut k = 0;
    let mut change = |x: &mut f64| {
        if !axis || k % 3 == 2 {
            *x *= by;
        }
        k += 1;
    };
    changed(&mut a, &mut change);
    if both {
        changed(&mut b, &mut change);
    }
    (a, b)
}

/// A pair with some ordinates that are NaN, infinite, huge, subnormal or -0.
fn special(random: &mut Random) -> (Geometry, Geometry) {
    let (mut a, mut b) = any_pair(random);
    let huge = [1.7e308, -1.7e308, 1e308, f64::MAX, 1e200, -1e160, 1e103, -0.0];
    let share = random.pick(&[4, 10, 30]);
    let mut change = |x: &mut f64| {
        if random.chance(share) {
            *x = if random.chance(50) { random.pick(&SPECIAL) } else { random.pick(&huge) };
        }
    };
    changed(&mut a, &mut change);
    changed(&mut b, &mut change);
    (a, b)
}

fn any_pair(random: &mut Random) -> (Geometry, Geometry) {
    let draw = random.pick(&[rods as fn(&mut Random) -> (Geometry, Geometry), rods, plates, plates, ends, edges, fans]);
    draw(random)
}

/// Mostly plainly encoded: an encoding that drops z leaves little to cross.
fn case(class: &'static str, (a, b): (Geometry, Geometry), random: &mut Random) -> Case {
    let (a, b) = (among(a, random), among(b, random));
    let (a, b) = if random.chance(50) { (a, b) } else { (b, a) };
    let mut blob = |g: &Geometry| {
        if random.chance(20) { encode::blob(g, random) } else { encode::wkb(g, Style::PLAIN, &mut Random::new(0)) }
    };
    Case { class, a: blob(&a), b: blob(&b), ops: Op::BY_RULE }
}

/// Cases of a drawn class.
pub fn drawn(random: &mut Random, run: &mut dyn FnMut(Case)) {
    let (class, pair) = match random.below(20) {
        0..=3 => ("rods", rods(random)),
        4..=7 => ("plates through plates", plates(random)),
        8 => ("ends on plates", ends(random)),
        9 => ("edges on edges", edges(random)),
        10 => ("plates without area", degenerate(random)),
        11 => ("rods through diagonals", fans(random)),
        12 => ("surfaces through surfaces", meshes(random)),
        13 | 14 => ("scaled", scaled(random)),
        15 | 16 => ("special ordinates", special(random)),
        _ => return cases::drawn(random, run),
    };
    run(case(class, pair, random));
}

/// The request's own inputs, and those of docs/DECISIONS.md.
pub fn fixtures(run: &mut dyn FnMut(Case)) {
    let random = &mut Random::new(2);
    let line = |c: &[P], random: &mut Random| Geometry::Line(with_m(c, random));
    let ring = |c: &[P], random: &mut Random| Geometry::Rings(3, vec![with_m(c, random)]);
    let small = [[0., 0., 0.], [4., 0., 0.], [0., 4., 0.]];
    let large = [[0., 0., 0.], [8., 0., 0.], [0., 8., 0.]];
    let quad = [[0., 0., 0.], [1., 0., 0.], [1., 3., 0.], [0., 3., 0.]];
    let rods: [(&[P], &[P]); 7] = [
        (&[[1., 1., -1.], [1., 1., 1.]], &small),
        (&[[3., 3., -1.], [3., 3., 1.]], &small),
        (&[[1., 1., 0.], [1., 1., 1.]], &small),
        (&[[1., 1., 1.], [1., 1., -1.7e308]], &small),
        (&[[1., 1., -1.7e308], [1., 1., 1.]], &small),
        (&[[0.2, 0.6, -1.], [0.2, 0.6, 1.]], &quad),
        (&[[1., 1., -1.], [1., 1., 1.]], &[[0., 0., 0.], [2., 0., 0.], [4., 0., 0.]]),
    ];
    let plates: [(&[P], &[P]); 3] = [
        (&[[1., 1., -1.], [1., 1., 1.], [1., -4., 0.]], &large),
        (&[[1., 1., -1.], [1., 1., 1.], [1., 3., -1.]], &large),
        (&small, &small),
    ];
    let mut pairs: Vec<(Geometry, Geometry)> =
        rods.iter().map(|(rod, plate)| (line(rod, random), ring(plate, random))).collect();
    pairs.extend(plates.iter().map(|(one, other)| (ring(one, random), ring(other, random))));
    let mut plain = |g: &Geometry| encode::wkb(g, Style::PLAIN, random);
    for (a, b) in &pairs {
        for (a, b) in [(a, b), (b, a)] {
            run(Case { class: "fixtures", a: plain(a), b: plain(b), ops: Op::BY_RULE });
        }
    }
    // What is wrong with a blob is told after the rule's number.
    for wrong in [&b""[..], b"GP", b"\x02", b"\x01\x01\x00\x00\x00"] {
        let good = plain(&pairs[0].0);
        run(Case { class: "fixtures", a: wrong.to_vec(), b: good.clone(), ops: Op::BY_RULE });
        run(Case { class: "fixtures", a: good, b: wrong.to_vec(), ops: SECOND });
    }
}
