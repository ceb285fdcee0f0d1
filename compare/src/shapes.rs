//! Seeded shapes: which ordinates, and which geometries.

use crate::encode::{Geometry, Ordinates};
use crate::random::Random;

/// Where ordinates are drawn from.
#[derive(Debug, Clone, Copy)]
pub enum Field {
    /// Small whole numbers: exact ties.
    Grid,
    /// Zeros of both signs, and ones.
    Zeros,
    /// Tenths.
    Tenths,
    /// From -100 to 100.
    Uniform,
    /// Three numbers of the field, permuted and negated: sums of squares that differ, roots that tie.
    Permuted([f64; 3]),
    /// NaN, infinities, zeros, subnormal and huge numbers.
    Special,
    /// About 2^-26, where a squared length is about 2^-52.
    Short,
    /// Squares overflow or vanish.
    Extreme,
    /// Any pattern.
    Patterns,
    /// Mostly whole numbers, some special.
    Mixed,
}

pub const SPECIAL: [f64; 20] = [
    f64::NAN,
    f64::INFINITY,
    f64::NEG_INFINITY,
    0.0,
    -0.0,
    1.0,
    -1.0,
    5e-324,
    -5e-324,
    f64::MIN_POSITIVE,
    f64::MAX,
    f64::MIN,
    1.3407807929942596e154,
    1.5e154,
    1e-154,
    1.4901161193847656e-8,
    2.0,
    f64::EPSILON,
    1e308,
    3.0,
];

impl Field {
    pub fn any(random: &mut Random) -> Field {
        match random.below(15) {
            14 => Field::Zeros,
            0..=2 => Field::Grid,
            3 => Field::Tenths,
            4..=6 => Field::Uniform,
            7 => Field::permuted(random),
            8 => Field::Special,
            9 => Field::Short,
            10 => Field::Extreme,
            11 => Field::Patterns,
            _ => Field::Mixed,
        }
    }

    pub fn permuted(random: &mut Random) -> Field {
        let mut draw = || random.unit() * 10.0;
        Field::Permuted([draw(), draw(), draw()])
    }

    pub fn ordinate(self, random: &mut Random) -> f64 {
        match self {
            Field::Grid => random.range(-3, 3) as f64,
            Field::Zeros => random.pick(&[0.0, -0.0, -0.0, 1.0, -1.0]),
            Field::Tenths => random.range(-40, 40) as f64 / 10.0,
            Field::Uniform => (random.unit() - 0.5) * 200.0,
            Field::Permuted(three) => random.pick(&three),
            Field::Special => random.pick(&SPECIAL),
            Field::Short => {
                let unit = random.pick(&[2f64.powi(-26), 2f64.powi(-27), 1e-8, 2f64.powi(-25)]);
                random.range(-3, 3) as f64 * unit + random.pick(&[0.0, 0.0, 1.0])
            }
            Field::Extreme => {
                let power = random.pick(&[-538, -537, -512, -270, 500, 511, 512, 1000, 1022]);
                random.range(-3, 3) as f64 * 2f64.powi(power) * random.pick(&[0.25, 1.0, 0.3])
            }
            Field::Patterns => f64::from_bits(random.bits()),
            Field::Mixed if random.chance(4) => random.pick(&SPECIAL),
            Field::Mixed => random.range(-20, 20) as f64 * random.pick(&[0.5, 1.0, 0.1, 3.7]),
        }
    }

    pub fn vertex(self, random: &mut Random) -> Ordinates {
        let m = any_m(random);
        if let Field::Permuted([p, q, r]) = self {
            let [x, y, z] = random.pick(&[[p, q, r], [p, r, q], [q, p, r], [q, r, p], [r, p, q], [r, q, p]]);
            let mut sign = |v: f64| if random.chance(30) { -v } else { v };
            return [sign(x), sign(y), sign(z), m];
        }
        [self.ordinate(random), self.ordinate(random), self.ordinate(random), m]
    }

    pub fn run(self, n: usize, random: &mut Random) -> Vec<Ordinates> {
        let mut run: Vec<Ordinates> = Vec::with_capacity(n);
        for _ in 0..n {
            // Some vertices stand twice.
            let again = !run.is_empty() && random.chance(8);
            run.push(if again { random.pick(&run) } else { self.vertex(random) });
        }
        run
    }
}

/// An hour of passage, or a number that would show in an answer that it entered: NaN of several payloads, infinities,
/// zeros of both signs, subnormal and huge numbers, any pattern.
pub fn any_m(random: &mut Random) -> f64 {
    match random.below(8) {
        0 | 1 => random.pick(&SPECIAL),
        2 => f64::from_bits(random.pick(&[
            0x7FF0_0000_0000_0001,
            0xFFF8_0000_0000_0000,
            u64::MAX,
            0x800F_FFFF_FFFF_FFFF,
            1 << 63,
        ])),
        3 => f64::from_bits(random.bits()),
        4 => random.range(-3, 3) as f64,
        _ => random.unit() * 9000.0,
    }
}

/// How many vertices a small run has: empty ones and runs of one and two are common.
fn few(random: &mut Random) -> usize {
    random.pick(&[0, 1, 2, 2, 3, 3, 4, 5, 6])
}

pub fn line(field: Field, random: &mut Random) -> Geometry {
    let n = few(random);
    Geometry::Line(field.run(n, random))
}

pub fn face(field: Field, random: &mut Random) -> Geometry {
    let kind = random.pick(&[3, 17]);
    let rings = random.pick(&[0, 1, 1, 1, 1, 2, 3]);
    Geometry::Rings(
        kind,
        (0..rings)
            .map(|_| {
                let n = few(random).max(random.below(5));
                field.run(n, random)
            })
            .collect(),
    )
}

/// A face of one closed ring with three or four corners.
pub fn patch(kind: u32, field: Field, random: &mut Random) -> Geometry {
    let mut ring = if random.chance(50) {
        field.run(random.pick(&[3, 4]), random)
    } else {
        // A rectangle whose sides are parallel to axes.
        let (p, q) = (field.vertex(random), field.vertex(random));
        let axis = random.below(3);
        let (i, j) = ((axis + 1) % 3, (axis + 2) % 3);
        let mut corners = [p; 4];
        corners[1][i] = q[i];
        corners[2][i] = q[i];
        corners[2][j] = q[j];
        corners[3][j] = q[j];
        corners.to_vec()
    };
    if let Some(first) = ring.first().copied() {
        ring.push(first);
    }
    Geometry::Rings(kind, vec![ring])
}

/// Any geometry, of at most `depth` levels below.
pub fn any(field: Field, depth: usize, random: &mut Random) -> Geometry {
    match random.below(if depth == 0 { 6 } else { 9 }) {
        0 | 1 => Geometry::Point(field.vertex(random)),
        2 | 3 => line(field, random),
        4 => face(field, random),
        5 => patch(random.pick(&[3, 17]), field, random),
        _ => {
            let kind = random.pick(&[4, 5, 6, 7, 7, 7, 15, 16]);
            let n = random.pick(&[0, 1, 2, 2, 3, 4]);
            Geometry::Collection(kind, (0..n).map(|_| any(field, depth - 1, random)).collect())
        }
    }
}

/// Points only, at any level.
pub fn points(field: Field, random: &mut Random) -> Geometry {
    let n = random.pick(&[0, 1, 1, 2, 3, 5, 8]);
    Geometry::Collection(random.pick(&[4, 7]), (0..n).map(|_| Geometry::Point(field.vertex(random))).collect())
}

fn moved(p: Ordinates, by: Ordinates) -> Ordinates {
    [p[0] + by[0], p[1] + by[1], p[2] + by[2], p[3]]
}

/// Many small faces or segments over a wide place, so that boxes skip.
pub fn mesh(random: &mut Random) -> Geometry {
    let most = if random.chance(5) { 60 } else { 12 };
    let n = 2 + random.below(most);
    let small = random.pick(&[Field::Grid, Field::Uniform, Field::Tenths]);
    let kind = random.pick(&[15, 16, 7]);
    let corner = Field::Uniform.vertex(random);
    let members = (0..n).map(|_| {
        let by = moved(corner, Field::Uniform.vertex(random));
        match (kind, random.below(3)) {
            (7, 0) => Geometry::Point(by),
            (7, 1) => Geometry::Line(small.run(3, random).into_iter().map(|p| moved(p, by)).collect()),
            _ => {
                let ring: Vec<_> = small.run(3, random).into_iter().map(|p| moved(p, by)).collect();
                Geometry::Rings(if kind == 16 { 17 } else { 3 }, vec![[ring.clone(), ring[..1].to_vec()].concat()])
            }
        }
    });
    Geometry::Collection(kind, members.collect())
}

/// Collections in collections: `depth` levels above the innermost geometry.
pub fn nested(inner: Geometry, depth: usize, random: &mut Random) -> Geometry {
    (0..depth).fold(inner, |g, _| {
        let mut members = vec![g];
        if random.chance(10) {
            members.insert(random.below(2), Geometry::Point(Field::Grid.vertex(random)));
        }
        Geometry::Collection(random.pick(&[4, 5, 6, 7, 15, 16]), members)
    })
}

/// A far point, and a point beside the end of a segment or face whose interpolation at 1 can pass that end.
pub fn overshoot(random: &mut Random) -> (Geometry, Geometry) {
    let axis = random.below(3);
    let on_axis = |x: f64, random: &mut Random| {
        let mut p = [0.0, 0.0, 0.0, any_m(random)];
        p[axis] = x;
        if random.chance(10) {
            p[(axis + 1) % 3] = random.range(-1, 1) as f64;
        }
        p
    };
    let far = on_axis(1.0, random);
    let (mut end, mut start, mut beside) = (on_axis(0.0, random), on_axis(0.0, random), on_axis(0.0, random));
    end[axis] = random.range(-90, 95) as f64 / 100.0;
    let (length, little) = (random.unit() * 100.0, random.unit() * 1e-13);
    start[axis] = -random.pick(&[1.0, 3.0, 1000.0, 7.3, 1e6, length]);
    let nudge = random.pick(&[0.0, 1e-14, 3e-15, 1e-13, 2e-16, -2e-16, -1e-15, little]);
    beside[axis] = end[axis] + nudge;
    let long = match random.below(4) {
        0 => Geometry::Rings(17, vec![vec![start, end, on_axis(start[axis] - 1.0, random), start]]),
        1 => Geometry::Line(vec![end, start]),
        _ => Geometry::Line(vec![start, end]),
    };
    let mut members = vec![Geometry::Point(beside), long];
    if random.chance(30) {
        members.reverse();
    }
    if random.chance(20) {
        members.push(line(Field::Tenths, random));
    }
    let a = if random.chance(75) {
        Geometry::Point(far)
    } else {
        let mut further = far;
        further[axis] = 2.0 + random.unit();
        Geometry::Line(vec![far, further])
    };
    (a, Geometry::Collection(7, members))
}
