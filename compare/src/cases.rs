//! The cases: which blobs, and which operations on them. Some are fixed or exhaustive, the rest is drawn.

use crate::call::{Call, Lent, Op};
use crate::encode::{self, Geometry, SRID_FLAG, Style, Z_FLAG, put_u32};
use crate::oracle::{Read, Side};
use crate::random::Random;
use crate::shapes::{self, Field};
use original::functions::threed_metric::inside::{closest_by_2_of, closest_of, farthest_of};

#[derive(Debug, Clone)]
pub struct Case {
    pub class: &'static str,
    pub a: Vec<u8>,
    pub b: Vec<u8>,
    pub ops: &'static [Op],
}

const READING: &[Op] = &[Op::Distance, Op::LongestLine, Op::Interpolate, Op::Patch, Op::Sizes, Op::Read];
pub const SECOND: &[Op] = &[Op::Distance, Op::ShortestLine];

/// By which rules the calls of a comparison are made.
#[derive(Debug, Clone, Copy, PartialEq, Eq)]
pub enum Rules {
    /// By rule 1 alone, every operation: beside the original.
    One,
    /// Mostly by rule 2, now and then by 1 or by a number that is no rule; operations that take one.
    Drawn,
}

impl Rules {
    fn draw(self, random: &mut Random) -> u32 {
        const NONE: [u32; 10] = [0, 3, 4, 255, 256, 258, 0x0001_0002, 0x8000_0002, u32::MAX - 1, u32::MAX];
        match self {
            Rules::One => 1,
            Rules::Drawn => match random.below(40) {
                0 => random.pick(&NONE),
                1 | 2 => 1,
                _ => 2,
            },
        }
    }

    fn allow(self, op: Op) -> bool {
        self == Rules::One || op.takes_rule()
    }
}

/// What is lent: enough, exactly enough, or too little by one or more in one place.
fn lent(op: Op, a: &Side, b: &Side, random: &mut Random) -> Lent {
    let mut lent = Lent::default();
    for (i, side) in [a, b].into_iter().enumerate() {
        let (floats, numbers) = side.read.as_ref().map_or((8, 4), Read::lengths);
        (lent.floats[i], lent.numbers[i]) = (floats, numbers);
    }
    lent.output = op.output().unwrap_or(0);
    if random.chance(60) {
        for n in lent.floats.iter_mut().chain(&mut lent.numbers).chain([&mut lent.output]) {
            *n += random.below(4);
        }
    }
    if random.chance(12) {
        let [f1, f2] = &mut lent.floats;
        let [n1, n2] = &mut lent.numbers;
        for place in [f1, f2, n1, n2, &mut lent.output] {
            if random.chance(30) {
                *place = match random.below(10) {
                    0..=6 => place.saturating_sub(1),
                    7 => *place / 4 * 3, // of floats: what x, y and z alone take
                    _ => random.below(*place + 1),
                };
            }
        }
    }
    lent
}

fn next(x: f64, by: i64) -> f64 {
    f64::from_bits(x.to_bits().wrapping_add_signed(by))
}

/// A distance to test with: often the measured one or its neighbour.
fn distance(op: Op, rule: u32, a: &Side, b: &Side, random: &mut Random) -> f64 {
    let odd = [0.0, -0.0, f64::NAN, f64::INFINITY, f64::NEG_INFINITY, -1.0, -5e-324, 1.0, 3.0, 5e-324];
    if random.chance(35) {
        return random.pick(&odd);
    }
    let (Ok(a), Ok(b)) = (&a.read, &b.read) else { return random.pick(&odd) };
    let w = match op {
        Op::DWithin if rule == 2 => closest_by_2_of(&a.parts, &b.parts, false),
        Op::DWithin => closest_of(&a.parts, &b.parts, false),
        _ => farthest_of(&a.parts, &b.parts),
    };
    w.map_or(1.0, |w| next(w.d, random.range(-1, 1)))
}

fn fraction(random: &mut Random) -> f64 {
    let odd = [0.0, -0.0, 1.0, 0.5, 0.25, 5e-324, 1.0 - f64::EPSILON / 2.0];
    let bad = [f64::NAN, -5e-324, 1.0 + f64::EPSILON, f64::INFINITY, -1.0, 2.0, f64::NEG_INFINITY];
    match random.below(10) {
        0..=3 => random.pick(&odd),
        4 => random.pick(&bad),
        5 => random.range(0, 12) as f64 / 12.0,
        _ => random.unit(),
    }
}

impl Case {
    /// The calls of the case, with numbers and lent memory drawn.
    pub fn calls(&self, a: &Side, b: &Side, rules: Rules, random: &mut Random) -> Vec<Call> {
        let call = |op: Op| {
            let rule = rules.draw(random);
            let number = match op {
                Op::DWithin | Op::DFullyWithin => distance(op, rule, a, b, random),
                Op::Interpolate => fraction(random),
                _ => 0.0,
            };
            let index = match random.below(8) {
                0 => random.pick(&[u64::MAX, 1 << 32, 255, 1 << 63]),
                _ => random.below(5) as u64,
            };
            let b_blob = if op.two_blobs() { self.b.clone() } else { Vec::new() };
            Call { op, a: self.a.clone(), b: b_blob, number, rule, index, lent: lent(op, a, b, random) }
        };
        self.ops.iter().copied().filter(|op| rules.allow(*op)).map(call).collect()
    }
}

fn point(x: f64, y: f64, z: f64) -> Geometry {
    Geometry::Point([x, y, z, 0.0])
}

fn plain(g: &Geometry) -> Vec<u8> {
    encode::wkb(g, Style::PLAIN, &mut Random::new(0))
}

fn chain(coordinates: &[[f64; 3]]) -> Vec<[f64; 4]> {
    coordinates.iter().map(|[x, y, z]| [*x, *y, *z, 0.0]).collect()
}

/// Document 01's fixtures 4 to 14, and the inputs at which a skip shows.
pub fn fixtures(run: &mut dyn FnMut(Case)) {
    let line = |c: &[[f64; 3]]| Geometry::Line(chain(c));
    let face = |c: &[[f64; 3]]| Geometry::Rings(3, vec![chain(c)]);
    let both = |g: Vec<Geometry>| Geometry::Collection(7, g);
    let tri = face(&[[0., 0., 0.], [4., 0., 0.], [0., 4., 0.], [0., 0., 0.]]);
    let nan = face(&[[f64::NAN, 0., 0.], [f64::NAN, 1., 0.], [f64::NAN, 0., 1.]]);
    let pairs = [
        (point(0., 0., 0.), point(3., 4., 12.)),
        (point(0., 0., 5.), line(&[[0., 0., 0.], [0., 0., 2.]])),
        (line(&[[0., 0., 0.], [4., 0., 0.]]), line(&[[2., -1., 3.], [2., 1., 3.]])),
        (line(&[[0., 0., 0.], [2f64.powi(-26), 0., 0.]]), line(&[[1., 0., 0.], [2., 0., 0.]])),
        (line(&[[1., 1., -1.], [1., 1., 1.]]), tri.clone()),
        (both(vec![point(0., 0., 0.), point(1., 0., 0.)]), both(vec![point(0., 0., 2.), point(1., 0., 2.)])),
        (line(&[[0., 0., 0.], [2., 0., 0.], [0., 0., 0.], [2., 0., 0.]]), tri.clone()),
        (line(&[[0., 0., 0.]]), tri.clone()),
        (face(&[[0., 0., 0.], [1., 0., 0.]]), tri.clone()),
        (point(f64::NAN, 0., 0.), tri.clone()),
        (point(1., 0., 0.), both(vec![point(0.1, 0., 0.), line(&[[-3., 0., 0.], [0.1, 0., 0.]])])),
        (point(1., 0., 0.), both(vec![point(0.10000000000001, 0., 0.), line(&[[-1000., 0., 0.], [0.1, 0., 0.]])])),
        (nan, tri),
        (line(&[[0., 0., 0.], [f64::NAN, 0., 0.]]), point(1., 2., 3.)),
    ];
    for (a, b) in &pairs {
        for (a, b) in [(a, b), (b, a)] {
            run(Case { class: "fixtures", a: plain(a), b: plain(b), ops: &Op::ALL });
        }
    }
    let random = &mut Random::new(1);
    for depth in 0..36 {
        let deep = plain(&shapes::nested(point(1., 2., 3.), depth, random));
        run(Case { class: "nesting", a: deep.clone(), b: plain(&point(0., 0., 0.)), ops: &Op::ALL });
        run(Case { class: "nesting", a: plain(&point(0., 0., 0.)), b: deep, ops: SECOND });
    }
}

/// Every blob of at most two bytes, longer ones over few bytes, each on either side.
pub fn short_blobs(run: &mut dyn FnMut(Case)) {
    let good = plain(&point(1., 2., 3.));
    let mut both = |blob: Vec<u8>| {
        run(Case { class: "short blobs", a: good.clone(), b: blob.clone(), ops: &[Op::Distance] });
        run(Case { class: "short blobs", a: blob, b: good.clone(), ops: READING });
    };
    both(Vec::new());
    for x in 0..=255 {
        both(vec![x]);
    }
    for x in 0..=u16::MAX {
        // All that do not begin like a geometry or a GP header behave alike: every 16th of those.
        if matches!(x >> 8, 0 | 1 | 0x47) || x % 16 == 0 {
            both(x.to_be_bytes().to_vec());
        }
    }
    const BYTES: [u8; 4] = [0, 1, 0x11, 0x20];
    for length in 3..=7 {
        for n in 0..4usize.pow(length) {
            both((0..length).map(|i| BYTES[n >> (2 * i) & 3]).collect());
        }
    }
    for length in 0..=6 {
        for n in 0..4usize.pow(length) {
            let tail = (0..length).map(|i| BYTES[n >> (2 * i) & 3]);
            both([0x47, 0x50].into_iter().chain(tail).collect());
        }
    }
}

/// Every flags byte of a GP header, versions, and every length up to the geometry's end.
pub fn headers(run: &mut dyn FnMut(Case)) {
    let good = plain(&point(1., 2., 3.));
    for flags in 0..=255u8 {
        let indicator = (flags >> 1 & 7) as usize;
        let doubles = [0, 4, 6, 6, 8, 0, 0, 0][indicator];
        for version in [0, 1, 255] {
            let mut blob = vec![0x47, 0x50, version, flags, 0xE6, 0x10, 0, 0];
            blob.extend(vec![0x5A; 8 * doubles]);
            blob.extend(&good);
            let from = if version == 0 { 2 } else { blob.len() };
            for length in from..=blob.len() {
                let cut = blob[..length].to_vec();
                run(Case { class: "GP headers", a: good.clone(), b: cut.clone(), ops: &[Op::ShortestLine] });
                run(Case { class: "GP headers", a: cut, b: good.clone(), ops: READING });
            }
        }
    }
}

/// Every low half of the type code, with flags and bits above drawn.
pub fn type_codes(random: &mut Random, run: &mut dyn FnMut(Case)) {
    let good = plain(&point(1., 2., 3.));
    for v in 0..=u32::from(u16::MAX) {
        let known = matches!(v % 1000, 1..=7 | 15..=17);
        if !known && v % 8 != 0 {
            continue;
        }
        let mut high = (random.bits() as u32) & if random.chance(50) { 0xE000_0000 } else { 0xFFFF_0000 };
        if random.chance(60) {
            high |= Z_FLAG;
        }
        let big = random.chance(50);
        let mut blob = vec![u8::from(!big)];
        put_u32(&mut blob, big, high | v);
        if high & SRID_FLAG != 0 {
            put_u32(&mut blob, big, 4326);
        }
        match v % 1000 {
            1 => {}
            3 | 17 => {
                put_u32(&mut blob, big, 1);
                put_u32(&mut blob, big, 1);
            }
            _ => put_u32(&mut blob, big, random.below(3) as u32),
        }
        blob.extend((0..40).map(|i| i * 3));
        if random.chance(10) {
            blob.truncate(random.below(blob.len()));
        }
        run(Case { class: "type codes", a: blob.clone(), b: good.clone(), ops: READING });
        run(Case { class: "type codes", a: good.clone(), b: blob, ops: &[Op::LongestLine] });
    }
}

/// The blob with bytes changed, taken out or put in.
fn damaged(mut blob: Vec<u8>, random: &mut Random) -> Vec<u8> {
    for _ in 0..1 + random.below(3) {
        if blob.is_empty() {
            break;
        }
        let at = random.below(blob.len());
        let head = random.below(blob.len().min(24));
        match random.below(9) {
            0 => blob[at] ^= 1 << random.below(8),
            1 => blob[at] = random.bits() as u8,
            2 => blob.truncate(at),
            3 => drop(blob.remove(at)),
            4 => blob.insert(at, random.bits() as u8),
            5 => blob[head] = random.pick(&[0, 1, 2, 3, 4, 5, 7, 15, 16, 17, 0x20, 0x40, 0x80, 0xFF]),
            6 => blob[head] ^= 1 << random.below(8),
            7 => {
                let end = (at + 4).min(blob.len());
                blob[at..end].fill(random.pick(&[0, 1, 0xFF, 0x7F]));
            }
            _ => blob[head] = blob[head].wrapping_add(random.pick(&[1, 255])),
        }
    }
    blob
}

fn pair(class: &'static str, a: &Geometry, b: &Geometry, random: &mut Random) -> Case {
    let (a, b) = (encode::blob(a, random), encode::blob(b, random));
    Case { class, a, b, ops: Op::TWO_BLOBS }
}

/// A surface, whose members need not be faces.
fn surface(random: &mut Random) -> Geometry {
    let field = Field::any(random);
    let kind = random.pick(&[15, 15, 16, 16, 17]);
    if kind == 17 {
        return shapes::patch(17, field, random);
    }
    let n = random.below(5);
    let member = |random: &mut Random| match random.below(8) {
        0 => shapes::any(field, 1, random),
        1 => shapes::face(field, random),
        _ => shapes::patch(if kind == 15 { 3 } else { 17 }, field, random),
    };
    Geometry::Collection(kind, (0..n).map(|_| member(random)).collect())
}

/// Lines alone, one or several.
fn lines(random: &mut Random) -> Geometry {
    let field = Field::any(random);
    if random.chance(15) {
        // Over three places at most: segments repeat, and lengths are often 0.
        let places = field.run(1 + random.below(3), random);
        return Geometry::Line((0..random.below(7)).map(|_| random.pick(&places)).collect());
    }
    if random.chance(70) {
        let n = random.below(7);
        return Geometry::Line(field.run(n, random));
    }
    let n = random.below(4);
    Geometry::Collection(random.pick(&[5, 7]), (0..n).map(|_| shapes::line(field, random)).collect())
}

const ODD: [Field; 6] = [Field::Special, Field::Extreme, Field::Patterns, Field::Mixed, Field::Short, Field::Zeros];

/// Cases of a drawn class.
pub fn drawn(random: &mut Random, run: &mut dyn FnMut(Case)) {
    let field = Field::any(random);
    match random.below(22) {
        0..=2 => {
            let (a, b) = (shapes::any(field, 3, random), shapes::any(field, 3, random));
            run(Case { ops: &Op::ALL, ..pair("any geometry", &a, &b, random) });
        }
        3 => {
            let (a, b) = (shapes::points(field, random), shapes::points(field, random));
            run(pair("points", &a, &b, random));
        }
        4 => {
            let (a, b) = (shapes::line(field, random), shapes::line(field, random));
            run(Case { ops: &Op::ALL, ..pair("lines", &a, &b, random) });
        }
        5 | 6 => {
            let other = if random.chance(50) { shapes::any(field, 1, random) } else { shapes::face(field, random) };
            let (a, b) = (shapes::patch(random.pick(&[3, 17]), field, random), other);
            let (a, b) = if random.chance(50) { (a, b) } else { (b, a) };
            run(pair("faces", &a, &b, random));
        }
        7 | 8 => {
            let (a, b) = (shapes::any(Field::Grid, 2, random), shapes::any(Field::Grid, 2, random));
            run(pair("exact ties", &a, &b, random));
        }
        9 => {
            let field = Field::permuted(random);
            let origin = Geometry::Collection(4, vec![point(0., 0., 0.); 1 + random.below(2)]);
            let a = if random.chance(60) { origin } else { shapes::points(field, random) };
            let b = if random.chance(50) { shapes::points(field, random) } else { shapes::line(field, random) };
            run(pair("permuted vertices", &a, &b, random));
        }
        10 | 11 => {
            let (a, b) = shapes::overshoot(random);
            let (a, b) = if random.chance(60) { (a, b) } else { (b, a) };
            run(pair("overshooting segments", &a, &b, random));
        }
        12 => {
            let field = random.pick(&ODD);
            let (a, b) = (shapes::any(field, 1, random), shapes::any(field, 1, random));
            run(pair("odd ordinates", &a, &b, random));
        }
        13 => {
            let (a, b) = (shapes::mesh(random), shapes::mesh(random));
            run(pair("meshes", &a, &b, random));
        }
        14 => {
            let depth = random.pick(&[1, 5, 30, 31, 32, 33, 34]);
            let inner = shapes::any(field, 0, random);
            let (a, b) = (shapes::nested(inner, depth, random), shapes::any(field, 1, random));
            let (a, b) = if random.chance(70) { (a, b) } else { (b, a) };
            run(Case { ops: &Op::ALL, ..pair("nesting", &a, &b, random) });
        }
        15 | 16 => {
            let (a, b) = (shapes::any(field, 2, random), shapes::any(field, 1, random));
            let mut case = Case { ops: &Op::ALL, ..pair("damaged", &a, &b, random) };
            if random.chance(60) {
                case.a = damaged(case.a, random);
            }
            if random.chance(50) {
                case.b = damaged(case.b, random);
            }
            run(case);
        }
        17 if random.chance(4) => {
            let (a, b) = (shapes::any(field, 2, random), shapes::any(field, 1, random));
            let whole = pair("truncations", &a, &b, random);
            for length in 0..whole.a.len() {
                run(Case { a: whole.a[..length].to_vec(), ops: READING, ..whole.clone() });
            }
            for length in 0..whole.b.len() {
                run(Case { b: whole.b[..length].to_vec(), ops: SECOND, ..whole.clone() });
            }
        }
        17..=19 => {
            let mut a = encode::blob(&lines(random), random);
            if random.chance(10) {
                a = damaged(a, random);
            }
            const OPS: &[Op] =
                &[Op::Interpolate, Op::Interpolate, Op::Interpolate, Op::Interpolate, Op::Sizes, Op::Read];
            run(Case { class: "interpolation", a, b: Vec::new(), ops: OPS });
        }
        _ => {
            let mut a = encode::blob(&surface(random), random);
            if random.chance(50) {
                a = damaged(a, random);
            }
            const OPS: &[Op] = &[Op::Patch, Op::Patch, Op::Patch, Op::Patch, Op::Sizes, Op::Read];
            run(Case { class: "surfaces", a, b: Vec::new(), ops: OPS });
        }
    }
}

/// Blobs from a file, each a little-endian u32 length and its bytes: each alone and with others.
pub fn samples(blobs: &[Vec<u8>], random: &mut Random, run: &mut dyn FnMut(Case)) {
    for a in blobs {
        run(Case { class: "samples", a: a.clone(), b: Vec::new(), ops: Op::ONE_BLOB });
        for _ in 0..6 {
            let b = blobs[random.below(blobs.len())].clone();
            run(Case { class: "samples", a: a.clone(), b, ops: Op::TWO_BLOBS });
        }
    }
}
