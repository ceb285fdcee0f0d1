//! Geometries as trees, and their bytes: WKB, EWKB and mixtures, with or without a GP header.

use crate::random::Random;

/// x, y, z, m.
pub type Ordinates = [f64; 4];

#[derive(Debug, Clone)]
pub enum Geometry {
    Point(Ordinates),
    Line(Vec<Ordinates>),
    /// Kind 3 or 17.
    Rings(u32, Vec<Vec<Ordinates>>),
    /// Kinds 4 to 7, 15 and 16.
    Collection(u32, Vec<Geometry>),
}

#[derive(Debug, Clone, Copy, PartialEq, Eq)]
pub enum Dims {
    Xy,
    Xyz,
    Xym,
    Xyzm,
}

const ALL_DIMS: [Dims; 4] = [Dims::Xy, Dims::Xyz, Dims::Xym, Dims::Xyzm];

pub const Z_FLAG: u32 = 0x8000_0000;
pub const M_FLAG: u32 = 0x4000_0000;
pub const SRID_FLAG: u32 = 0x2000_0000;

/// How a geometry is spelt.
#[derive(Debug, Clone, Copy)]
pub struct Style {
    /// Each geometry draws its byte order; else all are little-endian.
    pub orders: bool,
    /// Each geometry draws its dimensions; else all have XYZ.
    pub dims: bool,
    /// ISO codes, EWKB flags or both at once, and bits that mean nothing; else ISO codes.
    pub codes: bool,
    /// Geometries may have an SRID.
    pub srids: bool,
}

impl Style {
    pub const PLAIN: Style = Style { orders: false, dims: false, codes: false, srids: false };

    pub fn any(random: &mut Random) -> Style {
        match random.below(4) {
            0 => Style::PLAIN,
            1 => Style { orders: true, dims: true, codes: true, srids: true },
            _ => {
                let dims = random.chance(75); // M in a good share of the coordinates
                let mut draw = || random.chance(50);
                Style { orders: draw(), dims, codes: draw(), srids: draw() }
            }
        }
    }
}

/// A type code of this kind that is walked with these dimensions.
fn code(kind: u32, dims: Dims, style: Style, random: &mut Random) -> u32 {
    let (iso, flags) = match dims {
        Dims::Xy => (0, 0),
        Dims::Xyz => (1, Z_FLAG),
        Dims::Xym => (2, M_FLAG),
        Dims::Xyzm => (3, Z_FLAG | M_FLAG),
    };
    if !style.codes {
        return kind + 1000 * iso;
    }
    let junk = if random.chance(20) { (random.bits() as u32) & 0x1FFF_0000 } else { 0 };
    junk | match random.below(4) {
        0 => kind | flags,
        1 => (kind + 1000 * random.range(4, 65) as u32) | flags,
        _ if iso == 0 => kind,
        // The ISO code decides, whatever the flags say.
        2 => (kind + 1000 * iso) | ((random.bits() as u32) & (Z_FLAG | M_FLAG)),
        _ => kind + 1000 * iso,
    }
}

pub fn put_u32(out: &mut Vec<u8>, big: bool, n: u32) {
    out.extend(if big { n.to_be_bytes() } else { n.to_le_bytes() });
}

fn put_f64(out: &mut Vec<u8>, big: bool, x: f64) {
    out.extend(if big { x.to_be_bytes() } else { x.to_le_bytes() });
}

fn put_coordinates(out: &mut Vec<u8>, big: bool, dims: Dims, run: &[Ordinates]) {
    for [x, y, z, m] in run {
        put_f64(out, big, *x);
        put_f64(out, big, *y);
        if matches!(dims, Dims::Xyz | Dims::Xyzm) {
            put_f64(out, big, *z);
        }
        if matches!(dims, Dims::Xym | Dims::Xyzm) {
            put_f64(out, big, *m);
        }
    }
}

fn put_run(out: &mut Vec<u8>, big: bool, dims: Dims, run: &[Ordinates]) {
    put_u32(out, big, run.len() as u32);
    put_coordinates(out, big, dims, run);
}

fn put(out: &mut Vec<u8>, g: &Geometry, style: Style, top: bool, random: &mut Random) {
    let big = style.orders && random.chance(50);
    let mut dims = if style.dims { random.pick(&ALL_DIMS) } else { Dims::Xyz };
    // Passes the top Z test and is walked as XYM.
    let flagged_xym = top && dims == Dims::Xym && random.chance(30);
    if top && !flagged_xym && !matches!(dims, Dims::Xyz | Dims::Xyzm) && random.chance(90) {
        dims = random.pick(&[Dims::Xyz, Dims::Xyzm]);
    }
    let kind = match g {
        Geometry::Point(_) => 1,
        Geometry::Line(_) => 2,
        Geometry::Rings(kind, _) | Geometry::Collection(kind, _) => *kind,
    };
    let mut code = if flagged_xym { (kind + 2000) | Z_FLAG } else { code(kind, dims, style, random) };
    let srid = style.srids && random.chance(if top { 50 } else { 15 });
    if srid {
        code |= SRID_FLAG;
    }
    out.push(u8::from(!big));
    put_u32(out, big, code);
    if srid {
        put_u32(out, big, random.pick(&[4326, 0, u32::MAX, 0x8000_0000, 0x0102_0304]));
    }
    match g {
        Geometry::Point(p) => put_coordinates(out, big, dims, &[*p]),
        Geometry::Line(run) => put_run(out, big, dims, run),
        Geometry::Rings(_, rings) => {
            put_u32(out, big, rings.len() as u32);
            for run in rings {
                put_run(out, big, dims, run);
            }
        }
        Geometry::Collection(_, members) => {
            put_u32(out, big, members.len() as u32);
            for member in members {
                put(out, member, style, false, random);
            }
        }
    }
}

pub fn wkb(g: &Geometry, style: Style, random: &mut Random) -> Vec<u8> {
    let mut out = Vec::new();
    put(&mut out, g, style, true, random);
    out
}

/// Puts a GP header of any accepted kind in front.
pub fn with_header(wkb: &[u8], random: &mut Random) -> Vec<u8> {
    let indicator = random.pick(&[0, 0, 1, 2, 3, 4]);
    let (little, empty) = (random.chance(60), random.chance(20));
    let mut out = vec![0x47, 0x50, 0, u8::from(little) | indicator << 1 | u8::from(empty) << 4];
    put_u32(&mut out, !little, random.pick(&[0, 4326, u32::MAX, 0x8000_0000, 0x0102_0304, 25832]));
    for _ in 0..8 * [0, 4, 6, 6, 8][indicator as usize] {
        out.push(random.bits() as u8);
    }
    out.extend(wkb);
    out
}

/// Any blob of this geometry.
pub fn blob(g: &Geometry, random: &mut Random) -> Vec<u8> {
    let style = Style::any(random);
    let mut out = wkb(g, style, random);
    if random.chance(40) {
        out = with_header(&out, random);
    }
    if random.chance(5) {
        out.extend((0..random.below(12)).map(|i| i as u8));
    }
    out
}
