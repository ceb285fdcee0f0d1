//! Blobs made by hand. Little-endian, with Z.
#![allow(dead_code)]

pub type P = [f64; 3];

fn head(kind: u32) -> Vec<u8> {
    let mut blob = vec![1];
    blob.extend((1000 + kind).to_le_bytes());
    blob
}

fn count(of: usize) -> [u8; 4] {
    u32::try_from(of).unwrap().to_le_bytes()
}

fn run(points: &[P]) -> Vec<u8> {
    points.iter().flatten().flat_map(|ordinate| ordinate.to_le_bytes()).collect()
}

pub fn point(p: P) -> Vec<u8> {
    [head(1), run(&[p])].concat()
}

pub fn line(points: &[P]) -> Vec<u8> {
    [head(2), count(points.len()).to_vec(), run(points)].concat()
}

fn rings(kind: u32, rings: &[&[P]]) -> Vec<u8> {
    let mut blob = head(kind);
    blob.extend(count(rings.len()));
    for ring in rings {
        blob.extend(count(ring.len()));
        blob.extend(run(ring));
    }
    blob
}

pub fn polygon(of: &[&[P]]) -> Vec<u8> {
    rings(3, of)
}

pub fn triangle(ring: &[P]) -> Vec<u8> {
    rings(17, &[ring])
}

/// Kinds 4 to 7, 15 and 16.
pub fn collection(kind: u32, members: &[Vec<u8>]) -> Vec<u8> {
    [head(kind), count(members.len()).to_vec(), members.concat()].concat()
}

pub fn points(of: &[P]) -> Vec<u8> {
    collection(4, &of.iter().map(|&p| point(p)).collect::<Vec<_>>())
}

/// The geometry, so many levels deep in collections.
pub fn nested(geometry: Vec<u8>, levels: usize) -> Vec<u8> {
    (0..levels).fold(geometry, |inner, _| collection(7, &[inner]))
}

/// Behind a GeoPackage header without an envelope.
pub fn gp(srid: i32, geometry: Vec<u8>) -> Vec<u8> {
    [vec![0x47, 0x50, 0, 1], srid.to_le_bytes().to_vec(), geometry].concat()
}

/// The points of a written blob.
pub fn vertices(blob: &[u8]) -> Vec<P> {
    let from = match blob.len() {
        37 => 13,
        65 => 17,
        length => panic!("{length} bytes"),
    };
    let ordinates: Vec<f64> = blob[from..].chunks(8).map(|bytes| f64::from_le_bytes(bytes.try_into().unwrap())).collect();
    ordinates.chunks(3).map(|p| [p[0], p[1], p[2]]).collect()
}
