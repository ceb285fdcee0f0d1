//! The m of each coordinate, from the blob's own bytes: the original reads over it, so it tells nothing of m. This reader
//! shares no code with the original or with our library. It is given only blobs that the original has accepted.

use crate::encode::{M_FLAG, SRID_FLAG, Z_FLAG};

struct Bytes<'a>(&'a [u8]);

impl Bytes<'_> {
    fn take<const N: usize>(&mut self) -> [u8; N] {
        let (taken, rest) = self.0.split_first_chunk().expect("an accepted blob is long enough");
        self.0 = rest;
        *taken
    }

    fn number(&mut self, big: bool) -> u32 {
        let raw = self.take();
        if big { u32::from_be_bytes(raw) } else { u32::from_le_bytes(raw) }
    }

    fn ordinate(&mut self, big: bool) -> f64 {
        let raw = self.take();
        if big { f64::from_be_bytes(raw) } else { f64::from_le_bytes(raw) }
    }
}

/// The bytes from the geometry on.
fn geometry(blob: &[u8]) -> &[u8] {
    match blob {
        [b'G', b'P', _, flags, ..] => &blob[8 + 8 * [0, 4, 6, 6, 8][usize::from(flags >> 1 & 7)]..],
        _ => blob,
    }
}

/// The m of each coordinate in walk order; none where the encoding has none.
pub fn of_coordinates(blob: &[u8]) -> Vec<Option<f64>> {
    let mut bytes = Bytes(geometry(blob));
    let mut found = Vec::new();
    // Members follow the header of their collection, at every level: it is enough to count the geometries still to come.
    let mut left: u64 = 1;
    while left > 0 {
        left -= 1;
        let big = bytes.take() == [0];
        let code = bytes.number(big);
        if code & SRID_FLAG != 0 {
            bytes.number(big);
        }
        let low = code & 0xFFFF;
        let (z, m) = match low / 1000 {
            1 => (true, false),
            2 => (false, true),
            3 => (true, true),
            _ => (code & Z_FLAG != 0, code & M_FLAG != 0),
        };
        let mut run = |bytes: &mut Bytes, count: u32| {
            for _ in 0..count {
                for _ in 0..if z { 3 } else { 2 } {
                    bytes.ordinate(big);
                }
                found.push(m.then(|| bytes.ordinate(big)));
            }
        };
        match low % 1000 {
            1 => run(&mut bytes, 1),
            2 => {
                let count = bytes.number(big);
                run(&mut bytes, count);
            }
            3 | 17 => {
                for _ in 0..bytes.number(big) {
                    let count = bytes.number(big);
                    run(&mut bytes, count);
                }
            }
            _ => left += u64::from(bytes.number(big)),
        }
    }
    found
}
