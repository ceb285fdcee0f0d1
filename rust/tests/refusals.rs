//! Every refusal that a caller can meet, with its side and its words.
mod common;
use common::*;
use viskorrel::*;

const O: P = [0.0, 0.0, 0.0];

type OnTwo = fn(&[u8], &[u8]) -> Option<Refusal>;

/// The operations on two blobs; `None` where they answer.
const ON_TWO: [OnTwo; 9] = [
    |a, b| st_3d_distance(a, b).err(),
    |a, b| st_3d_max_distance(a, b).err(),
    |a, b| st_3d_dwithin(a, b, 1.0).err(),
    |a, b| st_3d_dfully_within(a, b, 1.0).err(),
    |a, b| st_3d_intersects(a, b).err(),
    |a, b| st_3d_closest_point(a, b).err(),
    |a, b| st_3d_shortest_line(a, b).err(),
    |a, b| st_3d_longest_line(a, b).err(),
    |a, b| join(a, b).err(),
];

/// The geometry behind a header with this version and these flags.
fn header(version: u8, flags: u8, geometry: &[u8]) -> Vec<u8> {
    [&[0x47, 0x50, version, flags, 0, 0, 0, 0], geometry].concat()
}

/// A blob for each refusal that speaks of one.
fn at_fault() -> Vec<(u32, Vec<u8>)> {
    let good = line(&[O, [1.0, 0.0, 0.0]]);
    let mut order = good.clone();
    order[0] = 2;
    let mut kind = good.clone();
    kind[1..5].copy_from_slice(&1008u32.to_le_bytes());
    vec![
        (3, b"GP\0\x01".to_vec()),
        (4, header(1, 1, &good)),
        (5, header(0, 0x21, &good)),
        (6, header(0, 0x41, &good)),
        (6, header(0, 0x81, &good)),
        (7, header(0, 1 + 2 * 5, &good)),
        (8, header(0, 1 + 2 * 4, &[0; 63])),
        (9, vec![]),
        (9, good[..good.len() - 1].to_vec()),
        (10, order),
        (11, kind),
        (12, nested(good, 33)),
    ]
}

#[test]
fn sides() {
    let good = line(&[O, [1.0, 0.0, 0.0]]);
    for (number, blob) in at_fault() {
        for operation in ON_TWO {
            assert_eq!(operation(&blob, &good), Some(Refusal { number, side: 1 }));
            assert_eq!(operation(&good, &blob), Some(Refusal { number, side: 2 }));
        }
        assert_eq!(st_3d_line_interpolate_point(&blob, 0.5), Err(Refusal { number, side: 1 }));
        assert_eq!(sizes(&blob), Err(Refusal { number, side: 1 }));
    }
}

#[test]
fn no_z() {
    let good = point(O);
    let flat = [[1, 1, 0, 0, 0].to_vec(), vec![0; 16]].concat();
    for operation in ON_TWO {
        assert_eq!(operation(&good, &good), None);
        assert_eq!(operation(&flat, &good), Some(Refusal { number: 13, side: 1 }));
        assert_eq!(operation(&good, &flat), Some(Refusal { number: 13, side: 2 }));
        // side 2's header comes before the geometries of side 1
        assert_eq!(operation(&good[..20], &flat), Some(Refusal { number: 13, side: 2 }));
    }
}

#[test]
fn numbers() {
    let good = line(&[O, [1.0, 0.0, 0.0]]);
    for blob in [&good[..], &[]] {
        assert_eq!(st_3d_dwithin(blob, blob, -1.0), Err(Refusal { number: 1, side: 0 }));
        assert_eq!(st_3d_dfully_within(blob, blob, f64::NEG_INFINITY), Err(Refusal { number: 1, side: 0 }));
        for fraction in [-0.5, 1.5, f64::NAN] {
            assert_eq!(st_3d_line_interpolate_point(blob, fraction), Err(Refusal { number: 2, side: 0 }));
        }
    }
    assert_eq!(st_3d_dwithin(&good, &good, -0.0), Ok(true));
}

#[test]
fn interpolation() {
    for blob in [point(O), line(&[O]), line(&[]), polygon(&[&[O; 4]]), collection(7, &[line(&[O, O]), point(O)])] {
        assert_eq!(st_3d_line_interpolate_point(&blob, 0.5), Err(Refusal { number: 14, side: 1 }));
    }
}

#[test]
fn words() {
    let said = |number, side| Refusal { number, side }.to_string();
    assert_eq!(said(1, 0), "refusal 1: d is below 0");
    assert_eq!(said(10, 2), "refusal 10, side 2: a byte order is above 1");
    assert_eq!(said(17, 0), "refusal 17: operations by the least distance: the rule is a number other than 1 or 2");
    assert_eq!(said(18, 0), "refusal 18: join: the SRIDs of the two blobs differ");
    assert_eq!(said(21, 0), "refusal 21: job: a number is matched that is not loaded");
    assert_eq!(said(23, 0), "refusal 23: a number outside the table");
    assert_eq!(said(0, 0), "refusal 0: a number outside the table");
    let error: Box<dyn std::error::Error> = st_3d_distance(&[], &[]).unwrap_err().into();
    assert_eq!(
        error.to_string(),
        "refusal 9, side 1: a geometry's header, an SRID, a count or a run of coordinates is longer than the bytes left"
    );
}

#[test]
fn words_are_those_of_the_header() {
    let header = include_str!("../../include/viskorrel.h");
    let table: Vec<(u32, &str)> = header
        .lines()
        .filter_map(|row| row.strip_prefix(" *")?.trim_start().split_once("  "))
        .filter_map(|(number, words)| Some((number.parse().ok()?, words)))
        .collect();
    assert_eq!(table.len(), 22);
    for (place, (number, words)) in (1..).zip(table) {
        assert_eq!(number, place);
        assert_eq!(Refusal { number, side: 0 }.condition(), words);
    }
}
