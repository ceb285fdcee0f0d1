//! Two blobs joined into one: its bytes, what it refuses, and what is read and measured of it.
mod common;
use common::*;
use viskorrel::*;

const O: P = [0.0, 0.0, 0.0];
const X: P = [3.0, 4.0, 12.0];

fn refused(a: &[u8], b: &[u8]) -> (u32, u32) {
    let refusal = join(a, b).unwrap_err();
    (refusal.number, refusal.side)
}

/// The bytes of a join, by hand.
fn whole(srid: i32, a: &[u8], b: &[u8]) -> Vec<u8> {
    [gp(srid, vec![1, 0xEF, 3, 0, 0, 2, 0, 0, 0]), a.to_vec(), b.to_vec()].concat()
}

/// A point by flags, big-endian, with an SRID of its own.
fn big_endian(srid: u32, p: P) -> Vec<u8> {
    let mut blob = vec![0];
    blob.extend(0xA000_0001u32.to_be_bytes());
    blob.extend(srid.to_be_bytes());
    blob.extend(p.iter().flat_map(|ordinate| ordinate.to_be_bytes()));
    blob
}

#[test]
fn what_is_kept_and_what_is_dropped() {
    let (a, b) = (point(X), line(&[O, X]));
    assert_eq!(join(&a, &b), Ok(whole(0, &a, &b)));
    assert_eq!(join(&gp(4326, a.clone()), &gp(4326, b.clone())), Ok(whole(4326, &a, &b)));
    // an envelope of four doubles in a big-endian header, and bytes behind the geometry
    let enveloped = [&[0x47, 0x50, 0, 2, 0, 0, 0x10, 0xE6], &[7; 32][..], &b[..], b"trailing"].concat();
    assert_eq!(join(&gp(4326, a.clone()), &enveloped), Ok(whole(4326, &a, &b)));
    // byte order and SRID of a geometry are its own
    let own = big_endian(4326, X);
    assert_eq!(join(&enveloped, &own), Ok(whole(4326, &b, &own)));
    assert_eq!(join(&gp(-1, own.clone()), &gp(-1, own.clone())), Ok(whole(-1, &own, &own)));
    let empty = collection(7, &[]);
    assert_eq!(join(&empty, &empty), Ok(whole(0, &empty, &empty)));
}

#[test]
fn srids() {
    let (plain, own) = (point(O), big_endian(4326, X));
    assert!(join(&gp(4326, plain.clone()), &own).is_ok());
    assert_eq!(refused(&plain, &own), (18, 0));
    // that of a GeoPackage header counts, also where it is 0
    assert!(join(&gp(0, own.clone()), &plain).is_ok());
    assert_eq!(refused(&gp(0, own.clone()), &own), (18, 0));
    // the same bytes in another order are another number
    assert_eq!(refused(&own, &gp(i32::from_le_bytes([0, 0, 0x10, 0xE6]), plain)), (18, 0));
}

#[test]
fn levels() {
    let shallow = point(O);
    for deepest in [point(X), collection(7, &[]), line(&[])] {
        let (taken, too_deep) = (nested(deepest.clone(), 31), nested(deepest.clone(), 32));
        assert_eq!(join(&taken, &shallow), Ok(whole(0, &taken, &shallow)));
        assert_eq!(join(&shallow, &taken), Ok(whole(0, &shallow, &taken)));
        assert!(sizes(&too_deep).is_ok());
        assert_eq!(refused(&too_deep, &shallow), (19, 0));
        assert_eq!(refused(&shallow, &too_deep), (19, 0));
        // after the SRIDs, before which come the walks
        assert_eq!(refused(&too_deep, &gp(1, shallow.clone())), (18, 0));
        assert_eq!(refused(&too_deep, &shallow[..28]), (9, 2));
        assert_eq!(refused(&nested(deepest, 33), &shallow[..28]), (12, 1));
    }
}

#[test]
fn joined_again_and_again() {
    let one = point(X);
    let mut all = one.clone();
    for times in 1..=32 {
        all = join(&all, &one).unwrap();
        assert_eq!(read(&all).unwrap().table, [1, 1].repeat(times + 1));
    }
    assert_eq!(refused(&all, &one), (19, 0));
}

fn blobs() -> Vec<Vec<u8>> {
    let y = [0.0, 4.0, 2.0];
    vec![
        point(X),
        gp(0, line(&[O, X, y])),
        polygon(&[&[O, X, y, O], &[X, y]]),
        triangle(&[O, X, y]),
        line(&[O]), // nothing to measure
        collection(7, &[]),
        gp(0, collection(7, &[points(&[O, y]), nested(line(&[X, y]), 3)])),
    ]
}

#[test]
fn it_is_read_as_both_and_measured_as_both() {
    let all = blobs();
    for a in &all {
        for b in &all {
            let both = join(a, b).unwrap();
            let [first, second, joined] = [a, b, &both].map(|blob| read(blob).unwrap());
            assert_eq!(joined.floats, [first.floats, second.floats].concat());
            assert_eq!(joined.table, [first.table, second.table].concat());
            for c in &all {
                let larger = [a, b].iter().filter_map(|side| st_3d_max_distance(side, c).unwrap()).reduce(f64::max);
                assert_eq!(st_3d_max_distance(&both, c), Ok(larger));
                assert_eq!(st_3d_max_distance(c, &both), Ok(larger));
            }
        }
    }
}

#[test]
fn every_truncation() {
    let good = gp(0, point(O));
    for blob in blobs() {
        for length in 0..blob.len() {
            let cut = blob[..length].to_vec();
            for (side, refusal) in [(1, join(&cut, &good)), (2, join(&good, &cut))] {
                let refusal = refusal.unwrap_err();
                assert!([3, 9].contains(&refusal.number) && refusal.side == side, "{refusal}");
            }
        }
    }
}

/// The records of tools/joins, which say what is lent too; here it is always enough, so that a 16 of theirs is a join.
#[test]
fn records() {
    let data = include_bytes!("../../crates/joins/data/calls");
    let (mut at, mut count) = (0, 0);
    while at < data.len() {
        let [a, b, _, outcome, number, side, size] = [0, 1, 2, 3, 4, 5, 6].map(|place| {
            let place = at + 4 * place;
            u32::from_le_bytes(data[place..place + 4].try_into().unwrap())
        });
        let mut part = |length: u32| {
            at += length as usize;
            &data[at - length as usize..at]
        };
        part(28);
        let (a, b, expected) = (part(a), part(b), part(size));
        match join(a, b) {
            Ok(joined) if outcome == 1 => assert_eq!(joined, expected, "record {count}"),
            Ok(_) => assert_eq!(number, 16, "record {count}"),
            Err(refusal) => assert_eq!((2, refusal.number, refusal.side), (outcome, number, side), "record {count}"),
        }
        count += 1;
    }
    assert!(count > 2000);
}
