//! Cut and damaged blobs: no call panics, and what is said fits. Memory that is kept changes no answer.
mod common;
use common::*;
use viskorrel::*;

fn blobs() -> Vec<Vec<u8>> {
    let (o, x, y) = ([0.0; 3], [4.0, 0.0, 1.0], [0.0, 4.0, 2.0]);
    let face = polygon(&[&[o, x, y, o], &[x, y, o, x]]);
    let mut enveloped = vec![0x47, 0x50, 0, 5, 0xE6, 0x10, 0, 0];
    enveloped.extend([0; 48]);
    enveloped.extend(line(&[o, x, y]));
    let mut extended = vec![1, 1, 0, 0, 0xA0, 0xE6, 0x10, 0, 0];
    extended.extend([0; 24]);
    vec![
        gp(4326, point(x)),
        line(&[o, x, y]),
        enveloped,
        extended,
        gp(0, collection(15, &[face.clone(), face.clone()])),
        triangle(&[o, x, y, o]),
        collection(7, &[point(y), line(&[x, y]), face, nested(points(&[o, x]), 2)]),
    ]
}

/// Everything that is said of two blobs, bit for bit. (Not to be compared where a distance is NaN, whose payload means nothing.)
fn said(measurer: &mut Measurer, a: &[u8], b: &[u8]) -> String {
    let bits = |value: Result<Option<f64>, Refusal>| value.map(|value| value.map(|value| value.to_bits()));
    format!(
        "{:?}",
        (
            bits(measurer.st_3d_distance(a, b)),
            bits(measurer.st_3d_max_distance(a, b)),
            measurer.st_3d_dwithin(a, b, 2.0),
            measurer.st_3d_dfully_within(a, b, 2.0),
            measurer.st_3d_intersects(a, b),
            measurer.st_3d_closest_point(a, b),
            measurer.st_3d_shortest_line(a, b),
            measurer.st_3d_shortest_line_by(a, b, Rule::Two),
            measurer.st_3d_longest_line(a, b),
            measurer.st_3d_line_interpolate_point(a, 0.25),
        )
    )
}

fn fits(refusal: Refusal, side: u32) {
    assert!((3..=12).contains(&refusal.number), "{refusal}");
    assert_eq!(refusal.side, side, "{refusal}");
}

/// The patches in order are those by number, and no others.
fn patches_agree(blob: &[u8]) {
    match patches(blob) {
        Ok(Some(all)) => {
            let count = all.len() as u64;
            for (n, part) in (0..count).zip(all) {
                assert_eq!(patch(blob, n), Ok(Patch::Part(part)));
            }
            assert_eq!(patch(blob, count), Ok(Patch::Nothing));
        }
        Ok(None) => assert_eq!(patch(blob, 0), Ok(Patch::NoSurface)),
        Err(refusal) => assert_eq!(patch(blob, 0), Err(refusal)),
    }
}

#[test]
fn every_truncation() {
    let mut measurer = Measurer::new();
    let whole = point([1.0; 3]);
    for blob in blobs() {
        assert!(sizes(&blob).is_ok());
        for length in 0..blob.len() {
            // a copy of its own length, so that a read behind its end is not a read of the blob
            let cut = blob[..length].to_vec();
            fits(measurer.st_3d_distance(&cut, &whole).unwrap_err(), 1);
            fits(measurer.st_3d_longest_line(&whole, &cut).unwrap_err(), 2);
            fits(sizes(&cut).unwrap_err(), 1);
            said(&mut measurer, &cut, &whole);
            said(&mut measurer, &whole, &cut);
            said(&mut measurer, &cut, &cut);
            for n in [0, 1, 2, u64::MAX] {
                match patch(&cut, n) {
                    Ok(Patch::Part(part)) => assert!(part.len() <= length),
                    Ok(_) => (),
                    Err(refusal) => assert!([9, 10].contains(&refusal.number), "{refusal}"),
                }
            }
            patches_agree(&cut);
        }
    }
}

#[test]
fn every_damaged_byte() {
    let mut measurer = Measurer::new();
    let whole = line(&[[1.0; 3], [2.0; 3]]);
    for blob in blobs() {
        for place in 0..blob.len() {
            for value in [0, 1, 2, 17, 0x7F, 0x80, 0xFF] {
                let mut damaged = blob.clone();
                damaged[place] = value;
                said(&mut measurer, &damaged, &whole);
                said(&mut measurer, &whole, &damaged);
                let _ = sizes(&damaged);
                patches_agree(&damaged);
            }
        }
    }
}

#[test]
fn kept_memory_changes_no_answer() {
    let long: Vec<P> = (0..2000).map(|i| [f64::from(i % 50), f64::from(i / 50), f64::from(i % 7)]).collect();
    let mut all = blobs();
    all.insert(2, line(&long));
    all.insert(5, points(&long[..300]));
    all.push(line(&[]));
    all.push(vec![]);
    let mut kept = Measurer::new();
    for _ in 0..2 {
        for a in &all {
            for b in &all {
                if a.len() + b.len() < 60_000 {
                    assert_eq!(said(&mut kept, a, b), said(&mut Measurer::new(), a, b));
                }
            }
        }
    }
}

#[test]
fn threads_measure_on_their_own() {
    let all = blobs();
    let expected: Vec<_> = all.iter().map(|blob| st_3d_max_distance(blob, &all[6])).collect();
    std::thread::scope(|scope| {
        for _ in 0..4 {
            scope.spawn(|| {
                for _ in 0..200 {
                    let found: Vec<_> = all.iter().map(|blob| st_3d_max_distance(blob, &all[6])).collect();
                    assert_eq!(found, expected);
                }
            });
        }
    });
}

#[test]
fn measurers_can_be_sent() {
    fn sent<T: Send + Sync>() {}
    sent::<Measurer>();
    sent::<Refusal>();
}
