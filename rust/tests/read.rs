//! A blob's coordinates and runs.
mod common;
use common::*;
use viskorrel::{read, sizes, Read, Refusal};

const O: P = [0.0, 0.0, 0.0];
const X: P = [4.0, 0.0, 1.0];
const Y: P = [0.0, 4.0, 2.0];

/// As a workspace holds them where there is no M: x, y, z, 0.
fn floats(points: &[P]) -> Vec<f64> {
    points.iter().flat_map(|p| [p[0], p[1], p[2], 0.0]).collect()
}

/// A point of any type code.
fn point_of(big: bool, code: u32, ordinates: &[f64]) -> Vec<u8> {
    let mut blob = vec![u8::from(!big)];
    blob.extend(if big { code.to_be_bytes() } else { code.to_le_bytes() });
    for ordinate in ordinates {
        blob.extend(if big { ordinate.to_be_bytes() } else { ordinate.to_le_bytes() });
    }
    blob
}

fn bits(floats: &[f64]) -> Vec<u64> {
    floats.iter().map(|float| float.to_bits()).collect()
}

#[test]
fn runs_in_the_order_of_the_bytes() {
    let members = [point(Y), line(&[X, Y]), polygon(&[&[O, X, Y, O], &[], &[X, Y, O, X]]), triangle(&[O, X, Y, O]), line(&[])];
    let expected = Read { floats: floats(&[Y, X, Y, O, X, Y, O, X, Y, O, X, O, X, Y, O]), table: vec![1, 1, 2, 2, 3, 4, 3, 4, 17, 4] };
    // neither the SRID nor what trails the geometry is part of it
    for mut blob in [collection(7, &members), gp(4326, nested(collection(7, &members), 3))] {
        assert_eq!(read(&blob), Ok(expected.clone()));
        blob.extend([1, 2, 3]);
        assert_eq!(read(&blob), Ok(expected.clone()));
    }
}

#[test]
fn as_many_as_sizes_says() {
    let blob = points(&[O, X, Y]);
    let (read, sizes) = (read(&blob).unwrap(), sizes(&blob).unwrap());
    assert_eq!((read.floats.len(), read.table.len()), (sizes.floats, sizes.table));
    assert_eq!((sizes.floats, sizes.table), (12, 6));
}

#[test]
fn nothing_to_read() {
    assert_eq!(read(&line(&[])), Ok(Read { floats: vec![], table: vec![] }));
}

#[test]
fn no_z_is_zero() {
    let mut blob = vec![1, 1, 0, 0, 0];
    blob.extend([7.0f64, 8.0].iter().flat_map(|ordinate| ordinate.to_le_bytes()));
    assert_eq!(read(&blob), Ok(Read { floats: vec![7.0, 8.0, 0.0, 0.0], table: vec![1, 1] }));
}

#[test]
fn m_beside_x_y_z() {
    let cases: [(u32, &[f64], [f64; 4]); 8] = [
        (1, &[1.0, 2.0], [1.0, 2.0, 0.0, 0.0]),
        (1001, &[1.0, 2.0, 3.0], [1.0, 2.0, 3.0, 0.0]),
        (2001, &[1.0, 2.0, 99.5], [1.0, 2.0, 0.0, 99.5]),
        (3001, &[1.0, 2.0, 3.0, 99.5], [1.0, 2.0, 3.0, 99.5]),
        (0x8000_0000 + 2001, &[3.0, 4.0, 99.0], [3.0, 4.0, 0.0, 99.0]),
        (0x4000_0001, &[1.0, 2.0, -0.0], [1.0, 2.0, 0.0, -0.0]),
        (0xC000_0001, &[1.0, 2.0, 3.0, 5e-324], [1.0, 2.0, 3.0, 5e-324]),
        (0x4000_0000 + 1001, &[1.0, 2.0, 3.0], [1.0, 2.0, 3.0, 0.0]),
    ];
    for (code, ordinates, expected) in &cases {
        for big in [false, true] {
            let mut blob = point_of(big, *code, ordinates);
            blob.extend([0xFF; 16]); // what follows is no M
            let Read { floats, table } = read(&blob).unwrap();
            assert_eq!((bits(&floats), table), (bits(expected), vec![1, 1]), "{code:08X}, big-endian: {big}");
        }
    }
}

#[test]
fn m_behind_an_srid() {
    let mut blob = vec![0];
    blob.extend(0xE000_0001u32.to_be_bytes());
    blob.extend(4326u32.to_be_bytes());
    blob.extend([1.0f64, 2.0, 3.0, 99.5].iter().flat_map(|ordinate| ordinate.to_be_bytes()));
    assert_eq!(read(&blob), Ok(Read { floats: vec![1.0, 2.0, 3.0, 99.5], table: vec![1, 1] }));
}

#[test]
fn members_with_m_and_without() {
    let members = [point_of(true, 3001, &[1.0, 2.0, 3.0, 10.0]), point(Y), point_of(false, 2001, &[7.0, 8.0, 11.0]), line(&[X, Y])];
    let mut floats = vec![1.0, 2.0, 3.0, 10.0, 0.0, 4.0, 2.0, 0.0, 7.0, 8.0, 0.0, 11.0];
    floats.extend([4.0, 0.0, 1.0, 0.0, 0.0, 4.0, 2.0, 0.0]);
    assert_eq!(read(&collection(7, &members)), Ok(Read { floats, table: vec![1, 1, 1, 1, 1, 1, 2, 2] }));
}

#[test]
fn m_enters_no_measure() {
    let far = point([3.0, 4.0, 12.0]);
    let plain = viskorrel::st_3d_longest_line(&point(O), &far);
    for m in [f64::NAN, f64::INFINITY, -1e300, 7.0] {
        let zero = point_of(false, 3001, &[0.0, 0.0, 0.0, m]);
        let held = read(&zero).unwrap().floats[3];
        assert!(held.to_bits() == m.to_bits() || held.is_nan() && m.is_nan());
        assert_eq!(viskorrel::st_3d_distance(&zero, &far), Ok(Some(13.0)));
        assert_eq!(viskorrel::st_3d_distance(&far, &zero), Ok(Some(13.0)));
        assert_eq!(viskorrel::st_3d_max_distance(&zero, &far), Ok(Some(13.0)));
        assert_eq!(viskorrel::st_3d_longest_line(&zero, &far), plain);
    }
}

#[test]
fn refusals_of_the_one_side() {
    let blob = gp(0, line(&[O, X]));
    for length in 0..blob.len() {
        let Refusal { number, side } = read(&blob[..length]).unwrap_err();
        assert!((3..=12).contains(&number) && side == 1, "{length}: {number}, {side}");
    }
}
