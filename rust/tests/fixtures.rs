//! The worked examples of document 01, from 4 on.
mod common;
use common::*;
use viskorrel::*;

const O: P = [0.0, 0.0, 0.0];

#[test]
fn f04_point_to_point() {
    let (a, b) = (point(O), point([3.0, 4.0, 12.0]));
    assert_eq!(st_3d_distance(&a, &b), Ok(Some(13.0)));
    assert_eq!(st_3d_max_distance(&a, &b), Ok(Some(13.0)));
    assert_eq!(st_3d_dwithin(&a, &b, 13.0), Ok(true));
    assert_eq!(st_3d_dwithin(&a, &b, 12.999), Ok(false));
    assert_eq!(st_3d_dwithin(&a, &b, f64::NAN), Ok(false));
    assert_eq!(st_3d_dfully_within(&a, &b, 13.0), Ok(true));
    assert_eq!(st_3d_dfully_within(&a, &b, 12.999), Ok(false));
    assert_eq!(st_3d_intersects(&a, &b), Ok(false));
    // one blob may stand on both sides
    assert_eq!(st_3d_intersects(&a, &a), Ok(true));
}

#[test]
fn f05_point_to_segment() {
    let (a, b) = (point([0.0, 0.0, 5.0]), line(&[O, [0.0, 0.0, 2.0]]));
    assert_eq!(st_3d_distance(&a, &b), Ok(Some(3.0)));
    assert_eq!(st_3d_max_distance(&a, &b), Ok(Some(5.0)));
    assert_eq!(st_3d_dwithin(&a, &b, 4.0), Ok(true));
    assert_eq!(st_3d_dfully_within(&a, &b, 4.0), Ok(false));
    assert_eq!(st_3d_dfully_within(&a, &b, 5.0), Ok(true));
    let closest = st_3d_closest_point(&b, &a).unwrap().unwrap();
    assert_eq!(closest, gp(0, point([0.0, 0.0, 2.0])));
    let shortest = st_3d_shortest_line(&a, &b).unwrap().unwrap();
    assert_eq!(shortest, gp(0, line(&[[0.0, 0.0, 5.0], [0.0, 0.0, 2.0]])));
}

#[test]
fn f06_segments_apart() {
    let (a, b) = (line(&[O, [4.0, 0.0, 0.0]]), line(&[[2.0, -1.0, 3.0], [2.0, 1.0, 3.0]]));
    assert_eq!(st_3d_distance(&a, &b), Ok(Some(3.0)));
    assert_eq!(vertices(&st_3d_shortest_line(&a, &b).unwrap().unwrap()), [[2.0, 0.0, 0.0], [2.0, 0.0, 3.0]]);
}

#[test]
fn f07_segment_taken_as_a_point() {
    let (a, b) = (line(&[O, [2f64.powi(-26), 0.0, 0.0]]), line(&[[1.0, 0.0, 0.0], [2.0, 0.0, 0.0]]));
    assert_eq!(st_3d_distance(&a, &b), Ok(Some(1.0)));
}

#[test]
fn f08_segment_through_a_triangle() {
    let segment = line(&[[1.0, 1.0, -1.0], [1.0, 1.0, 1.0]]);
    let corners = [O, [4.0, 0.0, 0.0], [0.0, 4.0, 0.0]];
    for face in [triangle(&corners), polygon(&[&corners])] {
        assert_eq!(st_3d_distance(&segment, &face), Ok(Some(1.0)));
        assert_eq!(st_3d_intersects(&segment, &face), Ok(false));
    }
}

#[test]
fn f09_longest_line_and_its_bytes() {
    let (p, q) = ([O, [1.0, 0.0, 0.0]], [[0.0, 0.0, 2.0], [1.0, 0.0, 2.0]]);
    let mut whole = vec![0x47, 0x50, 0x00, 0x01, 0xE6, 0x10, 0x00, 0x00, 0x01, 0xEA, 0x03, 0x00, 0x00, 0x02, 0x00, 0x00, 0x00];
    whole.extend([0; 24]);
    whole.extend([0, 0, 0, 0, 0, 0, 0xF0, 0x3F]);
    whole.extend([0; 8]);
    whole.extend([0, 0, 0, 0, 0, 0, 0, 0x40]);
    assert_eq!(whole.len(), 65);
    for (a, b) in [(line(&p), line(&q)), (points(&p), points(&q)), (line(&p), points(&q))] {
        assert_eq!(st_3d_longest_line(&gp(4326, a.clone()), &gp(4326, b.clone())), Ok(Some(whole.clone())));
        // the SRID is that of a, also where it is 0
        assert_eq!(st_3d_longest_line(&gp(4326, a.clone()), &b), Ok(Some(whole.clone())));
        assert_eq!(st_3d_longest_line(&a, &gp(4326, b)), Ok(Some(gp(0, line(&[O, [1.0, 0.0, 2.0]])))));
    }
}

#[test]
fn f10_interpolation_ends_by_position() {
    let there = [2.0, 0.0, 0.0];
    let blob = gp(4326, line(&[O, there, O, there]));
    assert_eq!(st_3d_line_interpolate_point(&blob, 0.5), Ok(gp(4326, point([1.0, 0.0, 0.0]))));
    assert_eq!(st_3d_line_interpolate_point(&blob, 0.0), Ok(gp(4326, point(O))));
    assert_eq!(st_3d_line_interpolate_point(&blob, 1.0), Ok(gp(4326, point(there))));
}

#[test]
fn f11_line_of_one_point() {
    let (a, b) = (line(&[O]), point(O));
    for (a, b) in [(&a, &b), (&b, &a)] {
        assert_eq!(st_3d_distance(a, b), Ok(None));
        assert_eq!(st_3d_max_distance(a, b), Ok(None));
        assert_eq!(st_3d_dwithin(a, b, f64::INFINITY), Ok(false));
        assert_eq!(st_3d_dfully_within(a, b, f64::INFINITY), Ok(false));
        assert_eq!(st_3d_intersects(a, b), Ok(false));
        assert_eq!(st_3d_closest_point(a, b), Ok(None));
        assert_eq!(st_3d_shortest_line(a, b), Ok(None));
        assert_eq!(st_3d_longest_line(a, b), Ok(None));
    }
}

#[test]
fn f12_face_of_two_vertices() {
    let (a, b) = (polygon(&[&[O, [0.0, 3.0, 4.0]]]), point(O));
    assert_eq!(st_3d_distance(&a, &b), Ok(None));
    assert_eq!(st_3d_max_distance(&a, &b), Ok(Some(5.0)));
    assert_eq!(vertices(&st_3d_longest_line(&a, &b).unwrap().unwrap()), [[0.0, 3.0, 4.0], O]);
}

#[test]
fn f13_nan_is_not_none() {
    let (a, b) = (point([f64::NAN; 3]), point(O));
    assert!(st_3d_distance(&a, &b).unwrap().unwrap().is_nan());
    assert!(st_3d_max_distance(&a, &b).unwrap().unwrap().is_nan());
    assert_eq!(st_3d_dwithin(&a, &b, f64::INFINITY), Ok(false));
    // written as 7FF8000000000000, whatever came in
    let odd = f64::from_bits(0xFFF0_0000_0000_0001);
    let written = st_3d_closest_point(&point([odd, 1.0, odd]), &b).unwrap().unwrap();
    assert_eq!(vertices(&written)[0].map(f64::to_bits), [0x7FF8_0000_0000_0000, 1f64.to_bits(), 0x7FF8_0000_0000_0000]);
}

#[test]
fn f14_levels() {
    let (b, read, refused) = (point([0.0, 0.0, 7.0]), nested(point(O), 32), nested(point(O), 33));
    assert_eq!(st_3d_distance(&read, &b), Ok(Some(7.0)));
    assert_eq!(st_3d_distance(&refused, &b), Err(Refusal { number: 12, side: 1 }));
    assert_eq!(st_3d_distance(&b, &refused), Err(Refusal { number: 12, side: 2 }));
}

#[test]
fn sizes_of_blobs() {
    assert_eq!(sizes(&point(O)), Ok(Sizes { floats: 4, table: 2 }));
    assert_eq!(sizes(&line(&[])), Ok(Sizes { floats: 0, table: 0 }));
    assert_eq!(sizes(&polygon(&[&[O; 4], &[], &[O; 5]])), Ok(Sizes { floats: 36, table: 4 }));
    // a blob without Z has sizes too
    assert_eq!(sizes(&[[1, 1, 0, 0, 0].to_vec(), vec![0; 16]].concat()), Ok(Sizes { floats: 4, table: 2 }));
}

#[test]
fn patches_by_number() {
    let (one, two) = (polygon(&[&[O; 4]]), polygon(&[&[[1.0; 3]; 5], &[[2.0; 3]; 4]]));
    for kind in [15, 16] {
        let surface = gp(4326, collection(kind, &[one.clone(), two.clone()]));
        assert_eq!(patch(&surface, 0), Ok(Patch::Part(&one)));
        assert_eq!(patch(&surface, 1), Ok(Patch::Part(&two)));
        assert_eq!(patch(&surface, 2), Ok(Patch::Nothing));
        assert_eq!(patch(&surface, u64::MAX), Ok(Patch::Nothing));
        assert_eq!(patch(&surface[..surface.len() - 1], 0), Err(Refusal { number: 9, side: 1 }));
    }
    // a triangle goes to the blob's end
    let alone = [triangle(&[O; 4]), vec![9, 9]].concat();
    assert_eq!(patch(&gp(0, alone.clone()), 0), Ok(Patch::Part(&alone)));
    assert_eq!(patch(&alone, 1), Ok(Patch::Nothing));
    for other in [one, point(O), vec![], b"GP".to_vec()] {
        assert_eq!(patch(&other, 0), Ok(Patch::NoSurface));
        assert!(patches(&other).unwrap().is_none());
    }
    // a fault after the type is refused, also before any patch: the SRID cut, then the count
    for cut in [&[1, 15, 0, 0, 0x20, 9][..], &[1, 15, 0, 0, 0, 1, 0, 0]] {
        assert_eq!(patch(cut, 0), Err(Refusal { number: 9, side: 1 }));
        assert_eq!(patches(cut).unwrap_err(), Refusal { number: 9, side: 1 });
    }
}

#[test]
fn patches_in_order() {
    let (one, two) = (polygon(&[&[O; 4]]), polygon(&[&[[1.0; 3]; 5], &[[2.0; 3]; 4]]));
    let surface = gp(4326, collection(15, &[one.clone(), two.clone(), one.clone()]));
    let all = patches(&[surface.clone(), vec![7]].concat()).unwrap().map(|all| all.map(<[u8]>::to_vec).collect());
    assert_eq!(all, Some(vec![one.clone(), two, one.clone()]));
    assert_eq!(patches(&surface[..surface.len() - 1]).unwrap_err(), Refusal { number: 9, side: 1 });
    assert_eq!(patches(&collection(16, &[])).unwrap().unwrap().len(), 0);
    let alone = [triangle(&[O; 4]), vec![9, 9]].concat();
    assert_eq!(patches(&alone).unwrap().unwrap().collect::<Vec<_>>(), [&alone[..]]);
    // 20,000 patches: one scan of all, then one patch a step
    let large = collection(15, &vec![one.clone(); 20_000]);
    let mut all = patches(&large).unwrap().unwrap();
    assert_eq!(all.len(), 20_000);
    assert!(all.all(|patch| patch == one));
}
