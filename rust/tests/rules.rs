//! Pair rule 2, document 02, 3/13: a rod through a plate.
mod common;
use common::*;
use viskorrel::*;

const O: P = [0.0, 0.0, 0.0];
const CORNERS: [P; 3] = [O, [4.0, 0.0, 0.0], [0.0, 4.0, 0.0]];

fn plate() -> Vec<u8> {
    triangle(&CORNERS)
}

/// The place of the closest point by rule 2; both ends of the shortest line are it where the two touch.
fn touching(a: &[u8], b: &[u8]) -> P {
    assert_eq!(st_3d_distance_by(a, b, Rule::Two), Ok(Some(0.0)));
    assert_eq!(st_3d_intersects_by(a, b, Rule::Two), Ok(true));
    let place = vertices(&st_3d_closest_point_by(a, b, Rule::Two).unwrap().unwrap())[0];
    assert_eq!(vertices(&st_3d_shortest_line_by(a, b, Rule::Two).unwrap().unwrap()), [place, place]);
    place
}

#[test]
fn a_rod_through_a_plate() {
    let (rod, plate) = (line(&[[1.0, 1.0, -1.0], [1.0, 1.0, 1.0]]), plate());
    for (a, b) in [(&rod, &plate), (&plate, &rod)] {
        assert_eq!(st_3d_distance_by(a, b, Rule::One), Ok(Some(1.0)));
        assert_eq!(st_3d_distance(a, b), Ok(Some(1.0)));
        assert_eq!(st_3d_intersects(a, b), Ok(false));
        assert_eq!(st_3d_dwithin_by(a, b, 0.5, Rule::One), Ok(false));
        assert_eq!(st_3d_dwithin_by(a, b, 0.0, Rule::Two), Ok(true));
        assert_eq!(touching(a, b), [1.0, 1.0, 0.0]);
    }
    // the SRID is that of a
    let (a, b) = (gp(4326, rod), gp(25832, plate));
    assert_eq!(st_3d_closest_point_by(&a, &b, Rule::Two), Ok(Some(gp(4326, point([1.0, 1.0, 0.0])))));
}

#[test]
fn beside_the_plate_and_in_it() {
    let beside = line(&[[3.0, 3.0, -1.0], [3.0, 3.0, 1.0]]);
    assert_eq!(st_3d_distance_by(&beside, &plate(), Rule::Two), Ok(Some(2f64.sqrt())));
    assert_eq!(touching(&line(&[[1.0, 1.0, 0.0], [1.0, 1.0, 1.0]]), &plate()), [1.0, 1.0, 0.0]);
    // a plate without area has nothing to cross
    let (rod, flat) = (line(&[[1.0, 1.0, -1.0], [1.0, 1.0, 1.0]]), triangle(&[O, [2.0, 0.0, 0.0], [4.0, 0.0, 0.0]]));
    assert_eq!(st_3d_distance_by(&rod, &flat, Rule::Two), Ok(Some(1.0)));
}

#[test]
fn plates_through_plates_by_the_first_edge() {
    let small = triangle(&[[1.0, 1.0, -1.0], [1.0, 1.0, 1.0], [1.0, -4.0, 0.0]]);
    let large = triangle(&[O, [8.0, 0.0, 0.0], [0.0, 8.0, 0.0]]);
    assert_eq!(touching(&small, &large), [1.0, 1.0, 0.0]);
    assert_eq!(touching(&large, &small), [1.0, 0.0, 0.0]);
    assert_eq!(st_3d_distance(&small, &large), Ok(Some(0.7844645405527361)));
    let other = triangle(&[[1.0, 1.0, -1.0], [1.0, 1.0, 1.0], [1.0, 3.0, -1.0]]);
    assert_eq!(touching(&other, &large), [1.0, 1.0, 0.0]);
}

#[test]
fn without_faces_the_rules_are_one() {
    let blobs = [
        point(O),
        line(&[[0.0, 0.0, 0.0], [2f64.powi(-26), 0.0, 0.0]]),
        line(&[[2.0, -1.0, 3.0], [2.0, 1.0, 3.0], [0.1, 0.2, 0.3]]),
        points(&[O, [1.0, 2.0, 2.0]]),
        line(&[O]),
    ];
    for (a, b) in blobs.iter().flat_map(|a| blobs.iter().map(move |b| (a, b))) {
        assert_eq!(st_3d_distance_by(a, b, Rule::Two), st_3d_distance(a, b));
        assert_eq!(st_3d_shortest_line_by(a, b, Rule::Two), st_3d_shortest_line(a, b));
    }
}

#[test]
fn rules_by_number() {
    assert_eq!([Rule::try_from(1), Rule::try_from(2)], [Ok(Rule::One), Ok(Rule::Two)]);
    assert_eq!(Rule::default(), Rule::One);
    for number in [0, 3, 255, 257, 258, u32::MAX] {
        assert_eq!(Rule::try_from(number), Err(Refusal { number: 17, side: 0 }));
    }
}

#[test]
fn refusals_are_those_of_rule_1() {
    let good = plate();
    for bad in [vec![], b"GP".to_vec(), vec![2], [[1, 1, 0, 0, 0].to_vec(), vec![0; 16]].concat()] {
        assert_eq!(st_3d_distance_by(&bad, &good, Rule::Two).unwrap_err(), st_3d_distance(&bad, &good).unwrap_err());
        assert_eq!(st_3d_shortest_line_by(&good, &bad, Rule::Two).unwrap_err(), st_3d_shortest_line(&good, &bad).unwrap_err());
    }
    assert_eq!(st_3d_dwithin_by(&[], &[], -1.0, Rule::Two), Err(Refusal { number: 1, side: 0 }));
}

#[test]
fn a_measurer_by_rules_in_turn() {
    let (rod, plate) = (line(&[[1.0, 1.0, -1.0], [1.0, 1.0, 1.0]]), plate());
    let mut measurer = Measurer::new();
    for _ in 0..2 {
        assert_eq!(measurer.st_3d_distance_by(&rod, &plate, Rule::Two), Ok(Some(0.0)));
        assert_eq!(measurer.st_3d_distance(&rod, &plate), Ok(Some(1.0)));
        assert_eq!(measurer.st_3d_intersects_by(&plate, &rod, Rule::Two), Ok(true));
        assert_eq!(measurer.st_3d_dwithin_by(&plate, &rod, 0.9, Rule::One), Ok(false));
        assert_eq!(measurer.st_3d_closest_point_by(&rod, &plate, Rule::Two).unwrap().unwrap().len(), 37);
        assert_eq!(measurer.st_3d_shortest_line_by(&rod, &plate, Rule::Two).unwrap().unwrap().len(), 65);
    }
}
