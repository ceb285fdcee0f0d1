//! A root, and the digits needed: document 02, 2/13.
use viskorrel::{root_and_digits, RootAndDigits};

/// The greatest whole number whose square is at most `n`.
fn whole_root(n: u128) -> u128 {
    let (mut low, mut high) = (0, 1u128 << 64);
    while high - low > 1 {
        let middle = (low + high) / 2;
        match middle * middle <= n {
            true => low = middle,
            false => high = middle,
        }
    }
    low
}

/// The digits that `significand * 2^exponent` needs, by whole numbers: with an even exponent it has an exact root where the significand is
/// a square.
fn digits_of(significand: u64, exponent: i32) -> u32 {
    let odd = exponent.rem_euclid(2) as u32;
    let n = u128::from(significand) << odd;
    let root = whole_root(n);
    match root * root == n {
        true => u128::BITS - root.leading_zeros() - root.trailing_zeros(),
        false => 53,
    }
}

/// Significand and exponent of a positive finite number.
fn parts(s: f64) -> (u64, i32) {
    let (field, fraction) = ((s.to_bits() >> 52) as i32, s.to_bits() & ((1 << 52) - 1));
    match field {
        0 => (fraction, -1074),
        _ => (fraction | 1 << 52, field - 1075),
    }
}

fn agree(s: f64) {
    let (significand, exponent) = parts(s);
    let RootAndDigits { root, digits } = root_and_digits(s);
    assert_eq!(root.to_bits(), s.sqrt().to_bits(), "root of {s:e}");
    assert_eq!(digits, digits_of(significand, exponent), "digits of {s:e}");
}

#[test]
fn named_cases() {
    let cases = [
        (25.0, 5.0, 3),
        (4.0, 2.0, 1),
        (1.0, 1.0, 1),
        (2.0, 2f64.sqrt(), 53),
        (5e-324, 2f64.powi(-537), 1),
        (1e-323, 1e-323f64.sqrt(), 53),
        (9007199136250225.0, 94906265.0, 27),
        (f64::MAX, f64::MAX.sqrt(), 53),
    ];
    for (s, root, digits) in cases {
        assert_eq!(root_and_digits(s), RootAndDigits { root, digits }, "{s:e}");
    }
}

#[test]
fn no_positive_finite_number() {
    for s in [0.0, -0.0, f64::INFINITY] {
        let found = root_and_digits(s);
        assert_eq!((found.root.to_bits(), found.digits), (s.to_bits(), 0));
    }
    for s in [f64::NAN, -f64::NAN, f64::NEG_INFINITY, -4.0, -5e-324, f64::MIN] {
        let found = root_and_digits(s);
        assert!(found.root.is_nan() && found.digits == 0, "{s:e}");
    }
}

#[test]
fn every_small_square_and_its_neighbours() {
    for root in 1..=4096u64 {
        let s = (root * root) as f64;
        let found = root_and_digits(s);
        assert_eq!((found.root, found.digits), (root as f64, u64::BITS - root.leading_zeros() - root.trailing_zeros()));
        agree(f64::from_bits(s.to_bits() - 1));
        agree(f64::from_bits(s.to_bits() + 1));
    }
}

#[test]
fn subnormals_and_powers_of_two() {
    for exponent in 0..52 {
        for near in [-1i64, 0, 1] {
            agree(f64::from_bits(((1i64 << exponent) + near).max(1) as u64));
        }
    }
    for field in 1..2047u64 {
        for near in [-1i64, 0, 1] {
            agree(f64::from_bits(((field << 52) as i64 + near) as u64));
        }
    }
}
