//! Jobs: the bytes of a tape, its hits, what is refused and when, and memory that always suffices.
mod common;
use common::*;
use viskorrel::*;

const O: P = [0.0, 0.0, 0.0];

fn at(x: f64) -> Vec<u8> {
    point([x, 0.0, 0.0])
}

fn hit(first: u16, second: u16, distance: f64) -> Hit {
    Hit { first, second, distance }
}

fn refused(tape: &Tape) -> (u32, u32) {
    let refusal = job(tape).unwrap_err();
    (refusal.number, refusal.side)
}

/// In an order of their own: that of the library is open.
fn sorted(mut hits: Vec<Hit>) -> Vec<(u16, u16, u64)> {
    hits.sort_by(|a, b| (a.first, a.second).cmp(&(b.first, b.second)).then(a.distance.total_cmp(&b.distance)));
    hits.iter().map(|hit| (hit.first, hit.second, hit.distance.to_bits())).collect()
}

#[test]
fn the_bytes() {
    let tape = Tape::new().load(7, b"blob").tolerance(0.25).pair(7, 255).end();
    let whole = [&[1, 7, 4, 0, 0, 0][..], b"blob", &[2], &0.25f64.to_le_bytes(), &[3, 7, 255, 4]].concat();
    assert_eq!(tape.bytes(), whole);
    assert_eq!(Tape::from(whole), tape);
    assert_eq!(tape.pairs(), 1);
    assert_eq!(tape.clone().pair(1, 2).pairs(), 1); // behind the end
    assert_eq!(Tape::from(vec![1, 7, 3, 0, 0, 0, 3, 3]).pairs(), 0); // cut off
    assert_eq!(Tape::new().pair(1, 2).pair(3, 4).pairs(), 2);
}

#[test]
fn hits() {
    let tape = Tape::new().load(1, &at(0.0)).load(2, &at(3.0)).load(255, &at(5.0)).tolerance(3.0);
    let all = tape.clone().pair(1, 2).pair(2, 1).pair(1, 255).pair(255, 2).pair(1, 1).pair(1, 2).end();
    let expected = [hit(1, 2, 3.0), hit(2, 1, 3.0), hit(255, 2, 2.0), hit(1, 1, 0.0), hit(1, 2, 3.0)];
    assert_eq!(sorted(job(&all).unwrap()), sorted(expected.to_vec()));
    assert_eq!(job(&tape.clone().end()), Ok(vec![]));
    // the tolerance in force at the match counts, and what was loaded last
    let later = tape.clone().pair(1, 2).tolerance(2.0).pair(1, 2).load(2, &at(1.0)).pair(1, 2).end();
    assert_eq!(sorted(job(&later).unwrap()), sorted(vec![hit(1, 2, 3.0), hit(1, 2, 1.0)]));
    // before the first it is 0
    assert_eq!(job(&Tape::new().load(1, &at(1.0)).load(2, &at(2.0)).pair(1, 2).pair(2, 2).end()), Ok(vec![hit(2, 2, 0.0)]));
    for (metres, hits) in [(-0.0, 1), (f64::NAN, 0), (f64::INFINITY, 1)] {
        assert_eq!(job(&Tape::new().load(1, &at(1.0)).tolerance(metres).pair(1, 1).end()).unwrap().len(), hits);
    }
}

#[test]
fn refusals() {
    let tape = Tape::new().load(1, &at(0.0)).load(2, &[]);
    for (refusal, tape) in [
        ((20, 0), Tape::new()),
        ((20, 0), tape.clone()),
        ((20, 0), Tape::from(vec![0, 4])),
        ((20, 0), tape.clone().pair(1, 1)),
        ((21, 0), tape.clone().pair(1, 3)),
        ((21, 0), tape.clone().pair(3, 2).end()),
        ((21, 0), tape.clone().tolerance(-1.0).pair(2, 3).end()),
        ((1, 0), tape.clone().tolerance(-1.0).pair(1, 2).end()),
        ((9, 1), tape.clone().pair(2, 1)),
        ((9, 2), tape.clone().pair(1, 2).end()),
    ] {
        assert_eq!(refused(&tape), refusal, "{:?}", tape.bytes());
    }
    assert_eq!(job(&tape.clone().tolerance(-1.0).end()), Ok(vec![]));
    let full = tape.pair(1, 1).pair(1, 1);
    assert_eq!(job_with_capacity(&full.clone().end(), 2).unwrap().len(), 2);
    for (number, tape) in [(22, full.clone().end()), (20, full.clone()), (21, full.clone().pair(1, 9)), (9, full.pair(1, 2))] {
        assert_eq!(job_with_capacity(&tape, 1).unwrap_err().number, number);
    }
}

#[test]
fn every_beginning() {
    let whole = Tape::new().load(1, &at(0.0)).tolerance(1.0).pair(1, 1).end();
    for length in 0..whole.bytes().len() {
        assert_eq!(refused(&Tape::from(whole.bytes()[..length].to_vec())), (20, 0));
    }
    assert_eq!(job(&Tape::from([whole.bytes(), &[0, 3, 9]].concat())), job(&whole));
}

#[test]
fn memory_suffices_on_either_side() {
    let long = line(&(0..500).map(|x| [f64::from(x), 2.0, 0.0]).collect::<Vec<_>>());
    let many = points(&[O; 300]);
    let tape = Tape::new().load(1, &long).load(2, &many).tolerance(2.0).pair(1, 2).pair(2, 1).pair(1, 1).load(1, &at(0.0)).pair(1, 2).end();
    let expected = vec![hit(1, 2, 2.0), hit(2, 1, 2.0), hit(1, 1, 0.0), hit(1, 2, 0.0)];
    assert_eq!(sorted(Measurer::new().job(&tape).unwrap()), sorted(expected));
}

#[test]
fn as_many_hits_as_pairs() {
    let tape = (0..5000).fold(Tape::new().load(0, &at(1.0)).load(1, &at(2.0)).tolerance(1.0), |tape, n| tape.pair(n % 2, 1)).end();
    let hits = job(&tape).unwrap();
    assert_eq!(hits.len(), 5000);
    assert_eq!(hits.iter().filter(|&&found| found == hit(0, 1, 1.0)).count(), 2500);
    assert_eq!(job_with_capacity(&tape, 4999), Err(Refusal { number: 22, side: 0 }));
}

#[test]
#[should_panic(expected = "numbers up to 255")]
fn no_command_for_a_larger_number() {
    let _ = Tape::new().pair(1, 256);
}

/// The records of tools/jobs, which say what is lent too; here a workspace is always long enough, so that a 15 of theirs is not met.
#[test]
fn records() {
    let data = include_bytes!("../../crates/jobs/data/calls");
    let (mut place, mut count) = (0, 0);
    while place < data.len() {
        let mut part = |length: usize| {
            place += length;
            &data[place - length..place]
        };
        let numbers: Vec<usize> = part(48).chunks(4).map(|number| u32::from_le_bytes(number.try_into().unwrap()) as usize).collect();
        let (tape, hits) = (Tape::from(part(numbers[0]).to_vec()), part(16 * numbers[11]));
        let expected = hits.chunks(16).map(|hit| {
            let number = |at: usize| u16::try_from(u32::from_le_bytes(hit[at..at + 4].try_into().unwrap())).unwrap();
            Hit { first: number(0), second: number(4), distance: f64::from_le_bytes(hit[8..].try_into().unwrap()) }
        });
        let answer = job_with_capacity(&tape, *numbers[5..8].iter().min().unwrap());
        match numbers[8..11] {
            [1, ..] => assert_eq!(sorted(answer.unwrap()), sorted(expected.collect()), "record {count}"),
            [_, 15, _] => assert_ne!(answer.map_err(|refusal| refusal.number), Err(15), "record {count}"),
            [_, number, side] => {
                let refusal = answer.unwrap_err();
                assert_eq!((refusal.number as usize, refusal.side as usize), (number, side), "record {count}");
            }
            _ => unreachable!(),
        }
        count += 1;
    }
    assert!(count > 2000);
}
