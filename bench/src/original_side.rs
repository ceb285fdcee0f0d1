//! The original's calls, and what they would be by pair rule 2.

use original::functions::threed_metric as rust;
use rust::inside;

use crate::measure::Answer;
use crate::small::TOLERANCE;
use crate::workload::{Op, Pair};

#[inline]
pub fn answer(op: Op, pair: &Pair) -> Answer {
    let (a, b) = (&pair.a[..], &pair.b[..]);
    let answer = match op {
        Op::Distance => rust::st_3d_distance(a, b).map(|d| d.map_or(Answer::Nothing, Answer::Number)),
        Op::Within => rust::st_3d_dwithin(a, b, TOLERANCE).map(Answer::Truth),
        Op::ShortestLine => rust::st_3d_shortest_line(a, b).map(|l| l.map_or(Answer::Nothing, Answer::Line)),
        Op::LongestLine => rust::st_3d_longest_line(a, b).map(|l| l.map_or(Answer::Nothing, Answer::Line)),
    };
    answer.expect("every pair is accepted")
}

/// The answer by rule 2, which the original does not have: that of the comparison.
pub fn answer_by_2(op: Op, pair: &Pair) -> Answer {
    let [a, b] = [&pair.a, &pair.b].map(|blob| inside::parts_of(blob).expect("every pair is accepted"));
    let found = inside::closest_by_2_of(&a, &b, false);
    match (op, found) {
        (Op::Within, w) => Answer::Truth(w.is_some_and(|w| w.d <= TOLERANCE)),
        (_, None) => Answer::Nothing,
        (Op::Distance, Some(w)) => Answer::Number(w.d),
        (Op::ShortestLine, Some(w)) => {
            let srid = inside::srid(&pair.a).expect("every pair is accepted");
            Answer::Line(inside::line_blob(w.a, w.b, srid))
        }
        (Op::LongestLine, _) => unreachable!("takes no rule"),
    }
}
