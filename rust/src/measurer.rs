use crate::c::{self, Lists, Outcome, Reply, Workspace};
use crate::{Hit, Refusal, Rule, Tape};
use viskorrel_sys::{LINE_BYTES, POINT_BYTES};

/// The number of the refusal that a workspace is too short.
const WORKSPACE_TOO_SHORT: u32 = 15;

/// The operations, over memory that is kept from one call to the next. Those by the least distance go by rule 1, or by the [`Rule`] that a
/// function ending in `_by` is given.
///
/// The memory is grown where a blob needs more than any before it, by a small multiple of its bytes; it never shrinks. What a
/// call leaves in it changes no later answer.
#[derive(Debug, Default)]
pub struct Measurer {
    one: Workspace,
    two: Workspace,
}

impl Measurer {
    /// A measurer that holds no memory yet.
    pub fn new() -> Self {
        Self::default()
    }

    /// The least distance between `a` and `b` (may be NaN); `None` where one of them has no point, segment or triangle.
    pub fn st_3d_distance(&mut self, a: &[u8], b: &[u8]) -> Result<Option<f64>, Refusal> {
        self.st_3d_distance_by(a, b, Rule::One)
    }

    /// The same by a rule.
    pub fn st_3d_distance_by(&mut self, a: &[u8], b: &[u8], rule: Rule) -> Result<Option<f64>, Refusal> {
        let reply = self.on_two(a, b, |one, two| c::distance(a, b, rule, one, two));
        Ok(reply.answered()?.then_some(reply.value))
    }

    /// The greatest distance between vertices of `a` and `b` (may be NaN); `None` where one of them has no vertex. A line of one vertex has
    /// none.
    pub fn st_3d_max_distance(&mut self, a: &[u8], b: &[u8]) -> Result<Option<f64>, Refusal> {
        let reply = self.on_two(a, b, |one, two| c::max_distance(a, b, one, two));
        Ok(reply.answered()?.then_some(reply.value))
    }

    /// Whether the least distance is at most `d`. No where there is none, or where one of the two is NaN.
    pub fn st_3d_dwithin(&mut self, a: &[u8], b: &[u8], d: f64) -> Result<bool, Refusal> {
        self.st_3d_dwithin_by(a, b, d, Rule::One)
    }

    /// The same by a rule.
    pub fn st_3d_dwithin_by(&mut self, a: &[u8], b: &[u8], d: f64, rule: Rule) -> Result<bool, Refusal> {
        self.on_two(a, b, |one, two| c::dwithin(a, b, d, rule, one, two)).answered()
    }

    /// Whether the greatest distance is at most `d`. No where there is none, or where one of the two is NaN.
    pub fn st_3d_dfully_within(&mut self, a: &[u8], b: &[u8], d: f64) -> Result<bool, Refusal> {
        self.on_two(a, b, |one, two| c::dfully_within(a, b, d, one, two)).answered()
    }

    /// Whether the least distance is 0. No where there is none.
    ///
    /// A segment that passes through a triangle is measured at its ends and at the triangle's edges, so the two may not intersect by this:
    /// they do by [`Rule::Two`].
    pub fn st_3d_intersects(&mut self, a: &[u8], b: &[u8]) -> Result<bool, Refusal> {
        self.st_3d_intersects_by(a, b, Rule::One)
    }

    /// Whether the least distance by a rule is 0. No where there is none.
    pub fn st_3d_intersects_by(&mut self, a: &[u8], b: &[u8], rule: Rule) -> Result<bool, Refusal> {
        self.on_two(a, b, |one, two| c::intersects(a, b, rule, one, two)).answered()
    }

    /// The point of `a` at the least distance, the first of several: a GeoPackage blob with the SRID of `a`.
    pub fn st_3d_closest_point(&mut self, a: &[u8], b: &[u8]) -> Result<Option<Vec<u8>>, Refusal> {
        self.st_3d_closest_point_by(a, b, Rule::One)
    }

    /// The same by a rule.
    pub fn st_3d_closest_point_by(&mut self, a: &[u8], b: &[u8], rule: Rule) -> Result<Option<Vec<u8>>, Refusal> {
        let mut output = [0; POINT_BYTES];
        let reply = self.on_two(a, b, |one, two| c::closest_point(a, b, rule, one, two, &mut output));
        Ok(reply.answered()?.then(|| output.to_vec()))
    }

    /// The line from the point of `a` to the point of `b` at the least distance, the first of several: a GeoPackage blob with the SRID of
    /// `a`.
    pub fn st_3d_shortest_line(&mut self, a: &[u8], b: &[u8]) -> Result<Option<Vec<u8>>, Refusal> {
        self.st_3d_shortest_line_by(a, b, Rule::One)
    }

    /// The same by a rule.
    pub fn st_3d_shortest_line_by(&mut self, a: &[u8], b: &[u8], rule: Rule) -> Result<Option<Vec<u8>>, Refusal> {
        let mut output = [0; LINE_BYTES];
        let reply = self.on_two(a, b, |one, two| c::shortest_line(a, b, rule, one, two, &mut output));
        Ok(reply.answered()?.then(|| output.to_vec()))
    }

    /// The line from the vertex of `a` to the vertex of `b` at the greatest distance, the first of several: a GeoPackage blob with the SRID
    /// of `a`.
    pub fn st_3d_longest_line(&mut self, a: &[u8], b: &[u8]) -> Result<Option<Vec<u8>>, Refusal> {
        let mut output = [0; LINE_BYTES];
        let reply = self.on_two(a, b, |one, two| c::longest_line(a, b, one, two, &mut output));
        Ok(reply.answered()?.then(|| output.to_vec()))
    }

    /// The point at a fraction of the length of the blob's lines: a GeoPackage blob with the SRID of the blob, which needs no Z.
    pub fn st_3d_line_interpolate_point(&mut self, blob: &[u8], fraction: f64) -> Result<Vec<u8>, Refusal> {
        let mut output = [0; POINT_BYTES];
        let mut reply = c::line_interpolate_point(blob, fraction, &mut self.one, &mut output);
        if is_too_short(reply) {
            grow(&mut self.one, blob);
            reply = c::line_interpolate_point(blob, fraction, &mut self.one, &mut output);
        }
        // the outcome of this one is never nothing
        reply.answered().map(|_| output.to_vec())
    }

    /// The hits of a tape, as many as there are. Their order is open.
    ///
    /// The first number of a match is side 1. Refusals: 1, 3 to 13 at a match; 20, the tape is at fault; 21, a number is not loaded.
    pub fn job(&mut self, tape: &Tape) -> Result<Vec<Hit>, Refusal> {
        // no pair gives two hits, so that 22 is not met
        self.job_with_capacity(tape, tape.pairs())
    }

    /// The same, with room for so many hits; more are refused, with 22, after every other fault was looked for.
    pub fn job_with_capacity(&mut self, tape: &Tape, capacity: usize) -> Result<Vec<Hit>, Refusal> {
        // enough for every blob on either side, so that 15 is not met
        for blob in tape.blobs() {
            grow(&mut self.one, blob);
            grow(&mut self.two, blob);
        }
        let mut lists = Lists { first: vec![0; capacity], second: vec![0; capacity], distances: vec![0.0; capacity] };
        let pair = c::job(tape.bytes(), &mut self.one, &mut self.two, &mut lists);
        // the outcome of this one is never nothing
        pair.answered()?;
        let numbers = lists.first.iter().zip(&lists.second).zip(&lists.distances).take(pair.first);
        Ok(numbers.map(|((&first, &second), &distance)| Hit { first, second, distance }).collect())
    }

    /// Calls with the memory at hand; where that is too short, grows it and calls again.
    ///
    /// A refused call changes nothing, and too short a workspace is the last fault to be looked for (the output is long enough): so every
    /// other refusal is the operation's own, with its side, and both blobs have sizes once this one is met.
    fn on_two(&mut self, a: &[u8], b: &[u8], mut call: impl FnMut(&mut Workspace, &mut Workspace) -> Reply) -> Reply {
        let reply = call(&mut self.one, &mut self.two);
        if !is_too_short(reply) {
            return reply;
        }
        grow(&mut self.one, a);
        grow(&mut self.two, b);
        call(&mut self.one, &mut self.two)
    }
}

fn is_too_short(reply: Reply) -> bool {
    matches!(reply.answered(), Err(refusal) if refusal.number == WORKSPACE_TOO_SHORT)
}

/// Grows a workspace to the lengths that a blob takes. Lengths that suffice are left as they are.
fn grow(workspace: &mut Workspace, blob: &[u8]) {
    let Ok(sizes) = crate::sizes(blob) else { return };
    if workspace.floats.len() < sizes.floats {
        workspace.floats.resize(sizes.floats, 0.0);
    }
    if workspace.table.len() < sizes.table {
        workspace.table.resize(sizes.table, 0);
    }
}

#[cfg(test)]
mod tests {
    use super::*;

    /// A line of so many vertices along x, at height z.
    fn line(count: u32, z: f64) -> Vec<u8> {
        let mut blob = vec![1];
        blob.extend(1002u32.to_le_bytes());
        blob.extend(count.to_le_bytes());
        for x in 0..count {
            for ordinate in [f64::from(x), 0.0, z] {
                blob.extend(ordinate.to_le_bytes());
            }
        }
        blob
    }

    fn lent(measurer: &Measurer) -> [(usize, *const f64, usize, *const u32); 2] {
        [&measurer.one, &measurer.two].map(|w| (w.floats.len(), w.floats.as_ptr(), w.table.len(), w.table.as_ptr()))
    }

    #[test]
    fn memory_is_kept_and_grown_only_where_it_must_be() {
        let (small, large) = (line(2, 0.0), line(500, 3.0));
        let mut measurer = Measurer::new();
        assert_eq!(measurer.st_3d_distance(&small, &large), Ok(Some(3.0)));
        let first = lent(&measurer);
        assert_eq!((first[0].0, first[0].2), (8, 2));
        assert_eq!((first[1].0, first[1].2), (2000, 2));
        // nothing larger comes: the same memory, unmoved
        assert_eq!(measurer.st_3d_distance(&small, &small), Ok(Some(0.0)));
        assert_eq!(measurer.st_3d_distance(&small, &large), Ok(Some(3.0)));
        assert_eq!(lent(&measurer), first);
        // a larger one comes on side 1: only that side is grown
        assert_eq!(measurer.st_3d_distance(&large, &small), Ok(Some(3.0)));
        assert_eq!(lent(&measurer)[0].0, 2000);
        assert_eq!(lent(&measurer)[1], first[1]);
    }

    #[test]
    fn a_refused_call_lends_nothing() {
        let mut measurer = Measurer::new();
        assert_eq!(measurer.st_3d_distance(&line(9, 0.0), &[]), Err(Refusal { number: 9, side: 2 }));
        assert!(measurer.one.floats.is_empty() && measurer.two.table.is_empty());
    }
}
