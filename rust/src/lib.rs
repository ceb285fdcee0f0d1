//! 3D measures between GeoPackage or WKB blobs: a safe layer over Viskorrel's C exports, whose answers are proved.
//!
//! Any bytes may be passed. A call gives an answer, or a [`Refusal`] from a fixed table. Names and shapes are those of
//! [kenro](https://github.com/reearth/kenro); where the two answer differently, `docs/DIFFERENCES.md` says so. Beside each of the five
//! functions by the least distance stands one that ends in `_by` and takes a [`Rule`]: by rule 2 a rod through a plate touches it.
//!
//! The functions here keep one [`Measurer`] for each thread, and so as much memory as the thread's largest blobs took. Hold a `Measurer`
//! of your own to say when that memory goes.
//!
//! ```
//! fn point(x: f64, y: f64, z: f64) -> Vec<u8> {
//!     let mut blob = vec![1, 0xE9, 3, 0, 0]; // little-endian, point with Z
//!     blob.extend([x, y, z].iter().flat_map(|ordinate| ordinate.to_le_bytes()));
//!     blob
//! }
//! let (a, b) = (point(0.0, 0.0, 0.0), point(3.0, 4.0, 12.0));
//! assert_eq!(viskorrel::st_3d_distance(&a, &b), Ok(Some(13.0)));
//!
//! let refusal = viskorrel::st_3d_distance(&a, &b[..20]).unwrap_err();
//! assert_eq!((refusal.number, refusal.side), (9, 2));
//! ```

#![deny(unsafe_code, missing_docs)]

#[allow(unsafe_code, missing_docs)]
mod c;
mod measurer;
mod refusal;
mod rule;
mod tape;

pub use measurer::Measurer;
pub use refusal::Refusal;
pub use rule::Rule;
pub use tape::{Hit, Tape};

use c::Outcome;
use std::cell::RefCell;

/// The version of this crate, and of the library that it was made for.
pub const VERSION: &str = env!("CARGO_PKG_VERSION");

/// What a blob takes of a workspace, counted in elements.
#[derive(Clone, Copy, Debug, PartialEq, Eq)]
pub struct Sizes {
    /// Four for each coordinate: x, y, z, m.
    pub floats: usize,
    /// Two for each point, line and ring that has a coordinate.
    pub table: usize,
}

/// A blob's coordinates and runs, in the order of its bytes.
#[derive(Clone, Debug, PartialEq)]
pub struct Read {
    /// x, y, z, m of each coordinate. A Z or M that the blob does not have is 0; M may be NaN, and no measure depends on it.
    pub floats: Vec<f64>,
    /// Kind and number of coordinates of each run: of each point (1), line (2), ring (3) and triangle's ring (17) that has one.
    pub table: Vec<u32>,
}

/// What was found for a patch of a surface.
#[derive(Clone, Copy, Debug, PartialEq, Eq)]
pub enum Patch<'a> {
    /// The patch: a part of the blob.
    Part(&'a [u8]),
    /// The surface has no patch of that number.
    Nothing,
    /// The blob is no polyhedral surface, TIN or triangle, or its GeoPackage header, first byte order or type is at fault.
    NoSurface,
}

/// A square root, and how many of its digits are needed.
#[derive(Clone, Copy, Debug, PartialEq)]
pub struct RootAndDigits {
    /// The root, rounded once to the nearest. May be NaN.
    pub root: f64,
    /// 1 to 27 where the root is exact, 53 where it is rounded, 0 where the number is not both positive and finite.
    pub digits: u32,
}

/// The square root of `s`, and the digits needed: for positive finite `s` the fewest leading binary digits of the root, from its first 1,
/// whose square is `s` exactly; 53 if there are none, and 0 for any other `s`. An exact root needs at most 27, so that 53 says that alone.
///
/// ```
/// use viskorrel::{root_and_digits, RootAndDigits};
///
/// assert_eq!(root_and_digits(25.0), RootAndDigits { root: 5.0, digits: 3 }); // 5 is 101 in binary
/// assert_eq!(root_and_digits(4.0), RootAndDigits { root: 2.0, digits: 1 });
/// assert_eq!(root_and_digits(2.0), RootAndDigits { root: 2f64.sqrt(), digits: 53 });
/// ```
pub fn root_and_digits(s: f64) -> RootAndDigits {
    let found = c::root_digits(s);
    RootAndDigits { root: found.root, digits: found.digits }
}

/// What a blob takes of a workspace. Whether its type has Z is not asked. Refusals: 3 to 12.
pub fn sizes(blob: &[u8]) -> Result<Sizes, Refusal> {
    let pair = c::sizes(blob);
    pair.answered().map(|_| Sizes { floats: pair.first, table: pair.second })
}

/// A blob's coordinates and runs. Whether its type has Z is not asked. Refusals: 3 to 12.
pub fn read(blob: &[u8]) -> Result<Read, Refusal> {
    let Sizes { floats, table } = sizes(blob)?;
    let mut workspace = c::Workspace { floats: vec![0.0; floats], table: vec![0; table] };
    c::read(blob, &mut workspace).answered()?;
    Ok(Read { floats: workspace.floats, table: workspace.table })
}

/// Two blobs as one: a GeoPackage blob with the SRID of both, whose geometry is a collection of the two, the bytes of each as they stand.
/// Envelopes and what trails a geometry are left out. Both need Z. Refusals: 3 to 13; 18, the SRIDs differ; 19, a geometry would stand
/// more than 32 levels deep.
///
/// If no distance is NaN, the greatest distance from the join to a third blob is the larger of the two separate ones, or the only one there
/// is.
///
/// ```
/// fn point(x: f64) -> Vec<u8> {
///     let mut blob = vec![1, 0xE9, 3, 0, 0]; // little-endian, point with Z
///     blob.extend([x, 0.0, 0.0].iter().flat_map(|ordinate| ordinate.to_le_bytes()));
///     blob
/// }
/// let both = viskorrel::join(&point(0.0), &point(3.0)).unwrap();
/// assert_eq!(both.len(), 17 + 2 * 29);
/// assert_eq!(viskorrel::st_3d_max_distance(&both, &point(7.0)), Ok(Some(7.0)));
/// ```
pub fn join(a: &[u8], b: &[u8]) -> Result<Vec<u8>, Refusal> {
    // always enough, so that 16 is not met
    let mut output = vec![0; a.len() + b.len() + viskorrel_sys::JOIN_BYTES];
    let pair = c::join(a, b, &mut output);
    pair.answered()?;
    output.truncate(pair.first);
    Ok(output)
}

/// Patch `n` of a surface, counted from 0. A triangle is its own patch 0, to the blob's end. Every patch is scanned: [`patches`] scans each
/// once. Refusals: 9 and 10, from the surface's SRID or count, or any patch.
pub fn patch(blob: &[u8], n: u64) -> Result<Patch<'_>, Refusal> {
    let pair = c::patch(blob, n);
    Ok(match pair.answered()? {
        true => Patch::Part(&blob[pair.first..pair.second]),
        false if c::is_no_surface(pair) => Patch::NoSurface,
        false => Patch::Nothing,
    })
}

/// The patches of a surface in order, or none where the blob is no surface, as for [`Patch::NoSurface`]. All are scanned first, and each
/// once more when it is taken. Refusals: 9 and 10, from the surface's SRID or count, or any patch.
pub fn patches(blob: &[u8]) -> Result<Option<Patches<'_>>, Refusal> {
    let pair = c::patches(blob);
    Ok(pair.answered()?.then_some(Patches { blob, at: pair.first, left: pair.second }))
}

/// The patches of a surface that are left, each a part of the blob.
#[derive(Clone, Debug)]
pub struct Patches<'a> {
    blob: &'a [u8],
    at: usize,
    left: usize,
}

impl<'a> Iterator for Patches<'a> {
    type Item = &'a [u8];

    fn next(&mut self) -> Option<&'a [u8]> {
        let pair = c::next_patch(self.blob, self.at, self.left);
        // no patch of a list is refused: all were scanned
        pair.answered().ok().filter(|&there| there)?;
        (self.at, self.left) = (pair.second, self.left - 1);
        Some(&self.blob[pair.first..pair.second])
    }

    fn size_hint(&self) -> (usize, Option<usize>) {
        (self.left, Some(self.left))
    }
}

impl ExactSizeIterator for Patches<'_> {}

thread_local! {
    static MEASURER: RefCell<Measurer> = RefCell::new(Measurer::new());
}

/// Calls with the thread's measurer, or with a fresh one where the thread is ending and its own is gone.
fn with<T>(call: impl Fn(&mut Measurer) -> T) -> T {
    MEASURER.try_with(|measurer| call(&mut measurer.borrow_mut())).unwrap_or_else(|_| call(&mut Measurer::new()))
}

/// See [`Measurer::job`]. Refusals: 1, 3 to 13, 20, 21.
pub fn job(tape: &Tape) -> Result<Vec<Hit>, Refusal> {
    with(|measurer| measurer.job(tape))
}

/// See [`Measurer::job_with_capacity`]. Refusals: 1, 3 to 13, 20 to 22.
pub fn job_with_capacity(tape: &Tape, capacity: usize) -> Result<Vec<Hit>, Refusal> {
    with(|measurer| measurer.job_with_capacity(tape, capacity))
}

/// See [`Measurer::st_3d_distance`]. Refusals: 3 to 13.
pub fn st_3d_distance(a: &[u8], b: &[u8]) -> Result<Option<f64>, Refusal> {
    with(|measurer| measurer.st_3d_distance(a, b))
}

/// See [`Measurer::st_3d_distance_by`]. Refusals: 3 to 13.
pub fn st_3d_distance_by(a: &[u8], b: &[u8], rule: Rule) -> Result<Option<f64>, Refusal> {
    with(|measurer| measurer.st_3d_distance_by(a, b, rule))
}

/// See [`Measurer::st_3d_max_distance`]. Refusals: 3 to 13.
pub fn st_3d_max_distance(a: &[u8], b: &[u8]) -> Result<Option<f64>, Refusal> {
    with(|measurer| measurer.st_3d_max_distance(a, b))
}

/// See [`Measurer::st_3d_dwithin`]. Refusals: 1, 3 to 13.
pub fn st_3d_dwithin(a: &[u8], b: &[u8], d: f64) -> Result<bool, Refusal> {
    with(|measurer| measurer.st_3d_dwithin(a, b, d))
}

/// See [`Measurer::st_3d_dwithin_by`]. Refusals: 1, 3 to 13.
pub fn st_3d_dwithin_by(a: &[u8], b: &[u8], d: f64, rule: Rule) -> Result<bool, Refusal> {
    with(|measurer| measurer.st_3d_dwithin_by(a, b, d, rule))
}

/// See [`Measurer::st_3d_dfully_within`]. Refusals: 1, 3 to 13.
pub fn st_3d_dfully_within(a: &[u8], b: &[u8], d: f64) -> Result<bool, Refusal> {
    with(|measurer| measurer.st_3d_dfully_within(a, b, d))
}

/// See [`Measurer::st_3d_intersects`]. Refusals: 3 to 13.
pub fn st_3d_intersects(a: &[u8], b: &[u8]) -> Result<bool, Refusal> {
    with(|measurer| measurer.st_3d_intersects(a, b))
}

/// See [`Measurer::st_3d_intersects_by`]. Refusals: 3 to 13.
pub fn st_3d_intersects_by(a: &[u8], b: &[u8], rule: Rule) -> Result<bool, Refusal> {
    with(|measurer| measurer.st_3d_intersects_by(a, b, rule))
}

/// See [`Measurer::st_3d_closest_point`]. Refusals: 3 to 13.
pub fn st_3d_closest_point(a: &[u8], b: &[u8]) -> Result<Option<Vec<u8>>, Refusal> {
    with(|measurer| measurer.st_3d_closest_point(a, b))
}

/// See [`Measurer::st_3d_closest_point_by`]. Refusals: 3 to 13.
pub fn st_3d_closest_point_by(a: &[u8], b: &[u8], rule: Rule) -> Result<Option<Vec<u8>>, Refusal> {
    with(|measurer| measurer.st_3d_closest_point_by(a, b, rule))
}

/// See [`Measurer::st_3d_shortest_line`]. Refusals: 3 to 13.
pub fn st_3d_shortest_line(a: &[u8], b: &[u8]) -> Result<Option<Vec<u8>>, Refusal> {
    with(|measurer| measurer.st_3d_shortest_line(a, b))
}

/// See [`Measurer::st_3d_shortest_line_by`]. Refusals: 3 to 13.
pub fn st_3d_shortest_line_by(a: &[u8], b: &[u8], rule: Rule) -> Result<Option<Vec<u8>>, Refusal> {
    with(|measurer| measurer.st_3d_shortest_line_by(a, b, rule))
}

/// See [`Measurer::st_3d_longest_line`]. Refusals: 3 to 13.
pub fn st_3d_longest_line(a: &[u8], b: &[u8]) -> Result<Option<Vec<u8>>, Refusal> {
    with(|measurer| measurer.st_3d_longest_line(a, b))
}

/// See [`Measurer::st_3d_line_interpolate_point`]. Refusals: 2 to 12, 14.
pub fn st_3d_line_interpolate_point(blob: &[u8], fraction: f64) -> Result<Vec<u8>, Refusal> {
    with(|measurer| measurer.st_3d_line_interpolate_point(blob, fraction))
}
