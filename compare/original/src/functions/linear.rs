//! Stand-in: the 2D functions that `threed_metric` falls back to.

use crate::error::Result;
use crate::reached;

pub fn st_max_distance(_: &[u8], _: &[u8]) -> Result<Option<f64>> {
    reached("linear::st_max_distance")
}

pub fn st_shortest_line(_: &[u8], _: &[u8]) -> Result<Option<Vec<u8>>> {
    reached("linear::st_shortest_line")
}

pub fn st_longest_line(_: &[u8], _: &[u8]) -> Result<Option<Vec<u8>>> {
    reached("linear::st_longest_line")
}
