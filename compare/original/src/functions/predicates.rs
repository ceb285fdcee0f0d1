//! Stand-in: the 2D functions that `threed_metric` falls back to.

use crate::error::Result;
use crate::reached;

pub fn st_distance(_: &[u8], _: &[u8]) -> Result<Option<f64>> {
    reached("predicates::st_distance")
}

pub fn st_dwithin(_: &[u8], _: &[u8], _: f64) -> Result<bool> {
    reached("predicates::st_dwithin")
}

pub fn st_intersects(_: &[u8], _: &[u8]) -> Result<bool> {
    reached("predicates::st_intersects")
}
