//! Stand-in: the 2D function that `threed_metric` falls back to.

use crate::error::Result;
use crate::reached;

pub fn st_closest_point(_: &[u8], _: &[u8]) -> Result<Option<Vec<u8>>> {
    reached("measures::st_closest_point")
}
