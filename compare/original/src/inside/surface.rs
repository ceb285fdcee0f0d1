//! Declared after the end of `functions/surface.rs`, so it sees that file's private items.

use super::surfaces;
use crate::error::Result;

/// Where each patch lies in the blob, start and end; `None` where the blob is no surface.
pub fn patch_ranges(blob: &[u8]) -> Result<Option<Vec<(usize, usize)>>> {
    let start = |part: &[u8]| part.as_ptr() as usize - blob.as_ptr() as usize;
    let found = surfaces(blob)?;
    Ok(found.map(|s| s.patches.iter().map(|p| (start(p), start(p) + p.len())).collect()))
}
