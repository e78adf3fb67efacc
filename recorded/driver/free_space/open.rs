//! What is private in free_space.rs: a region's calls.

use super::FreeRegion;

pub(crate) fn end(addr: u64, len: u64) -> u64 {
    FreeRegion { addr, len }.end()
}

pub(crate) fn aligned_interior(addr: u64, len: u64, unit: u64) -> Option<(u64, u64)> {
    FreeRegion { addr, len }.aligned_interior(unit)
}
