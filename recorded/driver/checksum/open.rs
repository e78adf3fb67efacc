//! What is private in checksum.rs.

pub(crate) fn hashlittle(data: &[u8], initval: u32) -> u32 {
    super::hashlittle(data, initval)
}
