//! What is private in free_space_manager.rs.

pub(crate) fn enc_size(value: u64) -> usize {
    super::enc_size(value)
}
