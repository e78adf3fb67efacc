//! Safe wrappers over the three functions of libcapi.a, for a Rust program that links it.

mod c {
    unsafe extern "C" {
        pub fn jenkins_lookup3(bytes: *const u8, len: usize) -> u32;
        pub fn enc_size(value: u64) -> usize;
        pub fn fshd_len(offset_size: u8) -> u64;
    }
}

/// The lookup3 checksum of a slice.
pub fn jenkins_lookup3(bytes: &[u8]) -> u32 {
    // A slice's pointer is never null and is valid for its length, also where it is empty.
    unsafe { c::jenkins_lookup3(bytes.as_ptr(), bytes.len()) }
}

/// The fewest bytes that hold `value`, at least 1.
pub fn enc_size(value: u64) -> usize {
    unsafe { c::enc_size(value) }
}

/// The length of an FSHD block, or `None` for an offset size outside 1 to 8.
pub fn fshd_len(offset_size: u8) -> Option<u64> {
    match unsafe { c::fshd_len(offset_size) } {
        0 => None,
        n => Some(n),
    }
}
