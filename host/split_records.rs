//! A safe wrapper over the function of libhost_records.a, for the test in main.rs. The library itself exports no such function.

/// A free section, as the library lays it out in lent memory.
#[repr(C)]
#[derive(Clone, Copy, Debug, Default, PartialEq, Eq)]
pub struct FreeSection {
    pub addr: u64,
    pub size: u64,
}

mod c {
    use super::FreeSection;

    unsafe extern "C" {
        pub fn split_at_pages_records(sections: *const u64, len: usize, count: usize, page: u64, out: *mut FreeSection, out_len: usize) -> usize;
    }
}

/// Cuts the first `count` pairs of `sections` at every page multiple into the front of `out`: how many pieces there are, or the number of
/// the refusal, 1 to 14.
pub fn split_at_pages(sections: &[u64], count: usize, page: u64, out: &mut [FreeSection]) -> Result<usize, usize> {
    // The pointers are valid for their lengths, and `out` overlaps nothing: it is a `&mut`.
    let n = unsafe { c::split_at_pages_records(sections.as_ptr(), sections.len(), count, page, out.as_mut_ptr(), out.len()) };
    // A refusal is all ones less its number; `out` holds fewer than 2^60 records, so no number of pieces is as high.
    match usize::MAX - n {
        number @ 1..=14 => Err(number),
        _ => Ok(n),
    }
}
