//! Times each function of this library beside the Rust's, on the same input, in turns within one run.
#![allow(dead_code)]

include!("files.rs");

mod blocks;
mod figures;
mod lists;
mod paged;
mod save;

use figures::Figures;

mod c {
    unsafe extern "C" {
        pub fn jenkins_lookup3(bytes: *const u8, len: usize) -> u32;
    }
}

fn lookup3(figures: &Figures) {
    let mut state = 1u32;
    let bytes: Vec<u8> = (0..1 << 20)
        .map(|_| {
            state = state.wrapping_mul(1_664_525).wrapping_add(1_013_904_223);
            (state >> 24) as u8
        })
        .collect();
    // In short input the last block, of 1 to 12 bytes, shows.
    for len in [5, 12, 29, 64, 4096, 1 << 20] {
        let input = &bytes[..len];
        figures.compare(
            &format!("lookup3, {len} bytes"),
            || unsafe { c::jenkins_lookup3(input.as_ptr(), input.len()) },
            || checksum::jenkins_lookup3(input),
        );
    }
}

fn main() {
    let figures = Figures::begin(std::env::args().nth(1).unwrap_or_default());
    lookup3(&figures);
    lists::run(&figures);
    paged::run(&figures);
    blocks::run(&figures);
    save::run(&figures);
}
