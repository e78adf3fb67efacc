//! The managers' blocks, written, read, and read strictly beside the loose reading and the checksums of both, at 16, 1,000 and 10,000
//! sections by address, all of one size and each of its own; written with sizes that fall, with sizes as an archive has them, and out of
//! address order; sections cut at pages, and their pieces counted.

use crate::address::BaseAddress;
use crate::figures::Figures;
use crate::free_space_manager::{FreeSection, read_persisted_sections, serialize_file_fsm, split_at_pages};

mod c {
    pub type Read = unsafe extern "C" fn(*const u8, usize, *const u64, usize, *mut u64, usize) -> u64;

    unsafe extern "C" {
        pub fn jenkins_lookup3(bytes: *const u8, len: usize) -> u32;
        pub fn bench_serialize_fshd(sections: *const u64, len: usize, count: usize, fsse_addr: u64, out: *mut u8, room: usize) -> u64;
        pub fn bench_serialize_fsse(
            sections: *const u64,
            len: usize,
            count: usize,
            fshd_addr: u64,
            class: u8,
            out: *mut u8,
            room: usize,
        ) -> u64;
        pub fn bench_read_sections(bytes: *const u8, len: usize, slots: *const u64, slot_count: usize, out: *mut u64, room: usize) -> u64;
        pub fn bench_read_sections_strict(bytes: *const u8, len: usize, slots: *const u64, slot_count: usize, out: *mut u64, room: usize) -> u64;
        pub fn bench_split_at_pages(sections: *const u64, len: usize, count: usize, page: u64, out: *mut u64, room: usize) -> usize;
    }
}

const FSHD_LEN: u64 = 82;
const PAGE: u64 = 4096;

fn pairs(sections: &[FreeSection]) -> Vec<u64> {
    sections.iter().flat_map(|s| [s.addr, s.size]).collect()
}

/// Writes both blocks, FSHD at 0 and FSSE after it, and gives their length.
fn write(pairs: &[u64], out: &mut [u8]) -> u64 {
    unsafe {
        let header = c::bench_serialize_fshd(pairs.as_ptr(), pairs.len(), pairs.len() / 2, FSHD_LEN, out.as_mut_ptr(), out.len());
        let (_, rest) = out.split_at_mut(header as usize);
        header + c::bench_serialize_fsse(pairs.as_ptr(), pairs.len(), pairs.len() / 2, 0, 0, rest.as_mut_ptr(), rest.len())
    }
}

/// Both blocks, as the Rust writes them, and ours timed beside.
fn written(figures: &Figures, name: &str, sections: &[FreeSection]) -> Vec<u8> {
    let pairs = pairs(sections);
    let (mut bytes, list) = serialize_file_fsm(sections, 0, FSHD_LEN, 8, 0);
    bytes.extend(list);
    let mut out = vec![0u8; bytes.len()];
    assert_eq!(write(&pairs, &mut out), bytes.len() as u64);
    assert_eq!(out, bytes, "{name}");
    figures.compare(
        &format!("write {name}"),
        || write(&pairs, &mut out) as usize,
        || {
            let (header, list) = serialize_file_fsm(sections, 0, FSHD_LEN, 8, 0);
            header.len() + list.len()
        },
    );
    bytes
}

/// Reads the manager at 0 into a run, and gives how many sections it has.
fn read(by: c::Read, bytes: &[u8], out: &mut [u64]) -> usize {
    unsafe { by(bytes.as_ptr(), bytes.len(), [0].as_ptr(), 1, out.as_mut_ptr(), out.len()) as usize }
}

/// The checksum of a block, over all but its last four bytes.
fn sum(block: &[u8]) -> u32 {
    unsafe { c::jenkins_lookup3(block.as_ptr(), block.len() - 4) }
}

fn blocks(figures: &Figures, name: &str, sections: &[FreeSection]) {
    let pairs = pairs(sections);
    let bytes = written(figures, name, sections);
    let mut out = vec![0u64; pairs.len()];
    figures.compare(
        &format!("read {name}"),
        || read(c::bench_read_sections, &bytes, &mut out),
        || read_persisted_sections(&bytes, &[0], BaseAddress::new(0), 8).unwrap().len(),
    );
    let (header, list) = bytes.split_at(FSHD_LEN as usize);
    let mut strict = vec![0u64; pairs.len()];
    assert_eq!(read(c::bench_read_sections_strict, &bytes, &mut strict), pairs.len() / 2);
    read(c::bench_read_sections, &bytes, &mut out);
    assert_eq!(strict, out, "{name}");
    figures.compare_own(
        &format!("read strictly {name}"),
        || read(c::bench_read_sections, &bytes, &mut out) + (sum(header) ^ sum(list)) as usize,
        || read(c::bench_read_sections_strict, &bytes, &mut strict),
    );
}

fn cut(pairs: &[u64], page: u64, out: &mut [u64]) -> usize {
    unsafe { c::bench_split_at_pages(pairs.as_ptr(), pairs.len(), pairs.len() / 2, page, out.as_mut_ptr(), out.len()) }
}

fn split(figures: &Figures, name: &str, page: u64, sections: &[FreeSection]) {
    let pairs = pairs(sections);
    let mut out = vec![0u64; 2 * split_at_pages(sections, page).len()];
    figures.compare(&format!("cut at pages, {name}"), || cut(&pairs, page, &mut out), || split_at_pages(sections, page).len());
}

/// Counts the pieces of a region of two pages, and of a larger one: no run is lent for them, so the call counts and refuses. The Rust
/// has no count: it makes the pieces.
fn count(figures: &Figures, name: &str, page: u64, size: u64) {
    figures.compare_own(
        &format!("count pieces, 2 pages; {name}"),
        || cut(&[100, 2 * PAGE], PAGE, &mut []),
        || cut(&[100, size], page, &mut []),
    );
}

fn regions(count: u64, step: u64, size: impl Fn(u64) -> u64) -> Vec<FreeSection> {
    (0..count).map(|i| FreeSection { addr: i * step, size: size(i) }).collect()
}

/// Seven in ten sections have one of twelve small sizes, the others are spread evenly over the powers of two from 2^6 to 2^28.
fn archive_size(i: u64) -> u64 {
    let mix = i.wrapping_mul(0x9E37_79B9_7F4A_7C15) >> 20;
    let power = 1 << (6 + mix / 10 % 22);
    if mix % 10 < 7 { 16 + 8 * (mix / 10 % 12) } else { power + mix / 220 % power }
}

/// The same sections in an order that is not that of their addresses.
fn shuffled(sections: Vec<FreeSection>) -> Vec<FreeSection> {
    let count = sections.len() as u64;
    (0..count).map(|i| FreeSection { ..sections[(i * 7919 % count) as usize] }).collect()
}

pub fn run(figures: &Figures) {
    for count in [16, 1000, 10_000] {
        blocks(figures, &format!("{count} equal sizes"), &regions(count, 1 << 20, |_| 512));
        // 7919 is prime, so that the sizes come in no order
        blocks(figures, &format!("{count} distinct sizes"), &regions(count, 1 << 20, |i| 1 + i * 7919 % 10_007));
        blocks(figures, &format!("{count} of 100 sizes"), &regions(count, 1 << 20, |i| 1 + i * 7919 % 100));
    }
    for count in [1000, 10_000] {
        written(figures, &format!("{count} falling sizes"), &regions(count, 1 << 20, |i| 1 + 3 * (count - i)));
        written(figures, &format!("{count} archive sizes"), &regions(count, 1 << 30, archive_size));
        written(figures, &format!("{count} equal sizes out of order"), &shuffled(regions(count, 1 << 20, |_| 512)));
        written(figures, &format!("{count} distinct sizes out of order"), &shuffled(regions(count, 1 << 20, |i| 1 + i * 7919 % 10_007)));
        written(figures, &format!("{count} of 100 sizes out of order"), &shuffled(regions(count, 1 << 20, |i| 1 + i * 7919 % 100)));
    }
    split(figures, "1,000 of a tenth of a page", PAGE, &regions(1000, 8192, |_| PAGE / 10));
    split(figures, "1,000 of three pages and a half", PAGE, &regions(1000, 32_768 + 100, |_| 7 * PAGE / 2));
    split(figures, "1 of 10,000 pages", PAGE, &regions(1, 1, |_| 10_000 * PAGE));
    split(figures, "1,000 of 500 bytes, page 5,000", 5000, &regions(1000, 8192, |_| 500));
    split(figures, "1,000 of 17,500 bytes, page 5,000", 5000, &regions(1000, 32_868, |_| 17_500));
    count(figures, "1,000,000 pages", PAGE, 1_000_000 * PAGE);
    count(figures, "2^63 pages of a byte", 1, 1 << 63);
}
