//! The plan of a paged file's managers, and the beginning of a save beside the Rust's plan, blocks and message, at 1,000 and 65,536 regions
//! in three lists, of few sizes and of many.

use crate::figures::Figures;
use crate::file_space_info::{FileSpaceInfo, FileSpaceStrategy};
use crate::free_space_manager::{FreeSection, plan_paged_managers, serialize_file_fsm};

mod c {
    unsafe extern "C" {
        pub fn bench_plan_paged_managers(
            meta: *const u64,
            meta_len: usize,
            raw: *const u64,
            raw_len: usize,
            unclassified: *const u64,
            unclassified_len: usize,
            page: u64,
            start: u64,
            out: *mut u64,
            room: usize,
        ) -> u64;
        pub fn bench_save_begin(
            meta: *const u64,
            meta_len: usize,
            raw: *const u64,
            raw_len: usize,
            unclassified: *const u64,
            unclassified_len: usize,
            totals: *const u64,
            totals_len: usize,
            page: u64,
            start: u64,
            image: *const u8,
            image_len: usize,
            scratch: *mut u8,
            scratch_len: usize,
        ) -> u64;
    }
}

const PAGE: u64 = 4096;
const STEP: u64 = 12_288;
const MESSAGE_LEN: u64 = 125;

/// Three lists whose regions take turns by address, and where the blocks begin.
struct Lists {
    of: [Vec<FreeSection>; 3],
    pairs: [Vec<u64>; 3],
    totals: [u64; 3],
    start: u64,
}

impl Lists {
    fn new(count: u64, size: impl Fn(u64) -> u64) -> Self {
        let of: [Vec<FreeSection>; 3] = [0, 1, 2].map(|k| {
            (0..count)
                .filter(|i| i % 3 == k)
                .map(|i| FreeSection { addr: PAGE + i * STEP + i % 512, size: size(i) })
                .collect()
        });
        let pairs = [0, 1, 2].map(|k| of[k].iter().flat_map(|s| [s.addr, s.size]).collect());
        let totals = [0, 1, 2].map(|k| of[k].iter().map(|s| s.size).sum());
        Lists { of, pairs, totals, start: PAGE + count * STEP }
    }

    fn plan(&self, out: &mut [u64]) -> u64 {
        let [m, r, u] = &self.pairs;
        unsafe {
            c::bench_plan_paged_managers(
                m.as_ptr(), m.len(), r.as_ptr(), r.len(), u.as_ptr(), u.len(), PAGE, self.start, out.as_mut_ptr(), out.len(),
            )
        }
    }

    fn begin(&self, image: &[u8], scratch: &mut [u8]) -> u64 {
        let [m, r, u] = &self.pairs;
        unsafe {
            c::bench_save_begin(
                m.as_ptr(), m.len(), r.as_ptr(), r.len(), u.as_ptr(), u.len(), self.totals.as_ptr(), self.totals.len(), PAGE, self.start,
                image.as_ptr(), image.len(), scratch.as_mut_ptr(), scratch.len(),
            )
        }
    }

    /// The same bytes by the Rust: the blocks of its plan, and the message.
    fn rust(&self) -> Vec<u8> {
        let [m, r, u] = &self.of;
        let plan = plan_paged_managers(m, r, u, PAGE, self.start, 8);
        let mut bytes = Vec::new();
        for block in &plan.blocks {
            let (header, list) = serialize_file_fsm(&block.sections, block.fshd_addr, block.fsse_addr, 8, block.class);
            bytes.extend(header);
            bytes.extend(list);
        }
        bytes.extend(FileSpaceInfo::persistent_managers(FileSpaceStrategy::Page, 1, PAGE, plan.slots, self.start).serialize());
        bytes
    }
}

pub fn run(figures: &Figures) {
    for count in [1000, 65_536] {
        for (name, lists) in [
            ("few sizes", Lists::new(count, |i| [300, 5000, 9000][(i / 3 % 3) as usize])),
            ("many sizes", Lists::new(count, |i| 1 + i * 7919 % 10_007)),
        ] {
            if !figures.wants("plan") && !figures.wants("save") {
                return;
            }
            let bytes = lists.rust();
            let blocks = bytes.len() as u64 - MESSAGE_LEN;
            let mut image = vec![0u8; (lists.start + blocks) as usize];
            image[0] = 1;
            let mut scratch = vec![0u8; bytes.len()];
            assert_eq!(lists.begin(&image, &mut scratch), blocks);
            assert!(scratch == bytes, "{count}, {name}");
            let [m, r, u] = &lists.of;
            let mut out = vec![0u64; 16 * count as usize];
            figures.compare(
                &format!("plan {count} regions, {name}"),
                || lists.plan(&mut out),
                || plan_paged_managers(m, r, u, PAGE, lists.start, 8).end_of_managers,
            );
            figures.compare(
                &format!("save {count} regions, {name}"),
                || lists.begin(&image, &mut scratch),
                || lists.rust().len() as u64 - MESSAGE_LEN,
            );
        }
    }
}
