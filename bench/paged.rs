//! A small allocation of metadata and its free by the paged calls, at 16 and 1,000 regions: beside `alloc` and `free` of the one list, and
//! beside the calls on the file's three lists that they are made of. Each round puts all back, so that every one meets the same memory.

use crate::figures::Figures;

mod c {
    type Round = unsafe extern "C" fn(*mut u64, usize, *mut u64, usize, *mut u64, usize, *mut u8, usize, *const u64, usize, u64, u64) -> u64;

    // Both rounds take the same.
    macro_rules! rounds {
        ($($name:ident),*) => {
            unsafe extern "C" {
                $(fn $name(
                    metadata: *mut u64,
                    metadata_len: usize,
                    raw: *mut u64,
                    raw_len: usize,
                    unclassified: *mut u64,
                    unclassified_len: usize,
                    marks: *mut u8,
                    marks_len: usize,
                    numbers: *const u64,
                    numbers_len: usize,
                    page: u64,
                    len: u64,
                ) -> u64;)*
            }
        };
    }

    rounds!(bench_paged, bench_list_calls);

    unsafe extern "C" {
        fn bench_alloc(run: *mut u64, len: usize, count: usize, total: u64, size: u64) -> u64;
        fn bench_free(run: *mut u64, len: usize, count: usize, total: u64, addr: u64, size: u64) -> u64;
    }

    /// `alloc` of a whole metadata region and its `free`, on that list alone; answers the total that is left.
    pub fn own_calls(on: &mut super::Lent, addr: u64, len: u64) -> u64 {
        let [metadata, ..] = &mut on.runs;
        let [count, total, ..] = on.numbers;
        unsafe {
            let left = bench_alloc(metadata.as_mut_ptr(), metadata.len(), count as usize, total, len);
            bench_free(metadata.as_mut_ptr(), metadata.len(), count as usize - 1, left, addr, len)
        }
    }

    pub const PAGED: Round = bench_paged;
    pub const LIST_CALLS: Round = bench_list_calls;

    /// One round on lent memory.
    pub fn round(by: Round, on: &mut super::Lent, page: u64, len: u64) -> u64 {
        let [metadata, raw, unclassified] = &mut on.runs;
        unsafe {
            by(
                metadata.as_mut_ptr(),
                metadata.len(),
                raw.as_mut_ptr(),
                raw.len(),
                unclassified.as_mut_ptr(),
                unclassified.len(),
                on.marks.as_mut_ptr(),
                on.marks.len(),
                on.numbers.as_ptr(),
                on.numbers.len(),
                page,
                len,
            )
        }
    }
}

const PAGE: u64 = 4096;
const STEP: u64 = 64;
const SHARED: u64 = 2;

/// Three lists with room for two regions more each, a mark for each page, and count and total of each list.
#[derive(Clone, PartialEq, Debug)]
pub struct Lent {
    runs: [Vec<u64>; 3],
    marks: Vec<u8>,
    numbers: [u64; 6],
}

impl Lent {
    /// Metadata regions of 16 bytes, the middle one of 8; after their pages those that no kind has.
    fn new(count: u64) -> Self {
        let pages = (count * STEP).div_ceil(PAGE);
        let metadata: Vec<(u64, u64)> = (0..count).map(|i| (i * STEP, if i == count / 2 { 8 } else { 16 })).collect();
        let lists = [metadata, vec![], vec![(pages * PAGE, SHARED * PAGE)]];
        let mut marks = vec![1; pages as usize];
        marks.extend([0; SHARED as usize]);
        let total = |list: &[(u64, u64)]| list.iter().map(|&(_, len)| len).sum::<u64>();
        let [m, r, u] = &lists;
        let numbers = [m.len() as u64, total(m), r.len() as u64, total(r), u.len() as u64, total(u)];
        let runs = lists.map(|list| list.into_iter().flat_map(|(addr, len)| [addr, len]).chain([0; 4]).collect());
        Lent { runs, marks, numbers }
    }
}

pub fn run(figures: &Figures) {
    for count in [16, 1000] {
        let before = Lent::new(count);
        let (mut paged, mut own) = (before.clone(), before.clone());
        let addr = c::round(c::PAGED, &mut paged, PAGE, 8);
        assert_eq!(addr, count / 2 * STEP);
        assert_eq!(c::own_calls(&mut own, addr, 8), before.numbers[1]);
        assert_eq!((&paged, &own), (&before, &before));
        figures.compare_own(
            &format!("paged, beside the one list's calls, {count}"),
            || c::own_calls(&mut own, addr, 8),
            || c::round(c::PAGED, &mut paged, PAGE, 8),
        );
        assert_eq!((&paged, &own), (&before, &before));
        // No region has 32 bytes.
        for (name, len) in [("in its kind's list", 8), ("in a new page", 32)] {
            let (mut paged, mut lists) = (before.clone(), before.clone());
            let given = c::round(c::PAGED, &mut paged, PAGE, len);
            assert_eq!(given, c::round(c::LIST_CALLS, &mut lists, PAGE, len));
            assert_ne!(given, u64::MAX);
            assert_eq!((&paged, &lists), (&before, &before));
            figures.compare_own(
                &format!("paged, {name}, {count}"),
                || c::round(c::LIST_CALLS, &mut lists, PAGE, len),
                || c::round(c::PAGED, &mut paged, PAGE, len),
            );
            assert_eq!((&paged, &lists), (&before, &before));
        }
    }
}
