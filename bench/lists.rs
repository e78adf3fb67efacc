//! The list calls, at 16, 1,000 and 65,536 regions. Each figure changes the middle (or the last) region and puts it back, so that
//! every iteration meets the same list.

use crate::figures::Figures;
use crate::free_space::FreeList;

mod c {
    unsafe extern "C" {
        pub fn bench_free(run: *mut u64, len: usize, count: usize, total: u64, addr: u64, size: u64) -> u64;
        pub fn bench_take_range(run: *mut u64, len: usize, count: usize, total: u64, addr: u64, size: u64) -> u64;
        pub fn bench_alloc(run: *mut u64, len: usize, count: usize, total: u64, size: u64) -> u64;
        pub fn bench_alloc_whole_units(run: *mut u64, len: usize, count: usize, total: u64, size: u64, unit: u64) -> u64;
        pub fn bench_take_trailing(run: *mut u64, len: usize, count: usize, total: u64, eof: u64) -> u64;
    }
}

const UNIT: u64 = 4096;

/// A list as lent pairs and a record, with room for two regions more. A call answers the total that it leaves; the count is known, since
/// each figure takes a whole region, or bytes from the middle of one, and puts them back.
struct Lent {
    run: Vec<u64>,
    count: usize,
    total: u64,
}

impl Lent {
    fn of(regions: &[(u64, u64)]) -> Self {
        let mut run: Vec<u64> = regions.iter().flat_map(|&(addr, len)| [addr, len]).collect();
        run.extend([0; 4]);
        Lent { run, count: regions.len(), total: sum(regions) }
    }

    fn put(&mut self, addr: u64, len: u64) {
        self.total = unsafe { c::bench_free(self.run.as_mut_ptr(), self.run.len(), self.count, self.total, addr, len) };
    }

    fn free(&mut self, addr: u64, len: u64) {
        self.put(addr, len);
        self.count += 1;
    }

    /// Between two regions, which fold with it into one.
    fn free_between(&mut self, addr: u64, len: u64) {
        self.put(addr, len);
        self.count -= 1;
    }

    fn take_range(&mut self, addr: u64, len: u64) {
        self.total = unsafe { c::bench_take_range(self.run.as_mut_ptr(), self.run.len(), self.count, self.total, addr, len) };
        self.count += 1;
    }

    fn alloc(&mut self, len: u64) {
        self.total = unsafe { c::bench_alloc(self.run.as_mut_ptr(), self.run.len(), self.count, self.total, len) };
        self.count -= 1;
    }

    fn alloc_whole_units(&mut self, len: u64) {
        self.total = unsafe { c::bench_alloc_whole_units(self.run.as_mut_ptr(), self.run.len(), self.count, self.total, len, UNIT) };
        self.count -= 1;
    }

    fn take_trailing(&mut self, eof: u64) {
        self.total = unsafe { c::bench_take_trailing(self.run.as_mut_ptr(), self.run.len(), self.count, self.total, eof) };
        self.count -= 1;
    }
}

fn sum(regions: &[(u64, u64)]) -> u64 {
    regions.iter().map(|&(_, len)| len).sum()
}

fn built(regions: &[(u64, u64)]) -> FreeList {
    let mut list = FreeList::new();
    for &(addr, len) in regions {
        list.free(addr, len);
    }
    list
}

/// Regions of three units, the middle one of two: it is the best fit for two units, and holds one whole unit less than the others.
fn regions(count: usize) -> (Vec<(u64, u64)>, (u64, u64)) {
    let middle = count / 2;
    let all: Vec<(u64, u64)> = (0..count).map(|i| (i as u64 * 4 * UNIT, if i == middle { 2 * UNIT } else { 3 * UNIT })).collect();
    let region = all[middle];
    (all, region)
}

pub fn run(figures: &Figures) {
    for count in [16, 1000, 65536] {
        let (all, (addr, len)) = regions(count);
        let &(last, last_len) = all.last().unwrap();
        let (mut ours, mut rust) = (Lent::of(&all), built(&all));
        figures.compare(
            &format!("alloc and free in the middle, {count}"),
            || {
                ours.alloc(len);
                ours.free(addr, len);
                ours.count == 0
            },
            || {
                rust.alloc(len);
                rust.free(addr, len);
                rust.is_empty()
            },
        );
        figures.compare(
            &format!("whole units and free, {count}"),
            || {
                ours.alloc_whole_units(len);
                ours.free(addr, len);
                ours.count == 0
            },
            || {
                rust.alloc_whole_units(len, UNIT);
                rust.free(addr, len);
                rust.is_empty()
            },
        );
        figures.compare(
            &format!("range and free in the middle, {count}"),
            || {
                ours.take_range(addr + 16, 16);
                ours.free_between(addr + 16, 16);
                ours.count == 0
            },
            || {
                rust.take_range(addr + 16, 16);
                rust.free(addr + 16, 16);
                rust.is_empty()
            },
        );
        figures.compare(
            &format!("trailing and free, {count}"),
            || {
                ours.take_trailing(last + last_len);
                ours.free(last, last_len);
                ours.count == 0
            },
            || {
                rust.take_trailing(last + last_len);
                rust.free(last, last_len);
                rust.is_empty()
            },
        );
        let left: Vec<u64> = rust.sections().into_iter().flat_map(|(addr, len)| [addr, len]).collect();
        assert_eq!(ours.run[..2 * ours.count], left[..]);
        assert_eq!(ours.total, sum(&all));
    }
}
