//! The calls of free_space.rs, on three lists.

use crate::free_space::{FreeList, trailing_run_start};
use crate::text::{address, numbers};
use crate::words::{Read, Stop, Words};

pub struct Lists([FreeList; 3]);

impl Lists {
    pub fn new() -> Self {
        Lists([FreeList::new(), FreeList::new(), FreeList::new()])
    }

    pub fn call(&mut self, name: &str, words: Words) -> Result<String, Stop> {
        match name {
            "tstart" => Ok(trailing_run_start(self.0.iter(), words.all()?).to_string()),
            "new" => self.on(words, |list, ()| {
                *list = FreeList::new();
                "ok".into()
            }),
            "free" => self.on(words, |list, (addr, len)| {
                list.free(addr, len);
                "ok".into()
            }),
            "take" => self.on(words, |list, (addr, len)| {
                list.take_range(addr, len);
                "ok".into()
            }),
            "alloc" => self.on(words, |list, len| address(list.alloc(len))),
            "allocw" => self.on(words, |list, (len, unit)| address(list.alloc_whole_units(len, unit))),
            "trail" => self.on(words, |list, eof| address(list.take_trailing(eof))),
            "largest" => self.on(words, |list, ()| list.largest().to_string()),
            "largestw" => self.on(words, |list, unit| list.largest_whole_units(unit).to_string()),
            "isempty" => self.on(words, |list, ()| u8::from(list.is_empty()).to_string()),
            "sections" => self.on(words, |list, ()| run(&list.sections())),
            _ => Err(Stop::Bad),
        }
    }

    /// Answers from the list that the first word names, with the others as arguments. The call works on a copy, so that a panic leaves
    /// the list as it was.
    fn on<T: Read>(&mut self, words: Words, call: impl FnOnce(&mut FreeList, T) -> String) -> Result<String, Stop> {
        let (k, arguments): (usize, T) = words.all()?;
        let kept = self.0.get_mut(k).ok_or(Stop::Bad)?;
        let mut list = kept.clone();
        let text = call(&mut list, arguments);
        *kept = list;
        Ok(text)
    }
}

fn run(regions: &[(u64, u64)]) -> String {
    let pairs = regions.iter().flat_map(|&(addr, len)| [addr, len]);
    numbers(std::iter::once(regions.len() as u64).chain(pairs))
}
