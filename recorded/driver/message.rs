//! The calls of file_space_info.rs.

use crate::file_space_info::{FileSpaceInfo, FileSpaceStrategy};
use crate::text::{bytes, numbers, outcome};
use crate::words::{Bytes, Read, Stop, Words};

pub fn call(name: &str, words: Words) -> Result<Option<String>, Stop> {
    Ok(Some(match name {
        "msg_parse" => {
            let (offset_size, length_size, Bytes(data)) = words.all()?;
            // The Rust would read addresses of no byte without end.
            if offset_size == 0 {
                return Err(Stop::Guard);
            }
            outcome(FileSpaceInfo::parse(&data, offset_size, length_size), |message| text(&message))
        }
        "msg_ser" => bytes(&words.all::<FileSpaceInfo>()?.serialize()),
        "msg_managers" => {
            let (threshold, page, eoa, slots): (u64, u64, u64, Vec<u64>) = words.all()?;
            let slots: [u64; 12] = slots.try_into().map_err(|_| Stop::Bad)?;
            bytes(&FileSpaceInfo::persistent_managers(FileSpaceStrategy::Page, threshold, page, slots, eoa).serialize())
        }
        _ => return Ok(None),
    }))
}

fn text(message: &FileSpaceInfo) -> String {
    let fields = [
        u64::from(message.strategy.to_code()),
        u64::from(message.persist),
        message.threshold,
        message.page_size,
        u64::from(message.page_end_meta_threshold),
        message.eoa_pre_fsm,
        message.manager_addrs.len() as u64,
    ];
    numbers(fields.into_iter().chain(message.manager_addrs.iter().copied()))
}

impl Read for FileSpaceInfo {
    fn read(words: &mut Words) -> Result<Self, Stop> {
        let (strategy, persist, threshold, page_size, page_end_meta_threshold, eoa_pre_fsm, manager_addrs) = Read::read(words)?;
        let persist: u8 = persist;
        let persist = match persist {
            0 => false,
            1 => true,
            _ => return Err(Stop::Bad),
        };
        Ok(FileSpaceInfo { strategy, persist, threshold, page_size, page_end_meta_threshold, eoa_pre_fsm, manager_addrs })
    }
}

impl Read for FileSpaceStrategy {
    fn read(words: &mut Words) -> Result<Self, Stop> {
        match u8::read(words)? {
            0 => Ok(FileSpaceStrategy::FsmAggr),
            1 => Ok(FileSpaceStrategy::Page),
            2 => Ok(FileSpaceStrategy::Aggr),
            3 => Ok(FileSpaceStrategy::None),
            _ => Err(Stop::Bad),
        }
    }
}
