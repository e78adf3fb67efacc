//! The calls of free_space_manager.rs.

use crate::address::BaseAddress;
use crate::free_space_manager::{self as manager, FreeSection, FsmHeader, PagedManagerPlan};
use crate::text::{bytes, numbers, outcome, sections};
use crate::words::{Bytes, Stop, Words};
use std::ops::Range;

type Sections = Vec<FreeSection>;

pub fn call(name: &str, words: Words) -> Result<Option<String>, Stop> {
    Ok(Some(match name {
        "enc_size" => manager::open::enc_size(words.all()?).to_string(),
        "fshd_len" => manager::fshd_len(words.all()?).to_string(),
        "fsse_len" => {
            let (offset_size, sizes): (u8, Vec<u64>) = words.all()?;
            manager::fsse_len(&sizes, offset_size).to_string()
        }
        "blocks_len" => {
            let (offset_size, of): (u8, Sections) = words.all()?;
            manager::file_fsm_blocks_len(&of, offset_size).to_string()
        }
        "align_up" => {
            let (value, page) = words.all()?;
            manager::align_up(value, page).to_string()
        }
        "split" => {
            let (page, of): (u64, Sections) = words.all()?;
            guard_pieces(&of, page)?;
            sections(&manager::split_at_pages(&of, page))
        }
        "plan" => plan(words)?,
        "serialize" => serialize(words)?,
        "fshd_parse" => parse_fshd(words)?,
        "fsse_parse" => parse_fsse(words)?,
        "read" => read(words)?,
        _ => return Ok(None),
    }))
}

fn plan(words: Words) -> Result<String, Stop> {
    let (offset_size, page, start, meta, raw, unclassified): (u8, u64, u64, Sections, Sections, Sections) = words.all()?;
    guard_pieces(&meta, page)?;
    guard_pieces(&raw, page)?;
    Ok(plan_text(&manager::plan_paged_managers(&meta, &raw, &unclassified, page, start, offset_size)))
}

fn plan_text(plan: &PagedManagerPlan) -> String {
    let mut text = format!("end {} slots {} blocks {}", plan.end_of_managers, numbers(plan.slots), plan.blocks.len());
    for block in &plan.blocks {
        text += &format!(" {} {} {} {}", block.fshd_addr, block.fsse_addr, block.class, sections(&block.sections));
    }
    text
}

fn serialize(words: Words) -> Result<String, Stop> {
    let (offset_size, fshd_addr, fsse_addr, class, of): (u8, u64, u64, u8, Sections) = words.all()?;
    let (fshd, fsse) = manager::serialize_file_fsm(&of, fshd_addr, fsse_addr, offset_size, class);
    Ok(format!("{} {}", bytes(&fshd), bytes(&fsse)))
}

fn parse_fshd(words: Words) -> Result<String, Stop> {
    let (offset_size, Bytes(data)) = words.all()?;
    Ok(outcome(FsmHeader::parse(&data, offset_size), |h| {
        numbers([h.total_space, h.total_sections, u64::from(h.addr_space_bits), h.max_section_size, h.fsse_addr, h.fsse_used])
    }))
}

fn parse_fsse(words: Words) -> Result<String, Stop> {
    let (offset_size, total_sections, addr_space_bits, max_section_size, Bytes(data)) = words.all()?;
    let fsse_used = data.len() as u64;
    let header = FsmHeader { total_space: 0, total_sections, addr_space_bits, max_section_size, fsse_addr: 0, fsse_used };
    guard_count(&header)?;
    Ok(outcome(manager::parse_fsse(&data, &header, offset_size), |read| sections(&read)))
}

fn read(words: Words) -> Result<String, Stop> {
    let (offset_size, base, slots, Bytes(data)): (u8, u64, Vec<u64>, Bytes) = words.all()?;
    let base = BaseAddress::new(base);
    for &slot in &slots {
        let data = base.absolute(slot).ok().and_then(|at| data.get(at as usize..));
        if let Some(Ok(header)) = data.map(|data| FsmHeader::parse(data, offset_size)) {
            guard_count(&header)?;
        }
    }
    Ok(outcome(manager::read_persisted_sections(&data, &slots, base, offset_size), |read| sections(&read)))
}

/// As many pieces are made in memory at most.
const MOST_PIECES: u64 = 1 << 22;

fn guard_pieces(of: &[FreeSection], page: u64) -> Result<(), Stop> {
    let pieces = |s: &FreeSection| s.size.checked_div(page).unwrap_or(0);
    let all = of.iter().map(pieces).fold(0, u64::saturating_add);
    if all > MOST_PIECES { Err(Stop::Guard) } else { Ok(()) }
}

/// Counts of sections for which the Rust asks for more than 2^30 bytes at once, and ends the process where they are not to be had. From
/// 2^59 sections on it panics.
const TOO_MANY: Range<u64> = (1 << 26) + 1..1 << 59;

fn guard_count(header: &FsmHeader) -> Result<(), Stop> {
    if TOO_MANY.contains(&header.total_sections) { Err(Stop::Guard) } else { Ok(()) }
}
