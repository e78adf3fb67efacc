//! The calls of checksum.rs, bytes.rs, convert.rs and address.rs, and of a region.

use crate::address::BaseAddress;
use crate::bytes::ensure_len;
use crate::checksum::{self, jenkins_lookup3, verify_trailing};
use crate::convert::{is_undefined_addr, slice_range};
use crate::free_space::open as region;
use crate::text::{checked, numbers, outcome};
use crate::words::{Bytes, Stop, Words};

/// The bytes that `ensure_len` may be asked about.
const LONGEST: usize = 1 << 20;

pub fn call(name: &str, words: Words) -> Result<Option<String>, Stop> {
    Ok(Some(match name {
        "region_end" => {
            let (addr, len) = words.all()?;
            region::end(addr, len).to_string()
        }
        "interior" => {
            let (addr, len, unit) = words.all()?;
            region::aligned_interior(addr, len, unit).map_or("none".into(), |(start, span)| format!("some {start} {span}"))
        }
        "lookup3" => {
            let Bytes(data) = words.all()?;
            jenkins_lookup3(&data).to_string()
        }
        "hashlittle" => {
            let (initval, Bytes(data)) = words.all()?;
            checksum::open::hashlittle(&data, initval).to_string()
        }
        "verify" => {
            let Bytes(data) = words.all()?;
            checked(verify_trailing(&data))
        }
        "ensure_len" => {
            let (len, offset, needed) = words.all()?;
            if len > LONGEST {
                return Err(Stop::Bad);
            }
            checked(ensure_len(&vec![0; len], offset, needed))
        }
        "slice_range" => {
            let (offset, len) = words.all()?;
            outcome(slice_range(offset, len), |range| numbers([range.start as u64, range.end as u64]))
        }
        "undef" => {
            let (addr, offset_size) = words.all()?;
            u8::from(is_undefined_addr(addr, offset_size)).to_string()
        }
        "absolute" => {
            let (base, stored): (u64, u64) = words.all()?;
            outcome(BaseAddress::new(base).absolute(stored), |at| at.to_string())
        }
        _ => return Ok(None),
    }))
}
