//! Answers as text.

use crate::error::FormatError;
use crate::free_space_manager::FreeSection;

/// Numbers with spaces between them.
pub fn numbers(numbers: impl IntoIterator<Item = u64>) -> String {
    let words: Vec<String> = numbers.into_iter().map(|n| n.to_string()).collect();
    words.join(" ")
}

/// A run of sections.
pub fn sections(sections: &[FreeSection]) -> String {
    let pairs = sections.iter().flat_map(|s| [s.addr, s.size]);
    numbers(std::iter::once(sections.len() as u64).chain(pairs))
}

pub fn bytes(bytes: &[u8]) -> String {
    if bytes.is_empty() {
        return "-".into();
    }
    bytes.iter().map(|byte| format!("{byte:02x}")).collect()
}

pub fn address(found: Option<u64>) -> String {
    found.map_or("none".into(), |addr| format!("some {addr}"))
}

/// `ok` and what was read, or the refusal.
pub fn outcome<T>(outcome: Result<T, FormatError>, text: impl FnOnce(T) -> String) -> String {
    match outcome {
        Ok(value) => format!("ok {}", text(value)),
        Err(error) => refusal(&error),
    }
}

/// `ok`, or the refusal.
pub fn checked(outcome: Result<(), FormatError>) -> String {
    outcome.map_or_else(|error| refusal(&error), |()| "ok".into())
}

/// A refusal by its number in document 01, with its values. The Rust gives the others for no call of this protocol.
fn refusal(error: &FormatError) -> String {
    match error {
        FormatError::OffsetOverflow { offset, length } => format!("err 4 {offset} {length}"),
        FormatError::UnexpectedEof { expected, available } => format!("err 7 {expected} {available}"),
        FormatError::UnsupportedFileSpaceInfoVersion(byte) => format!("err 8 {byte}"),
        FormatError::InvalidFileSpaceStrategy(byte) => format!("err 9 {byte}"),
        FormatError::InvalidFreeSpaceManager => "err 10".into(),
        FormatError::ChecksumMismatch { expected, computed } => format!("err 11 {expected} {computed}"),
        other => format!("err ? {other:?}"),
    }
}
