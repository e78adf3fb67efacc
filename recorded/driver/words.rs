//! The words of a call, read as what its function takes.

use crate::free_space_manager::FreeSection;
use std::str::Split;

/// Why a call has no answer of the Rust.
pub enum Stop {
    /// The line breaks the protocol.
    Bad,
    /// The call would not return, or could end the process, which nothing can catch.
    Guard,
}

#[derive(Clone)]
pub struct Words<'a>(Split<'a, char>);

impl<'a> Words<'a> {
    pub fn of(line: &'a str) -> Self {
        Words(line.split(' '))
    }

    /// All words that are left.
    pub fn all<T: Read>(mut self) -> Result<T, Stop> {
        let value = T::read(&mut self)?;
        if self.0.next().is_some() { Err(Stop::Bad) } else { Ok(value) }
    }

    fn next(&mut self) -> Result<&'a str, Stop> {
        self.0.next().ok_or(Stop::Bad)
    }
}

/// What words can be read as.
pub trait Read: Sized {
    fn read(words: &mut Words) -> Result<Self, Stop>;
}

macro_rules! read_numbers {
    ($($number:ty)+) => {$(
        impl Read for $number {
            fn read(words: &mut Words) -> Result<Self, Stop> {
                words.next()?.parse().map_err(|_| Stop::Bad)
            }
        }
    )+};
}
read_numbers!(u8 u16 u32 u64 usize);

macro_rules! read_tuple {
    ($($part:ident)+) => {
        impl<$($part: Read),+> Read for ($($part,)+) {
            fn read(words: &mut Words) -> Result<Self, Stop> {
                Ok(($($part::read(words)?,)+))
            }
        }
    };
}
read_tuple!(A B);
read_tuple!(A B C);
read_tuple!(A B C D);
read_tuple!(A B C D E);
read_tuple!(A B C D E F);
read_tuple!(A B C D E F G);

/// No word.
impl Read for () {
    fn read(_: &mut Words) -> Result<Self, Stop> {
        Ok(())
    }
}

impl Read for FreeSection {
    fn read(words: &mut Words) -> Result<Self, Stop> {
        let (addr, size) = Read::read(words)?;
        Ok(FreeSection { addr, size })
    }
}

/// A run: its count, and then each.
impl<T: Read> Read for Vec<T> {
    fn read(words: &mut Words) -> Result<Self, Stop> {
        let count = usize::read(words)?;
        (0..count).map(|_| T::read(words)).collect()
    }
}

/// Bytes in hexadecimal, `-` for none.
pub struct Bytes(pub Vec<u8>);

impl Read for Bytes {
    fn read(words: &mut Words) -> Result<Self, Stop> {
        let word = words.next()?;
        if word == "-" {
            return Ok(Bytes(Vec::new()));
        }
        let digit = |byte: u8| char::from(byte).to_digit(16).map(|digit| digit as u8);
        let byte = |two: &[u8]| match *two {
            [high, low] => Some(16 * digit(high)? + digit(low)?),
            _ => None,
        };
        let bytes: Option<Vec<u8>> = word.as_bytes().chunks(2).map(byte).collect();
        bytes.map(Bytes).ok_or(Stop::Bad)
    }
}
