//! Answers calls by the Rust's functions: for each line of the protocol (recorded/README.md) one line. Where the Rust gives no answer
//! the line is `panic` (a list is then as it was before), `guard` (the call is not made, since it would not return or could end the
//! process) or `bad` (the line breaks the protocol).
#![allow(dead_code)]

include!("files.rs");

mod blocks;
mod fields;
mod lists;
mod message;
mod text;
mod words;

use lists::Lists;
use std::io::{BufRead, BufWriter, Write};
use std::panic::{AssertUnwindSafe, catch_unwind};
use words::{Stop, Words};

fn main() -> std::io::Result<()> {
    std::panic::set_hook(Box::new(|_| ()));
    let mut lists = Lists::new();
    let mut out = BufWriter::new(std::io::stdout().lock());
    for line in std::io::stdin().lock().lines() {
        let line = line?;
        if !line.is_empty() && !line.starts_with('#') {
            writeln!(out, "{}", answer(&mut lists, &line))?;
        }
    }
    out.flush()
}

fn answer(lists: &mut Lists, line: &str) -> String {
    match catch_unwind(AssertUnwindSafe(|| call(lists, line))) {
        Ok(Ok(text)) => text,
        Ok(Err(Stop::Bad)) => "bad".into(),
        Ok(Err(Stop::Guard)) => "guard".into(),
        Err(_) => "panic".into(),
    }
}

/// Each module answers its calls and gives none for others.
fn call(lists: &mut Lists, line: &str) -> Result<String, Stop> {
    let (name, rest) = line.split_once(' ').ok_or(Stop::Bad)?;
    let words = Words::of(rest);
    for answer in [blocks::call, message::call, fields::call] {
        if let Some(text) = answer(name, words.clone())? {
            return Ok(text);
        }
    }
    lists.call(name, words)
}
