// The Rust's eight files as modules, included at the root of a program, since they name each other from there.

extern crate alloc;

mod address;
mod bytes;
mod checksum;
mod convert;
mod error;
mod file_space_info;
mod free_space;
mod free_space_manager;
mod stubs;

use stubs::{message_type, source};
