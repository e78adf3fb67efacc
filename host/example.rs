//! The three functions from Rust.

mod free_space;

use free_space::{enc_size, fshd_len, jenkins_lookup3};

fn main() {
    let sum = jenkins_lookup3(b"Four score and seven years ago");
    println!("{sum:08x} {} {:?}", enc_size(256), fshd_len(8));
}
