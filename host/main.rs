//! A host program: the three functions, and the cutting into records, against published or computed values.

mod free_space;
mod split_records;

use free_space::{enc_size, fshd_len, jenkins_lookup3};
use split_records::{FreeSection, split_at_pages};

fn main() {
    // lookup3.c's published values with an initial value of 0.
    let four_score = b"Four score and seven years ago";
    assert_eq!(jenkins_lookup3(b""), 0xdead_beef);
    assert_eq!(jenkins_lookup3(four_score), 0x1777_0551);
    println!("jenkins_lookup3(\"\") = {:08x}", jenkins_lookup3(b""));
    println!("jenkins_lookup3(\"Four score and seven years ago\") = {:08x}", jenkins_lookup3(four_score));

    // Every power of 256 is where one more byte is needed.
    for bytes in 1..=8usize {
        let first = if bytes == 1 { 0 } else { 256u64.pow(bytes as u32 - 1) };
        let last = if bytes == 8 { u64::MAX } else { 256u64.pow(bytes as u32) - 1 };
        assert_eq!((enc_size(first), enc_size(last)), (bytes, bytes));
    }
    println!("enc_size(0), enc_size(255), enc_size(256), enc_size(2^64 - 1) = {}, {}, {}, {}", enc_size(0), enc_size(255), enc_size(256), enc_size(u64::MAX));

    for offset_size in 0..=255u8 {
        let expected = (1..=8).contains(&offset_size).then(|| 74 + u64::from(offset_size));
        assert_eq!(fshd_len(offset_size), expected);
    }
    println!("fshd_len(1), fshd_len(8), fshd_len(9) = {:?}, {:?}, {:?}", fshd_len(1), fshd_len(8), fshd_len(9));

    split_records_test();
}

fn section(addr: u64, size: u64) -> FreeSection {
    FreeSection { addr, size }
}

fn split_records_test() {
    // Document 01's M8; a record after the pieces stays.
    let kept = section(7, 8);
    let mut out = [kept; 4];
    assert_eq!(split_at_pages(&[4000, 5000], 1, 4096, &mut out), Ok(3));
    assert_eq!(out, [section(4000, 96), section(4096, 4096), section(8192, 808), kept]);
    let text: Vec<String> = out[..3].iter().map(|s| format!("({}, {})", s.addr, s.size)).collect();
    println!("split_at_pages([(4000, 5000)], page 4096) = {}", text.join(", "));

    // The refusals, by their numbers: page 0, an odd run, a count above the run's, an end above 2^64 - 1, a record too few; at once for 2^63 pieces.
    let mut out = [kept; 2];
    for (sections, count, page, number) in [
        (&[4000, 96][..], 1, 0, 2),
        (&[4000, 96, 1], 1, 4096, 3),
        (&[4000, 96], 2, 4096, 3),
        (&[u64::MAX, 1], 1, 4096, 4),
        (&[4000, 5000], 1, 4096, 14),
        (&[0, 1 << 63], 1, 1, 14),
    ] {
        assert_eq!(split_at_pages(sections, count, page, &mut out), Err(number));
        assert_eq!(out, [kept; 2]);
    }

    // Small sections, empty ones among them, against a cut byte by byte.
    for page in 1..=9 {
        for addr in 0..20 {
            for size in 0..20 {
                let mut out = [kept; 64];
                let n = split_at_pages(&[addr, size, 40, 0, addr + 1, 5], 3, page, &mut out).unwrap();
                let mut expected: Vec<FreeSection> = Vec::new();
                for (from, bytes) in [(addr, size), (40, 0), (addr + 1, 5)] {
                    for b in from..from + bytes {
                        match expected.last_mut() {
                            Some(s) if b > from && b % page != 0 => s.size += 1,
                            _ => expected.push(section(b, 1)),
                        }
                    }
                }
                assert_eq!(out[..n], expected);
                assert!(out[n..].iter().all(|s| *s == kept));
            }
        }
    }
}
