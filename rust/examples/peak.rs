//! Peak memory with the library on a file that is held: `peak primer FILE` looks tags up in it as a primer pack's value, `peak
//! file FILE` walks it and looks them up in each of its primer packs. One line: how many were found, and the peak of memory in
//! use and of memory asked for, in kB.

use std::fs;

use brinethimble::{Primer, Records, same_label};

const PRIMER: [u8; 16] = *b"\x06\x0e\x2b\x34\x02\x05\x01\x01\x0d\x01\x02\x01\x01\x05\x01\x00";
const TAGS: [u16; 3] = [0, 0x8000, u16::MAX];

fn main() -> std::io::Result<()> {
    let arguments: Vec<String> = std::env::args().skip(1).collect();
    let found = match arguments.iter().map(String::as_str).collect::<Vec<_>>()[..] {
        ["primer", path] => found_in(&fs::read(path)?),
        ["file", path] => {
            let file = fs::read(path)?;
            Records::of(&file).filter(|record| same_label(record.label, &PRIMER)).map(|record| found_in(record.value)).sum()
        }
        _ => panic!("peak primer FILE or peak file FILE"),
    };
    let status = fs::read_to_string("/proc/self/status")?;
    let kilobytes = |name| status.lines().find_map(|line| line.strip_prefix(name)?.split_whitespace().next());
    println!("{found} {} {}", kilobytes("VmHWM:").unwrap_or("?"), kilobytes("VmPeak:").unwrap_or("?"));
    Ok(())
}

/// How many of the tags a primer pack's value has.
fn found_in(primer: &[u8]) -> usize {
    TAGS.iter().filter(|tag| Primer(primer).get(**tag).is_some()).count()
}
