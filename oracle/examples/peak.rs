//! The published Rust's peak memory on a file: `peak reader FILE` reads it as the ARRI reader does, `peak primer FILE` holds it
//! and reads it as a primer pack's value. One line: what was found, and the peak of memory in use and of memory asked for, in kB.

use std::fs::{self, File};

use oracle::arri::mxf::reach;

fn main() -> std::io::Result<()> {
    let arguments: Vec<String> = std::env::args().skip(1).collect();
    let found = match arguments.iter().map(String::as_str).collect::<Vec<_>>()[..] {
        ["reader", path] => reach::read(&mut File::open(path)?, fs::metadata(path)?.len()),
        ["primer", path] => reach::primer(&fs::read(path)?).len(),
        _ => panic!("peak reader FILE or peak primer FILE"),
    };
    let status = fs::read_to_string("/proc/self/status")?;
    let kilobytes = |name| status.lines().find_map(|line| line.strip_prefix(name)?.split_whitespace().next());
    println!("{found} {} {}", kilobytes("VmHWM:").unwrap_or("?"), kilobytes("VmPeak:").unwrap_or("?"));
    Ok(())
}
