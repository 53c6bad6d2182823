//! A file's partitions, to jump to, by its random index pack: `partitions FILE` prints for each pair its body stream's number, its
//! offset, and `partition` where one stands there, else `-`.

use brinethimble::RandomIndex;

fn main() -> Result<(), Box<dyn std::error::Error>> {
    let path = std::env::args().nth(1).ok_or("partitions FILE")?;
    for pair in RandomIndex::of(&std::fs::read(path)?)? {
        println!("{} {} {}", pair.stream, pair.offset, if pair.partition { "partition" } else { "-" });
    }
    Ok(())
}
