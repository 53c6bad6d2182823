//! Real files (tests/files): at the strict gate, and the pairs of their random index packs.

use std::path::Path;

use brinethimble::{Pair, RandomIndex, Records, Refusal, strict};

/// The real files, by name.
fn files() -> Vec<(String, Vec<u8>)> {
    let folder = Path::new(env!("CARGO_MANIFEST_DIR")).join("../tests/files");
    let paths = folder.read_dir().unwrap().map(|entry| entry.unwrap().path());
    let files = paths.filter(|path| path.extension().is_some_and(|kind| kind == "mxf"));
    files.map(|path| (path.display().to_string(), std::fs::read(path).unwrap())).collect()
}

#[test]
fn real_files_are_accepted_whole_and_no_byte_less() {
    for (name, file) in files() {
        let last = Records::of(&file).last().unwrap().place;
        assert_eq!(strict(&file, file.len()), Ok(()), "{name}");
        assert_eq!(strict(&file, file.len() - 1), Err(Refusal::PastEnd { place: last }), "{name}");
        assert_eq!(strict(&file, file.len() + 1), Err(Refusal::EndPastBuffer), "{name}");
    }
    assert_eq!(files().len(), 4);
}

#[test]
fn the_pairs_of_real_files_are_their_partitions() {
    let is_partition =
        |label: &[u8; 16]| label.starts_with(b"\x06\x0e\x2b\x34\x02\x05\x01\x01\x0d\x01\x02\x01\x01") && (2..=4).contains(&label[13]);
    for (name, file) in files() {
        let pairs: Vec<Pair> = RandomIndex::of(&file).unwrap().collect();
        let partitions: Vec<u64> =
            Records::of(&file).filter(|record| is_partition(record.label)).map(|record| record.place as u64).collect();
        assert!(pairs.iter().all(|pair| pair.partition), "{name}");
        assert_eq!(pairs.iter().map(|pair| pair.offset).collect::<Vec<_>>(), partitions, "{name}");
    }
}
