//! Feeds every small buffer in every cutting of at most three cuts, and files in random cuttings, and holds each list to the
//! arriving walk's, and each closing to the finished walk's: `cuttings PIECES [FILE ..]`, buffers being up to so many pieces long.

use std::process::ExitCode;

use brinethimble::{Arriving, Ending, FedRecord, Feeding, Record, Records};

/// What buffers are put together from: a label, beginnings of one, and lengths.
const ALPHABET: [&[u8]; 10] = [
    b"\x06\x0e\x2b\x34\x01\x01\x01\x0d\x0e\x15\x00\x01\x00\x01\x00\x00",
    b"\x06\x0e\x2b\x34",
    b"\x06\x0e\x2b",
    b"\x06",
    b"\x00",
    b"\x01",
    b"\x02",
    b"\x81",
    b"\x80",
    b"\x89",
];

/// How many random cuttings a file is fed in.
const CUTTINGS: u64 = 400;

/// A record as a fed walk has it.
fn fed(record: Record) -> FedRecord {
    FedRecord {
        place: record.place,
        label: *record.label,
        value_place: record.value_place,
        value_length: record.value.len(),
        length_bytes: record.length_bytes,
        shortest: record.shortest,
        passed: record.passed,
    }
}

/// The arriving list of some bytes within a limit.
fn arriving(bytes: &[u8], limit: usize) -> Vec<FedRecord> {
    Arriving::new(limit).certain(bytes).expect("within the limit").map(fed).collect()
}

/// The places and labels of records, so much further on.
fn places(records: &[FedRecord], further: usize) -> impl Iterator<Item = (usize, [u8; 16])> {
    records.iter().map(move |record| (record.place + further, record.label))
}

/// Feeds pieces, and holds the list after each to what the arriving walk lists of what has come by then.
fn feed<'a>(walk: &mut Feeding, pieces: impl IntoIterator<Item = &'a [u8]>, lengths: impl Fn(usize) -> Option<usize>) -> Vec<FedRecord> {
    let (mut list, mut come) = (Vec::new(), 0);
    for piece in pieces {
        list.extend(walk.piece(piece).expect("within the limit"));
        come += piece.len();
        assert!(lengths(come).is_none_or(|length| list.len() == length), "after {come} bytes");
    }
    list
}

/// Holds a closing to the finished list.
fn closes(mut walk: Feeding, bytes: &[u8], list: &[FedRecord]) {
    let finished: Vec<_> = Records::of(bytes).map(fed).collect();
    match walk.close().expect("open") {
        Ending::Clean => assert_eq!(list, finished),
        Ending::Again { from, rest } => {
            assert_eq!(from + rest, bytes.len());
            let more: Vec<_> = Feeding::end(rest).piece(&bytes[from..]).expect("within the end").collect();
            assert!(places(list, 0).chain(places(&more, from)).eq(places(&finished, 0)));
        }
    }
}

/// Feeds a buffer in every cutting of at most three cuts: how many there were.
fn every_cutting(bytes: &[u8]) -> u64 {
    let n = bytes.len();
    let mut cuttings = 0;
    for limit in [n, n + 2, usize::MAX] {
        let whole = arriving(bytes, limit);
        let lengths: Vec<usize> = (0..=n).map(|come| arriving(&bytes[..come], limit).len()).collect();
        for i in 0..=n {
            for j in i..=n {
                for k in j..=n {
                    let mut walk = if limit == n { Feeding::end(n) } else { Feeding::limit(limit) };
                    let pieces = [&bytes[..i], &bytes[i..j], &bytes[j..k], &bytes[k..]];
                    assert_eq!(feed(&mut walk, pieces, |come| Some(lengths[come])), whole, "{bytes:02x?} cut at {i}, {j}, {k}");
                    if k == n {
                        closes(walk, bytes, &whole);
                    }
                    cuttings += 1;
                }
            }
        }
    }
    cuttings
}

/// Every buffer of up to so many pieces, from one on.
fn buffers(bytes: &mut Vec<u8>, pieces: usize, each: &mut impl FnMut(&[u8])) {
    each(bytes);
    if pieces > 0 {
        for piece in ALPHABET {
            let length = bytes.len();
            bytes.extend(piece);
            buffers(bytes, pieces - 1, each);
            bytes.truncate(length);
        }
    }
}

/// Numbers that look random (xorshift).
struct Random(u64);

impl Random {
    fn below(&mut self, most: usize) -> usize {
        self.0 ^= self.0 << 13;
        self.0 ^= self.0 >> 7;
        self.0 ^= self.0 << 17;
        (self.0 % most as u64) as usize
    }
}

/// Feeds a file in random cuttings, of ever other sizes of pieces.
fn random_cuttings(bytes: &[u8], random: &mut Random) {
    for cutting in 0..CUTTINGS {
        let most = [2, 20, 300, 1500, 70_000][random.below(5)];
        let limit = [bytes.len(), bytes.len() + 1000, usize::MAX][random.below(3)];
        let (mut pieces, mut rest) = (Vec::new(), bytes);
        while !rest.is_empty() {
            let (piece, left) = rest.split_at(random.below(most).min(rest.len()));
            pieces.push(piece);
            rest = left;
        }
        let mut walk = Feeding::limit(limit);
        let list = feed(&mut walk, pieces, |_| None);
        assert_eq!(list, arriving(bytes, limit), "cutting {cutting}");
        closes(walk, bytes, &list);
    }
}

fn main() -> ExitCode {
    let mut args = std::env::args().skip(1);
    let Some(Ok(pieces)) = args.next().map(|word| word.parse()) else {
        eprintln!("cuttings PIECES [FILE ..]");
        return ExitCode::from(2);
    };
    let (mut count, mut cuttings) = (0u64, 0u64);
    buffers(&mut Vec::new(), pieces, &mut |bytes| {
        count += 1;
        cuttings += every_cutting(bytes);
    });
    let mut random = Random(0x9e37_79b9_7f4a_7c15);
    let mut files = 0;
    for file in args {
        random_cuttings(&std::fs::read(&file).unwrap_or_else(|error| panic!("{file}: {error}")), &mut random);
        files += 1;
    }
    println!("cuttings: {count} buffers in {cuttings} cuttings, {files} files in {CUTTINGS} each: the arriving walk's lists");
    ExitCode::SUCCESS
}
