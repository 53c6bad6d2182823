//! L3: the tally's groups of the published walk's records.

use crate::line::put_hex;
use crate::words::put_number;
use crate::words::walk::records;

/// The most groups.
const MOST: usize = 64;

/// Whether a label is a set's key whose byte 5 says how its items are coded: byte 4 is 02h, byte 5 is 13h, 43h or 53h.
fn codes_items(label: &[u8; 16]) -> bool {
    label[4] == 0x02 && matches!(label[5], 0x13 | 0x43 | 0x53)
}

/// Whether two labels are in one group: they agree in all but byte 7, and where both are such keys in all but bytes 5 and 7.
fn same_group(a: &[u8; 16], b: &[u8; 16]) -> bool {
    let both = codes_items(a) && codes_items(b);
    (0..16).all(|i| a[i] == b[i] || i == 7 || i == 5 && both)
}

/// `tally`: the groups with their counts, in order of first appearance and at most 64, and the count of the others.
pub fn tally(out: &mut String, bytes: &[u8]) {
    let mut groups: Vec<([u8; 16], u64)> = Vec::new();
    let mut other = 0;
    for record in records(bytes, bytes.len() as u64) {
        match groups.iter().position(|(first, _)| same_group(first, &record.label)) {
            Some(group) => groups[group].1 += 1,
            None if groups.len() < MOST => groups.push((record.label, 1)),
            None => other += 1,
        }
    }
    for (label, count) in groups {
        put_hex(out, &label);
        out.push(',');
        put_number(out, count);
        out.push(';');
    }
    out.push('|');
    put_number(out, other);
}

#[cfg(test)]
mod tests {
    use crate::asked::tests::shows;

    /// An empty record whose label has some bytes at 4 to 8, as hex.
    fn record(bytes: &str) -> String {
        format!("060e2b34{bytes}0d0101010101280000")
    }

    /// The label of such a record.
    fn label(bytes: &str) -> String {
        record(bytes)[..32].to_string()
    }

    #[test]
    fn one_set_in_two_codings_is_one_group() {
        for (a, b) in [("02530101", "02130101"), ("02430102", "02130101"), ("02530101", "02530107")] {
            shows(&format!("tally {}{}", record(a), record(b)), &format!("{},2;|0", label(a)));
        }
    }

    #[test]
    fn other_labels_stay_apart() {
        for (a, b) in [("02530101", "02630101"), ("01530101", "01130101"), ("02530101", "02050101"), ("02530101", "02530201")] {
            shows(&format!("tally {}{}", record(a), record(b)), &format!("{},1;{},1;|0", label(a), label(b)));
        }
    }

    #[test]
    fn a_set_in_another_coding_is_in_its_group_where_no_more_groups_are() {
        let kinds: Vec<String> = (0..65).map(|kind| if kind == 3 { "02530101".into() } else { format!("0101{kind:02x}01") }).collect();
        let records: String = kinds.iter().map(|kind| record(kind)).collect();
        let groups: String =
            kinds[..64].iter().map(|kind| format!("{},{};", label(kind), if kind == "02530101" { 2 } else { 1 })).collect();
        shows(&format!("tally {records}{}", record("02130101")), &format!("{groups}|1"));
    }
}
