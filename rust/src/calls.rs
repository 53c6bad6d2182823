// The library's calls, as include/brinethimble.h declares them; `library/declarations` compares the two with Rattle's own.
#[rustfmt::skip]
unsafe extern "C" {
    fn brine_version() -> u32;
    fn brine_length(s: *const u8, s_len: usize, at: usize, out: &mut [u64; 4]) -> u32;
    fn brine_same_label(a: *const u8, a_len: usize, b: *const u8, b_len: usize) -> bool;
    fn brine_next_key(s: *const u8, s_len: usize, end: usize, from: usize) -> usize;
    fn brine_step(s: *const u8, s_len: usize, end: usize, at: usize, since: usize, out: &mut [u64; 9]) -> u32;
    fn brine_arrive(a: *const u8, a_len: usize, limit: usize, at: usize, since: usize, out: &mut [u64; 9]) -> u32;
    fn brine_records(
        s: *const u8, s_len: usize, end: usize, at: usize, since: usize, records: *mut u64, records_len: usize, out: &mut [u64; 3],
    ) -> u32;
    fn brine_arrivals(
        a: *const u8, a_len: usize, limit: usize, at: usize, since: usize, records: *mut u64, records_len: usize, out: &mut [u64; 3],
    ) -> u32;
    fn brine_fed_limit(limit: usize, state: &mut [u64; 10]) -> u32;
    fn brine_fed_end(end: usize, state: &mut [u64; 10]) -> u32;
    fn brine_feed(
        state: &mut [u64; 10], piece: *const u8, piece_len: usize, label: &mut [u8; 16], out: &mut [u64; 8],
    ) -> u32;
    fn brine_feed_records(
        state: &mut [u64; 10], piece: *const u8, piece_len: usize, records: *mut u64, records_len: usize, labels: *mut u8,
        labels_len: usize, out: &mut [u64; 2],
    ) -> u32;
    fn brine_close(state: &mut [u64; 10], out: &mut [u64; 3]) -> u32;
    fn brine_tally(s: *const u8, s_len: usize, firsts: &mut [usize; 64], counts: &mut [usize; 64], out: &mut [u64; 2]) -> u32;
    fn brine_run(s: *const u8, s_len: usize, at: usize, out: &mut [u64; 7]) -> u32;
    fn brine_item(s: *const u8, s_len: usize, tag: usize, ber: bool, at: usize, out: &mut [u64; 7]) -> u32;
    fn brine_outline(
        s: *const u8, s_len: usize, end: usize, depth: usize, text: *mut u8, text_len: usize, out: &mut [u64; 1],
    ) -> u32;
    fn brine_header(s: *const u8, s_len: usize, out: &mut [u64; 3]) -> u32;
    fn brine_primer(s: *const u8, s_len: usize, tag: u64, out: &mut [u64; 2]) -> u32;
    fn brine_primer_table(s: *const u8, s_len: usize, table: &mut [u64; 65536]) -> u32;
    fn brine_primer_in(s: *const u8, s_len: usize, table: &[u64; 65536], tag: u64, out: &mut [u64; 2]) -> u32;
    fn brine_arri_block(element: *const u8, element_len: usize, out: &mut [u64; 2]) -> u32;
    fn brine_payload(element: *const u8, element_len: usize, payload: *mut u8, payload_len: usize, out: &mut [u64; 1]) -> u32;
    fn brine_line(element: *const u8, element_len: usize, at: usize, left: usize, out: &mut [u64; 5]) -> u32;
    fn brine_descriptor(s: *const u8, s_len: usize, kind: &mut [u64; 32], bits: &mut [u64; 32]) -> u32;
    fn brine_sony_step(s: *const u8, s_len: usize, end: usize, at: usize, since: usize, number: u64, out: &mut [u64; 10]) -> u32;
    fn brine_arri_step(s: *const u8, s_len: usize, end: usize, at: usize, since: usize, number: u64, out: &mut [u64; 10]) -> u32;
    fn brine_sony_arrive(a: *const u8, a_len: usize, limit: usize, at: usize, since: usize, number: u64, out: &mut [u64; 10]) -> u32;
    fn brine_arri_arrive(a: *const u8, a_len: usize, limit: usize, at: usize, since: usize, number: u64, out: &mut [u64; 10]) -> u32;
    fn brine_canon_step(s: *const u8, s_len: usize, end: usize, at: usize, since: usize, number: u64, out: &mut [u64; 10]) -> u32;
    fn brine_fed_sony_limit(limit: usize, first: u64, state: &mut [u64; 13]) -> u32;
    fn brine_fed_sony_end(end: usize, first: u64, state: &mut [u64; 13]) -> u32;
    fn brine_fed_arri_limit(limit: usize, first: u64, state: &mut [u64; 13]) -> u32;
    fn brine_fed_arri_end(end: usize, first: u64, state: &mut [u64; 13]) -> u32;
    fn brine_feed_frame(
        state: &mut [u64; 13], piece: *const u8, piece_len: usize, label: &mut [u8; 16], out: &mut [u64; 9],
    ) -> u32;
    fn brine_close_frames(state: &mut [u64; 13], out: &mut [u64; 4]) -> u32;
    fn brine_of_dynamic(block: *const u8, block_len: usize, kind: &mut [u64; 32], bits: &mut [u64; 32]) -> u32;
    fn brine_of_alexa35(element: *const u8, element_len: usize, kind: &mut [u64; 32], bits: &mut [u64; 32]) -> u32;
    fn brine_arri_values(
        s: *const u8, s_len: usize, frame: &[u64; 4], out: &mut [u64; 1], kind: &mut [u64; 32], bits: &mut [u64; 32],
    ) -> u32;
    fn brine_takes_step(
        main: *const u8, main_len: usize, main_end: usize, backup: *const u8, backup_len: usize, backup_end: usize, main_at: usize,
        backup_at: usize, number: u64, out: &mut [u64; 8], main_kind: &mut [u64; 32], main_bits: &mut [u64; 32],
        backup_kind: &mut [u64; 32], backup_bits: &mut [u64; 32],
    ) -> u32;
    fn brine_package(s: *const u8, s_len: usize, from: usize, end: usize, out: &mut [u64; 6]) -> u32;
    fn brine_camera(s: *const u8, s_len: usize, kind: &mut [u64; 32], bits: &mut [u64; 32]) -> u32;
    fn brine_sequence(s: *const u8, s_len: usize, out: &mut [u64; 8], positions: &mut [i64; 2]) -> u32;
    fn brine_strict(s: *const u8, s_len: usize, end: usize, out: &mut [u64; 1]) -> u32;
    fn brine_random_index(s: *const u8, s_len: usize, out: &mut [u64; 2]) -> u32;
    fn brine_pair(s: *const u8, s_len: usize, at: usize, left: usize, out: &mut [u64; 6]) -> u32;
    fn brine_shortest(n: u64) -> usize;
    fn brine_put_length(n: u64, size: usize, room: *mut u8, room_len: usize, at: usize, out: &mut [u64; 1]) -> u32;
    fn brine_put_klv(
        label: &[u8; 16], size: usize, value: *const u8, value_len: usize, room: *mut u8, room_len: usize, at: usize, out: &mut [u64; 1],
    ) -> u32;
    fn brine_rewrite(s: *const u8, s_len: usize, room: *mut u8, room_len: usize, out: &mut [u64; 1]) -> u32;
    fn brine_put_item(
        tag: u64, value: *const u8, value_len: usize, room: *mut u8, room_len: usize, at: usize, out: &mut [u64; 1],
    ) -> u32;
    fn brine_put_primer(
        tags: *const u64, tags_len: usize, labels: *const u8, labels_len: usize, room: *mut u8, room_len: usize, at: usize,
        out: &mut [u64; 1],
    ) -> u32;
    fn brine_put_pack(
        id: u64, fields: *const u64, fields_len: usize, room: *mut u8, room_len: usize, at: usize, out: &mut [u64; 1],
    ) -> u32;
    fn brine_group(s: *const u8, s_len: usize, firsts: &[usize; 64], groups: usize, at: usize) -> u64;
    fn brine_index_add(
        index: *mut u8, index_len: usize, columns: bool, used: usize, entry: &[u64; 4], out: &mut [u64; 1],
    ) -> u32;
    fn brine_index_find(
        index: *const u8, index_len: usize, columns: bool, used: usize, position: u64, out: &mut [u64; 6],
    ) -> u32;
    fn brine_index_columns(rows: *const u8, rows_len: usize, room: *mut u8, room_len: usize, out: &mut [u64; 1]) -> u32;
    fn brine_index_rows(columns: *const u8, columns_len: usize, room: *mut u8, room_len: usize, out: &mut [u64; 1]) -> u32;
    fn brine_shared_set_up(index: *const u8, index_len: usize, a: usize, b: usize, room: &mut [u64; 7]) -> u32;
    fn brine_shared_open(room: &mut [u64; 7], file: u64) -> u32;
    fn brine_shared_close(room: &mut [u64; 7], file: u64) -> u32;
    fn brine_shared_add(
        index: *mut u8, index_len: usize, columns: bool, room: &mut [u64; 7], file: u64, entry: &[u64; 4],
    ) -> u32;
    fn brine_shared_find(
        index: *const u8, index_len: usize, columns: bool, room: &[u64; 7], file: u64, position: u64, out: &mut [u64; 6],
    ) -> u32;
}
