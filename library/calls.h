/* Every exported call once, on bytes that are there: what library/painted.c and library/timed.c measure. Only what a call needs
 * first is done before it. Nothing here calls libc, so that a first call can be measured. */
#ifndef BRINE_CALLS_H
#define BRINE_CALLS_H

#include "brinethimble.h"

#define BYTES (1 << 20)

static uint8_t bytes[BYTES], other[BYTES], payload[BYTES], text[6 * BYTES];
static uint64_t records[BRINE_BATCH_PLACES * (BYTES / 16)], tags[BYTES / 16], table[BRINE_TAGS];
static uint64_t out[BRINE_ELEMENT_PLACES], kind[BRINE_VALUES], bits[BRINE_VALUES], kind_too[BRINE_VALUES], bits_too[BRINE_VALUES], frame[4];
static const uint64_t fields[5] = {7, 31, 1, 32767, 255};
static size_t firsts[64], counts[64];
static int64_t positions[2];
static const uint64_t entry[BRINE_ENTRY_PLACES] = {(1ull << 48) - 1, 9, BRINE_GROUP_OTHER, UINT64_MAX};
static volatile uint64_t sink;
/* How many of the bytes a call is given. */
static size_t size = 1 << 16;
/* What calls leave for those after them. */
static uint64_t state[BRINE_STATE], frames[BRINE_STATE_FRAMES], room[BRINE_ROOM_PLACES];

__attribute__((noinline)) static uint32_t nothing(const uint8_t *s, size_t s_len, size_t end, size_t at, uint64_t *places)
{
    places[0] = end + at;
    return s[s_len / 2];
}

static void no_step(void) {}
static void do_nothing(void) { sink = nothing(bytes, size, size, 0, out); }
static void do_version(void) { sink = brine_version(); }
static void do_length(void) { sink = brine_length(bytes, size, 16, out); }
static void do_same_label(void) { sink = brine_same_label(bytes, 16, other, 16); }
static void do_next_key(void) { sink = brine_next_key(bytes, size, size, 1); }
static void do_step(void) { sink = brine_step(bytes, size, size, 0, 0, out); }
static void do_arrive(void) { sink = brine_arrive(bytes, size, SIZE_MAX, 0, 0, out); }
static void do_records(void) { sink = brine_records(bytes, size, size, 0, 0, records, sizeof records / 8, out); }
static void do_arrivals(void) { sink = brine_arrivals(bytes, size, size, 0, 0, records, sizeof records / 8, out); }
static void do_fed_limit(void) { sink = brine_fed_limit(SIZE_MAX, state); }
static void do_fed_end(void) { sink = brine_fed_end(size, state); }
static void opened(void) { sink = brine_fed_limit(SIZE_MAX, state) + brine_feed(state, bytes, 18, text, out); }
static void do_feed(void) { sink = brine_feed(state, bytes + 18, size - 18, text, out); }
static void do_feed_records(void)
{
    sink = brine_feed_records(state, bytes + 18, size - 18, records, sizeof records / 8, text, BYTES, out);
}
static void do_close(void) { sink = brine_close(state, out); }
static void do_tally(void) { sink = brine_tally(bytes, size, firsts, counts, out); }
static void do_run(void) { sink = brine_run(bytes, size, 0, out); }
static void do_item(void) { sink = brine_item(bytes, size, 2, true, 0, out); }
static void do_outline(void) { sink = brine_outline(bytes, size, size, 8, text, sizeof text, out); }
static void do_header(void) { sink = brine_header(bytes, size, out); }
static void do_primer(void) { sink = brine_primer(bytes, size, 0x0e2b, out); }
static void do_primer_table(void) { sink = brine_primer_table(bytes, size, table); }
static void do_primer_in(void) { sink = brine_primer_in(bytes, size, table, 0x0e2b, out); }
static void do_arri_block(void) { sink = brine_arri_block(bytes, size, out); }
static void do_payload(void) { sink = brine_payload(bytes, size, payload, size, out); }
static void do_line(void) { sink = brine_line(bytes, size, 2, 65535, out); }
static void do_descriptor(void) { sink = brine_descriptor(bytes, size, kind, bits); }
static void do_sony_step(void) { sink = brine_sony_step(bytes, size, size, 0, 0, 0, out); }
static void do_arri_step(void) { sink = brine_arri_step(bytes, size, size, 0, 0, 0, out); }
static void do_sony_arrive(void) { sink = brine_sony_arrive(bytes, size, size, 0, 0, 0, out); }
static void do_arri_arrive(void) { sink = brine_arri_arrive(bytes, size, size, 0, 0, 0, out); }
static void do_canon_step(void) { sink = brine_canon_step(bytes, size, size, 0, 0, 0, out); }
static void do_fed_sony_limit(void) { sink = brine_fed_sony_limit(SIZE_MAX, 0, frames); }
static void do_fed_sony_end(void) { sink = brine_fed_sony_end(size, 0, frames); }
static void do_fed_arri_limit(void) { sink = brine_fed_arri_limit(SIZE_MAX, 0, frames); }
static void do_fed_arri_end(void) { sink = brine_fed_arri_end(size, 0, frames); }
static void opened_frames(void)
{
    sink = brine_fed_arri_limit(SIZE_MAX, 0, frames) + brine_feed_frame(frames, bytes, 18, text, out);
}
static void do_feed_frame(void) { sink = brine_feed_frame(frames, bytes + 18, size - 18, text, out); }
static void do_close_frames(void) { sink = brine_close_frames(frames, out); }
static void do_of_dynamic(void) { sink = brine_of_dynamic(bytes, 256, kind, bits); }
static void do_of_alexa35(void) { sink = brine_of_alexa35(bytes, size, kind, bits); }
static void do_arri_values(void) { sink = brine_arri_values(bytes, size, frame, out, kind, bits); }
static void do_takes_step(void)
{
    sink = brine_takes_step(bytes, size, size, other, size, size, 0, 0, 0, out, kind, bits, kind_too, bits_too);
}
static void do_package(void) { sink = brine_package(bytes, size, 0, 0, out); }
static void do_camera(void) { sink = brine_camera(bytes, size, kind, bits); }
static void do_sequence(void) { sink = brine_sequence(bytes, size, out, positions); }
static void do_strict(void) { sink = brine_strict(bytes, size, size, out); }
static void do_random_index(void) { sink = brine_random_index(bytes, size, out); }
static void do_group(void) { sink = brine_group(bytes, size, firsts, 64, 0); }
static void do_index_add(void) { sink = brine_index_add(payload, size, true, size / 16 - 1, entry, out); }
static void do_index_find(void) { sink = brine_index_find(bytes, size, true, size / 16, UINT64_MAX / 2, out); }
static void do_index_columns(void) { sink = brine_index_columns(bytes, size, payload, size, out); }
static void do_index_rows(void) { sink = brine_index_rows(bytes, size, payload, size, out); }
static void do_shared_set_up(void) { sink = brine_shared_set_up(bytes, size, 1000, 2000, room); }
static void set_up(void) { sink = brine_shared_set_up(bytes, size, 1000, 2000, room) + brine_shared_open(room, 0); }
static void do_shared_open(void) { sink = brine_shared_open(room, 1); }
static void both_open(void)
{
    set_up();
    sink = brine_shared_open(room, 1);
}
/* As many records of 17 bytes as the second file may have. */
static void shared_filled(void)
{
    uint64_t record[BRINE_ENTRY_PLACES] = {0, 1, BRINE_GROUP_OTHER, 0};
    both_open();
    while (brine_shared_add(payload, size, true, room, 1, record) == BRINE_DONE)
        record[0] += 17;
}
static void do_shared_add(void) { sink = brine_shared_add(payload, size, true, room, 1, entry); }
static void do_shared_find(void) { sink = brine_shared_find(payload, size, true, room, 1, size / 2, out); }
static void do_shared_close(void) { sink = brine_shared_close(room, 1); }
static void do_pair(void) { sink = brine_pair(bytes, size, 0, SIZE_MAX, out); }
static void do_shortest(void) { sink = brine_shortest(UINT64_MAX); }
static void do_put_length(void) { sink = brine_put_length(UINT64_MAX, 9, payload, size, 1, out); }
static void do_put_klv(void) { sink = brine_put_klv(bytes, 9, bytes, size, text, sizeof text, 1, out); }
static void do_rewrite(void) { sink = brine_rewrite(bytes, size, payload, size, out); }
static void do_put_item(void) { sink = brine_put_item(0xffff, bytes, size < 65535 ? size : 65535, text, sizeof text, 1, out); }
static void do_put_primer(void) { sink = brine_put_primer(tags, size / 16, bytes, size, text, sizeof text, 1, out); }
static void do_put_pack(void) { sink = brine_put_pack(6, fields, 5, payload, size, 1, out); }

/* A call, what is done once for it, and what is done before each. */
#define CALL(name) {"brine_" #name, no_step, no_step, do_##name}
#define ONCE(once, name) {"brine_" #name, once, no_step, do_##name}
#define AFTER(before, name) {"brine_" #name, no_step, before, do_##name}
static const struct {
    const char *name;
    void (*once)(void), (*before)(void), (*call)(void);
} calls[] = {
    CALL(nothing), CALL(version), CALL(length), CALL(same_label), CALL(next_key), CALL(step), CALL(arrive), CALL(records), CALL(arrivals),
    CALL(tally), CALL(fed_limit), CALL(fed_end), AFTER(opened, feed), AFTER(opened, feed_records), AFTER(opened, close), CALL(run),
    CALL(item), CALL(outline), CALL(header), CALL(primer), CALL(primer_table), ONCE(do_primer_table, primer_in), CALL(arri_block),
    CALL(payload), CALL(line), CALL(descriptor), CALL(sony_step), CALL(arri_step), CALL(sony_arrive), CALL(arri_arrive),
    CALL(canon_step), CALL(fed_sony_limit), CALL(fed_sony_end), CALL(fed_arri_limit), CALL(fed_arri_end),
    AFTER(opened_frames, feed_frame), AFTER(opened_frames, close_frames), CALL(of_dynamic), CALL(of_alexa35), CALL(arri_values), CALL(takes_step),
    CALL(package), CALL(camera), CALL(sequence), CALL(strict), CALL(random_index), CALL(pair), CALL(shortest), CALL(put_length),
    CALL(put_klv), CALL(rewrite), CALL(put_item), CALL(put_primer), CALL(put_pack), ONCE(do_tally, group), CALL(index_add),
    CALL(index_find), CALL(index_columns), CALL(index_rows), CALL(shared_set_up), AFTER(set_up, shared_open),
    AFTER(both_open, shared_close), AFTER(both_open, shared_add), ONCE(shared_filled, shared_find),
};
enum { CALLS = sizeof calls / sizeof *calls };

#endif
