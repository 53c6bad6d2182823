/* Every call that takes a buffer, with a length of 0: it answers the same with NULL as with a pointer, and reads and writes nothing
 * there. C99. A line of the table is a call; what it answers is its status and its arrays. */
#include <stdio.h>

#include "brinethimble.h"

/* What a call answers: its own number, and the arrays that it may write. */
struct answer {
    uint64_t status, out[BRINE_STATE_FRAMES], kind[BRINE_VALUES], bits[BRINE_VALUES], state[BRINE_STATE_FRAMES];
    uint64_t other_kind[BRINE_VALUES], other_bits[BRINE_VALUES];
    size_t firsts[BRINE_GROUPS], counts[BRINE_GROUPS];
    int64_t positions[BRINE_POSITION_PLACES];
    uint8_t label[BRINE_LABEL];
};

static const uint64_t frame[BRINE_VALUED_PLACES], entry[BRINE_ENTRY_PLACES] = {0, 1, 0, 0};
static uint64_t table[BRINE_TAGS];
static struct answer a;

/* The call, with p for each buffer of bytes and q for each of numbers. */
#define CALL(name, ...) static void do_##name(uint8_t *p, uint64_t *q) { (void)p; (void)q; a.status = brine_##name(__VA_ARGS__); }
CALL(length, p, 0, 0, a.out)
CALL(same_label, p, 0, p, 0)
CALL(next_key, p, 0, 0, 0)
CALL(step, p, 0, 0, 0, 0, a.out)
CALL(arrive, p, 0, 9, 0, 0, a.out)
CALL(records, p, 0, 0, 0, 0, q, 0, a.out)
CALL(arrivals, p, 0, 9, 0, 0, q, 0, a.out)
CALL(tally, p, 0, a.firsts, a.counts, a.out)
CALL(feed, a.state, p, 0, a.label, a.out)
CALL(feed_records, a.state, p, 0, q, 0, p, 0, a.out)
CALL(run, p, 0, 0, a.out)
CALL(item, p, 0, 2, true, 0, a.out)
CALL(outline, p, 0, 0, 8, p, 0, a.out)
CALL(header, p, 0, a.out)
CALL(primer, p, 0, 7, a.out)
CALL(primer_table, p, 0, table)
CALL(primer_in, p, 0, table, 7, a.out)
CALL(arri_block, p, 0, a.out)
CALL(payload, p, 0, p, 0, a.out)
CALL(line, p, 0, 2, 1, a.out)
CALL(descriptor, p, 0, a.kind, a.bits)
CALL(sony_step, p, 0, 0, 0, 0, 0, a.out)
CALL(arri_step, p, 0, 0, 0, 0, 0, a.out)
CALL(canon_step, p, 0, 0, 0, 0, 0, a.out)
CALL(sony_arrive, p, 0, 9, 0, 0, 0, a.out)
CALL(arri_arrive, p, 0, 9, 0, 0, 0, a.out)
CALL(feed_frame, a.state, p, 0, a.label, a.out)
CALL(of_dynamic, p, 0, a.kind, a.bits)
CALL(of_alexa35, p, 0, a.kind, a.bits)
CALL(arri_values, p, 0, frame, a.out, a.kind, a.bits)
CALL(takes_step, p, 0, 0, p, 0, 0, 0, 0, 0, a.out, a.kind, a.bits, a.other_kind, a.other_bits)
CALL(package, p, 0, 0, 0, a.out)
CALL(camera, p, 0, a.kind, a.bits)
CALL(sequence, p, 0, a.out, a.positions)
CALL(strict, p, 0, 0, a.out)
CALL(random_index, p, 0, a.out)
CALL(pair, p, 0, 0, 1, a.out)
CALL(put_length, 5, 1, p, 0, 0, a.out)
CALL(put_klv, a.label, 1, p, 0, p, 0, 0, a.out)
CALL(rewrite, p, 0, p, 0, a.out)
CALL(put_item, 5, p, 0, p, 0, 0, a.out)
CALL(put_primer, q, 0, p, 0, p, 0, 0, a.out)
CALL(put_pack, 6, q, 0, p, 0, 0, a.out)
CALL(group, p, 0, a.firsts, 1, 0)
CALL(index_add, p, 0, true, 0, entry, a.out)
CALL(index_find, p, 0, true, 0, 5, a.out)
CALL(index_columns, p, 0, p, 0, a.out)
CALL(index_rows, p, 0, p, 0, a.out)
CALL(shared_set_up, p, 0, 0, 0, a.state)
CALL(shared_add, p, 0, true, a.state, 0, entry)
CALL(shared_find, p, 0, true, a.state, 0, 5, a.out)

#define ROW(name) {"brine_" #name, do_##name}
static const struct {
    const char *name;
    void (*call)(uint8_t *p, uint64_t *q);
} calls[] = {
    ROW(length), ROW(same_label), ROW(next_key), ROW(step), ROW(arrive), ROW(records), ROW(arrivals), ROW(tally), ROW(feed),
    ROW(feed_records), ROW(run), ROW(item), ROW(outline), ROW(header), ROW(primer), ROW(primer_table), ROW(primer_in), ROW(arri_block),
    ROW(payload), ROW(line), ROW(descriptor), ROW(sony_step), ROW(arri_step), ROW(canon_step), ROW(sony_arrive), ROW(arri_arrive), ROW(feed_frame),
    ROW(of_dynamic), ROW(of_alexa35), ROW(arri_values), ROW(package), ROW(camera), ROW(sequence), ROW(strict), ROW(random_index), ROW(takes_step),
    ROW(pair), ROW(put_length), ROW(put_klv), ROW(rewrite), ROW(put_item), ROW(put_primer), ROW(put_pack), ROW(group),
    ROW(index_add), ROW(index_find), ROW(index_columns), ROW(index_rows), ROW(shared_set_up), ROW(shared_add), ROW(shared_find),
};

/* What a call answers on arrays that were opened as walks and rooms are. */
static struct answer answered(void (*call)(uint8_t *p, uint64_t *q), uint8_t *p, uint64_t *q)
{
    memset(&a, 0, sizeof a);
    brine_fed_limit(9, a.state);
    call(p, q);
    return a;
}

int main(void)
{
    int wrong = brine_version() != BRINE_VERSION;
    for (size_t i = 0; i < sizeof calls / sizeof *calls; i++) {
        uint8_t byte = 0xa5;
        uint64_t number = 0xa5;
        struct answer there = answered(calls[i].call, &byte, &number), nowhere = answered(calls[i].call, NULL, NULL);
        if (memcmp(&there, &nowhere, sizeof there) != 0 || byte != 0xa5 || number != 0xa5) {
            fprintf(stderr, "%s answers otherwise with NULL\n", calls[i].name);
            wrong++;
        }
        puts(calls[i].name);
    }
    return wrong != 0;
}
