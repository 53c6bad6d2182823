/* Brinethimble: the records, tables and frames of MXF files, as they land.
 *
 * Every call answers on every input, and ends. None allocates, writes but to the room that is lent to it, or calls back; none
 * keeps anything between calls but in a state that the host lends. So any number of threads may call at once, each with states of
 * its own. Buffers stay the caller's; an answer is a place in the buffer that was handed in, or in the file, never a pointer.
 *
 * A buffer is a pointer and a length, in bytes or in numbers. The pointer must be to that many that can be read (for lent room:
 * written). Where the length is 0 it may be NULL: nothing is read or written there. An array with a stated size must be there. Lent
 * room must not overlap the buffer or other lent room.
 *
 * Every `out` has a fixed number of places and a fixed meaning for each: its comment tells them in their order, and they and their
 * number have names. A call that is not refused writes all of them; a place that the answer does not use is 0. A refusal writes nothing,
 * but for BRINE_NO_ROOM's length and the place of brine_strict's refusals.
 *
 * How much memory may a stranger's bytes make a call ask for? None. docs/BOUNDS.md has the stack and the time of each call.
 *
 * This is C99, and C++. It is for 64-bit machines.
 */
#ifndef BRINETHIMBLE_H
#define BRINETHIMBLE_H

#include <stdbool.h>
#include <stddef.h>
#include <stdint.h>
#include <string.h>

#ifdef __cplusplus
extern "C" {
#endif

/* A place in a buffer is a size_t, in an out a number of 64 bits: where the two differ this does not compile. */
typedef char brine_size_has_64_bits[sizeof(size_t) == 8 ? 1 : -1];

/* ---- The header itself ----------------------------------------------------------------------------------------------- */

/* The version, as CHANGELOG.md names it, and as one number that grows with it. */
#define BRINE_VERSION_MAJOR 0
#define BRINE_VERSION_MINOR 1
#define BRINE_VERSION_PATCH 0
#define BRINE_VERSION (BRINE_VERSION_MAJOR * 1000000 + BRINE_VERSION_MINOR * 1000 + BRINE_VERSION_PATCH)

/* The version of the library that is linked, as BRINE_VERSION has it: where the two differ, this header is not that library's. */
uint32_t brine_version(void);

/* Which header this is. A host is built with the header of the library that it links: a call writes as many places as its own
 * header says. In 2 the arrays are longer than in the first one: a length has its form, a record also the bytes that were
 * passed before it, and steps take and hand back the place where walking last went on. */
#define BRINE_HEADER 2

/* ---- Status: what a call returns ------------------------------------------------------------------------------------- */

/* Done. "Nothing found", "over" and "waits" are answers, too, and have this number. */
#define BRINE_DONE 0u
/* The end is larger than the buffer, or more records are stated than an index holds. A cursor stays as it was. */
#define BRINE_END_PAST_BUFFER 1u
/* More bytes have arrived than the limit; a piece would pass the limit or the known end of a fed walk. The cursor, or the state,
 * stays as it was. */
#define BRINE_PAST_LIMIT 2u
/* The payload, the text, the turned index or what is to be written is longer than the lent room. The length that is needed is answered,
 * the room is not written. */
#define BRINE_NO_ROOM 3u
/* An item of a descriptor runs past its set. */
#define BRINE_ITEM_PAST_SET 4u
/* A fed walk is closed already; or it is closed before its known end has come. The state stays as it was. */
#define BRINE_CLOSED 5u
/* The depth of an outline is not 1 to 8. */
#define BRINE_DEPTH 6u
/* brine_random_index: the file or the pack's size is below 21 bytes, or the size is above the file's. */
#define BRINE_PACK_SIZE 7u
/* brine_random_index: where the size says, another label than the pack's stands. */
#define BRINE_PACK_LABEL 8u
/* brine_random_index: the pack's length is cut or none, not 4 more than a multiple of 12, or does not end at the file's end. */
#define BRINE_PACK_LENGTH 9u
/* brine_strict: fewer than 17 bytes are left at the place that is answered. */
#define BRINE_TOO_SHORT 10u
/* brine_strict: no key starts there. */
#define BRINE_NO_KEY 11u
/* brine_strict: the length of the record there starts with 89h or above. */
#define BRINE_NO_LENGTH 12u
/* brine_strict: the length of the record there starts with 80h. */
#define BRINE_INDEFINITE 13u
/* brine_strict: the length or the value of the record there is not wholly before the end. */
#define BRINE_PAST_END 14u
/* A field does not fit: what is written does not fit its bits, the length not its size, the size is not 1 to 9, the pack not 1 to 20; in an
 * index a size outside 1 to 9, or a group neither below BRINE_GROUPS nor BRINE_GROUP_OTHER. */
#define BRINE_NO_FIT 15u
/* A record for an index starts at 2^48 or behind it. */
#define BRINE_START 16u
/* A record for an index begins before the last one's end. */
#define BRINE_ORDER 17u
/* All room of an index is in use; of a shared one, no entry is free beyond what the other file has or its share reserves. */
#define BRINE_FULL 18u
/* A shared index has no such file, it is not open, or it is opened twice. */
#define BRINE_FILE 19u
/* The shares of two files are above the whole index. */
#define BRINE_SHARES 20u

/* What a status says, in words that do not change; of a number that is none, that. */
static inline const char *brine_status_text(uint32_t status)
{
    switch (status) {
    case BRINE_DONE: return "done";
    case BRINE_END_PAST_BUFFER: return "more is stated than the buffer holds";
    case BRINE_PAST_LIMIT: return "more bytes have arrived than the limit";
    case BRINE_NO_ROOM: return "more room is needed";
    case BRINE_ITEM_PAST_SET: return "an item runs past its set";
    case BRINE_CLOSED: return "the walk is closed, or its known end has not come";
    case BRINE_DEPTH: return "the depth is not 1 to 8";
    case BRINE_PACK_SIZE: return "no size of a random index pack ends the file";
    case BRINE_PACK_LABEL: return "no random index pack's label stands where the size says";
    case BRINE_PACK_LENGTH: return "the random index pack's length does not fit";
    case BRINE_TOO_SHORT: return "fewer than 17 bytes are left";
    case BRINE_NO_KEY: return "no key starts here";
    case BRINE_NO_LENGTH: return "the record has no length";
    case BRINE_INDEFINITE: return "the length of the record is 80h";
    case BRINE_PAST_END: return "the record is not wholly before the end";
    case BRINE_NO_FIT: return "a field does not fit";
    case BRINE_START: return "the record starts at 2^48 or behind it";
    case BRINE_ORDER: return "the record begins before the last one's end";
    case BRINE_FULL: return "all room is in use";
    case BRINE_FILE: return "there is no such file, or it is not open, or opened twice";
    case BRINE_SHARES: return "the shares are above the whole";
    default: return "no status";
    }
}

/* ---- Found: the first place of an out -------------------------------------------------------------------------------- */

#define BRINE_NOTHING 0u
#define BRINE_FOUND 1u
/* brine_length: bytes of the length are missing. */
#define BRINE_CUT 2u
/* brine_canon_step: a value of Canon's two labels, which is no frame. */
#define BRINE_GIVEN 2u

/* ---- Values: a kind and 64 bits -------------------------------------------------------------------------------------- */

/* A descriptor, a frame and a camera each have a list of values. A call writes two arrays, with the same 32 places for every
 * list: `kind` has what a value is, `bits` the value itself. The places of a list are named below; those behind them are
 * BRINE_KIND_NOTHING. */
#define BRINE_VALUES 32

/* What the bits of a kind are; 0 where the kind says it all. */
#define BRINE_KIND_NOTHING 0u
#define BRINE_KIND_CODE 1u /* a number that a table of names is asked for */
#define BRINE_KIND_WHOLE 2u /* a whole number */
#define BRINE_KIND_SIGNED 3u /* a signed number, in two's complement: brine_signed */
#define BRINE_KIND_F32 4u /* a float's bits: brine_float */
#define BRINE_KIND_F64 5u /* a double's bits: brine_double */
#define BRINE_KIND_FLAG 6u /* 1 or 0 */
#define BRINE_KIND_INFINITY 7u
#define BRINE_KIND_LINEAR 8u /* a T-stop's number on the linear scale, of which the host makes the figure */
#define BRINE_KIND_OFF 9u
#define BRINE_KIND_CLOSE 10u
#define BRINE_KIND_OTHERS 11u
#define BRINE_KIND_AUTO 12u
#define BRINE_KIND_MANUAL 13u
#define BRINE_KIND_RESERVED 14u

/* The float that has the low 32 bits. */
static inline float brine_float(uint64_t bits)
{
    uint32_t low = (uint32_t)bits;
    float x;
    memcpy(&x, &low, sizeof x);
    return x;
}

/* The double that has the bits. */
static inline double brine_double(uint64_t bits)
{
    double x;
    memcpy(&x, &bits, sizeof x);
    return x;
}

/* The signed number that has the bits. */
static inline int64_t brine_signed(uint64_t bits)
{
    int64_t n;
    memcpy(&n, &bits, sizeof n);
    return n;
}

/* ---- Lengths and labels ---------------------------------------------------------------------------------------------- */

/* How many bytes a label has. */
#define BRINE_LABEL 16

/* The BER length at a place of s.
 * out: found (BRINE_FOUND, BRINE_CUT, or BRINE_NOTHING where these bytes are no length), number, bytes that it took (1 to 9),
 * shortest (1), or 0 where fewer bytes would have held the number; 80h is not the shortest form of 0, 00h is. */
#define BRINE_LENGTH_FOUND 0
#define BRINE_LENGTH_NUMBER 1
#define BRINE_LENGTH_BYTES 2
#define BRINE_LENGTH_SHORTEST 3
#define BRINE_LENGTH_PLACES 4
uint32_t brine_length(const uint8_t *s, size_t s_len, size_t at, uint64_t out[BRINE_LENGTH_PLACES]);

/* Whether two labels are the same: both have 16 bytes and agree in all but the byte at 7. */
bool brine_same_label(const uint8_t *a, size_t a_len, const uint8_t *b, size_t b_len);

/* The first place from `from` on where 06 0e 2b 34 stand wholly before `end`, else `end`; `from` itself where that is at or
 * past the end. An end past the buffer is the buffer's. */
size_t brine_next_key(const uint8_t *s, size_t s_len, size_t end, size_t from);

/* ---- The walk: records of a file ------------------------------------------------------------------------------------- */

/* A cursor is two places: `at`, where the walk stands, and `since`, where walking last went on. The first are 0 and 0. What was
 * passed before a record are the bytes from `since` to its place. Behind a record walking goes on at its value's end. A `since`
 * past `at` counts as `at`.
 *
 * A step of the finished walk of s with an end, from a cursor.
 * out: found, record's place (its 16 label bytes start there), value's place, value's length, next cursor, bytes of its length
 * field, shortest (1) or not (0): as brine_length; bytes passed before the record, next cursor's `since`.
 * BRINE_NOTHING: the walk is over, and the next cursor is where; its `since` is the one handed in, at most `at`.
 * An empty value may begin past the end. Status: BRINE_DONE, BRINE_END_PAST_BUFFER. */
#define BRINE_RECORD_FOUND 0
#define BRINE_RECORD_PLACE 1
#define BRINE_RECORD_VALUE 2
#define BRINE_RECORD_LENGTH 3
#define BRINE_RECORD_NEXT 4
#define BRINE_RECORD_LENGTH_BYTES 5
#define BRINE_RECORD_SHORTEST 6
#define BRINE_RECORD_PASSED 7
#define BRINE_RECORD_SINCE 8
#define BRINE_RECORD_PLACES 9
uint32_t brine_step(const uint8_t *s, size_t s_len, size_t end, size_t at, size_t since, uint64_t out[BRINE_RECORD_PLACES]);

/* A step of the arriving walk: a is all that has arrived so far of an upload of at most `limit` bytes. A record that is
 * found is in the finished list of every file that starts with these bytes, and no later byte unsays it.
 * out: as brine_step. BRINE_NOTHING: the walk waits; call again from the next cursor, both its places, when more bytes are in.
 * Status: BRINE_DONE, BRINE_PAST_LIMIT. */
uint32_t brine_arrive(const uint8_t *a, size_t a_len, size_t limit, size_t at, size_t since, uint64_t out[BRINE_RECORD_PLACES]);

/* Steps of the finished walk until the lent room is full or the walk is over. Each record takes
 * BRINE_BATCH_PLACES places of `records`: its place, its value's place, its value's length, bytes of its length field, shortest
 * (1) or not (0), bytes passed before it; places past the last record keep their contents.
 * out: how many records were put, next cursor, its `since`. The walk is over if there was room for more (records_len /
 * BRINE_BATCH_PLACES).
 * Status: BRINE_DONE, BRINE_END_PAST_BUFFER. */
#define BRINE_BATCH_PLACE 0
#define BRINE_BATCH_VALUE 1
#define BRINE_BATCH_LENGTH 2
#define BRINE_BATCH_LENGTH_BYTES 3
#define BRINE_BATCH_SHORTEST 4
#define BRINE_BATCH_PASSED 5
#define BRINE_BATCH_PLACES 6
#define BRINE_RECORDS_PUT 0
#define BRINE_RECORDS_NEXT 1
#define BRINE_RECORDS_SINCE 2
#define BRINE_RECORDS_PLACES 3
uint32_t brine_records(const uint8_t *s, size_t s_len, size_t end, size_t at, size_t since, uint64_t *records,
                       size_t records_len, uint64_t out[BRINE_RECORDS_PLACES]);

/* The same for the arriving walk. Status: BRINE_DONE, BRINE_PAST_LIMIT. */
uint32_t brine_arrivals(const uint8_t *a, size_t a_len, size_t limit, size_t at, size_t since, uint64_t *records,
                        size_t records_len, uint64_t out[BRINE_RECORDS_PLACES]);

/* The records of the finished walk of all of s, in groups in order of first appearance: each group's first record's place in
 * `firsts`, how many it has in `counts`; places past the last group keep their contents. Records with the same label are in one
 * group, and so are two sets (label byte 4 is 02h, byte 5 is 13h, 43h or 53h) that differ in byte 5: it only says how their
 * items are coded.
 * out: how many groups there are (at most BRINE_GROUPS), how many records are in none. */
#define BRINE_GROUPS 64
#define BRINE_TALLY_GROUPS 0
#define BRINE_TALLY_REST 1
#define BRINE_TALLY_PLACES 2
uint32_t brine_tally(const uint8_t *s, size_t s_len, size_t firsts[BRINE_GROUPS], size_t counts[BRINE_GROUPS],
                     uint64_t out[BRINE_TALLY_PLACES]);

/* ---- A fed walk: records of a file that comes in pieces ---------------------------------------------------------------- */

/* A fed walk never has the whole file. The host lends a state, which each call updates, and feeds the file's bytes in order, in
 * pieces of any length. The records that come of them are those of the arriving walk, however the pieces are cut, with places in
 * the file; their bytes are the host's to keep. States go by value: a copy of one is a walk of its own. What a place of a state
 * is for is the library's; a state that no call made is answered without harm. */
#define BRINE_STATE 10

/* Opens a walk of at most `limit` bytes. Status: BRINE_DONE. */
uint32_t brine_fed_limit(size_t limit, uint64_t state[BRINE_STATE]);

/* Opens a walk of exactly `end` bytes. Status: BRINE_DONE. */
uint32_t brine_fed_end(size_t end, uint64_t state[BRINE_STATE]);

/* Feeds a piece. It is taken up to the byte that completes a record, or all of it; what was not taken is fed next.
 * out: found, bytes taken, record's place, value's place, value's length, bytes of its length field, shortest (1) or not (0), bytes
 * passed before the record. Where one was found its label is written to `label`, which else keeps its contents.
 * Status: BRINE_DONE; BRINE_CLOSED; BRINE_PAST_LIMIT, and none of the piece is taken. */
#define BRINE_FED_FOUND 0
#define BRINE_FED_TAKEN 1
#define BRINE_FED_PLACE 2
#define BRINE_FED_VALUE 3
#define BRINE_FED_LENGTH 4
#define BRINE_FED_LENGTH_BYTES 5
#define BRINE_FED_SHORTEST 6
#define BRINE_FED_PASSED 7
#define BRINE_FED_PLACES 8
uint32_t brine_feed(uint64_t state[BRINE_STATE], const uint8_t *piece, size_t piece_len, uint8_t label[BRINE_LABEL],
                    uint64_t out[BRINE_FED_PLACES]);

/* Feeds a piece until all of it is taken or the lent room is full. Each record takes BRINE_BATCH_PLACES places of `records`, as
 * with brine_records, and its label 16 bytes of `labels`; places past the last record keep their contents. There is room for as
 * many as both have it.
 * out: how many records were put, bytes taken. Where that is not all of the piece, what is left is fed next.
 * Status: BRINE_DONE; BRINE_CLOSED; BRINE_PAST_LIMIT, and none of the piece is taken. */
#define BRINE_FILLED_PUT 0
#define BRINE_FILLED_TAKEN 1
#define BRINE_FILLED_PLACES 2
uint32_t brine_feed_records(uint64_t state[BRINE_STATE], const uint8_t *piece, size_t piece_len, uint64_t *records,
                            size_t records_len, uint8_t *labels, size_t labels_len, uint64_t out[BRINE_FILLED_PLACES]);

/* Closes a walk.
 * out: BRINE_CLEAN: the records that were found are the finished list of all that was fed. Or BRINE_AGAIN: the last key's value is
 * not complete; the value's place, and how many bytes came from there on. A new walk with that known end is to be fed these: its
 * records, so much further on, complete the finished list.
 * Status: BRINE_DONE, BRINE_CLOSED. */
#define BRINE_CLEAN 1u
#define BRINE_AGAIN 2u
#define BRINE_CLOSE_SAYS 0
#define BRINE_CLOSE_FROM 1
#define BRINE_CLOSE_REST 2
#define BRINE_CLOSE_PLACES 3
uint32_t brine_close(uint64_t state[BRINE_STATE], uint64_t out[BRINE_CLOSE_PLACES]);

/* ---- Inside values: runs and local items ----------------------------------------------------------------------------- */

/* A step of a run of KLVs: 16 bytes of any kind, a length, a value. It searches nothing, so it passes no byte.
 * out: the first seven of brine_step. BRINE_NOTHING: no whole one is left; the next cursor is the one handed in. */
#define BRINE_KLV_FOUND 0
#define BRINE_KLV_PLACE 1
#define BRINE_KLV_VALUE 2
#define BRINE_KLV_LENGTH 3
#define BRINE_KLV_NEXT 4
#define BRINE_KLV_LENGTH_BYTES 5
#define BRINE_KLV_SHORTEST 6
#define BRINE_KLV_PLACES 7
uint32_t brine_run(const uint8_t *s, size_t s_len, size_t at, uint64_t out[BRINE_KLV_PLACES]);

/* A step over the items of a set: a tag of `tag` bytes, then a BER length (ber) or one of two bytes, then the value.
 * By the set's label byte 5: 53h is (2, false), 13h is (2, true), 43h is (1, false).
 * out: as brine_run; the tag stands at the record's place. A length of two bytes is 2 bytes and shortest. */
uint32_t brine_item(const uint8_t *s, size_t s_len, size_t tag, bool ber, size_t at, uint64_t out[BRINE_KLV_PLACES]);

/* ---- An outline: what a file is made of, without its values ----------------------------------------------------------- */

/* The outline of the file s with an end, to a depth of 1 to 8, as text at the start of `text`. Each item is a line: its level, its
 * label or tag in hex, its length; its own items come after it, one level deeper. At level 1 are the records of brine_step. A
 * set opens (label byte 4 is 02h, byte 5 is 53h, 13h or 43h), and so does the run in an item 88h of a 43h set, down to the depth.
 * Bytes behind the last whole item of a set or run show as `rest` and a count. The other values are leaves and don't show: two
 * files that differ only in leaf values of the first have the same outline.
 * out: the text's length. Bytes past it keep their contents.
 * Status: BRINE_DONE; BRINE_END_PAST_BUFFER; BRINE_DEPTH; BRINE_NO_ROOM, with the length that is needed in out and nothing in
 * the text. The first of them that fits, in this order. */
#define BRINE_TEXT_LENGTH 0
#define BRINE_TEXT_PLACES 1
uint32_t brine_outline(const uint8_t *s, size_t s_len, size_t end, size_t depth, uint8_t *text, size_t text_len,
                       uint64_t out[BRINE_TEXT_PLACES]);

/* ---- Tables ---------------------------------------------------------------------------------------------------------- */

/* The header part of a file whose first bytes are s.
 * out: found, place, length (cut to the buffer). */
#define BRINE_HEADER_FOUND 0
#define BRINE_HEADER_PLACE 1
#define BRINE_HEADER_LENGTH 2
#define BRINE_HEADER_PLACES 3
uint32_t brine_header(const uint8_t *s, size_t s_len, uint64_t out[BRINE_HEADER_PLACES]);

/* The label of a local tag, looked up in the primer pack's value s. The pack's count is not trusted; the last of equal tags
 * is the answer. It searches s, as long as s is: for one look-up. For more, and always where every item of a set is looked up, which may
 * be as long as a stranger likes, use brine_primer_table once and brine_primer_in for each (docs/SPEED.md has the times).
 * out: found, place of its 16 bytes in s. */
#define BRINE_PRIMER_FOUND 0
#define BRINE_PRIMER_PLACE 1
#define BRINE_PRIMER_PLACES 2
uint32_t brine_primer(const uint8_t *s, size_t s_len, uint64_t tag, uint64_t out[BRINE_PRIMER_PLACES]);

/* A table over the primer pack's value s, for brine_primer_in: filled in one pass over s. What was in it before does not count, so that
 * one table serves any number of primers, one after the other, and is never cleared. (In C a new one must be written once, with
 * anything, before it is handed in: calloc does.) */
#define BRINE_TAGS 65536
uint32_t brine_primer_table(const uint8_t *s, size_t s_len, uint64_t table[BRINE_TAGS]);

/* What brine_primer answers of the same s, in a time that does not depend on it. With any other table the answer is nothing, or the
 * label of some entry of s with that tag.
 * out: as brine_primer. */
uint32_t brine_primer_in(const uint8_t *s, size_t s_len, const uint64_t table[BRINE_TAGS], uint64_t tag,
                         uint64_t out[BRINE_PRIMER_PLACES]);

/* ARRI's 256 bytes in the value of a picture metadata element.
 * out: found, place. */
#define BRINE_BLOCK_FOUND 0
#define BRINE_BLOCK_PLACE 1
#define BRINE_BLOCK_PLACES 2
uint32_t brine_arri_block(const uint8_t *element, size_t element_len, uint64_t out[BRINE_BLOCK_PLACES]);

/* The payload of an ST 436 element, at the start of `payload`. It is never longer than the element.
 * out: its length. Bytes past it keep their contents.
 * Status: BRINE_DONE; BRINE_NO_ROOM, with the length that is needed in out and nothing in the payload. */
#define BRINE_PAYLOAD_LENGTH 0
#define BRINE_PAYLOAD_PLACES 1
uint32_t brine_payload(const uint8_t *element, size_t element_len, uint8_t *payload, size_t payload_len,
                       uint64_t out[BRINE_PAYLOAD_PLACES]);

/* A line of an ST 436 element. The first cursor is place 2 with the number of the element's first two bytes left.
 * out: found, payload's place, payload's length, next cursor's place, lines left there.
 * BRINE_NOTHING: no good line is left; the next cursor is the one handed in. */
#define BRINE_LINE_FOUND 0
#define BRINE_LINE_PLACE 1
#define BRINE_LINE_LENGTH 2
#define BRINE_LINE_NEXT 3
#define BRINE_LINE_LEFT 4
#define BRINE_LINE_PLACES 5
uint32_t brine_line(const uint8_t *element, size_t element_len, size_t at, size_t left, uint64_t out[BRINE_LINE_PLACES]);

/* The items of a picture descriptor's set: whole numbers, and the two quotients as doubles.
 * Status: BRINE_DONE, BRINE_ITEM_PAST_SET. */
#define BRINE_DESCRIPTOR_DURATION 0
#define BRINE_DESCRIPTOR_TIMECODE_BASE 1
#define BRINE_DESCRIPTOR_START_TIMECODE 2
#define BRINE_DESCRIPTOR_DROP_FRAME 3
#define BRINE_DESCRIPTOR_SAMPLE_RATE 4
#define BRINE_DESCRIPTOR_CONTAINER_DURATION 5
#define BRINE_DESCRIPTOR_STORED_HEIGHT 6
#define BRINE_DESCRIPTOR_STORED_WIDTH 7
#define BRINE_DESCRIPTOR_SAMPLED_HEIGHT 8
#define BRINE_DESCRIPTOR_SAMPLED_WIDTH 9
#define BRINE_DESCRIPTOR_SAMPLED_X_OFFSET 10
#define BRINE_DESCRIPTOR_SAMPLED_Y_OFFSET 11
#define BRINE_DESCRIPTOR_DISPLAY_HEIGHT 12
#define BRINE_DESCRIPTOR_DISPLAY_WIDTH 13
#define BRINE_DESCRIPTOR_DISPLAY_X_OFFSET 14
#define BRINE_DESCRIPTOR_DISPLAY_Y_OFFSET 15
#define BRINE_DESCRIPTOR_ASPECT_RATIO 16
#define BRINE_DESCRIPTOR_COLOR_RANGE 17
uint32_t brine_descriptor(const uint8_t *s, size_t s_len, uint64_t kind[BRINE_VALUES], uint64_t bits[BRINE_VALUES]);

/* ---- Frames ---------------------------------------------------------------------------------------------------------- */

/* A step of a camera's frame walk of s with an end, from a cursor (as brine_step's) and the next frame's number; the first are 0,
 * 0 and 0.
 * out: found, frame's number, element's place, value's place, value's length, over-long (1) or not (0), next cursor, next
 * frame's number, bytes passed before the element, next cursor's `since`. BRINE_NOTHING: over; the next cursor is where, the next
 * number the one handed in.
 * An over-long element (Sony, Canon above 23,723,672 bytes, ARRI above 8,192) is a frame without values: walking goes on at its
 * value's place, and so does the count. A record that is no frame is passed over whole, and walking goes on at its end.
 * Status: BRINE_DONE, BRINE_END_PAST_BUFFER. */
#define BRINE_ELEMENT_FOUND 0
#define BRINE_ELEMENT_NUMBER 1
#define BRINE_ELEMENT_PLACE 2
#define BRINE_ELEMENT_VALUE 3
#define BRINE_ELEMENT_LENGTH 4
#define BRINE_ELEMENT_OVERLONG 5
#define BRINE_ELEMENT_NEXT 6
#define BRINE_ELEMENT_NEXT_NUMBER 7
#define BRINE_ELEMENT_PASSED 8
#define BRINE_ELEMENT_SINCE 9
#define BRINE_ELEMENT_PLACES 10
uint32_t brine_sony_step(const uint8_t *s, size_t s_len, size_t end, size_t at, size_t since, uint64_t number,
                         uint64_t out[BRINE_ELEMENT_PLACES]);
uint32_t brine_arri_step(const uint8_t *s, size_t s_len, size_t end, size_t at, size_t since, uint64_t number,
                         uint64_t out[BRINE_ELEMENT_PLACES]);
/* The arriving forms, Sony's and ARRI's: the next frame that no later byte, within the limit, can unsay. An over-long element that has
 * not fully arrived is not yet a frame. out is the same; BRINE_NOTHING: waiting, and the step is to be made again from the next cursor
 * and number once more bytes have arrived.
 * Status: BRINE_DONE, BRINE_PAST_LIMIT. */
uint32_t brine_sony_arrive(const uint8_t *a, size_t a_len, size_t limit, size_t at, size_t since, uint64_t number,
                           uint64_t out[BRINE_ELEMENT_PLACES]);
uint32_t brine_arri_arrive(const uint8_t *a, size_t a_len, size_t limit, size_t at, size_t since, uint64_t number,
                           uint64_t out[BRINE_ELEMENT_PLACES]);
/* Canon's is Sony's, and gives the values of Canon's two labels besides: found is BRINE_GIVEN, the number 0. */
uint32_t brine_canon_step(const uint8_t *s, size_t s_len, size_t end, size_t at, size_t since, uint64_t number,
                          uint64_t out[BRINE_ELEMENT_PLACES]);

/* A fed frame walk, Sony's or ARRI's, never has the whole file, as a fed walk of records has not (brine_feed): the host lends a state
 * and feeds the file's bytes in pieces of any length. The frames that come of them are those of the arriving form.
 * After an over-long frame walking goes on at its value's place, and so the bytes from there on are fed again, the same ones. Until
 * they have come again up to where bytes had come before, the list is a beginning of the arriving form's, and closing is refused. */
#define BRINE_STATE_FRAMES 13

/* Open a walk of at most `limit` bytes, or of exactly `end`, whose first frame has the number `first`. Status: BRINE_DONE. */
uint32_t brine_fed_sony_limit(size_t limit, uint64_t first, uint64_t state[BRINE_STATE_FRAMES]);
uint32_t brine_fed_sony_end(size_t end, uint64_t first, uint64_t state[BRINE_STATE_FRAMES]);
uint32_t brine_fed_arri_limit(size_t limit, uint64_t first, uint64_t state[BRINE_STATE_FRAMES]);
uint32_t brine_fed_arri_end(size_t end, uint64_t first, uint64_t state[BRINE_STATE_FRAMES]);

/* Feeds a piece. It is taken up to the byte that completes a frame, or all of it; other records are run through.
 * out: found, bytes taken, frame's number, element's place, value's place, value's length, over-long (1) or not (0), bytes passed before
 * the element, and the place in the file to feed on from: behind the last byte taken, or the value's place of an over-long one.
 * Where a frame was found its element's label is written to `label`, which else keeps its contents.
 * Status: BRINE_DONE; BRINE_CLOSED; BRINE_PAST_LIMIT, and none of the piece is taken. */
#define BRINE_FRAMED_FOUND 0
#define BRINE_FRAMED_TAKEN 1
#define BRINE_FRAMED_NUMBER 2
#define BRINE_FRAMED_PLACE 3
#define BRINE_FRAMED_VALUE 4
#define BRINE_FRAMED_LENGTH 5
#define BRINE_FRAMED_OVERLONG 6
#define BRINE_FRAMED_PASSED 7
#define BRINE_FRAMED_FROM 8
#define BRINE_FRAMED_PLACES 9
uint32_t brine_feed_frame(uint64_t state[BRINE_STATE_FRAMES], const uint8_t *piece, size_t piece_len, uint8_t label[BRINE_LABEL],
                          uint64_t out[BRINE_FRAMED_PLACES]);

/* Closes a frame walk; it is refused, too, before bytes that are to come again have.
 * out: as brine_close's, and the next frame's number: a new walk is opened with it, so that its frames count on.
 * Status: BRINE_DONE, BRINE_CLOSED. */
#define BRINE_ENDED_SAYS 0
#define BRINE_ENDED_FROM 1
#define BRINE_ENDED_REST 2
#define BRINE_ENDED_NUMBER 3
#define BRINE_ENDED_PLACES 4
uint32_t brine_close_frames(uint64_t state[BRINE_STATE_FRAMES], uint64_t out[BRINE_ENDED_PLACES]);

/* ---- Frame values ---------------------------------------------------------------------------------------------------- */

/* The values of a frame. Lengths in mm, distances in m, times in ms, angles in degrees; red, green and blue are the white
 * balance's factors on the three colours; the encoders are raw, the lens's own (LDS) and the motor's.
 * Exposure index, white balance and encoders are whole numbers, a distance may be infinite, a T-stop linear. Focal length,
 * focus distance, T-stop, shutter angle, tilt and roll are floats, the others doubles. */
#define BRINE_FRAME_FOCAL_LENGTH 0
#define BRINE_FRAME_FOCUS_DISTANCE 1
#define BRINE_FRAME_T_STOP 2
#define BRINE_FRAME_EXPOSURE_TIME 3
#define BRINE_FRAME_SHUTTER_ANGLE 4
#define BRINE_FRAME_TILT 5
#define BRINE_FRAME_ROLL 6
#define BRINE_FRAME_EXPOSURE_INDEX 7
#define BRINE_FRAME_WHITE_BALANCE 8
#define BRINE_FRAME_ND_DENSITY 9
#define BRINE_FRAME_EFFECTIVE_FOCAL_LENGTH 10
#define BRINE_FRAME_RED 11
#define BRINE_FRAME_GREEN 12
#define BRINE_FRAME_BLUE 13
#define BRINE_FRAME_FOCUS_LDS 14
#define BRINE_FRAME_FOCUS_MOTOR 15
#define BRINE_FRAME_ZOOM_LDS 16
#define BRINE_FRAME_ZOOM_MOTOR 17
#define BRINE_FRAME_IRIS_LDS 18
#define BRINE_FRAME_IRIS_MOTOR 19
#define BRINE_FRAME_TINT 20
#define BRINE_FRAME_SENSOR_RATE 21

/* By ARRI's 256 bytes (an ALEXA Mini's). Fewer bytes are read as far as they go. */
uint32_t brine_of_dynamic(const uint8_t *block, size_t block_len, uint64_t kind[BRINE_VALUES], uint64_t bits[BRINE_VALUES]);
/* By an ALEXA 35's element. */
uint32_t brine_of_alexa35(const uint8_t *element, size_t element_len, uint64_t kind[BRINE_VALUES], uint64_t bits[BRINE_VALUES]);
/* Of a frame that brine_arri_step or brine_arri_arrive gave: its label decides which of the two. `frame` has the element's place, the value's
 * place and length, and over-long: of that step's out from BRINE_ELEMENT_PLACE on. Any number but 0 is over-long.
 * out: found. Where nothing is found all values are nothing. */
#define BRINE_VALUED_PLACE 0
#define BRINE_VALUED_VALUE 1
#define BRINE_VALUED_LENGTH 2
#define BRINE_VALUED_OVERLONG 3
#define BRINE_VALUED_PLACES 4
#define BRINE_HAD_FOUND 0
#define BRINE_HAD_PLACES 1
uint32_t brine_arri_values(const uint8_t *s, size_t s_len, const uint64_t frame[BRINE_VALUED_PLACES],
                           uint64_t out[BRINE_HAD_PLACES], uint64_t kind[BRINE_VALUES], uint64_t bits[BRINE_VALUES]);

/* ---- Two recordings of one take -------------------------------------------------------------------------------------- */

/* The next difference of ARRI's frames in the main and the backup recorder's file, each with an end, from a cursor of three places:
 * where the two walks stand, and the next frame's number; the first are 0, 0 and 0. Frames meet by number; floats are compared by
 * their bits. What is apart comes in order of number, and there is nothing exactly where both files have the same values and marks.
 * out: found, frame's number, what is apart (BRINE_APART_*), the side that has it (BRINE_SIDE_*, 0 of fields), the fields (bit k
 * is field k, below), next cursor's three places. BRINE_NOTHING: nothing is left; the next cursor is the one handed in.
 * main_kind and main_bits, backup_kind and backup_bits: the values of both sides (BRINE_FRAME_*) where fields are apart; else
 * all are nothing.
 * Status: BRINE_DONE, BRINE_END_PAST_BUFFER of the first file, then of the second. */
#define BRINE_APART_FIELDS 1u /* fields of the values that both have */
#define BRINE_APART_VALUES 2u /* this one has values, the other has none; neither is over-long */
#define BRINE_APART_OVERLONG 3u /* this one is over-long, the other is not */
#define BRINE_APART_ONLY 4u /* only this one has a frame of this number */
#define BRINE_SIDE_MAIN 1u
#define BRINE_SIDE_BACKUP 2u
/* The fields, in the report's order: each encoder is one, tilt and roll are one, and so are the factors on the three colours. */
#define BRINE_FIELD_FOCAL_LENGTH 0
#define BRINE_FIELD_FOCUS_DISTANCE 1
#define BRINE_FIELD_T_STOP 2
#define BRINE_FIELD_EXPOSURE_TIME 3
#define BRINE_FIELD_SHUTTER_ANGLE 4
#define BRINE_FIELD_TILT_ROLL 5
#define BRINE_FIELD_EXPOSURE_INDEX 6
#define BRINE_FIELD_WHITE_BALANCE 7
#define BRINE_FIELD_ND_DENSITY 8
#define BRINE_FIELD_EFFECTIVE_FOCAL_LENGTH 9
#define BRINE_FIELD_WHITE_BALANCE_FACTORS 10
#define BRINE_FIELD_FOCUS_LDS 11
#define BRINE_FIELD_FOCUS_MOTOR 12
#define BRINE_FIELD_ZOOM_LDS 13
#define BRINE_FIELD_ZOOM_MOTOR 14
#define BRINE_FIELD_IRIS_LDS 15
#define BRINE_FIELD_IRIS_MOTOR 16
#define BRINE_FIELD_TINT 17
#define BRINE_FIELD_SENSOR_RATE 18
#define BRINE_TAKES_FOUND 0
#define BRINE_TAKES_NUMBER 1
#define BRINE_TAKES_APART 2
#define BRINE_TAKES_SIDE 3
#define BRINE_TAKES_FIELDS 4
#define BRINE_TAKES_MAIN 5
#define BRINE_TAKES_BACKUP 6
#define BRINE_TAKES_NEXT_NUMBER 7
#define BRINE_TAKES_PLACES 8
uint32_t brine_takes_step(const uint8_t *main, size_t main_len, size_t main_end, const uint8_t *backup, size_t backup_len,
                          size_t backup_end, size_t main_at, size_t backup_at, uint64_t number, uint64_t out[BRINE_TAKES_PLACES],
                          uint64_t main_kind[BRINE_VALUES], uint64_t main_bits[BRINE_VALUES], uint64_t backup_kind[BRINE_VALUES],
                          uint64_t backup_bits[BRINE_VALUES]);

/* ---- Canon's values -------------------------------------------------------------------------------------------------- */

/* The next Private Camera Metadata of a package set, from a cursor of two places; the first are 0 and 0.
 * out: found, record's place, value's place, value's length, next cursor's two places.
 * BRINE_NOTHING: none is left; the next cursor is the one handed in. */
#define BRINE_PACKAGE_FOUND 0
#define BRINE_PACKAGE_PLACE 1
#define BRINE_PACKAGE_VALUE 2
#define BRINE_PACKAGE_LENGTH 3
#define BRINE_PACKAGE_FROM 4
#define BRINE_PACKAGE_END 5
#define BRINE_PACKAGE_PLACES 6
uint32_t brine_package(const uint8_t *s, size_t s_len, size_t from, size_t end, uint64_t out[BRINE_PACKAGE_PLACES]);

/* The packs of a Private Camera Metadata: codes, whole numbers, the isotemperature signed, figures as doubles, a flag, and the
 * texts Off, Close, Others, Auto, Manual and Reserved. */
#define BRINE_CAMERA_FOCAL_LENGTH 0
#define BRINE_CAMERA_ELECTRIC_ZOOM 1
#define BRINE_CAMERA_F_NUMBER 2
#define BRINE_CAMERA_T_NUMBER 3
#define BRINE_CAMERA_REAL_FOCAL_LENGTH 4
#define BRINE_CAMERA_FOCAL_LENGTH_35 5
#define BRINE_CAMERA_SET_DISTORTION 6
#define BRINE_CAMERA_LENS_VALUE 7
#define BRINE_CAMERA_FOCUS_MODE 8
#define BRINE_CAMERA_STABILIZER 9
#define BRINE_CAMERA_APERTURE_MODE 10
#define BRINE_CAMERA_INFRARED 11
#define BRINE_CAMERA_HIGH_SENSITIVITY 12
#define BRINE_CAMERA_ISO_MODE 13
#define BRINE_CAMERA_SHUTTER_SPEED 14
#define BRINE_CAMERA_SHUTTER_MODE 15
#define BRINE_CAMERA_SHUTTER_VALUE 16
#define BRINE_CAMERA_BALANCE_MODE 17
#define BRINE_CAMERA_BALANCE_PRESET 18
#define BRINE_CAMERA_BALANCE_ACCURATE 19
#define BRINE_CAMERA_TEMPERATURE 20
#define BRINE_CAMERA_ISOTEMPERATURE 21
#define BRINE_CAMERA_GAIN_MODE 22
#define BRINE_CAMERA_GAIN_LEVEL 23
#define BRINE_CAMERA_ND_FILTER 24
#define BRINE_CAMERA_ISO_SPEED 25
#define BRINE_CAMERA_BASE_ISO 26
#define BRINE_CAMERA_DYNAMIC_RANGE 27
#define BRINE_CAMERA_BASE_GAMMA 28
#define BRINE_CAMERA_TILT 29
#define BRINE_CAMERA_ROLL 30
uint32_t brine_camera(const uint8_t *s, size_t s_len, uint64_t kind[BRINE_VALUES], uint64_t bits[BRINE_VALUES]);

/* A sequence info.
 * out: found, place and length of the instance's identifier; found, place and length of the package's; found of the start
 * timecode; found of the start position.
 * positions: start timecode, start position. */
#define BRINE_SEQUENCE_INSTANCE_FOUND 0
#define BRINE_SEQUENCE_INSTANCE_PLACE 1
#define BRINE_SEQUENCE_INSTANCE_LENGTH 2
#define BRINE_SEQUENCE_PACKAGE_FOUND 3
#define BRINE_SEQUENCE_PACKAGE_PLACE 4
#define BRINE_SEQUENCE_PACKAGE_LENGTH 5
#define BRINE_SEQUENCE_TIMECODE_FOUND 6
#define BRINE_SEQUENCE_POSITION_FOUND 7
#define BRINE_SEQUENCE_PLACES 8
#define BRINE_POSITION_TIMECODE 0
#define BRINE_POSITION_START 1
#define BRINE_POSITION_PLACES 2
uint32_t brine_sequence(const uint8_t *s, size_t s_len, uint64_t out[BRINE_SEQUENCE_PLACES],
                        int64_t positions[BRINE_POSITION_PLACES]);

/* ---- Whole files ----------------------------------------------------------------------------------------------------- */

/* Whether records follow each other from 0 to the end of s, no byte is passed and no length starts with 80h.
 * out: 0 where the file is accepted, else the place where this breaks.
 * Status: BRINE_DONE, accepted; BRINE_END_PAST_BUFFER, with nothing in out; else the first of these that fits there:
 * BRINE_TOO_SHORT, BRINE_NO_KEY, BRINE_NO_LENGTH, BRINE_INDEFINITE, BRINE_PAST_END. */
#define BRINE_STRICT_PLACE 0
#define BRINE_STRICT_PLACES 1
uint32_t brine_strict(const uint8_t *s, size_t s_len, size_t end, uint64_t out[BRINE_STRICT_PLACES]);

/* The random index pack that ends a file, found from the file's last four bytes. s is the whole file.
 * out: the first pair's place, how many pairs there are: the first cursor of brine_pair.
 * Status: BRINE_DONE, BRINE_PACK_SIZE, BRINE_PACK_LABEL, BRINE_PACK_LENGTH; of these the first that fits. */
#define BRINE_INDEX_PLACE 0
#define BRINE_INDEX_PAIRS 1
#define BRINE_INDEX_PLACES 2
uint32_t brine_random_index(const uint8_t *s, size_t s_len, uint64_t out[BRINE_INDEX_PLACES]);

/* A pair of that pack, from a cursor of a place and the number of pairs left there.
 * out: found, body stream's number, offset in the file, partition (1) where a partition pack's label stands at that offset wholly
 * inside the file, else 0; next cursor's place, pairs left there.
 * BRINE_NOTHING: no pair is left; the next cursor is the one handed in. */
#define BRINE_PAIR_FOUND 0
#define BRINE_PAIR_STREAM 1
#define BRINE_PAIR_OFFSET 2
#define BRINE_PAIR_PARTITION 3
#define BRINE_PAIR_NEXT 4
#define BRINE_PAIR_LEFT 5
#define BRINE_PAIR_PLACES 6
uint32_t brine_pair(const uint8_t *s, size_t s_len, size_t at, size_t left, uint64_t out[BRINE_PAIR_PLACES]);

/* ---- Writing: what can be read ---------------------------------------------------------------------------------------- */

/* Each of these writes at a place of lent room, and leaves all else of the room as it was. Reading what was written gives the same
 * fields. The room may be larger than what is written; a place past it has no room.
 * out: the place behind what was written, to go on from.
 * Status: BRINE_DONE; BRINE_NO_FIT, with nothing in out; BRINE_NO_ROOM, with the bytes that it takes from its place on in out. The
 * first of them that fits, in this order; a refusal leaves the room as it was. */
#define BRINE_WRITTEN_NEXT 0
#define BRINE_WRITTEN_PLACES 1

/* How many bytes the shortest form of a length takes: 1 to 9. */
size_t brine_shortest(uint64_t n);

/* A length in a form of `size` bytes, 1 to 9, that holds it: brine_shortest says the least. 80h is never written. */
uint32_t brine_put_length(uint64_t n, size_t size, uint8_t *room, size_t room_len, size_t at,
                          uint64_t out[BRINE_WRITTEN_PLACES]);

/* A KLV: its label, its length in a form of `size` bytes, its value. */
uint32_t brine_put_klv(const uint8_t label[BRINE_LABEL], size_t size, const uint8_t *value, size_t value_len, uint8_t *room,
                       size_t room_len, size_t at, uint64_t out[BRINE_WRITTEN_PLACES]);

/* The KLVs of the run s (those of brine_run), each length in its shortest form, at the start of the room. What follows the last whole
 * one is not written. The bytes are those of the run exactly where every length of it was the shortest. It has no BRINE_NO_FIT. */
uint32_t brine_rewrite(const uint8_t *s, size_t s_len, uint8_t *room, size_t room_len, uint64_t out[BRINE_WRITTEN_PLACES]);

/* An item of a local set: its tag and its length in two bytes each, its value. A set is its items one behind the other. */
uint32_t brine_put_item(uint64_t tag, const uint8_t *value, size_t value_len, uint8_t *room, size_t room_len, size_t at,
                        uint64_t out[BRINE_WRITTEN_PLACES]);

/* The value of a primer pack: the count of its entries, their size, and for each tag of two bytes in its order the tag and its label,
 * 16 bytes of `labels`. Labels that are not 16 bytes for each tag are BRINE_NO_FIT. */
uint32_t brine_put_primer(const uint64_t *tags, size_t tags_len, const uint8_t *labels, size_t labels_len, uint8_t *room,
                          size_t room_len, size_t at, uint64_t out[BRINE_WRITTEN_PLACES]);

/* One of Canon's packs, 1 to 20, 5 bytes: its id and its raw fields as bits of a number of 32 bits; bits of no field are 0. brine_camera
 * reads packs behind a byte that counts them. The fields are those of this table in its order, a number for each: by id, each field's
 * lowest bit and its number of bits. As many as it has must be given.
 *    1, 3, 5, 10  16+16, 0+16      2  30+2, 28+2, 27+1             4  30+2, 8+16, 0+8         6  29+3, 24+5, 23+1, 8+15, 0+8
 *    7  31+1, 24+7, 16+8, 12+4     8  30+2, 24+4, 16+1             9, 12, 13, 16, 17, 19  0+32
 *    11  31+1, 28+3, 16+12, 0+16   14, 15  16+16                   18  31+1, 0+16             20  24+2 */
uint32_t brine_put_pack(uint64_t id, const uint64_t *fields, size_t fields_len, uint8_t *room, size_t room_len, size_t at,
                        uint64_t out[BRINE_WRITTEN_PLACES]);

/* ---- An index beside a file ------------------------------------------------------------------------------------------ */

/* The group of the record at a place of s, as an index has it: its number among the first `groups` groups of a tally of s
 * (brine_tally), or BRINE_GROUP_OTHER where it is in none of them. */
#define BRINE_GROUP_OTHER 4095
uint64_t brine_group(const uint8_t *s, size_t s_len, const size_t firsts[BRINE_GROUPS], size_t groups, size_t at);

/* An index is `used` records in a lent buffer, with room for index_len / 16; the bytes left over are not touched. Rows (`columns`
 * is false) are 16 bytes a record, most significant bit first: 48 bits start, 4 bits size of the length field, 12 bits group, 64
 * bits length. Columns are all starts, 6 bytes for each record of room, and behind them the rest of each, 10 bytes. An index has
 * one layout from its first record on.
 *
 * Adds a record behind the last one.
 * entry: start, size of the length field (1 to 9), group (below BRINE_GROUPS, or BRINE_GROUP_OTHER), length.
 * out: how many records there are now.
 * Status: BRINE_DONE; else the first of these that fits, with the index as it was: BRINE_END_PAST_BUFFER, BRINE_NO_FIT,
 * BRINE_START, BRINE_ORDER, BRINE_FULL. */
#define BRINE_ENTRY_START 0
#define BRINE_ENTRY_LENGTH_BYTES 1
#define BRINE_ENTRY_GROUP 2
#define BRINE_ENTRY_LENGTH 3
#define BRINE_ENTRY_PLACES 4
#define BRINE_ADDED_USED 0
#define BRINE_ADDED_PLACES 1
uint32_t brine_index_add(uint8_t *index, size_t index_len, bool columns, size_t used, const uint64_t entry[BRINE_ENTRY_PLACES],
                         uint64_t out[BRINE_ADDED_PLACES]);

/* The first record that covers a byte position, by its label, its length or its value.
 * out: found, number of the record (from 0), its start, size of its length field, group, length.
 * BRINE_NOTHING: none covers it. In a buffer that brine_index_add did not make it is one of the records, or none.
 * Status: BRINE_DONE, BRINE_END_PAST_BUFFER. */
#define BRINE_AT_FOUND 0
#define BRINE_AT_NUMBER 1
#define BRINE_AT_START 2
#define BRINE_AT_LENGTH_BYTES 3
#define BRINE_AT_GROUP 4
#define BRINE_AT_LENGTH 5
#define BRINE_AT_PLACES 6
uint32_t brine_index_find(const uint8_t *index, size_t index_len, bool columns, size_t used, uint64_t position,
                          uint64_t out[BRINE_AT_PLACES]);

/* An index in rows as columns, at the start of `room`, all of its bytes: also room that is not in use, and last the bytes left over.
 * Every call answers on the one as on the other, and turning back gives the same bytes.
 * out: how many bytes that are, which is rows_len. Bytes of the room behind them keep their contents.
 * Status: BRINE_DONE; BRINE_NO_ROOM, with the length that is needed in out and nothing in the room. */
#define BRINE_TURNED_LENGTH 0
#define BRINE_TURNED_PLACES 1
uint32_t brine_index_columns(const uint8_t *rows, size_t rows_len, uint8_t *room, size_t room_len,
                             uint64_t out[BRINE_TURNED_PLACES]);

/* An index in columns as rows, likewise. */
uint32_t brine_index_rows(const uint8_t *columns, size_t columns_len, uint8_t *room, size_t room_len,
                          uint64_t out[BRINE_TURNED_PLACES]);

/* ---- An index that two files share ----------------------------------------------------------------------------------- */

/* Two files, 0 and 1, share the records of one index buffer, each with a reserved share, closed or not. A file that has fewer records
 * than its share is never refused for room; one that has as many or more exactly when no record is free beyond the larger of the other's
 * count and share. Look-ups in a file do not depend on the other. `room` is the state of both, which the caller keeps: room for so
 * many records, the two shares, the two counts, whether each file is open (1) or not (0). File 0 stands from the first record up,
 * file 1 from the last one down. A room that these calls did not make is answered without harm.
 *
 * Sets a room up in a buffer, with two shares and no file open; the whole is index_len / 16.
 * Status: BRINE_DONE; BRINE_SHARES, with nothing set up. */
#define BRINE_ROOM_WHOLE 0
#define BRINE_ROOM_SHARE_0 1
#define BRINE_ROOM_SHARE_1 2
#define BRINE_ROOM_USED_0 3
#define BRINE_ROOM_USED_1 4
#define BRINE_ROOM_OPEN_0 5
#define BRINE_ROOM_OPEN_1 6
#define BRINE_ROOM_PLACES 7
uint32_t brine_shared_set_up(const uint8_t *index, size_t index_len, size_t a, size_t b, uint64_t room[BRINE_ROOM_PLACES]);

/* Opens a file, which has no record then. Status: BRINE_DONE; BRINE_FILE, with the room as it was. */
uint32_t brine_shared_open(uint64_t room[BRINE_ROOM_PLACES], uint64_t file);

/* Closes a file: its records are free again, its share stays. Status: BRINE_DONE; BRINE_FILE, with the room as it was. */
uint32_t brine_shared_close(uint64_t room[BRINE_ROOM_PLACES], uint64_t file);

/* Adds a record behind the last one of a file. entry: as brine_index_add's.
 * Status: BRINE_DONE; else the first of these that fits, with index and room as they were: BRINE_END_PAST_BUFFER (the room states
 * more than the buffer holds), BRINE_FILE, BRINE_NO_FIT, BRINE_START, BRINE_ORDER, BRINE_FULL. */
uint32_t brine_shared_add(uint8_t *index, size_t index_len, bool columns, uint64_t room[BRINE_ROOM_PLACES], uint64_t file,
                          const uint64_t entry[BRINE_ENTRY_PLACES]);

/* The first record of a file that covers a byte position. out: as brine_index_find's.
 * Status: BRINE_DONE, BRINE_END_PAST_BUFFER, BRINE_FILE. */
uint32_t brine_shared_find(const uint8_t *index, size_t index_len, bool columns, const uint64_t room[BRINE_ROOM_PLACES],
                           uint64_t file, uint64_t position, uint64_t out[BRINE_AT_PLACES]);

#ifdef __cplusplus
}
#endif

#endif
