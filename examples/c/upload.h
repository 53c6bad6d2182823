/* An upload under way: the file that it is stored in, a fed walk over its records, and one over each camera's frames. Where a frame
 * walk wants bytes again, and for a frame's values, the file is read. No more is kept of an upload, whatever its sender claims.
 *
 * What is said of an upload, a line each, as soon as it is certain; each walk's lines come in the file's order:
 *   ID record PLACE LABEL VALUE LENGTH PASSED
 *   ID frame sony NUMBER PLACE VALUE LENGTH PASSED, then the payload's length, or over-long
 *   ID frame arri NUMBER PLACE VALUE LENGTH PASSED, then the frame's values, or over-long
 *   ID waits ARRIVED
 *   ID refused WHY
 * and once the sender has closed:
 *   ID again VALUE REST, ID again sony VALUE REST, ID again arri VALUE REST
 *   ID frame canon NUMBER PLACE VALUE LENGTH PASSED, then the payload's length, or over-long
 *   ID given canon PLACE VALUE LENGTH PASSED, then what the package metadata or the sequence info has
 *   ID records N sony N arri N, and canon N given N
 * those of Canon, whose walk has no arriving form, where they are wanted. PASSED is how many bytes were lost before a
 * record. Where the sender closed within a value, a walk goes on inside it, says so with `again`, and counts PASSED anew from VALUE.
 *
 * WHY is a number of the library, or
 *   taken     the spool has an upload of this name
 *   busy      there is no descriptor left for its file
 *   storage   its file cannot be made, written or read
 * or what connection.h has: idle, late, ending. */
#ifndef UPLOAD_H
#define UPLOAD_H

#include "brinethimble.h"
#include "stored.h"

#define CAMERAS 2

/* A fed frame walk: its state, the place in the file of its place 0, that of the next byte to feed, and how many bytes it was fed. */
struct frames {
    uint64_t state[BRINE_STATE_FRAMES];
    uint64_t start;
    uint64_t at;
    uint64_t fed;
    uint64_t count;
};

/* `walk` is that of records, and its place 0 is at `start` in the file. */
struct upload {
    char id[LONGEST_ID + 1];
    struct stored stored;
    uint64_t limit;
    uint64_t walk[BRINE_STATE];
    uint64_t start;
    uint64_t records;
    struct frames cameras[CAMERAS];
    bool canon;
};

/* What is given up is told as a word: why; NULL where it is not. */

/* Starts an upload of at most `limit` bytes, of which Canon's frames are wanted or not. */
const char *upload_start(struct upload *u, const char *id, uint64_t limit, bool canon);

/* How many bytes may be read next into room for so many: never more than one past the limit. */
size_t upload_room(const struct upload *u, size_t room);

/* Takes bytes that have come, says what has become certain with them, and stores them; those past the limit are not. */
const char *upload_take(struct upload *u, const uint8_t *piece, size_t length);

/* Says that no bytes come. */
void upload_waits(const struct upload *u);

/* Closes the walks, for the sender has closed, says the rest of the finished lists, and keeps the file. */
const char *upload_finish(struct upload *u);

/* Lets go of an upload, and of its file if that was not kept. */
void upload_drop(struct upload *u);

#endif
