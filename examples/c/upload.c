#include "upload.h"
#include "canon.h"
#include "tell.h"

#include <errno.h>
#include <inttypes.h>
#include <stdio.h>

#define WINDOW 1048576
#define MANY 16

/* A camera: its name, how its walk is opened, and what is told of an element with its value at a place in it. */
static const struct camera {
    const char *name;
    uint32_t (*limit)(size_t limit, uint64_t first, uint64_t state[BRINE_STATE_FRAMES]);
    uint32_t (*end)(size_t end, uint64_t first, uint64_t state[BRINE_STATE_FRAMES]);
    void (*tell)(const uint8_t *element, size_t value, size_t length);
} cameras[CAMERAS] = {
    {"sony", brine_fed_sony_limit, brine_fed_sony_end, tell_payload},
    {"arri", brine_fed_arri_limit, brine_fed_arri_end, tell_values},
};

/* Why an upload is given up, by the library's number. */
static const char *refused(uint32_t status)
{
    return status == BRINE_PAST_LIMIT ? "2" : "5";
}

/* The same by errno, where its file cannot be made, written or read. */
static const char *not_stored(void)
{
    if (errno == EEXIST)
        return "taken";
    return errno == EMFILE || errno == ENFILE ? "busy" : "storage";
}

/* Where to map the file up to from a place: a window's length further. A walk that was fed many times what has arrived gets all the
 * rest as one piece: it goes by an element's length then, and looks at no byte twice, however many elements lie in each other. */
static uint64_t mapped_to(const struct upload *u, uint64_t from, uint64_t fed)
{
    uint64_t all = u->stored.length;
    return fed / MANY < all && WINDOW < all - from ? from + WINDOW : all;
}

/* ---- Records --------------------------------------------------------------------------------------------------------- */

/* Says a record that has just come. */
static void say_record(struct upload *u, const uint8_t label[16], const uint64_t record[BRINE_FED_PLACES])
{
    char hex[33];
    for (size_t i = 0; i < 16; i++)
        snprintf(hex + 2 * i, 3, "%02x", label[i]);
    printf("%s record %" PRIu64 " %s %" PRIu64 " %" PRIu64 " %" PRIu64 "\n", u->id, u->start + record[BRINE_FED_PLACE], hex,
           u->start + record[BRINE_FED_VALUE], record[BRINE_FED_LENGTH], record[BRINE_FED_PASSED]);
    u->records++;
}

/* Feeds bytes to the walk of records. */
static const char *feed_records(struct upload *u, const uint8_t *bytes, size_t length)
{
    while (length > 0) {
        uint8_t label[16];
        uint64_t record[BRINE_FED_PLACES];
        uint32_t status = brine_feed(u->walk, bytes, length, label, record);
        if (status != BRINE_DONE)
            return refused(status);
        bytes += record[BRINE_FED_TAKEN];
        length -= record[BRINE_FED_TAKEN];
        if (record[BRINE_FED_FOUND] == BRINE_FOUND)
            say_record(u, label, record);
    }
    return NULL;
}

/* Closes the walk of records; where a value is not whole a new one goes through what there is of it. */
static const char *finish_records(struct upload *u)
{
    uint64_t out[BRINE_CLOSE_PLACES];
    const char *why = NULL;
    uint32_t status = brine_close(u->walk, out);
    if (status != BRINE_DONE)
        return refused(status);
    if (out[BRINE_CLOSE_SAYS] != BRINE_AGAIN)
        return NULL;
    printf("%s again %" PRIu64 " %" PRIu64 "\n", u->id, out[BRINE_CLOSE_FROM], out[BRINE_CLOSE_REST]);
    brine_fed_end(out[BRINE_CLOSE_REST], u->walk);
    u->start = out[BRINE_CLOSE_FROM];
    for (uint64_t at = u->start, to; why == NULL && at < u->stored.length; at = to) {
        struct part part;
        to = mapped_to(u, at, 0);
        if (!stored_map(&u->stored, at, to, &part))
            return not_stored();
        why = feed_records(u, part.bytes, part.length);
        stored_unmap(&part);
    }
    return why;
}

/* ---- Frames ---------------------------------------------------------------------------------------------------------- */

/* Says a frame, in one line though other uploads speak, too; `element` is NULL for one that is over-long. */
static void say_frame(const struct upload *u, size_t camera, const uint64_t frame[BRINE_FRAMED_PLACES], const uint8_t *element)
{
    uint64_t start = u->cameras[camera].start, length = frame[BRINE_FRAMED_LENGTH];
    uint64_t place = start + frame[BRINE_FRAMED_PLACE], value = start + frame[BRINE_FRAMED_VALUE];
    flockfile(stdout);
    printf("%s frame %s %" PRIu64 " %" PRIu64 " %" PRIu64 " %" PRIu64 " %" PRIu64, u->id, cameras[camera].name,
           frame[BRINE_FRAMED_NUMBER], place, value, length, frame[BRINE_FRAMED_PASSED]);
    if (element == NULL)
        printf(" over-long");
    else
        cameras[camera].tell(element, value - place, length);
    printf("\n");
    funlockfile(stdout);
}

/* Says a frame that has just come, of which bytes from a place on are lent; one that begins before them is read from the file. */
static const char *take_frame(struct upload *u, size_t camera, const uint64_t frame[BRINE_FRAMED_PLACES], const uint8_t *bytes,
                              uint64_t from)
{
    struct frames *w = &u->cameras[camera];
    uint64_t place = w->start + frame[BRINE_FRAMED_PLACE];
    struct part element;
    w->count++;
    if (frame[BRINE_FRAMED_OVERLONG] == 1) {
        say_frame(u, camera, frame, NULL);
    } else if (from <= place) {
        say_frame(u, camera, frame, bytes + (place - from));
    } else {
        if (!stored_map(&u->stored, place, w->start + frame[BRINE_FRAMED_VALUE] + frame[BRINE_FRAMED_LENGTH], &element))
            return not_stored();
        say_frame(u, camera, frame, element.bytes);
        stored_unmap(&element);
    }
    return NULL;
}

/* Feeds a camera's walk bytes of the file, from a place up to another, and again those of them that it wants again; where it wants
 * bytes before them it stops. */
static const char *feed_frames(struct upload *u, size_t camera, const uint8_t *bytes, uint64_t from, uint64_t to)
{
    struct frames *w = &u->cameras[camera];
    while (from <= w->at && w->at < to) {
        uint8_t label[16];
        uint64_t frame[BRINE_FRAMED_PLACES];
        uint32_t status = brine_feed_frame(w->state, bytes + (w->at - from), to - w->at, label, frame);
        if (status != BRINE_DONE)
            return refused(status);
        w->at += frame[BRINE_FRAMED_TAKEN];
        w->fed += frame[BRINE_FRAMED_TAKEN];
        if (frame[BRINE_FRAMED_FOUND] != BRINE_FOUND)
            continue;
        w->at = w->start + frame[BRINE_FRAMED_FROM];
        const char *why = take_frame(u, camera, frame, bytes, from);
        if (why != NULL)
            return why;
    }
    return NULL;
}

/* Feeds a camera's walk what it has not had, or wants again, of the stored bytes. */
static const char *catch_up(struct upload *u, size_t camera)
{
    struct frames *w = &u->cameras[camera];
    const char *why = NULL;
    while (why == NULL && w->at < u->stored.length) {
        uint64_t from = w->at, to = mapped_to(u, from, w->fed);
        struct part part;
        if (!stored_map(&u->stored, from, to, &part))
            return not_stored();
        why = feed_frames(u, camera, part.bytes, from, to);
        stored_unmap(&part);
    }
    return why;
}

/* Closes a camera's walk; where a value is not whole a new one goes through what there is of it, and counts on. */
static const char *finish_frames(struct upload *u, size_t camera)
{
    struct frames *w = &u->cameras[camera];
    uint64_t out[BRINE_ENDED_PLACES];
    uint32_t status = brine_close_frames(w->state, out);
    if (status != BRINE_DONE)
        return refused(status);
    if (out[BRINE_ENDED_SAYS] != BRINE_AGAIN)
        return NULL;
    printf("%s again %s %" PRIu64 " %" PRIu64 "\n", u->id, cameras[camera].name, out[BRINE_ENDED_FROM], out[BRINE_ENDED_REST]);
    cameras[camera].end(out[BRINE_ENDED_REST], out[BRINE_ENDED_NUMBER], w->state);
    w->start = w->at = out[BRINE_ENDED_FROM];
    return catch_up(u, camera);
}

/* ---- An upload ------------------------------------------------------------------------------------------------------- */

const char *upload_start(struct upload *u, const char *id, uint64_t limit, bool canon)
{
    snprintf(u->id, sizeof u->id, "%s", id);
    u->limit = limit;
    u->canon = canon;
    u->start = u->records = 0;
    brine_fed_limit(limit, u->walk);
    for (size_t i = 0; i < CAMERAS; i++) {
        u->cameras[i].start = u->cameras[i].at = u->cameras[i].fed = u->cameras[i].count = 0;
        cameras[i].limit(limit, 0, u->cameras[i].state);
    }
    return stored_open(&u->stored, id) ? NULL : not_stored();
}

size_t upload_room(const struct upload *u, size_t room)
{
    uint64_t left = u->limit - u->stored.length;
    return left < room ? (size_t)left + 1 : room;
}

const char *upload_take(struct upload *u, const uint8_t *piece, size_t length)
{
    const char *why = feed_records(u, piece, length);
    if (why == NULL && !stored_add(&u->stored, piece, length))
        why = not_stored();
    for (size_t i = 0; i < CAMERAS && why == NULL; i++) {
        why = feed_frames(u, i, piece, u->stored.length - length, u->stored.length);
        if (why == NULL)
            why = catch_up(u, i);
    }
    return why;
}

void upload_waits(const struct upload *u)
{
    printf("%s waits %" PRIu64 "\n", u->id, u->stored.length);
}

/* Says how much was found; of Canon's there are frames and given values. */
static void say_totals(const struct upload *u, const uint64_t canon[2])
{
    flockfile(stdout);
    printf("%s records %" PRIu64, u->id, u->records);
    for (size_t i = 0; i < CAMERAS; i++)
        printf(" %s %" PRIu64, cameras[i].name, u->cameras[i].count);
    if (u->canon)
        printf(" canon %" PRIu64 " given %" PRIu64, canon[0], canon[1]);
    printf("\n");
    funlockfile(stdout);
}

const char *upload_finish(struct upload *u)
{
    uint64_t canon[2] = {0, 0};
    const char *why = finish_records(u);
    for (size_t i = 0; i < CAMERAS && why == NULL; i++)
        why = finish_frames(u, i);
    if (why == NULL && u->canon && !list_canon(u->id, &u->stored, canon))
        why = not_stored();
    if (why == NULL && !stored_keep(&u->stored))
        why = not_stored();
    if (why == NULL)
        say_totals(u, canon);
    return why;
}

void upload_drop(struct upload *u)
{
    stored_drop(&u->stored);
}
