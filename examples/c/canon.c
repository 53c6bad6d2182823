#include "canon.h"
#include "tell.h"

#include <inttypes.h>
#include <stdio.h>

/* Says a frame or a given value of a file, in one line though other uploads speak, too. */
static void say(const char *id, const uint8_t *file, const uint64_t out[BRINE_ELEMENT_PLACES])
{
    uint64_t place = out[BRINE_ELEMENT_PLACE], value = out[BRINE_ELEMENT_VALUE], length = out[BRINE_ELEMENT_LENGTH];
    flockfile(stdout);
    if (out[BRINE_ELEMENT_FOUND] == BRINE_GIVEN)
        printf("%s given canon", id);
    else
        printf("%s frame canon %" PRIu64, id, out[BRINE_ELEMENT_NUMBER]);
    printf(" %" PRIu64 " %" PRIu64 " %" PRIu64 " %" PRIu64, place, value, length, out[BRINE_ELEMENT_PASSED]);
    if (out[BRINE_ELEMENT_FOUND] == BRINE_GIVEN)
        tell_given(file + place, value - place, length);
    else if (out[BRINE_ELEMENT_OVERLONG] == 1)
        printf(" over-long");
    else
        tell_payload(file + place, value - place, length);
    printf("\n");
    funlockfile(stdout);
}

bool list_canon(const char *id, const struct stored *s, uint64_t counts[2])
{
    uint64_t out[BRINE_ELEMENT_PLACES] = {0};
    struct part file;
    if (s->length == 0)
        return true;
    if (!stored_map(s, 0, s->length, &file))
        return false;
    while (brine_canon_step(file.bytes, file.length, file.length, out[BRINE_ELEMENT_NEXT], out[BRINE_ELEMENT_SINCE],
                            out[BRINE_ELEMENT_NEXT_NUMBER], out) == BRINE_DONE &&
           out[BRINE_ELEMENT_FOUND] != BRINE_NOTHING) {
        counts[out[BRINE_ELEMENT_FOUND] == BRINE_GIVEN]++;
        say(id, file.bytes, out);
    }
    stored_unmap(&file);
    return true;
}
