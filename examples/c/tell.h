/* What is told of a frame or a given value, on standard output. An element is lent with its value at a place in it. */
#ifndef TELL_H
#define TELL_H

#include "brinethimble.h"

/* Tells how long the payload of an ST 436 element is; what there is no room for is refused with the length that it needs. */
void tell_payload(const uint8_t *element, size_t value, size_t length);

/* Tells the lens, focus, exposure and tilt of an ARRI frame, what there is of them. */
void tell_values(const uint8_t *element, size_t value, size_t length);

/* Tells of Canon's package metadata how many Private Camera Metadata it has, and the lens and exposure of the first; of a sequence info
 * its start. */
void tell_given(const uint8_t *element, size_t value, size_t length);

#endif
