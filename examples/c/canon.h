/* Canon's frames of a stored upload. */
#ifndef CANON_H
#define CANON_H

#include "stored.h"

/* Says Canon's frames and given values (upload.h has the lines), and counts both. The finished walk wants the whole file, which is
 * mapped: it is the system's copy, of which the walk looks at each record's label and length, and at all that is no record. */
bool list_canon(const char *id, const struct stored *s, uint64_t counts[2]);

#endif
