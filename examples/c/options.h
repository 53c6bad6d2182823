/* What the receiver is told by its words. */
#ifndef OPTIONS_H
#define OPTIONS_H

#include <stdbool.h>
#include <stdint.h>

/* The stack of an upload's thread: all memory that an upload takes. */
#define STACK 131072

struct options {
    uint64_t port;
    uint64_t limit; /* bytes of an upload */
    uint64_t idle; /* seconds without a byte */
    uint64_t whole; /* seconds of a whole upload */
    uint64_t memory; /* bytes, of all uploads together */
    uint64_t stored; /* bytes, of all uploads together */
    uint64_t uploads; /* at once: as many as have room in both */
    const char *spool; /* a folder, or NULL */
    bool canon;
};

/* Reads the words; false where they are none. */
bool read_options(int argc, char **argv, struct options *o);

#endif
