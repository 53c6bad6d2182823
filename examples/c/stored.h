/* The file that an upload is stored in as it comes, and parts of it, mapped for reading: what is looked at is read from the file, and
 * no memory is asked for. */
#ifndef STORED_H
#define STORED_H

#include <stdbool.h>
#include <stddef.h>
#include <stdint.h>

#define LONGEST_ID 32

struct stored {
    int file;
    uint64_t length;
    char id[LONGEST_ID + 1]; /* empty where the file has no name */
};

/* Bytes of a file. */
struct part {
    const uint8_t *bytes;
    size_t length;
    size_t before; /* bytes mapped before them: a mapping starts with a page */
};

/* Sets the folder: the spool's, where uploads keep their names, or, for NULL, that of temporary files, where they have none. */
bool stored_in(const char *spool);

/* Opens a new file for an upload; in a spool it is ID.part until it is whole. False, with errno, where it cannot be, EEXIST where
 * the spool has the upload. */
bool stored_open(struct stored *s, const char *id);

/* Adds bytes at the end. */
bool stored_add(struct stored *s, const uint8_t *bytes, size_t length);

/* Maps the bytes from a place up to another one behind it. */
bool stored_map(const struct stored *s, uint64_t from, uint64_t to, struct part *p);
void stored_unmap(const struct part *p);

/* Closes the file; in a spool it is on the disk by then, and has its upload's name from then on. */
bool stored_keep(struct stored *s);

/* Closes and removes the file, if it was not kept. */
void stored_drop(struct stored *s);

#endif
