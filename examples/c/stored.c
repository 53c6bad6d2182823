#include "stored.h"

#include <errno.h>
#include <fcntl.h>
#include <inttypes.h>
#include <stdatomic.h>
#include <stdio.h>
#include <stdlib.h>
#include <sys/mman.h>
#include <unistd.h>

#define LONGEST_NAME 64

static int folder;
static bool named;
static atomic_uint_fast64_t opened;

/* The name of an upload that is not whole. */
static void part_name(const char *id, char name[LONGEST_NAME])
{
    snprintf(name, LONGEST_NAME, "%s.part", id);
}

bool stored_in(const char *spool)
{
    const char *temporary = getenv("TMPDIR");
    named = spool != NULL;
    folder = open(named ? spool : temporary != NULL ? temporary : "/tmp", O_RDONLY | O_DIRECTORY);
    return folder >= 0;
}

bool stored_open(struct stored *s, const char *id)
{
    char name[LONGEST_NAME];
    s->file = -1;
    s->length = 0;
    if (named && faccessat(folder, id, F_OK, 0) == 0) {
        errno = EEXIST;
        return false;
    }
    if (named)
        part_name(id, name);
    else
        snprintf(name, sizeof name, ".receive-%ld-%" PRIuFAST64, (long)getpid(), atomic_fetch_add(&opened, 1));
    s->file = openat(folder, name, O_RDWR | O_CREAT | O_EXCL | O_CLOEXEC, 0600);
    snprintf(s->id, sizeof s->id, "%s", named ? id : "");
    if (s->file >= 0 && !named)
        unlinkat(folder, name, 0);
    return s->file >= 0;
}

bool stored_add(struct stored *s, const uint8_t *bytes, size_t length)
{
    while (length > 0) {
        ssize_t n = write(s->file, bytes, length);
        if (n < 0 && errno == EINTR)
            continue;
        if (n <= 0)
            return false;
        bytes += n;
        length -= (size_t)n;
        s->length += (size_t)n;
    }
    return true;
}

bool stored_map(const struct stored *s, uint64_t from, uint64_t to, struct part *p)
{
    p->before = (size_t)(from % (uint64_t)sysconf(_SC_PAGESIZE));
    p->length = (size_t)(to - from);
    uint8_t *map = mmap(NULL, p->before + p->length, PROT_READ, MAP_SHARED, s->file, (off_t)(from - p->before));
    p->bytes = map + p->before;
    return map != MAP_FAILED;
}

void stored_unmap(const struct part *p)
{
    munmap((void *)(p->bytes - p->before), p->before + p->length);
}

bool stored_keep(struct stored *s)
{
    char name[LONGEST_NAME];
    if (s->id[0] != 0) {
        part_name(s->id, name);
        if (fsync(s->file) != 0 || linkat(folder, name, folder, s->id, 0) != 0)
            return false;
        if (fsync(folder) != 0) {
            unlinkat(folder, s->id, 0);
            return false;
        }
    }
    stored_drop(s);
    return true;
}

void stored_drop(struct stored *s)
{
    char name[LONGEST_NAME];
    if (s->file < 0)
        return;
    if (s->id[0] != 0) {
        part_name(s->id, name);
        unlinkat(folder, name, 0);
    }
    close(s->file);
    s->file = -1;
}
