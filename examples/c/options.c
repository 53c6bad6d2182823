#include "options.h"
#include "net.h"

#include <string.h>

/* Reads a word with its value. */
static bool read_pair(const char *word, const char *value, struct options *o)
{
    const struct {
        const char *word;
        uint64_t *number;
        uint64_t most;
    } numbers[] = {
        {"idle", &o->idle, UINT32_MAX},
        {"whole", &o->whole, UINT32_MAX},
        {"memory", &o->memory, UINT64_MAX},
        {"stored", &o->stored, UINT64_MAX},
    };
    if (strcmp(word, "spool") == 0) {
        o->spool = value;
        return true;
    }
    for (size_t i = 0; i < sizeof numbers / sizeof numbers[0]; i++)
        if (strcmp(word, numbers[i].word) == 0)
            return number(value, numbers[i].most, numbers[i].number);
    return false;
}

bool read_options(int argc, char **argv, struct options *o)
{
    *o = (struct options){.idle = 60, .whole = 86400, .memory = 64 * STACK, .stored = UINT64_MAX};
    if (argc < 3 || !number(argv[1], 65535, &o->port) || !number(argv[2], SIZE_MAX, &o->limit))
        return false;
    for (int i = 3; i < argc; i++) {
        if (strcmp(argv[i], "canon") == 0)
            o->canon = true;
        else if (i + 1 == argc || !read_pair(argv[i], argv[i + 1], o))
            return false;
        else
            i++;
    }
    o->uploads = o->memory / STACK;
    if (o->limit > 0 && o->stored / o->limit < o->uploads)
        o->uploads = o->stored / o->limit;
    return o->uploads > 0;
}
