/* A sender's connection, with its time-outs. */
#ifndef CONNECTION_H
#define CONNECTION_H

#include <stdatomic.h>
#include <stdint.h>
#include <sys/types.h>

/* How often a silent connection is looked at. */
#define TICK_MILLISECONDS 200

struct connection {
    int socket;
    uint64_t began;
    uint64_t silent; /* how long it was waited for a byte; both in milliseconds */
};

/* Set once the receiver is to end. */
extern atomic_bool ending;

/* Sets the time-outs of all connections, in seconds: without a byte, and of a whole upload. */
void connections_within(uint64_t idle, uint64_t whole);

void connection_open(struct connection *c, int socket);

/* Why a connection is to be given up by now: ending, late or idle; NULL where it is not. */
const char *connection_over(const struct connection *c);

/* Reads bytes that have come: how many, 0 where the sender has closed, or -1 where none have come for a tick. */
ssize_t connection_read(struct connection *c, void *room, size_t length);

/* Answers a sender in a line, and takes what it still sends for a while, so that it can read that. */
void connection_answer(struct connection *c, const char *line);

/* Tells a sender that it is not served, at once, and closes. */
void connection_refuse(int socket, const char *line);

#endif
