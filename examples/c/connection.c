#include "connection.h"

#include <errno.h>
#include <stdbool.h>
#include <string.h>
#include <sys/socket.h>
#include <sys/time.h>
#include <time.h>
#include <unistd.h>

/* How long an answered sender may take to stop sending. */
#define DRAINING_MILLISECONDS 1000

atomic_bool ending;
static uint64_t idle_milliseconds, whole_milliseconds;

/* A clock that is never set back. */
static uint64_t milliseconds(void)
{
    struct timespec now;
    clock_gettime(CLOCK_MONOTONIC, &now);
    return (uint64_t)now.tv_sec * 1000 + (uint64_t)now.tv_nsec / 1000000;
}

void connections_within(uint64_t idle, uint64_t whole)
{
    idle_milliseconds = idle * 1000;
    whole_milliseconds = whole * 1000;
}

void connection_open(struct connection *c, int socket)
{
    struct timeval tick = {.tv_usec = TICK_MILLISECONDS * 1000};
    c->socket = socket;
    c->began = milliseconds();
    c->silent = 0;
    setsockopt(socket, SOL_SOCKET, SO_RCVTIMEO, &tick, sizeof tick);
}

const char *connection_over(const struct connection *c)
{
    if (ending)
        return "ending";
    if (milliseconds() - c->began >= whole_milliseconds)
        return "late";
    return c->silent >= idle_milliseconds ? "idle" : NULL;
}

ssize_t connection_read(struct connection *c, void *room, size_t length)
{
    ssize_t n = recv(c->socket, room, length, 0);
    bool nothing = n < 0 && (errno == EAGAIN || errno == EWOULDBLOCK);
    if (n > 0)
        c->silent = 0;
    if (nothing)
        c->silent += TICK_MILLISECONDS;
    if (n < 0)
        return nothing || errno == EINTR ? -1 : 0; /* a connection that broke is one that closed */
    return n;
}

void connection_answer(struct connection *c, const char *line)
{
    char room[4096];
    uint64_t answered = milliseconds();
    send(c->socket, line, strlen(line), MSG_NOSIGNAL);
    while (connection_read(c, room, sizeof room) > 0 && milliseconds() - answered < DRAINING_MILLISECONDS)
        ;
}

void connection_refuse(int socket, const char *line)
{
    char room[256];
    send(socket, line, strlen(line), MSG_NOSIGNAL | MSG_DONTWAIT);
    recv(socket, room, sizeof room, MSG_DONTWAIT); /* its name; closing before that was read would take the line back */
    close(socket);
}
