/* Receives uploads on a loopback port, several at once, and says records and frames of each as soon as they are certain:
 *   receive PORT LIMIT [spool FOLDER] [canon] [idle SECONDS] [whole SECONDS] [memory BYTES] [stored BYTES]
 * Port 0 is a free one. LIMIT is the most bytes that an upload may have. An upload is a line with its name (1 to 32 letters, digits,
 * - or _) and then its bytes, up to where the sender closes. It is stored in FOLDER by its name, or else in a temporary file, and the
 * sender is answered `stored BYTES` or `refused WHY`. upload.h has the lines that are said of it; those of the receiver are
 *   listening PORT uploads N memory BYTES stored BYTES
 *   - refused WHY
 *   ended
 * the first with how many uploads are taken at once and what each may take, the second of a connection without a name. It ends on
 * SIGTERM and SIGINT. */
#include "connection.h"
#include "net.h"
#include "options.h"
#include "upload.h"

#include <fcntl.h>
#include <inttypes.h>
#include <poll.h>
#include <pthread.h>
#include <signal.h>
#include <stdio.h>
#include <sys/socket.h>
#include <unistd.h>

/* The most bytes that are read at once. */
#define PIECE 16384
/* How long uploads that are given up may take to end, and how long is waited where the system lacks room. */
#define ENDING_MILLISECONDS 5000
#define NAP_MILLISECONDS 10

static struct options o;
static pthread_attr_t attributes;
static atomic_uint_fast64_t uploads;

/* ---- One upload ------------------------------------------------------------------------------------------------------ */

/* Reads the upload's name; says why it is given up, or NULL. */
static const char *read_id(struct connection *c, char id[LONGEST_ID + 1])
{
    for (size_t n = 0; n <= LONGEST_ID;) {
        char letter;
        const char *why = connection_over(c);
        ssize_t got = why == NULL ? connection_read(c, &letter, 1) : 0;
        if (why != NULL || got == 0)
            return why != NULL ? why : "name";
        if (got < 0)
            continue;
        id[n] = 0;
        if (letter == '\n')
            return n > 0 ? NULL : "name";
        bool plain = (letter >= '0' && letter <= '9') || (letter >= 'A' && letter <= 'Z') || (letter >= 'a' && letter <= 'z') ||
                     letter == '-' || letter == '_';
        if (!plain)
            break;
        id[n++] = letter;
    }
    return "name";
}

/* Takes an upload's bytes up to where the sender closes; says why it is given up, or NULL. */
static const char *take_all(struct connection *c, struct upload *u)
{
    uint8_t piece[PIECE];
    bool quiet = false;
    for (;;) {
        const char *why = connection_over(c);
        if (why != NULL)
            return why;
        ssize_t n = connection_read(c, piece, upload_room(u, sizeof piece));
        if (n == 0)
            return upload_finish(u);
        if (n < 0 && !quiet)
            upload_waits(u);
        quiet = n < 0;
        why = n < 0 ? NULL : upload_take(u, piece, (size_t)n);
        if (why != NULL)
            return why;
    }
}

/* Receives one upload, on a thread of its own. */
static void *receive(void *socket)
{
    struct connection c;
    struct upload u;
    char id[LONGEST_ID + 1], line[64];
    connection_open(&c, (int)(intptr_t)socket);
    const char *why = read_id(&c, id);
    if (why != NULL) {
        snprintf(id, sizeof id, "-");
    } else {
        why = upload_start(&u, id, o.limit, o.canon);
        if (why == NULL)
            why = take_all(&c, &u);
        snprintf(line, sizeof line, "stored %" PRIu64 "\n", u.stored.length);
        upload_drop(&u);
    }
    if (why != NULL) {
        printf("%s refused %s\n", id, why);
        snprintf(line, sizeof line, "refused %s\n", why);
    }
    connection_answer(&c, line);
    atomic_fetch_sub(&uploads, 1); /* before the sender can know that its upload is over */
    close(c.socket);
    return NULL;
}

/* ---- All uploads ----------------------------------------------------------------------------------------------------- */

/* Tells a sender that there is no room for it. */
static void refuse(int connection)
{
    printf("- refused busy\n");
    connection_refuse(connection, "refused busy\n");
}

/* Starts a thread for a connection, or refuses it where there are as many as there may be, or can be. */
static void start(int connection)
{
    pthread_t thread;
    fcntl(connection, F_SETFL, 0);
    if (atomic_fetch_add(&uploads, 1) < o.uploads &&
        pthread_create(&thread, &attributes, receive, (void *)(intptr_t)connection) == 0)
        return;
    atomic_fetch_sub(&uploads, 1);
    refuse(connection);
}

/* Waits a little. */
static void nap(void)
{
    poll(NULL, 0, NAP_MILLISECONDS);
}

/* Takes connections until the receiver is to end. One descriptor is kept spare, to refuse a sender where no other is left. */
static void serve(int listener)
{
    struct pollfd ready = {.fd = listener, .events = POLLIN};
    int spare = open("/dev/null", O_RDONLY);
    while (!ending) {
        if (poll(&ready, 1, TICK_MILLISECONDS) <= 0)
            continue;
        int connection = accept(listener, NULL, NULL);
        if (connection >= 0) {
            start(connection);
        } else if (errno == EMFILE || errno == ENFILE) {
            close(spare);
            connection = accept(listener, NULL, NULL);
            if (connection >= 0)
                refuse(connection);
            spare = open("/dev/null", O_RDONLY);
        } else if (errno == ENOBUFS || errno == ENOMEM) {
            nap();
        }
    }
    close(spare);
}

/* Listens on a loopback port and says which, how many uploads it takes, and what each may take; -1 where it cannot. */
static int listen_on(uint64_t port)
{
    struct sockaddr_in here = loopback(port);
    socklen_t length = sizeof here;
    int one = 1, listener = socket(AF_INET, SOCK_STREAM, 0);
    if (listener < 0)
        return -1;
    setsockopt(listener, SOL_SOCKET, SO_REUSEADDR, &one, sizeof one);
    if (bind(listener, (struct sockaddr *)&here, sizeof here) != 0 || listen(listener, SOMAXCONN) != 0 ||
        fcntl(listener, F_SETFL, O_NONBLOCK) != 0 || getsockname(listener, (struct sockaddr *)&here, &length) != 0)
        return -1;
    printf("listening %u uploads %" PRIu64 " memory %d stored %" PRIu64 "\n", ntohs(here.sin_port), o.uploads, STACK, o.limit);
    return listener;
}

/* Asks the receiver to end. */
static void end(int signal)
{
    (void)signal;
    ending = true;
}

/* Sets up what all threads share. */
static bool set_up(void)
{
    struct sigaction ends = {.sa_handler = end}, ignored = {.sa_handler = SIG_IGN};
    setvbuf(stdout, NULL, _IOLBF, 0);
    connections_within(o.idle, o.whole);
    return sigaction(SIGTERM, &ends, NULL) == 0 && sigaction(SIGINT, &ends, NULL) == 0 && sigaction(SIGPIPE, &ignored, NULL) == 0 &&
           pthread_attr_init(&attributes) == 0 && pthread_attr_setstacksize(&attributes, STACK) == 0 &&
           pthread_attr_setdetachstate(&attributes, PTHREAD_CREATE_DETACHED) == 0 && stored_in(o.spool);
}

int main(int argc, char **argv)
{
    if (!read_options(argc, argv, &o)) {
        fprintf(stderr, "receive PORT LIMIT [spool FOLDER] [canon] [idle SECONDS] [whole SECONDS] [memory BYTES] [stored BYTES]\n");
        return 1;
    }
    int listener = set_up() ? listen_on(o.port) : -1;
    if (listener < 0) {
        perror("receive");
        return 1;
    }
    serve(listener);
    close(listener);
    for (int i = 0; i < ENDING_MILLISECONDS / NAP_MILLISECONDS && uploads > 0; i++)
        nap();
    printf("ended\n");
    return uploads > 0;
}
