/* Sends an upload to a loopback port:
 *   send PORT ID FILE PIECES [pause AT] [tear AT]
 *   send PORT ID primer CLAIM BYTES
 * PIECES are sizes with commas between, taken in turn. `pause AT` waits after so many bytes for a line on standard input, `tear
 * AT` closes there. `primer` is a hostile upload: a primer pack that claims a value of CLAIM bytes and FFFFFFFFh entries, of
 * which BYTES bytes of value are sent. It writes the receiver's answer, and ends with 2 where that is not that all is stored. */
#include "net.h"

#include <netinet/tcp.h>
#include <stdio.h>
#include <string.h>
#include <sys/socket.h>
#include <unistd.h>

#define MOST_PIECES 16
#define LONGEST_PIECE 65536
#define LONGEST_ANSWER 63
#define REFUSED 2

static uint8_t piece[LONGEST_PIECE];

/* What to send of a file, and how. */
struct plan {
    size_t pieces[MOST_PIECES];
    size_t count;
    uint64_t pause;
    uint64_t tear;
};

/* Says how it is used. */
static int usage(void)
{
    fprintf(stderr, "send PORT ID FILE PIECES [pause AT] [tear AT]\nsend PORT ID primer CLAIM BYTES\n");
    return 1;
}

/* Connects to a loopback port and names the upload; -1 where it cannot. */
static int connect_to(uint64_t port, const char *id)
{
    struct sockaddr_in there = loopback(port);
    int one = 1, to = socket(AF_INET, SOCK_STREAM, 0);
    if (to < 0 || connect(to, (struct sockaddr *)&there, sizeof there) != 0)
        return -1;
    setsockopt(to, IPPROTO_TCP, TCP_NODELAY, &one, sizeof one);
    return dprintf(to, "%s\n", id) > 0 ? to : -1;
}

/* Sends bytes; false where the receiver has closed. */
static bool send_bytes(int to, const uint8_t *bytes, size_t length)
{
    while (length > 0) {
        ssize_t n = send(to, bytes, length, MSG_NOSIGNAL);
        if (n < 0 && errno == EINTR)
            continue;
        if (n <= 0)
            return false;
        bytes += n;
        length -= (size_t)n;
    }
    return true;
}

/* Closes towards the receiver, writes its answer, and waits until it closes, too; whether it has stored the upload. */
static bool finish(int to)
{
    char answer[LONGEST_ANSWER + 1];
    size_t length = 0;
    ssize_t n;
    shutdown(to, SHUT_WR);
    while (length < LONGEST_ANSWER && (n = recv(to, answer + length, LONGEST_ANSWER - length, 0)) > 0)
        length += (size_t)n;
    answer[length] = 0;
    close(to);
    fputs(answer, stdout);
    return strncmp(answer, "stored ", 7) == 0;
}

/* Waits for a line on standard input. */
static void wait_for_line(void)
{
    int c;
    do
        c = getchar();
    while (c != '\n' && c != EOF);
}

/* The size of the next piece, cut to where the plan stops. */
static size_t next_piece(const struct plan *p, size_t turn, uint64_t sent)
{
    uint64_t size = p->pieces[turn % p->count];
    uint64_t stop = sent < p->pause && p->pause < p->tear ? p->pause : p->tear;
    return (size_t)(size < stop - sent ? size : stop - sent);
}

/* Sends a file by a plan; false where the receiver has closed. */
static bool send_file(int to, FILE *file, const struct plan *p)
{
    uint64_t sent = 0;
    for (size_t turn = 0;; turn++) {
        if (sent == p->pause)
            wait_for_line();
        size_t n = fread(piece, 1, next_piece(p, turn, sent), file);
        if (n == 0)
            return true;
        if (!send_bytes(to, piece, n))
            return false;
        sent += n;
    }
}

/* Sends a primer pack that claims more than it has; false where the receiver has closed. */
static bool send_primer(int to, uint64_t claim, uint64_t bytes)
{
    static const uint8_t label[16] = {0x06, 0x0e, 0x2b, 0x34, 0x02, 0x05, 0x01, 0x01, 0x0d, 0x01, 0x02, 0x01, 0x01, 0x05, 0x01, 0x00};
    static const uint8_t table[8] = {0xff, 0xff, 0xff, 0xff, 0, 0, 0, 18};
    uint8_t length[9] = {0x88};
    for (int i = 0; i < 8; i++)
        length[1 + i] = (uint8_t)(claim >> (56 - 8 * i));
    if (!send_bytes(to, label, sizeof label) || !send_bytes(to, length, sizeof length))
        return false;
    memcpy(piece, table, sizeof table);
    while (bytes > 0) {
        size_t n = bytes < LONGEST_PIECE ? (size_t)bytes : LONGEST_PIECE;
        if (!send_bytes(to, piece, n))
            return false;
        bytes -= n;
        memset(piece, 0, sizeof table);
    }
    return true;
}

/* Reads the sizes of pieces. */
static bool read_pieces(char *text, struct plan *p)
{
    for (char *size = strtok(text, ","); size != NULL; size = strtok(NULL, ",")) {
        uint64_t n;
        if (p->count == MOST_PIECES || !number(size, LONGEST_PIECE, &n) || n == 0)
            return false;
        p->pieces[p->count++] = (size_t)n;
    }
    return p->count > 0;
}

/* Reads a plan from the arguments after the file. */
static bool read_plan(int argc, char **argv, struct plan *p)
{
    *p = (struct plan){.pause = UINT64_MAX, .tear = UINT64_MAX};
    if (argc < 1 || argc % 2 == 0 || !read_pieces(argv[0], p))
        return false;
    for (int i = 1; i < argc; i += 2) {
        bool pause = strcmp(argv[i], "pause") == 0;
        if (!pause && strcmp(argv[i], "tear") != 0)
            return false;
        if (!number(argv[i + 1], UINT64_MAX, pause ? &p->pause : &p->tear))
            return false;
    }
    return true;
}

int main(int argc, char **argv)
{
    uint64_t port, claim, bytes;
    struct plan p;
    if (argc < 5 || !number(argv[1], 65535, &port))
        return usage();
    bool hostile = strcmp(argv[3], "primer") == 0;
    if (hostile ? argc != 6 || !number(argv[4], UINT64_MAX, &claim) || !number(argv[5], UINT64_MAX, &bytes)
                : !read_plan(argc - 4, argv + 4, &p))
        return usage();
    FILE *file = hostile ? NULL : fopen(argv[3], "rb");
    int to = hostile || file != NULL ? connect_to(port, argv[2]) : -1;
    if (to < 0) {
        perror("send");
        return 1;
    }
    bool sent = hostile ? send_primer(to, claim, bytes) : send_file(to, file, &p);
    return finish(to) && sent ? 0 : REFUSED;
}
