/* How long each exported call takes on this machine: a line for each call has the longest time over all buffers of hostile bytes, in
 * ns, for buffers of three sizes. Of each buffer it is the least time of many passes, in rounds over all of them, beyond a call that does
 * nothing: other work on the machine makes a pass longer, never shorter. */
#include <stdio.h>
#include <time.h>

#include "hostile.h"

#define ROUNDS 4
#define PASSES 12
/* The calls of a pass where one is short. */
#define SHORT_CALLS 32
#define SHORT_NS 1000

static const size_t sizes[] = {1 << 16, 1 << 18, 1 << 20};
enum { SIZES = sizeof sizes / sizeof *sizes };
static double times[SIZES][CALLS][BUFFERS];
static int sized, buffer;

static double now(clockid_t clock)
{
    struct timespec t;
    clock_gettime(clock, &t);
    return t.tv_sec * 1e9 + t.tv_nsec;
}

/* The time of so many calls, each after what is done before it. */
static double pass(clockid_t clock, void (*before)(void), void (*call)(void), int count)
{
    const double began = now(clock);
    for (int i = 0; i < count; i++) {
        before();
        call();
    }
    return now(clock) - began;
}

/* The least time of a call, beyond one that does nothing after the same. Of a long one it is the processor's, without what other
 * work takes of it; a short one is over before that clock is read. */
static double least(int i)
{
    calls[i].once();
    const int count = pass(CLOCK_MONOTONIC, calls[i].before, calls[i].call, 1) < SHORT_NS ? SHORT_CALLS : 1;
    const clockid_t clock = count == 1 ? CLOCK_THREAD_CPUTIME_ID : CLOCK_MONOTONIC;
    double with = 1e18, without = 1e18;
    for (int n = 0; n < PASSES; n++) {
        const double a = pass(clock, calls[i].before, calls[i].call, count), b = pass(clock, calls[i].before, do_nothing, count);
        with = a < with ? a : with;
        without = b < without ? b : without;
    }
    return with > without ? (with - without) / count : 0;
}

/* Measures every call on the bytes as they are. A frame's shape is brine_arri_values' alone. */
static void measured(void)
{
    for (int i = 1; i < CALLS; i++) {
        if (shape > 0 && calls[i].call != do_arri_values)
            continue;
        const double time = least(i);
        double *const so_far = &times[sized][i][buffer];
        *so_far = *so_far == 0 || time < *so_far ? time : *so_far;
    }
    buffer++;
}

/* The longest time of a call over all buffers of a size. */
static double longest(int s, int i)
{
    double most = 0;
    for (int b = 0; b < BUFFERS; b++)
        most = times[s][i][b] > most ? times[s][i][b] : most;
    return most;
}

int main(void)
{
    for (int n = 0; n < ROUNDS * SIZES; n++) {
        sized = n % SIZES;
        size = sizes[sized];
        buffer = 0;
        each_buffer(measured);
    }
    for (int i = 1; i < CALLS; i++)
        printf("%s %.1f %.1f %.1f\n", calls[i].name, longest(0, i), longest(1, i), longest(2, i));
    return 0;
}
