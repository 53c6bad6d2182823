/* How much stack each exported call takes on this machine: a thread paints the stack below it, makes the call on hostile bytes,
 * and looks for the deepest byte that was touched. A line for each call has the most over all buffers, beyond a call that
 * does nothing. With the word `first` each is the first call that its process makes: where libc is bound lazily the loader looks
 * its functions up on the caller's stack. */
#include <pthread.h>
#include <stdio.h>
#include <stdlib.h>
#include <sys/mman.h>
#include <sys/wait.h>
#include <unistd.h>

#include "hostile.h"

#define STACK (1 << 18)
#define PAINT 0xa5

/* The most of each call, shared by all processes. */
static size_t *most;
/* The call that is measured, and the one behind the last. */
static int next, last = CALLS;

/* Where the caller's frame ends, but for what a call itself saves. */
__attribute__((noinline)) static volatile uint8_t *below(void) { return __builtin_frame_address(0); }

/* Makes every call that is asked for once, each on a newly painted stack, and notes how deep it went. */
static void *measure(void *stack)
{
    volatile uint8_t *low = stack, *here = below();
    for (int i = next; i < last; i++) {
        calls[i].once();
        calls[i].before();
        for (volatile uint8_t *p = low; p < here; p++)
            *p = PAINT;
        calls[i].call();
        volatile uint8_t *touched = low;
        while (touched < here && *touched == PAINT)
            touched++;
        size_t depth = here - touched;
        if (depth > most[i])
            most[i] = depth;
    }
    return 0;
}

/* Measures on the bytes as they are. */
static void measured(void)
{
    static uint8_t *stack;
    pthread_attr_t attributes;
    pthread_t thread;
    if (!stack && posix_memalign((void **)&stack, 65536, STACK) != 0)
        exit(1);
    pthread_attr_init(&attributes);
    pthread_attr_setstack(&attributes, stack, STACK);
    if (pthread_create(&thread, &attributes, measure, stack) != 0)
        exit(1);
    pthread_join(thread, 0);
}

/* The same, each call in a process of its own. */
static void measured_first(void)
{
    for (int i = 0; i < CALLS; i++) {
        pid_t child = fork();
        if (child == 0) {
            next = i;
            last = i + 1;
            measured();
            _exit(0);
        }
        int status;
        if (child < 0 || waitpid(child, &status, 0) != child || status != 0)
            exit(1);
    }
}

int main(int argc, char **argv)
{
    most = mmap(0, CALLS * sizeof *most, PROT_READ | PROT_WRITE, MAP_SHARED | MAP_ANONYMOUS, -1, 0);
    if (most == MAP_FAILED)
        return 1;
    each_buffer(argc > 1 && argv[1][0] == 'f' ? measured_first : measured);
    for (int i = 1; i < CALLS; i++)
        printf("%s %zu\n", calls[i].name, most[i] > most[0] ? most[i] - most[0] : 0);
    return 0;
}
