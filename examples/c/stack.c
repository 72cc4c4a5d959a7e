/* How much stack a step call takes: a thread on a painted stack steps a site, and the deepest byte that lost its paint is found.
 *
 *     cc -O2 -pthread -Iinclude examples/c/stack.c target/staticlib/libwillowera.a -o target/stack
 *     ./stack examples/largest/personality.bin 2000
 */
#define _DEFAULT_SOURCE
#include <pthread.h>
#include <stdio.h>
#include <stdlib.h>
#include <string.h>

#include "willowera.h"

enum { STACK = 256 * 1024, PAINT = 0xA5 };

struct run {
    const uint8_t *personality;
    size_t length;
    long steps;
    const uint8_t *caller; /* a byte of the caller's own frame */
};

/* Steps from the fresh state with random inputs. The largest site has a detector or button at every bit; another may refuse them. */
static void *step(void *argument)
{
    struct run *run = argument;
    uint8_t state[WILLOWERA_STATE_BYTES];
    uint8_t colours[WILLOWERA_MOST_GROUPS];
    uint64_t random = 88172645463325252u;

    run->caller = state;
    willowera_fresh(run->personality, run->length, state, sizeof state);
    for (long i = 0; i < run->steps; i++) {
        random ^= random << 13;
        random ^= random >> 7;
        random ^= random << 17;
        willowera_step(run->personality, run->length, state, sizeof state, random & UINT64_C(0x00ffffffffffffff), colours,
                       sizeof colours);
    }
    return NULL;
}

/* How far below the caller's frame a thread went. */
static size_t depth_of(struct run *run)
{
    pthread_attr_t attributes;
    pthread_t thread;
    size_t untouched = 0;
    uint8_t *stack = aligned_alloc(4096, STACK);

    if (stack == NULL || pthread_attr_init(&attributes) != 0)
        exit(1);
    memset(stack, PAINT, STACK);
    if (pthread_attr_setstack(&attributes, stack, STACK) != 0 || pthread_create(&thread, &attributes, step, run) != 0)
        exit(1);
    pthread_join(thread, NULL);
    while (untouched < STACK && stack[untouched] == PAINT)
        untouched++;
    size_t depth = (size_t)(run->caller - (stack + untouched));
    pthread_attr_destroy(&attributes);
    free(stack);
    return depth;
}

int main(int count, char **words)
{
    static uint8_t personality[65536];
    struct run run = {personality, 0, 0, NULL};
    FILE *file = count == 3 ? fopen(words[1], "rb") : NULL;

    if (file == NULL) {
        fprintf(stderr, "usage: stack PERSONALITY STEPS\n");
        return 2;
    }
    run.length = fread(personality, 1, sizeof personality, file);
    fclose(file);

    /* one call before, so that the loader's own work is done */
    run.steps = 1;
    step(&run);
    run.steps = 0;
    printf("below the caller without steps: %zu bytes\n", depth_of(&run));
    run.steps = strtol(words[2], NULL, 10);
    printf("below the caller with steps:    %zu bytes\n", depth_of(&run));
    return 0;
}
