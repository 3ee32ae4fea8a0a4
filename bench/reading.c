/* One read of the file, the floor under every call that looks at all of it: a sum over its words. */
#include "bench.h"

#include <string.h>

enum { LANES = 8 }; /* sums that do not wait for each other */

struct state {
    const uint64_t *words;
    size_t count;
};

static void *start(const struct scene *s, const void *with)
{
    (void)with;
    struct state *self = room(sizeof *self);
    self->words = memcpy(room(s->file_length), s->file, s->file_length);
    self->count = s->file_length / sizeof(uint64_t);
    return self;
}

static void end(void *state)
{
    struct state *self = state;
    free((void *)self->words);
    free(self);
}

static void read_all(void *state)
{
    const struct state *self = state;
    uint64_t sums[LANES] = {0}, sum = 0;
    size_t at = 0;
    for (; at + LANES <= self->count; at += LANES)
        for (size_t lane = 0; lane < LANES; lane++)
            sums[lane] += self->words[at + lane];
    for (; at < self->count; at++)
        sum += self->words[at];
    for (size_t lane = 0; lane < LANES; lane++)
        sum += sums[lane];
    __asm__ volatile("" : : "r"(sum)); /* or the compiler sees that nobody wants it */
}

const struct engine reading = {
    .start = start,
    .end = end,
    .instead = read_all,
};
