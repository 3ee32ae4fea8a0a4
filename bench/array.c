/* A sorted array with binary search as an engine: what the file could be if it promised nothing. */
#include "bench.h"

#include <string.h>

struct entry {
    uint8_t name[NAME_DIGITS];
    uint64_t value;
};

struct state {
    struct entry entries[MOST_HELD + MOST_ADDS], opened[MOST_HELD + MOST_ADDS];
    size_t count;
};

static void fill(uint8_t *filled, const struct name *n)
{
    memset(filled, 0x20, NAME_DIGITS);
    memcpy(filled, n->bytes, n->length);
}

/* The first place whose name is not below the filled name. */
static size_t place(const struct entry *in, size_t count, const uint8_t *filled)
{
    size_t low = 0, high = count;
    while (low < high) {
        size_t middle = low + (high - low) / 2;
        if (memcmp(in[middle].name, filled, NAME_DIGITS) < 0)
            low = middle + 1;
        else
            high = middle;
    }
    return low;
}

static bool held_at(const struct entry *in, size_t count, size_t at, const uint8_t *filled)
{
    return at < count && memcmp(in[at].name, filled, NAME_DIGITS) == 0;
}

static void *start(const struct scene *s, const void *with)
{
    (void)with;
    struct state *self = room(sizeof *self);
    self->count = s->held_count;
    for (size_t i = 0; i < self->count; i++) {
        fill(self->entries[i].name, &s->ascending[i]);
        self->entries[i].value = s->ascending[i].value;
    }
    return self;
}

static bool lookup_in(const struct entry *in, size_t count, const struct name *n, uint64_t *value)
{
    uint8_t filled[NAME_DIGITS];
    fill(filled, n);
    size_t at = place(in, count, filled);
    if (!held_at(in, count, at, filled))
        return false;
    *value = in[at].value;
    return true;
}

static bool lookup(void *state, const struct name *n, uint64_t *value)
{
    const struct state *self = state;
    return lookup_in(self->entries, self->count, n, value);
}

static void replace(void *state, const struct name *n, uint64_t value)
{
    struct state *self = state;
    uint8_t filled[NAME_DIGITS];
    fill(filled, n);
    size_t at = place(self->entries, self->count, filled);
    EXPECT(held_at(self->entries, self->count, at, filled));
    self->entries[at].value = value;
}

static void add(void *state, const struct name *n)
{
    struct state *self = state;
    uint8_t filled[NAME_DIGITS];
    fill(filled, n);
    size_t at = place(self->entries, self->count, filled);
    struct entry *here = self->entries + at;
    EXPECT(!held_at(self->entries, self->count, at, filled));
    memmove(here + 1, here, (self->count - at) * sizeof *here);
    memcpy(here->name, filled, NAME_DIGITS);
    here->value = n->value;
    self->count++;
}

static void removed(void *state, const struct name *n)
{
    struct state *self = state;
    uint8_t filled[NAME_DIGITS];
    fill(filled, n);
    size_t at = place(self->entries, self->count, filled);
    struct entry *here = self->entries + at;
    EXPECT(held_at(self->entries, self->count, at, filled));
    self->count--;
    memmove(here, here + 1, (self->count - at) * sizeof *here);
}

static size_t list(void *state, const struct name *first, const struct name *second, uint8_t *output)
{
    const struct state *self = state;
    uint8_t filled[NAME_DIGITS];
    fill(filled, first);
    size_t from = place(self->entries, self->count, filled);
    fill(filled, second);
    size_t to = place(self->entries, self->count, filled);
    if (held_at(self->entries, self->count, to, filled))
        to++;
    if (to < from)
        return 0;
    memcpy(output, self->entries + from, (to - from) * sizeof *self->entries);
    return to - from;
}

/* All that can be wrong with it: names that do not ascend. */
static void check(void *state)
{
    const struct state *self = state;
    for (size_t i = 1; i < self->count; i++)
        EXPECT(memcmp(self->entries[i - 1].name, self->entries[i].name, NAME_DIGITS) < 0);
}

static bool opened(void *state, const struct name *n, uint64_t *value)
{
    struct state *self = state;
    memcpy(self->opened, self->entries, self->count * sizeof *self->entries);
    return lookup_in(self->opened, self->count, n, value);
}

const struct engine array = {
    .start = start,
    .end = free,
    .lookup = lookup,
    .replace = replace,
    .add = add,
    .remove = removed,
    .list = list,
    .check = check,
    .open = opened,
};
