/* The operations that are measured: what each does, and what of it counts. */
#include "bench.h"

#include <string.h>

static void begin_reads(const struct contestant *c)
{
    if (c->engine->begin_reads)
        c->engine->begin_reads(c->self);
}

static void end_reads(const struct contestant *c)
{
    if (c->engine->end_reads)
        c->engine->end_reads(c->self);
}

static uint64_t look_up(const struct contestant *c, bool (*lookup)(void *, const struct name *, uint64_t *),
                        const struct name *const *names, bool held, unsigned passes)
{
    if (!lookup)
        return 0;
    begin_reads(c);
    measure_from_here();
    for (unsigned p = 0; p < passes; p++) {
        for (size_t i = 0; i < DRAWS; i++) {
            uint64_t value;
            bool found = lookup(c->self, names[i], &value);
            EXPECT(found == held && (!held || value == names[i]->value));
        }
    }
    measure_to_here();
    end_reads(c);
    return (uint64_t)passes * DRAWS;
}

static uint64_t hit(const struct contestant *c, const struct scene *s, unsigned passes)
{
    return look_up(c, c->engine->lookup, s->hits, true, passes);
}

static uint64_t hit_latest(const struct contestant *c, const struct scene *s, unsigned passes)
{
    return look_up(c, c->engine->lookup, s->latest, true, passes);
}

static uint64_t hit_rebuilt(const struct contestant *c, const struct scene *s, unsigned passes)
{
    return look_up(c, c->engine->lookup_rebuilt, s->hits, true, passes);
}

static uint64_t miss(const struct contestant *c, const struct scene *s, unsigned passes)
{
    return look_up(c, c->engine->lookup, s->misses, false, passes);
}

static size_t at_most(const struct contestant *c, size_t count)
{
    return c->waits && count > MOST_WAITS ? MOST_WAITS : count;
}

/* Forth and back, so that each put changes the value and the file ends as it began. */
static uint64_t replace(const struct contestant *c, const struct scene *s, unsigned passes)
{
    size_t count = at_most(c, s->held_count < REPLACES ? s->held_count : REPLACES);
    measure_from_here();
    for (unsigned p = 0; p < passes; p++) {
        for (size_t i = 0; i < count; i++)
            c->engine->replace(c->self, &s->held[i], s->held[i].value ^ 1);
        for (size_t i = 0; i < count; i++)
            c->engine->replace(c->self, &s->held[i], s->held[i].value);
    }
    measure_to_here();
    return 2 * count * passes;
}

static void add_all(const struct contestant *c, const struct scene *s)
{
    for (size_t i = 0; i < at_most(c, s->add_count); i++)
        c->engine->add(c->self, s->adds[i]);
}

static void remove_all(const struct contestant *c, const struct scene *s)
{
    for (size_t i = 0; i < at_most(c, s->add_count); i++)
        c->engine->remove(c->self, s->adds[i]);
}

static uint64_t add(const struct contestant *c, const struct scene *s, unsigned passes)
{
    for (unsigned p = 0; p < passes; p++) {
        measure_from_here();
        add_all(c, s);
        measure_to_here();
        if (c->engine->restore)
            c->engine->restore(c->self);
        else
            remove_all(c, s);
    }
    return passes * at_most(c, s->add_count);
}

static uint64_t remove_added(const struct contestant *c, const struct scene *s, unsigned passes)
{
    for (unsigned p = 0; p < passes; p++) {
        add_all(c, s);
        measure_from_here();
        remove_all(c, s);
        measure_to_here();
        if (c->engine->restore)
            c->engine->restore(c->self);
    }
    return passes * at_most(c, s->add_count);
}

/* Each split is made in a fresh copy of its prepared state. The others just add again. */
static uint64_t add_with_split(const struct contestant *c, const struct scene *s, unsigned passes)
{
    if (!c->engine->split)
        return add(c, s, passes);
    for (unsigned p = 0; p < passes; p++) {
        for (size_t i = 0; i < s->split_count; i++) {
            c->engine->prepare_split(c->self, &s->splits[i]);
            measure_from_here();
            c->engine->split(c->self, &s->splits[i]);
            measure_to_here();
        }
    }
    return passes * s->split_count;
}

static uint8_t output[MOST_HELD * MOST_ENTRY];

/* The first and the last of all legal names. */
static const struct name least = {"!                       ", 1, 0};
static const struct name greatest = {"}}}}}}}}}}}}}}}}}}}}}}}}", NAME_DIGITS, 0};

static size_t list_everything(const struct contestant *c)
{
    return c->engine->list(c->self, &least, &greatest, output);
}

static uint64_t list_all(const struct contestant *c, const struct scene *s, unsigned passes)
{
    begin_reads(c);
    measure_from_here();
    for (unsigned p = 0; p < passes; p++)
        EXPECT(list_everything(c) == s->held_count);
    measure_to_here();
    end_reads(c);
    return passes;
}

enum { TENTHS = 8 }; /* places in the file where a tenth is listed */

size_t tenth(const struct scene *s)
{
    return (s->held_count + 5) / 10;
}

static size_t list_one_tenth(const struct contestant *c, const struct scene *s, size_t place, size_t *first)
{
    size_t count = tenth(s);
    *first = (s->held_count - count) * place / (TENTHS - 1);
    return c->engine->list(c->self, &s->ascending[*first], &s->ascending[*first + count - 1], output);
}

static uint64_t list_tenth(const struct contestant *c, const struct scene *s, unsigned passes)
{
    size_t first;
    begin_reads(c);
    measure_from_here();
    for (unsigned p = 0; p < passes; p++) {
        for (size_t i = 0; i < TENTHS; i++)
            EXPECT(list_one_tenth(c, s, i, &first) == tenth(s));
    }
    measure_to_here();
    end_reads(c);
    return (uint64_t)passes * TENTHS;
}

static uint64_t open_and_look_up(const struct contestant *c, const struct scene *s, unsigned passes)
{
    for (unsigned p = 0; p < passes; p++) {
        const struct name *n = s->hits[p % DRAWS];
        uint64_t value;
        measure_from_here();
        bool found = c->engine->open(c->self, n, &value);
        measure_to_here();
        EXPECT(found && value == n->value);
        if (c->engine->close)
            c->engine->close(c->self);
    }
    return passes;
}

static uint64_t repeat(const struct contestant *c, void (*call)(void *), unsigned passes)
{
    if (!call)
        return 0;
    measure_from_here();
    for (unsigned p = 0; p < passes; p++)
        call(c->self);
    measure_to_here();
    return passes;
}

static uint64_t check(const struct contestant *c, const struct scene *s, unsigned passes)
{
    (void)s;
    return repeat(c, c->engine->check, passes);
}

static uint64_t rebuild(const struct contestant *c, const struct scene *s, unsigned passes)
{
    (void)s;
    return repeat(c, c->engine->rebuild, passes);
}

static uint64_t recover(const struct contestant *c, const struct scene *s, unsigned passes)
{
    (void)s;
    return repeat(c, c->engine->recover, passes);
}

const struct operation operations[] = {
    {"look up, held", hit},
    {"look up, latest", hit_latest},
    {"look up, absent", miss},
    {"look up, held, trie rebuilt", hit_rebuilt},
    {"put, replaces", replace},
    {"put, adds", add},
    {"put, adds and splits", add_with_split},
    {"remove", remove_added},
    {"list everything", list_all},
    {"list a tenth", list_tenth},
    {"open: rebuild, look up", open_and_look_up},
    {"check", check},
    {"rebuild", rebuild},
    {"recover, sound file", recover},
};
const int operation_count = sizeof operations / sizeof *operations;

uint64_t run_operation(const struct operation *o, const struct contestant *c, const struct scene *s, unsigned passes)
{
    if (c->engine->instead)
        return repeat(c, c->engine->instead, passes);
    return o->run(c, s, passes);
}

/* The entries listed are, each in its bytes, the held names in order from the one given; behind a value nothing but zeros. */
static void expect_listed(const struct contestant *c, const struct scene *s, size_t first, size_t count)
{
    static const uint8_t zeros[MOST_ENTRY - LISTED_BYTES];
    size_t bytes = c->engine->entry_bytes ? c->engine->entry_bytes(c->self) : LISTED_BYTES;
    for (size_t i = 0; i < count; i++) {
        const uint8_t *entry = output + bytes * i;
        const struct name *n = &s->ascending[first + i];
        EXPECT(memcmp(entry, n->bytes, NAME_DIGITS) == 0);
        EXPECT(memcmp(entry + NAME_DIGITS, &n->value, sizeof n->value) == 0);
        EXPECT(memcmp(entry + LISTED_BYTES, zeros, bytes - LISTED_BYTES) == 0);
    }
}

/* All contestants hold the same names and values. */
void compare_lists(const struct contestant *c, const struct scene *s)
{
    if (!c->engine->list)
        return;
    begin_reads(c);
    EXPECT(list_everything(c) == s->held_count);
    expect_listed(c, s, 0, s->held_count);
    for (size_t i = 0; i < TENTHS; i++) {
        size_t first;
        EXPECT(list_one_tenth(c, s, i, &first) == tenth(s));
        expect_listed(c, s, first, tenth(s));
    }
    end_reads(c);
}
