/* Palhavento as an engine, through the C interface of one build; every answer number is checked. */
#include "bench.h"

#include <string.h>

/* The file in use and its trie as grown. The scene's own bytes stay as they are. */
struct state {
    const struct library *library;
    const struct scene *scene;
    size_t length;
    uint8_t *file, *trie;
    uint8_t *split_file, *split_trie; /* where a prepared state is split */
    uint8_t *fresh_trie;              /* where a trie is rebuilt */
};

/* An earlier build does not know the newest versions of a file: it takes them for bad. */
static void *start(const struct scene *s, const void *library)
{
    struct state *self = room(sizeof *self);
    self->library = library;
    self->scene = s;
    self->length = s->file_length;
    if (self->library->check(s->file, s->file_length) == PAL_BAD) {
        free(self);
        return NULL;
    }
    self->file = memcpy(room(self->length), s->file, self->length);
    self->trie = memcpy(room(PAL_TRIE_BYTES), s->grown, PAL_TRIE_BYTES);
    self->split_file = room(self->length);
    self->split_trie = room(PAL_TRIE_BYTES);
    self->fresh_trie = room(PAL_TRIE_BYTES);
    return self;
}

static void end(void *state)
{
    struct state *self = state;
    free(self->file);
    free(self->trie);
    free(self->split_file);
    free(self->split_trie);
    free(self->fresh_trie);
    free(self);
}

static void restore(void *state)
{
    struct state *self = state;
    memcpy(self->file, self->scene->file, self->length);
    memcpy(self->trie, self->scene->grown, PAL_TRIE_BYTES);
}

static inline bool lookup_with(const struct state *self, const uint8_t *trie, const struct name *n, uint64_t *value)
{
    uint64_t out[4] = {0};
    uint64_t answer = self->library->lookup(self->file, self->length, trie, PAL_TRIE_BYTES, n->bytes, n->length, out);
    EXPECT(answer == PAL_FOUND || answer == PAL_ABSENT);
    *value = out[0];
    return answer == PAL_FOUND;
}

static bool lookup(void *state, const struct name *n, uint64_t *value)
{
    const struct state *self = state;
    return lookup_with(self, self->trie, n, value);
}

static bool lookup_rebuilt(void *state, const struct name *n, uint64_t *value)
{
    const struct state *self = state;
    return lookup_with(self, self->scene->rebuilt, n, value);
}

static inline uint64_t put(const struct state *self, uint8_t *file, uint8_t *trie, const struct name *n, uint64_t value,
                           uint64_t out[4])
{
    return self->library->put(file, self->length, trie, PAL_TRIE_BYTES, n->bytes, n->length, value, 0, 2, out);
}

static void replace(void *state, const struct name *n, uint64_t value)
{
    const struct state *self = state;
    uint64_t out[4];
    EXPECT(put(self, self->file, self->trie, n, value, out) == PAL_REPLACED);
    EXPECT((out[0] ^ 1) == value);
}

static void add(void *state, const struct name *n)
{
    const struct state *self = state;
    uint64_t out[4];
    EXPECT(put(self, self->file, self->trie, n, n->value, out) == PAL_ADDED);
}

static void removed(void *state, const struct name *n)
{
    const struct state *self = state;
    uint64_t out[4];
    EXPECT(self->library->remove(self->file, self->length, self->trie, PAL_TRIE_BYTES, n->bytes, n->length, 2, out) ==
           PAL_REMOVED);
}

static size_t list(void *state, const struct name *first, const struct name *second, uint8_t *output)
{
    const struct state *self = state;
    uint64_t out[4];
    EXPECT(self->library->list(self->file, self->length, self->trie, PAL_TRIE_BYTES, first->bytes, first->length,
                               second->bytes, second->length, output, MOST_HELD * MOST_ENTRY, out) == PAL_LISTED);
    return out[0];
}

static size_t entry_bytes(void *state)
{
    const struct state *self = state;
    return self->scene->entry_bytes;
}

static void check(void *state)
{
    const struct state *self = state;
    EXPECT(self->library->check(self->file, self->length) == PAL_SOUND);
}

static void rebuild(void *state)
{
    const struct state *self = state;
    EXPECT(self->library->rebuild(self->file, self->length, self->fresh_trie, PAL_TRIE_BYTES) == PAL_REBUILT);
}

static void recover(void *state)
{
    const struct state *self = state;
    uint64_t out[4];
    EXPECT(self->library->recover(self->file, self->length, 2, out) == PAL_NOTHING_TO_DO);
}

static bool opened(void *state, const struct name *n, uint64_t *value)
{
    const struct state *self = state;
    rebuild(state);
    return lookup_with(self, self->fresh_trie, n, value);
}

static void prepare_split(void *state, const struct split *s)
{
    const struct state *self = state;
    memcpy(self->split_file, s->file, self->length);
    memcpy(self->split_trie, s->trie, PAL_TRIE_BYTES);
}

static void split(void *state, const struct split *s)
{
    const struct state *self = state;
    uint64_t out[4];
    EXPECT(put(self, self->split_file, self->split_trie, s->name, s->name->value, out) == PAL_ADDED);
}

const struct engine palhavento = {
    .start = start,
    .end = end,
    .lookup = lookup,
    .replace = replace,
    .add = add,
    .remove = removed,
    .restore = restore,
    .list = list,
    .entry_bytes = entry_bytes,
    .check = check,
    .open = opened,
    .lookup_rebuilt = lookup_rebuilt,
    .prepare_split = prepare_split,
    .split = split,
    .rebuild = rebuild,
    .recover = recover,
};
