/* Fills a file to 70 %, or as far as it goes, and gathers the states and names to measure with. */
#include "bench.h"

#include <string.h>

static unsigned used_slots(const struct scene *s)
{
    unsigned used = 0;
    for (unsigned i = 0; i < s->slots; i++)
        used += s->file[16 + i * s->slot_bytes];
    return used;
}

static uint64_t put(const struct library *library, struct scene *s, const struct name *n)
{
    uint64_t out[4];
    return library->put(s->file, s->file_length, s->grown, PAL_TRIE_BYTES, n->bytes, n->length, n->value, 0, 2, out);
}

static uint8_t *copy_of(const uint8_t *bytes, size_t length)
{
    return memcpy(room(length), bytes, length);
}

/* Keep the state from before the put of n; of more than fit, the latest are kept. */
static void keep_split(struct scene *s, uint8_t *file, uint8_t *trie, const struct name *n)
{
    if (s->split_count == MOST_SPLITS) {
        free(s->splits[0].file);
        free(s->splits[0].trie);
        memmove(s->splits, s->splits + 1, (MOST_SPLITS - 1) * sizeof *s->splits);
        s->split_count--;
    }
    s->splits[s->split_count++] = (struct split){file, trie, n};
}

static void fill(const struct library *library, struct scene *s, const struct name *names, size_t count)
{
    size_t target = (s->b * s->slots * 7 + 5) / 10;
    EXPECT(target < count);
    while (s->held_count < target) {
        const struct name *n = &names[s->held_count];
        uint8_t *file = copy_of(s->file, s->file_length), *trie = copy_of(s->grown, PAL_TRIE_BYTES);
        unsigned used = used_slots(s);
        uint64_t answer = put(library, s, n);
        if (answer == PAL_ADDED && used_slots(s) > used && 2 * used >= s->slots) {
            keep_split(s, file, trie, n);
        } else {
            free(file);
            free(trie);
        }
        if (answer == PAL_NO_FREE_SLOT || answer == PAL_TOO_MANY_STRINGS) {
            s->ended_by = answer;
            break;
        }
        EXPECT(answer == PAL_ADDED);
        s->held_count++;
    }
    s->held = names;
    s->absent = names + s->held_count;
    s->absent_count = count - s->held_count;
    EXPECT(s->held_count > 0 && s->split_count > 0);
}

/* Absent names that can be added one after the other without a split; the file is then put back. */
static void choose_adds(const struct library *library, struct scene *s)
{
    uint8_t *file = copy_of(s->file, s->file_length), *trie = copy_of(s->grown, PAL_TRIE_BYTES);
    uint8_t *before = room(s->file_length), *trie_before = room(PAL_TRIE_BYTES);
    for (size_t i = 0; i < s->absent_count && s->add_count < MOST_ADDS; i++) {
        memcpy(before, s->file, s->file_length);
        memcpy(trie_before, s->grown, PAL_TRIE_BYTES);
        uint64_t answer = put(library, s, &s->absent[i]);
        EXPECT(answer == PAL_ADDED || answer == PAL_NO_FREE_SLOT || answer == PAL_TOO_MANY_STRINGS);
        if (answer == PAL_ADDED && used_slots(s) == s->used) {
            s->adds[s->add_count++] = &s->absent[i];
        } else {
            memcpy(s->file, before, s->file_length);
            memcpy(s->grown, trie_before, PAL_TRIE_BYTES);
        }
    }
    memcpy(s->file, file, s->file_length);
    memcpy(s->grown, trie, PAL_TRIE_BYTES);
    free(file);
    free(trie);
    free(before);
    free(trie_before);
    EXPECT(s->add_count > 0);
}

/* The last name of slot i, in a scene whose held names are in order; NULL where the slot has none. */
static const struct name *last_of(const struct scene *s, unsigned i)
{
    const uint8_t *slot = s->file + 16 + i * s->slot_bytes;
    struct name last;
    if (slot[1] == 0)
        return NULL;
    memcpy(last.bytes, slot + 64 + s->entry_bytes * (slot[1] - 1u), NAME_DIGITS);
    const struct name *held = bsearch(&last, s->ascending, s->held_count, sizeof *s->ascending, by_name);
    EXPECT(held != NULL);
    return held;
}

/* The names of each pass of look ups, drawn with a fixed seed. */
static void draw(struct scene *s)
{
    uint64_t state = 723;
    for (size_t i = 0; i < DRAWS; i++) {
        s->hits[i] = &s->held[next_random(&state) % s->held_count];
        s->misses[i] = &s->absent[next_random(&state) % s->absent_count];
    }
    for (size_t i = 0; i < DRAWS;) {
        const struct name *last = last_of(s, next_random(&state) % s->slots);
        if (last)
            s->latest[i++] = last;
    }
}

struct scene *make_scene(const struct library *library, unsigned version, unsigned b, unsigned slots)
{
    size_t count;
    const struct name *names = all_names(&count);
    struct scene *s = room(sizeof *s);
    s->version = version;
    s->b = b;
    s->slots = slots;
    snprintf(s->title, sizeof s->title, "b = %u, %u slots, version %u", b, slots, version);
    s->entry_bytes = entry_bytes_of(version);
    s->slot_bytes = 64 + s->entry_bytes * b;
    s->file_length = 16 + slots * s->slot_bytes;
    s->file = room(s->file_length);
    s->grown = room(PAL_TRIE_BYTES);
    s->rebuilt = room(PAL_TRIE_BYTES);
    EXPECT(library->create(s->file, s->file_length, version, b, slots, s->grown, PAL_TRIE_BYTES) == PAL_CREATED);
    fill(library, s, names, count);
    EXPECT(library->check(s->file, s->file_length) == PAL_SOUND);
    EXPECT(library->rebuild(s->file, s->file_length, s->rebuilt, PAL_TRIE_BYTES) == PAL_REBUILT);
    s->used = used_slots(s);
    s->cells = s->grown[0] + 256u * s->grown[1];
    choose_adds(library, s);

    s->ascending = room(s->held_count * sizeof *s->ascending);
    memcpy(s->ascending, s->held, s->held_count * sizeof *s->ascending);
    qsort(s->ascending, s->held_count, sizeof *s->ascending, by_name);
    draw(s);
    return s;
}

void free_scene(struct scene *s)
{
    for (size_t i = 0; i < s->split_count; i++) {
        free(s->splits[i].file);
        free(s->splits[i].trie);
    }
    free(s->file);
    free(s->grown);
    free(s->rebuilt);
    free(s->ascending);
    free(s);
}
