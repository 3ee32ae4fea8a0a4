/* What the parts of the benchmark share: names, a scene to measure in, and engines to measure. */
#ifndef BENCH_H
#define BENCH_H

#include <stdbool.h>
#include <stddef.h>
#include <stdint.h>
#include <stdio.h>
#include <stdlib.h>

#include "palhavento.h"

enum {
    NAME_DIGITS = 24,
    LISTED_BYTES = 32,   /* an entry of every list here: a filled name and its value */
    MOST_ENTRY = 40,     /* the bytes of the largest entry in a file */
    MOST_HELD = 16 * 64, /* the entries of the largest file */
    MOST_SPLITS = 16,    /* prepared states in which a put splits */
    MOST_ADDS = 24,      /* names that can all be added without a split */
    DRAWS = 1024,        /* look ups in one pass: too many to be learned by heart */
    REPLACES = 32,       /* names that are replaced in one pass */
    MOST_WAITS = 4       /* names that are changed in one pass where each change waits for the disk */
};

/* A name with the value it has throughout; the bytes behind its length are 0x20. */
struct name {
    uint8_t bytes[NAME_DIGITS];
    size_t length;
    uint64_t value;
};

/* The calls of one build of the library. */
struct library {
    __typeof__(pal_create) *create;
    __typeof__(pal_check) *check;
    __typeof__(pal_recover) *recover;
    __typeof__(pal_rebuild) *rebuild;
    __typeof__(pal_lookup) *lookup;
    __typeof__(pal_put) *put;
    __typeof__(pal_remove) *remove;
    __typeof__(pal_list) *list;
};

/* A file and trie from before a put, and the name whose put splits a bucket there. */
struct split {
    uint8_t *file, *trie;
    const struct name *name;
};

/* One file, filled, with all names that the operations use. */
struct scene {
    char title[64];
    unsigned version, b, slots, used, cells;
    uint64_t ended_by; /* the refusal that ended the filling, or 0 */
    size_t entry_bytes, slot_bytes, file_length;
    uint8_t *file, *grown, *rebuilt; /* the trie as it grew, and rebuilt from the file */

    const struct name *held, *absent; /* in the order of the shuffle */
    size_t held_count, absent_count;
    struct name *ascending; /* the held names in their order */
    const struct name *hits[DRAWS], *latest[DRAWS], *misses[DRAWS]; /* latest: each the last of its bucket */

    const struct name *adds[MOST_ADDS];
    size_t add_count;
    struct split splits[MOST_SPLITS];
    size_t split_count;
};

/*
 * Something that keeps names. Each function does one operation and ends the program when it does
 * not go as it should. Functions that an engine lacks are NULL. `start` gives the state that the
 * others take, or NULL where the engine cannot hold this scene's file; `with` says which kind of
 * the engine it is.
 */
struct engine {
    void *(*start)(const struct scene *, const void *with);
    void (*end)(void *);
    void (*begin_reads)(void *); /* around a row of reads, for engines with read transactions */
    void (*end_reads)(void *);
    bool (*lookup)(void *, const struct name *, uint64_t *value);
    void (*replace)(void *, const struct name *, uint64_t value);
    void (*add)(void *, const struct name *);
    void (*remove)(void *, const struct name *);
    void (*restore)(void *); /* the beginning's bytes, where that can be copied; not timed */
    size_t (*list)(void *, const struct name *first, const struct name *second, uint8_t *output);
    size_t (*entry_bytes)(void *); /* of an entry that it lists, where that is not LISTED_BYTES */
    void (*check)(void *);
    bool (*open)(void *, const struct name *, uint64_t *value); /* open a kept file and look a name up */
    void (*close)(void *);                                      /* undo open; not timed */

    /* Ours alone. */
    bool (*lookup_rebuilt)(void *, const struct name *, uint64_t *value);
    void (*prepare_split)(void *, const struct split *); /* not timed */
    void (*split)(void *, const struct split *);
    void (*rebuild)(void *);
    void (*recover)(void *);

    void (*instead)(void *); /* the floor alone: what it does in place of every operation */
};

extern const struct engine palhavento, sqlite, lmdb, array, reading;

/* The kinds of the engines that have several; a palhavento's is its library. */
struct sqlite_kind {
    const char *journal; /* on disk with this journal, or in memory where NULL */
};
struct lmdb_kind {
    unsigned flags;
};

/* An engine that takes part, and its state in one scene. */
struct contestant {
    const char *title;
    const struct engine *engine;
    const void *with;
    void *self;
    bool waits; /* each change waits for the disk */
};

/* operations.c: each does its work `passes` times, leaves the engine as it was, and gives the number of operations. */
struct operation {
    const char *title;
    uint64_t (*run)(const struct contestant *, const struct scene *, unsigned passes);
};
extern const struct operation operations[];
extern const int operation_count;
uint64_t run_operation(const struct operation *, const struct contestant *, const struct scene *, unsigned passes);
size_t tenth(const struct scene *);
void compare_lists(const struct contestant *, const struct scene *);

/* What stands around the part of an operation that is measured: stopwatch.c times it, count.c counts its instructions. */
void measure_from_here(void);
void measure_to_here(void);

/* stopwatch.c */
void set_stopwatch(void);
uint64_t stopwatch_ns(void); /* since it was last asked */

/* names.c */
uint64_t next_random(uint64_t *state);
const struct name *all_names(size_t *count);
int by_name(const void *, const void *);

/* library.c */
struct library open_library(const char *path);
size_t entry_bytes_of(unsigned version);
bool offers_version(const struct library *, unsigned version);

/* scene.c */
struct scene *make_scene(const struct library *, unsigned version, unsigned b, unsigned slots);
void free_scene(struct scene *);

/* setting.c: the command line, the libraries that it names and the scenes that it asks for. */
enum { MOST_VERSIONS = 9, SIZES = 3, MOST_SCENES = SIZES * MOST_VERSIONS };
struct setting {
    struct library now, before;
    bool has_before;
    const char *folder;
    unsigned rounds;
    uint64_t lap_ns;
    struct scene *scenes[MOST_SCENES];
    int scene_count;
};
struct setting make_setting(int argc, char **argv);

/* scratch.c: folders that are gone when the program ends. */
void set_scratch(const char *parent);
char *new_folder(void);

/* The benchmark never goes on after a surprise: a refusal is quick, and would pass for a good time. */
#define EXPECT(condition)                                                                   \
    do {                                                                                    \
        if (!(condition)) {                                                                 \
            fprintf(stderr, "%s:%d: not as expected: %s\n", __FILE__, __LINE__, #condition); \
            exit(1);                                                                        \
        }                                                                                   \
    } while (0)

static inline void *room(size_t bytes)
{
    void *p = calloc(1, bytes);
    EXPECT(p != NULL);
    return p;
}

#endif
