/* Finds the calls of a build of the library, so that two builds can be measured side by side. */
#include "bench.h"

#include <dlfcn.h>

static void *symbol(void *from, const char *name)
{
    void *found = dlsym(from, name);
    if (!found) {
        fprintf(stderr, "bench: %s\n", dlerror());
        exit(1);
    }
    return found;
}

struct library open_library(const char *path)
{
    void *from = dlopen(path, RTLD_NOW | RTLD_LOCAL);
    if (!from) {
        fprintf(stderr, "bench: %s\n", dlerror());
        exit(1);
    }
    return (struct library){
        .create = symbol(from, "pal_create"),
        .check = symbol(from, "pal_check"),
        .recover = symbol(from, "pal_recover"),
        .rebuild = symbol(from, "pal_rebuild"),
        .lookup = symbol(from, "pal_lookup"),
        .put = symbol(from, "pal_put"),
        .remove = symbol(from, "pal_remove"),
        .list = symbol(from, "pal_list"),
    };
}

/* The entries of version 3 have a run behind the value. */
size_t entry_bytes_of(unsigned version)
{
    return version == 3 ? MOST_ENTRY : LISTED_BYTES;
}

bool offers_version(const struct library *library, unsigned version)
{
    enum { B = 2, SLOTS = 1 };
    uint8_t file[16 + SLOTS * (64 + MOST_ENTRY * B)], trie[PAL_TRIE_BYTES];
    size_t length = 16 + SLOTS * (64 + entry_bytes_of(version) * B);
    return library->create(file, length, version, B, SLOTS, trie, sizeof trie) == PAL_CREATED;
}
