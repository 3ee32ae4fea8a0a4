/* LMDB as an engine: a map in a temporary folder, synced or not; each change is a transaction. */
#include "bench.h"

#include <lmdb.h>
#include <string.h>

enum { MAP_BYTES = 4 << 20 };

/* One folder for the map in use and one for the copy to open: a process must not open a map twice. */
struct state {
    char *folder, *copy_folder;
    MDB_env *kept, *opened;
    MDB_txn *reads, *opened_reads;
    MDB_dbi table;
    unsigned flags;
};

static MDB_env *open_folder(const char *path, unsigned flags)
{
    MDB_env *env;
    EXPECT(mdb_env_create(&env) == 0);
    EXPECT(mdb_env_set_mapsize(env, MAP_BYTES) == 0);
    EXPECT(mdb_env_open(env, path, flags, 0600) == 0);
    return env;
}

static MDB_txn *begin(MDB_env *env, unsigned flags)
{
    MDB_txn *txn;
    EXPECT(mdb_txn_begin(env, NULL, flags, &txn) == 0);
    return txn;
}

static MDB_val key_of(const struct name *n)
{
    return (MDB_val){n->length, (void *)n->bytes};
}

static void put_in(MDB_txn *txn, MDB_dbi table, const struct name *n, uint64_t value, unsigned flags)
{
    MDB_val key = key_of(n), data = {sizeof value, &value};
    EXPECT(mdb_put(txn, table, &key, &data, flags) == 0);
}

static void put(const struct state *self, const struct name *n, uint64_t value, unsigned flags)
{
    MDB_txn *txn = begin(self->kept, 0);
    put_in(txn, self->table, n, value, flags);
    EXPECT(mdb_txn_commit(txn) == 0);
}

static void add(void *state, const struct name *n)
{
    put(state, n, n->value, MDB_NOOVERWRITE);
}

static void replace(void *state, const struct name *n, uint64_t value)
{
    put(state, n, value, 0);
}

static void *start(const struct scene *s, const void *with)
{
    struct state *self = room(sizeof *self);
    self->folder = new_folder();
    self->copy_folder = new_folder();
    self->flags = ((const struct lmdb_kind *)with)->flags;
    self->kept = open_folder(self->folder, self->flags);
    MDB_txn *txn = begin(self->kept, 0);
    EXPECT(mdb_dbi_open(txn, NULL, 0, &self->table) == 0);
    for (size_t i = 0; i < s->held_count; i++)
        put_in(txn, self->table, &s->held[i], s->held[i].value, MDB_NOOVERWRITE);
    EXPECT(mdb_txn_commit(txn) == 0);
    EXPECT(mdb_env_copy(self->kept, self->copy_folder) == 0);
    return self;
}

static void end(void *state)
{
    struct state *self = state;
    mdb_env_close(self->kept);
    free(self->folder);
    free(self->copy_folder);
    free(self);
}

static void begin_reads(void *state)
{
    struct state *self = state;
    self->reads = begin(self->kept, MDB_RDONLY);
}

static void end_reads(void *state)
{
    struct state *self = state;
    mdb_txn_abort(self->reads);
}

static bool get(MDB_txn *txn, MDB_dbi from, const struct name *n, uint64_t *value)
{
    MDB_val key = key_of(n), data;
    int answer = mdb_get(txn, from, &key, &data);
    EXPECT(answer == 0 || answer == MDB_NOTFOUND);
    if (answer == 0)
        memcpy(value, data.mv_data, sizeof *value);
    return answer == 0;
}

static bool lookup(void *state, const struct name *n, uint64_t *value)
{
    const struct state *self = state;
    return get(self->reads, self->table, n, value);
}

static void removed(void *state, const struct name *n)
{
    const struct state *self = state;
    MDB_val key = key_of(n);
    MDB_txn *txn = begin(self->kept, 0);
    EXPECT(mdb_del(txn, self->table, &key, NULL) == 0);
    EXPECT(mdb_txn_commit(txn) == 0);
}

static size_t list(void *state, const struct name *first, const struct name *second, uint8_t *output)
{
    const struct state *self = state;
    MDB_val key = key_of(first), last = key_of(second), data;
    MDB_cursor *cursor;
    size_t count = 0;
    EXPECT(mdb_cursor_open(self->reads, self->table, &cursor) == 0);
    int answer = mdb_cursor_get(cursor, &key, &data, MDB_SET_RANGE);
    while (answer == 0 && mdb_cmp(self->reads, self->table, &key, &last) <= 0) {
        uint8_t *entry = output + LISTED_BYTES * count++;
        memset(entry, 0x20, NAME_DIGITS);
        memcpy(entry, key.mv_data, key.mv_size);
        memcpy(entry + NAME_DIGITS, data.mv_data, sizeof(uint64_t));
        answer = mdb_cursor_get(cursor, &key, &data, MDB_NEXT);
    }
    EXPECT(answer == 0 || answer == MDB_NOTFOUND);
    mdb_cursor_close(cursor);
    return count;
}

/* Opened for changes too, as ours is. */
static bool opened_lookup(void *state, const struct name *n, uint64_t *value)
{
    struct state *self = state;
    MDB_dbi from;
    self->opened = open_folder(self->copy_folder, self->flags);
    self->opened_reads = begin(self->opened, MDB_RDONLY);
    EXPECT(mdb_dbi_open(self->opened_reads, NULL, 0, &from) == 0);
    return get(self->opened_reads, from, n, value);
}

static void closed(void *state)
{
    struct state *self = state;
    mdb_txn_abort(self->opened_reads);
    mdb_env_close(self->opened);
}

const struct engine lmdb = {
    .start = start,
    .end = end,
    .begin_reads = begin_reads,
    .end_reads = end_reads,
    .lookup = lookup,
    .replace = replace,
    .add = add,
    .remove = removed,
    .list = list,
    .open = opened_lookup,
    .close = closed,
};
