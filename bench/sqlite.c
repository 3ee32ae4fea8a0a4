/* SQLite as an engine, in memory or on disk, with prepared statements and as few locks as it allows. */
#include "bench.h"

#include <sqlite3.h>
#include <string.h>

enum { READ, UPSERT, INSERT, DELETE, LIST, CHECK, BEGIN, END, STATEMENTS };

static const char *const texts[STATEMENTS] = {
    [READ] = "SELECT value FROM kept WHERE name = ?1",
    [UPSERT] = "INSERT INTO kept VALUES (?1, ?2) ON CONFLICT (name) DO UPDATE SET value = excluded.value",
    [INSERT] = "INSERT INTO kept VALUES (?1, ?2)",
    [DELETE] = "DELETE FROM kept WHERE name = ?1",
    [LIST] = "SELECT name, value FROM kept WHERE name BETWEEN ?1 AND ?2 ORDER BY name",
    [CHECK] = "PRAGMA integrity_check",
    [BEGIN] = "BEGIN",
    [END] = "COMMIT",
};

/* One database in use, and a copy to open: on disk in a file of its own, in memory as serialized bytes. */
struct state {
    sqlite3 *kept, *opened;
    sqlite3_stmt *statements[STATEMENTS], *opened_read;
    char *path, *copy_path; /* on disk */
    unsigned char *serialized;
    sqlite3_int64 serialized_length;
};

static sqlite3 *database(const char *path)
{
    sqlite3 *db;
    int flags = SQLITE_OPEN_READWRITE | SQLITE_OPEN_CREATE | SQLITE_OPEN_NOMUTEX;
    EXPECT(sqlite3_open_v2(path ? path : ":memory:", &db, flags, NULL) == SQLITE_OK);
    return db;
}

static void execute(sqlite3 *db, const char *text)
{
    EXPECT(sqlite3_exec(db, text, NULL, NULL, NULL) == SQLITE_OK);
}

static sqlite3_stmt *prepared(sqlite3 *db, const char *text)
{
    sqlite3_stmt *statement;
    EXPECT(sqlite3_prepare_v3(db, text, -1, SQLITE_PREPARE_PERSISTENT, &statement, NULL) == SQLITE_OK);
    return statement;
}

static void bind_name(sqlite3_stmt *statement, int at, const struct name *n)
{
    EXPECT(sqlite3_bind_blob(statement, at, n->bytes, (int)n->length, SQLITE_STATIC) == SQLITE_OK);
}

static void bind_value(sqlite3_stmt *statement, uint64_t value)
{
    EXPECT(sqlite3_bind_int64(statement, 2, (sqlite3_int64)value) == SQLITE_OK);
}

/* Run a statement that changes one row, or none where it only begins or ends a transaction. */
static void run(sqlite3_stmt *statement)
{
    EXPECT(sqlite3_step(statement) == SQLITE_DONE);
    EXPECT(sqlite3_reset(statement) == SQLITE_OK);
}

static void begin_reads(void *state)
{
    struct state *self = state;
    run(self->statements[BEGIN]);
}

static void end_reads(void *state)
{
    struct state *self = state;
    run(self->statements[END]);
}

static void add_with(sqlite3_stmt *insert, const struct name *n)
{
    bind_name(insert, 1, n);
    bind_value(insert, n->value);
    run(insert);
}

/* The scene's names in a new database; on disk each later change is one that waits until it is there. */
static sqlite3 *filled(const char *path, const char *journal, const struct scene *s)
{
    sqlite3 *db = database(path);
    if (journal) {
        char *text = sqlite3_mprintf("PRAGMA journal_mode = %s; PRAGMA synchronous = FULL", journal);
        EXPECT(text != NULL);
        execute(db, text);
        sqlite3_free(text);
    }
    execute(db, "CREATE TABLE kept (name BLOB PRIMARY KEY NOT NULL, value INTEGER NOT NULL) WITHOUT ROWID; BEGIN");
    sqlite3_stmt *insert = prepared(db, texts[INSERT]);
    for (size_t i = 0; i < s->held_count; i++)
        add_with(insert, &s->held[i]);
    sqlite3_finalize(insert);
    execute(db, "COMMIT");
    return db;
}

/* PRAGMA journal_mode says what it is, and not what was asked for. */
static void expect_journal(sqlite3 *db, const char *journal)
{
    sqlite3_stmt *asked = prepared(db, "PRAGMA journal_mode");
    EXPECT(sqlite3_step(asked) == SQLITE_ROW);
    EXPECT(sqlite3_stricmp((const char *)sqlite3_column_text(asked, 0), journal) == 0);
    sqlite3_finalize(asked);
}

static void *start(const struct scene *s, const void *with)
{
    const char *journal = ((const struct sqlite_kind *)with)->journal;
    struct state *self = room(sizeof *self);
    if (journal) {
        char *folder = new_folder();
        EXPECT(asprintf(&self->path, "%s/kept", folder) > 0 && asprintf(&self->copy_path, "%s/copy", folder) > 0);
        free(folder);
        EXPECT(sqlite3_close(filled(self->copy_path, journal, s)) == SQLITE_OK);
    }
    self->kept = filled(self->path, journal, s);
    for (int i = 0; i < STATEMENTS; i++)
        self->statements[i] = prepared(self->kept, texts[i]);
    expect_journal(self->kept, journal ? journal : "MEMORY");
    if (!journal) {
        self->serialized = sqlite3_serialize(self->kept, "main", &self->serialized_length, 0);
        EXPECT(self->serialized != NULL);
    }
    return self;
}

static void end(void *state)
{
    struct state *self = state;
    for (int i = 0; i < STATEMENTS; i++)
        sqlite3_finalize(self->statements[i]);
    EXPECT(sqlite3_close(self->kept) == SQLITE_OK);
    sqlite3_free(self->serialized);
    free(self->path);
    free(self->copy_path);
    free(self);
}

static bool read_with(sqlite3_stmt *statement, const struct name *n, uint64_t *value)
{
    bind_name(statement, 1, n);
    int step = sqlite3_step(statement);
    EXPECT(step == SQLITE_ROW || step == SQLITE_DONE);
    if (step == SQLITE_ROW)
        *value = (uint64_t)sqlite3_column_int64(statement, 0);
    EXPECT(sqlite3_reset(statement) == SQLITE_OK);
    return step == SQLITE_ROW;
}

static bool lookup(void *state, const struct name *n, uint64_t *value)
{
    struct state *self = state;
    return read_with(self->statements[READ], n, value);
}

static void replace(void *state, const struct name *n, uint64_t value)
{
    struct state *self = state;
    bind_name(self->statements[UPSERT], 1, n);
    bind_value(self->statements[UPSERT], value);
    run(self->statements[UPSERT]);
    EXPECT(sqlite3_changes(self->kept) == 1);
}

static void add(void *state, const struct name *n)
{
    struct state *self = state;
    add_with(self->statements[INSERT], n);
    EXPECT(sqlite3_changes(self->kept) == 1);
}

static void removed(void *state, const struct name *n)
{
    struct state *self = state;
    bind_name(self->statements[DELETE], 1, n);
    run(self->statements[DELETE]);
    EXPECT(sqlite3_changes(self->kept) == 1);
}

static size_t list(void *state, const struct name *first, const struct name *second, uint8_t *output)
{
    struct state *self = state;
    sqlite3_stmt *statement = self->statements[LIST];
    size_t count = 0;
    int step;
    bind_name(statement, 1, first);
    bind_name(statement, 2, second);
    while ((step = sqlite3_step(statement)) == SQLITE_ROW) {
        uint8_t *entry = output + LISTED_BYTES * count++;
        uint64_t value = (uint64_t)sqlite3_column_int64(statement, 1);
        memset(entry, 0x20, NAME_DIGITS);
        memcpy(entry, sqlite3_column_blob(statement, 0), (size_t)sqlite3_column_bytes(statement, 0));
        memcpy(entry + NAME_DIGITS, &value, sizeof value);
    }
    EXPECT(step == SQLITE_DONE);
    EXPECT(sqlite3_reset(statement) == SQLITE_OK);
    return count;
}

static void check(void *state)
{
    struct state *self = state;
    sqlite3_stmt *statement = self->statements[CHECK];
    EXPECT(sqlite3_step(statement) == SQLITE_ROW);
    EXPECT(strcmp((const char *)sqlite3_column_text(statement, 0), "ok") == 0);
    EXPECT(sqlite3_reset(statement) == SQLITE_OK);
}

/* In memory the serialized bytes are lent and not copied, as ours are. */
static bool opened_lookup(void *state, const struct name *n, uint64_t *value)
{
    struct state *self = state;
    self->opened = database(self->copy_path);
    if (self->serialized)
        EXPECT(sqlite3_deserialize(self->opened, "main", self->serialized, self->serialized_length,
                                   self->serialized_length, SQLITE_DESERIALIZE_READONLY) == SQLITE_OK);
    self->opened_read = prepared(self->opened, texts[READ]);
    return read_with(self->opened_read, n, value);
}

static void closed(void *state)
{
    struct state *self = state;
    sqlite3_finalize(self->opened_read);
    EXPECT(sqlite3_close(self->opened) == SQLITE_OK);
}

const struct engine sqlite = {
    .start = start,
    .end = end,
    .begin_reads = begin_reads,
    .end_reads = end_reads,
    .lookup = lookup,
    .replace = replace,
    .add = add,
    .remove = removed,
    .list = list,
    .check = check,
    .open = opened_lookup,
    .close = closed,
};
