/*
 * Measures two builds of the library, their rivals and the floor, round by round, and prints each time taken.
 *
 * One line a fact, with tabs between its words; bench/figures.py reads them:
 *   contestant  TITLE  WHAT-IT-IS
 *   scene       TITLE  VERSION  B  SLOTS  BYTES  HELD  USED  CELLS  ENDED-BY  TENTH
 *   lap         ROUND  SCENE  OPERATION  CONTESTANT  NS-AN-OPERATION
 */
#include "bench.h"

#include <lmdb.h>
#include <sqlite3.h>
#include <string.h>

static const struct sqlite_kind in_memory = {NULL}, rollback = {"DELETE"}, wal = {"WAL"};
static const struct lmdb_kind unsynced = {MDB_NOSYNC}, mapped = {MDB_NOSYNC | MDB_WRITEMAP}, synced = {0};

enum { MOST_CONTESTANTS = 10, MOST_OPERATIONS = 32 };

/* One scene with everyone who takes part in it, and how often each does each operation in a turn. */
struct field {
    const struct scene *scene;
    struct contestant contestants[MOST_CONTESTANTS];
    unsigned passes[MOST_OPERATIONS][MOST_CONTESTANTS];
    int count;
};

static void enter(struct field *field, const char *title, const struct engine *engine, const void *with, bool waits)
{
    void *self = engine->start(field->scene, with);
    if (!self)
        return;
    field->contestants[field->count] = (struct contestant){title, engine, with, self, waits};
    compare_lists(&field->contestants[field->count++], field->scene);
}

static struct field make_field(const struct setting *setting, const struct scene *scene)
{
    struct field field = {.scene = scene};
    enter(&field, "now", &palhavento, &setting->now, false);
    if (setting->has_before)
        enter(&field, "before", &palhavento, &setting->before, false);
    enter(&field, "LMDB", &lmdb, &unsynced, false);
    enter(&field, "LMDB, map", &lmdb, &mapped, false);
    enter(&field, "LMDB, sync", &lmdb, &synced, true);
    enter(&field, "SQLite", &sqlite, &in_memory, false);
    enter(&field, "SQLite, rollback", &sqlite, &rollback, true);
    enter(&field, "SQLite, WAL", &sqlite, &wal, true);
    enter(&field, "array", &array, NULL, false);
    enter(&field, "reads", &reading, NULL, false);
    return field;
}

static void end_field(struct field *field)
{
    for (int c = 0; c < field->count; c++) {
        compare_lists(&field->contestants[c], field->scene);
        field->contestants[c].engine->end(field->contestants[c].self);
    }
}

/*
 * So many passes that a turn takes long enough for the clock; none where there is no such operation. The best of some tries
 * counts, or one that was interrupted would make all turns too short.
 */
static unsigned passes_for(const struct operation *o, const struct contestant *c, const struct scene *s, uint64_t lap_ns)
{
    enum { TRIES = 4 }; /* the first warms up */
    uint64_t best = UINT64_MAX;
    for (int try = 0; try < TRIES; try++) {
        if (run_operation(o, c, s, 1) == 0)
            return 0;
        uint64_t took = stopwatch_ns() + 1;
        if (took < best)
            best = took;
        if (c->waits && took >= lap_ns)
            break;
    }
    return best >= lap_ns ? 1 : (unsigned)(lap_ns / best);
}

static void set_passes(struct field *field, uint64_t lap_ns)
{
    EXPECT(operation_count <= MOST_OPERATIONS);
    for (int o = 0; o < operation_count; o++) {
        for (int c = 0; c < field->count; c++)
            field->passes[o][c] = passes_for(&operations[o], &field->contestants[c], field->scene, lap_ns);
    }
}

/* Everyone does an operation in turn before the next one begins; nobody always comes first. */
static void run_round(const struct field *field, unsigned round)
{
    for (int o = 0; o < operation_count; o++) {
        for (int turn = 0; turn < field->count; turn++) {
            int at = (turn + (int)round) % field->count;
            const struct contestant *c = &field->contestants[at];
            if (field->passes[o][at] == 0)
                continue;
            uint64_t done = run_operation(&operations[o], c, field->scene, field->passes[o][at]);
            printf("lap\t%u\t%s\t%s\t%s\t%.3f\n", round, field->scene->title, operations[o].title, c->title,
                   (double)stopwatch_ns() / (double)done);
        }
    }
}

static void print_contestants(const struct setting *setting)
{
    printf("contestant\tnow\tthis library\n");
    if (setting->has_before)
        printf("contestant\tbefore\tthis library, built from an earlier commit\n");
    printf("contestant\tLMDB\tLMDB %d.%d.%d without sync\n", MDB_VERSION_MAJOR, MDB_VERSION_MINOR,
           MDB_VERSION_PATCH);
    printf("contestant\tLMDB, map\tthe same with its map written in place, so by no system call\n");
    printf("contestant\tLMDB, sync\tthe same as LMDB is by itself: each change waits for the disk\n");
    printf("contestant\tSQLite\tSQLite %s in memory, prepared statements\n", sqlite3_libversion());
    printf("contestant\tSQLite, rollback\tthe same on disk with its rollback journal; each change waits for the disk\n");
    printf("contestant\tSQLite, WAL\tthe same on disk with its write-ahead log; each change waits for the disk\n");
    printf("contestant\tarray\ta sorted array in memory, binary search and memmove\n");
    printf("contestant\treads\tone read of the file, a sum over its words: the floor\n");
}

static void print_scene(const struct scene *s)
{
    printf("scene\t%s\t%u\t%u\t%u\t%zu\t%zu\t%u\t%u\t%u\t%zu\n", s->title, s->version, s->b, s->slots, s->file_length,
           s->held_count, s->used, s->cells, (unsigned)s->ended_by, tenth(s));
}

int main(int argc, char **argv)
{
    static struct field fields[MOST_SCENES];
    struct setting setting = make_setting(argc, argv);
    set_scratch(setting.folder);
    set_stopwatch();
    print_contestants(&setting);
    for (int f = 0; f < setting.scene_count; f++) {
        print_scene(setting.scenes[f]);
        fields[f] = make_field(&setting, setting.scenes[f]);
        set_passes(&fields[f], setting.lap_ns);
    }
    for (unsigned round = 0; round < setting.rounds; round++) {
        fprintf(stderr, "bench: round %u of %u\n", round + 1, setting.rounds);
        for (int f = 0; f < setting.scene_count; f++)
            run_round(&fields[f], round);
        EXPECT(fflush(stdout) == 0);
    }
    for (int f = 0; f < setting.scene_count; f++) {
        end_field(&fields[f]);
        free_scene(setting.scenes[f]);
    }
    return 0;
}
