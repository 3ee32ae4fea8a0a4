/*
 * Does each operation of our own once, for callgrind to count its instructions, those inside the library's calls alone.
 *
 * Callgrind writes one file for each part that is measured, with a label; bench/callgrind.py adds the files of a label up. One line
 * a label, with tabs between its words, says how many operations those are:
 *   count  SCENE  OPERATION  CONTESTANT  OPERATIONS
 */
#include "bench.h"

#include <valgrind/callgrind.h>

static char label[256];

void measure_from_here(void)
{
    CALLGRIND_ZERO_STATS;
}

void measure_to_here(void)
{
    CALLGRIND_DUMP_STATS_AT(label);
}

static void count(const struct scene *s, const char *title, const struct library *library)
{
    struct contestant c = {title, &palhavento, library, palhavento.start(s, library), false};
    if (!c.self)
        return;
    for (int o = 0; o < operation_count; o++) {
        snprintf(label, sizeof label, "%s|%s|%s", s->title, operations[o].title, title);
        uint64_t done = run_operation(&operations[o], &c, s, 1);
        printf("count\t%s\t%s\t%s\t%llu\n", s->title, operations[o].title, title, (unsigned long long)done);
    }
    palhavento.end(c.self);
}

int main(int argc, char **argv)
{
    struct setting setting = make_setting(argc, argv);
    for (int i = 0; i < setting.scene_count; i++) {
        count(setting.scenes[i], "now", &setting.now);
        if (setting.has_before)
            count(setting.scenes[i], "before", &setting.before);
        free_scene(setting.scenes[i]);
    }
    return 0;
}
