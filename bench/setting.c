/* What both programs begin with: the command line, the libraries that it names and the scenes that it asks for. */
#include "bench.h"

#include <unistd.h>

static const struct {
    unsigned b, slots;
} sizes[SIZES] = {{16, 64}, {16, 16}, {4, 8}};

static void usage(const char *program)
{
    fprintf(stderr,
            "usage: %s -n NOW.so [-b BEFORE.so] [-v VERSIONS] [-r ROUNDS] [-t MICROSECONDS] [-d FOLDER]\n"
            "  -n  the library to measure           -b  the one to compare it with\n"
            "  -v  versions of the file, as in '1 2'; all that the library offers if not given\n"
            "  -r  rounds, 21 if not given          -t  how long a contestant's turn takes, 4000 if not given\n"
            "  -d  where the engines on disk keep their files, the folder of the call if not given\n",
            program);
    exit(2);
}

static unsigned number(const char *text, const char *program)
{
    char *end;
    unsigned long n = strtoul(text, &end, 10);
    if (*end || n == 0 || n > 1000000)
        usage(program);
    return (unsigned)n;
}

/* All versions of one size stand side by side. */
static void add_scenes(struct setting *setting, const bool wanted[MOST_VERSIONS + 1])
{
    for (int size = 0; size < SIZES; size++) {
        for (unsigned version = 1; version <= MOST_VERSIONS; version++) {
            if (wanted[version])
                setting->scenes[setting->scene_count++] =
                    make_scene(&setting->now, version, sizes[size].b, sizes[size].slots);
        }
    }
}

struct setting make_setting(int argc, char **argv)
{
    struct setting setting = {.folder = ".", .rounds = 21, .lap_ns = 4000000};
    const char *now = NULL, *versions = NULL;
    bool wanted[MOST_VERSIONS + 1] = {false};
    int option;
    while ((option = getopt(argc, argv, "n:b:v:r:t:d:")) != -1) {
        switch (option) {
        case 'n': now = optarg; break;
        case 'b': setting.before = open_library(optarg), setting.has_before = true; break;
        case 'v': versions = optarg; break;
        case 'r': setting.rounds = number(optarg, argv[0]); break;
        case 't': setting.lap_ns = 1000ull * number(optarg, argv[0]); break;
        case 'd': setting.folder = optarg; break;
        default: usage(argv[0]);
        }
    }
    if (!now || optind != argc)
        usage(argv[0]);
    setting.now = open_library(now);
    for (unsigned version = 1; !versions && version <= MOST_VERSIONS; version++)
        wanted[version] = offers_version(&setting.now, version);
    for (const char *v = versions; v && *v; v++) {
        if (*v == ' ')
            continue;
        if (*v < '1' || *v > '9' || !offers_version(&setting.now, (unsigned)(*v - '0'))) {
            fprintf(stderr, "bench: the library offers no version %c of a file\n", *v);
            exit(2);
        }
        wanted[*v - '0'] = true;
    }
    add_scenes(&setting, wanted);
    return setting;
}
