/* Folders for the engines that keep files; all are gone when the program ends, also after a surprise. */
#include "bench.h"

#include <ftw.h>
#include <string.h>
#include <sys/stat.h>

static char *root;
static unsigned folders;

static int gone(const char *path, const struct stat *status, int kind, struct FTW *place)
{
    (void)status, (void)kind, (void)place;
    return remove(path);
}

static void remove_root(void)
{
    nftw(root, gone, 8, FTW_DEPTH | FTW_PHYS);
}

void set_scratch(const char *parent)
{
    EXPECT(asprintf(&root, "%s/scratch-XXXXXX", parent) > 0);
    EXPECT(mkdtemp(root) != NULL);
    EXPECT(atexit(remove_root) == 0);
}

char *new_folder(void)
{
    char *path;
    EXPECT(asprintf(&path, "%s/%u", root, folders++) > 0);
    EXPECT(mkdir(path, 0700) == 0);
    return path;
}
