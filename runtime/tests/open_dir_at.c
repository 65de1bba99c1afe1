/* A call that geocom doesn't reach, and the gate's players do: it opens a folder below another (contract: the kit's os/src/c.rt). */
#define _GNU_SOURCE
#include <fcntl.h>

int rattle_open_dir_at(int dir, const char *name) {
    return openat(dir, name, O_RDONLY | O_DIRECTORY | O_NOFOLLOW | O_CLOEXEC);
}
