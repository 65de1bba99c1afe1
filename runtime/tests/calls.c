/* Prints what the calls of runtime/ answer, a line for each call: tools/try-runtime compares that with what the kit's code answers.
 * Its words are the arguments that are read. In its folder are a folder `d`, a link `l` to it and a file `f`. */
#include <errno.h>
#include <fcntl.h>
#include <stdbool.h>
#include <stdint.h>
#include <stdio.h>
#include <string.h>
#include <sys/types.h>
#include <unistd.h>

/* As the kit declares them in Rattle (libc/src/types.rt and heap.rt, os/src/c.rt). */
struct tried {
    bool ok;
    void *p;
};
struct address {
    unsigned char bytes[128];
    uint32_t length;
};
struct tried rattle_alloc(size_t size, size_t align);
struct tried rattle_realloc(void *p, size_t kept, size_t size, size_t align);
void rattle_dealloc(void *p);
int rattle_errno(void);
void rattle_set_errno(int error);
ssize_t rattle_arg(size_t i, unsigned char *to, size_t room);
int rattle_set_nonblocking(int fd, bool on);
ssize_t rattle_lookup_host(const char *name, struct address *to, size_t room);
int rattle_open_dir_at(int dir, const char *name);

static const size_t too_much = (size_t)1 << 62;

static void put_bytes(const void *from, size_t length) {
    for (size_t i = 0; i < length; i++) {
        printf("%02x", ((const unsigned char *)from)[i]);
    }
    putchar('\n');
}

/* How many bytes at the front are as they were filled. */
static size_t filled(const void *from, size_t length, int with) {
    size_t count = 0;
    while (count < length && ((const unsigned char *)from)[count] == with) {
        count++;
    }
    return count;
}

/* Blocks of each size and alignment, which grow threefold and shrink to nothing. */
static void allocate(size_t size, size_t align) {
    struct tried block = rattle_alloc(size, align);
    printf("alloc %zu %zu: %d, %zu beyond an alignment\n", size, align, block.ok, (uintptr_t)block.p % 16);
    memset(block.p, 9, size);
    block = rattle_realloc(block.p, size, 3 * size, align);
    printf("realloc %zu %zu: %d, %zu bytes kept\n", size, align, block.ok, filled(block.p, size, 9));
    memset(block.p, 7, 3 * size);
    block = rattle_realloc(block.p, size / 2, size / 2, align);
    printf("realloc less %zu %zu: %d, %zu bytes kept\n", size, align, block.ok, filled(block.p, size / 2, 7));
    block = rattle_realloc(block.p, 0, 0, align);
    printf("realloc to 0 %zu %zu: %d, %s\n", size, align, block.ok, block.p != NULL ? "a place" : "none");
    rattle_dealloc(block.p);
}

/* What can't be had: a place where nothing is, and the block before it as it was. */
static void allocate_too_much(size_t align) {
    struct tried block = rattle_alloc(too_much, align);
    printf("alloc of too much, %zu: %d, %s\n", align, block.ok, block.p != NULL ? "a place" : "none");
    block = rattle_alloc(100, align);
    memset(block.p, 5, 100);
    struct tried more = rattle_realloc(block.p, 100, too_much, align);
    printf("realloc to too much, %zu: %d, %s, %zu bytes kept\n", align, more.ok, more.p != NULL ? "a place" : "none", filled(block.p, 100, 5));
    rattle_dealloc(block.p);
}

static void read_argument(size_t i, size_t room) {
    unsigned char to[64];
    memset(to, 0xee, sizeof to);
    printf("arg %zu into %zu: %zd ", i, room, rattle_arg(i, to, room));
    put_bytes(to, sizeof to);
}

static void set_nonblocking(const char *of, int fd, bool on) {
    rattle_set_errno(0);
    int answer = rattle_set_nonblocking(fd, on);
    int error = rattle_errno();
    int flags = fcntl(fd, F_GETFL);
    printf("set_nonblocking %s %d: %d, errno %d, then %d\n", of, on, answer, error, flags >= 0 ? (flags & O_NONBLOCK) != 0 : -1);
}

static void look_up(const char *name, size_t room) {
    struct address to[6];
    memset(to, 0xee, sizeof to);
    printf("lookup_host '%s' into %zu: %zd ", name, room, rattle_lookup_host(name, to, room));
    put_bytes(to, sizeof to);
}

static void open_folder(const char *of, int dir, const char *name) {
    rattle_set_errno(0);
    int fd = rattle_open_dir_at(dir, name);
    int error = rattle_errno();
    printf("open_dir_at '%s' from %s: %d, errno %d, %d\n", name, of, fd >= 0, error, fd >= 0 ? fcntl(fd, F_GETFD) : -1);
    if (fd >= 0) {
        close(fd);
    }
}

int main(int count, char **words) {
    for (size_t align = 1; align <= 16; align *= 2) {
        for (size_t size = 0; size <= 300; size++) {
            allocate(size, align);
        }
        for (size_t size = 512; size <= (size_t)1 << 24; size *= 2) {
            allocate(size, align);
        }
        allocate_too_much(align);
    }
    for (int error = 0; error < 140; error++) {
        rattle_set_errno(error);
        int set = errno;
        errno = error + 1;
        printf("set_errno %d: %d, errno %d\n", error, set, rattle_errno());
    }
    for (size_t room = 0; room <= 40; room++) {
        /* (the program's own name differs) */
        for (size_t i = 1; i < (size_t)count + 3; i++) {
            read_argument(i, room);
        }
        read_argument(SIZE_MAX, room);
    }
    (void)words;
    int ends[2];
    if (pipe(ends) != 0) {
        return 1;
    }
    for (int turn = 0; turn < 2; turn++) {
        for (int on = 1; on >= 0; on--) {
            set_nonblocking("a pipe", ends[0], on);
            set_nonblocking("its other end", ends[1], on);
            set_nonblocking("none", -1, on);
            set_nonblocking("one that is closed", 9999, on);
        }
    }
    const char *names[] = {"127.0.0.1", "::1", "localhost", "1.2.3.4", "ff02::1", "256.1.1.1", "no.such.host.invalid", "", "a name", "127.0.0.1:80"};
    for (size_t i = 0; i < sizeof names / sizeof *names; i++) {
        for (size_t room = 0; room <= 5; room++) {
            look_up(names[i], room);
        }
    }
    const char *folders[] = {"d", "l", "l/", "f", "f/", "none", "d/none", "..", ".", "/", "/proc/self/cwd", ""};
    int root = open("/", O_RDONLY);
    for (size_t i = 0; i < sizeof folders / sizeof *folders; i++) {
        open_folder("here", AT_FDCWD, folders[i]);
        open_folder("the root", root, folders[i]);
        open_folder("a pipe", ends[0], folders[i]);
        open_folder("none", -1, folders[i]);
    }
    return 0;
}
