/* Preloaded into a program: refuses chosen calls for memory, threads, reading or writing.
 *
 *   REFUSE_GROWTH=N     the Nth call of malloc, realloc or pthread_create is refused
 *   REFUSE_GROWTH=N-    and each later one too
 *   REFUSE_THREAD=N     the Nth call of pthread_create is refused
 *   REFUSE_READ=N       the Nth read fails
 *   REFUSE_WRITE=N      the Nth write to standard output fails
 *   REFUSE_STEP=N       the Nth step of replacing a file fails: to open a file or a folder, to look at what a name has,
 *                       to follow a link, to lock a file, to set its owner, group or mode, to write to it, to cut it,
 *                       to sync it, its bytes alone or its folder, to rename it, to remove it
 *   REFUSE_STEP=N-      and each later one too
 *   KILL_STEP=N         the process is killed before that step
 *   REPLACE=F           once a file of the name F is opened to be read, F.other takes its name
 *   SHORT=1             a read or a write moves one byte at most
 *   INTERRUPT=1         every other read and write is interrupted
 *   REFUSED_FD=F        a byte is written there for each refusal
 */
#define _GNU_SOURCE
#include <dlfcn.h>
#include <errno.h>
#include <fcntl.h>
#include <pthread.h>
#include <signal.h>
#include <stdarg.h>
#include <stdatomic.h>
#include <stdio.h>
#include <stdlib.h>
#include <string.h>
#include <sys/file.h>
#include <sys/stat.h>
#include <unistd.h>

struct plan {
    const char *name;
    long first;
    int each_later;
    atomic_long calls;
};

static struct plan growth = {.name = "REFUSE_GROWTH"}, threading = {.name = "REFUSE_THREAD"};
static struct plan reading = {.name = "REFUSE_READ"}, writing = {.name = "REFUSE_WRITE"};
static struct plan step = {.name = "REFUSE_STEP"}, killing = {.name = "KILL_STEP"};
static int moves_one_byte, interrupts, told;
static atomic_int turns;
static void *(*real_malloc)(size_t);
static void *(*real_realloc)(void *, size_t);
static int (*real_create)(pthread_t *, const pthread_attr_t *, void *(*)(void *), void *);
static ssize_t (*real_read)(int, void *, size_t);
static ssize_t (*real_write)(int, const void *, size_t);
static int (*real_open)(const char *, int, ...);
static int (*real_statx)(int, const char *, int, unsigned, struct statx *);
static ssize_t (*real_readlink)(const char *, char *, size_t);
static int (*real_flock)(int, int);
static int (*real_chown)(const char *, uid_t, gid_t);
static int (*real_fchmod)(int, mode_t);
static int (*real_fsync)(int);
static int (*real_fdatasync)(int);
static int (*real_ftruncate)(int, off_t);
static int (*real_rename)(const char *, const char *);
static int (*real_unlink)(const char *);

static void read_plan(struct plan *plan) {
    const char *text = getenv(plan->name);
    if (text) {
        plan->first = atol(text);
        plan->each_later = text[strlen(text) - 1] == '-';
    }
}

__attribute__((constructor)) static void begin(void) {
    const char *fd = getenv("REFUSED_FD");
    read_plan(&growth), read_plan(&threading), read_plan(&reading), read_plan(&writing);
    read_plan(&step), read_plan(&killing);
    moves_one_byte = getenv("SHORT") != NULL;
    interrupts = getenv("INTERRUPT") != NULL;
    told = fd ? atoi(fd) : -1;
}

#define REAL(call, name) (call ? call : (call = dlsym(RTLD_NEXT, name)))

static int refuses(struct plan *plan) {
    if (plan->first == 0) return 0;
    long call = atomic_fetch_add(&plan->calls, 1) + 1;
    if (call != plan->first && !(plan->each_later && call > plan->first)) return 0;
    if (told >= 0) REAL(real_write, "write")(told, "!", 1);
    return 1;
}

static int refuses_step(void) {
    if (refuses(&killing)) raise(SIGKILL);
    return refuses(&step);
}

void *malloc(size_t size) {
    if (refuses(&growth)) return errno = ENOMEM, NULL;
    return REAL(real_malloc, "malloc")(size);
}

void *realloc(void *old, size_t size) {
    if (refuses(&growth)) return errno = ENOMEM, NULL;
    return REAL(real_realloc, "realloc")(old, size);
}

int pthread_create(pthread_t *thread, const pthread_attr_t *attributes, void *(*start)(void *), void *argument) {
    if (refuses(&growth) || refuses(&threading)) return EAGAIN;
    return REAL(real_create, "pthread_create")(thread, attributes, start, argument);
}

ssize_t read(int fd, void *into, size_t size) {
    if (interrupts && atomic_fetch_add(&turns, 1) % 2 == 0) return errno = EINTR, -1;
    if (refuses(&reading)) return errno = EIO, -1;
    return REAL(real_read, "read")(fd, into, moves_one_byte && size > 1 ? 1 : size);
}

ssize_t write(int fd, const void *from, size_t size) {
    if (interrupts && atomic_fetch_add(&turns, 1) % 2 == 0) return errno = EINTR, -1;
    if (fd == 1 && refuses(&writing)) return errno = EIO, -1;
    if (fd > 2 && fd != told && refuses_step()) return errno = ENOSPC, -1;
    return REAL(real_write, "write")(fd, from, moves_one_byte && size > 1 ? 1 : size);
}

int open(const char *path, int flags, ...) {
    va_list more;
    va_start(more, flags);
    mode_t mode = flags & O_CREAT ? va_arg(more, mode_t) : 0;
    va_end(more);
    if (refuses_step()) return errno = flags & O_CREAT ? EACCES : EIO, -1;
    int fd = REAL(real_open, "open")(path, flags, mode);
    const char *replaced = getenv("REPLACE");
    char other[4096];
    if (replaced && !strcmp(replaced, path) && snprintf(other, sizeof other, "%s.other", path) < (int)sizeof other) {
        REAL(real_rename, "rename")(other, path);
        if (told >= 0) REAL(real_write, "write")(told, "!", 1);
    }
    return fd;
}

int statx(int folder, const char *path, int flags, unsigned mask, struct statx *found) {
    if (refuses_step()) return errno = EIO, -1;
    return REAL(real_statx, "statx")(folder, path, flags, mask, found);
}

ssize_t readlink(const char *path, char *into, size_t size) {
    if (refuses_step()) return errno = EIO, -1;
    return REAL(real_readlink, "readlink")(path, into, size);
}

int flock(int fd, int operation) {
    if (refuses_step()) return errno = ENOLCK, -1;
    return REAL(real_flock, "flock")(fd, operation);
}

int chown(const char *path, uid_t owner, gid_t group) {
    if (refuses_step()) return errno = EPERM, -1;
    return REAL(real_chown, "chown")(path, owner, group);
}

int fchmod(int fd, mode_t mode) {
    if (refuses_step()) return errno = EPERM, -1;
    return REAL(real_fchmod, "fchmod")(fd, mode);
}

int fsync(int fd) {
    if (refuses_step()) return errno = EIO, -1;
    return REAL(real_fsync, "fsync")(fd);
}

int fdatasync(int fd) {
    if (refuses_step()) return errno = EIO, -1;
    return REAL(real_fdatasync, "fdatasync")(fd);
}

int ftruncate(int fd, off_t length) {
    if (refuses_step()) return errno = EIO, -1;
    return REAL(real_ftruncate, "ftruncate")(fd, length);
}

int rename(const char *from, const char *to) {
    if (refuses_step()) return errno = EACCES, -1;
    return REAL(real_rename, "rename")(from, to);
}

int unlink(const char *path) {
    if (refuses_step()) return errno = EACCES, -1;
    return REAL(real_unlink, "unlink")(path);
}
