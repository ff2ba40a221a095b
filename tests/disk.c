/* Stands between a program and its disk: what the program writes, cuts off and syncs of a store's files goes through here. A store's files are those whose names have `.db` in them.

   DISK_AT=n DISK_DO=kill|EIO|ENOSPC   the n-th of these calls kills the program, or fails so; where it is no kill, each later one fails so too, but for the removal of a file
   DISK_AT=n DISK_DO=lose              the n-th of these calls isn't done, and is told as done
   DISK_HOLD=path                      a sync that a store waits for doesn't begin while that file is there; path.held is made when one waits
   DISK_LOG=path                       each call, and each byte that goes to a socket, is written to that file: see `struct entry`
   DISK_COUNT=path                     how many calls there were is written to that file, eight bytes, after each
   DISK_READS=1                        reads are counted, and fail, as the others

   The calls are counted from when the program begins, or from when the file is there that DISK_FROM names. */

#define _GNU_SOURCE
#include <dlfcn.h>
#include <errno.h>
#include <fcntl.h>
#include <pthread.h>
#include <signal.h>
#include <stdarg.h>
#include <stdint.h>
#include <stdio.h>
#include <stdlib.h>
#include <string.h>
#include <sys/socket.h>
#include <sys/stat.h>
#include <sys/types.h>
#include <sys/uio.h>
#include <unistd.h>

/* One call: `op` is w a write, t a cut, b a sync's begin, s its end, r a new name, u a name that is taken away, > what goes to a socket. The name of the file, and what was written, come behind it. */
struct entry {
    char op, pad[3];
    uint32_t name, length;
    uint64_t offset;
} __attribute__((packed));

static pthread_mutex_t lock = PTHREAD_MUTEX_INITIALIZER;
static long count, at;
static int failure, loses, reads, logged = -1, counted = -1;
static const char *held, *from;

static int opened(const char *variable, int flags) {
    const char *path = getenv(variable);
    if (!path) return -1;
    int fd = open(path, O_CREAT | flags, 0600);
    int high = fcntl(fd, F_DUPFD_CLOEXEC, 700);
    close(fd);
    return high;
}

__attribute__((constructor)) static void begin(void) {
    const char *what = getenv("DISK_DO"), *number = getenv("DISK_AT");
    at = number ? atol(number) : 0;
    loses = what && !strcmp(what, "lose");
    failure = !what ? 0 : !strcmp(what, "EIO") ? EIO : !strcmp(what, "ENOSPC") ? ENOSPC : -1;
    held = getenv("DISK_HOLD");
    from = getenv("DISK_FROM");
    reads = getenv("DISK_READS") != 0;
    logged = opened("DISK_LOG", O_WRONLY | O_APPEND);
    counted = opened("DISK_COUNT", O_WRONLY);
}

#define REAL(name) ((__typeof__(&name)) dlsym(RTLD_NEXT, #name))

static int is_stores(const char *path) {
    const char *name = strrchr(path, '/');
    return strstr(name ? name : path, ".db") != 0;
}

/* Whether a file is a store's, or a folder; and its path. */
static int name_of(int fd, char *path, size_t size) {
    char link[64];
    struct stat found;
    snprintf(link, sizeof link, "/proc/self/fd/%d", fd);
    ssize_t length = readlink(link, path, size - 1);
    if (length <= 0) return 0;
    path[length] = 0;
    return path[0] == '/' && (is_stores(path) || (!fstat(fd, &found) && S_ISDIR(found.st_mode)));
}

/* The lock is held, so that the entries stand in the order of the calls. */
static void note(char op, const char *name, uint64_t offset, uint32_t length, const void *data) {
    if (logged < 0) return;
    struct entry entry = {op, {0}, strlen(name), length, offset};
    struct iovec parts[3] = {{&entry, sizeof entry}, {(void *)name, entry.name}, {(void *)data, data ? length : 0}};
    if (REAL(writev)(logged, parts, 3) < 0) _exit(70);
}

/* Counts a call: 0 where it may go on, how it has to fail, or -1 where it isn't done. */
static int struck(void) {
    if (from && access(from, F_OK)) return 0;
    pthread_mutex_lock(&lock);
    long number = ++count;
    uint64_t told = number;
    if (counted >= 0 && REAL(pwrite)(counted, &told, sizeof told, 0) < 0) _exit(70);
    pthread_mutex_unlock(&lock);
    if (!at || !failure || number < at) return 0;
    if (loses) return number == at ? -1 : 0;
    if (failure > 0) return failure;
    kill(getpid(), SIGKILL);
    for (;;) pause();
}

/* Leaves a function whose call fails, or isn't done. */
#define STRIKE(done) \
    do { \
        int error = struck(); \
        if (error == -1) return done; \
        if (error) { errno = error; return -1; } \
    } while (0)

#define WRITE(name) \
    ssize_t name(int fd, const void *data, size_t size, off_t offset) { \
        char path[4096]; \
        if (!name_of(fd, path, sizeof path)) return REAL(name)(fd, data, size, offset); \
        STRIKE((ssize_t)size); \
        pthread_mutex_lock(&lock); \
        ssize_t done = REAL(name)(fd, data, size, offset); \
        if (done > 0) note('w', path, offset, done, data); \
        pthread_mutex_unlock(&lock); \
        return done; \
    }
WRITE(pwrite)
WRITE(pwrite64)

#define READ(name) \
    ssize_t name(int fd, void *data, size_t size, off_t offset) { \
        char path[4096]; \
        if (reads && name_of(fd, path, sizeof path)) STRIKE(REAL(name)(fd, data, size, offset)); \
        return REAL(name)(fd, data, size, offset); \
    }
READ(pread)
READ(pread64)

#define CUT(name) \
    int name(int fd, off_t size) { \
        char path[4096]; \
        if (!name_of(fd, path, sizeof path)) return REAL(name)(fd, size); \
        STRIKE(0); \
        pthread_mutex_lock(&lock); \
        int done = REAL(name)(fd, size); \
        if (!done) note('t', path, size, 0, 0); \
        pthread_mutex_unlock(&lock); \
        return done; \
    }
CUT(ftruncate)
CUT(ftruncate64)

static void wait_while_held(void) {
    char told[4096];
    if (!held || access(held, F_OK)) return;
    snprintf(told, sizeof told, "%s.held", held);
    close(open(told, O_CREAT | O_WRONLY, 0600));
    while (!access(held, F_OK)) usleep(1000);
}

#define SYNC(name) \
    int name(int fd) { \
        char path[4096]; \
        if (!name_of(fd, path, sizeof path)) return REAL(name)(fd); \
        STRIKE(0); \
        pthread_mutex_lock(&lock); \
        note('b', path, 0, 0, 0); \
        pthread_mutex_unlock(&lock); \
        wait_while_held(); \
        int done = REAL(name)(fd); \
        pthread_mutex_lock(&lock); \
        if (!done) note('s', path, 0, 0, 0); \
        pthread_mutex_unlock(&lock); \
        return done; \
    }
SYNC(fsync)
SYNC(fdatasync)

int rename(const char *old, const char *new) {
    if (!is_stores(old)) return REAL(rename)(old, new);
    STRIKE(0);
    pthread_mutex_lock(&lock);
    int done = REAL(rename)(old, new);
    if (!done) note('r', old, 0, strlen(new), new);
    pthread_mutex_unlock(&lock);
    return done;
}

int unlink(const char *path) {
    if (!is_stores(path)) return REAL(unlink)(path);
    /* What cleans up behind a failure isn't failed too. */
    struck();
    pthread_mutex_lock(&lock);
    int done = REAL(unlink)(path);
    if (!done) note('u', path, 0, 0, 0);
    pthread_mutex_unlock(&lock);
    return done;
}

/* What goes to a socket is noted before it goes: a power cut may come before it has left, never between. */
#define SENT(name, parameters, ...) \
    ssize_t name parameters { \
        pthread_mutex_lock(&lock); \
        note('>', "", 0, size, data); \
        pthread_mutex_unlock(&lock); \
        return REAL(name)(__VA_ARGS__); \
    }
SENT(send, (int fd, const void *data, size_t size, int flags), fd, data, size, flags)
SENT(sendto, (int fd, const void *data, size_t size, int flags, const struct sockaddr *to, socklen_t length), fd, data, size, flags, to, length)
