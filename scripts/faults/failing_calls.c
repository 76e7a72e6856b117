/* Has calls of the system fail in a program that it is loaded into, by LD_PRELOAD. scripts/faults/faults.py builds it:

       cc -O2 -shared -fPIC -o failing_calls.so failing_calls.c -ldl

   What fails is set by the environment:

     FAULT_CALL      the call: `alloc` (malloc, calloc and realloc), or the name of one of those below
     FAULT_AT        which one of them is the first that fails, from 1; none if it is absent or 0
     FAULT_LAST      the last one that fails: FAULT_AT if it is absent; with 0 all later ones fail
     FAULT_EVERY     of those, each that comes so many after the last one; each, if it is absent
     FAULT_EFFECT    what a call that fails does:
                       error          it answers the error FAULT_ERROR, a number; EIO if that is absent
                       short          it moves half of its bytes, and answers that count
                       empty          it answers 0
                       half           it moves half of its bytes, and answers the error
                       stop-before    the process is killed before the call, by SIGKILL
                       stop-after     or after it
     FAULT_PIECE     where it is there, each call of the name moves at most so many bytes; those that fail do as above
     FAULT_UNSYNCED  with a stop, what becomes of the bytes that no fdatasync or fsync of their file followed:
                       kept           they stay, as after a kill (so it is if this is absent)
                       lost           they are as they were, as if the machine had stopped
                       torn           each write is lost, kept, or kept in part, as FAULT_SEED says
     FAULT_IDLE_SYNC if it is there, a sync makes nothing last. With it a test must fail
     FAULT_ARMED     a file: if it is given, calls count only while the file is there
     FAULT_COUNT     a file into which two 64-bit numbers are written: how many calls of the name there were, and how
                     many of them failed
*/
#define _GNU_SOURCE
#include <dlfcn.h>
#include <errno.h>
#include <fcntl.h>
#include <signal.h>
#include <stdarg.h>
#include <stdint.h>
#include <stdlib.h>
#include <string.h>
#include <sys/mman.h>
#include <sys/socket.h>
#include <sys/stat.h>
#include <sys/syscall.h>
#include <time.h>
#include <unistd.h>

/* glibc's own. dlsym allocates, so malloc can't look for these by it. */
extern void *__libc_malloc(size_t);
extern void *__libc_realloc(void *, size_t);
extern void *__libc_calloc(size_t, size_t);

enum effect { NOTHING, ERROR, SHORT, EMPTY, HALF, STOP_BEFORE, STOP_AFTER };
enum unsynced { KEPT, LOST, TORN };

static const char *const effects[] = {"", "error", "short", "empty", "half", "stop-before", "stop-after"};
static const char *const fates[] = {"kept", "lost", "torn"};

/* What the driver reads at the end, also of a process that was killed. */
struct counts {
    uint64_t calls, failed;
};

static struct counts own_counts, *counts = &own_counts;
static const char *call = "", *armed;
static uint64_t at, last, every, piece, seed;
static enum effect effect = ERROR;
static enum unsynced unsynced;
static int error_number, is_ready, has_idle_sync;

/* The number that a variable has; `absent` where there is none. */
static uint64_t number_of(const char *name, uint64_t absent)
{
    const char *text = getenv(name);
    return text && *text ? strtoull(text, 0, 10) : absent;
}

/* The index of a variable's word among these; 0 where it is none of them, or absent. */
static int index_of(const char *name, const char *const *words, int count)
{
    const char *text = getenv(name);
    for (int index = 0; text && index < count; index++)
        if (strcmp(text, words[index]) == 0) return index;
    return 0;
}

/* Has the counts written into this file. */
static void share_counts(const char *path)
{
    int file = (int)syscall(SYS_openat, AT_FDCWD, path, O_RDWR | O_CREAT, 0644);
    if (file < 0) return;
    syscall(SYS_ftruncate, file, (long)sizeof(struct counts));
    void *page = mmap(0, sizeof(struct counts), PROT_READ | PROT_WRITE, MAP_SHARED, file, 0);
    syscall(SYS_close, file);
    if (page == MAP_FAILED) return;
    counts = page;
    counts->calls = counts->failed = 0;
}

/* Until this has run no call counts. */
__attribute__((constructor)) static void begin(void)
{
    const char *text = getenv("FAULT_CALL");
    if (text) call = text;
    at = number_of("FAULT_AT", 0);
    last = number_of("FAULT_LAST", at);
    if (last == 0) last = UINT64_MAX;
    every = number_of("FAULT_EVERY", 1);
    piece = number_of("FAULT_PIECE", 0);
    seed = number_of("FAULT_SEED", 1) * 2654435761u + at;
    error_number = (int)number_of("FAULT_ERROR", EIO);
    int index = index_of("FAULT_EFFECT", effects, sizeof effects / sizeof *effects);
    if (index) effect = index;
    unsynced = index_of("FAULT_UNSYNCED", fates, sizeof fates / sizeof *fates);
    has_idle_sync = getenv("FAULT_IDLE_SYNC") != 0;
    armed = getenv("FAULT_ARMED");
    if (getenv("FAULT_COUNT")) share_counts(getenv("FAULT_COUNT"));
    is_ready = 1;
}

/* Whether this is a call of the name that counts. */
static int is_counted(const char *name)
{
    return is_ready && strcmp(name, call) == 0 && (!armed || syscall(SYS_access, armed, F_OK) == 0);
}

/* Whether this call of the name is one that fails. */
static int is_chosen(const char *name)
{
    if (!is_counted(name)) return 0;
    uint64_t number = __sync_add_and_fetch(&counts->calls, 1);
    if (at == 0 || number < at || number > last || (number - at) % every != 0) return 0;
    __sync_add_and_fetch(&counts->failed, 1);
    return 1;
}

/* What was there before a call that no sync of its file has followed. */
struct before {
    int file;
    off_t at, length;
    size_t count;
    char *bytes;
};

/* All of them, the newest last. The program has one thread. */
static struct before *writes;
static size_t write_count, write_room;

/* Notes what the file has from `from` to `to`, and its length, where a stop loses what isn't synced. */
static void note(int file, off_t from, off_t to)
{
    struct stat now;
    if (unsynced == KEPT || syscall(SYS_fstat, file, &now) != 0) return;
    if (write_count == write_room) {
        write_room = write_room * 2 + 64;
        writes = __libc_realloc(writes, write_room * sizeof *writes);
    }
    if (to > now.st_size) to = now.st_size;
    struct before *it = &writes[write_count++];
    it->file = file;
    it->at = from;
    it->length = now.st_size;
    it->count = from < to ? (size_t)(to - from) : 0;
    it->bytes = __libc_malloc(it->count + 1);
    if (it->count) syscall(SYS_pread64, file, it->bytes, it->count, from);
}

/* Forgets the writes to the file: they last. */
static void forget(int file)
{
    size_t kept = 0;
    for (size_t index = 0; index < write_count; index++)
        if (writes[index].file != file) writes[kept++] = writes[index];
    write_count = kept;
}

static uint64_t drawn(void)
{
    seed = seed * 6364136223846793005u + 1442695040888963407u;
    return seed >> 33;
}

/* Takes the write back, all of it or, where it is torn, a first part of it. */
static void take_back(struct before *it)
{
    size_t part = it->count;
    if (unsynced == TORN) {
        uint64_t draw = drawn() % 3;
        if (draw == 0) return;
        if (draw == 1) part = part ? drawn() % part : 0;
    }
    if (part) syscall(SYS_pwrite64, it->file, it->bytes, part, it->at);
    if (part == it->count) syscall(SYS_ftruncate, it->file, it->length);
}

static void stop(void)
{
    while (write_count) take_back(&writes[--write_count]);
    syscall(SYS_kill, getpid(), SIGKILL);
    for (;;) pause();
}

/* What this call of the name does, if it fails. It doesn't return where the process stops before the call. */
static enum effect effect_on(const char *name)
{
    if (!is_chosen(name)) return NOTHING;
    if (effect == STOP_BEFORE) stop();
    return effect;
}

static int failed(void)
{
    errno = error_number;
    return -1;
}

static size_t half_of(size_t count)
{
    return count > 1 ? count / 2 : count;
}

static void *refused(void)
{
    errno = ENOMEM;
    return 0;
}

void *malloc(size_t size)
{
    return effect_on("alloc") ? refused() : __libc_malloc(size);
}

void *calloc(size_t count, size_t size)
{
    return effect_on("alloc") ? refused() : __libc_calloc(count, size);
}

void *realloc(void *old, size_t size)
{
    return effect_on("alloc") ? refused() : __libc_realloc(old, size);
}

/* How many of these bytes a call of the name moves that doesn't fail. */
static size_t piece_of(const char *name, size_t count)
{
    return piece && piece < count && is_counted(name) ? piece : count;
}

/* The next library's function of the name, in `real`. */
#define FIND_REAL(name, result, parameters)                   \
    typedef result(*real_type) parameters;                    \
    static real_type real;                                    \
    if (!real) real = (real_type)dlsym(RTLD_NEXT, #name)

/* A call that moves `count` bytes; `part` of them with `partly`. */
#define MOVING_CALL(name, parameters, arguments, partly)      \
    ssize_t name parameters                                   \
    {                                                         \
        FIND_REAL(name, ssize_t, parameters);                 \
        count = piece_of(#name, count);                       \
        size_t part = half_of(count);                         \
        ssize_t done = 0;                                     \
        switch (effect_on(#name)) {                           \
        case NOTHING: return real arguments;                  \
        case SHORT: return real partly;                       \
        case EMPTY: return 0;                                 \
        case HALF: if (count > 1) done = real partly; break;  \
        case STOP_AFTER: done = real arguments; stop();       \
        default: break;                                       \
        }                                                     \
        (void)done;                                           \
        return failed();                                      \
    }

/* A call that answers -1 where it fails. */
#define OTHER_CALL(name, parameters, arguments)               \
    int name parameters                                       \
    {                                                         \
        FIND_REAL(name, int, parameters);                     \
        enum effect its = effect_on(#name);                   \
        if (its == NOTHING) return real arguments;            \
        if (its == STOP_AFTER) {                              \
            real arguments;                                   \
            stop();                                           \
        }                                                     \
        return failed();                                      \
    }

typedef struct sockaddr *restrict address;

MOVING_CALL(write, (int f, const void *p, size_t count), (f, p, count), (f, p, part))
MOVING_CALL(read, (int f, void *p, size_t count), (f, p, count), (f, p, part))
MOVING_CALL(pread, (int f, void *p, size_t count, off_t o), (f, p, count, o), (f, p, part, o))
MOVING_CALL(send, (int f, const void *p, size_t count, int g), (f, p, count, g), (f, p, part, g))
MOVING_CALL(recv, (int f, void *p, size_t count, int g), (f, p, count, g), (f, p, part, g))
OTHER_CALL(close, (int f), (f))
OTHER_CALL(accept4, (int f, address a, socklen_t *restrict n, int g), (f, a, n, g))
OTHER_CALL(bind, (int f, const struct sockaddr *a, socklen_t n), (f, a, n))
OTHER_CALL(clock_gettime, (clockid_t c, struct timespec *t), (c, t))
OTHER_CALL(fchmod, (int f, mode_t m), (f, m))
OTHER_CALL(fchown, (int f, uid_t u, gid_t g), (f, u, g))
OTHER_CALL(flock, (int f, int o), (f, o))
OTHER_CALL(getentropy, (void *p, size_t n), (p, n))
OTHER_CALL(getsockname, (int f, address a, socklen_t *restrict n), (f, a, n))
OTHER_CALL(listen, (int f, int n), (f, n))
OTHER_CALL(posix_fadvise, (int f, off_t o, off_t n, int a), (f, o, n, a))
OTHER_CALL(setsockopt, (int f, int l, int o, const void *v, socklen_t n), (f, l, o, v, n))
OTHER_CALL(shutdown, (int f, int h), (f, h))
OTHER_CALL(socket, (int d, int t, int p), (d, t, p))
OTHER_CALL(statx, (int d, const char *restrict p, int f, unsigned m, struct statx *restrict s), (d, p, f, m, s))

/* The calls that write to a file or make writes last. */
static ssize_t noted_pwrite(int file, const void *bytes, size_t count, off_t from)
{
    note(file, from, from + (off_t)count);
    return syscall(SYS_pwrite64, file, bytes, count, from);
}

static int noted_ftruncate(int file, off_t length)
{
    note(file, length, (off_t)1 << 62);
    return (int)syscall(SYS_ftruncate, file, length);
}

static int noted_sync(int file, long number)
{
    int done = (int)syscall(number, file);
    if (done == 0 && !has_idle_sync) forget(file);
    return done;
}

ssize_t pwrite(int file, const void *bytes, size_t count, off_t from)
{
    switch (effect_on("pwrite")) {
    case NOTHING: return noted_pwrite(file, bytes, count, from);
    case SHORT: return noted_pwrite(file, bytes, half_of(count), from);
    case EMPTY: return 0;
    case HALF: if (count > 1) noted_pwrite(file, bytes, count / 2, from); break;
    case STOP_AFTER: noted_pwrite(file, bytes, count, from); stop();
    default: break;
    }
    return failed();
}

int ftruncate(int file, off_t length)
{
    enum effect its = effect_on("ftruncate");
    if (its == NOTHING) return noted_ftruncate(file, length);
    if (its == STOP_AFTER) {
        noted_ftruncate(file, length);
        stop();
    }
    return failed();
}

static int sync_as(const char *name, int file, long number)
{
    enum effect its = effect_on(name);
    if (its == NOTHING) return noted_sync(file, number);
    if (its == STOP_AFTER) {
        noted_sync(file, number);
        stop();
    }
    return failed();
}

int fdatasync(int file)
{
    return sync_as("fdatasync", file, SYS_fdatasync);
}

int fsync(int file)
{
    return sync_as("fsync", file, SYS_fsync);
}

/* The calls whose results or arguments are of another form. */
off_t lseek(int file, off_t to, int from)
{
    FIND_REAL(lseek, off_t, (int, off_t, int));
    return effect_on("lseek") ? failed() : real(file, to, from);
}

char *realpath(const char *restrict path, char *restrict room)
{
    FIND_REAL(realpath, char *, (const char *, char *));
    if (!effect_on("realpath")) return real(path, room);
    failed();
    return 0;
}

int open(const char *path, int flags, ...)
{
    FIND_REAL(open, int, (const char *, int, ...));
    va_list rest;
    va_start(rest, flags);
    mode_t mode = va_arg(rest, mode_t);
    va_end(rest);
    enum effect its = effect_on("open");
    if (its == NOTHING) return real(path, flags, mode);
    if (its == STOP_AFTER) {
        real(path, flags, mode);
        stop();
    }
    return failed();
}

int fcntl(int file, int command, ...)
{
    FIND_REAL(fcntl, int, (int, int, ...));
    va_list rest;
    va_start(rest, command);
    void *argument = va_arg(rest, void *);
    va_end(rest);
    return effect_on("fcntl") ? failed() : real(file, command, argument);
}
