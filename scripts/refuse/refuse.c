/* Preloaded into a program (LD_PRELOAD), it counts the program's allocations, reads and writes, and makes chosen ones fail.
 *
 *   gcc -O2 -Wall -shared -fPIC -fno-omit-frame-pointer -o refuse.so refuse.c
 *   REFUSE_AT=3 LD_PRELOAD=./refuse.so ./program
 *
 * From the environment, all numbers from 1, none or 0 meaning never:
 *   REFUSE_SKIP=n     the first n allocations aren't numbered
 *   REFUSE_AT=k       the k-th allocation is refused (NULL and ENOMEM)
 *   REFUSE_FOR=n      and so many in a row, 0 for all later ones (1)
 *   READ_FAILS_AT=k   the k-th read fails; READ_FAILS_FOR=n as above, READ_FAILS_BY=errno (5, EIO)
 *   WRITE_FAILS_AT=k  the k-th write fails; WRITE_FAILS_FOR=n, WRITE_FAILS_BY=errno; a negative errno -n: the call answers n in place of failing
 *   READ_MOST=n       a read gives at most n bytes; WRITE_MOST=n a write takes at most n
 *   START_FAILS_AT=k  the k-th start of a thread fails (EAGAIN); START_FAILS_FOR=n as above
 *   REFUSE_TELLS=file the counts, kept up to date in this file of 4,096 bytes whatever the program's end is:
 *                     64-bit words in the order of `struct counts`
 *
 * Before the program's process ends, threads that are on their way out have a second to count as ended: so one that doesn't is one that was left.
 *
 * An allocation is a call of malloc, calloc, realloc (but realloc(p, 0)), reallocarray, posix_memalign, aligned_alloc, memalign, valloc
 * or mmap of anonymous memory. A read is a call of read, pread or readv, a write one of write, pwrite or writev. Threads may do all of these:
 * each count is one atomic number, and which thread makes the k-th call is up to the schedule.
 */
#define _GNU_SOURCE
#include <dlfcn.h>
#include <errno.h>
#include <fcntl.h>
#include <link.h>
#include <pthread.h>
#include <stddef.h>
#include <stdint.h>
#include <stdlib.h>
#include <sys/mman.h>
#include <sys/syscall.h>
#include <sys/uio.h>
#include <time.h>
#include <unistd.h>

/* glibc's own names of what stands behind malloc and its kin */
extern void *__libc_malloc(size_t);
extern void *__libc_calloc(size_t, size_t);
extern void *__libc_realloc(void *, size_t);
extern void *__libc_memalign(size_t, size_t);
extern void __libc_free(void *);
extern void *__libc_stack_end;

#define FRAMES 24

struct counts {
    uint64_t is_set;       /* 1 once the library is at work */
    uint64_t base;         /* where the program is loaded */
    uint64_t allocations;  /* numbered ones, refused ones too */
    uint64_t refused;
    uint64_t made;         /* blocks given out */
    uint64_t freed;        /* blocks taken back */
    uint64_t reads, reads_failed, writes, writes_failed;
    uint64_t starts, starts_failed, ends; /* of threads */
    uint64_t refused_size; /* of the first refused one */
    uint64_t frames;       /* and its callers, the innermost first */
    uint64_t frame[FRAMES];
};

static struct counts own_counts;
static struct counts *counts = &own_counts;

struct range {
    uint64_t at, count;
};

static uint64_t skip, skipped;
static struct range refused, failing_reads, failing_writes, failing_starts;
static int (*start_thread)(pthread_t *, const pthread_attr_t *, void *(*)(void *), void *);
static long read_error = EIO, write_error = EIO;
static uint64_t read_most, write_most;

/* One more; what it is then. */
static uint64_t one_more(uint64_t *count) { return __atomic_add_fetch(count, 1, __ATOMIC_SEQ_CST); }

static long number(const char *name, long if_none) {
    const char *word = getenv(name);
    return word && *word ? strtol(word, NULL, 10) : if_none;
}

static int holds(struct range range, uint64_t n) {
    return range.at && n >= range.at && (!range.count || n - range.at < range.count);
}

static int base_of(struct dl_phdr_info *info, size_t size, void *to) {
    (void)size;
    *(uint64_t *)to = info->dlpi_addr;
    return 1; /* the first one is the program */
}

__attribute__((constructor)) static void start(void) {
    const char *file = getenv("REFUSE_TELLS");
    if (file) {
        int to = (int)syscall(SYS_openat, AT_FDCWD, file, O_RDWR);
        if (to >= 0) {
            void *page = (void *)syscall(SYS_mmap, NULL, 4096, PROT_READ | PROT_WRITE, MAP_SHARED, to, 0);
            if (page != MAP_FAILED) {
                struct counts *shared = page;
                *shared = *counts;
                counts = shared;
            }
            syscall(SYS_close, to);
        }
    }
    dl_iterate_phdr(base_of, &counts->base);
    *(void **)&start_thread = dlsym(RTLD_NEXT, "pthread_create");
    skip = (uint64_t)number("REFUSE_SKIP", 0);
    refused = (struct range){(uint64_t)number("REFUSE_AT", 0), (uint64_t)number("REFUSE_FOR", 1)};
    failing_reads = (struct range){(uint64_t)number("READ_FAILS_AT", 0), (uint64_t)number("READ_FAILS_FOR", 1)};
    failing_writes = (struct range){(uint64_t)number("WRITE_FAILS_AT", 0), (uint64_t)number("WRITE_FAILS_FOR", 1)};
    failing_starts = (struct range){(uint64_t)number("START_FAILS_AT", 0), (uint64_t)number("START_FAILS_FOR", 1)};
    read_error = number("READ_FAILS_BY", EIO);
    write_error = number("WRITE_FAILS_BY", EIO);
    read_most = (uint64_t)number("READ_MOST", 0);
    write_most = (uint64_t)number("WRITE_MOST", 0);
    counts->is_set = 1;
}

/* The callers of a refused allocation, over the saved frame pointers. */
static __attribute__((noinline)) void keep_callers(void) {
    uint64_t *frame = __builtin_frame_address(0);
    uint64_t n = 0;
    while (n < FRAMES && (void *)frame < __libc_stack_end && !((uintptr_t)frame & 7)) {
        uint64_t *next = (uint64_t *)frame[0];
        counts->frame[n++] = frame[1];
        if (next <= frame || (char *)next - (char *)frame > (8 << 20)) break;
        frame = next;
    }
    counts->frames = n;
}

/* Whether this allocation is to be refused. */
static int is_refused(size_t size) {
    if (!counts->is_set) return 0;
    if (skipped < skip) {
        skipped++;
        return 0;
    }
    if (!holds(refused, one_more(&counts->allocations))) return 0;
    if (one_more(&counts->refused) == 1) {
        counts->refused_size = size;
        keep_callers();
    }
    errno = ENOMEM;
    return 1;
}

static void *made(void *block) {
    if (block) one_more(&counts->made);
    return block;
}

void *malloc(size_t size) { return is_refused(size) ? NULL : made(__libc_malloc(size)); }

void *calloc(size_t count, size_t size) { return is_refused(count * size) ? NULL : made(__libc_calloc(count, size)); }

void *realloc(void *block, size_t size) {
    if (block && !size) {
        one_more(&counts->freed);
        return __libc_realloc(block, size);
    }
    if (is_refused(size)) return NULL;
    void *moved = __libc_realloc(block, size);
    return block ? moved : made(moved);
}

void *reallocarray(void *block, size_t count, size_t size) {
    size_t all;
    if (__builtin_mul_overflow(count, size, &all)) {
        errno = ENOMEM;
        return NULL;
    }
    return realloc(block, all);
}

void *memalign(size_t align, size_t size) { return is_refused(size) ? NULL : made(__libc_memalign(align, size)); }

void *aligned_alloc(size_t align, size_t size) { return is_refused(size) ? NULL : made(__libc_memalign(align, size)); }

void *valloc(size_t size) { return is_refused(size) ? NULL : made(__libc_memalign(4096, size)); }

int posix_memalign(void **to, size_t align, size_t size) {
    if (is_refused(size)) return ENOMEM;
    void *block = made(__libc_memalign(align, size));
    if (!block) return ENOMEM;
    *to = block;
    return 0;
}

void free(void *block) {
    if (block) one_more(&counts->freed);
    __libc_free(block);
}

void *mmap(void *at, size_t size, int rights, int flags, int file, off_t from) {
    if ((flags & MAP_ANONYMOUS) && is_refused(size)) return MAP_FAILED;
    return (void *)syscall(SYS_mmap, at, size, rights, flags, file, from);
}

/* Whether this call is to fail, with what it then answers in `answer`. */
static int fails(struct range range, uint64_t *calls, uint64_t *failed, long error, ssize_t *answer) {
    if (!counts->is_set || !holds(range, one_more(calls))) return 0;
    one_more(failed);
    *answer = -1;
    if (error > 0) errno = (int)error;
    else *answer = -error;
    return 1;
}

static int read_fails(ssize_t *answer) { return fails(failing_reads, &counts->reads, &counts->reads_failed, read_error, answer); }

static int write_fails(ssize_t *answer) { return fails(failing_writes, &counts->writes, &counts->writes_failed, write_error, answer); }

static size_t at_most(uint64_t most, size_t count) { return most && count > most ? most : count; }

ssize_t read(int file, void *to, size_t count) {
    ssize_t answer;
    return read_fails(&answer) ? answer : syscall(SYS_read, file, to, at_most(read_most, count));
}

ssize_t pread(int file, void *to, size_t count, off_t at) {
    ssize_t answer;
    return read_fails(&answer) ? answer : syscall(SYS_pread64, file, to, at_most(read_most, count), at);
}

ssize_t write(int file, const void *from, size_t count) {
    ssize_t answer;
    return write_fails(&answer) ? answer : syscall(SYS_write, file, from, at_most(write_most, count));
}

ssize_t pwrite(int file, const void *from, size_t count, off_t at) {
    ssize_t answer;
    return write_fails(&answer) ? answer : syscall(SYS_pwrite64, file, from, at_most(write_most, count), at);
}

ssize_t readv(int file, const struct iovec *parts, int count) {
    ssize_t answer;
    if (read_fails(&answer)) return answer;
    if (read_most && count > 0) return syscall(SYS_read, file, parts[0].iov_base, at_most(read_most, parts[0].iov_len));
    return syscall(SYS_readv, file, parts, count);
}

ssize_t writev(int file, const struct iovec *parts, int count) {
    ssize_t answer;
    if (write_fails(&answer)) return answer;
    if (write_most && count > 0) return syscall(SYS_write, file, parts[0].iov_base, at_most(write_most, parts[0].iov_len));
    return syscall(SYS_writev, file, parts, count);
}

ssize_t __read(int file, void *to, size_t count) { return read(file, to, count); }

ssize_t __write(int file, const void *from, size_t count) { return write(file, from, count); }

/* What a thread runs, and that it ended. */
struct task {
    void *(*run)(void *);
    void *with;
};

static void *run_task(void *from) {
    struct task task = *(struct task *)from;
    __libc_free(from);
    void *answer = task.run(task.with);
    one_more(&counts->ends);
    return answer;
}

int pthread_create(pthread_t *to, const pthread_attr_t *how, void *(*run)(void *), void *with) {
    ssize_t answer;
    if (fails(failing_starts, &counts->starts, &counts->starts_failed, EAGAIN, &answer)) return EAGAIN;
    struct task *task = __libc_malloc(sizeof *task);
    if (!task) return EAGAIN;
    *task = (struct task){run, with};
    int status = start_thread(to, how, run_task, task);
    if (status) {
        __libc_free(task);
        one_more(&counts->starts_failed);
    }
    return status;
}

/* Waits until each thread that was started has ended, for a second at most. */
static void wait_for_threads(void) {
    struct timespec pause = {0, 1000000};
    for (int turn = 0; turn < 1000; turn++) {
        uint64_t ended = __atomic_load_n(&counts->ends, __ATOMIC_SEQ_CST) + __atomic_load_n(&counts->starts_failed, __ATOMIC_SEQ_CST);
        if (ended >= __atomic_load_n(&counts->starts, __ATOMIC_SEQ_CST)) return;
        syscall(SYS_nanosleep, &pause, NULL);
    }
}

__attribute__((destructor)) static void end(void) { wait_for_threads(); }

void _exit(int status) {
    wait_for_threads();
    for (;;) syscall(SYS_exit_group, status);
}
