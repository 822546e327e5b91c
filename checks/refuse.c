/* Refuses one call of a program, for checks/refusals: loaded by LD_PRELOAD.
 *
 * KIND is what is counted: `growth` of memory (but for what making a thread takes), `read`, `write`, or a read or write of several
 * bytes of which only some are done: one (`short`), `half`, or all but one (`all but one`).
 * REFUSED is the number of the call, from 1 (0: none). The file that COUNT names, of eight bytes, gets the number of such calls
 * so far, also where the program is killed. */
#define _GNU_SOURCE
#include <dlfcn.h>
#include <errno.h>
#include <fcntl.h>
#include <pthread.h>
#include <stdlib.h>
#include <string.h>
#include <sys/mman.h>
#include <unistd.h>

extern void *__libc_malloc(size_t);
extern void *__libc_calloc(size_t, size_t);
extern void *__libc_realloc(void *, size_t);
extern void *__libc_memalign(size_t, size_t);
static ssize_t (*libc_read)(int, void *, size_t);
static ssize_t (*libc_write)(int, const void *, size_t);

static int (*libc_pthread_create)(pthread_t *, const pthread_attr_t *, void *(*)(void *), void *);

static long *count;
static long refused;
static char kind;
static __thread int makes_thread;

__attribute__((constructor)) static void begin(void) {
    libc_read = dlsym(RTLD_NEXT, "read");
    libc_write = dlsym(RTLD_NEXT, "write");
    libc_pthread_create = dlsym(RTLD_NEXT, "pthread_create");
    int file = open(getenv("COUNT"), O_RDWR);
    void *shared = mmap(NULL, 8, PROT_READ | PROT_WRITE, MAP_SHARED, file, 0);
    if (shared == MAP_FAILED) _exit(99);
    close(file);
    refused = atol(getenv("REFUSED"));
    kind = getenv("KIND")[0];
    count = shared;
}

/* Whether this call is the one. */
static int is_refused(char is) {
    return count && kind == is && __atomic_add_fetch(count, 1, __ATOMIC_SEQ_CST) == refused;
}

static int is_refused_growth(void) {
    if (makes_thread || !is_refused('g')) return 0;
    errno = ENOMEM;
    return 1;
}

void *malloc(size_t size) { return is_refused_growth() ? NULL : __libc_malloc(size); }

void *calloc(size_t many, size_t size) { return is_refused_growth() ? NULL : __libc_calloc(many, size); }

void *realloc(void *old, size_t size) { return is_refused_growth() ? NULL : __libc_realloc(old, size); }

void *memalign(size_t to, size_t size) { return is_refused_growth() ? NULL : __libc_memalign(to, size); }

void *aligned_alloc(size_t to, size_t size) { return memalign(to, size); }

int posix_memalign(void **at, size_t to, size_t size) {
    void *got = memalign(to, size);
    if (!got) return ENOMEM;
    *at = got;
    return 0;
}

/* How many bytes of a read or write are done. */
static size_t done(size_t size) {
    if (size < 2) return size;
    if (is_refused('s')) return 1;
    if (is_refused('h')) return size / 2;
    return is_refused('a') ? size - 1 : size;
}

ssize_t read(int file, void *to, size_t size) {
    if (is_refused('r')) return errno = EIO, -1;
    return libc_read(file, to, done(size));
}

ssize_t write(int file, const void *from, size_t size) {
    if (is_refused('w')) return errno = EIO, -1;
    return libc_write(file, from, done(size));
}

int pthread_create(pthread_t *thread, const pthread_attr_t *how, void *(*run)(void *), void *with) {
    makes_thread = 1;
    int failed = libc_pthread_create(thread, how, run, with);
    makes_thread = 0;
    return failed;
}
