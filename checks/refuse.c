/* Refuses allocations of the program that it is preloaded into (LD_PRELOAD): the one whose number is in REFUSE_AT, or
 * all from the one whose number is in REFUSE_FROM on. Allocations are numbered from 1, over all threads. The file that
 * REFUSE_COUNTS names, of 16 bytes, gets two counts in the machine's byte order: of allocations and of refusals. They
 * are kept while the program runs, so a program that is killed leaves them, too. A file of 32 bytes has two more numbers
 * behind them: while the third isn't 0, all allocations are refused; the fourth counts calls of accept4. ACCEPT_FAILS_AT is the number of the call of accept4 that
 * fails with the error whose number is in ACCEPT_ERROR; LISTEN_FAILS_AT and LISTEN_ERROR are the same of listen. Before
 * the first call of flock the file that FLOCK_REMOVES names is removed, and made again if FLOCK_MAKES is 1, as another
 * process may do between the open and the lock. The time limits of receiving are divided by RECEIVES_FASTER. The process
 * at the other end of each socket has the context that is in PEER_CONTEXT, as SELinux gives it. For Linux with glibc. */

#define _GNU_SOURCE

#include <dlfcn.h>
#include <errno.h>
#include <fcntl.h>
#include <stdatomic.h>
#include <stddef.h>
#include <stdint.h>
#include <stdlib.h>
#include <string.h>
#include <sys/file.h>
#include <sys/mman.h>
#include <sys/socket.h>
#include <sys/time.h>
#include <unistd.h>

void *__libc_malloc(size_t size);
void *__libc_calloc(size_t count, size_t size);
void *__libc_realloc(void *block, size_t size);
void *__libc_memalign(size_t alignment, size_t size);

struct counts {
    _Atomic uint64_t allocations;
    _Atomic uint64_t refusals;
    _Atomic uint64_t refused_now;
    _Atomic uint64_t accepts;
};

static struct counts unshared;
static struct counts *counts = &unshared;
static uint64_t refused_at;
static uint64_t refused_from;
static uint64_t accept_fails_at;
static int accept_error;
static uint64_t listen_fails_at;
static int listen_error;
static _Atomic uint64_t listens;
static _Atomic uint64_t flocks;
static uint64_t receives_faster;

static uint64_t number_of(const char *variable)
{
    const char *value = getenv(variable);
    return value ? strtoull(value, NULL, 10) : 0;
}

__attribute__((constructor)) static void begin(void)
{
    accept_fails_at = number_of("ACCEPT_FAILS_AT");
    accept_error = (int)number_of("ACCEPT_ERROR");
    listen_fails_at = number_of("LISTEN_FAILS_AT");
    listen_error = (int)number_of("LISTEN_ERROR");
    receives_faster = number_of("RECEIVES_FASTER");
    const char *path = getenv("REFUSE_COUNTS");
    int file = path ? open(path, O_RDWR) : -1;
    if (file < 0)
        return;
    void *shared = mmap(NULL, sizeof *counts, PROT_READ | PROT_WRITE, MAP_SHARED, file, 0);
    close(file);
    if (shared == MAP_FAILED)
        return;
    counts = shared;
    refused_at = number_of("REFUSE_AT");
    refused_from = number_of("REFUSE_FROM");
}

static int is_refused(void)
{
    uint64_t number = atomic_fetch_add(&counts->allocations, 1) + 1;
    int by_number = number == refused_at || (refused_from != 0 && number >= refused_from);
    if (!by_number && atomic_load(&counts->refused_now) == 0)
        return 0;
    atomic_fetch_add(&counts->refusals, 1);
    errno = ENOMEM;
    return 1;
}

void *malloc(size_t size)
{
    return is_refused() ? NULL : __libc_malloc(size);
}

void *calloc(size_t count, size_t size)
{
    return is_refused() ? NULL : __libc_calloc(count, size);
}

void *realloc(void *block, size_t size)
{
    return is_refused() ? NULL : __libc_realloc(block, size);
}

void *memalign(size_t alignment, size_t size)
{
    return is_refused() ? NULL : __libc_memalign(alignment, size);
}

void *aligned_alloc(size_t alignment, size_t size)
{
    return is_refused() ? NULL : __libc_memalign(alignment, size);
}

int posix_memalign(void **block, size_t alignment, size_t size)
{
    if (is_refused())
        return ENOMEM;
    *block = __libc_memalign(alignment, size);
    return *block ? 0 : ENOMEM;
}

int accept4(int listener, struct sockaddr *restrict address, socklen_t *restrict length, int flags)
{
    static int (*really)(int, struct sockaddr *restrict, socklen_t *restrict, int);
    if (!really)
        *(void **)&really = dlsym(RTLD_NEXT, "accept4");
    if (atomic_fetch_add(&counts->accepts, 1) + 1 == accept_fails_at) {
        errno = accept_error;
        return -1;
    }
    return really(listener, address, length, flags);
}

int listen(int socket, int backlog)
{
    static int (*really)(int, int);
    if (!really)
        *(void **)&really = dlsym(RTLD_NEXT, "listen");
    if (atomic_fetch_add(&listens, 1) + 1 == listen_fails_at) {
        errno = listen_error;
        return -1;
    }
    return really(socket, backlog);
}

int flock(int file, int operation)
{
    static int (*really)(int, int);
    if (!really)
        *(void **)&really = dlsym(RTLD_NEXT, "flock");
    const char *path = getenv("FLOCK_REMOVES");
    if (path && atomic_fetch_add(&flocks, 1) == 0) {
        unlink(path);
        if (number_of("FLOCK_MAKES") == 1)
            close(open(path, O_RDWR | O_CREAT, 0600));
    }
    return really(file, operation);
}

int setsockopt(int socket, int level, int name, const void *value, socklen_t length)
{
    static int (*really)(int, int, int, const void *, socklen_t);
    if (!really)
        *(void **)&really = dlsym(RTLD_NEXT, "setsockopt");
    if (receives_faster == 0 || level != SOL_SOCKET || name != SO_RCVTIMEO)
        return really(socket, level, name, value, length);
    const struct timeval *given = value;
    uint64_t micros = (given->tv_sec * 1000000 + given->tv_usec) / receives_faster;
    struct timeval less = {.tv_sec = micros / 1000000, .tv_usec = micros % 1000000};
    return really(socket, level, name, &less, sizeof less);
}

int getsockopt(int socket, int level, int name, void *restrict value, socklen_t *restrict length)
{
    static int (*really)(int, int, int, void *restrict, socklen_t *restrict);
    if (!really)
        *(void **)&really = dlsym(RTLD_NEXT, "getsockopt");
    const char *context = getenv("PEER_CONTEXT");
    if (!context || level != SOL_SOCKET || name != SO_PEERSEC)
        return really(socket, level, name, value, length);
    socklen_t room = *length;
    *length = strlen(context) + 1;
    if (room < *length) {
        errno = ERANGE;
        return -1;
    }
    memcpy(value, context, *length);
    return 0;
}
