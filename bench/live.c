/* Counts the memory that the program that it is preloaded into (LD_PRELOAD) has allocated and not freed: the file that
 * LIVE_COUNTS names, of 16 bytes, gets the bytes and the blocks in the machine's byte order. The allocator's own caches
 * and gaps, which are part of the resident memory, aren't counted. For Linux with glibc. */

#define _GNU_SOURCE

#include <errno.h>
#include <fcntl.h>
#include <malloc.h>
#include <stdatomic.h>
#include <stddef.h>
#include <stdint.h>
#include <stdlib.h>
#include <sys/mman.h>
#include <unistd.h>

void *__libc_malloc(size_t size);
void *__libc_calloc(size_t count, size_t size);
void *__libc_realloc(void *block, size_t size);
void *__libc_memalign(size_t alignment, size_t size);
void __libc_free(void *block);

struct counts {
    _Atomic int64_t bytes;
    _Atomic int64_t blocks;
};

static struct counts unshared;
static struct counts *counts = &unshared;

__attribute__((constructor)) static void begin(void)
{
    const char *path = getenv("LIVE_COUNTS");
    int file = path ? open(path, O_RDWR) : -1;
    if (file < 0)
        return;
    struct counts *shared = mmap(NULL, sizeof *counts, PROT_READ | PROT_WRITE, MAP_SHARED, file, 0);
    close(file);
    if (shared == MAP_FAILED)
        return;
    shared->bytes = unshared.bytes;
    shared->blocks = unshared.blocks;
    counts = shared;
}

static void *given(void *block)
{
    if (block) {
        counts->bytes += malloc_usable_size(block);
        counts->blocks++;
    }
    return block;
}

static void taken_back(void *block)
{
    if (block) {
        counts->bytes -= malloc_usable_size(block);
        counts->blocks--;
    }
}

void *malloc(size_t size)
{
    return given(__libc_malloc(size));
}

void *calloc(size_t count, size_t size)
{
    return given(__libc_calloc(count, size));
}

void *realloc(void *block, size_t size)
{
    taken_back(block);
    void *moved = __libc_realloc(block, size);
    if (!moved && block && size)
        given(block); /* It failed, and the block is as it was. */
    return given(moved);
}

void *memalign(size_t alignment, size_t size)
{
    return given(__libc_memalign(alignment, size));
}

void *aligned_alloc(size_t alignment, size_t size)
{
    return given(__libc_memalign(alignment, size));
}

int posix_memalign(void **block, size_t alignment, size_t size)
{
    *block = given(__libc_memalign(alignment, size));
    return *block ? 0 : ENOMEM;
}

void free(void *block)
{
    taken_back(block);
    __libc_free(block);
}
