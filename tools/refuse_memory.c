/* Loaded before the C library by tools/refused_memory: counts the calls that ask for memory, from the start of the
   program on, and refuses the one whose number stands in REFUSED, or all from it on where ALL is set. How many there were
   stands in the eight bytes of the file that is open as descriptor 9: the program ends without its library's farewell. */
#define _GNU_SOURCE
#include <errno.h>
#include <stdatomic.h>
#include <stddef.h>
#include <stdlib.h>
#include <sys/mman.h>

extern void *__libc_malloc(size_t);
extern void *__libc_calloc(size_t, size_t);
extern void *__libc_realloc(void *, size_t);
extern void *__libc_memalign(size_t, size_t);

static atomic_ulong *asked;
static unsigned long refused;
static int all;

__attribute__((constructor)) static void begin(void)
{
    const char *number = getenv("REFUSED");
    void *counted = mmap(NULL, sizeof *asked, PROT_READ | PROT_WRITE, MAP_SHARED, 9, 0);
    refused = number ? strtoul(number, NULL, 10) : 0;
    all = getenv("ALL") != NULL;
    if (counted != MAP_FAILED)
        asked = counted;
}

static int is_refused(void)
{
    unsigned long number;
    if (!asked)
        return 0;
    number = atomic_fetch_add(asked, 1) + 1;
    if (refused && (number == refused || (all && number > refused))) {
        errno = ENOMEM;
        return 1;
    }
    return 0;
}

void *malloc(size_t size) { return is_refused() ? NULL : __libc_malloc(size); }
void *calloc(size_t count, size_t size) { return is_refused() ? NULL : __libc_calloc(count, size); }
void *realloc(void *old, size_t size) { return is_refused() ? NULL : __libc_realloc(old, size); }
void *memalign(size_t align, size_t size) { return is_refused() ? NULL : __libc_memalign(align, size); }
void *aligned_alloc(size_t align, size_t size) { return is_refused() ? NULL : __libc_memalign(align, size); }

int posix_memalign(void **to, size_t align, size_t size)
{
    void *made = is_refused() ? NULL : __libc_memalign(align, size);
    if (!made)
        return ENOMEM;
    *to = made;
    return 0;
}
