/* Loaded before the C library, it refuses growths of a process: the one of a number, or some of them by chance.
 *
 * REFUSED_GROWTH=N refuses the Nth growth, counted from 1. REFUSED_GROWTHS=P refuses about one in P of those behind
 * the first GROWTHS_BEFORE. Each refusal writes a byte to the file of the number GROWTHS_TELLER, where that is set. */
#include <errno.h>
#include <stdatomic.h>
#include <stdlib.h>
#include <unistd.h>

/* glibc's own names of the functions that are taken over */
extern void *__libc_malloc(size_t size);
extern void *__libc_calloc(size_t count, size_t size);
extern void *__libc_realloc(void *block, size_t size);
extern void *__libc_memalign(size_t alignment, size_t size);

static atomic_long growths;
static long refused, one_in, before;
static int teller = -1;

static long number(const char *name, long otherwise) {
    const char *text = getenv(name);
    return text ? atol(text) : otherwise;
}

__attribute__((constructor)) static void begin(void) {
    refused = number("REFUSED_GROWTH", 0);
    before = number("GROWTHS_BEFORE", 0);
    teller = (int)number("GROWTHS_TELLER", -1);
    one_in = number("REFUSED_GROWTHS", 0);
}

/* Whether chance refuses the growth of this number: its bits are mixed (splitmix64), so that a run's are always the same. */
static int is_unlucky(unsigned long at) {
    at *= 0x9e3779b97f4a7c15UL;
    at = (at ^ (at >> 30)) * 0xbf58476d1ce4e5b9UL;
    at = (at ^ (at >> 27)) * 0x94d049bb133111ebUL;
    return (at ^ (at >> 31)) % (unsigned long)one_in == 0;
}

static int is_refused(void) {
    long at = atomic_fetch_add(&growths, 1) + 1;
    if (at != refused && !(one_in > 0 && at > before && is_unlucky((unsigned long)at))) return 0;
    if (teller >= 0 && write(teller, "x", 1) != 1) _exit(99);
    errno = ENOMEM;
    return 1;
}

void *malloc(size_t size) { return is_refused() ? NULL : __libc_malloc(size); }
void *calloc(size_t count, size_t size) { return is_refused() ? NULL : __libc_calloc(count, size); }
void *realloc(void *block, size_t size) { return is_refused() ? NULL : __libc_realloc(block, size); }
void *aligned_alloc(size_t alignment, size_t size) { return is_refused() ? NULL : __libc_memalign(alignment, size); }
void *memalign(size_t alignment, size_t size) { return is_refused() ? NULL : __libc_memalign(alignment, size); }

int posix_memalign(void **block, size_t alignment, size_t size) {
    void *made = is_refused() ? NULL : __libc_memalign(alignment, size);
    if (made == NULL) return ENOMEM;
    *block = made;
    return 0;
}
