/* Counts the growths of a program, its calls of malloc and realloc, and refuses number REFUSE of them. A refusal is
   noted by making the file that REFUSED names, which says "smaller" if a block was asked to be smaller: it stays as it
   is then. How many there were so far stands in the first bytes of the file that GROWTHS names, as they come. */
#define _GNU_SOURCE
#include <dlfcn.h>
#include <errno.h>
#include <fcntl.h>
#include <malloc.h>
#include <stdlib.h>
#include <sys/mman.h>
#include <unistd.h>

static long own, *growths = &own;

__attribute__((constructor)) static void share(void) {
    const char *name = getenv("GROWTHS");
    int file = name ? open(name, O_RDWR) : -1;
    if (file < 0) return;
    long *seen = mmap(NULL, sizeof own, PROT_READ | PROT_WRITE, MAP_SHARED, file, 0);
    close(file);
    if (seen == MAP_FAILED) return;
    *seen = own;
    growths = seen;
}

static int refused(int smaller) {
    const char *number = getenv("REFUSE"), *note = getenv("REFUSED");
    ++*growths;
    if (!number || !note || *growths != atol(number)) return 0;
    int file = open(note, O_CREAT | O_WRONLY, 0600);
    if (smaller && write(file, "smaller", 7) != 7) abort();
    close(file);
    errno = ENOMEM;
    return 1;
}

// How many bytes were asked for of each block that is there; 0 if that is not known.
enum { BLOCKS = 1 << 20 };
static struct { void *block; size_t size; } asked[BLOCKS];

static size_t *asked_of(void *block) {
    size_t at = ((size_t)block >> 4) * 0x9E3779B97F4A7C15 >> 44;
    while (asked[at].block && asked[at].block != block) at = (at + 1) % BLOCKS;
    asked[at].block = block;
    return &asked[at].size;
}

void *malloc(size_t size) {
    static void *(*next)(size_t);
    if (!next) next = (void *(*)(size_t))dlsym(RTLD_NEXT, "malloc");
    void *block = refused(0) ? NULL : next(size);
    if (block) *asked_of(block) = size;
    return block;
}

void *realloc(void *old, size_t size) {
    static void *(*next)(void *, size_t);
    if (!next) next = (void *(*)(void *, size_t))dlsym(RTLD_NEXT, "realloc");
    size_t known = old ? *asked_of(old) : 0;
    // a block has less than a page more than were asked for
    int smaller = known ? size < known : old && size + 4096 <= malloc_usable_size(old);
    if (refused(smaller)) return NULL;
    void *block = next(old, size);
    if (block && old) *asked_of(old) = 0;
    if (block) *asked_of(block) = size;
    return block;
}

void free(void *block) {
    static void (*next)(void *);
    if (!next) next = (void (*)(void *))dlsym(RTLD_NEXT, "free");
    if (block) *asked_of(block) = 0;
    next(block);
}
