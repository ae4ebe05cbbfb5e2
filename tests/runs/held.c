/* Loaded before libc (LD_PRELOAD): writes how many bytes of the heap a program holds to the file HELD_IN, as eight
   bytes in the computer's byte order. */
#include <fcntl.h>
#include <malloc.h>
#include <stdatomic.h>
#include <stdlib.h>
#include <sys/mman.h>
#include <unistd.h>

extern void *__libc_malloc(size_t), *__libc_calloc(size_t, size_t), *__libc_realloc(void *, size_t);
extern void *__libc_memalign(size_t, size_t);
extern void __libc_free(void *);

/* Memory allocated before the file is open counts too. */
static atomic_long at_first, *held = &at_first;

__attribute__((constructor)) static void begin(void) {
    const char *path = getenv("HELD_IN");
    int file = path ? open(path, O_RDWR) : -1;
    void *shared = file < 0 ? MAP_FAILED : mmap(NULL, sizeof at_first, PROT_READ | PROT_WRITE, MAP_SHARED, file, 0);
    if (shared == MAP_FAILED)
        _exit(99);
    close(file);
    atomic_store((atomic_long *)shared, atomic_load(&at_first));
    held = shared;
}

static void *taken(void *made) {
    atomic_fetch_add(held, (long)malloc_usable_size(made));
    return made;
}

void *malloc(size_t size) { return taken(__libc_malloc(size)); }

void *calloc(size_t count, size_t size) { return taken(__libc_calloc(count, size)); }

void *memalign(size_t aligned, size_t size) { return taken(__libc_memalign(aligned, size)); }

void *aligned_alloc(size_t aligned, size_t size) { return memalign(aligned, size); }

int posix_memalign(void **made, size_t aligned, size_t size) {
    *made = memalign(aligned, size);
    return *made ? 0 : 12;
}

void free(void *made) {
    atomic_fetch_sub(held, (long)malloc_usable_size(made));
    __libc_free(made);
}

void *realloc(void *made, size_t size) {
    long before = (long)malloc_usable_size(made);
    void *moved = __libc_realloc(made, size);
    if (moved || !size)
        atomic_fetch_add(held, (long)malloc_usable_size(moved) - before);
    return moved;
}
