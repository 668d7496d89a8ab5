// Refuses allocations of a program that it is loaded into by LD_PRELOAD: the one whose number, from 1, stands in
// REFUSE, and with REFUSE_ALL set each one from there on. Into the file that REFUSE_COUNT names it writes how many
// were asked for.
#include <errno.h>
#include <stdatomic.h>
#include <stdio.h>
#include <stdlib.h>
#include <sys/syscall.h>
#include <unistd.h>

void *__libc_malloc(size_t size);
void *__libc_calloc(size_t count, size_t size);
void *__libc_realloc(void *old, size_t size);
void *__libc_memalign(size_t align, size_t size);

static atomic_long asked;
static long refused, and_all_after;

__attribute__((constructor)) static void begin(void) {
    const char *number = getenv("REFUSE");
    and_all_after = getenv("REFUSE_ALL") != NULL;
    atomic_store(&asked, 0);
    refused = number ? atol(number) : 0;
}

static void tell(void) {
    long count = atomic_load(&asked);
    const char *path = getenv("REFUSE_COUNT");
    refused = 0;
    FILE *file = path ? fopen(path, "w") : NULL;
    if (file) {
        fprintf(file, "%ld\n", count);
        fclose(file);
    }
}

// (the program ends so, and the C library's own way out isn't taken)
void _exit(int status) {
    tell();
    syscall(SYS_exit_group, status);
    __builtin_unreachable();
}

static int is_refused(void) {
    long number = atomic_fetch_add(&asked, 1) + 1;
    if (refused == 0 || number < refused || (number > refused && !and_all_after))
        return 0;
    errno = ENOMEM;
    return 1;
}

void *malloc(size_t size) { return is_refused() ? NULL : __libc_malloc(size); }

void *calloc(size_t count, size_t size) { return is_refused() ? NULL : __libc_calloc(count, size); }

void *realloc(void *old, size_t size) { return is_refused() ? NULL : __libc_realloc(old, size); }

void *memalign(size_t align, size_t size) { return is_refused() ? NULL : __libc_memalign(align, size); }

void *aligned_alloc(size_t align, size_t size) { return memalign(align, size); }

int posix_memalign(void **result, size_t align, size_t size) {
    void *made = memalign(align, size);
    if (!made)
        return ENOMEM;
    *result = made;
    return 0;
}
