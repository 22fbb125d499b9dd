/* Stands between a program and the archive (gcc -Wl,--wrap=NAME for each function): a call is handed a copy of each buffer that is exactly as
 * long as the call says, and what it wrote is copied back. So accesses past a length are seen although the archive is not instrumented: by
 * valgrind, to which each copy is a block of its own, and under -fsanitize=address because behind the copy is a page that nobody may touch.
 * exact.awk makes exact_calls.h, a function for each one of jpeg_block.h. */
#include "jpeg_block.h"

#include <stdio.h>
#include <stdlib.h>
#include <string.h>

#ifdef __SANITIZE_ADDRESS__
#include <sys/mman.h>
#include <unistd.h>

static size_t pages(size_t size)
{
    size_t page = (size_t)sysconf(_SC_PAGESIZE);
    return (size + page - 1) / page * page;
}

static void *room(size_t size)
{
    size_t whole = pages(size), page = pages(1);
    char *start = mmap(NULL, whole + page, PROT_READ | PROT_WRITE, MAP_PRIVATE | MAP_ANONYMOUS, -1, 0);
    if (start == MAP_FAILED || mprotect(start + whole, page, PROT_NONE) != 0) {
        return NULL;
    }
    return start + whole - size;
}

static void leave(void *copy, size_t size)
{
    munmap((char *)copy + size - pages(size), pages(size) + pages(1));
}
#else
static void *room(size_t size)
{
    return malloc(size);
}

static void leave(void *copy, size_t size)
{
    (void)size;
    free(copy);
}
#endif

/* A buffer of length 0 may have any pointer. */
static void *lent(const void *from, size_t size)
{
    void *copy;
    if (size == 0) {
        return (void *)from;
    }
    copy = room(size);
    if (copy == NULL) {
        perror("bindings/exact.c");
        exit(EXIT_FAILURE);
    }
    return memcpy(copy, from, size);
}

static void output_returned(void *to, void *copy, size_t size)
{
    if (size > 0) {
        memcpy(to, copy, size);
        leave(copy, size);
    }
}

static void input_returned(const void *from, void *copy, size_t size)
{
    if (size > 0) {
        if (memcmp(from, copy, size) != 0) {
            puts("a call wrote to an input");
            exit(EXIT_FAILURE);
        }
        leave(copy, size);
    }
}

#include "exact_calls.h"
