// Laid over a program by LD_PRELOAD, it refuses one of the program's requests for memory, and counts them from 1.
//
//   REFUSE_AT     the number of the request that is refused
//   REFUSE_REST   where it is set, all requests behind that one are refused as well
//   REFUSE_MARK   a file descriptor; one byte is written to it when the first request is refused

#include <errno.h>
#include <stdbool.h>
#include <stddef.h>
#include <stdint.h>
#include <stdlib.h>
#include <unistd.h>

// The C library's own functions, under the names that it keeps for what stands before it.
extern void *__libc_malloc(size_t size);
extern void *__libc_calloc(size_t count, size_t size);
extern void *__libc_realloc(void *block, size_t size);
extern void *__libc_memalign(size_t alignment, size_t size);

static unsigned long refused_number;
static bool is_rest_refused;
static int mark = -1;
static unsigned long requests;

__attribute__((constructor)) static void read_orders(void) {
    const char *number = getenv("REFUSE_AT");
    const char *descriptor = getenv("REFUSE_MARK");
    refused_number = number == NULL ? 0 : strtoul(number, NULL, 10);
    is_rest_refused = getenv("REFUSE_REST") != NULL;
    mark = descriptor == NULL ? -1 : atoi(descriptor);
}

static bool is_refused(void) {
    requests++;
    if (refused_number == 0 || requests < refused_number)
        return false;
    if (requests > refused_number)
        return is_rest_refused;
    // A mark that is not taken shows as a request that was never refused.
    if (mark >= 0 && write(mark, "!", 1) != 1)
        mark = -1;
    return true;
}

static void *refuse(void) {
    errno = ENOMEM;
    return NULL;
}

void *malloc(size_t size) {
    return is_refused() ? refuse() : __libc_malloc(size);
}

void *calloc(size_t count, size_t size) {
    return is_refused() ? refuse() : __libc_calloc(count, size);
}

// A block that is to have no bytes is let go, and asks for nothing.
void *realloc(void *block, size_t size) {
    if (block != NULL && size == 0)
        return __libc_realloc(block, size);
    return is_refused() ? refuse() : __libc_realloc(block, size);
}

void *reallocarray(void *block, size_t count, size_t size) {
    if (size != 0 && count > SIZE_MAX / size)
        return refuse();
    return realloc(block, count * size);
}

void *memalign(size_t alignment, size_t size) {
    return is_refused() ? refuse() : __libc_memalign(alignment, size);
}

void *aligned_alloc(size_t alignment, size_t size) {
    return memalign(alignment, size);
}

int posix_memalign(void **block, size_t alignment, size_t size) {
    void *made = memalign(alignment, size);
    if (made == NULL)
        return ENOMEM;
    *block = made;
    return 0;
}
