/* Preloaded into a program: its allocations come from one arena, and the one whose number is in REFUSE_AT is refused.
 * When the program ends, the number of allocations that it asked for is written into the file of ASKED_INTO. */
#include <fcntl.h>
#include <stddef.h>
#include <stdlib.h>
#include <string.h>
#include <unistd.h>

static _Alignas(64) unsigned char arena[1 << 28];
static size_t used;
static unsigned long asked;

static void *take(size_t align, size_t size) {
    static unsigned long refused;
    if (asked == 0) {
        const char *number = getenv("REFUSE_AT");
        refused = number ? strtoul(number, NULL, 10) : 0;
    }
    asked++;
    if (asked == refused) return NULL;
    size_t head = align < 16 ? 16 : align;
    size_t at = (used + head + head - 1) / head * head;
    if (at + size > sizeof arena) return NULL;
    used = at + size;
    *(size_t *)(arena + at - sizeof(size_t)) = size;
    return arena + at;
}

void *malloc(size_t size) { return take(16, size); }
void *aligned_alloc(size_t align, size_t size) { return take(align, size); }
void *memalign(size_t align, size_t size) { return take(align, size); }
void *calloc(size_t count, size_t size) { return take(16, count * size); }
void free(void *block) { (void)block; }

int posix_memalign(void **block, size_t align, size_t size) {
    *block = take(align, size);
    return *block ? 0 : 12;
}

void *realloc(void *block, size_t size) {
    void *moved = take(16, size);
    if (moved && block) {
        size_t before = ((size_t *)block)[-1];
        memcpy(moved, block, before < size ? before : size);
    }
    return moved;
}

__attribute__((destructor)) static void tell(void) {
    const char *path = getenv("ASKED_INTO");
    int file = path ? open(path, O_WRONLY | O_CREAT | O_TRUNC, 0600) : -1;
    char digits[24];
    size_t at = sizeof digits;
    for (unsigned long left = asked; left != 0; left /= 10) digits[--at] = '0' + left % 10;
    if (file >= 0) {
        ssize_t written = write(file, digits + at, sizeof digits - at);
        (void)written;
        close(file);
    }
}
