/* The three functions by which liblhf asks for memory. A program that defines them itself hands its own allocator in. Memory is
 * wanted for at most 16 bytes of alignment, and a pointer is never null, also where there was no memory. */
#include <stdlib.h>
struct tried {
    _Bool ok;
    void *at;
};
static char none;

static struct tried of(void *at) { return (struct tried){at != 0, at ? at : &none}; }

struct tried rattle_alloc(size_t size, size_t alignment) { return of(malloc(size ? size : alignment)); }

struct tried rattle_realloc(void *at, size_t kept, size_t size, size_t alignment) {
    (void)kept;
    return of(realloc(at, size ? size : alignment));
}

void rattle_dealloc(void *at) { free(at); }
