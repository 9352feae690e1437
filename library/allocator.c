/* The allocator of liblnbd: the three functions by which proved code asks for memory, over malloc, realloc and free. What the proofs take for granted of
 * them: where `ok` is set, `p` is a block of n bytes of its own, aligned to a, which divides 16; a block of realloc has the first bytes of the old one; where `ok`
 * is not set nothing has changed, and `p` is some address that is not null. A block of no bytes has an address of its own too. */
#include <stdbool.h>
#include <stddef.h>
#include <stdlib.h>

struct tried {
    bool ok;
    void *p;
};

static max_align_t nothing;

static struct tried tried(void *p) {
    struct tried made = { p != NULL, p != NULL ? p : &nothing };
    return made;
}

struct tried rattle_alloc(size_t n, size_t a);
struct tried rattle_realloc(void *p, size_t kept, size_t n, size_t a);
void rattle_dealloc(void *p);

struct tried rattle_alloc(size_t n, size_t a) {
    return tried(malloc(n != 0 ? n : a));
}

struct tried rattle_realloc(void *p, size_t kept, size_t n, size_t a) {
    (void)kept;
    return tried(realloc(p, n != 0 ? n : a));
}

void rattle_dealloc(void *p) {
    free(p);
}
