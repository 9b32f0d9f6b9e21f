/* The memory of librbc_c.a and of libertms_c.a: the three functions that the libraries call for it, by those of the C library. Compile this file
   with the caller, or write the three functions over an allocator of your own. */
#include <stdbool.h>
#include <stddef.h>
#include <stdlib.h>
#ifdef __cplusplus
extern "C" { /* the libraries call the functions by their names in C */
#endif

/* Whether there is memory, and where it is. */
struct tried {
    bool is_there;
    void *block;
};

static char nothing;

static struct tried answer(void *block) {
    struct tried tried = {block != NULL, block ? block : &nothing};
    return tried;
}

/* New memory of `size` bytes. `align` is at most 16, as that of malloc. */
struct tried rattle_alloc(size_t size, size_t align) {
    return answer(malloc(size ? size : align));
}

/* The block with `size` bytes, of which the first `kept` stay; it may move. Where there is no memory it is as it was. */
struct tried rattle_realloc(void *block, size_t kept, size_t size, size_t align) {
    (void)kept;
    return answer(realloc(block, size ? size : align));
}

void rattle_dealloc(void *block) {
    free(block);
}

#ifdef __cplusplus
}
#endif
