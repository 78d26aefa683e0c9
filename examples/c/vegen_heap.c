/* The three functions by which libvegen_c.a asks for memory, over malloc: to be linked beside it. */
#include <stdbool.h>
#include <stddef.h>
#include <stdlib.h>

/* Whether there is memory, and where. */
struct rattle_tried {
    bool ok;
    void *block;
};

/* Where there is none, the pointer is any that is not null. */
static struct rattle_tried tried(void *block)
{
    static unsigned char nowhere;
    return (struct rattle_tried){block != NULL, block != NULL ? block : &nowhere};
}

/* A block of `size` bytes, aligned to `align`, which is a power of two up to 16 that divides the size. */
struct rattle_tried rattle_alloc(size_t size, size_t align)
{
    return tried(malloc(size != 0 ? size : align));
}

/* The block, now of `size` bytes, of which the first `kept` are as they were. */
struct rattle_tried rattle_realloc(void *block, size_t kept, size_t size, size_t align)
{
    (void)kept;
    return tried(realloc(block, size != 0 ? size : align));
}

void rattle_dealloc(void *block)
{
    free(block);
}
