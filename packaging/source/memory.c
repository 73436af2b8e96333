/* The memory of the modules: malloc, realloc and free, as the modules call them. A block of no bytes has its alignment's size; where memory is wanting,
 * is_made is 0, and at isn't read. */
#include <stddef.h>
#include <stdint.h>
#include <stdlib.h>

struct block { uint64_t is_made; void *at; };

static struct block made(void *at)
{
    static char nothing;
    struct block block = { at != NULL, at ? at : &nothing };
    return block;
}

struct block rattle_alloc(size_t size, size_t alignment);
struct block rattle_realloc(void *old, size_t old_size, size_t size, size_t alignment);
void rattle_dealloc(void *at);

struct block rattle_alloc(size_t size, size_t alignment)
{
    return made(malloc(size ? size : alignment));
}

struct block rattle_realloc(void *old, size_t old_size, size_t size, size_t alignment)
{
    (void) old_size;
    return made(realloc(old, size ? size : alignment));
}

void rattle_dealloc(void *at)
{
    free(at);
}
