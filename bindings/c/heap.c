/* The memory that libcfdp_c.a asks for, here from malloc. Another allocator may stand behind these
 * three functions (cfdp_hooks.h). */
#include "cfdp_hooks.h"

#include <stdlib.h>

/* What stands before each function: packaging/install makes a library of them that give way to
 * a program's own. */
#ifndef CFDP_HEAP
#define CFDP_HEAP
#endif

static rattle_block block_at(void *at)
{
    static char nothing;
    rattle_block block;

    block.is_there = at != NULL;
    block.at = (at != NULL) ? at : &nothing;
    return block;
}

#ifdef __cplusplus
extern "C" {
#endif

CFDP_HEAP rattle_block rattle_alloc(size_t size, size_t align)
{
    return block_at((align <= 16U) ? malloc((size != 0U) ? size : 1U) : NULL);
}

CFDP_HEAP rattle_block rattle_realloc(void *at, size_t old_size, size_t size, size_t align)
{
    (void)old_size;
    return block_at((align <= 16U) ? realloc(at, (size != 0U) ? size : 1U) : NULL);
}

CFDP_HEAP void rattle_dealloc(void *at)
{
    free(at);
}

#ifdef __cplusplus
}
#endif
