/* What libcfdp_c.a asks of the program that it is linked into: memory, and the C library's errno.
 *
 * heap.c (memory from malloc) or pool.c (memory from arrays), and errno.c, are ready to link. A
 * program that defines these five functions itself includes this header. tests/bindings.py
 * compares the names with what the library asks for.
 */
#ifndef CFDP_HOOKS_H
#define CFDP_HOOKS_H

#include <stdbool.h>
#include <stddef.h>
#include <stdint.h>

#ifdef __cplusplus
extern "C" {
#endif

/* A block of memory, or none. at isn't null, even if there is none. */
typedef struct rattle_block {
    bool is_there;
    void *at;
} rattle_block;

/* Returns a block of size octets, aligned to align octets. size may be 0; align is a power of 2,
 * at most 16. */
rattle_block rattle_alloc(size_t size, size_t align);

/* Returns a block of size octets that begins with the octets of the block at, as many as both
 * have. at is given back, except if there is no memory: then it stays as it is. */
rattle_block rattle_realloc(void *at, size_t old_size, size_t size, size_t align);

/* Gives a block back. */
void rattle_dealloc(void *at);

/* Returns errno of the calling thread. */
int32_t rattle_errno(void);

/* Sets errno of the calling thread. */
void rattle_set_errno(int32_t error);

#ifdef __cplusplus
}
#endif

#endif
