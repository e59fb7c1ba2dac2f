/* A heap of fixed size: all memory that libcfdp_c.a asks for comes from arrays (pool.c), from one
 * of the process, or from one for each station. */
#ifndef CFDP_POOL_H
#define CFDP_POOL_H

#include <stdbool.h>
#include <stddef.h>

#ifdef __cplusplus
extern "C" {
#endif

/* How many octets the array must have: CFDP_POOL_FOR the sum of what its stations take, of the
 * parts below. Half as much again is for the gaps between blocks. It was measured, and isn't
 * proved: docs/EMBEDDING.md, "A heap of fixed size". */
#define CFDP_POOL_FOR(octets) ((octets) + (octets) / 2U)

/* A station, by the capacity of its configuration, with what it reports. */
#define CFDP_POOL_STATION(capacity) ((size_t)5 * (capacity) + (size_t)163840)

/* count records of transactions at once, with their names; one that is over is one until it is
 * forgotten. */
#define CFDP_POOL_RECORDS(count) ((size_t)2560 * (count))

/* A file of len octets in the outbox, until it is removed. */
#define CFDP_POOL_SENT(len) ((size_t)(len) + (size_t)1024)

/* A file of len octets that is being received, or was and isn't removed yet. */
#define CFDP_POOL_RECEIVED(len) ((size_t)2 * (len) + (size_t)4096)

/* A file that is sent from a folder, or comes into one, of whatever size. */
#define CFDP_POOL_IN_FOLDER ((size_t)69632)

/* So many gaps at a time in what came of a file, at the station that sends it and at that which
 * receives it: what was lost between two pieces that came is one. A file of 3,000 octets needs none
 * of these. */
#define CFDP_POOL_GAPS(count) ((size_t)64 * (count))

/* ---- The array of the process. */

/* How much of the array is in use, in octets, with what each block has before it. */
size_t cfdp_pool_used(void);

/* How far the array was ever in use, from its front: an array of this size would have done. */
size_t cfdp_pool_most(void);

/* How often a call found no memory in it. */
size_t cfdp_pool_refused(void);

/* ---- An array for each station. */

/* An array that stations take their memory from. A program may read used, most and refused, which
 * are what the functions above return of the array of the process. */
typedef struct cfdp_pool {
    struct cfdp_block *free_blocks;
    struct cfdp_block *front;
    size_t used;
    size_t most;
    size_t refused;
} cfdp_pool;

/* Makes a pool of an array of len octets, whose former octets don't matter. The array and the pool
 * must stay where they are until the stations that took memory from it are closed. false, and no
 * pool, if it has fewer than 64 octets. */
bool cfdp_pool_begin(cfdp_pool *pool, void *array, size_t len);

/* Has each call take its memory from this pool from now on, or from the array of the process if
 * pool is null, as at first. So before each call on a handle use the pool of its station. A block
 * goes back to the pool that it came from, whichever is used then. If pool.c is compiled with
 * -DCFDP_POOL_LOCAL=_Thread_local, this is so for the calling thread alone: stations with pools of
 * their own may then be called on threads of their own. */
void cfdp_pool_use(cfdp_pool *pool);

#ifdef __cplusplus
}
#endif

#endif
