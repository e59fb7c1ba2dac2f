/* The memory that libcfdp_c.a asks for, from arrays and nowhere else: link this in place of heap.c.
 * CFDP_POOL says how many octets the array of the process has (docs/EMBEDDING.md, "A heap of fixed
 * size"); a program may bring others (pool.h).
 *
 * Free blocks stand in a list in the order of their places. The first that suffices is taken, from
 * the front of the array on, and one that is given back is joined to its neighbours. */
#include "pool.h"

#include "cfdp_hooks.h"

#include <stdint.h>
#include <string.h>

#ifndef CFDP_POOL
#define CFDP_POOL (1024 * 1024)
#endif

#ifndef CFDP_POOL_LOCAL
#define CFDP_POOL_LOCAL
#endif

#define UNIT ((size_t)16)

/* What stands before the octets of each block, in a unit of its own. */
typedef struct cfdp_block {
    size_t len; /* octets of the block with this, a multiple of UNIT */
    union {
        struct cfdp_block *next; /* of a free block: the next free one */
        cfdp_pool *owner;        /* of another one: where it came from */
    } link;
} block;

/* It isn't compiled if that is no unit. */
typedef uint8_t block_is_unit[(sizeof(block) == 16U) ? 1 : -1];

static cfdp_pool process_pool;
static CFDP_POOL_LOCAL cfdp_pool *used_pool = NULL;

/* ---- one pool */

static uint8_t *octets_of(block *it)
{
    return &((uint8_t *)it)[UNIT];
}

static block *block_with(void *octets)
{
    return (block *)octets - 1;
}

static block *end_of(block *it)
{
    return &it[it->len / UNIT];
}

/* Octets of a block for so many; 0 if there can be none. */
static size_t len_for(size_t size, size_t align)
{
    const size_t octets = (size != 0U) ? size : 1U;
    const bool can_be = (align <= UNIT) && (octets <= (SIZE_MAX / 2U));

    return can_be ? (UNIT + (((octets + UNIT - 1U) / UNIT) * UNIT)) : 0U;
}

/* The block after the first octets of another one, if enough is left for one. */
static block *cut_off(block *it, size_t len)
{
    block *rest = NULL;

    if ((it->len - len) >= (2U * UNIT)) {
        rest = &it[len / UNIT];
        rest->len = it->len - len;
        it->len = len;
    }
    return rest;
}

/* Takes a free block off the list, or its front if that suffices. */
static block *take(cfdp_pool *pool, block **link, size_t len)
{
    block *it = *link;
    block *rest = cut_off(it, len);
    ptrdiff_t reached;

    if (rest != NULL) {
        rest->link.next = it->link.next;
        *link = rest;
    } else {
        *link = it->link.next;
    }
    it->link.owner = pool;
    reached = end_of(it) - pool->front;
    pool->used += it->len;
    if (((size_t)reached * UNIT) > pool->most) {
        pool->most = (size_t)reached * UNIT;
    }
    return it;
}

/* Joins a free block with the next free one, if that stands right after it. */
static void join(block *it)
{
    block *next = it->link.next;

    if ((next != NULL) && (end_of(it) == next)) {
        it->len += next->len;
        it->link.next = next->link.next;
    }
}

/* Puts a block among the free ones of its pool. */
static void give_back(cfdp_pool *pool, block *it)
{
    block *before = NULL;
    block *after = pool->free_blocks;

    while ((after != NULL) && (after < it)) {
        before = after;
        after = after->link.next;
    }
    pool->used -= it->len;
    it->link.next = after;
    if (before == NULL) {
        pool->free_blocks = it;
    } else {
        before->link.next = it;
    }
    join(it);
    if (before != NULL) {
        join(before);
    }
}

/* A block of so many octets, if there is one. */
static block *block_of(cfdp_pool *pool, size_t len)
{
    block **link = &pool->free_blocks;
    block *found = NULL;

    while ((*link != NULL) && ((*link)->len < len)) {
        link = &(*link)->link.next;
    }
    if ((len != 0U) && (*link != NULL)) {
        found = take(pool, link, len);
    }
    return found;
}

/* Gives a block the front of the free one that stands right after it, if that suffices. */
static bool grows_in_place(cfdp_pool *pool, block *it, size_t more)
{
    block **link = &pool->free_blocks;
    bool is_done = false;

    while ((*link != NULL) && (*link < it)) {
        link = &(*link)->link.next;
    }
    if ((*link != NULL) && (*link == end_of(it)) && ((*link)->len >= more)) {
        it->len += take(pool, link, more)->len;
        is_done = true;
    }
    return is_done;
}

/* Gives a block so many octets where it stands, if they are there. */
static bool fits_in_place(cfdp_pool *pool, block *it, size_t len)
{
    bool fits = len <= it->len;

    if (fits) {
        block *rest = cut_off(it, len);

        if (rest != NULL) {
            give_back(pool, rest);
        }
    } else {
        fits = grows_in_place(pool, it, len - it->len);
    }
    return fits;
}

static rattle_block told(cfdp_pool *pool, block *it)
{
    static uint8_t nothing;
    rattle_block answer = {false, &nothing};

    if (it != NULL) {
        answer.is_there = true;
        answer.at = octets_of(it);
    } else {
        pool->refused++;
    }
    return answer;
}

/* ---- which pool */

bool cfdp_pool_begin(cfdp_pool *pool, void *array, size_t len)
{
    const size_t before = (UNIT - ((uintptr_t)array % UNIT)) % UNIT;
    const bool suffices = len >= (4U * UNIT);

    if (suffices) {
        pool->front = (block *)(void *)&((uint8_t *)array)[before];
        pool->free_blocks = pool->front;
        pool->free_blocks->len = ((len - before) / UNIT) * UNIT;
        pool->free_blocks->link.next = NULL;
        pool->used = 0U;
        pool->most = 0U;
        pool->refused = 0U;
    }
    return suffices;
}

void cfdp_pool_use(cfdp_pool *pool)
{
    used_pool = pool;
}

/* The pool that calls take their memory from. */
static cfdp_pool *pool_of_calls(void)
{
    static uint8_t array[CFDP_POOL];

    if ((used_pool == NULL) && (process_pool.front == NULL)) {
        (void)cfdp_pool_begin(&process_pool, array, sizeof array);
    }
    return (used_pool != NULL) ? used_pool : &process_pool;
}

/* ---- what the library calls */

rattle_block rattle_alloc(size_t size, size_t align)
{
    cfdp_pool *pool = pool_of_calls();

    return told(pool, block_of(pool, len_for(size, align)));
}

rattle_block rattle_realloc(void *at, size_t old_size, size_t size, size_t align)
{
    block *it = block_with(at);
    cfdp_pool *pool = it->link.owner;
    const size_t len = len_for(size, align);

    if ((len == 0U) || !fits_in_place(pool, it, len)) {
        block *other = block_of(pool, len);

        if (other != NULL) {
            (void)memcpy(octets_of(other), at, (old_size < size) ? old_size : size);
            give_back(pool, it);
        }
        it = other;
    }
    return told(pool, it);
}

void rattle_dealloc(void *at)
{
    block *it = block_with(at);

    give_back(it->link.owner, it);
}

/* ---- what a program may ask of the array of the process */

size_t cfdp_pool_used(void)
{
    return process_pool.used;
}

size_t cfdp_pool_most(void)
{
    return process_pool.most;
}

size_t cfdp_pool_refused(void)
{
    return process_pool.refused;
}
