/* Stations whose memory is an array each: none takes memory from another's, nor from the array of
 * the process, and one that has too little leaves the other as it is.
 *
 * Prints what each array was used for, and ends with status 1 if something is wrong.
 * tests/bindings.py builds and runs it with -DCFDP_POOL=16, as C and as C++: the process has no
 * array. */
#include "cfdp.h"
#include "checks.h"
#include "pool.h"

#include <stdio.h>
#include <string.h>

enum { FILES = 20, LEN = 3000, FRAME = 264, CAPACITY = 16384 };

/* By the sum, and half as much again: a macro's array has no function's result for its length. */
#define STATION (CFDP_POOL_STATION(CAPACITY) + CFDP_POOL_RECORDS(FILES))
#define SENDS CFDP_POOL_FOR(STATION + CFDP_POOL_SENT(LEN))
#define RECEIVES CFDP_POOL_FOR(STATION + FILES * CFDP_POOL_RECEIVED(LEN))

static uint8_t first_array[SENDS + 1], second_array[RECEIVES], small_array[4000];
static cfdp_pool first, second, small;
static uint8_t octets[LEN];

/* Opens station 1 or 2. */
static cfdp_answer open_station(cfdp_station *station, int number)
{
    const cfdp_config config = defaults_of(number);

    make_closed(station);
    return cfdp_open(station, &config);
}

/* All that is due goes over, each station with its own array. */
static void pass(cfdp_station *from, cfdp_pool *of_from, cfdp_station *to, cfdp_pool *of_to)
{
    uint8_t frame[FRAME];

    cfdp_pool_use(of_from);
    while (cfdp_transmit(from, frame, sizeof frame) == CFDP_OK) {
        cfdp_pool_use(of_to);
        IS(cfdp_receive(to, frame, sizeof frame), CFDP_OK);
        cfdp_pool_use(of_from);
    }
}

static void transfer(cfdp_station *one, cfdp_station *two)
{
    char name[3] = "a?";
    cfdp_id id;
    int file;

    cfdp_pool_use(&first);
    IS(cfdp_add(one, "a", 1, octets, LEN), CFDP_OK);
    for (file = 0; file < FILES; file++) {
        name[1] = (char)('a' + file);
        IS(cfdp_put(one, "a", 1, name, 2, &id), CFDP_OK);
    }
    pass(one, &first, two, &second);
    pass(two, &second, one, &first);
    pass(one, &first, two, &second);
    IS(cfdp_file_count(two), FILES);
}

/* Where an array is too small, its station can't be opened, and takes nothing from others. */
static void too_small(void)
{
    const size_t used = second.used;
    cfdp_station station;

    IS(cfdp_pool_begin(&small, small_array, 63), false);
    IS(cfdp_pool_begin(&small, small_array, sizeof small_array), true);
    cfdp_pool_use(&small);
    IS(open_station(&station, 1), CFDP_NO_MEMORY);
    IS(small.refused != 0, true);
    IS(small.used, 0);
    IS(second.used, used);
}

/* What a pool was used for. */
static void tell(const char *which, const cfdp_pool *pool, size_t len)
{
    IS(pool->used, 0);
    IS(pool->refused, 0);
    IS(pool->most != 0 && pool->most <= len, true);
    printf("%s: %lu octets used, of %lu\n", which, (unsigned long)pool->most, (unsigned long)len);
}

int main(void)
{
    cfdp_station one, two;

    fill_octets(octets, sizeof octets);
    /* an array need not be aligned */
    IS(cfdp_pool_begin(&first, first_array + 1, SENDS), true);
    IS(cfdp_pool_begin(&second, second_array, sizeof second_array), true);
    cfdp_pool_use(&first);
    IS(open_station(&one, 1), CFDP_OK);
    cfdp_pool_use(&second);
    IS(open_station(&two, 2), CFDP_OK);
    transfer(&one, &two);
    too_small();
    /* memory goes back to where it came from */
    cfdp_pool_use(&second);
    cfdp_close(&one);
    cfdp_pool_use(NULL);
    cfdp_close(&two);
    tell("the first", &first, SENDS);
    tell("the second", &second, RECEIVES);
    IS(cfdp_pool_most(), 0);
    IS(cfdp_pool_refused(), 0);
    IS(open_station(&one, 1), CFDP_NO_MEMORY);
    IS(cfdp_pool_refused() != 0, true);
    return mistakes == 0 ? 0 : 1;
}
