/* A station in an array of fixed size receives a file over a link that loses each second segment at
 * first. With a limit of gaps it goes on, and the file is complete; without one it runs out of
 * memory.
 *
 *     gaps [OCTETS]
 *
 * OCTETS is the length of the file, at most 40000. A shorter file may have too few gaps to run out
 * of memory, so it is only received with the limit. Prints what the array was used for, and ends
 * with status 1 if something is wrong. tests/bindings.py builds and runs it with -DCFDP_POOL=16, as
 * C and as C++: the process has no array. */
#include "cfdp.h"
#include "checks.h"
#include "pool.h"

#include <stdio.h>
#include <stdlib.h>
#include <string.h>

enum { LEN = 40000, MOST_GAPS = 64, FRAME = 264, CAPACITY = 8192, DATA_CHANNEL = 7, TURNS = 10 };

#define STATION (CFDP_POOL_STATION(CAPACITY) + CFDP_POOL_RECORDS(1) + CFDP_POOL_GAPS(MOST_GAPS))
#define SENDS CFDP_POOL_FOR(STATION + CFDP_POOL_SENT(LEN))
#define RECEIVES CFDP_POOL_FOR(STATION + CFDP_POOL_RECEIVED(LEN))

/* A station, and the array of its memory. */
struct end {
    cfdp_station station;
    cfdp_pool pool;
};

static uint8_t first_array[SENDS], second_array[RECEIVES];
static struct end one, two;
static uint8_t octets[LEN], copy[LEN];

/* Opens station 1 or 2 in its array. A segment is one octet. */
static void open_end(struct end *end, int number, uint64_t most_gaps)
{
    cfdp_config config = defaults_of(number);

    config.capacity = CAPACITY;
    config.segment = 1;
    config.most_gaps = most_gaps;
    make_closed(&end->station);
    cfdp_pool_use(&end->pool);
    IS(cfdp_open(&end->station, &config), CFDP_OK);
}

/* Opens both, and puts the file. */
static void begin(size_t len, uint64_t most_gaps)
{
    cfdp_id id;

    IS(cfdp_pool_begin(&one.pool, first_array, sizeof first_array), true);
    IS(cfdp_pool_begin(&two.pool, second_array, sizeof second_array), true);
    open_end(&one, 1, 0);
    open_end(&two, 2, most_gaps);
    cfdp_pool_use(&one.pool);
    IS(cfdp_add(&one.station, "a", 1, octets, len), CFDP_OK);
    IS(cfdp_put(&one.station, "a", 1, "b", 1, &id), CFDP_OK);
}

static void close_both(void)
{
    cfdp_close(&one.station);
    cfdp_close(&two.station);
    IS(one.pool.used, 0);
    IS(two.pool.used, 0);
}

/* All that is due goes over, each PDU in a frame of its own. If the link loses, each second frame
 * of file data is lost. */
static void pass(struct end *from, struct end *to, bool loses)
{
    uint8_t frame[FRAME];
    bool is_second = false;

    cfdp_pool_use(&from->pool);
    while (cfdp_poll(&from->station) == CFDP_OK) {
        IS(cfdp_flush(&from->station), CFDP_OK);
        while (cfdp_next_frame(&from->station, frame, sizeof frame) == CFDP_OK) {
            const bool is_data = (frame[1] & 63) == DATA_CHANNEL;

            if (!(loses && is_data && is_second)) {
                cfdp_pool_use(&to->pool);
                IS(cfdp_receive(&to->station, frame, sizeof frame), CFDP_OK);
                cfdp_pool_use(&from->pool);
            }
            if (is_data)
                is_second = !is_second;
        }
    }
}

/* How many PDUs station 2 dropped as if it had no memory for them. */
static uint64_t no_memory(void)
{
    cfdp_counts counts;

    IS(cfdp_counters(&two.station, &counts), CFDP_OK);
    return counts.pdus.no_memory;
}

/* Offsets 0, 2, 4 and so on are received. Each after the first makes a gap, until the limit is met,
 * and each later one is dropped. Then all that is missing is sent once more. */
static void with_a_limit(size_t len)
{
    const size_t received = (len + 1) / 2;
    cfdp_file_info info;
    uint8_t name[1];
    int turn;

    begin(len, MOST_GAPS);
    pass(&one, &two, true);
    IS(no_memory(), received - 1 - MOST_GAPS);
    IS(cfdp_file_count(&two.station), 0);
    for (turn = 0; turn < TURNS && cfdp_file_count(&two.station) == 0; turn++) {
        pass(&two, &one, false);
        pass(&one, &two, false);
    }
    IS(no_memory(), received - 1 - MOST_GAPS);
    IS(cfdp_file_count(&two.station), 1);
    cfdp_pool_use(&two.pool);
    IS(cfdp_file(&two.station, 0, &info, name, sizeof name), CFDP_OK);
    IS(info.size, len);
    IS(cfdp_read_file(&two.station, 0, 0, copy, len), CFDP_OK);
    IS(memcmp(copy, octets, len), 0);
    IS(two.pool.refused, 0);
    printf("%lu octets of the array used, of %lu\n", (unsigned long)two.pool.most,
           (unsigned long)sizeof second_array);
    close_both();
}

/* Gaps take all of the array, so that the file isn't received. */
static void without_a_limit(void)
{
    begin(LEN, 0);
    pass(&one, &two, true);
    IS(two.pool.refused != 0, true);
    IS(cfdp_file_count(&two.station), 0);
    close_both();
}

int main(int argc, char **argv)
{
    const size_t len = argc == 1 ? (size_t)LEN : (size_t)strtoul(argv[1], NULL, 10);

    fill_octets(octets, sizeof octets);
    IS(2 * MOST_GAPS + 2 < len && len <= LEN, true);
    if (mistakes != 0)
        return 1;
    with_a_limit(len);
    if (len == LEN)
        without_a_limit();
    return mistakes == 0 ? 0 : 1;
}
