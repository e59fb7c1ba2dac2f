/* Two stations whose memory is one array: transactions that come and go, over a link that loses
 * frames, never ask for more than pool.h says.
 *
 *     in_a_pool [PUTS]
 *
 * Prints what the array was used for, and ends with status 1 if something is wrong.
 * tests/bindings.py builds and runs it, as C and as C++. */
#include "cfdp.h"
#include "checks.h"
#include "pool.h"

#include <stdio.h>
#include <stdlib.h>
#include <string.h>

enum { PUTS = 10000, AT_ONCE = 8, SENT_LEN = 3000, FILES = 4, LOST = 7, FRAME = 264 };

static uint8_t octets[SENT_LEN];

/* Station 1 or 2. What isn't answered is sent again as often as it takes. */
static cfdp_config config_of(int number)
{
    cfdp_config config = defaults_of(number);

    config.eof_limit = config.nak_limit = config.finished_limit = 255;
    config.on_inactivity = 2;
    return config;
}

static void open_station(cfdp_station *station, int number)
{
    const cfdp_config config = config_of(number);

    make_closed(station);
    IS(cfdp_open(station, &config), CFDP_OK);
}

/* The files that station 1 has, under names of the greatest length. */
static void add_files(cfdp_station *one)
{
    uint8_t name[CFDP_NAME];
    unsigned file;

    for (file = 0; file < FILES; file++) {
        memset(name, 'a' + (int)file, sizeof name);
        IS(cfdp_add(one, name, sizeof name, octets, SENT_LEN - file), CFDP_OK);
    }
}

/* Puts one of them under a name of its own. */
static void put(cfdp_station *one, unsigned count)
{
    uint8_t source[CFDP_NAME], destination[CFDP_NAME];
    cfdp_id id;

    memset(source, 'a' + (int)(count % FILES), sizeof source);
    memset(destination, 'z', sizeof destination);
    memcpy(destination, &count, sizeof count);
    IS(cfdp_put(one, source, sizeof source, destination, sizeof destination, &id), CFDP_OK);
}

/* All that is due goes over, but what is lost. */
static void pass(cfdp_station *from, cfdp_station *to)
{
    uint8_t frame[FRAME];
    cfdp_answer answer;

    while ((answer = cfdp_transmit(from, frame, sizeof frame)) == CFDP_OK)
        if (!is_lost(LOST))
            IS(cfdp_receive(to, frame, sizeof frame), CFDP_OK);
    IS(answer, CFDP_NOTHING);
}

/* Forgets all transactions that are over. How many a station told that went well. */
static unsigned forget_ended(cfdp_station *station)
{
    cfdp_indication told;
    uint8_t names[CFDP_NAMES];
    unsigned count = 0;

    while (cfdp_next_indication(station, &told, names, sizeof names) == CFDP_OK)
        if (told.kind == CFDP_FINISHED) {
            IS(told.condition, 0);
            IS(told.status, 2);
            count++;
        }
    IS(cfdp_forget_closed(station), CFDP_OK);
    return count;
}

/* Reads and removes each file that came. How many they were. */
static unsigned take_files(cfdp_station *two)
{
    cfdp_file_info info;
    uint8_t name[CFDP_NAME], copy[SENT_LEN];
    unsigned count = 0;

    for (; cfdp_file(two, 0, &info, name, sizeof name) == CFDP_OK; count++) {
        IS(info.size <= SENT_LEN, 1);
        IS(cfdp_read_file(two, 0, 0, copy, info.size), CFDP_OK);
        IS(memcmp(copy, octets, info.size), 0);
        IS(cfdp_remove_file(two, name, info.name_len), CFDP_OK);
    }
    return count;
}

/* A station with its files, and one that receives as many as are sent at once. */
static size_t formula(void)
{
    const size_t station = CFDP_POOL_STATION(config_of(1).capacity) + CFDP_POOL_RECORDS(AT_ONCE);
    const size_t files = FILES * CFDP_POOL_SENT(SENT_LEN) + AT_ONCE * CFDP_POOL_RECEIVED(SENT_LEN);

    return CFDP_POOL_FOR(2 * station + files);
}

static void come_and_go(unsigned puts)
{
    cfdp_station one, two;
    unsigned put_so_far = 0, sent = 0, received = 0, came = 0;
    uint64_t now;

    open_station(&one, 1);
    open_station(&two, 2);
    add_files(&one);
    for (now = 1; sent < puts && now < 1000000; now++) {
        for (; put_so_far < puts && put_so_far - received < AT_ONCE
               && put_so_far - sent < AT_ONCE; put_so_far++)
            put(&one, put_so_far);
        IS(cfdp_tick(&one, now), CFDP_OK);
        IS(cfdp_tick(&two, now), CFDP_OK);
        pass(&one, &two);
        pass(&two, &one);
        sent += forget_ended(&one);
        received += forget_ended(&two);
        came += take_files(&two);
    }
    IS(sent, puts);
    IS(received, puts);
    IS(came, puts);
    cfdp_close(&one);
    cfdp_close(&two);
}

int main(int argc, char **argv)
{
    const unsigned puts = argc == 1 ? (unsigned)PUTS : (unsigned)strtoul(argv[1], NULL, 10);

    fill_octets(octets, sizeof octets);
    come_and_go(puts);
    IS(cfdp_pool_used(), 0);
    IS(cfdp_pool_refused(), 0);
    IS(cfdp_pool_most() <= formula(), 1);
    printf("%u transactions, %lu octets of the array used, %lu by the formula, %d mistakes\n", puts,
           (unsigned long)cfdp_pool_most(), (unsigned long)formula(), mistakes);
    return mistakes == 0 ? 0 : 1;
}
