/* What programs that test the library share: a count of mistakes, how either of two stations is set
 * up that are each other's peers, the octets of a file, and a link that loses frames. Include it in
 * one file of a program. Functions are inline, so that no compiler warns if a program uses only
 * some of them. */
#ifndef CFDP_CHECKS_H
#define CFDP_CHECKS_H

#include "cfdp.h"

#include <stdio.h>

static int mistakes;

static inline void check(int line, const char *what, unsigned long long told,
                         unsigned long long wanted)
{
    if (told != wanted) {
        printf("line %d: %s is %llu, not %llu\n", line, what, told, wanted);
        mistakes++;
    }
}

/* Counts a mistake, and prints it, unless the call returns this value. */
#define IS(call, wanted) \
    check(__LINE__, #call, (unsigned long long)(call), (unsigned long long)(wanted))

/* Returns the defaults, of which station 2 has the two links in each other's place. */
static inline cfdp_config defaults_of(int number)
{
    cfdp_config config;

    cfdp_defaults(&config);
    if (number == 2) {
        const cfdp_link sends = config.sends;

        config.sends = config.receives;
        config.receives = sends;
        config.entity = 2;
        config.peer = 1;
    }
    return config;
}

/* Makes a handle a closed one, whatever it was. */
static inline void make_closed(cfdp_station *station)
{
    static const cfdp_station closed = CFDP_STATION_INIT;

    *station = closed;
}

/* Fills in the octets of a file. Two blocks of 256 octets that follow one another differ. */
static inline void fill_octets(uint8_t *octets, size_t len)
{
    size_t at;

    for (at = 0; at < len; at++)
        octets[at] = (uint8_t)(at * 7 + at / 256);
}

/* Returns true if the link loses the next frame: one of so many, by chance, and in each run the
 * same ones. */
static inline bool is_lost(unsigned one_of)
{
    static uint32_t state = 1;

    state = state * 1664525 + 1013904223;
    return (state >> 16) % one_of == 0;
}

#endif
