/* What the static library takes: time for a frame down and up, beside memcpy of the same octets,
 * and time for a whole file. tests/bindings.py --figures builds and runs it. */
#define _POSIX_C_SOURCE 200809L
#include "cfdp.h"
#include "tests/checks.h"

#include <stdio.h>
#include <stdlib.h>
#include <string.h>
#include <time.h>

enum { FILE_LEN = 1 << 20, MOST_FRAMES = 20000, ROUNDS = 5 };

static double seconds(void)
{
    struct timespec it;
    clock_gettime(CLOCK_MONOTONIC, &it);
    return (double)it.tv_sec + (double)it.tv_nsec / 1e9;
}

static cfdp_station opened(int number, unsigned zone, unsigned segment)
{
    cfdp_station station = CFDP_STATION_INIT;
    cfdp_config config = defaults_of(number);

    config.sends.zone = config.receives.zone = (uint16_t)zone;
    config.segment = (uint16_t)segment;
    if (cfdp_open(&station, &config) != CFDP_OK)
        exit(1);
    return station;
}

static void put_file(cfdp_station *station, const uint8_t *octets)
{
    static const uint8_t name[] = {'a'};
    cfdp_id id;

    if (cfdp_add(station, name, 1, octets, FILE_LEN) != CFDP_OK
        || cfdp_put(station, name, 1, name, 1, &id) != CFDP_OK)
        exit(1);
}

/* All frames of a file, one behind the other. */
static size_t frames_of(cfdp_station *station, uint8_t *frames, size_t len)
{
    size_t count = 0;
    cfdp_answer polled = CFDP_OK;

    while (polled != CFDP_NOTHING) {
        polled = cfdp_poll(station);
        if (polled == CFDP_NOTHING)
            cfdp_flush(station);
        if (polled != CFDP_OK)
            while (count < MOST_FRAMES
                   && cfdp_next_frame(station, frames + count * len, len) == CFDP_OK)
                count++;
    }
    return count;
}

static void time_frames(const uint8_t *octets, unsigned zone, unsigned segment)
{
    const size_t len = zone + 8;
    uint8_t *frames = (uint8_t *)malloc(MOST_FRAMES * len);
    uint8_t *copy = (uint8_t *)malloc(MOST_FRAMES * len);
    double down = 1e9, up = 1e9, copied = 1e9;
    size_t count = 0, at;
    int round;

    if (frames == NULL || copy == NULL)
        exit(1);
    memset(frames, 1, MOST_FRAMES * len);
    memset(copy, 1, MOST_FRAMES * len);
    for (round = 0; round < ROUNDS; round++) {
        cfdp_station one = opened(1, zone, segment), two = opened(2, zone, segment);
        double start, took;

        put_file(&one, octets);
        start = seconds();
        count = frames_of(&one, frames, len);
        took = seconds() - start;
        down = took < down ? took : down;
        start = seconds();
        for (at = 0; at < count; at++)
            cfdp_receive(&two, frames + at * len, len);
        took = seconds() - start;
        up = took < up ? took : up;
        if (cfdp_file_count(&two) != 1)
            exit(2);
        start = seconds();
        for (at = 0; at < count; at++) {
            memcpy(copy + at * len, frames + at * len, len);
            __asm__ volatile("" ::: "memory");
        }
        took = seconds() - start;
        copied = took < copied ? took : copied;
        cfdp_close(&one);
        cfdp_close(&two);
    }
    printf("zone %u, segment %u, %lu frames: down %.0f ns, up %.0f ns, memcpy %.0f ns a frame\n",
           zone, segment, (unsigned long)count, down * 1e9 / (double)count,
           up * 1e9 / (double)count, copied * 1e9 / (double)count);
    free(frames);
    free(copy);
}

/* A file of 1 MiB from a put to both ends' Finished, over a link that loses nothing. */
static void transfer(const uint8_t *octets)
{
    cfdp_station one = opened(1, 256, 1024), two = opened(2, 256, 1024);
    uint8_t frame[264];
    const double start = seconds();
    int turn;

    put_file(&one, octets);
    for (turn = 0; turn < 4; turn++) {
        cfdp_station *from = turn % 2 ? &two : &one, *to = turn % 2 ? &one : &two;
        cfdp_answer polled = CFDP_OK;

        while (polled != CFDP_NOTHING) {
            polled = cfdp_poll(from);
            if (polled == CFDP_NOTHING)
                cfdp_flush(from);
            while (cfdp_next_frame(from, frame, sizeof frame) == CFDP_OK)
                cfdp_receive(to, frame, sizeof frame);
        }
    }
    if (cfdp_file_count(&two) != 1)
        exit(3);
    printf("a file of 1 MiB: %.1f ms\n", (seconds() - start) * 1e3);
    cfdp_close(&one);
    cfdp_close(&two);
}

static void time_call(void)
{
    cfdp_station one = opened(1, 256, 1024);
    const double start = seconds();
    int count;

    for (count = 0; count < 1000000; count++)
        cfdp_frame_len(&one);
    printf("a call that does nothing: %.1f ns\n", (seconds() - start) * 1e3);
    cfdp_close(&one);
}

int main(void)
{
    uint8_t *octets = (uint8_t *)malloc(FILE_LEN);
    size_t at;

    if (octets == NULL)
        return 1;
    for (at = 0; at < FILE_LEN; at++)
        octets[at] = (uint8_t)(at * 7);
    transfer(octets);
    time_frames(octets, 256, 1024);
    time_frames(octets, 2040, 1500);
    time_frames(octets, 2040, 4096);
    time_call();
    free(octets);
    return 0;
}
