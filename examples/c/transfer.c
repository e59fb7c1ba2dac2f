/* A file by two stations in one process, over a link that loses one frame of seven:
 *
 *     transfer [OCTETS]
 *
 * or by one station over UDP, with `cfdp_node station` as the other:
 *
 *     transfer udp OWN_PORT PEER_PORT [OCTETS]
 *
 * Ends with status 0 where the file is published, octet by octet, or over UDP where the peer said
 * so.
 */
#define _POSIX_C_SOURCE 200809L
#include "cfdp.h"

#include <arpa/inet.h>
#include <poll.h>
#include <stdio.h>
#include <stdlib.h>
#include <string.h>
#include <sys/socket.h>
#include <time.h>
#include <unistd.h>

enum { MOST_FRAME = 2048, LIMIT = 255 };

/* A station, and what it told of its last transaction. */
struct end {
    cfdp_station station;
    size_t frame_len;
    bool is_finished;
    bool is_complete;
};

static int refused(const char *call, cfdp_answer answer)
{
    (void)fprintf(stderr, "%s: %s\n", call, cfdp_answer_text(answer));
    return 1;
}

/* Station 1 or 2. What isn't answered is sent again as often as it takes. */
static int open_end(struct end *end, int number, uint32_t patience)
{
    static const cfdp_station closed = CFDP_STATION_INIT;
    cfdp_config config;
    cfdp_answer answer;

    cfdp_defaults(&config);
    if (number == 2) {
        const cfdp_link sends = config.sends;

        config.sends = config.receives;
        config.receives = sends;
        config.entity = 2;
        config.peer = 1;
    }
    config.eof_time = patience;
    config.nak_time = patience;
    config.finished_time = patience;
    config.inactivity_time = 100U * patience;
    config.eof_limit = LIMIT;
    config.nak_limit = LIMIT;
    config.finished_limit = LIMIT;
    end->station = closed;
    end->is_finished = false;
    end->is_complete = false;
    answer = cfdp_open(&end->station, &config);
    if (answer != CFDP_OK) {
        return refused("cfdp_open", answer);
    }
    end->frame_len = cfdp_frame_len(&end->station);
    return 0;
}

/* Octets that no two files have alike. */
static uint8_t *octets_of_file(size_t len)
{
    uint8_t *octets = (uint8_t *)malloc((len != 0U) ? len : 1U);
    uint32_t state = 1U;
    size_t at;

    for (at = 0U; (octets != NULL) && (at < len); at++) {
        state = (state * 1664525U) + 1013904223U;
        octets[at] = (uint8_t)(state >> 24);
    }
    return octets;
}

static int send_file(struct end *end, const uint8_t *octets, size_t len)
{
    static const char source[] = "image.raw";
    static const char destination[] = "received.raw";
    cfdp_id id;
    cfdp_answer answer;

    answer = cfdp_add(&end->station, source, strlen(source), octets, len);
    if (answer != CFDP_OK) {
        return refused("cfdp_add", answer);
    }
    answer = cfdp_put(&end->station, source, strlen(source), destination, strlen(destination), &id);
    if (answer != CFDP_OK) {
        return refused("cfdp_put", answer);
    }
    (void)printf("transaction %llu:%llu of %lu octets\n", (unsigned long long)id.source,
                 (unsigned long long)id.number, (unsigned long)len);
    return 0;
}

/* Tells of a file that is coming, by its names: that at the sender, then that at the receiver. */
static void tell_file(int number, const cfdp_indication *it, const uint8_t *names)
{
    (void)printf("station %d: %.*s comes as %.*s, %llu octets\n", number, (int)it->source_len,
                 (const char *)names, (int)it->destination_len,
                 (const char *)&names[it->source_len], (unsigned long long)it->size);
}

/* Reads what a station tells, and notes how its transaction ended. */
static void read_indications(struct end *end, int number)
{
    cfdp_indication it;
    uint8_t names[CFDP_NAMES];

    while (cfdp_next_indication(&end->station, &it, names, sizeof names) == CFDP_OK) {
        if (it.kind == CFDP_METADATA_RECV) {
            tell_file(number, &it, names);
        }
        if (it.kind == CFDP_FINISHED) {
            end->is_finished = true;
            end->is_complete = (it.condition == CFDP_CONDITION_NO_ERROR)
                && (it.delivery == CFDP_DELIVERY_COMPLETE) && (it.status == CFDP_FILE_RETAINED);
            (void)printf("station %d: finished, condition %u\n", number, (unsigned)it.condition);
        }
    }
}

/* ---- Two stations in one process. */

/* Whether the link loses a frame: one of seven, by chance, and in each run the same. Were it each
 * seventh, the same PDU might be lost for ever. */
static bool is_lost(void)
{
    static uint32_t state = 1U;

    state = (state * 1664525U) + 1013904223U;
    return ((state >> 16) % 7U) == 0U;
}

struct link {
    unsigned long frames;
    unsigned long lost;
};

static void pass_frames(struct link *link, struct end *from, struct end *to)
{
    uint8_t frame[MOST_FRAME];

    while (cfdp_transmit(&from->station, frame, from->frame_len) == CFDP_OK) {
        link->frames++;
        if (is_lost()) {
            link->lost++;
        } else {
            (void)cfdp_receive(&to->station, frame, from->frame_len);
        }
    }
}

/* Whether the first published file is this one. */
static bool is_published(const struct end *end, const uint8_t *octets, size_t len)
{
    cfdp_file_info info;
    uint8_t name[CFDP_NAME];
    uint8_t *copy;
    bool is_equal = false;

    if ((cfdp_file(&end->station, 0, &info, name, sizeof name) != CFDP_OK) || (info.size != len)) {
        return false;
    }
    copy = (uint8_t *)malloc((len != 0U) ? len : 1U);
    if ((copy != NULL) && (cfdp_read_file(&end->station, 0, 0, copy, len) == CFDP_OK)) {
        is_equal = memcmp(copy, octets, len) == 0;
    }
    free(copy);
    return is_equal;
}

static int run_both(struct end *one, struct end *two, const uint8_t *octets, size_t len)
{
    struct link link = {0, 0};
    uint64_t now = 1U;

    if (send_file(one, octets, len) != 0) {
        return 1;
    }
    while ((now < 100000U) && !(one->is_finished && two->is_finished)) {
        (void)cfdp_tick(&one->station, now);
        (void)cfdp_tick(&two->station, now);
        pass_frames(&link, one, two);
        pass_frames(&link, two, one);
        read_indications(one, 1);
        read_indications(two, 2);
        now++;
    }
    (void)printf("%lu frames, %lu lost\n", link.frames, link.lost);
    if (!one->is_complete || !two->is_complete || !is_published(two, octets, len)) {
        return 1;
    }
    (void)puts("published as it was sent");
    return 0;
}

static int transfer_here(const uint8_t *octets, size_t len)
{
    struct end one;
    struct end two;
    int status = 1;

    if (open_end(&one, 1, 10) != 0) {
        return 1;
    }
    if (open_end(&two, 2, 10) == 0) {
        status = run_both(&one, &two, octets, len);
        cfdp_close(&two.station);
    }
    cfdp_close(&one.station);
    return status;
}

/* ---- One station over UDP. */

static uint64_t milliseconds(void)
{
    struct timespec it;

    (void)clock_gettime(CLOCK_MONOTONIC, &it);
    return ((uint64_t)it.tv_sec * 1000U) + ((uint64_t)it.tv_nsec / 1000000U);
}

static struct sockaddr_in local_address(const char *port)
{
    struct sockaddr_in it;

    (void)memset(&it, 0, sizeof it);
    it.sin_family = AF_INET;
    it.sin_port = htons((uint16_t)strtoul(port, NULL, 10));
    it.sin_addr.s_addr = htonl(INADDR_LOOPBACK);
    return it;
}

/* Whether a frame comes within a millisecond. */
static bool is_frame_there(int wire)
{
    struct pollfd ready;

    ready.fd = wire;
    ready.events = POLLIN;
    ready.revents = 0;
    return poll(&ready, 1, 1) == 1;
}

/* Sends what is due, and takes what comes in a millisecond. */
static void take_turn(struct end *end, int wire, const struct sockaddr_in *peer)
{
    uint8_t frame[MOST_FRAME];
    ssize_t len = 0;

    (void)cfdp_tick(&end->station, milliseconds());
    while (cfdp_transmit(&end->station, frame, end->frame_len) == CFDP_OK) {
        (void)sendto(wire, frame, end->frame_len, 0, (const struct sockaddr *)peer, sizeof *peer);
    }
    while ((len >= 0) && is_frame_there(wire)) {
        len = recv(wire, frame, sizeof frame, 0);
        if (len >= 0) {
            (void)cfdp_receive(&end->station, frame, (size_t)len);
        }
    }
}

static int run_over_udp(struct end *end, int wire, const struct sockaddr_in *peer,
                        const uint8_t *octets, size_t len)
{
    const uint64_t last = milliseconds() + 60000U;
    uint64_t rest = last;

    if (send_file(end, octets, len) != 0) {
        return 1;
    }
    /* once it is over, some time for the peer's last words */
    while (milliseconds() < rest) {
        take_turn(end, wire, peer);
        read_indications(end, 1);
        if (end->is_finished && (rest == last)) {
            rest = milliseconds() + 500U;
        }
    }
    return end->is_complete ? 0 : 1;
}

static int transfer_over_udp(const char *own, const char *peer, const uint8_t *octets, size_t len)
{
    const struct sockaddr_in here = local_address(own);
    const struct sockaddr_in there = local_address(peer);
    const int wire = socket(AF_INET, SOCK_DGRAM, 0);
    struct end end;
    int status = 1;

    if ((wire < 0) || (bind(wire, (const struct sockaddr *)&here, sizeof here) != 0)) {
        perror("socket");
        return 1;
    }
    if (open_end(&end, 1, 200) == 0) {
        status = run_over_udp(&end, wire, &there, octets, len);
        cfdp_close(&end.station);
    }
    (void)close(wire);
    return status;
}

int main(int argc, char **argv)
{
    const bool is_udp = (argc >= 4) && (strcmp(argv[1], "udp") == 0);
    int words = 1;
    size_t len = 100000U;
    uint8_t *octets;
    int status;

    if (is_udp) {
        words = 4;
    }
    if (argc > words) {
        len = strtoul(argv[words], NULL, 10);
    }
    octets = octets_of_file(len);
    if (octets == NULL) {
        return 1;
    }
    status = is_udp ? transfer_over_udp(argv[2], argv[3], octets, len) : transfer_here(octets, len);
    free(octets);
    return status;
}
