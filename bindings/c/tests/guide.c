/* The code that docs/EMBEDDING.md shows, as it stands there: tests/bindings.py looks whether each
 * line of the guide is here. The first station runs by it, and sends a file to another one. Ends
 * with status 0 where the file came.
 */
#include "cfdp.h"
#include "pool.h"

#include <stdio.h>
#include <string.h>

enum { MOST_FRAME = 2048, FRAMES = 64 };

/* ---- What a program brings: its link, and what it does with files and news. */

/* Frames on their way in one direction. */
typedef struct link_end {
    uint8_t frames[FRAMES][MOST_FRAME];
    size_t lens[FRAMES];
    size_t count;
} link_end;

static link_end to_peer, from_peer;
static size_t files_read, told_of, listed;

static void send_frame(const uint8_t *frame, size_t len)
{
    if (to_peer.count < FRAMES) {
        memcpy(to_peer.frames[to_peer.count], frame, len);
        to_peer.lens[to_peer.count] = len;
        to_peer.count++;
    }
}

/* Takes the next frame that came, in order. */
static bool frame_came(uint8_t *frame, size_t *len)
{
    static size_t taken;

    if (taken == from_peer.count) {
        taken = 0;
        from_peer.count = 0;
        return false;
    }
    *len = from_peer.lens[taken];
    memcpy(frame, from_peer.frames[taken], *len);
    taken++;
    return true;
}

static void tell(const cfdp_indication *told, const uint8_t *names)
{
    (void)names;
    told_of += told->kind == CFDP_FINISHED;
}

static void read_file(const cfdp_station *station, const cfdp_file_info *info, const uint8_t *name)
{
    (void)station;
    (void)name;
    files_read += info->size != 0;
}

/* ---- What the guide shows. */

static int first_program(const char *name, size_t name_len, const char *octets, size_t octets_len,
                         const char *destination, size_t destination_len)
{
    cfdp_station station = CFDP_STATION_INIT;
    cfdp_config config;
    cfdp_answer answer;
    cfdp_id id;

    cfdp_defaults(&config);
    config.entity = 1;
    config.peer = 2;
    answer = cfdp_open(&station, &config);
    if (answer != CFDP_OK) {
        puts(cfdp_answer_text(answer));
        return 1;
    }
    cfdp_add(&station, name, name_len, octets, octets_len);
    cfdp_put(&station, name, name_len, destination, destination_len, &id);

    cfdp_close(&station);
    return id.source == 1 && id.number == 1 ? 0 : 1;
}

/* Frames with all fields, and PDUs with a CRC. */
static void guarded(cfdp_config *it)
{
    cfdp_config config = *it;

    config.sends.insert_zone = 4;
    config.sends.control_field = 1;
    config.sends.error_control = 1;
    config.pdu_crc = 1;
    config.checksum = CFDP_CHECKSUM_IEEE;

    *it = config;
}

static cfdp_answer seal(uint64_t next, const uint8_t *key, const uint8_t *frame, size_t len,
                        uint8_t *sealed)
{
    cfdp_answer answer;

    cfdp_security sealer = {.number = next, .spi = 17, .mac_len = 16, .error_control = 1};
    memcpy(sealer.key, key, sizeof sealer.key);
    answer = cfdp_seal_frame(&sealer, frame, len, 0, sealed, len + 10 + 16 + 2);

    return answer;
}

static cfdp_answer in_folders(const char *outbox, const char *inbox)
{
    cfdp_station station = CFDP_STATION_INIT;
    cfdp_config config;
    cfdp_answer answer;

    cfdp_defaults(&config);
    answer = cfdp_open_folders(&station, &config, outbox, strlen(outbox), inbox, strlen(inbox));

    cfdp_close(&station);
    return answer;
}

static cfdp_answer with_journal(const char *outbox, const char *inbox, const char *journal)
{
    cfdp_station station = CFDP_STATION_INIT;
    cfdp_config config;
    cfdp_journal_info info;
    cfdp_indication told;
    cfdp_answer answer;

    cfdp_defaults(&config);
    answer = cfdp_open_folders_journal(&station, &config, outbox, strlen(outbox), inbox,
                                       strlen(inbox), journal, strlen(journal), 1000);
    while (cfdp_next_unheard(&station, &told) == CFDP_OK)
        tell(&told, NULL);
    if (cfdp_journal_state(&station, &info) == CFDP_OK)
        printf("%u transfers go on\n", (unsigned)info.resumed);

    cfdp_close(&station);
    return answer;
}

static cfdp_station station;

static void take_turn(uint64_t now)
{
    static uint8_t frame[MOST_FRAME];
    static uint8_t names[CFDP_NAMES];
    static uint8_t name[CFDP_NAME];
    cfdp_indication told;
    cfdp_file_info info;
    cfdp_answer answer;
    size_t len;

    cfdp_tick(&station, now);
    while (frame_came(frame, &len))
        cfdp_receive(&station, frame, len);
    while ((answer = cfdp_transmit(&station, frame, cfdp_frame_len(&station))) == CFDP_OK)
        send_frame(frame, cfdp_frame_len(&station));
    if (answer != CFDP_NOTHING)
        puts(cfdp_answer_text(answer)); /* CFDP_NO_MEMORY: the next turn tries it again */
    while (cfdp_next_indication(&station, &told, names, sizeof names) == CFDP_OK)
        tell(&told, names);
    while (cfdp_file(&station, 0, &info, name, sizeof name) == CFDP_OK) {
        read_file(&station, &info, name);
        cfdp_remove_file(&station, name, info.name_len);
    }
    cfdp_forget_closed(&station);
}

/* Sends what is due, step by step. */
static void send_by_steps(void)
{
    static uint8_t frame[MOST_FRAME];
    cfdp_answer answer;

    do {
        answer = cfdp_poll(&station);
        if (answer == CFDP_NOTHING)
            cfdp_flush(&station);
        if (answer != CFDP_OK && answer != CFDP_SOURCE_FAULT)
            while (cfdp_next_frame(&station, frame, cfdp_frame_len(&station)) == CFDP_OK)
                send_frame(frame, cfdp_frame_len(&station));
    } while (answer == CFDP_OK || answer == CFDP_FULL || answer == CFDP_SOURCE_FAULT);
}

static void list_transactions(void)
{
    size_t cursor = 0;
    cfdp_transaction it;

    while (cfdp_transactions(&station, &cursor, &it) == CFDP_OK)
        printf("transaction %llu, phase %u\n", (unsigned long long)it.id.number, it.phase);

    listed += cursor;
}

static void tell_drops(void)
{
    cfdp_counts counts;
    size_t drop;

    cfdp_counters(&station, &counts);
    for (drop = 0; drop < CFDP_DROPS; drop++)
        if (cfdp_dropped(&counts, drop) != 0)
            printf("%s: %llu\n", cfdp_drop_text(drop),
                   (unsigned long long)cfdp_dropped(&counts, drop));
}

static cfdp_answer open_in_a_pool(void)
{
    cfdp_config config;
    cfdp_answer answer;

    cfdp_defaults(&config);
    guarded(&config);
    static uint8_t array[CFDP_POOL_FOR(CFDP_POOL_STATION(16384) + CFDP_POOL_RECORDS(8))];
    static cfdp_pool pool;

    cfdp_pool_begin(&pool, array, sizeof array);
    cfdp_pool_use(&pool);
    answer = cfdp_open(&station, &config);

    return answer;
}

/* ---- The other station, and the link between both. */

static cfdp_answer open_peer(cfdp_station *peer)
{
    cfdp_config config;
    cfdp_link sends;

    cfdp_defaults(&config);
    guarded(&config);
    sends = config.sends;
    config.sends = config.receives;
    config.receives = sends;
    config.entity = 2;
    config.peer = 1;
    return cfdp_open(peer, &config);
}

/* The frames of each go to the other one. */
static void exchange(cfdp_station *peer)
{
    const size_t len = cfdp_frame_len(peer);
    size_t at;

    for (at = 0; at < to_peer.count; at++)
        cfdp_receive(peer, to_peer.frames[at], to_peer.lens[at]);
    to_peer.count = 0;
    while (from_peer.count < FRAMES
           && cfdp_transmit(peer, from_peer.frames[from_peer.count], len) == CFDP_OK)
        from_peer.lens[from_peer.count++] = len;
}

static int transfer(cfdp_station *peer)
{
    uint64_t now;
    cfdp_id id;

    cfdp_add(&station, "a", 1, "hello", 5);
    cfdp_put(&station, "a", 1, "b", 1, &id);
    list_transactions();
    send_by_steps();
    for (now = 1; now < 10; now++) {
        exchange(peer);
        take_turn(now);
    }
    cfdp_receive(&station, "no frame", 8);
    tell_drops();
    return told_of == 1 && listed == 1 && cfdp_file_count(peer) == 1 ? 0 : 1;
}

int main(int count, char **words)
{
    static const uint8_t key[32] = {7}, frame[40] = {9};
    cfdp_station peer = CFDP_STATION_INIT;
    uint8_t sealed[40 + 10 + 16 + 2];
    char journal[4096];
    int status = count == 2 ? 0 : 2;

    if (first_program("a", 1, "hello", 5, "b", 1) != 0)
        status = 1;
    if (seal(1, key, frame, sizeof frame, sealed) != CFDP_OK)
        status = 1;
    if (count == 2 && in_folders(words[1], words[1]) != CFDP_OK)
        status = 1;
    if (count == 2) {
        snprintf(journal, sizeof journal, "%s.journal", words[1]);
        if (with_journal(words[1], words[1], journal) != CFDP_OK || remove(journal) != 0)
            status = 1;
    }
    if (open_in_a_pool() != CFDP_OK || open_peer(&peer) != CFDP_OK || transfer(&peer) != 0)
        status = 1;
    cfdp_close(&station);
    cfdp_close(&peer);
    return status;
}
