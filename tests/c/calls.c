/* Calls every export of cfdp.h, on closed and open handles, with good and bad values, and with each
 * growth of memory refused in turn; and looks which calls ask for none. Prints what is wrong, and
 * ends with status 1 if something is.
 * tests/bindings.py builds and runs it. */
#include "cfdp.h"
#include "cfdp_hooks.h"
#include "tests/checks.h"

#include <stdio.h>
#include <stdlib.h>
#include <string.h>

/* ---- memory, of which the Nth growth is refused */

static long live, asked, refused_at;
static char nothing;

static rattle_block block_at(void *at)
{
    rattle_block it;
    it.is_there = at != NULL;
    it.at = at != NULL ? at : &nothing;
    return it;
}

static bool is_refused(void)
{
    return ++asked == refused_at;
}

rattle_block rattle_alloc(size_t size, size_t align)
{
    void *at = is_refused() || align > 16 ? NULL : malloc(size != 0 ? size : 1);
    live += at != NULL;
    return block_at(at);
}

rattle_block rattle_realloc(void *at, size_t old_size, size_t size, size_t align)
{
    (void)old_size;
    return block_at(is_refused() || align > 16 ? NULL : realloc(at, size != 0 ? size : 1));
}

void rattle_dealloc(void *at)
{
    live--;
    free(at);
}

static const uint8_t NAME_A[] = {'a'}, NAME_B[] = {'b'}, NAME_C[] = {'c'};
static const uint8_t OCTETS[] = "hello, hello, hello, hello, hello";

static void defaults(void)
{
    cfdp_config c;
    memset(&c, 0xA5, sizeof c);
    cfdp_fill_defaults(&c);
    IS(c.entity, 0xA5A5A5A5A5A5A5A5);
    c.size = sizeof c - 1;
    cfdp_fill_defaults(&c);
    IS(c.entity, 0xA5A5A5A5A5A5A5A5);
    cfdp_defaults(&c);
    IS(c.size, sizeof c);
    /* Another than that of any version before: 88, 96. */
    IS(sizeof c, 104);
    IS(c.entity, 1);
    IS(c.peer, 2);
    IS(c.first_number, 1);
    IS(c.capacity, 16384);
    IS(c.eof_time, 10);
    IS(c.nak_time, 10);
    IS(c.finished_time, 10);
    IS(c.inactivity_time, 100);
    IS(c.sends.zone, 256);
    IS(c.sends.apid, 100);
    IS(c.sends.spacecraft, 42);
    IS(c.sends.virtual_channel, 5);
    IS(c.sends.data_virtual_channel, 7);
    IS(c.receives.zone, 256);
    IS(c.receives.apid, 101);
    IS(c.receives.spacecraft, 42);
    IS(c.receives.virtual_channel, 6);
    IS(c.receives.data_virtual_channel, 8);
    IS(c.sends.insert_zone + c.sends.control_field + c.sends.error_control, 0);
    IS(c.receives.insert_zone + c.receives.control_field + c.receives.error_control, 0);
    IS(c.pdu_crc, 0);
    IS(c.segment, 1024);
    IS(c.id_width, 2);
    IS(c.number_width, 4);
    IS(c.checksum, 0);
    IS(c.eof_limit, 3);
    IS(c.nak_limit, 3);
    IS(c.finished_limit, 3);
    IS(c.on_ack_limit, 0);
    IS(c.on_nak_limit, 0);
    IS(c.on_inactivity, 0);
    IS(c.most_gaps, 0);
}

static void on_a_closed_handle(void)
{
    cfdp_station s = CFDP_STATION_INIT;
    cfdp_id id = {7, 8};
    cfdp_indication told;
    cfdp_file_info info = {7, 8};
    cfdp_transaction listed = {{7, 8}, 9};
    cfdp_counts counts;
    cfdp_journal_info journal = {7, 8, 9, 10};
    uint64_t deadline = 9;
    uint32_t control = 9;
    size_t cursor = 0;
    uint8_t room[16] = {1};

    memset(&told, 0x5A, sizeof told);
    IS(cfdp_journal_state(&s, &journal), CFDP_CLOSED);
    IS(cfdp_next_unheard(&s, &told), CFDP_CLOSED);
    IS(journal.state, 9);
    IS(cfdp_add(&s, NAME_A, 1, OCTETS, 5), CFDP_CLOSED);
    IS(cfdp_remove_source(&s, NAME_A, 1), CFDP_CLOSED);
    IS(cfdp_put(&s, NAME_A, 1, NAME_B, 1, &id), CFDP_CLOSED);
    IS(cfdp_cancel(&s, &id), CFDP_CLOSED);
    IS(cfdp_suspend(&s, &id), CFDP_CLOSED);
    IS(cfdp_resume(&s, &id), CFDP_CLOSED);
    IS(cfdp_prompt(&s, &id, true), CFDP_CLOSED);
    IS(cfdp_transactions(&s, &cursor, &listed), CFDP_CLOSED);
    IS(cfdp_records_left(&s), 0);
    IS(cfdp_transmit(&s, room, sizeof room), CFDP_CLOSED);
    IS(cfdp_poll(&s), CFDP_CLOSED);
    IS(cfdp_flush(&s), CFDP_CLOSED);
    IS(cfdp_frame_len(&s), 0);
    IS(cfdp_frames_ahead(&s), 0);
    IS(cfdp_next_frame(&s, room, sizeof room), CFDP_CLOSED);
    IS(cfdp_receive(&s, room, sizeof room), CFDP_CLOSED);
    IS(cfdp_set_control_field(&s, 7), CFDP_CLOSED);
    IS(cfdp_control_field(&s, true, &control), CFDP_CLOSED);
    counts.pdus.unknown = 4;
    IS(cfdp_counters(&s, &counts), CFDP_CLOSED);
    IS(counts.pdus.unknown, 4);
    IS(cfdp_tick(&s, 1), CFDP_CLOSED);
    IS(cfdp_next_timeout(&s, &deadline), CFDP_CLOSED);
    IS(cfdp_next_indication(&s, &told, room, sizeof room), CFDP_CLOSED);
    IS(cfdp_file_count(&s), 0);
    IS(cfdp_file(&s, 0, &info, room, sizeof room), CFDP_CLOSED);
    IS(cfdp_read_file(&s, 0, 0, room, sizeof room), CFDP_CLOSED);
    IS(cfdp_remove_file(&s, room, 1), CFDP_CLOSED);
    cfdp_close(&s);
    cfdp_close(&s);
    IS(id.source, 7);
    IS(listed.phase, 9);
    IS(cursor, 0);
    IS(info.size, 8);
    IS(deadline, 9);
    IS(control, 9);
    IS(told.kind, 0x5A);
    IS(room[0], 1);
    IS(live, 0);
}

#define REFUSES(change, field)                   \
    do {                                         \
        cfdp_config c = defaults_of(1);            \
        change;                                  \
        IS(cfdp_open(&s, &c), CFDP_BAD_##field); \
    } while (0)

#define ACCEPTS(change)                \
    do {                               \
        cfdp_config c = defaults_of(1);  \
        change;                        \
        IS(cfdp_open(&s, &c), CFDP_OK); \
        cfdp_close(&s);                \
    } while (0)

/* Each field at its limits. */
static void opened_at_limits(void)
{
    cfdp_station s = CFDP_STATION_INIT;

    ACCEPTS(c.entity = 0);
    ACCEPTS(c.entity = 65535);
    ACCEPTS(c.peer = 0);
    ACCEPTS(c.peer = 65535);
    ACCEPTS(c.id_width = 1);
    ACCEPTS((c.id_width = 8, c.entity = UINT64_MAX));
    ACCEPTS((c.id_width = 8, c.peer = UINT64_MAX));
    ACCEPTS((c.id_width = 7, c.peer = UINT64_MAX >> 8));
    ACCEPTS(c.number_width = 1);
    ACCEPTS(c.number_width = 8);
    ACCEPTS(c.first_number = 0);
    ACCEPTS((c.number_width = 1, c.first_number = UINT64_MAX));
    ACCEPTS(c.segment = 1);
    ACCEPTS(c.segment = 4096);
    ACCEPTS(c.checksum = 3);
    ACCEPTS(c.checksum = 15);
    ACCEPTS(c.eof_time = 1);
    ACCEPTS(c.eof_time = UINT32_MAX);
    ACCEPTS(c.nak_time = 1);
    ACCEPTS(c.nak_time = UINT32_MAX);
    ACCEPTS(c.finished_time = 1);
    ACCEPTS(c.finished_time = UINT32_MAX);
    ACCEPTS(c.inactivity_time = 1);
    ACCEPTS(c.inactivity_time = UINT32_MAX);
    ACCEPTS(c.most_gaps = 1);
    ACCEPTS(c.most_gaps = UINT64_MAX);
    ACCEPTS(c.sends.virtual_channel = 0);
    ACCEPTS(c.sends.virtual_channel = 62);
    ACCEPTS(c.sends.data_virtual_channel = 0);
    ACCEPTS(c.sends.data_virtual_channel = 62);
    ACCEPTS(c.sends.zone = 16);
    ACCEPTS(c.sends.zone = 2040);
    ACCEPTS(c.sends.apid = 0);
    ACCEPTS(c.sends.apid = 2046);
    ACCEPTS(c.receives.virtual_channel = 0);
    ACCEPTS(c.receives.virtual_channel = 62);
    ACCEPTS(c.receives.data_virtual_channel = 0);
    ACCEPTS(c.receives.data_virtual_channel = 62);
    ACCEPTS(c.receives.zone = 16);
    ACCEPTS(c.receives.zone = 2040);
    ACCEPTS(c.receives.apid = 0);
    ACCEPTS(c.receives.apid = 2046);
    ACCEPTS(c.capacity = 8192);
    ACCEPTS(c.capacity = 65536);
    IS(live, 0);
}

static void opened_so(void)
{
    cfdp_station s = CFDP_STATION_INIT;
    cfdp_config c = defaults_of(1);

    REFUSES(c.size = 0, SIZE);
    REFUSES(c.size = 88, SIZE);
    REFUSES(c.size++, SIZE);
    REFUSES((c.size--, c.id_width = 0), SIZE);
    REFUSES(c.peer = 1, PEER);
    REFUSES(c.entity = 65536, ENTITY);
    REFUSES(c.peer = 65536, PEER);
    REFUSES((c.id_width = 1, c.entity = 256), ENTITY);
    REFUSES((c.id_width = 1, c.peer = 256), PEER);
    REFUSES((c.id_width = 7, c.peer = (UINT64_MAX >> 8) + 1), PEER);
    REFUSES(c.id_width = 0, ID_WIDTH);
    REFUSES(c.id_width = 9, ID_WIDTH);
    REFUSES(c.number_width = 0, NUMBER_WIDTH);
    REFUSES(c.number_width = 9, NUMBER_WIDTH);
    REFUSES(c.segment = 0, SEGMENT);
    REFUSES(c.segment = 4097, SEGMENT);
    REFUSES(c.checksum = 4, CHECKSUM);
    REFUSES(c.checksum = 14, CHECKSUM);
    REFUSES(c.checksum = 16, CHECKSUM);
    REFUSES(c.checksum = 255, CHECKSUM);
    REFUSES(c.capacity = 8191, CAPACITY);
    REFUSES(c.capacity = 65537, CAPACITY);
    REFUSES(c.eof_time = 0, EOF_TIME);
    REFUSES(c.nak_time = 0, NAK_TIME);
    REFUSES(c.finished_time = 0, FINISHED_TIME);
    REFUSES(c.inactivity_time = 0, INACTIVITY_TIME);
    REFUSES(c.on_ack_limit = 4, ON_ACK_LIMIT);
    REFUSES(c.on_nak_limit = 255, ON_NAK_LIMIT);
    REFUSES(c.on_inactivity = 4, ON_INACTIVITY);
    REFUSES(c.sends.zone = 15, SENDS_ZONE);
    REFUSES(c.sends.zone = 2041, SENDS_ZONE);
    REFUSES(c.receives.zone = 15, RECEIVES_ZONE);
    REFUSES(c.sends.apid = 2047, SENDS_APID);
    REFUSES(c.sends.virtual_channel = 63, SENDS_VIRTUAL_CHANNEL);
    REFUSES(c.sends.data_virtual_channel = 63, SENDS_DATA_VIRTUAL_CHANNEL);
    REFUSES(c.sends.data_virtual_channel = c.sends.virtual_channel, SENDS_DATA_VIRTUAL_CHANNEL);
    REFUSES(c.receives.zone = 2041, RECEIVES_ZONE);
    REFUSES(c.receives.apid = 65535, RECEIVES_APID);
    REFUSES(c.receives.virtual_channel = 255, RECEIVES_VIRTUAL_CHANNEL);
    REFUSES(c.receives.data_virtual_channel = 255, RECEIVES_DATA_VIRTUAL_CHANNEL);
    REFUSES(c.receives.virtual_channel = c.receives.data_virtual_channel,
            RECEIVES_DATA_VIRTUAL_CHANNEL);
    REFUSES(c.sends.insert_zone = 65, SENDS_INSERT_ZONE);
    REFUSES(c.sends.control_field = 2, SENDS_CONTROL_FIELD);
    REFUSES(c.sends.error_control = 255, SENDS_ERROR_CONTROL);
    REFUSES(c.receives.insert_zone = 255, RECEIVES_INSERT_ZONE);
    REFUSES(c.receives.control_field = 255, RECEIVES_CONTROL_FIELD);
    REFUSES(c.receives.error_control = 2, RECEIVES_ERROR_CONTROL);
    REFUSES(c.pdu_crc = 2, PDU_CRC);
    REFUSES(c.pdu_crc = 255, PDU_CRC);
    IS(cfdp_open(&s, &c), CFDP_OK);
    IS(cfdp_open(&s, &c), CFDP_ALREADY_OPEN);
    IS(cfdp_frame_len(&s), 264);
    IS(cfdp_frames_ahead(&s), 2 * ((16384 + 2047) / 256));
    cfdp_close(&s);
    IS(cfdp_poll(&s), CFDP_CLOSED);
    IS(live, 0);
    /* once more, in the same memory */
    IS(cfdp_open(&s, &c), CFDP_OK);
    cfdp_close(&s);
    IS(live, 0);
}

/* A first number that its octets can't have may be configured: then each put is refused. */
static void numbered_past_its_width(void)
{
    cfdp_station s = CFDP_STATION_INIT;
    cfdp_config c = defaults_of(1);
    cfdp_id id;

    c.number_width = 1;
    c.first_number = 256;
    IS(cfdp_open(&s, &c), CFDP_OK);
    IS(cfdp_add(&s, NAME_A, 1, OCTETS, 1), CFDP_OK);
    IS(cfdp_put(&s, NAME_A, 1, NAME_B, 1, &id), CFDP_NUMBERS_SPENT);
    cfdp_close(&s);
    IS(live, 0);
}

static void asked_of(cfdp_station *s)
{
    uint8_t long_name[256];
    cfdp_id id = {9, 9}, other = {1, 77};

    memset(long_name, 'n', sizeof long_name);
    IS(cfdp_add(s, NAME_A, 1, OCTETS, sizeof OCTETS), CFDP_OK);
    IS(cfdp_add(s, NAME_A, 1, OCTETS, 1), CFDP_NAME_TAKEN);
    IS(cfdp_add(s, long_name, sizeof long_name, OCTETS, 0), CFDP_OK);
    IS(cfdp_put(s, NAME_C, 1, NAME_B, 1, &id), CFDP_NO_SUCH_FILE);
    IS(cfdp_put(s, NAME_A, 0, NAME_B, 1, &id), CFDP_BAD_NAME);
    IS(cfdp_put(s, NAME_A, 1, NAME_B, 0, &id), CFDP_BAD_NAME);
    IS(cfdp_put(s, long_name, sizeof long_name, NAME_B, 1, &id), CFDP_BAD_NAME);
    IS(id.source, 9);
    IS(cfdp_put(s, NAME_A, 1, NAME_B, 1, &id), CFDP_OK);
    IS(id.source, 1);
    IS(id.number, 1);
    IS(cfdp_cancel(s, &other), CFDP_UNKNOWN);
    IS(cfdp_suspend(s, &other), CFDP_UNKNOWN);
    IS(cfdp_resume(s, &id), CFDP_ALREADY_SO);
    IS(cfdp_suspend(s, &id), CFDP_OK);
    IS(cfdp_suspend(s, &id), CFDP_ALREADY_SO);
    IS(cfdp_poll(s), CFDP_NOTHING);
    IS(cfdp_resume(s, &id), CFDP_OK);
    IS(cfdp_prompt(s, &id, true), CFDP_OK);
    IS(cfdp_prompt(s, &id, false), CFDP_ALREADY_SO);
}

/* All that waits goes over. */
static unsigned passed(cfdp_station *from, cfdp_station *to)
{
    uint8_t frame[264];
    unsigned count = 0;

    while (cfdp_poll(from) == CFDP_OK) {
    }
    IS(cfdp_next_frame(from, frame, 0), CFDP_NO_ROOM);
    IS(cfdp_next_frame(from, frame, 263), CFDP_NO_ROOM);
    IS(cfdp_flush(from), CFDP_OK);
    while (cfdp_next_frame(from, frame, sizeof frame) == CFDP_OK) {
        IS(cfdp_receive(to, frame, sizeof frame), CFDP_OK);
        count++;
    }
    IS(cfdp_next_frame(from, frame, sizeof frame), CFDP_NOTHING);
    return count;
}

static void told_by_sender(cfdp_station *s)
{
    static const uint8_t kinds[] = {CFDP_TRANSACTION, CFDP_SUSPENDED, CFDP_RESUMED, CFDP_EOF_SENT,
                                    CFDP_FINISHED};
    cfdp_indication it;
    uint8_t names[1];
    size_t at;

    for (at = 0; at < sizeof kinds; at++) {
        IS(cfdp_next_indication(s, &it, names, 0), CFDP_OK);
        IS(it.kind, kinds[at]);
        IS(it.id.source, 1);
        IS(it.id.number, 1);
        IS(it.condition, it.kind == CFDP_SUSPENDED ? 14 : 0);
        IS(it.status, it.kind == CFDP_FINISHED ? 2 : 0);
        IS(it.delivery, 0);
    }
    IS(cfdp_next_indication(s, &it, names, 0), CFDP_NOTHING);
}

static void told_by_receiver(cfdp_station *s)
{
    cfdp_indication it;
    uint8_t names[CFDP_NAMES];

    names[0] = '?';
    IS(cfdp_next_indication(s, &it, names, 1), CFDP_NO_ROOM);
    IS(names[0], '?');
    IS(cfdp_next_indication(s, &it, names, sizeof names), CFDP_OK);
    IS(it.kind, CFDP_METADATA_RECV);
    IS(it.size, sizeof OCTETS);
    IS(it.source_len, 1);
    IS(it.destination_len, 1);
    IS(names[0], 'a');
    IS(names[1], 'b');
    IS(cfdp_next_indication(s, &it, names, sizeof names), CFDP_OK);
    IS(it.kind, CFDP_EOF_RECV);
    IS(cfdp_next_indication(s, &it, names, sizeof names), CFDP_OK);
    IS(it.kind, CFDP_FINISHED);
}

static void published_by(cfdp_station *s)
{
    cfdp_file_info info = {0, 0};
    uint8_t name[CFDP_NAME], copy[sizeof OCTETS];

    IS(cfdp_file_count(s), 1);
    IS(cfdp_file(s, 1, &info, name, sizeof name), CFDP_NOTHING);
    IS(cfdp_file(s, (size_t)-1, &info, name, sizeof name), CFDP_NOTHING);
    IS(cfdp_file(s, 0, &info, name, 0), CFDP_NO_ROOM);
    IS(info.size, 0);
    IS(cfdp_file(s, 0, &info, name, sizeof name), CFDP_OK);
    IS(info.size, sizeof OCTETS);
    IS(info.name_len, 1);
    IS(name[0], 'b');
    IS(cfdp_read_file(s, 1, 0, copy, 1), CFDP_NOTHING);
    IS(cfdp_read_file(s, 0, 1, copy, sizeof copy), CFDP_BAD_ARGUMENT);
    IS(cfdp_read_file(s, 0, (size_t)-1, copy, 1), CFDP_BAD_ARGUMENT);
    IS(cfdp_read_file(s, 0, sizeof OCTETS, copy, 0), CFDP_OK);
    IS(cfdp_read_file(s, 0, 0, copy, sizeof copy), CFDP_OK);
    IS(memcmp(copy, OCTETS, sizeof copy), 0);
    IS(cfdp_read_file(s, 0, 7, copy, 5), CFDP_OK);
    IS(memcmp(copy, OCTETS + 7, 5), 0);
}

/* What is removed is gone with its memory, which takes none. */
static void removed_from(cfdp_station *s)
{
    cfdp_file_info info;
    uint8_t name[CFDP_NAME];
    const long before = live, asked_before = asked;

    IS(cfdp_remove_file(s, NAME_A, 1), CFDP_NOTHING);
    IS(cfdp_remove_file(s, NAME_B, 0), CFDP_NOTHING);
    IS(cfdp_file_count(s), 1);
    IS(live, before);
    IS(cfdp_remove_file(s, NAME_B, 1), CFDP_OK);
    /* its name and its octets */
    IS(before - live >= 2, 1);
    IS(cfdp_remove_file(s, NAME_B, 1), CFDP_NOTHING);
    IS(cfdp_file_count(s), 0);
    IS(cfdp_file(s, 0, &info, name, sizeof name), CFDP_NOTHING);
    IS(asked, asked_before);
}

static cfdp_counts counted(cfdp_station *station)
{
    cfdp_counts counts;

    IS(cfdp_counters(station, &counts), CFDP_OK);
    return counts;
}

static void transferred(void)
{
    cfdp_station one = CFDP_STATION_INIT, two = CFDP_STATION_INIT;
    const cfdp_config first = defaults_of(1), second = defaults_of(2);
    uint8_t junk[264];
    uint64_t deadline = 0;
    cfdp_id id = {1, 1};
    int round;

    memset(junk, 0xFF, sizeof junk);
    IS(cfdp_open(&one, &first), CFDP_OK);
    IS(cfdp_open(&two, &second), CFDP_OK);
    IS(cfdp_tick(&one, 5), CFDP_OK);
    IS(cfdp_next_timeout(&one, &deadline), CFDP_NOTHING);
    asked_of(&one);
    IS(passed(&one, &two) != 0, 1);
    IS(cfdp_next_timeout(&one, &deadline), CFDP_OK);
    IS(deadline, 15);
    IS(cfdp_prompt(&two, &id, true), CFDP_WRONG_SIDE);
    for (round = 0; round < 3; round++) {
        passed(&two, &one);
        passed(&one, &two);
    }
    IS(cfdp_cancel(&one, &id), CFDP_ALREADY_CLOSED);
    IS(cfdp_cancel(&two, &id), CFDP_ALREADY_CLOSED);
    told_by_sender(&one);
    told_by_receiver(&two);
    published_by(&two);
    removed_from(&two);
    IS(counted(&two).frames.bad_length, 0);
    IS(cfdp_receive(&two, junk, 0), CFDP_OK);
    IS(counted(&two).frames.bad_length, 1);
    IS(cfdp_receive(&two, junk, sizeof junk), CFDP_OK);
    IS(counted(&two).frames.bad_version, 1);
    IS(counted(&two).frames.no_memory, 0);
    IS(counted(&two).pdus.too_short, 0);
    IS(counted(&two).pdus.no_file, 0);
    cfdp_close(&one);
    cfdp_close(&two);
    IS(live, 0);
}

/* The greatest capacity, the longest names, and a file of 1 MiB and an octet. */
static void at_the_limits(void)
{
    cfdp_station one = CFDP_STATION_INIT, two = CFDP_STATION_INIT;
    cfdp_config first = defaults_of(1), second = defaults_of(2);
    static uint8_t octets[(1 << 20) + 1], came[sizeof octets];
    uint8_t names[2][CFDP_NAME], name[CFDP_NAME];
    cfdp_file_info info = {0, 0};
    size_t at;
    cfdp_id id;

    for (at = 0; at < sizeof octets; at++)
        octets[at] = (uint8_t)(at % 251);
    memset(names[0], 'a', sizeof names[0]);
    memset(names[1], 'b', sizeof names[1]);
    first.capacity = second.capacity = 65536;
    IS(cfdp_open(&one, &first), CFDP_OK);
    IS(cfdp_open(&two, &second), CFDP_OK);
    IS(cfdp_add(&one, names[0], sizeof names[0], octets, sizeof octets), CFDP_OK);
    IS(cfdp_put(&one, names[0], sizeof names[0], names[1], sizeof names[1], &id), CFDP_OK);
    while (passed(&one, &two) + passed(&two, &one) != 0) {
    }
    IS(cfdp_file_count(&two), 1);
    IS(cfdp_file(&two, 0, &info, name, sizeof name), CFDP_OK);
    IS(info.size, sizeof octets);
    IS(info.name_len, 255);
    IS(memcmp(name, names[1], sizeof name), 0);
    IS(cfdp_read_file(&two, 0, 0, came, sizeof came), CFDP_OK);
    IS(memcmp(came, octets, sizeof came), 0);
    cfdp_close(&one);
    cfdp_close(&two);
    IS(live, 0);
}

/* One call polls, fills up and gives frames, directives first, until nothing is due. */
static void transmitted(void)
{
    static const uint8_t channels[] = {5, 7};
    cfdp_station one = CFDP_STATION_INIT, two = CFDP_STATION_INIT;
    const cfdp_config first = defaults_of(1), second = defaults_of(2);
    uint8_t frame[264];
    cfdp_id id;
    size_t at;

    IS(cfdp_open(&one, &first), CFDP_OK);
    IS(cfdp_open(&two, &second), CFDP_OK);
    IS(cfdp_transmit(&one, frame, sizeof frame), CFDP_NOTHING);
    IS(cfdp_add(&one, NAME_A, 1, OCTETS, sizeof OCTETS), CFDP_OK);
    IS(cfdp_put(&one, NAME_A, 1, NAME_B, 1, &id), CFDP_OK);
    IS(cfdp_transmit(&one, frame, sizeof frame - 1), CFDP_NO_ROOM);
    for (at = 0; at < 2; at++) {
        IS(cfdp_transmit(&one, frame, sizeof frame), CFDP_OK);
        IS(frame[1] & 63, channels[at]);
        IS(cfdp_receive(&two, frame, sizeof frame), CFDP_OK);
    }
    IS(cfdp_transmit(&one, frame, sizeof frame), CFDP_NOTHING);
    IS(cfdp_file_count(&two), 1);
    cfdp_close(&one);
    cfdp_close(&two);
    IS(live, 0);
}

/* A file leaves the outbox if no transaction is sending it, and gives its memory back. */
static void gives_files_up(void)
{
    cfdp_station one = CFDP_STATION_INIT;
    const cfdp_config c = defaults_of(1);
    cfdp_id ids[2];
    long before, asked_before;
    int at;

    IS(cfdp_open(&one, &c), CFDP_OK);
    IS(cfdp_remove_source(&one, NAME_A, 1), CFDP_NO_SUCH_FILE);
    IS(cfdp_add(&one, NAME_A, 1, OCTETS, sizeof OCTETS), CFDP_OK);
    IS(cfdp_add(&one, NAME_B, 1, OCTETS, 1), CFDP_OK);
    for (at = 0; at < 2; at++)
        IS(cfdp_put(&one, NAME_A, 1, NAME_B, 1, &ids[at]), CFDP_OK);
    IS(cfdp_suspend(&one, &ids[0]), CFDP_OK);
    before = live, asked_before = asked;
    for (at = 0; at < 2; at++) {
        IS(cfdp_remove_source(&one, NAME_A, 1), CFDP_SOURCE_IN_USE);
        IS(cfdp_remove_source(&one, NAME_A, 0), CFDP_NO_SUCH_FILE);
        IS(live, before);
        IS(asked, asked_before);
        IS(cfdp_cancel(&one, &ids[at]), CFDP_OK);
        before = live, asked_before = asked;
    }
    IS(cfdp_remove_source(&one, NAME_A, 1), CFDP_OK);
    IS(before - live >= 2, 1);
    IS(asked, asked_before);
    IS(cfdp_remove_source(&one, NAME_A, 1), CFDP_NO_SUCH_FILE);
    IS(cfdp_put(&one, NAME_A, 1, NAME_B, 1, &ids[0]), CFDP_NO_SUCH_FILE);
    IS(cfdp_put(&one, NAME_B, 1, NAME_B, 1, &ids[0]), CFDP_OK);
    IS(cfdp_add(&one, NAME_A, 1, OCTETS, 1), CFDP_OK);
    cfdp_close(&one);
    IS(live, 0);
}

/* Each answer has words of its own, and another number has none. */
static void put_into_words(void)
{
    cfdp_answer one, two;

    IS(cfdp_version(), CFDP_VERSION);
    for (one = 0; one <= CFDP_FULL; one++)
        for (two = 0; two < one; two++)
            IS(strcmp(cfdp_answer_text(one), cfdp_answer_text(two)) == 0,
               strcmp(cfdp_answer_text(one), cfdp_answer_text(255)) == 0
                   && strcmp(cfdp_answer_text(two), cfdp_answer_text(255)) == 0);
    for (one = CFDP_BAD_SIZE; one <= CFDP_BAD_RECEIVES_ERROR_CONTROL; one++)
        IS(strcmp(cfdp_answer_text(one), cfdp_answer_text(255)) != 0, 1);
    for (one = CFDP_DECODE_SHORT; one <= CFDP_DECODE_CONDITION; one++)
        IS(strcmp(cfdp_answer_text(one), cfdp_answer_text(255)) != 0, one != CFDP_BAD_PDU + 6);
}

/* Each cause has words of its own and the count of its field, and another number has neither. */
static void counts_of_causes(void)
{
    cfdp_counts counts;
    size_t one, two;

    for (one = 0; one < sizeof counts / sizeof one; one++)
        ((uint64_t *)&counts)[one] = one;
    IS(CFDP_DROPS, (&counts.pdus.no_file - &counts.frames.bad_length) + 1);
    for (one = 0; one < CFDP_DROPS; one++) {
        IS(cfdp_dropped(&counts, one), counts.frames.bad_length + one);
        IS(strcmp(cfdp_drop_text(one), "unknown cause") != 0, 1);
        for (two = 0; two < one; two++)
            IS(strcmp(cfdp_drop_text(one), cfdp_drop_text(two)) != 0, 1);
    }
    IS(cfdp_dropped(&counts, CFDP_DROPS), 0);
    IS(cfdp_dropped(&counts, (size_t)-1), 0);
    IS(strcmp(cfdp_drop_text(CFDP_DROPS), "unknown cause"), 0);
    IS(strcmp(cfdp_drop_text(0), "wrong frame length"), 0);
    IS(strcmp(cfdp_drop_text(CFDP_DROPS - 1), "a file name is empty"), 0);
}

/* The transactions, by a cursor, each with how far it has come. */
static void listed(void)
{
    cfdp_station one = CFDP_STATION_INIT, two = CFDP_STATION_INIT;
    const cfdp_config first = defaults_of(1), second = defaults_of(2);
    cfdp_transaction it = {{0, 0}, 0};
    cfdp_id id;
    size_t cursor = 0;

    IS(cfdp_open(&one, &first), CFDP_OK);
    IS(cfdp_open(&two, &second), CFDP_OK);
    IS(cfdp_transactions(&one, &cursor, &it), CFDP_NOTHING);
    IS(cfdp_records_left(&one), 4096);
    IS(cfdp_add(&one, NAME_A, 1, OCTETS, sizeof OCTETS), CFDP_OK);
    IS(cfdp_put(&one, NAME_A, 1, NAME_B, 1, &id), CFDP_OK);
    IS(cfdp_put(&one, NAME_A, 1, NAME_C, 1, &id), CFDP_OK);
    IS(cfdp_cancel(&one, &id), CFDP_OK);
    IS(cfdp_records_left(&one), 4094);
    IS(cfdp_transactions(&one, &cursor, &it), CFDP_OK);
    IS(it.id.number, 1);
    IS(it.phase, CFDP_SENDING);
    IS(cfdp_transactions(&one, &cursor, &it), CFDP_OK);
    IS(it.id.number, 2);
    IS(it.phase, CFDP_CANCELLING);
    IS(cfdp_transactions(&one, &cursor, &it), CFDP_NOTHING);
    IS(cursor, 2);
    IS(it.id.number, 2);
    cursor = (size_t)-1;
    IS(cfdp_transactions(&one, &cursor, &it), CFDP_NOTHING);
    IS(cursor, (size_t)-1);
    passed(&one, &two);
    cursor = 0;
    IS(cfdp_transactions(&two, &cursor, &it), CFDP_OK);
    IS(it.id.source, 1);
    IS(it.phase, CFDP_FINISHING);
    passed(&two, &one);
    passed(&one, &two);
    cursor = 0;
    IS(cfdp_transactions(&one, &cursor, &it), CFDP_OK);
    IS(it.phase, CFDP_OVER);
    IS(cfdp_forget_closed(&one), CFDP_OK);
    IS(cfdp_records_left(&one), 4096);
    cfdp_close(&one);
    cfdp_close(&two);
    IS(live, 0);
}

/* Directives leave before file data, each in frames of their own channel. */
static void overtaken(void)
{
    static const uint8_t channels[] = {5, 7};
    cfdp_station one = CFDP_STATION_INIT, two = CFDP_STATION_INIT;
    const cfdp_config first = defaults_of(1), second = defaults_of(2);
    uint8_t frames[2][264];
    cfdp_id id;
    size_t at;

    IS(cfdp_open(&one, &first), CFDP_OK);
    IS(cfdp_open(&two, &second), CFDP_OK);
    IS(cfdp_add(&one, NAME_A, 1, OCTETS, sizeof OCTETS), CFDP_OK);
    IS(cfdp_put(&one, NAME_A, 1, NAME_B, 1, &id), CFDP_OK);
    /* Metadata, file data, EOF */
    for (at = 0; at < 3; at++)
        IS(cfdp_poll(&one), CFDP_OK);
    IS(cfdp_poll(&one), CFDP_NOTHING);
    IS(counted(&one).sent.file_data, 1);
    IS(counted(&one).sent.file_data_again, 0);
    IS(counted(&one).sent.naks, 0);
    IS(counted(&one).sent.other_directives, 2);
    IS(cfdp_flush(&one), CFDP_OK);
    for (at = 0; at < 2; at++) {
        IS(cfdp_next_frame(&one, frames[at], sizeof frames[at]), CFDP_OK);
        IS(frames[at][1] & 63, channels[at]);
    }
    IS(cfdp_next_frame(&one, frames[0], sizeof frames[0]), CFDP_NOTHING);
    IS(cfdp_receive(&two, frames[0], sizeof frames[0]), CFDP_OK);
    IS(cfdp_file_count(&two), 0);
    IS(cfdp_receive(&two, frames[1], sizeof frames[1]), CFDP_OK);
    IS(cfdp_file_count(&two), 1);
    /* of a third channel */
    frames[1][1] = (uint8_t)((frames[1][1] & 0xC0) | 9);
    IS(cfdp_receive(&two, frames[1], sizeof frames[1]), CFDP_OK);
    IS(counted(&two).frames.other_channel, 1);
    cfdp_close(&one);
    cfdp_close(&two);
    IS(live, 0);
}

/* A station with the put of a file of 100,000 octets, which is polled until it answers Full, and so
 * many times more. */
static void open_filled(cfdp_station *s, const uint8_t *octets, unsigned more)
{
    const cfdp_config c = defaults_of(1);
    cfdp_id id;
    cfdp_answer answer = CFDP_OK;
    unsigned polls = 0;

    IS(cfdp_open(s, &c), CFDP_OK);
    IS(cfdp_add(s, NAME_A, 1, octets, 100000), CFDP_OK);
    IS(cfdp_put(s, NAME_A, 1, NAME_B, 1, &id), CFDP_OK);
    while (answer == CFDP_OK && polls++ < 100)
        answer = cfdp_poll(s);
    IS(answer, CFDP_FULL);
    while (more-- > 0)
        IS(cfdp_poll(s), CFDP_FULL);
}

/* The PDU that is due is longer than the room that is left. It stays due, and an answer Full
 * changes nothing: the frames are the same, however often it was given. Once they left there is
 * room. */
static void filled(void)
{
    cfdp_station one = CFDP_STATION_INIT, two = CFDP_STATION_INIT;
    uint8_t *octets = (uint8_t *)calloc(1, 100000);
    uint8_t frames[2][264];
    cfdp_id id = {1, 1};
    unsigned count = 0;

    open_filled(&one, octets, 0);
    open_filled(&two, octets, 7);
    IS(counted(&two).sent.file_data, counted(&one).sent.file_data);
    /* Each lane has its own room: a directive still goes down. */
    IS(cfdp_prompt(&one, &id, true), CFDP_OK);
    IS(cfdp_poll(&one), CFDP_OK);
    IS(cfdp_poll(&one), CFDP_FULL);
    IS(cfdp_prompt(&two, &id, true), CFDP_OK);
    IS(cfdp_poll(&two), CFDP_OK);
    for (;;) {
        /* Each octet of a frame is written, whatever was there. */
        memset(frames[0], 0x00, sizeof frames[0]);
        memset(frames[1], 0xFF, sizeof frames[1]);
        if (cfdp_next_frame(&one, frames[0], sizeof frames[0]) != CFDP_OK)
            break;
        IS(cfdp_next_frame(&two, frames[1], sizeof frames[1]), CFDP_OK);
        IS(memcmp(frames[0], frames[1], sizeof frames[0]), 0);
        count++;
    }
    IS(cfdp_next_frame(&two, frames[1], sizeof frames[1]), CFDP_NOTHING);
    IS(count != 0, 1);
    IS(cfdp_poll(&one), CFDP_OK);
    IS(cfdp_cancel(&one, &id), CFDP_OK);
    IS(cfdp_cancel(&one, &id), CFDP_ALREADY_CLOSED);
    cfdp_close(&one);
    cfdp_close(&two);
    free(octets);
    IS(live, 0);
}

/* The answers to a put come to a station that knows nothing of it: the ACK of the EOF is dropped,
 * and the Finished is acknowledged, which is counted once it is sent. */
static void strayed(void)
{
    cfdp_station one = CFDP_STATION_INIT, two = CFDP_STATION_INIT, other = CFDP_STATION_INIT;
    const cfdp_config first = defaults_of(1), second = defaults_of(2);
    cfdp_id id;

    IS(cfdp_open(&one, &first), CFDP_OK);
    IS(cfdp_open(&two, &second), CFDP_OK);
    IS(cfdp_open(&other, &first), CFDP_OK);
    IS(cfdp_add(&one, NAME_A, 1, OCTETS, sizeof OCTETS), CFDP_OK);
    IS(cfdp_put(&one, NAME_A, 1, NAME_B, 1, &id), CFDP_OK);
    IS(passed(&one, &two), 2);
    IS(passed(&two, &other), 1);
    IS(counted(&other).pdus.unknown, 1);
    IS(counted(&other).sent.other_directives, 0);
    IS(cfdp_poll(&other), CFDP_OK);
    IS(cfdp_poll(&other), CFDP_NOTHING);
    IS(counted(&other).sent.other_directives, 1);
    IS(cfdp_records_left(&other), 4096);
    cfdp_close(&one);
    cfdp_close(&two);
    cfdp_close(&other);
    IS(live, 0);
}

/* ---- one PDU */

static size_t octets_of(const char *digits, uint8_t *out)
{
    size_t count = 0;
    unsigned octet;

    for (; sscanf(digits, "%2x", &octet) == 1; digits += 2)
        out[count++] = (uint8_t)octet;
    return count;
}

static cfdp_pdu decoded(const char *digits, cfdp_answer wanted)
{
    uint8_t octets[64];
    const size_t len = octets_of(digits, octets);
    cfdp_pdu pdu;

    memset(&pdu, 0, sizeof pdu);
    IS(cfdp_decode(octets, len, &pdu), wanted);
    return pdu;
}

static void decodes(void)
{
    cfdp_pdu it = decoded("3000091300010000000100020000000068656C6C6F", CFDP_OK);

    IS(it.kind, 0);
    IS(it.data_len, 5);
    IS(it.id.source, 1);
    IS(it.id.number, 1);
    IS(it.destination, 2);
    IS(it.toward_sender, 0);
    IS(it.large, 0);
    it = decoded("20001213000100000001000207000000000505612E74787405622E747874", CFDP_OK);
    IS(it.kind, 7);
    IS(it.size, 5);
    IS(it.checksum_kind, 0);
    it = decoded("20000A1300010000000100020400D7656C6C00000005", CFDP_OK);
    IS(it.kind, 4);
    IS(it.checksum, 0xD7656C6C);
    IS(it.size, 5);
    it = decoded("21000E1300010000000100020400000000000000000100000000", CFDP_OK);
    IS(it.kind, 4);
    IS(it.large, 1);
    IS(it.size, 0x100000000);
    it = decoded("280003130001000000010002064102", CFDP_OK);
    IS(it.kind, 6);
    IS(it.toward_sender, 1);
    IS(it.acknowledged, 4);
    IS(it.status, 2);
    it = decoded("2000021300010000000100020980", CFDP_OK);
    IS(it.kind, 9);
    IS(it.keep_alive, 1);
    IS(it.crc, 0);
    /* with a CRC, and with a wrong one: binascii.crc_hqx(octets, 0xFFFF) */
    it = decoded("3200071300010000000100020000000068D5A0", CFDP_OK);
    IS(it.kind, 0);
    IS(it.data_len, 1);
    IS(it.crc, 1);
    decoded("3200071300010000000100020000000068D4A0", CFDP_DECODE_CRC);
    it = decoded("2000", CFDP_DECODE_SHORT);
    IS(it.kind, CFDP_PDU_FILE_DATA);
}

/* A PDU for each refusal. */
static void refused_pdus(void)
{
    decoded("0000021300010000000100020980", CFDP_DECODE_VERSION);
    decoded("200002130001000000010002098000", CFDP_DECODE_LENGTH);
    decoded("2400021300010000000100020980", CFDP_DECODE_UNACKNOWLEDGED);
    decoded("2000021300010000000100020380", CFDP_DECODE_DIRECTIVE);
    decoded("20000113000100000001000209", CFDP_DECODE_TRUNCATED);
    decoded("200003130001000000010002098000", CFDP_DECODE_TRAILING);
    decoded("28000413000100000001000205020605", CFDP_DECODE_TLV);
    decoded("20000A13000100000001000204C00000000000000000", CFDP_DECODE_CONDITION);
    IS(CFDP_DECODE_CRC, CFDP_BAD_PDU + 3);
}

/* ---- frames with all fields, and PDUs with a CRC */

enum { FIELDS = 3 + 4 + 2, GUARDED = 264 + FIELDS };

static cfdp_config guarded_config(int number, uint8_t checksum)
{
    cfdp_config config = defaults_of(number);
    cfdp_link *links[2];
    int at;

    links[0] = &config.sends;
    links[1] = &config.receives;
    for (at = 0; at < 2; at++) {
        links[at]->insert_zone = 3;
        links[at]->control_field = 1;
        links[at]->error_control = 1;
    }
    /* Station 2 puts none, and answers with a CRC, as it is asked. */
    config.pdu_crc = number == 1;
    config.checksum = checksum;
    return config;
}

/* The check of frames and of PDUs: by x^16 + x^12 + x^5 + 1, begun with ones. */
static uint16_t check_of(const uint8_t *octets, size_t len)
{
    uint16_t check = 0xFFFF;
    size_t at;
    int bit;

    for (at = 0; at < len; at++) {
        check = (uint16_t)(check ^ (octets[at] << 8));
        for (bit = 0; bit < 8; bit++)
            check = (uint16_t)(check & 0x8000 ? check << 1 ^ 0x1021 : check << 1);
    }
    return check;
}

/* The first frame of directives: its fields, and the PDU of its first packet, which has a CRC. */
static cfdp_pdu guarded_pdu(const uint8_t *frame, uint32_t control)
{
    static const uint8_t insert[] = {0, 0, 0};
    const uint8_t *packet = frame + 6 + sizeof insert + 2, *behind = frame + GUARDED - 6;
    const size_t len = (size_t)(packet[4] << 8 | packet[5]) + 1;
    cfdp_pdu pdu;
    int at;

    memset(&pdu, 0, sizeof pdu);
    IS(memcmp(frame + 6, insert, sizeof insert), 0);
    for (at = 0; at < 4; at++)
        IS(behind[at], control >> (24 - 8 * at) & 0xFF);
    IS(behind[4] << 8 | behind[5], check_of(frame, GUARDED - 2));
    IS(cfdp_decode(packet + 6, len, &pdu), CFDP_OK);
    IS(pdu.crc, 1);
    IS(packet[6 + len - 2] << 8 | packet[6 + len - 1], check_of(packet + 6, len - 2));
    return pdu;
}

/* All that is due goes over. Where asked for, the first frame of file data is damaged. */
static void pass_guarded(cfdp_station *from, cfdp_station *to, bool damages)
{
    uint8_t frame[GUARDED];

    while (cfdp_transmit(from, frame, sizeof frame) == CFDP_OK) {
        if (damages && (frame[1] & 63) == 7) {
            frame[100] ^= 1;
            damages = false;
        }
        IS(cfdp_receive(to, frame, sizeof frame), CFDP_OK);
    }
    IS(damages, false);
}

/* A damaged frame is refused, and what it had is asked for again. */
static void guarded(uint8_t checksum)
{
    cfdp_station one = CFDP_STATION_INIT, two = CFDP_STATION_INIT;
    const cfdp_config first = guarded_config(1, checksum), second = guarded_config(2, checksum);
    static uint8_t octets[5000], came[sizeof octets];
    uint8_t frame[GUARDED];
    uint32_t control = 9;
    cfdp_pdu pdu;
    cfdp_id id;
    size_t at;

    for (at = 0; at < sizeof octets; at++)
        octets[at] = (uint8_t)(at % 251);
    IS(cfdp_open(&one, &first), CFDP_OK);
    IS(cfdp_open(&two, &second), CFDP_OK);
    IS(cfdp_frame_len(&one), sizeof frame);
    IS(cfdp_set_control_field(&one, 0x01020304), CFDP_OK);
    IS(cfdp_add(&one, NAME_A, 1, octets, sizeof octets), CFDP_OK);
    IS(cfdp_put(&one, NAME_A, 1, NAME_B, 1, &id), CFDP_OK);
    IS(cfdp_transmit(&one, frame, sizeof frame), CFDP_OK);
    pdu = guarded_pdu(frame, 0x01020304);
    IS(pdu.kind, 7);
    IS(pdu.checksum_kind, checksum);
    IS(cfdp_control_field(&two, false, &control), CFDP_NOTHING);
    IS(control, 9);
    IS(cfdp_receive(&two, frame, sizeof frame), CFDP_OK);
    IS(cfdp_control_field(&two, false, &control), CFDP_OK);
    IS(control, 0x01020304);
    IS(cfdp_control_field(&two, true, &control), CFDP_NOTHING);
    IS(cfdp_set_control_field(&one, 0xFFFFFFFF), CFDP_OK);
    pass_guarded(&one, &two, true);
    IS(counted(&two).frames.damaged, 1);
    IS(cfdp_control_field(&two, true, &control), CFDP_OK);
    IS(control, 0xFFFFFFFF);
    IS(cfdp_file_count(&two), 0);
    IS(cfdp_transmit(&two, frame, sizeof frame), CFDP_OK);
    pdu = guarded_pdu(frame, 0);
    IS(pdu.kind, 6);
    IS(cfdp_receive(&one, frame, sizeof frame), CFDP_OK);
    pass_guarded(&two, &one, false);
    IS(counted(&two).sent.naks, 1);
    pass_guarded(&one, &two, false);
    IS(counted(&one).sent.file_data_again != 0, 1);
    pass_guarded(&two, &one, false);
    pass_guarded(&one, &two, false);
    IS(counted(&two).frames.damaged, 1);
    IS(counted(&two).pdus.bad_crc, 0);
    IS(cfdp_cancel(&one, &id), CFDP_ALREADY_CLOSED);
    IS(cfdp_file_count(&two), 1);
    IS(cfdp_read_file(&two, 0, 0, came, sizeof came), CFDP_OK);
    IS(memcmp(came, octets, sizeof came), 0);
    cfdp_close(&one);
    cfdp_close(&two);
    IS(live, 0);
}

/* Where frames have no error control, the CRC of a PDU tells of damage: its file data are asked for
 * again. */
static void guarded_alone(void)
{
    cfdp_station one = CFDP_STATION_INIT, two = CFDP_STATION_INIT;
    cfdp_config first = defaults_of(1);
    const cfdp_config second = defaults_of(2);
    uint8_t frame[264], came[sizeof OCTETS];
    cfdp_id id;

    first.pdu_crc = 1;
    IS(cfdp_open(&one, &first), CFDP_OK);
    IS(cfdp_open(&two, &second), CFDP_OK);
    IS(cfdp_add(&one, NAME_A, 1, OCTETS, sizeof OCTETS), CFDP_OK);
    IS(cfdp_put(&one, NAME_A, 1, NAME_B, 1, &id), CFDP_OK);
    while (cfdp_transmit(&one, frame, sizeof frame) == CFDP_OK) {
        /* the first octet of file data: behind frame, packet and PDU headers, and the offset */
        if ((frame[1] & 63) == 7)
            frame[8 + 6 + 12 + 4] ^= 1;
        IS(cfdp_receive(&two, frame, sizeof frame), CFDP_OK);
    }
    IS(counted(&two).pdus.bad_crc, 1);
    IS(counted(&two).frames.damaged, 0);
    IS(cfdp_file_count(&two), 0);
    passed(&two, &one);
    IS(passed(&one, &two) != 0, 1);
    IS(cfdp_read_file(&two, 0, 0, came, sizeof came), CFDP_OK);
    IS(memcmp(came, OCTETS, sizeof came), 0);
    cfdp_close(&one);
    cfdp_close(&two);
    IS(live, 0);
}

/* Frames without these fields say nothing, and what is set for them is sent in none. */
static void unguarded(void)
{
    cfdp_station one = CFDP_STATION_INIT, two = CFDP_STATION_INIT;
    const cfdp_config first = defaults_of(1), second = defaults_of(2);
    uint32_t control = 9;
    cfdp_id id;

    IS(cfdp_open(&one, &first), CFDP_OK);
    IS(cfdp_open(&two, &second), CFDP_OK);
    IS(cfdp_set_control_field(&one, 7), CFDP_OK);
    IS(cfdp_add(&one, NAME_A, 1, OCTETS, sizeof OCTETS), CFDP_OK);
    IS(cfdp_put(&one, NAME_A, 1, NAME_B, 1, &id), CFDP_OK);
    IS(passed(&one, &two), 2);
    IS(cfdp_file_count(&two), 1);
    IS(cfdp_control_field(&two, false, &control), CFDP_NOTHING);
    IS(cfdp_control_field(&two, true, &control), CFDP_NOTHING);
    IS(control, 9);
    cfdp_close(&one);
    cfdp_close(&two);
    IS(live, 0);
}

/* ---- calls that take no memory */

/* How many growths of memory were asked for since this was asked last. */
static long growths(void)
{
    static long before;
    const long since = asked - before;

    before = asked;
    return since;
}

/* All that is due waits then. To take file data, new ones and such as were asked for, takes no
 * memory, once there is room for what a step tells. */
static void polled_without_memory(cfdp_station *s)
{
    uint8_t names[CFDP_NAMES];
    cfdp_indication told;
    cfdp_answer answer;

    do {
        const cfdp_counts before = counted(s);
        cfdp_counts now;
        long grown;

        while (cfdp_next_indication(s, &told, names, sizeof names) == CFDP_OK) {
        }
        growths();
        answer = cfdp_poll(s);
        grown = growths();
        now = counted(s);
        if (now.sent.file_data != before.sent.file_data
            || now.sent.file_data_again != before.sent.file_data_again)
            IS(grown, 0);
    } while (answer == CFDP_OK);
    IS(answer, CFDP_NOTHING);
}

/* Begun frames are filled up, and all leave; but for one they arrive. */
static void left_without_memory(cfdp_station *from, cfdp_station *to, unsigned lost)
{
    uint8_t frame[264];
    unsigned count = 0;

    growths();
    IS(cfdp_flush(from), CFDP_OK);
    IS(growths(), 0);
    while (cfdp_next_frame(from, frame, sizeof frame) == CFDP_OK) {
        IS(growths(), 0);
        if (++count != lost)
            IS(cfdp_receive(to, frame, sizeof frame), CFDP_OK);
        growths();
    }
    IS(growths(), 0);
    IS(count >= lost, 1);
}

/* A file of ten pieces, of which one is asked for again. */
static void sent_without_memory(void)
{
    cfdp_station one = CFDP_STATION_INIT, two = CFDP_STATION_INIT;
    const cfdp_config first = defaults_of(1), second = defaults_of(2);
    uint8_t *octets = (uint8_t *)calloc(10, 1024);
    cfdp_id id;
    int round;

    IS(cfdp_open(&one, &first), CFDP_OK);
    IS(cfdp_open(&two, &second), CFDP_OK);
    IS(cfdp_add(&one, NAME_A, 1, octets, 10 * 1024), CFDP_OK);
    IS(cfdp_put(&one, NAME_A, 1, NAME_B, 1, &id), CFDP_OK);
    for (round = 0; round < 3; round++) {
        polled_without_memory(&one);
        left_without_memory(&one, &two, round == 0 ? 20 : 0);
        polled_without_memory(&two);
        left_without_memory(&two, &one, 0);
    }
    IS(counted(&one).sent.file_data, 10);
    IS(counted(&one).sent.file_data_again != 0, 1);
    IS(cfdp_file_count(&two), 1);
    cfdp_close(&one);
    cfdp_close(&two);
    free(octets);
    IS(live, 0);
}

/* ---- memory refused */

/* A transfer, in which a call may answer that there is no memory, and none anything else. */
static void short_of_memory(void)
{
    cfdp_station one = CFDP_STATION_INIT, two = CFDP_STATION_INIT;
    const cfdp_config first = defaults_of(1), second = defaults_of(2);
    uint8_t frame[264], names[CFDP_NAMES];
    cfdp_indication told;
    cfdp_id id;
    cfdp_answer answer;
    uint64_t now;
    unsigned complete = 0;

    answer = cfdp_open(&one, &first);
    if (answer == CFDP_OK)
        answer = cfdp_open(&two, &second);
    if (answer == CFDP_OK)
        answer = cfdp_add(&one, NAME_A, 1, OCTETS, sizeof OCTETS);
    if (answer == CFDP_OK)
        answer = cfdp_put(&one, NAME_A, 1, NAME_B, 1, &id);
    IS(answer == CFDP_OK || answer == CFDP_NO_MEMORY, 1);
    for (now = 1; now < 300 && answer == CFDP_OK; now++) {
        cfdp_station *from = now % 2 ? &one : &two, *to = now % 2 ? &two : &one;
        cfdp_answer polled;

        IS(cfdp_tick(from, now) != CFDP_CLOSED, 1);
        do
            polled = cfdp_poll(from);
        while (polled == CFDP_OK);
        IS(polled == CFDP_NOTHING || polled == CFDP_NO_MEMORY, 1);
        cfdp_flush(from);
        while (cfdp_next_frame(from, frame, sizeof frame) == CFDP_OK)
            cfdp_receive(to, frame, sizeof frame);
        while (cfdp_next_indication(&one, &told, names, sizeof names) == CFDP_OK)
            complete += told.kind == CFDP_FINISHED && told.condition == 0;
    }
    if (complete != 0)
        IS(cfdp_file_count(&two), 1);
    if (refused_at == 0)
        IS(complete, 1);
    cfdp_close(&one);
    cfdp_close(&two);
    IS(live, 0);
}

int main(void)
{
    long most;

    IS(sizeof(cfdp_station), 2 * sizeof(void *));
    defaults();
    on_a_closed_handle();
    opened_so();
    numbered_past_its_width();
    opened_at_limits();
    transferred();
    at_the_limits();
    transmitted();
    gives_files_up();
    put_into_words();
    counts_of_causes();
    listed();
    overtaken();
    filled();
    strayed();
    decodes();
    refused_pdus();
    guarded(2);
    guarded(3);
    guarded_alone();
    unguarded();
    sent_without_memory();
    asked = 0;
    short_of_memory();
    most = asked;
    IS(most > 10, 1);
    for (refused_at = 1; refused_at <= most; refused_at++) {
        asked = 0;
        short_of_memory();
    }
    printf("%ld growths of memory refused in turn, %d mistakes\n", most, mistakes);
    return mistakes == 0 ? 0 : 1;
}
