/* Stations that stay up: they let go of what is over, and their memory follows what is open.
 *
 *     forgetting [ROUNDS]
 *
 * Prints what is wrong, and ends with status 1 if something is. With a number of rounds no table
 * is filled, which takes minutes under valgrind. tests/bindings.py builds and runs it, as C and as
 * C++. */
#include "cfdp.h"
#include "cfdp_hooks.h"
#include "checks.h"

#include <stdio.h>
#include <stdlib.h>
#include <string.h>

/* ---- memory whose octets are counted: how many a block has stands in front of it. What would make
 * them more than `most` is refused. */

#ifdef __cplusplus
extern "C" {
#endif

enum { FRONT = 16 };

static size_t live;
static size_t most = SIZE_MAX;
static char nothing;

/* Whether a block may be given beside these octets. */
static bool fits(size_t others, size_t size, size_t align)
{
    return align <= FRONT && others <= most && size <= most - others;
}

static rattle_block counted(void *front, size_t size)
{
    rattle_block it;

    it.is_there = front != NULL;
    it.at = front != NULL ? (uint8_t *)front + FRONT : (void *)&nothing;
    if (front != NULL) {
        memcpy(front, &size, sizeof size);
        live += size;
    }
    return it;
}

static size_t size_at(void *at)
{
    size_t size;

    memcpy(&size, (uint8_t *)at - FRONT, sizeof size);
    return size;
}

rattle_block rattle_alloc(size_t size, size_t align)
{
    return counted(fits(live, size, align) ? malloc(FRONT + size) : NULL, size);
}

rattle_block rattle_realloc(void *at, size_t old_size, size_t size, size_t align)
{
    const size_t before = size_at(at);
    void *front = NULL;

    (void)old_size;
    if (fits(live - before, size, align))
        front = realloc((uint8_t *)at - FRONT, FRONT + size);
    if (front != NULL)
        live -= before;
    return counted(front, size);
}

void rattle_dealloc(void *at)
{
    live -= size_at(at);
    free((uint8_t *)at - FRONT);
}

#ifdef __cplusplus
}
#endif

/* ---- two stations and the link between them */

enum { MOST_RECORDS = 4096 };

static const uint8_t NAME[] = {'a'};

/* Station 2 sends a Finished again after 1 unit of time, once, and then abandons what it is of. */
static cfdp_config config_of(int number)
{
    cfdp_config config = defaults_of(number);

    if (number == 2) {
        config.finished_time = 1;
        config.finished_limit = 1;
        config.on_ack_limit = 3;
    }
    return config;
}

static void open_station(cfdp_station *station, const cfdp_config *config)
{
    make_closed(station);
    IS(cfdp_open(station, config), CFDP_OK);
}

/* Station 1, whose first put gets a number. The octets of its file are that number, too. */
static void open_first(cfdp_station *one, uint64_t number)
{
    cfdp_config config = config_of(1);

    config.first_number = number;
    open_station(one, &config);
    IS(cfdp_add(one, NAME, sizeof NAME, &number, sizeof number), CFDP_OK);
}

static void open_second(cfdp_station *two)
{
    const cfdp_config config = config_of(2);

    open_station(two, &config);
}

static void open_both(cfdp_station *one, cfdp_station *two)
{
    open_first(one, 1);
    open_second(two);
}

static void close_both(cfdp_station *one, cfdp_station *two)
{
    cfdp_close(one);
    cfdp_close(two);
    IS(live, 0);
}

static cfdp_answer put(cfdp_station *station, cfdp_id *id)
{
    return cfdp_put(station, NAME, sizeof NAME, NAME, sizeof NAME, id);
}

/* What is due is polled, as far as it finds room. What the last poll answered. */
static cfdp_answer fill(cfdp_station *from)
{
    cfdp_answer polled;

    do
        polled = cfdp_poll(from);
    while (polled == CFDP_OK);
    cfdp_flush(from);
    return polled;
}

/* All that was polled goes over, or is lost where nobody takes it. How many frames that was. */
static unsigned hand_over(cfdp_station *from, cfdp_station *to)
{
    uint8_t frame[264];
    unsigned frames = 0;

    for (; cfdp_next_frame(from, frame, sizeof frame) == CFDP_OK; frames++)
        if (to != NULL)
            cfdp_receive(to, frame, sizeof frame);
    return frames;
}

/* The same of all that is due. */
static unsigned pass(cfdp_station *from, cfdp_station *to)
{
    cfdp_answer polled;
    unsigned frames = 0;

    do {
        polled = fill(from);
        frames += hand_over(from, to);
    } while (polled == CFDP_FULL);
    IS(polled, CFDP_NOTHING);
    return frames;
}

/* How many transactions a station tells that ended so. All it told is let go. */
static unsigned ended_with(cfdp_station *station, uint8_t condition, uint8_t status)
{
    cfdp_indication told;
    uint8_t names[CFDP_NAMES];
    unsigned count = 0;

    while (cfdp_next_indication(station, &told, names, sizeof names) == CFDP_OK)
        count += told.kind == CFDP_FINISHED && told.condition == condition && told.status == status;
    return count;
}

/* Those that went well: the file is retained. */
static unsigned ended_well(cfdp_station *station)
{
    return ended_with(station, 0, 2);
}

static uint8_t was_forgotten(cfdp_station *station, cfdp_id id)
{
    uint8_t was = 7;

    IS(cfdp_was_forgotten(station, &id, &was), CFDP_OK);
    return was;
}

/* ---- the calls */

static void on_a_closed_handle(void)
{
    cfdp_station s = CFDP_STATION_INIT;
    const cfdp_id id = {1, 1};
    uint8_t was = 7;

    IS(cfdp_forget(&s, &id), CFDP_CLOSED);
    IS(cfdp_forget_closed(&s), CFDP_CLOSED);
    IS(cfdp_was_forgotten(&s, &id, &was), CFDP_CLOSED);
    IS(was, 7);
}

/* A record goes once its transaction is over and all of it that was due is sent. */
static void forgets(void)
{
    cfdp_station one, two;
    cfdp_id id, other = {1, 9};

    open_both(&one, &two);
    IS(put(&one, &id), CFDP_OK);
    IS(cfdp_forget(&one, &other), CFDP_UNKNOWN);
    IS(cfdp_forget(&one, &id), CFDP_STILL_OPEN);
    pass(&one, &two);
    IS(cfdp_forget(&two, &id), CFDP_STILL_OPEN);
    pass(&two, &one);
    IS(cfdp_forget(&one, &id), CFDP_ANSWER_DUE);
    IS(cfdp_forget_closed(&one), CFDP_OK);
    IS(was_forgotten(&one, id), 0);
    pass(&one, &two);
    IS(cfdp_forget(&one, &id), CFDP_OK);
    IS(cfdp_forget_closed(&two), CFDP_OK);
    IS(was_forgotten(&one, id), 1);
    IS(was_forgotten(&two, id), 1);
    IS(was_forgotten(&two, other), 0);
    IS(cfdp_forget(&one, &id), CFDP_UNKNOWN);
    IS(cfdp_cancel(&two, &id), CFDP_UNKNOWN);
    IS(ended_well(&one), 1);
    IS(ended_well(&two), 1);
    close_both(&one, &two);
}

/* All that both have to say of what is open goes over. */
static void exchange(cfdp_station *one, cfdp_station *two)
{
    pass(one, two);
    pass(two, one);
    pass(one, two);
}

/* Where there is no memory to keep its number, a record stays. */
static void short_of_memory(void)
{
    cfdp_station one, two;
    cfdp_id id;

    open_both(&one, &two);
    IS(put(&one, &id), CFDP_OK);
    exchange(&one, &two);
    most = 0;
    IS(cfdp_forget(&one, &id), CFDP_NO_MEMORY);
    IS(cfdp_forget_closed(&two), CFDP_NO_MEMORY);
    most = SIZE_MAX;
    IS(was_forgotten(&one, id), 0);
    IS(cfdp_cancel(&one, &id), CFDP_ALREADY_CLOSED);
    IS(cfdp_forget(&one, &id), CFDP_OK);
    IS(cfdp_forget_closed(&two), CFDP_OK);
    IS(was_forgotten(&two, id), 1);
    close_both(&one, &two);
}

/* There is room for one put more than there are records, once those are forgotten. */
static void makes_room(void)
{
    cfdp_station one, two;
    cfdp_id id;
    unsigned count;

    open_both(&one, &two);
    for (count = 0; count < MOST_RECORDS; count++)
        IS(put(&one, &id), CFDP_OK);
    IS(put(&one, &id), CFDP_TABLE_FULL);
    exchange(&one, &two);
    IS(ended_well(&one), MOST_RECORDS);
    IS(ended_well(&two), MOST_RECORDS);
    IS(put(&one, &id), CFDP_TABLE_FULL);
    for (id.number = 1; id.number <= MOST_RECORDS; id.number++)
        IS(cfdp_forget(&one, &id), CFDP_OK);
    IS(cfdp_forget_closed(&two), CFDP_OK);
    IS(put(&one, &id), CFDP_OK);
    IS(id.number, MOST_RECORDS + 1);
    exchange(&one, &two);
    IS(ended_well(&one), 1);
    IS(ended_well(&two), 1);
    close_both(&one, &two);
}

/* Removes each published file. How many there were. */
static size_t remove_all(cfdp_station *station)
{
    const size_t count = cfdp_file_count(station);
    cfdp_file_info info;
    uint8_t name[CFDP_NAME];
    size_t left;

    for (left = count; left != 0; left--) {
        IS(cfdp_file(station, 0, &info, name, sizeof name), CFDP_OK);
        IS(cfdp_remove_file(station, name, info.name_len), CFDP_OK);
    }
    IS(cfdp_file_count(station), 0);
    return count;
}

/* Some puts at a time, more of them than there are records where there are rounds enough, each
 * under a name of its own, and each second one cancelled where that is said. What is over is
 * forgotten, and what was received is removed: from the second round on no more memory is taken. */
static void stays_small(unsigned rounds, bool cancels)
{
    enum { PUTS = 8 };
    const unsigned complete = cancels ? PUTS / 2 : PUTS;
    cfdp_station one, two;
    cfdp_id id = {0, 0};
    size_t taken = 0;
    unsigned round, count;

    open_both(&one, &two);
    for (round = 1; round <= rounds; round++) {
        for (count = 0; count < PUTS; count++) {
            const uint64_t own = id.number;

            IS(cfdp_put(&one, NAME, sizeof NAME, &own, sizeof own, &id), CFDP_OK);
            if (cancels && count % 2 == 1)
                IS(cfdp_cancel(&one, &id), CFDP_OK);
        }
        exchange(&one, &two);
        IS(ended_well(&one), complete);
        IS(ended_well(&two), complete);
        IS(cfdp_forget_closed(&one), CFDP_OK);
        IS(cfdp_forget_closed(&two), CFDP_OK);
        IS(remove_all(&two), complete);
        if (round == 2)
            taken = live;
    }
    IS(id.number, rounds * PUTS);
    if (rounds > 2)
        IS(live, taken);
    close_both(&one, &two);
}

/* What a closed sender takes whose names have so many octets. */
static size_t closed_sender(size_t name_len)
{
    static const uint8_t name[CFDP_NAME] = {0};
    cfdp_station one;
    cfdp_id id;
    uint64_t deadline;
    size_t before, taken;

    open_first(&one, 1);
    IS(cfdp_add(&one, name, name_len, name, 1), CFDP_OK);
    before = live;
    IS(cfdp_put(&one, name, name_len, name, name_len, &id), CFDP_OK);
    /* Nobody hears that it is cancelled, so it is abandoned in the end. */
    IS(cfdp_cancel(&one, &id), CFDP_OK);
    for (pass(&one, NULL); cfdp_next_timeout(&one, &deadline) == CFDP_OK; pass(&one, NULL))
        IS(cfdp_tick(&one, deadline), CFDP_OK);
    ended_well(&one);
    taken = live - before;
    IS(cfdp_forget(&one, &id), CFDP_OK);
    cfdp_close(&one);
    return taken;
}

/* A sender that is closed keeps no names. */
static void keeps_no_names(void)
{
    IS(closed_sender(CFDP_NAME), closed_sender(1));
    IS(live, 0);
}

/* Forgets with as little memory as it can be done with, up to a limit of all that is given: it is
 * refused with each octet less, and the record stays. */
static cfdp_answer forget_within(cfdp_station *station, cfdp_id id, size_t limit)
{
    cfdp_answer answer = CFDP_NO_MEMORY;

    for (most = live; answer == CFDP_NO_MEMORY && most <= limit; most++) {
        answer = cfdp_forget(station, &id);
        IS(was_forgotten(station, id), answer == CFDP_OK);
    }
    most = SIZE_MAX;
    return answer;
}

/* The octets of the one file that is published, as the number that they are. */
static uint64_t only_file(cfdp_station *station)
{
    cfdp_file_info info = {0, 0};
    uint8_t name[CFDP_NAME];
    uint64_t number = 0;

    IS(cfdp_file_count(station), 1);
    IS(cfdp_file(station, 0, &info, name, sizeof name), CFDP_OK);
    IS(info.size, sizeof number);
    IS(cfdp_read_file(station, 0, 0, (uint8_t *)&number, sizeof number), CFDP_OK);
    return number;
}

/* A file is whole at both stations, and its sender is closed. */
static void ends_well(cfdp_station *one, cfdp_station *two, uint64_t number)
{
    IS(ended_well(one), 1);
    IS(ended_well(two), 1);
    IS(only_file(two), number);
    cfdp_close(one);
}

/* A sender that is opened for one transaction, of this number. */
static void receives(cfdp_station *two, uint64_t number)
{
    cfdp_station one;
    cfdp_id id;

    open_first(&one, number);
    IS(put(&one, &id), CFDP_OK);
    IS(id.number, number);
    exchange(&one, two);
    ends_well(&one, two, number);
}

/* How many frames found no memory. */
static uint64_t lacked_memory(cfdp_station *station)
{
    cfdp_counts counts;

    IS(cfdp_counters(station, &counts), CFDP_OK);
    return counts.frames.no_memory;
}

/* The same, but there is no memory for the file: no frame needs any, so its data come to the inbox,
 * which can't take them. Both stations are told so, and nothing is published. */
static void is_rejected(cfdp_station *two, uint64_t number)
{
    cfdp_station one;
    cfdp_id id;

    open_first(&one, number);
    IS(put(&one, &id), CFDP_OK);
    IS(fill(&one), CFDP_NOTHING);
    most = live;
    IS(hand_over(&one, two) != 0, 1);
    IS(lacked_memory(two), 0);
    most = SIZE_MAX;
    exchange(two, &one);
    IS(ended_with(&one, 4, 1), 1);
    IS(ended_with(two, 4, 1), 1);
    IS(only_file(two), number - 2);
    cfdp_close(&one);
}

/* Of all numbers each second one was forgotten, up to a last one. */
static void forgot_up_to(cfdp_station *two, uint64_t last)
{
    cfdp_id id = {1, 0};

    for (; id.number <= last + 2; id.number++)
        IS(was_forgotten(two, id), id.number <= last && id.number % 2 == 1);
}

/* While there is no memory for its number, a record stays, and what was forgotten stays so. */
static void is_refused(cfdp_station *two, cfdp_id id, size_t limit)
{
    most = limit;
    IS(cfdp_forget(two, &id), CFDP_NO_MEMORY);
    IS(cfdp_forget_closed(two), CFDP_NO_MEMORY);
    IS(cfdp_cancel(two, &id), CFDP_ALREADY_CLOSED);
    forgot_up_to(two, id.number - 2);
    most = SIZE_MAX;
}

/* A peer that skips each second number costs a range for each, until there is no memory for one
 * more: room for some ranges lasts for as many rounds at least, and not for ever. The station goes
 * on without, and forgets what is left once there is memory. */
static void skips_numbers(unsigned rounds)
{
    /* A range takes its two numbers, of 8 octets each, and not more than EACH; one call may ask for
     * AT_ONCE. */
    enum { LEAST = 16, EACH = 64, AT_ONCE = 1024 };
    const size_t room = AT_ONCE + rounds * (size_t)EACH;
    cfdp_station two;
    cfdp_id id = {1, 1};
    cfdp_answer answer = CFDP_OK;
    size_t limit, count;

    open_second(&two);
    receives(&two, id.number);
    IS(cfdp_forget(&two, &id), CFDP_OK);
    limit = live + room;
    for (count = 0; answer == CFDP_OK && count <= room / LEAST; count++) {
        id.number += 2;
        receives(&two, id.number);
        answer = forget_within(&two, id, limit);
    }
    IS(answer, CFDP_NO_MEMORY);
    IS(count > rounds, 1);
    is_refused(&two, id, limit);
    is_rejected(&two, id.number + 2);
    is_refused(&two, id, limit);
    IS(cfdp_forget(&two, &id), CFDP_OK);
    forgot_up_to(&two, id.number);
    receives(&two, id.number + 4);
    IS(cfdp_forget_closed(&two), CFDP_OK);
    forgot_up_to(&two, id.number + 4);
    cfdp_close(&two);
    IS(live, 0);
}

/* The sender asks for the end of a transaction that the receiver has forgotten. */
static void late_eof(void)
{
    cfdp_station one, two;
    cfdp_id id;
    uint64_t now, deadline = 0;

    open_both(&one, &two);
    IS(put(&one, &id), CFDP_OK);
    pass(&one, &two);
    for (now = 1; now <= 2; now++) {
        IS(pass(&two, NULL) != 0, 1);
        IS(cfdp_forget(&two, &id), CFDP_STILL_OPEN);
        IS(cfdp_tick(&two, now), CFDP_OK);
    }
    IS(cfdp_forget(&two, &id), CFDP_OK);
    IS(ended_well(&two), 1);
    IS(cfdp_next_timeout(&one, &deadline), CFDP_OK);
    IS(cfdp_tick(&one, deadline), CFDP_OK);
    IS(pass(&one, &two) != 0, 1);
    IS(cfdp_cancel(&two, &id), CFDP_UNKNOWN);
    IS(pass(&two, &one) != 0, 1);
    /* nothing is waited for any more, but that nothing comes */
    IS(cfdp_next_timeout(&one, &deadline), CFDP_OK);
    IS(deadline, 110);
    IS(ended_well(&two), 0);
    IS(cfdp_file_count(&two), 1);
    close_both(&one, &two);
}

/* The receiver asks for the end of a transaction that the sender has forgotten. */
static void late_finished(void)
{
    cfdp_station one, two;
    cfdp_id id;

    open_both(&one, &two);
    IS(put(&one, &id), CFDP_OK);
    pass(&one, &two);
    pass(&two, &one);
    IS(pass(&one, NULL) != 0, 1);
    IS(cfdp_forget(&one, &id), CFDP_OK);
    IS(cfdp_tick(&two, 1), CFDP_OK);
    IS(pass(&two, &one) != 0, 1);
    IS(cfdp_cancel(&one, &id), CFDP_UNKNOWN);
    IS(pass(&one, &two) != 0, 1);
    IS(cfdp_forget(&two, &id), CFDP_OK);
    IS(ended_well(&one), 1);
    IS(ended_well(&two), 1);
    close_both(&one, &two);
}

int main(int argc, char **argv)
{
    on_a_closed_handle();
    forgets();
    short_of_memory();
    keeps_no_names();
    if (argc == 1)
        makes_room();
    stays_small(argc == 1 ? 600 : (unsigned)strtoul(argv[1], NULL, 10), false);
    stays_small(argc == 1 ? 2500 : (unsigned)strtoul(argv[1], NULL, 10), true);
    skips_numbers(argc == 1 ? 1000 : (unsigned)strtoul(argv[1], NULL, 10));
    late_eof();
    late_finished();
    printf("%d mistakes\n", mistakes);
    return mistakes == 0 ? 0 : 1;
}
