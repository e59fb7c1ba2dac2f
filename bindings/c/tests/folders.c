/* Stations with folders: files both ways, over a link that loses one frame of seven, and what is
 * refused.
 *
 *     folders FOLDER
 *
 * FOLDER is empty. Prints what is wrong, and ends with status 1 if something is. */
#define _POSIX_C_SOURCE 200809L
#include "cfdp.h"
#include "checks.h"
#include "files.h"

#include <stdio.h>
#include <stdlib.h>
#include <string.h>
#include <sys/stat.h>
#include <unistd.h>

enum { MOST_FRAME = 2048, LOST = 7, LIMIT = 255, LONG = 5000000, FILESTORE = 4 };

static const long TURNS = 1000000;

/* ---- stations */

static cfdp_config config_of(int number)
{
    cfdp_config config = defaults_of(number);

    config.sends.zone = config.receives.zone = 1100;
    config.eof_limit = config.nak_limit = config.finished_limit = LIMIT;
    return config;
}

static cfdp_answer opened(cfdp_station *station, int number, const char *outbox, const char *inbox)
{
    cfdp_config config = config_of(number);

    return cfdp_open_folders(station, &config, outbox, strlen(outbox), inbox, strlen(inbox));
}

static cfdp_answer put(cfdp_station *station, const char *source, const char *destination)
{
    cfdp_id id;

    return cfdp_put(station, source, strlen(source), destination, strlen(destination), &id);
}

static void pass_frames(cfdp_station *from, cfdp_station *to)
{
    uint8_t frame[MOST_FRAME];
    size_t len = cfdp_frame_len(from);

    while (cfdp_transmit(from, frame, len) == CFDP_OK)
        if (!is_lost(LOST))
            cfdp_receive(to, frame, len);
}

/* All that is due goes over, step by step, by the loop of docs/EMBEDDING.md. How often the outbox
 * failed. */
static int passed_by_steps(cfdp_station *from, cfdp_station *to)
{
    const size_t len = cfdp_frame_len(from);
    uint8_t frame[MOST_FRAME];
    cfdp_answer answer;
    int faults = 0;

    do {
        answer = cfdp_poll(from);
        faults += answer == CFDP_SOURCE_FAULT;
        if (answer == CFDP_NOTHING)
            cfdp_flush(from);
        if (answer != CFDP_OK && answer != CFDP_SOURCE_FAULT)
            while (cfdp_next_frame(from, frame, len) == CFDP_OK)
                cfdp_receive(to, frame, len);
    } while (answer == CFDP_OK || answer == CFDP_FULL || answer == CFDP_SOURCE_FAULT);
    IS(answer, CFDP_NOTHING);
    return faults;
}

/* How many transactions a station said to be over, and the greatest condition of these. */
struct ended {
    int count;
    unsigned condition;
};

static void read_indications(cfdp_station *station, struct ended *ended)
{
    cfdp_indication it;
    uint8_t names[CFDP_NAMES];

    while (cfdp_next_indication(station, &it, names, sizeof names) == CFDP_OK)
        if (it.kind == CFDP_FINISHED) {
            ended->count++;
            if (it.condition > ended->condition)
                ended->condition = it.condition;
        }
}

/* Lets both go on until each has said that so many transactions are over. */
static void run(cfdp_station *one, cfdp_station *two, int count, unsigned condition)
{
    struct ended first = {0, 0}, second = {0, 0};
    static uint64_t now;
    long turn;

    for (turn = 0; turn < TURNS && (first.count < count || second.count < count); turn++) {
        pass_frames(one, two);
        pass_frames(two, one);
        cfdp_tick(one, now);
        cfdp_tick(two, now++);
        read_indications(one, &first);
        read_indications(two, &second);
    }
    IS(first.count, count);
    IS(second.count, count);
    IS(first.condition, condition);
    IS(second.condition, condition);
}

/* ---- what is tested */

static void both_ways(cfdp_station *one, cfdp_station *two)
{
    IS(write_file("out1/none", 0, 1), 1);
    IS(write_file("out1/one", 1, 2), 1);
    IS(write_file("out1/long", LONG, 3), 1);
    IS(write_file("out2/none", 0, 4), 1);
    IS(write_file("out2/one", 1, 5), 1);
    IS(write_file("out2/long", LONG, 6), 1);
    IS(write_file("in2/one", 70, 7), 1);
    IS(put(one, "none", "none"), CFDP_OK);
    IS(put(one, "one", "one"), CFDP_OK);
    IS(put(one, "long", "long"), CFDP_OK);
    IS(put(two, "none", "none"), CFDP_OK);
    IS(put(two, "one", "one"), CFDP_OK);
    IS(put(two, "long", "long"), CFDP_OK);
    run(one, two, 6, 0);
    IS(is_file("in2/none", 0, 1), 1);
    IS(is_file("in2/one", 1, 2), 1);
    IS(is_file("in2/long", LONG, 3), 1);
    IS(is_file("in1/none", 0, 4), 1);
    IS(is_file("in1/one", 1, 5), 1);
    IS(is_file("in1/long", LONG, 6), 1);
    IS(is_there("in1/.part-2-3"), 0);
    IS(is_there("in2/.part-1-3"), 0);
    IS(cfdp_forget_closed(one), CFDP_OK);
    IS(cfdp_forget_closed(two), CFDP_OK);
}

static void puts_refused(cfdp_station *one)
{
    IS(mkdir("out1/folder", 0777), 0);
    IS(symlink("one", "out1/link"), 0);
    IS(put(one, "missing", "a"), CFDP_NO_SUCH_FILE);
    IS(put(one, "../in1/one", "a"), CFDP_BAD_NAME);
    IS(put(one, ".one", "a"), CFDP_BAD_NAME);
    IS(put(one, "", "a"), CFDP_BAD_NAME);
    IS(put(one, "folder", "a"), CFDP_SOURCE_FAULT);
    IS(put(one, "link", "a"), CFDP_SOURCE_FAULT);
    IS(rmdir("out1/folder"), 0);
    IS(unlink("out1/link"), 0);
}

static void memory_refused(cfdp_station *one)
{
    cfdp_file_info info = {7, 8};
    uint8_t room[CFDP_NAME] = {1};

    IS(cfdp_add(one, "a", 1, "b", 1), CFDP_IN_FOLDERS);
    IS(cfdp_remove_source(one, "a", 1), CFDP_IN_FOLDERS);
    IS(cfdp_file_count(one), 0);
    IS(cfdp_file(one, 0, &info, room, sizeof room), CFDP_IN_FOLDERS);
    IS(cfdp_read_file(one, 0, 0, room, 1), CFDP_IN_FOLDERS);
    IS(cfdp_remove_file(one, "one", 3), CFDP_IN_FOLDERS);
    IS(info.size, 8);
    IS(room[0], 1);
    IS(is_file("in1/one", 1, 5), 1);
}

static void opening_refused(cfdp_station *one)
{
    cfdp_station s = CFDP_STATION_INIT;
    cfdp_config config = config_of(1);

    IS(opened(one, 1, "out1", "in1"), CFDP_ALREADY_OPEN);
    IS(opened(&s, 1, "nowhere", "in3"), CFDP_NO_OUTBOX);
    IS(opened(&s, 1, "", "in3"), CFDP_NO_OUTBOX);
    IS(opened(&s, 1, "\xff", "in3"), CFDP_NO_OUTBOX);
    IS(opened(&s, 1, "out1/one", "in3"), CFDP_NO_OUTBOX);
    IS(opened(&s, 1, "out1", "nowhere"), CFDP_NO_INBOX);
    IS(opened(&s, 1, "out1", "out1/one"), CFDP_NO_INBOX);
    IS(opened(&s, 1, "out1", "in1"), CFDP_INBOX_IN_USE);
    config.segment = 0;
    IS(cfdp_open_folders(&s, &config, "out1", 4, "in3", 3), CFDP_BAD_SEGMENT);
    IS(s.is_open, 0);
    cfdp_close(&s);
}

/* A part file of a station that died is removed; what only looks like one stays. */
static void parts_removed(void)
{
    cfdp_station s = CFDP_STATION_INIT;

    IS(write_file("in3/.part-1-7", 3, 8), 1);
    IS(write_file("in3/.part-x", 3, 8), 1);
    IS(opened(&s, 1, "out1", "in3"), CFDP_OK);
    IS(is_there("in3/.part-1-7"), 0);
    IS(is_there("in3/.part-x"), 1);
    cfdp_close(&s);
    IS(opened(&s, 1, "out1", "in3"), CFDP_OK);
    cfdp_close(&s);
}

/* A name that no file may have, a file that finds no room on the device, and one that gets shorter
 * as it is sent. */
static void failures(cfdp_station *one, cfdp_station *two)
{
    uint8_t frame[MOST_FRAME];
    rlim_t limit;

    IS(put(one, "one", "../again"), CFDP_OK);
    run(one, two, 1, FILESTORE);
    IS(is_there("again"), 0);

    limit = limit_file_size(100000);
    IS(put(one, "long", "again"), CFDP_OK);
    run(one, two, 1, FILESTORE);
    limit_file_size(limit);
    IS(is_there("in2/again"), 0);
    IS(cfdp_forget_closed(one), CFDP_OK);
    IS(cfdp_forget_closed(two), CFDP_OK);

    IS(put(one, "long", "again"), CFDP_OK);
    IS(cfdp_transmit(one, frame, cfdp_frame_len(one)), CFDP_OK);
    IS(cfdp_receive(two, frame, cfdp_frame_len(one)), CFDP_OK);
    IS(truncate("out1/long", LONG / 2), 0);
    run(one, two, 1, FILESTORE);
    IS(is_there("in2/again"), 0);
}

/* A file that gets shorter ends its transaction, and the one behind it goes on in the same loop. */
static void goes_on(cfdp_station *one, cfdp_station *two)
{
    struct ended ended = {0, 0}, received = {0, 0};

    IS(cfdp_forget_closed(one), CFDP_OK);
    IS(cfdp_forget_closed(two), CFDP_OK);
    IS(put(one, "long", "again"), CFDP_OK);
    IS(put(one, "one", "behind"), CFDP_OK);
    IS(cfdp_poll(one), CFDP_OK);
    IS(truncate("out1/long", LONG / 4), 0);
    IS(passed_by_steps(one, two), 1);
    IS(passed_by_steps(two, one), 0);
    IS(passed_by_steps(one, two), 0);
    read_indications(one, &ended);
    read_indications(two, &received);
    IS(ended.count, 2);
    IS(received.count, 2);
    IS(ended.condition, FILESTORE);
    IS(is_there("in2/again"), 0);
    IS(is_file("in2/behind", 1, 2), 1);
}

/* A link in the place of a part file that isn't open any more: its file fails, those beside it
 * don't, and nothing is written behind the link. A station keeps 16 part files open. */
static void link_refused(cfdp_station *one, cfdp_station *two)
{
    enum { FILES = 17, LEN = 4000, KIND = 20 };
    uint8_t frame[MOST_FRAME];
    char path[64], *name = path + strlen("out1/");
    cfdp_id id = {0, 0}, first = {0, 0};
    unsigned at;

    IS(cfdp_forget_closed(one), CFDP_OK);
    IS(cfdp_forget_closed(two), CFDP_OK);
    IS(write_file("victim", 5, 9), 1);
    for (at = 0; at < FILES; at++) {
        snprintf(path, sizeof path, "out1/many%u", at);
        IS(write_file(path, LEN, KIND + at), 1);
        IS(cfdp_put(one, name, strlen(name), name, strlen(name), &id), CFDP_OK);
        if (at == 0)
            first = id;
    }
    snprintf(path, sizeof path, "in2/.part-1-%llu", (unsigned long long)id.number);
    while (!is_there(path) && cfdp_transmit(one, frame, cfdp_frame_len(one)) == CFDP_OK)
        cfdp_receive(two, frame, cfdp_frame_len(one));
    IS(is_there(path), 1);
    snprintf(path, sizeof path, "in2/.part-1-%llu", (unsigned long long)first.number);
    IS(unlink(path), 0);
    IS(symlink("../victim", path), 0);
    run(one, two, FILES, FILESTORE);
    IS(is_file("victim", 5, 9), 1);
    IS(is_there("in2/many0"), 0);
    for (at = 1; at < FILES; at++) {
        snprintf(path, sizeof path, "in2/many%u", at);
        IS(is_file(path, LEN, KIND + at), 1);
    }
}

int main(int count, char **words)
{
    cfdp_station one = CFDP_STATION_INIT, two = CFDP_STATION_INIT;

    if (count != 2 || chdir(words[1]) != 0)
        return 2;
    IS(make_folders(), 1);
    IS(opened(&one, 1, "out1", "in1"), CFDP_OK);
    IS(opened(&two, 2, "out2", "in2"), CFDP_OK);
    both_ways(&one, &two);
    puts_refused(&one);
    memory_refused(&one);
    opening_refused(&one);
    parts_removed();
    failures(&one, &two);
    goes_on(&one, &two);
    link_refused(&one, &two);
    cfdp_close(&one);
    cfdp_close(&two);
    return mistakes != 0;
}
