/* How much stack each call takes, in a transfer of a file that loses frames.
 *
 *     stack [FOLDER]
 *
 * FOLDER is empty; with it a second transfer goes from folder to folder, and a third one between
 * stations that keep journals and are opened once more in its midst. Prints the most that each
 * call took, with its caller's frame, and ends with status 1 where one took more than cfdp.h says.
 * tests/bindings.py builds and runs it. */
#define _POSIX_C_SOURCE 200809L
#include "cfdp.h"
#include "checks.h"

#include <stdio.h>
#include <stdlib.h>
#include <string.h>
#include <sys/stat.h>
#include <unistd.h>

enum { SAID = 32 * 1024, SAID_OF_FOLDERS = 64 * 1024, PAINTED = 128 * 1024 };
enum { FILE_LEN = 100 * 1000, LOST = 7, CALLS = 64, MEASURED = 38 };

/* ---- the stack below: filled, and looked at later. Both functions and the calls between them are
 * called from one place, so that they have the same octets of it. */

__attribute__((noinline)) static uintptr_t paint(void)
{
    volatile uint8_t room[PAINTED];
    size_t at;

    for (at = 0; at < PAINTED; at++)
        room[at] = 0xA5;
    return (uintptr_t)room;
}

__attribute__((noinline)) static size_t depth(uintptr_t lowest)
{
    const volatile uint8_t *room = (const volatile uint8_t *)lowest;
    size_t at = 0;

    while (at < PAINTED && room[at] == 0xA5)
        at++;
    return PAINTED - at;
}

typedef struct call {
    const char *name;
    size_t most;
} call;

static call calls[CALLS];

static void note(const char *name, size_t octets)
{
    call *it = calls;

    while (it->name != NULL && strcmp(it->name, name) != 0)
        it++;
    it->name = name;
    it->most = octets > it->most ? octets : it->most;
}

#define TAKES(name, ...)             \
    do {                             \
        const uintptr_t at = paint(); \
        __VA_ARGS__;                 \
        note(#name, depth(at));      \
    } while (0)

/* ---- a transfer */

static const uint8_t NAME[] = {'a'}, OUT[] = {'o'}, IN[] = {'i'}, BACK[] = {'b'};
static const uint8_t JOURNAL_1[] = {'1'}, JOURNAL_2[] = {'2'};
static uint8_t octets[FILE_LEN], copy[FILE_LEN], frame[2048], names[CFDP_NAMES];
static bool in_folders, with_journals;

static void open_one(cfdp_station *station, const cfdp_config *config, const uint8_t *inbox)
{
    cfdp_answer answer;

    make_closed(station);
    if (with_journals)
        TAKES(cfdp_open_folders_journal,
              answer = cfdp_open_folders_journal(station, config, OUT, 1, inbox, 1,
                                                 config->entity == 1 ? JOURNAL_1 : JOURNAL_2, 1,
                                                 1));
    else if (in_folders)
        TAKES(cfdp_open_folders, answer = cfdp_open_folders(station, config, OUT, 1, inbox, 1));
    else
        TAKES(cfdp_open, answer = cfdp_open(station, config));
    if (answer != CFDP_OK)
        exit(2);
}

static void open_both(cfdp_station *one, cfdp_station *two)
{
    cfdp_config config;
    cfdp_link sends;

    config.size = sizeof config;
    TAKES(cfdp_fill_defaults, cfdp_fill_defaults(&config));
    config.segment = 4096;
    config.pdu_crc = 1;
    config.checksum = 3;
    config.sends.control_field = config.sends.error_control = 1;
    config.receives.control_field = config.receives.error_control = 1;
    config.eof_limit = config.nak_limit = config.finished_limit = 255;
    config.on_inactivity = 2;
    open_one(one, &config, BACK);
    sends = config.sends;
    config.sends = config.receives;
    config.receives = sends;
    config.entity = 2, config.peer = 1;
    open_one(two, &config, IN);
}

/* All that is due of a station, but what is lost. */
static void pass(cfdp_station *from, cfdp_station *to)
{
    cfdp_answer answer = CFDP_OK;
    size_t len;

    TAKES(cfdp_frame_len, len = cfdp_frame_len(from));
    while (answer == CFDP_OK) {
        TAKES(cfdp_transmit, answer = cfdp_transmit(from, frame, len));
        if (answer == CFDP_OK && !is_lost(LOST))
            TAKES(cfdp_receive, cfdp_receive(to, frame, len));
    }
    TAKES(cfdp_poll, cfdp_poll(from));
    TAKES(cfdp_flush, cfdp_flush(from));
    TAKES(cfdp_next_frame, cfdp_next_frame(from, frame, len));
}

static void look_at(cfdp_station *station, const cfdp_id *id)
{
    cfdp_counts counts;
    cfdp_indication told;
    cfdp_transaction it;
    cfdp_journal_info journal;
    cfdp_answer answer = CFDP_OK;
    uint64_t deadline;
    uint32_t control;
    size_t cursor = 0;
    uint8_t was;

    while (answer == CFDP_OK)
        TAKES(cfdp_next_indication,
              answer = cfdp_next_indication(station, &told, names, sizeof names));
    TAKES(cfdp_counters, cfdp_counters(station, &counts));
    TAKES(cfdp_next_timeout, cfdp_next_timeout(station, &deadline));
    TAKES(cfdp_was_forgotten, cfdp_was_forgotten(station, id, &was));
    TAKES(cfdp_frames_ahead, cfdp_frames_ahead(station));
    TAKES(cfdp_transactions, cfdp_transactions(station, &cursor, &it));
    TAKES(cfdp_records_left, cfdp_records_left(station));
    TAKES(cfdp_control_field, cfdp_control_field(station, true, &control));
    TAKES(cfdp_journal_state, cfdp_journal_state(station, &journal));
    TAKES(cfdp_next_unheard, cfdp_next_unheard(station, &told));
}

/* What no station has to do with. */
static void look_at_none(void)
{
    static const uint8_t prompt[] = {0x20, 0, 2, 0x13, 0, 1, 0, 0, 0, 1, 0, 2, 9, 0x80};
    static uint8_t frame[264], sealed[264 + 26];
    cfdp_security security;
    cfdp_pdu pdu;
    cfdp_answer answer;

    memset(&security, 0, sizeof security);
    security.number = 1;
    security.mac_len = 16;
    TAKES(cfdp_seal_frame,
          answer = cfdp_seal_frame(&security, frame, sizeof frame, 0, sealed, sizeof sealed));
    if (answer != CFDP_OK)
        exit(4);
    security.number = 0;
    TAKES(cfdp_open_frame,
          answer = cfdp_open_frame(&security, sealed, sizeof sealed, frame, sizeof frame));
    if (answer != CFDP_OK)
        exit(4);
    TAKES(cfdp_decode, answer = cfdp_decode(prompt, sizeof prompt, &pdu));
    TAKES(cfdp_version, cfdp_version());
    if (answer != CFDP_OK)
        exit(4);
}

static void read_file(cfdp_station *two)
{
    cfdp_file_info info = {0, 0};

    TAKES(cfdp_file_count, cfdp_file_count(two));
    TAKES(cfdp_file, cfdp_file(two, 0, &info, names, sizeof names));
    TAKES(cfdp_read_file, cfdp_read_file(two, 0, 0, copy, info.size));
    if (!in_folders && (info.size != FILE_LEN || memcmp(copy, octets, FILE_LEN) != 0))
        exit(3);
    TAKES(cfdp_remove_file, cfdp_remove_file(two, NAME, sizeof NAME));
}

/* Whether two stations are done, each with all that it knows of. */
static bool is_over(const cfdp_station *one, const cfdp_station *two)
{
    const cfdp_station *both[2];
    cfdp_transaction it = {{0, 0}, 0};
    size_t at;

    both[0] = one, both[1] = two;
    for (at = 0; at < 2; at++) {
        size_t cursor = 0;

        if (cfdp_transactions(both[at], &cursor, &it) != CFDP_OK || it.phase != CFDP_OVER)
            return false;
    }
    return true;
}

static void transfer(void)
{
    cfdp_station one, two;
    cfdp_id id = {0, 0};
    cfdp_answer answer;
    uint64_t now;

    open_both(&one, &two);
    TAKES(cfdp_add, cfdp_add(&one, NAME, sizeof NAME, octets, sizeof octets));
    TAKES(cfdp_put, cfdp_put(&one, NAME, sizeof NAME, NAME, sizeof NAME, &id));
    TAKES(cfdp_prompt, cfdp_prompt(&one, &id, true));
    TAKES(cfdp_suspend, cfdp_suspend(&one, &id));
    TAKES(cfdp_resume, cfdp_resume(&one, &id));
    TAKES(cfdp_set_control_field, cfdp_set_control_field(&one, 7));
    for (now = 1; !is_over(&one, &two) && now < 100000; now++) {
        TAKES(cfdp_tick, cfdp_tick(&one, now));
        TAKES(cfdp_tick, cfdp_tick(&two, now));
        pass(&one, &two);
        if (with_journals && now == 1) {
            TAKES(cfdp_close, cfdp_close(&one));
            TAKES(cfdp_close, cfdp_close(&two));
            open_both(&one, &two);
        }
        pass(&two, &one);
    }
    read_file(&two);
    look_at(&one, &id);
    look_at(&two, &id);
    TAKES(cfdp_cancel, answer = cfdp_cancel(&two, &id));
    TAKES(cfdp_forget, answer = cfdp_forget(&one, &id));
    TAKES(cfdp_forget_closed, answer = cfdp_forget_closed(&one));
    TAKES(cfdp_remove_source, answer = cfdp_remove_source(&one, NAME, sizeof NAME));
    (void)answer;
    TAKES(cfdp_close, cfdp_close(&one));
    TAKES(cfdp_close, cfdp_close(&two));
}

/* The transfer, and what it took; whether each call took at most what is said. */
static bool is_measured(const char *where, size_t said)
{
    size_t at, most = 0;

    memset(calls, 0, sizeof calls);
    transfer();
    look_at_none();
    printf("%s:\n", where);
    for (at = 0; calls[at].name != NULL; at++) {
        printf("%-22s %6lu octets of stack\n", calls[at].name, (unsigned long)calls[at].most);
        most = calls[at].most > most ? calls[at].most : most;
    }
    return most <= said && at == MEASURED;
}

/* Two folders to receive into, and one with the file. */
static bool has_made_folders(const char *folder)
{
    FILE *file;
    bool is_written;

    if (chdir(folder) != 0 || mkdir("o", 0777) != 0 || mkdir("i", 0777) != 0
        || mkdir("b", 0777) != 0)
        return false;
    file = fopen("o/a", "wb");
    is_written = file != NULL && fwrite(octets, 1, FILE_LEN, file) == FILE_LEN;
    return file != NULL && fclose(file) == 0 && is_written;
}

static bool is_in_the_inbox(void)
{
    FILE *file = fopen("i/a", "rb");
    size_t len = file != NULL ? fread(copy, 1, FILE_LEN, file) : 0;

    if (file != NULL)
        fclose(file);
    return len == FILE_LEN && memcmp(copy, octets, FILE_LEN) == 0;
}

int main(int count, char **words)
{
    bool is_good;

    fill_octets(octets, sizeof octets);
    is_good = is_measured("files in memory", SAID);
    if (count > 1) {
        in_folders = true;
        is_good = has_made_folders(words[1]) && is_measured("files in folders", SAID_OF_FOLDERS)
            && is_in_the_inbox() && is_good;
        with_journals = true;
        is_good = unlink("i/a") == 0 && is_measured("with journals", SAID_OF_FOLDERS)
            && is_in_the_inbox() && is_good;
    }
    return is_good ? 0 : 1;
}
