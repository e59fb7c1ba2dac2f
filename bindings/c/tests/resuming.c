/* Stations with journals, in a process that is killed after each so many frames: they go on when
 * they are opened again. And journals that can't be used.
 *
 *     resuming FOLDER [STEP]
 *
 * FOLDER is empty. It is killed after each STEP frames of a transfer, by default each 7th. Prints
 * what is wrong, and ends with status 1 if something is. */
#define _DEFAULT_SOURCE
#include "checks.h"
#include "files.h"

#include <signal.h>
#include <stdlib.h>
#include <string.h>
#include <sys/mman.h>
#include <sys/stat.h>
#include <sys/wait.h>
#include <unistd.h>

enum { MOST_FRAME = 2048, LOST = 7, LIMIT = 255, LONG = 50000, TURNS = 100000, STEP = 7 };
enum { KIND = 0 };

/* ---- files */

/* Turns an octet of a file. */
static void damage(const char *path, long at)
{
    FILE *file = fopen(path, "r+b");
    int octet;

    IS(file != NULL, 1);
    if (file == NULL)
        return;
    fseek(file, at, SEEK_SET);
    octet = getc(file);
    fseek(file, at, SEEK_SET);
    putc(octet ^ 1, file);
    IS(fclose(file), 0);
}

/* Goes to an empty folder, below the one that was given, with those of both stations. */
static void go_to(const char *root, const char *name)
{
    IS(chdir(root), 0);
    IS(mkdir(name, 0777), 0);
    IS(chdir(name), 0);
    IS(make_folders(), 1);
}

/* ---- stations */

static cfdp_config config_of(int number)
{
    cfdp_config config = defaults_of(number);

    config.eof_limit = config.nak_limit = config.finished_limit = LIMIT;
    config.inactivity_time = 1000000;
    return config;
}

static cfdp_answer opened_with(cfdp_station *station, const cfdp_config *config, const char *inbox,
                               const char *journal)
{
    return cfdp_open_folders_journal(station, config, "out1", 4, inbox, strlen(inbox), journal,
                                     strlen(journal), 1);
}

static cfdp_answer opened(cfdp_station *station, int number)
{
    const cfdp_config config = config_of(number);

    return opened_with(station, &config, number == 1 ? "in1" : "in2", number == 1 ? "j1" : "j2");
}

static cfdp_answer put(cfdp_station *station, const char *name, cfdp_id *id)
{
    return cfdp_put(station, name, strlen(name), name, strlen(name), id);
}

static cfdp_journal_info journal_of(const cfdp_station *station)
{
    cfdp_journal_info info = {0, 0, 99, 99};

    IS(cfdp_journal_state(station, &info), CFDP_OK);
    return info;
}

/* What both processes see: how many frames left, which ends each station told, and how many
 * mistakes there were until the first one was killed. */
struct seen {
    cfdp_id id;
    long frames;
    int complete[2], others[2], mistakes;
};

/* Frames pass from one to the other. The process is killed after so many, unless that is 0. */
static void pass_frames(cfdp_station *from, cfdp_station *to, struct seen *seen, long last)
{
    uint8_t frame[MOST_FRAME];
    const size_t len = cfdp_frame_len(from);

    while (cfdp_transmit(from, frame, len) == CFDP_OK) {
        if (!is_lost(LOST))
            IS(cfdp_receive(to, frame, len), CFDP_OK);
        if (++seen->frames == last) {
            fflush(stdout);
            seen->mistakes = mistakes;
            raise(SIGKILL);
        }
    }
}

static void note_end(const cfdp_indication *it, struct seen *seen, int side)
{
    if (it->kind != CFDP_FINISHED)
        return;
    if (it->condition == 0 && it->delivery == 0 && it->status == CFDP_FILE_RETAINED)
        seen->complete[side]++;
    else
        seen->others[side]++;
}

static void read_indications(cfdp_station *station, struct seen *seen, int side)
{
    cfdp_indication it;
    uint8_t names[CFDP_NAMES];

    while (cfdp_next_indication(station, &it, names, sizeof names) == CFDP_OK)
        note_end(&it, seen, side);
}

/* Lets both go on until nothing is open. */
static void run(cfdp_station *one, cfdp_station *two, struct seen *seen, long last)
{
    uint64_t now;
    bool is_open = true;

    for (now = 0; now < TURNS && is_open; now++) {
        cfdp_transaction it;
        size_t cursor = 0;

        pass_frames(one, two, seen, last);
        pass_frames(two, one, seen, last);
        IS(cfdp_tick(one, now), CFDP_OK);
        IS(cfdp_tick(two, now), CFDP_OK);
        read_indications(one, seen, 0);
        read_indications(two, seen, 1);
        is_open = false;
        while (cfdp_transactions(one, &cursor, &it) == CFDP_OK)
            is_open = is_open || it.phase != CFDP_OVER;
        cursor = 0;
        while (cfdp_transactions(two, &cursor, &it) == CFDP_OK)
            is_open = is_open || it.phase != CFDP_OVER;
    }
    IS(is_open, 0);
}

/* ---- what is tested */

/* A process that opens both, puts a file, and is killed after so many frames. */
static void first_run(struct seen *seen, long last)
{
    cfdp_station one = CFDP_STATION_INIT, two = CFDP_STATION_INIT;

    IS(opened(&one, 1), CFDP_OK);
    IS(opened(&two, 2), CFDP_OK);
    IS(journal_of(&one).state, CFDP_JOURNAL_KEPT);
    IS(journal_of(&one).resumed, 0);
    IS(put(&one, "long", &seen->id), CFDP_OK);
    run(&one, &two, seen, last);
    cfdp_close(&one);
    cfdp_close(&two);
    fflush(stdout);
    _exit(mistakes != 0);
}

/* The ends that an earlier run may not have told are told now. */
static void read_unheard(cfdp_station *station, struct seen *seen, int side)
{
    cfdp_indication it;

    while (cfdp_next_unheard(station, &it) == CFDP_OK)
        note_end(&it, seen, side);
    IS(cfdp_next_unheard(station, &it), CFDP_NOTHING);
}

static void is_only(const cfdp_station *station, cfdp_id id)
{
    cfdp_transaction it = {{0, 0}, 0};
    size_t cursor = 0;

    IS(cfdp_transactions(station, &cursor, &it), CFDP_OK);
    IS(it.id.source, id.source);
    IS(it.id.number, id.number);
    IS(cfdp_transactions(station, &cursor, &it), CFDP_NOTHING);
}

/* Both are killed after so many frames, and opened again: the file comes, under its number. Whether
 * they were killed. */
static bool killed_after(struct seen *seen, long frames)
{
    cfdp_station one = CFDP_STATION_INIT, two = CFDP_STATION_INIT;
    int status = 0;
    pid_t child;
    cfdp_id next;

    memset(seen, 0, sizeof *seen);
    IS(write_file("out1/long", LONG, KIND), 1);
    fflush(stdout);
    child = fork();
    if (child == 0)
        first_run(seen, frames);
    IS(waitpid(child, &status, 0), child);
    if (WIFEXITED(status)) {
        IS(WEXITSTATUS(status), 0);
        return false;
    }
    IS(WTERMSIG(status), SIGKILL);
    IS(seen->frames, frames);
    IS(seen->mistakes, mistakes);
    IS(opened(&one, 1), CFDP_OK);
    IS(opened(&two, 2), CFDP_OK);
    IS(journal_of(&one).lost, 0);
    IS(journal_of(&two).lost, 0);
    IS(journal_of(&one).state, CFDP_JOURNAL_KEPT);
    is_only(&one, seen->id);
    read_unheard(&one, seen, 0);
    read_unheard(&two, seen, 1);
    run(&one, &two, seen, 0);
    IS(is_file("in2/long", LONG, KIND), 1);
    is_only(&two, seen->id);
    IS(seen->complete[0] >= 1, 1);
    IS(seen->complete[1] >= 1, 1);
    IS(seen->others[0] + seen->others[1], 0);
    IS(put(&one, "long", &next), CFDP_OK);
    IS(next.number, seen->id.number + 1);
    cfdp_close(&one);
    cfdp_close(&two);
    return true;
}

/* How many PDUs of file data pass if a transfer is broken off in its midst, without a loss: none of
 * what was noted passes twice. */
static void goes_on_in_the_midst(void)
{
    cfdp_station one = CFDP_STATION_INIT, two = CFDP_STATION_INIT;
    struct seen seen;
    cfdp_counts counts;
    uint8_t frame[MOST_FRAME];
    const size_t pdus = (LONG + 1023) / 1024;
    uint64_t before;
    cfdp_id id;
    int at;

    memset(&seen, 0, sizeof seen);
    IS(write_file("out1/long", LONG, KIND), 1);
    IS(opened(&one, 1), CFDP_OK);
    IS(opened(&two, 2), CFDP_OK);
    IS(put(&one, "long", &id), CFDP_OK);
    for (at = 0; at < 100; at++) {
        IS(cfdp_transmit(&one, frame, cfdp_frame_len(&one)), CFDP_OK);
        IS(cfdp_receive(&two, frame, cfdp_frame_len(&one)), CFDP_OK);
    }
    IS(cfdp_counters(&one, &counts), CFDP_OK);
    before = counts.sent.file_data;
    IS(before > 10 && before < pdus, 1);
    cfdp_close(&one);
    cfdp_close(&two);
    IS(opened(&one, 1), CFDP_OK);
    IS(opened(&two, 2), CFDP_OK);
    IS(journal_of(&one).resumed, 1);
    IS(journal_of(&two).resumed, 1);
    run(&one, &two, &seen, 0);
    IS(is_file("in2/long", LONG, KIND), 1);
    IS(cfdp_counters(&one, &counts), CFDP_OK);
    IS(counts.sent.file_data, pdus - before);
    cfdp_close(&one);
    cfdp_close(&two);
}

/* What is over is refused after a restart, and what was forgotten is known as that. */
static void stays_forgotten(void)
{
    cfdp_station one = CFDP_STATION_INIT, two = CFDP_STATION_INIT;
    struct seen seen;
    cfdp_id id;
    uint8_t was = 0;

    memset(&seen, 0, sizeof seen);
    IS(write_file("out1/long", 10, KIND), 1);
    IS(opened(&one, 1), CFDP_OK);
    IS(opened(&two, 2), CFDP_OK);
    IS(put(&one, "long", &id), CFDP_OK);
    run(&one, &two, &seen, 0);
    IS(cfdp_forget_closed(&two), CFDP_OK);
    /* that it is forgotten is noted by the second tick after it */
    IS(cfdp_tick(&two, TURNS), CFDP_OK);
    IS(cfdp_tick(&two, TURNS + 1), CFDP_OK);
    cfdp_close(&one);
    cfdp_close(&two);
    IS(opened(&two, 2), CFDP_OK);
    IS(journal_of(&two).resumed, 0);
    IS(cfdp_was_forgotten(&two, &id, &was), CFDP_OK);
    IS(was, 1);
    seen.complete[1] = 0;
    read_unheard(&two, &seen, 1);
    IS(seen.complete[1], 0);
    cfdp_close(&two);
    IS(opened(&one, 1), CFDP_OK);
    is_only(&one, id);
    cfdp_close(&one);
}

/* Journals that can't be used, each for what it answers. */
static void refusals(void)
{
    cfdp_station one = CFDP_STATION_INIT, s = CFDP_STATION_INIT;
    cfdp_config config = config_of(1);
    cfdp_id id;

    IS(write_file("out1/long", LONG, KIND), 1);
    IS(opened(&one, 1), CFDP_OK);
    IS(opened(&one, 1), CFDP_ALREADY_OPEN);
    IS(opened(&s, 1), CFDP_INBOX_IN_USE);
    IS(opened_with(&s, &config, "in3", "j1"), CFDP_JOURNAL_IN_USE);
    IS(opened_with(&s, &config, "in3", "in3/j"), CFDP_JOURNAL_MISPLACED);
    IS(opened_with(&s, &config, "in3", "../refusals/in1/j"), CFDP_JOURNAL_MISPLACED);
    IS(opened_with(&s, &config, "in3", "nowhere/j"), CFDP_NO_JOURNAL);
    IS(opened_with(&s, &config, "in3", ""), CFDP_NO_JOURNAL);
    IS(opened_with(&s, &config, "in3", "\xff"), CFDP_NO_JOURNAL);
    IS(opened_with(&s, &config, "in3", "in2"), CFDP_NO_JOURNAL);
    IS(opened_with(&s, &config, "nowhere", "j3"), CFDP_NO_INBOX);
    IS(put(&one, "long", &id), CFDP_OK);
    cfdp_close(&one);
    config.peer = 3;
    IS(opened_with(&s, &config, "in1", "j1"), CFDP_JOURNAL_OF_OTHERS);
    config.segment = 0;
    IS(opened_with(&s, &config, "in1", "j1"), CFDP_BAD_SEGMENT);
    IS(s.is_open, 0);
    IS(opened(&one, 1), CFDP_OK);
    IS(journal_of(&one).resumed, 1);
    cfdp_close(&one);
}

/* A damaged journal is kept aside, and nothing goes on; one that was cut off goes on. */
static void damaged(void)
{
    cfdp_station one = CFDP_STATION_INIT;
    struct stat about;
    cfdp_id id;

    IS(write_file("out1/long", LONG, KIND), 1);
    IS(opened(&one, 1), CFDP_OK);
    IS(put(&one, "long", &id), CFDP_OK);
    cfdp_close(&one);
    IS(stat("j1", &about), 0);
    IS(truncate("j1", about.st_size - 1), 0);
    IS(opened(&one, 1), CFDP_OK);
    IS(journal_of(&one).was_damaged, 0);
    IS(put(&one, "long", &id), CFDP_OK);
    cfdp_close(&one);
    IS(is_there("j1.damaged"), 0);
    damage("j1", 10);
    IS(opened(&one, 1), CFDP_OK);
    IS(journal_of(&one).was_damaged, 1);
    IS(journal_of(&one).resumed, 0);
    IS(journal_of(&one).state, CFDP_JOURNAL_KEPT);
    IS(is_there("j1.damaged"), 1);
    cfdp_close(&one);
}

/* A journal that finds no room on the device is removed, and tried again later. */
static void full(void)
{
    cfdp_station one = CFDP_STATION_INIT;
    const rlim_t little = 10;
    rlim_t limit;
    cfdp_id id;
    uint64_t now;

    IS(write_file("out1/long", LONG, KIND), 1);
    IS(opened(&one, 1), CFDP_OK);
    limit = limit_file_size(little);
    IS(put(&one, "long", &id), CFDP_OK);
    IS(journal_of(&one).state, CFDP_JOURNAL_NOT_KEPT);
    IS(is_there("j1"), 0);
    IS(cfdp_tick(&one, 1), CFDP_OK);
    IS(journal_of(&one).state, CFDP_JOURNAL_NOT_KEPT);
    limit_file_size(limit);
    for (now = 2; now < 200; now++)
        IS(cfdp_tick(&one, now), CFDP_OK);
    IS(journal_of(&one).state, CFDP_JOURNAL_KEPT);
    cfdp_close(&one);
    limit_file_size(little);
    IS(opened(&one, 1), CFDP_NO_JOURNAL);
    limit_file_size(limit);
    IS(opened(&one, 1), CFDP_OK);
    IS(journal_of(&one).resumed, 1);
    cfdp_close(&one);
}

/* A handle without a journal, and a closed one. */
static void without(void)
{
    cfdp_station one = CFDP_STATION_INIT;
    cfdp_config config = config_of(1);
    cfdp_journal_info info = {0, 0, 99, 99};
    cfdp_indication it;

    memset(&it, 0, sizeof it);
    IS(cfdp_journal_state(&one, &info), CFDP_CLOSED);
    IS(info.state, 99);
    IS(cfdp_next_unheard(&one, &it), CFDP_CLOSED);
    IS(cfdp_open(&one, &config), CFDP_OK);
    IS(journal_of(&one).state, CFDP_JOURNAL_NONE);
    IS(journal_of(&one).was_damaged, 0);
    IS(cfdp_next_unheard(&one, &it), CFDP_NOTHING);
    cfdp_close(&one);
}

int main(int count, char **words)
{
    const long step = count > 2 ? atol(words[2]) : (long)STEP;
    long frames = 1;
    bool was_killed = true;
    struct seen *seen;
    char root[4096], name[32];

    if (count < 2 || step < 1 || realpath(words[1], root) == NULL)
        return 2;
    seen = (struct seen *)mmap(NULL, sizeof *seen, PROT_READ | PROT_WRITE,
                               MAP_SHARED | MAP_ANONYMOUS, -1, 0);
    if (seen == MAP_FAILED)
        return 2;
    for (; was_killed; frames += step) {
        snprintf(name, sizeof name, "killed%ld", frames);
        go_to(root, name);
        was_killed = killed_after(seen, frames);
    }
    IS(frames > 200, 1);
    go_to(root, "midst");
    goes_on_in_the_midst();
    go_to(root, "forgotten");
    stays_forgotten();
    go_to(root, "refusals");
    refusals();
    go_to(root, "damaged");
    damaged();
    go_to(root, "full");
    full();
    without();
    return mistakes != 0;
}
