/* A file from a folder into another one, by two stations in one process, over a link that loses
 * one frame of seven:
 *
 *     folders OUTBOX INBOX NAME [DESTINATION]
 *
 * Ends with status 0 where the file lies in INBOX, whole.
 */
#include "cfdp.h"

#include <stdio.h>
#include <string.h>

enum { MOST_FRAME = 2048, LIMIT = 255 };

static int refused(const char *call, cfdp_answer answer)
{
    (void)fprintf(stderr, "%s: %s\n", call, cfdp_answer_text(answer));
    return 1;
}

/* Station 1 or 2, with these folders. */
static cfdp_answer open_station(cfdp_station *station, int number, const char *outbox,
                                const char *inbox)
{
    cfdp_config config;

    cfdp_defaults(&config);
    if (number == 2) {
        const cfdp_link sends = config.sends;

        config.sends = config.receives;
        config.receives = sends;
        config.entity = 2;
        config.peer = 1;
    }
    config.eof_limit = LIMIT;
    config.nak_limit = LIMIT;
    config.finished_limit = LIMIT;
    return cfdp_open_folders(station, &config, outbox, strlen(outbox), inbox, strlen(inbox));
}

/* Whether the link loses a frame: one of seven, by chance, and in each run the same. Were it each
 * seventh, the same PDU might be lost for ever. */
static bool is_lost(void)
{
    static uint32_t state = 1U;

    state = (state * 1664525U) + 1013904223U;
    return ((state >> 16) % 7U) == 0U;
}

/* Takes what one station has to send to the other. */
static void pass_frames(cfdp_station *from, cfdp_station *to)
{
    uint8_t frame[MOST_FRAME];
    const size_t len = cfdp_frame_len(from);

    while (cfdp_transmit(from, frame, len) == CFDP_OK) {
        if (!is_lost()) {
            (void)cfdp_receive(to, frame, len);
        }
    }
}

/* Whether a transaction ended with the file published. */
static bool is_well(const cfdp_indication *it)
{
    return (it->condition == CFDP_CONDITION_NO_ERROR) && (it->delivery == CFDP_DELIVERY_COMPLETE)
        && (it->status == CFDP_FILE_RETAINED);
}

/* The status that ends the program, once a station has said how its transaction ended. */
static bool is_over(cfdp_station *station, int *status)
{
    cfdp_indication it;
    uint8_t names[CFDP_NAMES];
    bool over = false;

    while (cfdp_next_indication(station, &it, names, sizeof names) == CFDP_OK) {
        if (it.kind == CFDP_FINISHED) {
            over = true;
            *status = is_well(&it) ? 0 : 1;
            (void)printf("finished, condition %u\n", (unsigned)it.condition);
        }
    }
    return over;
}

static int transfer(cfdp_station *one, cfdp_station *two, const char *name, const char *destination)
{
    cfdp_answer answer;
    cfdp_id id;
    int status = 1;
    uint64_t turn = 0U;

    answer = cfdp_put(one, name, strlen(name), destination, strlen(destination), &id);
    if (answer != CFDP_OK) {
        return refused("cfdp_put", answer);
    }
    while ((turn < 100000000U) && !is_over(one, &status)) {
        pass_frames(one, two);
        pass_frames(two, one);
        (void)cfdp_tick(one, turn);
        (void)cfdp_tick(two, turn);
        turn++;
    }
    return status;
}

int main(int count, char **words)
{
    cfdp_station one = CFDP_STATION_INIT;
    cfdp_station two = CFDP_STATION_INIT;
    cfdp_answer answer;
    int status;

    if (count < 4) {
        (void)fprintf(stderr, "folders OUTBOX INBOX NAME [DESTINATION]\n");
        return 2;
    }
    /* Nothing is sent the other way: each folder serves one end. */
    answer = open_station(&one, 1, words[1], words[1]);
    if (answer == CFDP_OK) {
        answer = open_station(&two, 2, words[1], words[2]);
    }
    if (answer == CFDP_OK) {
        status = transfer(&one, &two, words[3], (count > 4) ? words[4] : words[3]);
    } else {
        status = refused("cfdp_open_folders", answer);
    }
    cfdp_close(&one);
    cfdp_close(&two);
    return status;
}
