/* Frames that only the holder of a key can have sent: a file crosses a link on which somebody who
 * hasn't the key says what he likes.
 *
 *     securing
 *
 * Prints what is wrong, and ends with status 1 if something is. tests/bindings.py builds and
 * runs it, as C and as C++. */
#include "cfdp.h"
#include "checks.h"

#include <stdio.h>
#include <stdlib.h>
#include <string.h>

enum { MOST = 4096, FILE_LEN = 20 * 1000, ADDED = 10 + 32 + 2 + 4 + 2 };

static void want(bool is_so, const char *what)
{
    if (!is_so) {
        printf("not so: %s\n", what);
        mistakes++;
    }
}

/* The key and the fields of a link; the number is that of the sealing end. */
static cfdp_security a_link(uint8_t first, uint16_t spi)
{
    cfdp_security it;
    uint8_t at;

    memset(&it, 0, sizeof it);
    it.number = 1;
    it.spi = spi;
    it.mac_len = 32;
    it.insert_zone = 2;
    it.control_field = 1;
    it.error_control = 1;
    for (at = 0; at < 32; at++)
        it.key[at] = (uint8_t)(first + at);
    return it;
}

/* The other end of it, which has accepted no frame. */
static cfdp_security other_end(const cfdp_security *sealer)
{
    cfdp_security it = *sealer;

    it.number = 0;
    return it;
}

/* ---- one frame */

/* A frame that Python's hmac sealed under number 1, and its bare one. */
static const uint8_t BARE[] = {0x41, 0x42, 0,  0,  5,  0x40, 0,  7,  14,  21,  28,  35,  42,
                               49,   56,   63, 70, 77, 84,   91, 98, 105, 112, 119, 126, 133};
static const uint8_t MADE[] = {
    0x41, 0x42, 0x00, 0x00, 0x05, 0x40, 0x00, 0x00, 0x00, 0x07, 0x00, 0x00, 0x00, 0x00, 0x00, 0x00,
    0x00, 0x01, 0x00, 0x07, 0x0e, 0x15, 0x1c, 0x23, 0x2a, 0x31, 0x38, 0x3f, 0x46, 0x4d, 0x54, 0x5b,
    0x62, 0x69, 0x70, 0x77, 0x7e, 0x85, 0xe8, 0x6b, 0xce, 0x93, 0x9e, 0x8b, 0x3f, 0x4a, 0xaa, 0xb8,
    0x19, 0xbf, 0x59, 0xe4, 0x2e, 0x92, 0xa1, 0xb2, 0xc3, 0xd4, 0x2a, 0xf3};

static void one_frame(void)
{
    cfdp_security sealer = a_link(0, 7), opener, before;
    uint8_t frame[sizeof MADE], bare[sizeof BARE], turned[sizeof MADE];
    size_t bit;

    sealer.mac_len = 16;
    opener = other_end(&sealer);
    want(cfdp_seal_frame(&sealer, BARE, sizeof BARE, 0xA1B2C3D4, frame, sizeof frame) == CFDP_OK,
         "a frame is sealed");
    want(memcmp(frame, MADE, sizeof MADE) == 0, "it is as another program seals it");
    want(sealer.number == 2, "the number goes on");

    for (bit = 0; bit < 8 * sizeof MADE; bit++) {
        memcpy(turned, MADE, sizeof MADE);
        turned[bit / 8] ^= (uint8_t)(1u << bit % 8);
        before = opener;
        want(cfdp_open_frame(&opener, turned, sizeof turned, bare, sizeof bare) ==
                 CFDP_DAMAGED_FRAME,
             "a frame with a turned bit is damaged");
        want(memcmp(&before, &opener, sizeof opener) == 0, "a refusal changes nothing");
    }
    want(cfdp_open_frame(&opener, MADE, sizeof MADE, bare, sizeof bare - 1) == CFDP_NO_ROOM,
         "the room may be too short");
    want(opener.number == 0, "then the frame may come again");
    want(cfdp_open_frame(&opener, MADE, sizeof MADE, bare, sizeof bare) == CFDP_OK,
         "a sealed frame is accepted");
    want(memcmp(bare, BARE, sizeof BARE) == 0 && opener.number == 1,
         "it is the one that was sealed");
    want(cfdp_open_frame(&opener, MADE, sizeof MADE, bare, sizeof bare) == CFDP_REPLAYED,
         "and not once more");
    want(cfdp_open_frame(&opener, MADE, 13, bare, sizeof bare) == CFDP_SHORT_FRAME,
         "a header alone is too short");

    opener.spi = 8;
    want(cfdp_open_frame(&opener, MADE, sizeof MADE, bare, sizeof bare) == CFDP_UNKNOWN_SPI,
         "another SPI is unknown");
    opener.spi = 7;
    opener.key[31] ^= 1;
    want(cfdp_open_frame(&opener, MADE, sizeof MADE, bare, sizeof bare) == CFDP_NOT_AUTHENTIC,
         "under another key the MAC is wrong");
}

static void bad_arguments(void)
{
    cfdp_security it = a_link(0, 7);
    uint8_t out[sizeof BARE + ADDED];

    want(cfdp_seal_frame(&it, BARE, 5, 0, out, 5 + ADDED) == CFDP_NO_ROOM, "a header has 6 octets");
    want(cfdp_seal_frame(&it, BARE, sizeof BARE, 0, out, sizeof out - 1) == CFDP_NO_ROOM,
         "the room has exactly the octets of a frame");
    it.mac_len = 15;
    want(cfdp_seal_frame(&it, BARE, sizeof BARE, 0, out, sizeof out) == CFDP_BAD_ARGUMENT,
         "a MAC has 16 octets at least");
    it.mac_len = 33;
    want(cfdp_open_frame(&it, MADE, sizeof MADE, out, sizeof out) == CFDP_BAD_ARGUMENT,
         "and 32 at most");
    it.mac_len = 32;
    it.insert_zone = 65;
    want(cfdp_seal_frame(&it, BARE, sizeof BARE, 0, out, sizeof out) == CFDP_BAD_ARGUMENT,
         "an insert zone has 64 octets at most");
    it.insert_zone = 2;
    it.control_field = 2;
    want(cfdp_open_frame(&it, MADE, sizeof MADE, out, sizeof out) == CFDP_BAD_ARGUMENT,
         "there is one control field at most");
    it.control_field = 1;
    it.number = UINT64_MAX;
    want(cfdp_seal_frame(&it, BARE, sizeof BARE, 0, out, sizeof out) == CFDP_NUMBERS_SPENT,
         "the last number isn't used");
    want(it.number == UINT64_MAX, "and stays");
}

/* ---- a file */

/* Moves the frames of a station to the other one. Before each, one that nobody with the key sent
 * comes. Returns how many frames moved. */
static size_t move(cfdp_station *from, cfdp_security *sealer, cfdp_station *to,
                   cfdp_security *opener)
{
    uint8_t frame[MOST], sealed[MOST];
    size_t len = cfdp_frame_len(from), moved = 0;

    while (cfdp_transmit(from, frame, len) == CFDP_OK) {
        want(cfdp_seal_frame(sealer, frame, len, 0, sealed, len + ADDED) == CFDP_OK, "sealed");
        sealed[20] ^= 1;
        want(cfdp_open_frame(opener, sealed, len + ADDED, frame, len) == CFDP_DAMAGED_FRAME,
             "a forged frame is refused");
        sealed[20] ^= 1;
        want(cfdp_open_frame(opener, sealed, len + ADDED, frame, len) == CFDP_OK, "opened");
        cfdp_receive(to, frame, len);
        moved++;
    }
    return moved;
}

static void a_file(void)
{
    static uint8_t octets[FILE_LEN], copy[FILE_LEN];
    cfdp_station one = CFDP_STATION_INIT, two = CFDP_STATION_INIT;
    cfdp_security there = a_link(0, 7), back = a_link(100, 8);
    cfdp_security at_two = other_end(&there), at_one = other_end(&back);
    const cfdp_config config = defaults_of(1), peer = defaults_of(2);
    cfdp_id id;
    size_t at;

    for (at = 0; at < FILE_LEN; at++)
        octets[at] = (uint8_t)(at * 7 / 3);
    want(cfdp_open(&one, &config) == CFDP_OK && cfdp_open(&two, &peer) == CFDP_OK, "both open");
    want(cfdp_add(&one, "a", 1, octets, FILE_LEN) == CFDP_OK, "added");
    want(cfdp_put(&one, "a", 1, "b", 1, &id) == CFDP_OK, "put");
    while (move(&one, &there, &two, &at_two) + move(&two, &back, &one, &at_one) > 0)
        ;
    want(cfdp_file_count(&two) == 1, "the file is there");
    want(cfdp_read_file(&two, 0, 0, copy, FILE_LEN) == CFDP_OK, "it has its octets");
    want(memcmp(octets, copy, FILE_LEN) == 0, "these are the same");
    cfdp_close(&one);
    cfdp_close(&two);
}

int main(void)
{
    one_frame();
    bad_arguments();
    a_file();
    return mistakes ? 1 : 0;
}
