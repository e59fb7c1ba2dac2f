/* Sends a file over a link in memory, as plainly as one would write it: what `cfdp_node sim` is
 * compared with by by_hand/speed.py. It is linked into nothing that is proved or shipped.
 *
 *   plain_stack ZONE SEGMENT SIZE
 *
 * Each segment of a file of SIZE octets becomes a PDU of file data (CCSDS 727.0-B-5) in a packet
 * (CCSDS 133.0-B-2); the packets fill the zones of AOS frames end to end (CCSDS 732.0-B-4), and
 * each frame is copied, as a link has it. The other end reads the frame's header and its count,
 * joins the packets, reads each PDU's header, copies its octets into the file, and adds them to the
 * modular checksum, which the sender makes too. It does no more: there is one transaction,
 * no timer, and nothing that is lost or comes out of order is mended.
 *
 * It prints how many PDUs and frames there were. */
#include <arpa/inet.h>
#include <stdint.h>
#include <stdio.h>
#include <stdlib.h>
#include <string.h>

enum { FRAME_HEADER = 8, PACKET_HEADER = 6, PDU_HEADER = 12, OFFSET = 4, NO_START = 2047 };
enum { SPACECRAFT = 42, CHANNEL = 7, APID = 100, SOURCE = 1, DESTINATION = 2, NUMBER = 1 };
enum { MOST_SEGMENT = 4096, MOST_ZONE = 2040, MOST_PACKET = 65542 };

static void need(int holds, const char *what)
{
    if (holds)
        return;
    fprintf(stderr, "plain_stack: %s\n", what);
    exit(1);
}

static void put(uint8_t *to, uint64_t value, int count)
{
    for (int at = count - 1; at >= 0; at--, value >>= 8)
        to[at] = (uint8_t)value;
}

static uint64_t get(const uint8_t *from, int count)
{
    uint64_t value = 0;
    for (int at = 0; at < count; at++)
        value = value << 8 | from[at];
    return value;
}

static uint32_t sum(uint32_t old, uint64_t offset, const uint8_t *octets, size_t count)
{
    size_t at = 0;
    for (; at < count && (offset + at) % 4 != 0; at++)
        old += (uint32_t)octets[at] << (8 * (3 - (offset + at) % 4));
    for (uint32_t word; at + 4 <= count; at += 4) {
        memcpy(&word, octets + at, 4);
        old += ntohl(word);
    }
    for (; at < count; at++)
        old += (uint32_t)octets[at] << (8 * (3 - (offset + at) % 4));
    return old;
}

/* The receiving end. */
struct receiver {
    size_t zone, held, came;
    uint32_t frames, pdus, sum;
    uint8_t *file;
    uint8_t begun[MOST_PACKET];
};

static void take_pdu(struct receiver *it, const uint8_t *pdu, size_t len)
{
    need(len > PDU_HEADER + OFFSET && pdu[0] == 0x30, "header");
    need(get(pdu + 1, 2) == len - PDU_HEADER && pdu[3] == 0x13, "length");
    need(get(pdu + 4, 2) == SOURCE && get(pdu + 6, 4) == NUMBER, "transaction");
    need(get(pdu + 10, 2) == DESTINATION, "destination");
    uint64_t offset = get(pdu + PDU_HEADER, OFFSET);
    const uint8_t *octets = pdu + PDU_HEADER + OFFSET;
    size_t count = len - PDU_HEADER - OFFSET;
    need(offset == it->came, "order");
    memcpy(it->file + offset, octets, count);
    it->sum = sum(it->sum, offset, octets, count);
    it->came += count;
    it->pdus += 1;
}

static void take_packet(struct receiver *it, const uint8_t *packet, size_t len)
{
    if (get(packet, 2) == 2047)
        return;
    need(get(packet, 2) == APID && packet[2] >> 6 == 3, "packet");
    take_pdu(it, packet + PACKET_HEADER, len - PACKET_HEADER);
}

static size_t packet_len(const uint8_t *packet)
{
    return PACKET_HEADER + 1 + (size_t)get(packet + 4, 2);
}

/* Takes what is there of the packet that is begun; how many octets of the zone they are. */
static size_t join(struct receiver *it, const uint8_t *zone)
{
    size_t at = 0;
    for (; it->held > 0 && it->held < PACKET_HEADER; at++)
        it->begun[it->held++] = zone[at];
    if (it->held == 0)
        return 0;
    size_t left = packet_len(it->begun) - it->held, count = it->zone - at;
    if (count > left)
        count = left;
    memcpy(it->begun + it->held, zone + at, count);
    it->held += count;
    if (count == left) {
        take_packet(it, it->begun, it->held);
        it->held = 0;
    }
    return at + count;
}

static void take_frame(struct receiver *it, const uint8_t *frame)
{
    const uint8_t *zone = frame + FRAME_HEADER;
    need(frame[0] == (0x40 | SPACECRAFT >> 2), "version");
    need(frame[1] == (uint8_t)(SPACECRAFT << 6 | CHANNEL), "channel");
    need(get(frame + 2, 3) == it->frames % (1 << 24), "count");
    size_t pointer = get(frame + 6, 2), at = join(it, zone);
    need(pointer == at || pointer == NO_START, "pointer");
    while (it->held == 0 && it->zone - at >= PACKET_HEADER) {
        size_t len = packet_len(zone + at);
        if (len > it->zone - at)
            break;
        take_packet(it, zone + at, len);
        at += len;
    }
    memcpy(it->begun + it->held, zone + at, it->zone - at);
    it->held += it->zone - at;
    it->frames += 1;
}

/* The sending end: what waits of packets, where the next one begins in it, and the link. */
struct sender {
    size_t zone, waiting, next;
    uint32_t frames;
    uint8_t stream[MOST_PACKET + MOST_ZONE];
    uint8_t frame[FRAME_HEADER + MOST_ZONE], link[FRAME_HEADER + MOST_ZONE];
};

static void send_frames(struct sender *from, struct receiver *to)
{
    size_t at = 0;
    for (; from->waiting - at >= from->zone; at += from->zone) {
        size_t first = from->next;
        while (from->next < at + from->zone && from->waiting - from->next >= PACKET_HEADER)
            from->next += packet_len(from->stream + from->next);
        int starts = first < at + from->zone;
        put(from->frame, 0x4000 | SPACECRAFT << 6 | CHANNEL, 2);
        put(from->frame + 2, from->frames, 3);
        from->frame[5] = 0x40;
        put(from->frame + 6, starts ? first - at : NO_START, 2);
        memcpy(from->frame + FRAME_HEADER, from->stream + at, from->zone);
        memcpy(from->link, from->frame, FRAME_HEADER + from->zone);
        take_frame(to, from->link);
        from->frames += 1;
    }
    memmove(from->stream, from->stream + at, from->waiting - at);
    from->waiting -= at;
    from->next -= at;
}

static void send_segment(struct sender *it, uint32_t count, uint64_t offset, const uint8_t *octets,
                         size_t len)
{
    uint8_t *packet = it->stream + it->waiting, *pdu = packet + PACKET_HEADER;
    put(packet, APID, 2);
    put(packet + 2, 0xC000 | count % 16384, 2);
    put(packet + 4, PDU_HEADER + OFFSET + len - 1, 2);
    pdu[0] = 0x30;
    put(pdu + 1, OFFSET + len, 2);
    pdu[3] = 0x13;
    put(pdu + 4, SOURCE, 2);
    put(pdu + 6, NUMBER, 4);
    put(pdu + 10, DESTINATION, 2);
    put(pdu + PDU_HEADER, offset, OFFSET);
    memcpy(pdu + PDU_HEADER + OFFSET, octets, len);
    it->waiting += PACKET_HEADER + PDU_HEADER + OFFSET + len;
}

/* Fills the begun zone by an idle packet. */
static void flush(struct sender *it)
{
    size_t left = it->waiting % it->zone == 0 ? 0 : it->zone - it->waiting % it->zone;
    if (left < PACKET_HEADER + 1)
        left += it->zone;
    uint8_t *packet = it->stream + it->waiting;
    put(packet, 2047, 2);
    put(packet + 2, 0xC000, 2);
    put(packet + 4, left - PACKET_HEADER - 1, 2);
    memset(packet + PACKET_HEADER, 0, left - PACKET_HEADER);
    it->waiting += left;
}

int main(int count, char **words)
{
    static struct sender from;
    static struct receiver to;
    need(count == 4, "ZONE SEGMENT SIZE");
    from.zone = to.zone = (size_t)atoi(words[1]);
    size_t segment = (size_t)atoi(words[2]), size = (size_t)atoi(words[3]);
    need(from.zone >= 16 && from.zone <= MOST_ZONE, "ZONE");
    need(segment > 0 && segment <= MOST_SEGMENT, "SEGMENT");
    uint8_t *file = calloc(size, 1);
    to.file = malloc(size);
    need(file != NULL && to.file != NULL, "memory");
    uint32_t total = 0, pdus = 0;
    for (size_t at = 0; at < size; at += 97)
        file[at] = (uint8_t)(at >> 3);
    for (size_t at = 0; at < size; at += segment) {
        size_t len = size - at < segment ? size - at : segment;
        send_segment(&from, pdus++, at, file + at, len);
        total = sum(total, at, file + at, len);
        send_frames(&from, &to);
    }
    flush(&from);
    send_frames(&from, &to);
    need(to.came == size && to.sum == total && memcmp(file, to.file, size) == 0, "file");
    printf("%u PDUs, %u frames\n", pdus, to.frames);
    return 0;
}
