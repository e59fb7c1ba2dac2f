/* A proved CFDP station (CCSDS 727.0-B-5, class 2) over AOS frames, for C and C++.
 *
 * Written by hand for crates/cfdp_c; tests/bindings.py compares both: names, arguments, fields and
 * numbers.
 *
 * It is proved that each call does what stands here, if its caller keeps these rules; but that
 * cfdp_close gives back all memory, and that another thread may go on with a handle, is tested, and
 * not proved:
 *
 * 1. A pointer must not be null, even if its length is 0, must be aligned, and must be readable or
 *    writable for that length. No two arguments of a call may overlap, except two that are only
 *    read.
 * 2. A handle must begin as all zero octets (CFDP_STATION_INIT), which is a closed one. Nobody but
 *    these calls may write in it. It may be moved by memcpy if the old one isn't used again; of two
 *    copies of an open one only one may be used.
 * 3. Calls on a handle must be one at a time. Another thread may go on with it, if it is ordered
 *    after the one before by a lock, or by a start or a join of a thread. Calls on different
 *    handles may run side by side, if malloc may. A signal handler must not call.
 * 4. The program must define the functions of cfdp_hooks.h, by heap.c and errno.c or others
 *    (docs/EMBEDDING.md), and must have 32 KiB of stack for a call; 64 KiB for one on a handle with
 *    folders.
 *
 * There is nothing else to keep to: every value of every number is answered, every frame and every
 * PDU is taken, and a call on a closed handle answers CFDP_CLOSED. If the answer isn't CFDP_OK,
 * what a call borrows for its results is as it was. Nothing that a call gives points into a
 * station.
 */
#ifndef CFDP_H
#define CFDP_H

#include <stdbool.h>
#include <stddef.h>
#include <stdint.h>

#ifdef __cplusplus
extern "C" {
#endif

/* The number of this interface. It grows by one whenever a call, a struct or a number changes. */
#define CFDP_VERSION 8

/* The release that this header belongs to (docs/EMBEDDING.md, "Versions"). */
#define CFDP_RELEASE "1.0.0-rc.1"
#define CFDP_RELEASE_MAJOR 1
#define CFDP_RELEASE_MINOR 0
#define CFDP_RELEASE_PATCH 0

/* Returns the number of the interface of the library that the program is linked with. */
uint32_t cfdp_version(void);

/* What a call answers; cfdp_answer_text has it in words. */
typedef uint32_t cfdp_answer;

enum {
    CFDP_OK = 0,
    CFDP_CLOSED = 1,       /* the handle is closed */
    CFDP_ALREADY_OPEN = 2, /* cfdp_open and its likes: the handle is open */
    CFDP_BAD_ARGUMENT = 3, /* cfdp_read_file: the file ends before; cfdp_seal_frame,
                              cfdp_open_frame: a field of cfdp_security isn't in its range */
    CFDP_NO_MEMORY = 4,    /* out of memory */
    CFDP_NO_ROOM = 5,      /* the borrowed room has too few octets, or the wrong number */
    CFDP_NOTHING = 6,      /* there is nothing of the kind */
    CFDP_IN_FOLDERS = 7,   /* the call is of files in memory, and the station has folders */
    CFDP_NAME_TAKEN = 11,  /* cfdp_add: there is a file of that name */

    /* cfdp_open_folders, the first that holds */
    CFDP_NO_OUTBOX = 12,    /* the folder to send from isn't there, or can't be read */
    CFDP_NO_INBOX = 13,     /* the folder to receive into isn't, or can't be */
    CFDP_INBOX_IN_USE = 14, /* another station receives into it */

    CFDP_SOURCE_IN_USE = 15, /* cfdp_remove_source: a transaction is sending the file */

    /* cfdp_open_folders_journal, which may answer 12 to 14 too */
    CFDP_NO_JOURNAL = 16,        /* the journal can't be read, or none can be written there */
    CFDP_JOURNAL_IN_USE = 17,    /* another station has it */
    CFDP_JOURNAL_OF_OTHERS = 18, /* it is of another entity, or with another peer */
    CFDP_JOURNAL_MISPLACED = 19, /* it would lie in a folder that an open station receives into */

    /* cfdp_put: the first that holds, in the order 22, 24, 25, 26, 21, 23; then CFDP_NO_MEMORY */
    CFDP_NO_SUCH_FILE = 21,  /* the outbox has no file of that name */
    CFDP_BAD_NAME = 22,      /* a name hasn't 1 to 255 octets, or no file of a folder may have it */
    CFDP_TOO_LARGE = 23,     /* the file has more than 2^48 octets */
    CFDP_TABLE_FULL = 24,    /* the station has 4,096 records; some have to be forgotten */
    CFDP_NUMBERS_SPENT = 25, /* the next number doesn't fit number_width; cfdp_seal_frame: none
                                is left */
    CFDP_SOURCE_FAULT = 26,  /* the outbox failed, as a folder may; one in memory never does */

    /* cfdp_cancel, cfdp_suspend, cfdp_resume, cfdp_prompt */
    CFDP_UNKNOWN = 31,        /* the transaction has no record here */
    CFDP_ALREADY_CLOSED = 32, /* it is over */
    CFDP_WRONG_SIDE = 33,     /* cfdp_prompt: only the file's sender can */
    CFDP_ALREADY_SO = 34,     /* suspended already, not suspended, or a Prompt is due */

    /* cfdp_forget, which may answer CFDP_UNKNOWN too */
    CFDP_STILL_OPEN = 35, /* the transaction isn't over */
    CFDP_ANSWER_DUE = 36, /* a poll has yet to send an acknowledgement of it */

    CFDP_FULL = 41, /* cfdp_poll: the PDU doesn't fit until frames were taken off */

    /* cfdp_open, cfdp_open_folders: a field of the configuration that isn't in its range */
    CFDP_BAD_SIZE = 70, /* the program was compiled with another cfdp.h than the library's */
    CFDP_BAD_ID_WIDTH = 71,
    CFDP_BAD_ENTITY = 72, /* it doesn't fit id_width */
    CFDP_BAD_PEER = 73,   /* nor does it, or it is the entity's own */
    CFDP_BAD_NUMBER_WIDTH = 74,
    CFDP_BAD_SEGMENT = 75,
    CFDP_BAD_CHECKSUM = 76,
    CFDP_BAD_EOF_TIME = 77,
    CFDP_BAD_NAK_TIME = 78,
    CFDP_BAD_FINISHED_TIME = 79,
    CFDP_BAD_INACTIVITY_TIME = 80,
    CFDP_BAD_CAPACITY = 81,
    CFDP_BAD_SENDS_VIRTUAL_CHANNEL = 82,
    CFDP_BAD_SENDS_DATA_VIRTUAL_CHANNEL = 83, /* also if directives have it */
    CFDP_BAD_SENDS_ZONE = 84,
    CFDP_BAD_SENDS_APID = 85,
    CFDP_BAD_RECEIVES_VIRTUAL_CHANNEL = 86,
    CFDP_BAD_RECEIVES_DATA_VIRTUAL_CHANNEL = 87,
    CFDP_BAD_RECEIVES_ZONE = 88,
    CFDP_BAD_RECEIVES_APID = 89,
    CFDP_BAD_ON_ACK_LIMIT = 90,
    CFDP_BAD_ON_NAK_LIMIT = 91,
    CFDP_BAD_ON_INACTIVITY = 92,
    CFDP_BAD_SENDS_INSERT_ZONE = 93,
    CFDP_BAD_SENDS_CONTROL_FIELD = 94,
    CFDP_BAD_SENDS_ERROR_CONTROL = 95,
    CFDP_BAD_PDU_CRC = 96,
    CFDP_BAD_RECEIVES_INSERT_ZONE = 97,
    CFDP_BAD_RECEIVES_CONTROL_FIELD = 98,
    CFDP_BAD_RECEIVES_ERROR_CONTROL = 99,

    /* cfdp_open_frame: why a frame is refused, the first that holds */
    CFDP_SHORT_FRAME = 101,   /* it has fewer octets than any frame of the link */
    CFDP_DAMAGED_FRAME = 102, /* its frame error control field differs from its check */
    CFDP_UNKNOWN_SPI = 103,   /* its security parameter index is another one */
    CFDP_NOT_AUTHENTIC = 104, /* its MAC isn't right under the key */
    CFDP_REPLAYED = 105,      /* its sequence number isn't greater than the last one */

    /* cfdp_decode: the first thing that is wrong with a PDU: CFDP_BAD_PDU and the number of the
     * refusal in docs/FORMATS.md */
    CFDP_BAD_PDU = 50,
    CFDP_DECODE_SHORT = 51,          /* it has fewer octets than its header */
    CFDP_DECODE_VERSION = 52,        /* the version in its header isn't 1 */
    CFDP_DECODE_CRC = 53,            /* its CRC is wrong */
    CFDP_DECODE_LENGTH = 54,         /* the length in its header isn't the length of its data */
    CFDP_DECODE_UNACKNOWLEDGED = 55, /* it has unacknowledged mode (class 1) */
    CFDP_DECODE_DIRECTIVE = 57,      /* its directive code is unknown */
    CFDP_DECODE_TRUNCATED = 58,      /* a field runs past the end of its data */
    CFDP_DECODE_TRAILING = 59,       /* octets follow its last field */
    CFDP_DECODE_TLV = 60,            /* a TLV option is incomplete */
    CFDP_DECODE_CONDITION = 61       /* its condition code is 12 or 13 */
};

/* ---- The standard's codes (CCSDS 727.0-B-5), as the structs below have them. */

/* Condition codes: of an indication (condition), and of an EOF, a Finished or an ACK. */
enum {
    CFDP_CONDITION_NO_ERROR = 0,
    CFDP_CONDITION_ACK_LIMIT = 1,         /* a positive ACK limit was reached */
    CFDP_CONDITION_KEEP_ALIVE_LIMIT = 2,  /* read from a peer alone */
    CFDP_CONDITION_TRANSMISSION_MODE = 3, /* read from a peer alone */
    CFDP_CONDITION_FILESTORE = 4,         /* a filestore rejected something */
    CFDP_CONDITION_CHECKSUM = 5,          /* the checksum of the file differs */
    CFDP_CONDITION_FILE_SIZE = 6,         /* the size of the file differs */
    CFDP_CONDITION_NAK_LIMIT = 7,         /* a NAK limit was reached */
    CFDP_CONDITION_INACTIVITY = 8,        /* nothing was received for too long */
    CFDP_CONDITION_CHECK_LIMIT = 10,      /* read from a peer alone */
    CFDP_CONDITION_CHECKSUM_TYPE = 11,    /* the checksum type isn't supported */
    CFDP_CONDITION_SUSPENDED = 14,        /* a user suspended the transaction */
    CFDP_CONDITION_CANCELLED = 15         /* a user cancelled the transaction */
};

/* Delivery codes: of CFDP_FINISHED (delivery), and of a Finished. */
enum {
    CFDP_DELIVERY_COMPLETE = 0,
    CFDP_DELIVERY_INCOMPLETE = 1
};

/* File status: of CFDP_FINISHED (status), and of a Finished. */
enum {
    CFDP_FILE_DISCARDED = 0, /* the receiver discarded it */
    CFDP_FILE_REJECTED = 1,  /* the receiver's filestore rejected it */
    CFDP_FILE_RETAINED = 2,  /* it is published */
    CFDP_FILE_UNREPORTED = 3
};

/* Fault handlers: of cfdp_config (on_ack_limit, on_nak_limit, on_inactivity). */
enum {
    CFDP_HANDLER_CANCEL = 0,
    CFDP_HANDLER_SUSPEND = 1,
    CFDP_HANDLER_IGNORE = 2,
    CFDP_HANDLER_ABANDON = 3
};

/* Checksum types: of cfdp_config (checksum), and of Metadata. */
enum {
    CFDP_CHECKSUM_MODULAR = 0,
    CFDP_CHECKSUM_PROXIMITY_1 = 1, /* CRC-32 of Proximity-1 */
    CFDP_CHECKSUM_CASTAGNOLI = 2,  /* CRC-32C */
    CFDP_CHECKSUM_IEEE = 3,        /* CRC-32 of IEEE 802.3 */
    CFDP_CHECKSUM_NULL = 15        /* none: the checksum is 0, and nobody compares it */
};

/* Kinds of PDUs: of cfdp_pdu (kind, acknowledged). Those of directives are their codes. */
enum {
    CFDP_PDU_FILE_DATA = 0,
    CFDP_PDU_EOF = 4,
    CFDP_PDU_FINISHED = 5,
    CFDP_PDU_ACK = 6,
    CFDP_PDU_METADATA = 7,
    CFDP_PDU_NAK = 8,
    CFDP_PDU_PROMPT = 9,
    CFDP_PDU_KEEP_ALIVE = 12
};

/* Transaction status: of an ACK (status). */
enum {
    CFDP_STATUS_UNDEFINED = 0,
    CFDP_STATUS_ACTIVE = 1,
    CFDP_STATUS_TERMINATED = 2,
    CFDP_STATUS_UNRECOGNIZED = 3
};

/* The lanes of a direction, a virtual channel each: of cfdp_control_field. */
#define CFDP_LANE_DIRECTIVES false
#define CFDP_LANE_FILE_DATA true

/* ---- How a station is set up. */

/* One direction of a link. It has two lanes, a virtual channel each: file data go on one, and all
 * other PDUs, the directives, on the other, so that they overtake file data. A frame has 8 octets
 * more than its packet zone, and those of the three fields that it may have beside it (CCSDS
 * 732.0-B-4, 4.1.3, 4.1.5, 4.1.6; FORMATS.md), by the last three of this struct. */
typedef struct cfdp_link {
    uint16_t zone;        /* octets of the packet zone, 16 to 2040 */
    uint16_t apid;        /* application process of the packets, 0 to 2046 */
    uint8_t spacecraft;   /* spacecraft of the frames */
    uint8_t virtual_channel;      /* the channel of directives, 0 to 62 */
    uint8_t data_virtual_channel; /* of file data, 0 to 62; not virtual_channel */
    uint8_t insert_zone;   /* octets of the insert zone, 0 to 64: sent as zeros, and passed over */
    uint8_t control_field; /* 1 if there is an operational control field, of 4 octets, or 0 */
    uint8_t error_control; /* 1 if there is a frame error control field, of 2 octets, the check
                              of all before it, or 0 */
} cfdp_link;

typedef struct cfdp_config {
    size_t size;              /* octets of this struct, which cfdp_defaults fills in */
    uint64_t entity;          /* this entity */
    uint64_t peer;            /* the other one */
    uint64_t first_number;    /* sequence number of the first put */
    size_t capacity;          /* octets of packets that may wait in a lane, 8192 to 65536 */
    uint32_t eof_time;        /* how long an EOF's ACK is waited for, in your unit, 1 or more */
    uint32_t nak_time;        /* .. what a NAK asked for */
    uint32_t finished_time;   /* .. the ACK of a Finished */
    uint32_t inactivity_time; /* .. any PDU of a transaction */
    cfdp_link sends;          /* the frames that it sends */
    cfdp_link receives;       /* the frames that it receives: the peer's sends */
    uint8_t pdu_crc;          /* 1 if the PDUs of the files that it sends, and those that answer
                                 them, end in a CRC, of 2 octets, otherwise 0 */
    uint16_t segment;         /* most octets of a file in a PDU, 1 to 4096 */
    uint8_t id_width;         /* octets of an entity id, 1 to 8 */
    uint8_t number_width;     /* octets of a sequence number, 1 to 8 */
    uint8_t checksum;         /* a checksum type: CFDP_CHECKSUM_MODULAR and others */
    uint8_t eof_limit;        /* how often an EOF is sent again */
    uint8_t nak_limit;        /* .. a NAK */
    uint8_t finished_limit;   /* .. a Finished */
    uint8_t on_ack_limit;     /* then: a handler, CFDP_HANDLER_CANCEL and others */
    uint8_t on_nak_limit;
    uint8_t on_inactivity;
    uint64_t most_gaps;       /* most gaps in what is held of a file that it receives, 0: no limit:
                                 file data that would make one more are dropped, counted as
                                 no_memory, and requested again */
} cfdp_config;

/* Fills in the defaults if size says that the struct is the library's, otherwise nothing. No two
 * versions of the struct have as many octets: if a program was compiled with an older cfdp.h, or a
 * newer one, its struct is left as it is, and cfdp_open answers CFDP_BAD_SIZE. */
void cfdp_fill_defaults(cfdp_config *config);

/* Fills in the size, and the defaults: those of station 1 of a script, with ids 1 and 2, zones of
 * 256 octets, spacecraft 42, channels 5 and 7 (file data) and APID 100 for what it sends, 6, 8 and
 * 101 for what it receives, frames without fields, PDUs without a CRC, times of 10 and of 100 for
 * inactivity, limits of 3. Station 2 has the ids, and the links, the other way round. */
static inline void cfdp_defaults(cfdp_config *config)
{
    config->size = sizeof *config;
    cfdp_fill_defaults(config);
}

/* ---- A station. */

/* A handle, in the caller's memory. A caller must not use its fields. A call that takes it as const
 * leaves the station as it is; rule 3 holds of it too. */
typedef struct cfdp_station {
    void *at;
    bool is_open;
} cfdp_station;

#define CFDP_STATION_INIT {NULL, false}

/* Opens a closed handle on a station that has no transactions and no files. CFDP_OK,
 * CFDP_ALREADY_OPEN, CFDP_NO_MEMORY, or 70 to 99: that field of the configuration isn't in its
 * range. */
cfdp_answer cfdp_open(cfdp_station *station, const cfdp_config *config);

/* Opens a closed handle on a station that sends the files of one folder and receives into another:
 * of any size, in bounded memory. Both must be there; each is named by its path in UTF-8, and no
 * file of it is in memory. A file is looked for as it is put, read as it is sent, and written as it
 * comes, under a name that begins with .part-, until all of it is there; it is flushed to the
 * device before it gets its name, in the place of a file that has it. Names of files have 1 to 64
 * of A-Z a-z 0-9 . _ - and don't begin with a dot. A file must not change while it is sent: that
 * is noticed if its length does. No other station, of whichever process, can receive into the
 * inbox as long as the handle is open. CFDP_OK, CFDP_ALREADY_OPEN, 70 to 99 as cfdp_open,
 * CFDP_NO_OUTBOX, CFDP_NO_INBOX, CFDP_INBOX_IN_USE or CFDP_NO_MEMORY. */
cfdp_answer cfdp_open_folders(cfdp_station *station, const cfdp_config *config,
                              const void *outbox, size_t outbox_len, const void *inbox,
                              size_t inbox_len);

/* Opens a closed handle on a station over two folders, as cfdp_open_folders does, that keeps a
 * journal in a file. The journal's path is in UTF-8; the file needn't be there, its folder must be.
 * If it is the journal of an earlier run, however that ended, the transactions that were open go on
 * under their numbers, those that were over are refused, and numbers of puts go on after those of
 * the journal, unless first_number is greater. After each `every` units of time, by the next call
 * that notes something or a tick, the station notes how much of each file was sent and is held: so
 * much of a file passes twice after a kill. All else is on the device before a frame or an
 * indication that rests on it is given out. A damaged journal is renamed, with .damaged after its
 * name, and nothing goes on. If a journal was lost, removed or damaged, give a first_number that
 * was never used: only the journal knows which numbers were. CFDP_OK, CFDP_ALREADY_OPEN, 70 to 99
 * as cfdp_open, 12 to 14 as cfdp_open_folders, CFDP_NO_JOURNAL, CFDP_JOURNAL_IN_USE,
 * CFDP_JOURNAL_OF_OTHERS, CFDP_JOURNAL_MISPLACED or CFDP_NO_MEMORY; unless it is CFDP_OK, what was
 * noted stays, and may go on at the next try. */
cfdp_answer cfdp_open_folders_journal(cfdp_station *station, const cfdp_config *config,
                                      const void *outbox, size_t outbox_len, const void *inbox,
                                      size_t inbox_len, const void *journal, size_t journal_len,
                                      uint64_t every);

/* Gives back all memory of the station. The handle is closed then; a closed one stays closed. If it
 * has a journal, all that the station has is noted there first. */
void cfdp_close(cfdp_station *station);

/* ---- What its user asks for. All but cfdp_next_indication only ask; cfdp_poll sends. */

/* Names a transaction: the entity that sends the file, and the number that it gave it. */
typedef struct cfdp_id {
    uint64_t source;
    uint64_t number;
} cfdp_id;

/* Copies a file into the outbox, under a name that it has no file of. It stays there until it is
 * removed, or the station is closed. CFDP_OK, CFDP_CLOSED, CFDP_IN_FOLDERS, CFDP_NAME_TAKEN or
 * CFDP_NO_MEMORY. */
cfdp_answer cfdp_add(cfdp_station *station, const void *name, size_t name_len,
                     const void *octets, size_t octets_len);

/* Removes a file that no transaction is sending from the outbox, and gives its memory back. It
 * takes no memory. A transaction sends its file until it is cancelled or closed. CFDP_OK,
 * CFDP_CLOSED, CFDP_IN_FOLDERS, CFDP_NO_SUCH_FILE, or CFDP_SOURCE_IN_USE if a transaction is
 * sending the file; unless it returns CFDP_OK, nothing changed. */
cfdp_answer cfdp_remove_source(cfdp_station *station, const void *name, size_t name_len);

/* Sends a file of the outbox, which the peer publishes under the name destination; *id is the
 * transaction. In a folder the file is looked for first. CFDP_OK, CFDP_CLOSED, 21 to 26 or
 * CFDP_NO_MEMORY; unless it is CFDP_OK no number is used. */
cfdp_answer cfdp_put(cfdp_station *station, const void *source, size_t source_len,
                     const void *destination, size_t destination_len, cfdp_id *id);

/* Cancels a transaction, and notifies the peer. CFDP_OK, CFDP_CLOSED, 31 to 34 or CFDP_NO_MEMORY;
 * unless it is CFDP_OK nothing has changed. The three below answer the same. */
cfdp_answer cfdp_cancel(cfdp_station *station, const cfdp_id *id);

/* Suspends a transaction: sends nothing of it, and lets no time run for it. */
cfdp_answer cfdp_suspend(cfdp_station *station, const cfdp_id *id);

/* Resumes a suspended transaction. */
cfdp_answer cfdp_resume(cfdp_station *station, const cfdp_id *id);

/* Asks the receiver of a file that this station sends for a Keep Alive if true, otherwise for a
 * NAK. */
cfdp_answer cfdp_prompt(cfdp_station *station, const cfdp_id *id, bool keep_alive);

/* ---- What it forgets. A station has room for 4,096 records of transactions at once. A transaction
 * that is over keeps its record until it is forgotten. */

/* Forgets the record of a transaction that is over. It is never opened again: an EOF or a
 * Finished that still comes of it is acknowledged, and anything else is passed over. CFDP_OK,
 * CFDP_CLOSED, CFDP_UNKNOWN, CFDP_STILL_OPEN, CFDP_ANSWER_DUE or CFDP_NO_MEMORY, the first that
 * holds; unless it is CFDP_OK nothing has changed. */
cfdp_answer cfdp_forget(cfdp_station *station, const cfdp_id *id);

/* Forgets the records of all transactions that are over, except those with an acknowledgement
 * due. CFDP_OK, CFDP_CLOSED, or CFDP_NO_MEMORY: some of them may be gone then. */
cfdp_answer cfdp_forget_closed(cfdp_station *station);

/* Says whether the record of a transaction was forgotten: *was is 1 if it was, otherwise 0. CFDP_OK
 * or CFDP_CLOSED. */
cfdp_answer cfdp_was_forgotten(const cfdp_station *station, const cfdp_id *id, uint8_t *was);

/* ---- What it has. */

enum {
    CFDP_SENDING = 1,    /* at the sender: the file goes out, until its receiver says Finished */
    CFDP_CANCELLING = 2, /* at the sender: it was cancelled, which isn't acknowledged yet */
    CFDP_RECEIVING = 3,  /* at the receiver: the file comes in */
    CFDP_FINISHING = 4,  /* at the receiver: it is over, and Finished isn't acknowledged yet */
    CFDP_OVER = 5        /* at either: nothing is waited for; the record stays until forgotten */
};

typedef struct cfdp_transaction {
    cfdp_id id;
    uint8_t phase; /* how far it has come */
} cfdp_transaction;

/* Gives the transaction at a cursor, and moves that on to the next one: *cursor must be 0
 * at first. They stand in order of opening, and one that is forgotten moves those after it up by
 * one. CFDP_OK, CFDP_CLOSED, or CFDP_NOTHING if there are no more. */
cfdp_answer cfdp_transactions(const cfdp_station *station, size_t *cursor, cfdp_transaction *out);

/* Returns how many more transactions there is room for, of 4,096 records; 0 if the handle is
 * closed. */
size_t cfdp_records_left(const cfdp_station *station);

/* ---- Down. */

/* Writes the next frame that must leave: polls until a whole frame waits, or nothing is due, and
 * fills up what is begun. Frames of directives go first; the virtual channel, frame[1] & 63,
 * says which lane it is. room must be cfdp_frame_len octets, no more and no less, or the answer is
 * CFDP_NO_ROOM. CFDP_OK, CFDP_CLOSED, CFDP_NOTHING if there is nothing to send, or
 * CFDP_NO_MEMORY: what was polled before waits for the next call. cfdp_poll, cfdp_flush and
 * cfdp_next_frame do the same step by step. */
cfdp_answer cfdp_transmit(cfdp_station *station, uint8_t *frame, size_t room);

/* Moves the PDU whose turn it is into the frames of its lane. CFDP_OK if one was moved: poll
 * again; CFDP_NOTHING if none is due: flush; CFDP_FULL if its lane has no room for it: take
 * frames off first; CFDP_SOURCE_FAULT if the outbox failed, for which the transaction is
 * cancelled: poll again; CFDP_CLOSED; or CFDP_NO_MEMORY: nothing has changed then. */
cfdp_answer cfdp_poll(cfdp_station *station);

/* Fills the begun frame of each lane, so that all that was polled can leave. CFDP_OK or
 * CFDP_CLOSED. */
cfdp_answer cfdp_flush(cfdp_station *station);

/* Returns the octets of each frame, in either lane; 0 if the handle is closed. */
size_t cfdp_frame_len(const cfdp_station *station);

/* Returns the most frames that can wait after a poll or a flush, both lanes together; 0 if the
 * handle is closed. */
size_t cfdp_frames_ahead(const cfdp_station *station);

/* Writes the next whole frame, and takes it off: the oldest one of directives, or if none of them
 * waits, of file data. room must be as for cfdp_transmit. CFDP_OK, CFDP_CLOSED, CFDP_NO_ROOM,
 * or CFDP_NOTHING if no whole frame waits. */
cfdp_answer cfdp_next_frame(cfdp_station *station, uint8_t *frame, size_t room);

/* Sets the operational control field of the frames that leave from now on, of both lanes, if those
 * that it sends have one; at first it is 0. CFDP_OK or CFDP_CLOSED. */
cfdp_answer cfdp_set_control_field(cfdp_station *station, uint32_t control);

/* ---- Up. */

/* Takes a frame of either lane, of any length and with any octets. What can't be used of it is
 * dropped and counted. CFDP_OK or CFDP_CLOSED. */
cfdp_answer cfdp_receive(cfdp_station *station, const void *frame, size_t len);

/* Writes the operational control field of the last received frame of a lane: CFDP_LANE_FILE_DATA or
 * CFDP_LANE_DIRECTIVES. A damaged frame is one of neither. CFDP_OK, CFDP_CLOSED, or CFDP_NOTHING if
 * none was received, or the frames that it receives have no such field. */
cfdp_answer cfdp_control_field(const cfdp_station *station, bool file_data, uint32_t *control);

/* How often something of a frame of either lane was dropped, by the cause (docs/FORMATS.md). No
 * count goes beyond the greatest of 64 bits. */
typedef struct cfdp_frame_drops {
    uint64_t bad_length;       /* it hasn't the octets of a frame */
    uint64_t bad_version;      /* its transfer frame version number isn't 01 */
    uint64_t other_profile;    /* it is replayed, or a reserved bit of its header is set */
    uint64_t other_spacecraft; /* it is of another spacecraft */
    uint64_t other_channel;    /* it is of another virtual channel */
    uint64_t only_idle;        /* it holds only idle data */
    uint64_t resync;           /* an incomplete packet was discarded */
    uint64_t bad_packet;       /* a packet's version number isn't 0 */
    uint64_t other_apid;       /* a packet is of another application process */
    uint64_t segmented;        /* a packet is a segment, or has a secondary header */
    uint64_t no_memory;        /* out of memory for the packets of a frame */
    uint64_t damaged;          /* its check says that it was damaged on the way */
} cfdp_frame_drops;

/* How often a PDU was dropped, by the cause. */
typedef struct cfdp_pdu_drops {
    uint64_t too_short;       /* it is shorter than a header */
    uint64_t bad_version;     /* the version of its header is another */
    uint64_t bad_crc;         /* its CRC is wrong */
    uint64_t bad_length;      /* its length isn't that of its header */
    uint64_t unacknowledged;  /* it is of class 1 */
    uint64_t bad_directive;   /* its directive code is none */
    uint64_t truncated;       /* its data field is too short */
    uint64_t trailing;        /* its data field is too long */
    uint64_t bad_tlv;         /* a TLV of it isn't whole */
    uint64_t bad_condition;   /* its condition code is none */
    uint64_t wrong_direction; /* its direction bit doesn't fit it */
    uint64_t not_for_us;      /* it is of other entities */
    uint64_t unknown;         /* its transaction has no record here */
    uint64_t table_full;      /* there was no room for one more record */
    uint64_t no_memory;       /* there was no memory for what it brings */
    uint64_t no_file;         /* a file name of it is empty */
} cfdp_pdu_drops;

/* How many PDUs were sent, each counted once: as it is polled, before its frames leave. */
typedef struct cfdp_sent_pdus {
    uint64_t file_data;        /* file data that were not sent before */
    uint64_t file_data_again;  /* those that were, and again since a NAK asked for them */
    uint64_t naks;             /* NAKs */
    uint64_t other_directives; /* all other directives, those that are sent again too */
} cfdp_sent_pdus;

typedef struct cfdp_counts {
    cfdp_sent_pdus sent;
    cfdp_frame_drops frames;
    cfdp_pdu_drops pdus;
} cfdp_counts;

/* What the station counts, from 0 when it is opened: what it sent, and what it dropped of what
 * came. CFDP_OK or CFDP_CLOSED. */
cfdp_answer cfdp_counters(const cfdp_station *station, cfdp_counts *counts);

/* How many causes there are for which something is dropped: those of frames, then those of PDUs, in
 * the order of the structs. */
enum {
    CFDP_DROPS = (sizeof(cfdp_frame_drops) + sizeof(cfdp_pdu_drops)) / sizeof(uint64_t)
};

/* How often something was dropped by one of them, 0 to CFDP_DROPS - 1; 0 of any other. */
static inline uint64_t cfdp_dropped(const cfdp_counts *counts, size_t drop)
{
    uint64_t count = 0;

    switch (drop) {
    case 0: count = counts->frames.bad_length; break;
    case 1: count = counts->frames.bad_version; break;
    case 2: count = counts->frames.other_profile; break;
    case 3: count = counts->frames.other_spacecraft; break;
    case 4: count = counts->frames.other_channel; break;
    case 5: count = counts->frames.only_idle; break;
    case 6: count = counts->frames.resync; break;
    case 7: count = counts->frames.bad_packet; break;
    case 8: count = counts->frames.other_apid; break;
    case 9: count = counts->frames.segmented; break;
    case 10: count = counts->frames.no_memory; break;
    case 11: count = counts->frames.damaged; break;
    case 12: count = counts->pdus.too_short; break;
    case 13: count = counts->pdus.bad_version; break;
    case 14: count = counts->pdus.bad_crc; break;
    case 15: count = counts->pdus.bad_length; break;
    case 16: count = counts->pdus.unacknowledged; break;
    case 17: count = counts->pdus.bad_directive; break;
    case 18: count = counts->pdus.truncated; break;
    case 19: count = counts->pdus.trailing; break;
    case 20: count = counts->pdus.bad_tlv; break;
    case 21: count = counts->pdus.bad_condition; break;
    case 22: count = counts->pdus.wrong_direction; break;
    case 23: count = counts->pdus.not_for_us; break;
    case 24: count = counts->pdus.unknown; break;
    case 25: count = counts->pdus.table_full; break;
    case 26: count = counts->pdus.no_memory; break;
    case 27: count = counts->pdus.no_file; break;
    default: break;
    }
    return count;
}

#ifndef CFDP_NO_TEXT
/* Returns what one of them says, as a text that stays. If CFDP_NO_TEXT is defined before this
 * header, no texts are part of the program: neither these nor those of cfdp_answer_text. */
static inline const char *cfdp_drop_text(size_t drop)
{
    const char *text = "unknown cause";

    switch (drop) {
    case 0: text = "wrong frame length"; break;
    case 1: text = "transfer frame version number must be 01"; break;
    case 2: text = "the replay flag or a reserved bit of the frame header is set"; break;
    case 3: text = "the frame has another spacecraft id"; break;
    case 4: text = "the frame is on another virtual channel"; break;
    case 5: text = "the frame holds only idle data"; break;
    case 6: text = "an incomplete packet was discarded"; break;
    case 7: text = "packet version number must be 0"; break;
    case 8: text = "the packet has another APID"; break;
    case 9: text = "the packet is a segment or has a secondary header"; break;
    case 10: text = "out of memory for the packets of a frame"; break;
    case 11: text = "the frame was damaged on the way"; break;
    case 12: text = "the PDU is shorter than its header"; break;
    case 13: text = "PDU version must be 1"; break;
    case 14: text = "the CRC of the PDU is wrong"; break;
    case 15: text = "the length in the PDU header is not the length of the data field"; break;
    case 16: text = "the PDU has unacknowledged mode (class 1)"; break;
    case 17: text = "unknown directive code"; break;
    case 18: text = "a field runs past the end of the data field"; break;
    case 19: text = "extra octets after the last field"; break;
    case 20: text = "a TLV option is incomplete"; break;
    case 21: text = "condition code must not be 12 or 13"; break;
    case 22: text = "the direction bit is wrong for this PDU"; break;
    case 23: text = "the PDU is not for this entity, or not from its peer"; break;
    case 24: text = "unknown transaction"; break;
    case 25: text = "the transaction table is full"; break;
    case 26: text = "out of memory for the PDU"; break;
    case 27: text = "a file name is empty"; break;
    default: break;
    }
    return text;
}
#endif

/* ---- Time, in any unit, from any start. */

/* Gives the time: each timer that is due fires once. If a time is before the last one given, it
 * counts as that. CFDP_OK, CFDP_CLOSED, or CFDP_NO_MEMORY: nothing has changed then, the time
 * neither. */
cfdp_answer cfdp_tick(cfdp_station *station, uint64_t now);

/* Writes when cfdp_tick must be called at the latest: the earliest time at which a timer is due.
 * CFDP_OK, CFDP_CLOSED, or CFDP_NOTHING if none is armed. */
cfdp_answer cfdp_next_timeout(const cfdp_station *station, uint64_t *deadline);

/* ---- Indications: what it reports to its user. */

enum {
    CFDP_TRANSACTION = 1,    /* a put was accepted */
    CFDP_EOF_SENT = 2,       /* the EOF was sent for the first time */
    CFDP_METADATA_RECV = 3,  /* Metadata came: size, both names */
    CFDP_EOF_RECV = 4,       /* an EOF without an error came */
    CFDP_FINISHED = 5,       /* it is over here: condition, delivery, status */
    CFDP_SUSPENDED = 6,      /* condition */
    CFDP_RESUMED = 7,
    CFDP_FAULT = 8,          /* condition */
    CFDP_ABANDONED = 9,      /* condition */
    CFDP_PROGRESS = 10       /* size: how far the receiver holds the file */
};

typedef struct cfdp_indication {
    cfdp_id id;
    uint64_t size;          /* kinds 3 and 10 */
    size_t source_len;      /* kind 3: octets of the name at the sender */
    size_t destination_len; /* kind 3: octets of the name at the receiver */
    uint8_t kind;
    uint8_t condition;      /* kinds 5, 6, 8, 9: CFDP_CONDITION_NO_ERROR and others */
    uint8_t delivery;       /* kind 5: CFDP_DELIVERY_COMPLETE or .._INCOMPLETE */
    uint8_t status;         /* kind 5: the status of the file, CFDP_FILE_RETAINED and others */
} cfdp_indication;

/* Octets that suffice for the names of every indication, and for the name of every file. */
enum { CFDP_NAMES = 510, CFDP_NAME = 255 };

/* Gives the next indication, which the station releases then; names gets the name at the sender,
 * and after it the name at the receiver. CFDP_OK, CFDP_CLOSED, CFDP_NOTHING if there is none, or
 * CFDP_NO_ROOM: it stays the next then. */
cfdp_answer cfdp_next_indication(cfdp_station *station, cfdp_indication *out, uint8_t *names,
                                 size_t room);

/* ---- The journal of a station (cfdp_open_folders_journal). */

/* Whether a station keeps a journal. */
enum {
    CFDP_JOURNAL_NONE = 0,     /* it was opened without */
    CFDP_JOURNAL_KEPT = 1,     /* what must be noted is on the device */
    CFDP_JOURNAL_NOT_KEPT = 2, /* it couldn't be written, and was removed: after a kill nothing goes
                                  on. It is tried again after 60 times `every` */
    CFDP_JOURNAL_STUCK = 3     /* it could neither be written nor removed: it says what isn't so any
                                  more. Send no more frames, close the handle and remove the file */
};

typedef struct cfdp_journal_info {
    uint32_t resumed;    /* open transactions that went on when the handle was opened */
    uint32_t lost;       /* transactions of the journal that could not be restored then */
    uint8_t state;       /* CFDP_JOURNAL_NONE and others */
    uint8_t was_damaged; /* 1 if a damaged journal was renamed then, otherwise 0 */
} cfdp_journal_info;

/* Gives how the journal fares, and what went on when the handle was opened. A program with a
 * journal asks once a turn, and doesn't send what it took in this turn if the answer is
 * CFDP_JOURNAL_STUCK. CFDP_OK or CFDP_CLOSED. */
cfdp_answer cfdp_journal_state(const cfdp_station *station, cfdp_journal_info *out);

/* Gives the next end of a transaction, of kind CFDP_FINISHED or CFDP_ABANDONED, that the program
 * may not have heard before an earlier run ended, and doesn't give it again before the next
 * opening: after cfdp_forget of its transaction and two ticks never again. CFDP_OK, CFDP_CLOSED, or
 * CFDP_NOTHING if there are no more. */
cfdp_answer cfdp_next_unheard(cfdp_station *station, cfdp_indication *out);

/* ---- The published files, if they are in memory; if a station has folders, these calls answer
 * CFDP_IN_FOLDERS, and its files lie in its folder. Their indexes (place) are 0, 1, .. in
 * ascending order of their names; a file that is published or removed may shift those after it.
 * Each stays until it is removed, another one is published under its name, or the station is
 * closed. */

typedef struct cfdp_file_info {
    size_t name_len;
    size_t size;
} cfdp_file_info;

/* Returns how many there are; 0 if the handle is closed, or has folders. */
size_t cfdp_file_count(const cfdp_station *station);

/* Writes how long one is, and its name. CFDP_OK, CFDP_CLOSED, CFDP_IN_FOLDERS, CFDP_NOTHING if
 * there are not so many, or CFDP_NO_ROOM. */
cfdp_answer cfdp_file(const cfdp_station *station, size_t place, cfdp_file_info *out, uint8_t *name,
                      size_t room);

/* Fills all of out with octets of one, from an offset on. CFDP_OK, CFDP_CLOSED, CFDP_IN_FOLDERS,
 * CFDP_NOTHING, or CFDP_BAD_ARGUMENT if the file ends before. */
cfdp_answer cfdp_read_file(const cfdp_station *station, size_t place, size_t offset, uint8_t *out,
                           size_t room);

/* Removes the file of a name; the indexes of those after it are one less then. Nothing else
 * changes, and a file that comes later under that name is published as ever. It needs no memory.
 * CFDP_OK, CFDP_CLOSED, CFDP_IN_FOLDERS, or CFDP_NOTHING if there is no file of that name. */
cfdp_answer cfdp_remove_file(cfdp_station *station, const void *name, size_t name_len);

/* ---- One PDU. */

typedef struct cfdp_pdu {
    cfdp_id id;
    uint64_t destination;  /* the entity that receives the file */
    uint64_t offset;       /* of file data; start of a NAK's scope; progress of a Keep Alive */
    uint64_t size;         /* of the file; end of a NAK's scope */
    size_t data_len;       /* octets of file data: the last ones of the PDU, except its CRC */
    size_t pairs;          /* ranges that a NAK asks for */
    uint32_t checksum;     /* of an EOF */
    uint8_t kind;          /* CFDP_PDU_FILE_DATA and others */
    uint8_t toward_sender; /* 1 if it goes toward the file's sender */
    uint8_t condition;     /* of an EOF, a Finished or an ACK */
    uint8_t delivery;      /* of a Finished */
    uint8_t status;        /* of the file (a Finished), or of the transaction (an ACK) */
    uint8_t acknowledged;  /* of an ACK: CFDP_PDU_EOF or CFDP_PDU_FINISHED */
    uint8_t checksum_kind; /* of Metadata: a checksum type */
    uint8_t keep_alive;    /* of a Prompt: 1 for a Keep Alive, 0 for a NAK */
    uint8_t large;         /* 1 if sizes and offsets have 8 octets, 0 if they have 4 */
    uint8_t crc;           /* 1 if the PDU ends in a CRC, of 2 octets, otherwise 0 */
} cfdp_pdu;

/* Reads a PDU. CFDP_OK, or CFDP_BAD_PDU and the number of the first thing that is wrong. */
cfdp_answer cfdp_decode(const void *pdu, size_t len, cfdp_pdu *out);

/* ---- Frames that only the holder of a key can have sent (CCSDS 355.0-B-2; FORMATS.md).
 *
 * A layer between the frames of a station, whose links must then have no fields, and those of the
 * link: seal each frame that cfdp_next_frame or cfdp_transmit gives, and give cfdp_receive those
 * that cfdp_open_frame accepts. A frame of the link has 10 octets more, the MAC, and the fields
 * below. The keys of the two directions must differ, and so must those of two links. Numbers must
 * never come back under a key, so a program must keep them over restarts: it must note a number
 * before it uses it. */

/* One direction with one key. All zero octets are none that can be used. */
typedef struct cfdp_security {
    uint64_t number;       /* to seal: of the next frame, from 1 on; to open: of the frame that
                              was accepted last, or 0. The calls count it on */
    uint16_t spi;          /* security parameter index, by which frames name the key, 1 to 65534 */
    uint8_t mac_len;       /* octets of the MAC that are sent, 16 to 32 */
    uint8_t insert_zone;   /* octets of the insert zone, 0 to 64 */
    uint8_t control_field; /* 1 if there is an operational control field, of 4 octets, or 0 */
    uint8_t error_control; /* 1 if there is a frame error control field, of 2 octets, otherwise 0 */
    uint8_t key[32];       /* octets drawn at random */
} cfdp_security;

/* Seals a frame of len octets into out, which has as many as a frame of the link. Its operational
 * control field says control, if it has one. CFDP_OK, CFDP_BAD_ARGUMENT, CFDP_NO_ROOM if the
 * frame has fewer than 6 octets or out another length, or CFDP_NUMBERS_SPENT. */
cfdp_answer cfdp_seal_frame(cfdp_security *security, const void *frame, size_t len,
                            uint32_t control, uint8_t *out, size_t room);

/* Verifies a received frame, whatever its octets are, and writes the station's frame over the
 * front of out. CFDP_OK, CFDP_BAD_ARGUMENT, CFDP_SHORT_FRAME to CFDP_REPLAYED, or CFDP_NO_ROOM
 * if out has fewer octets. While the peer changes its key, keep a struct for either key: if
 * one answers CFDP_UNKNOWN_SPI, copy its number into the other one and ask that. */
cfdp_answer cfdp_open_frame(cfdp_security *security, const void *frame, size_t len, uint8_t *out,
                            size_t room);

/* ---- Answers in words. */

#ifndef CFDP_NO_TEXT
/* Returns what an answer says, as a text that stays. */
static inline const char *cfdp_answer_text(cfdp_answer answer)
{
    const char *text = "unknown answer";

    switch (answer) {
    case CFDP_OK: text = "success"; break;
    case CFDP_CLOSED: text = "the handle is closed"; break;
    case CFDP_ALREADY_OPEN: text = "the handle is already open"; break;
    case CFDP_BAD_ARGUMENT: text = "a value is out of range"; break;
    case CFDP_NO_MEMORY: text = "out of memory"; break;
    case CFDP_NO_ROOM: text = "the buffer is too small, or has the wrong size"; break;
    case CFDP_NOTHING: text = "nothing available"; break;
    case CFDP_IN_FOLDERS: text = "not available: the files are in folders"; break;
    case CFDP_NO_OUTBOX: text = "cannot read the folder to send from"; break;
    case CFDP_NO_INBOX: text = "cannot use the folder to receive into"; break;
    case CFDP_INBOX_IN_USE: text = "another station already receives into that folder"; break;
    case CFDP_SOURCE_IN_USE: text = "a transaction is still sending the file"; break;
    case CFDP_NO_JOURNAL: text = "cannot read or write the journal"; break;
    case CFDP_JOURNAL_IN_USE: text = "another station has the journal"; break;
    case CFDP_JOURNAL_OF_OTHERS: text = "the journal is of another entity or peer"; break;
    case CFDP_JOURNAL_MISPLACED: text = "the journal must not lie in an inbox"; break;
    case CFDP_NAME_TAKEN: text = "a file of that name already exists"; break;
    case CFDP_NO_SUCH_FILE: text = "no such file"; break;
    case CFDP_BAD_NAME: text = "file names must be 1 to 255 octets that the folder allows"; break;
    case CFDP_TOO_LARGE: text = "file must be at most 2^48 octets"; break;
    case CFDP_TABLE_FULL: text = "the transaction table is full: forget some that are over"; break;
    case CFDP_NUMBERS_SPENT: text = "no sequence number is left"; break;
    case CFDP_SOURCE_FAULT: text = "the outbox could not read the file"; break;
    case CFDP_UNKNOWN: text = "unknown transaction"; break;
    case CFDP_ALREADY_CLOSED: text = "the transaction is over"; break;
    case CFDP_WRONG_SIDE: text = "only the file's sender can prompt"; break;
    case CFDP_ALREADY_SO: text = "already in that state"; break;
    case CFDP_STILL_OPEN: text = "the transaction is still open"; break;
    case CFDP_ANSWER_DUE: text = "an acknowledgement must be sent first"; break;
    case CFDP_FULL: text = "no room for the PDU: take frames off first"; break;
    case CFDP_DECODE_SHORT: text = "the PDU is shorter than its header"; break;
    case CFDP_DECODE_VERSION: text = "PDU version must be 1"; break;
    case CFDP_DECODE_CRC: text = "the CRC of the PDU is wrong"; break;
    case CFDP_DECODE_LENGTH:
        text = "the length in the PDU header is not the length of the data field";
        break;
    case CFDP_DECODE_UNACKNOWLEDGED: text = "the PDU has unacknowledged mode (class 1)"; break;
    case CFDP_DECODE_DIRECTIVE: text = "unknown directive code"; break;
    case CFDP_DECODE_TRUNCATED: text = "a field runs past the end of the data field"; break;
    case CFDP_DECODE_TRAILING: text = "extra octets after the last field"; break;
    case CFDP_DECODE_TLV: text = "a TLV option is incomplete"; break;
    case CFDP_DECODE_CONDITION: text = "condition code must not be 12 or 13"; break;
    case CFDP_BAD_SIZE:
        text = "size does not match: compile with the cfdp.h of this library";
        break;
    case CFDP_BAD_ID_WIDTH: text = "id_width must be 1 to 8"; break;
    case CFDP_BAD_ENTITY: text = "entity must fit in id_width octets"; break;
    case CFDP_BAD_PEER: text = "peer must fit in id_width octets and differ from entity"; break;
    case CFDP_BAD_NUMBER_WIDTH: text = "number_width must be 1 to 8"; break;
    case CFDP_BAD_SEGMENT: text = "segment must be 1 to 4096"; break;
    case CFDP_BAD_CHECKSUM: text = "checksum must be 0 to 3 or 15"; break;
    case CFDP_BAD_EOF_TIME: text = "eof_time must be at least 1"; break;
    case CFDP_BAD_NAK_TIME: text = "nak_time must be at least 1"; break;
    case CFDP_BAD_FINISHED_TIME: text = "finished_time must be at least 1"; break;
    case CFDP_BAD_INACTIVITY_TIME: text = "inactivity_time must be at least 1"; break;
    case CFDP_BAD_CAPACITY: text = "capacity must be 8192 to 65536"; break;
    case CFDP_BAD_SENDS_VIRTUAL_CHANNEL: text = "sends.virtual_channel must be 0 to 62"; break;
    case CFDP_BAD_SENDS_DATA_VIRTUAL_CHANNEL:
        text = "sends.data_virtual_channel must be 0 to 62 and not sends.virtual_channel";
        break;
    case CFDP_BAD_SENDS_ZONE: text = "sends.zone must be 16 to 2040"; break;
    case CFDP_BAD_SENDS_APID: text = "sends.apid must be 0 to 2046"; break;
    case CFDP_BAD_RECEIVES_VIRTUAL_CHANNEL:
        text = "receives.virtual_channel must be 0 to 62";
        break;
    case CFDP_BAD_RECEIVES_DATA_VIRTUAL_CHANNEL:
        text = "receives.data_virtual_channel must be 0 to 62 and not receives.virtual_channel";
        break;
    case CFDP_BAD_RECEIVES_ZONE: text = "receives.zone must be 16 to 2040"; break;
    case CFDP_BAD_RECEIVES_APID: text = "receives.apid must be 0 to 2046"; break;
    case CFDP_BAD_ON_ACK_LIMIT: text = "on_ack_limit must be 0 to 3"; break;
    case CFDP_BAD_ON_NAK_LIMIT: text = "on_nak_limit must be 0 to 3"; break;
    case CFDP_BAD_ON_INACTIVITY: text = "on_inactivity must be 0 to 3"; break;
    case CFDP_BAD_SENDS_INSERT_ZONE: text = "sends.insert_zone must be 0 to 64"; break;
    case CFDP_BAD_SENDS_CONTROL_FIELD: text = "sends.control_field must be 0 or 1"; break;
    case CFDP_BAD_SENDS_ERROR_CONTROL: text = "sends.error_control must be 0 or 1"; break;
    case CFDP_BAD_PDU_CRC: text = "pdu_crc must be 0 or 1"; break;
    case CFDP_BAD_RECEIVES_INSERT_ZONE: text = "receives.insert_zone must be 0 to 64"; break;
    case CFDP_BAD_RECEIVES_CONTROL_FIELD: text = "receives.control_field must be 0 or 1"; break;
    case CFDP_BAD_RECEIVES_ERROR_CONTROL: text = "receives.error_control must be 0 or 1"; break;
    case CFDP_SHORT_FRAME: text = "the frame is too short"; break;
    case CFDP_DAMAGED_FRAME: text = "the frame was damaged on the way"; break;
    case CFDP_UNKNOWN_SPI: text = "no key has the frame's security parameter index"; break;
    case CFDP_NOT_AUTHENTIC: text = "the frame's MAC is wrong"; break;
    case CFDP_REPLAYED:
        text = "the frame's sequence number is not greater than the last one";
        break;
    default: break;
    }
    return text;
}
#endif

#ifdef __cplusplus
}
#endif

#endif
