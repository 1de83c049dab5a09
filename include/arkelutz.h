/*
 * The agent's calls, for C (C99 and later) and C++ (C++11 and later). To link them on x86-64 or on SPARC V9:
 *     tools/build exports && cc -Iinclude host.c target/staticlib/libexports.a
 *     sparc/build && sparc64-linux-gnu-gcc -Iinclude host.c target/sparc64/libarkelutz.a
 * tools/pkgconfig writes target/staticlib/arkelutz.pc for pkg-config.
 *
 * Every call checks all that it is given and is proved to do nothing undefined on any state words, lengths and numbers. What C must see to:
 *
 * - Lengths: each pointer has as many elements as the length beside it says, state has ARKELUTZ_STATE_WORDS words, front_words
 *   ARKELUTZ_FRONT_WORDS words and front_bytes ARKELUTZ_FRONT_BYTES bytes.
 * - NULL: only where the length beside it is 0, and then it is never read: an empty list, message, piece or run is an empty one, an empty
 *   journal or output is refused (1, 2). What has no length beside it, as state, pages, delay, given and length, is never NULL.
 * - Alignment: that of uint64_t for words, as C gives it to arrays of them; bytes may stand anywhere.
 * - Overlap: no two things that one call is lent overlap where one of them is written.
 * - One call at a time on a state with its journal and its front: a call takes no lock and is not atomic. Calls on different states may be
 *   made at the same time, since there is no data but what is lent.
 *
 * Nothing is allocated, nothing is kept between calls but in what the caller lends, no call waits, and each ends. Undefined in the library are
 * memcpy and memset alone. Stack on x86-64: arkelutz_setup a state (15,880 bytes) and less than 1 KB, every other call
 * less than 1 KB; tools/stack counts it. On SPARC V9, where a frame has 176 bytes more for its register window, sparc/kernel counts it.
 *
 * refusal is 0 where the call was accepted, else a number of document 01 (below); then nothing was written anywhere, but by arkelutz_setup
 * the state of empty lists, by arkelutz_work 0 to pages, by arkelutz_take 0 to delay and by arkelutz_piece 0 to given and to length.
 */
#ifndef ARKELUTZ_H
#define ARKELUTZ_H

#include <stddef.h>
#include <stdint.h>

#ifdef __cplusplus
extern "C" {
#endif

#define ARKELUTZ_STATE_WORDS 1985
#define ARKELUTZ_JOURNAL_WORDS 128 /* every call but show and reopen asks for a journal of just this length */
#define ARKELUTZ_OUTPUT_BYTES 2592 /* and each of these but setup and drain for an output of this length or more */

/*
 * Refusals, by document 01's table, and what a host does about each. Refused, every call but setup has done nothing, and can be made again.
 */
#define ARKELUTZ_ACCEPTED 0
#define ARKELUTZ_REFUSED_JOURNAL 1     /* journal_words is not ARKELUTZ_JOURNAL_WORDS: a fault of the host's own; lend the journal */
#define ARKELUTZ_REFUSED_OUTPUT 2      /* out_bytes is below ARKELUTZ_OUTPUT_BYTES: a fault of the host's own; lend a longer output */
#define ARKELUTZ_REFUSED_RANGE 3       /* channel or service above 3, permit's service not 2 or 3, budget 0 or above 65,535: the host's own */
#define ARKELUTZ_REFUSED_HELD 4        /* 64 entries are held: drain, save what was drained, and make the same call again */
#define ARKELUTZ_REFUSED_NUMBERS 5     /* entry number 4,294,967,295 is used: drain what is held, save it, and set up anew; nothing else helps */
#define ARKELUTZ_REFUSED_NOT_ALLOWED 6 /* offer: channel closed or service not idle; withdraw: service idle; work: nothing outstanding;
                                          take: no order. Not a fault: a host may work and take until it is told so */
#define ARKELUTZ_REFUSED_LIST 7        /* setup: a list is not whole blocks, devices or ids, or breaks a rule: correct the list */
#define ARKELUTZ_REFUSED_NOT_SOUND 8   /* state or front is not what a call left: no setup was accepted, or something wrote over it. Trust none
                                          of it; save the journal's words if they are to be looked at, and set up anew */

/*
 * A virtual device, as a device list has it: 36 words. The name is its bytes with their zero (1 to 256), eight to a word, the most significant first, so that
 * on a big-endian machine they stand in memory as they are; the bytes after it in its last word are 0.
 */
#define ARKELUTZ_DEVICE_WORDS 36
#define ARKELUTZ_NAME_BYTES 256

struct arkelutz_device {
    uint64_t id;
    uint64_t configured; /* 0 or 1 */
    uint64_t busy;       /* 0 or 1 */
    uint64_t name_bytes;
    uint64_t name[ARKELUTZ_NAME_BYTES / 8];
};

/*
 * An id of a service that the other end may register, as an id list has it: 7 words. The id is its bytes with their zero (1 to 32), held as a device's name is.
 */
#define ARKELUTZ_ID_WORDS 7
#define ARKELUTZ_ID_BYTES 32

struct arkelutz_id {
    uint64_t major;         /* up to 65,535 */
    uint64_t highest_minor; /* up to 65,535 */
    uint64_t id_bytes;
    uint64_t id[ARKELUTZ_ID_BYTES / 8];
};

/* Our handles have this bit over the number of the offer's entry; those that the other end chooses have not. */
#define ARKELUTZ_TOP_BIT ((uint64_t)1 << 63)

/* Writes the bytes of a string into words, on either byte order, and returns how many there are with the zero; at most one more than the words hold. */
static inline uint64_t arkelutz_put_string(uint64_t *words, size_t room, const char *string)
{
    size_t bytes = 0;

    for (size_t i = 0; i < room / 8; i++)
        words[i] = 0;
    for (; string[bytes] != 0 && bytes < room; bytes++)
        words[bytes / 8] |= (uint64_t)(unsigned char)string[bytes] << (56 - bytes % 8 * 8);
    return bytes + 1;
}

/* Gives a device the name that a string has, or an id its bytes. A string of more than 255 or 31 bytes gives a length that setup refuses. */
static inline void arkelutz_name_device(struct arkelutz_device *device, const char *name)
{
    device->name_bytes = arkelutz_put_string(device->name, ARKELUTZ_NAME_BYTES, name);
}

static inline void arkelutz_name_id(struct arkelutz_id *id, const char *bytes)
{
    id->id_bytes = arkelutz_put_string(id->id, ARKELUTZ_ID_BYTES, bytes);
}

struct arkelutz_answer {
    uint64_t refusal;
    size_t length; /* of the reply, at the start of the output */
};

struct arkelutz_drained {
    uint64_t refusal;
    size_t entries; /* at the start of the run, two words each */
};

/* An order for the host: 0 none, 1 shutdown, 2 panic. */
#define ARKELUTZ_ORDER_NONE 0
#define ARKELUTZ_ORDER_SHUTDOWN 1
#define ARKELUTZ_ORDER_PANIC 2

struct arkelutz_order {
    uint64_t refusal;
    uint64_t order;
};

/*
 * Takes a block list, five words a block and at most 64 blocks, a device list, ARKELUTZ_DEVICE_WORDS words a device, and an id list, ARKELUTZ_ID_WORDS words an id,
 * writes the first state and, to the journal, entry number 1, the edition mark, and returns the refusal: 0, 1 or 7. A state that a refused setup wrote, or that is
 * all zeros, makes every call but show refuse with 8 until a setup is accepted.
 */
uint64_t arkelutz_setup(uint64_t *state, const uint64_t *blocks, size_t block_words, const uint64_t *devices,
                        size_t device_words, const uint64_t *ids, size_t id_words, uint64_t *journal,
                        size_t journal_words);

/* Receives a message on a channel. */
struct arkelutz_answer arkelutz_receive(uint64_t *state, size_t channel, const uint8_t *message, size_t message_bytes,
                                        uint64_t *journal, size_t journal_words, uint8_t *out, size_t out_bytes);

/* Offers a service to a channel's other end, or takes it back. */
struct arkelutz_answer arkelutz_offer(uint64_t *state, size_t channel, size_t service, uint64_t *journal,
                                      size_t journal_words, uint8_t *out, size_t out_bytes);
struct arkelutz_answer arkelutz_withdraw(uint64_t *state, size_t channel, size_t service, uint64_t *journal,
                                         size_t journal_words, uint8_t *out, size_t out_bytes);

/* Closes a channel. */
struct arkelutz_answer arkelutz_close(uint64_t *state, size_t channel, uint64_t *journal, size_t journal_words,
                                      uint8_t *out, size_t out_bytes);

/* Does one step of the outstanding removal, with a budget of 1 to 65,535 pages, and writes the pages that it moved. */
struct arkelutz_answer arkelutz_work(uint64_t *state, uint64_t budget, uint64_t *journal, size_t journal_words,
                                     uint8_t *out, size_t out_bytes, uint64_t *pages);

/* Sets whether requests to service 2 (shutdown) or 3 (panic) are permitted: any number but 0. They are denied until set. */
struct arkelutz_answer arkelutz_permit(uint64_t *state, size_t service, uint64_t permitted, uint64_t *journal,
                                       size_t journal_words, uint8_t *out, size_t out_bytes);

/* Takes the order that a permitted request left, and writes a shutdown's delay in milliseconds, else 0. */
struct arkelutz_order arkelutz_take(uint64_t *state, uint64_t *journal, size_t journal_words, uint8_t *out,
                                    size_t out_bytes, uint64_t *delay);

/*
 * Copies the oldest entries to the start of a run, as many whole ones as are held and fit, and forgets them. The journal is not written, so that a host which must lose none
 * where a write fails can drain a copy of the state, save the entries, and only then put the copy in the state's place: examples/save.c.
 */
struct arkelutz_drained arkelutz_drain(uint64_t *state, const uint64_t *journal, size_t journal_words, uint64_t *run,
                                       size_t run_words);

/* The length of the host's own part of a data message, which begins at byte 16; 0 if it is not for the host. */
size_t arkelutz_show(const uint64_t *state, size_t channel, const uint8_t *message, size_t message_bytes);

/*
 * Entries: two words each. The first has its fields from the most significant bit on: number 32 bits, kind 5, channel 2, service 2, record 4,
 * code 3, count 16. Those that a kind does not name, and its second word w where it names none, are 0. In brackets: what a kind names beside
 * the channel.
 */
#define ARKELUTZ_KIND_READY 1            /* the channel is ready */
#define ARKELUTZ_KIND_CLOSED 2           /* closed (w: 0 by the host, 1 by a message) */
#define ARKELUTZ_KIND_VERSION_REFUSED 3  /* INIT_REQ refused (count: the major asked) */
#define ARKELUTZ_KIND_OFFERED 4          /* a service offered (service) */
#define ARKELUTZ_KIND_REGISTERED 5       /* registered (service, count: minor, w: handle) */
#define ARKELUTZ_KIND_OFFER_REFUSED 6    /* offer refused (service) */
#define ARKELUTZ_KIND_ENDED 7            /* a service's registration or offer ended (service) */
#define ARKELUTZ_KIND_DELIVERED 8        /* data delivered to the host (service); no service's data is now, but old journals have it */
#define ARKELUTZ_KIND_DATA_REFUSED 9     /* data under no registered handle (w: handle) */
#define ARKELUTZ_KIND_ANSWERED 10        /* a request answered, nothing changed (service 0 or 1, code, w: request number) */
#define ARKELUTZ_KIND_CONFIGURED 11      /* blocks configured (w: bit i for block i) */
#define ARKELUTZ_KIND_BEGUN 12           /* a removal begun (count: records, w: request number) */
#define ARKELUTZ_KIND_CANCELLED 13       /* a removal marked cancelled (w: request number) */
#define ARKELUTZ_KIND_COLLECTED 14       /* pages collected (count: pages) */
#define ARKELUTZ_KIND_SETTLED 15         /* a record settled (code, count: pages moved, w: arkelutz_settled_block and arkelutz_settled_record) */
#define ARKELUTZ_KIND_REMOVAL_END 16     /* a removal's end (code, count: 1 if a reply was sent, w: request number) */
#define ARKELUTZ_KIND_NOTED 17           /* any other message (w: its type) */
#define ARKELUTZ_KIND_DEVICE 18          /* a device asked for (code: result, count: its place, w: 1 if it is now configured) */
#define ARKELUTZ_KIND_PERMITTED 19       /* a permission set (no channel; service, code: 1 if permitted) */
#define ARKELUTZ_KIND_TAKEN 20           /* the order taken (no channel) */
#define ARKELUTZ_KIND_ORDERED 21         /* a request to shut down or to panic answered (service, code: result, w: delay of an order left) */
#define ARKELUTZ_KIND_PEER_REGISTERED 22 /* the other end's service registered (record: its id's place, count: minor, w: handle) */
#define ARKELUTZ_KIND_PEER_ENDED 23      /* and ended (w: handle) */
#define ARKELUTZ_KIND_PEER_DATA 24       /* data for it: arkelutz_show gives it */
#define ARKELUTZ_KIND_MARK 31            /* the edition mark, entry number 1 (no channel) */

static inline uint32_t arkelutz_entry_number(uint64_t first) { return (uint32_t)(first >> 32); }
static inline unsigned arkelutz_entry_kind(uint64_t first) { return (unsigned)(first >> 27 & 0x1f); }
static inline unsigned arkelutz_entry_channel(uint64_t first) { return (unsigned)(first >> 25 & 0x3); }
static inline unsigned arkelutz_entry_service(uint64_t first) { return (unsigned)(first >> 23 & 0x3); }
static inline unsigned arkelutz_entry_record(uint64_t first) { return (unsigned)(first >> 19 & 0xf); }
static inline unsigned arkelutz_entry_code(uint64_t first) { return (unsigned)(first >> 16 & 0x7); }
static inline unsigned arkelutz_entry_count(uint64_t first) { return (unsigned)(first & 0xffff); }

/* The block and the record of a second word of ARKELUTZ_KIND_SETTLED. */
static inline unsigned arkelutz_settled_block(uint64_t second) { return (unsigned)(second & 0x3f); }
static inline unsigned arkelutz_settled_record(uint64_t second) { return (unsigned)(second >> 6 & 0x3f); }

/*
 * The front: a channel's stream in pieces. It is lent words and bytes of its own, all 0 at first, and keeps at most one unfinished message a channel.
 */
#define ARKELUTZ_FRONT_WORDS 8
#define ARKELUTZ_FRONT_BYTES 16416

struct arkelutz_pieced {
    uint64_t refusal;
    size_t taken; /* bytes: all, or those to the end of the one message that was given to the agent; offer the others next */
};

/*
 * Takes a piece of any length. 1 is written to given where a message was given to the agent, else 0, and to length the reply's length. A refused piece has taken nothing;
 * where the journal is full (4), drain and offer it again. After a message with a payload_len above 4,096, which closes the channel, pieces are taken and dropped until
 * arkelutz_reopen, which empties the channel's front and returns the refusal: 0, 3 or 8.
 */
struct arkelutz_pieced arkelutz_piece(uint64_t *front_words, uint8_t *front_bytes, uint64_t *state, size_t channel,
                                       const uint8_t *piece, size_t piece_bytes, uint64_t *journal,
                                       size_t journal_words, uint8_t *out, size_t out_bytes, uint64_t *given,
                                       size_t *length);
uint64_t arkelutz_reopen(uint64_t *front_words, const uint8_t *front_bytes, const uint64_t *state, size_t channel);

#ifdef __cplusplus
}
#endif

#endif
