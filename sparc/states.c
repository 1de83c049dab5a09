/*
 * Calls on made states, the same on every machine: states CALLS SEED.
 *
 * A state is set up from random lists of blocks, devices and ids and brought on by messages; before a call some of its words may be replaced by
 * random ones. Each call writes a line with what it returned and a hash, which goes on from call to call, of every word of the state and the
 * journal, every byte of the output and every word of the run after it, and after a call of the front of all words and bytes of that; each
 * WORDS_EVERY calls the state's words follow. Before a call of the front some of its words or bytes may be replaced. At the end stand the
 * answers of each call by refusal number. It fails if a call was never accepted, an order of either kind never taken, no state was unsound, the
 * other end never had a service registered or ended, show never had a part, or one of the counts of fronts is 0.
 */
#include "arkelutz.h"

#include <inttypes.h>
#include <stdio.h>
#include <stdlib.h>
#include <string.h>

#define CHANNELS 4
#define SERVICES 4
#define BLOCKS 64
#define BLOCK_WORDS 5
#define DEVICES 32
#define DEVICE_WORDS 36
#define NAME 4 /* the first of a device's words that hold its name */
#define NAME_WORDS 32
#define DEVICE_COUNT 583 /* the state's word before those of devices */
#define PERMISSION (DEVICE_COUNT + 1 + DEVICES * DEVICE_WORDS) /* the first of two permissions, the order and its delay */
#define IDS 16
#define ID_WORDS 7
#define ID 3 /* the first of an id's words that hold it */
#define ID_BYTES 32
#define ID_COUNT (PERMISSION + 4) /* the state's word before those of ids; those of peer registrations follow them */
#define PEERS 4 /* handles that the other end chooses */
#define SHUTDOWN 2 /* the service domain-shutdown; domain-panic is the next one */
#define ORDERS 3   /* none, shutdown, panic */
#define RECORDS 64
#define PAGE 8192
#define SPARE 28 /* bytes of output past those that a call asks for */
#define MESSAGE_BYTES 4112 /* more than the longest message */
#define HEADER_BYTES 8
#define MOST_PAYLOAD 4096
#define ROOM_BYTES (HEADER_BYTES + MOST_PAYLOAD) /* a channel's room in the front's bytes */
#define STREAM_BYTES (3 * MESSAGE_BYTES)
#define CALLS_A_STATE 80
#define CALLS_REFUSED 4 /* on the state that a refused setup gives */
#define WORDS_EVERY 997
#define REFUSALS 9
#define UNSOUND 8

enum call { SETUP, RECEIVE, OFFER, WITHDRAW, CLOSE, WORK, DRAIN, SHOW, PERMIT, TAKE, PIECE, REOPEN, CALLS };
static const char *const names[CALLS] = {"setup", "receive", "offer",  "withdraw", "close", "work",
                                         "drain", "show",    "permit", "take",     "piece", "reopen"};

static uint64_t state[ARKELUTZ_STATE_WORDS], journal[ARKELUTZ_JOURNAL_WORDS], run[ARKELUTZ_JOURNAL_WORDS];
static uint8_t out[ARKELUTZ_OUTPUT_BYTES + SPARE], message[MESSAGE_BYTES];
static size_t message_bytes;
static uint64_t list[BLOCKS * BLOCK_WORDS + 1];
static size_t list_words;
static uint64_t devices[(DEVICES + 1) * DEVICE_WORDS + 1];
static size_t device_words;
static uint64_t ids[(IDS + 1) * ID_WORDS + 1];
static size_t id_words;
static uint64_t front_words[ARKELUTZ_FRONT_WORDS];
static uint8_t front_bytes[ARKELUTZ_FRONT_BYTES], streams[CHANNELS][STREAM_BYTES];
static size_t stream_bytes[CHANNELS]; /* what the other end has sent and the front has not taken */
static uint64_t handles[CHANNELS][SERVICES], request;
static uint64_t counts[CALLS][REFUSALS], taken[ORDERS], parts, registered, ended, done, seed, hash = 14695981039346656037u;
static uint64_t given_whole, given_joined, over, dropped, full, unsound_fronts;

static uint64_t any(void) /* splitmix64 */
{
    uint64_t z = seed += 0x9e3779b97f4a7c15u;
    z = (z ^ z >> 30) * 0xbf58476d1ce4e5b9u;
    z = (z ^ z >> 27) * 0x94d049bb133111ebu;
    return z ^ z >> 31;
}

/* C leaves the order of an expression's operands open: no expression has two random numbers, but where one is asked for by another. */
static uint64_t below(uint64_t n) { return any() % n; }

/* a number of any size */
static uint64_t sized(void)
{
    uint64_t shift = below(64);
    return any() >> shift;
}

static void add(uint64_t word) { hash = (hash ^ word) * 1099511628211u; }

static void add_words(const uint64_t *words, size_t count)
{
    for (size_t i = 0; i < count; i++)
        add(words[i]);
}

static void add_bytes(const uint8_t *bytes, size_t count)
{
    for (size_t i = 0; i < count; i++)
        add(bytes[i]);
}

static void print_words(void)
{
    for (size_t i = 0; i < ARKELUTZ_STATE_WORDS; i++)
        printf("%016" PRIx64 "%c", state[i], i % 8 == 7 || i == ARKELUTZ_STATE_WORDS - 1 ? '\n' : ' ');
}

/* Writes what a call returned and left. */
static void told(enum call call, uint64_t refusal, uint64_t length, uint64_t pages)
{
    add(call);
    add(refusal);
    add(length);
    add(pages);
    add_words(state, ARKELUTZ_STATE_WORDS);
    add_words(journal, ARKELUTZ_JOURNAL_WORDS);
    add_words(run, ARKELUTZ_JOURNAL_WORDS);
    add_bytes(out, sizeof out);
    if (call == PIECE || call == REOPEN) {
        add_words(front_words, ARKELUTZ_FRONT_WORDS);
        add_bytes(front_bytes, sizeof front_bytes);
    }
    if (refusal >= REFUSALS) {
        printf("%s: no such refusal: %" PRIu64 "\n", names[call], refusal);
        exit(1);
    }
    counts[call][refusal]++;
    printf("%s %" PRIu64 " %" PRIu64 " %" PRIu64 " %016" PRIx64 "\n", names[call], refusal, length, pages, hash);
    if (++done % WORDS_EVERY == 0)
        print_words();
}

static void put(uint64_t number, unsigned bytes)
{
    while (bytes-- > 0)
        message[message_bytes++] = (uint8_t)(number >> 8 * bytes);
}

static void header(uint32_t type, uint32_t payload)
{
    message_bytes = 0;
    put(type, 4);
    put(payload, 4);
}

/* A handle of the channel, or any number. */
static uint64_t handle_of(uint64_t channel, uint64_t service)
{
    return channel < CHANNELS && below(12) ? handles[channel][service] : sized();
}

/* A REG_REQ of the other end: of an id of the list, or of none. */
static void put_registration(void)
{
    uint64_t listed = id_words / ID_WORDS;
    const uint64_t *id = ids + ID_WORDS * below(listed ? listed : 1);
    uint64_t bytes = below(8) && id[2] && id[2] <= ID_BYTES ? id[2] : 1 + below(ID_BYTES);

    header(3, (uint32_t)(12 + bytes));
    put(below(10) ? below(PEERS) : sized(), 8);
    put(below(8) ? id[0] : below(4), 2);
    put(below(4), 2);
    for (uint64_t i = 0; i + 1 < bytes; i++)
        put(id[ID + i / 8] >> (56 - 8 * (i % 8)), 1);
    put(0, 1);
}

/* An UNREG or data under a handle of the other end. */
static void put_peer(void)
{
    uint64_t bytes = below(3) ? below(20) : 0;

    header(bytes ? 9 : 6, (uint32_t)(8 + bytes));
    put(below(PEERS), 8);
    for (uint64_t i = 0; i < bytes; i++)
        put(below(256), 1);
}

/* A memory request: of blocks of the list, or of none. */
static void put_request(uint64_t channel)
{
    static const uint16_t types[] = {0x4d43, 0x4d43, 0x4d55, 0x4d55, 0x4d51, 0x4d51, 0x4d53, 0x4d4e, 0x4d00};
    uint64_t type = types[below(sizeof types / sizeof *types)];
    uint64_t listed = list_words / BLOCK_WORDS;
    uint64_t records = type == 0x4d53 || type == 0x4d4e ? 0 : 1 + below(below(4) ? 3 : RECORDS);

    header(9, (uint32_t)(24 + 16 * records));
    put(handle_of(channel, 0), 8);
    put(type, 4);
    put(records, 4);
    put(below(10) ? ++request : sized(), 8);
    for (uint64_t i = 0; i < records; i++) {
        const uint64_t *block = list + BLOCK_WORDS * below(listed ? listed : 1);
        put(below(10) ? block[0] : sized(), 8);
        put(below(10) ? block[1] * PAGE : sized(), 8);
    }
}

/* A device request: of a device of the list, or of none. */
static void put_device(uint64_t channel)
{
    static const uint32_t types[] = {0x494f43, 0x494f43, 0x494f55, 0x494f55, 0x494f46, 0x494f53, 0x494f44};
    uint64_t type = types[below(sizeof types / sizeof *types)];
    uint64_t listed = device_words / DEVICE_WORDS;
    const uint64_t *device = devices + DEVICE_WORDS * below(listed ? listed : 1);
    uint64_t bytes = below(8) && device[3] <= 8 * NAME_WORDS ? device[3] : below(300);

    header(9, (uint32_t)(28 + bytes));
    put(handle_of(channel, 1), 8);
    put(sized(), 8);
    put(below(10) ? device[0] : sized(), 8);
    put(type, 4);
    for (uint64_t i = 0; i < bytes; i++)
        put(device[NAME + i / 8 % NAME_WORDS] >> (56 - 8 * (i % 8)), 1);
}

/* A request of domain-shutdown or domain-panic, of the right length or of another. */
static void put_order(uint64_t channel)
{
    uint64_t service = SHUTDOWN + below(2), right = service == SHUTDOWN ? 12 : 8, bytes = below(4) ? right : below(16);

    header(9, (uint32_t)(8 + bytes));
    put(handle_of(channel, service), 8);
    for (uint64_t i = 0; i < bytes; i++)
        put(below(4) ? below(256) : 255 * below(2), 1);
}

/* Data for any service but dr-mem. */
static void put_data(uint64_t channel)
{
    header(9, 24);
    put(handle_of(channel, 1 + below(SERVICES - 1)), 8);
    put(any(), 8);
    put(any(), 8);
}

static void make_message(uint64_t channel)
{
    uint32_t type;
    uint8_t bit;

    switch (below(32)) {
    case 26:
    case 27:
    case 28:
        put_registration();
        break;
    case 29:
    case 30:
    case 31:
        put_peer();
        break;
    case 0:
        header(0, 4);
        put(below(6) ? 1 : below(4), 2);
        put(below(3), 2);
        break;
    case 1:
    case 2:
        header(4, 10);
        put(handle_of(channel, below(SERVICES)), 8);
        put(below(3), 2);
        break;
    case 3:
        if (below(2)) {
            header(5, 18);
            put(handle_of(channel, below(SERVICES)), 8);
            put(any(), 8);
            put(1, 2);
        } else {
            header(6, 8);
            put(handle_of(channel, below(SERVICES)), 8);
        }
        break;
    case 4:
        put_data(channel);
        break;
    case 5:
    case 6:
    case 7:
    case 8:
    case 9:
    case 10:
        put_device(channel);
        break;
    case 11:
        type = (uint32_t)below(12);
        header(type, (uint32_t)(below(4) ? 16 : sized()));
        put(any(), 8);
        put(any(), 8);
        break;
    case 12:
    case 13:
    case 14:
    case 15:
        put_order(channel);
        break;
    default:
        put_request(channel);
    }
    if (below(40) == 0) {
        bit = (uint8_t)(1 << below(8));
        message[below(message_bytes)] ^= bit;
    }
    if (below(40) == 0)
        message_bytes = below(message_bytes + 1);
}

static size_t journal_words(void) { return below(60) ? ARKELUTZ_JOURNAL_WORDS : below(ARKELUTZ_JOURNAL_WORDS); }
static size_t out_bytes(void) { return below(60) ? ARKELUTZ_OUTPUT_BYTES + below(SPARE + 1) : below(ARKELUTZ_OUTPUT_BYTES); }

static void receive(uint64_t channel)
{
    size_t words = journal_words(), bytes = out_bytes();
    struct arkelutz_answer a = arkelutz_receive(state, channel, message, message_bytes, journal, words, out, bytes);
    told(RECEIVE, a.refusal, a.length, 0);
    registered += a.length > 0 && out[3] == 4;
    ended += a.length > 0 && out[3] == 7 && out[8] < 0x80;
}

static void offer(uint64_t channel, uint64_t service)
{
    size_t words = journal_words(), bytes = out_bytes();
    struct arkelutz_answer a = arkelutz_offer(state, channel, service, journal, words, out, bytes);
    told(OFFER, a.refusal, a.length, 0);
    if (a.refusal)
        return;
    handles[channel][service] = 0;
    for (size_t i = 8; i < 16; i++)
        handles[channel][service] = handles[channel][service] << 8 | out[i];
}

/* A device with a name of so many bytes; the words past the name may be anything. */
static void make_device(uint64_t *device, uint64_t id, uint64_t bytes)
{
    device[0] = id;
    device[1] = below(2);
    device[2] = below(2);
    device[3] = bytes;
    for (uint64_t i = 0; i + 1 < bytes; i++) {
        uint64_t byte = 1 + below(below(2) ? 2 : 255);
        device[NAME + i / 8] |= byte << (56 - 8 * (i % 8));
    }
    if (below(2))
        return;
    for (uint64_t i = (bytes + 7) / 8; i < NAME_WORDS; i++)
        device[NAME + i] = any();
}

static void make_devices(void)
{
    uint64_t count = below(4) ? below(6) : below(DEVICES + 2);

    memset(devices, 0, sizeof devices);
    device_words = count * DEVICE_WORDS;
    for (uint64_t i = 0; i < count; i++) {
        uint64_t bytes = 1 + below(below(4) ? 8 : 8 * NAME_WORDS), id = below(8) ? 3 * i : below(9);
        make_device(devices + i * DEVICE_WORDS, id, bytes);
    }
    if (below(8) == 0) {
        uint64_t word = sized();
        devices[below(device_words + 1)] = word;
    }
    if (below(30) == 0)
        device_words = below(device_words + 2);
}

/* An id of so many bytes, told apart by its first; the words past it may be anything. */
static void make_id(uint64_t *id, uint64_t first, uint64_t bytes)
{
    id[0] = below(3);
    id[1] = below(4);
    id[2] = bytes;
    for (uint64_t i = 0; i + 1 < bytes; i++) {
        uint64_t byte = i ? 1 + below(255) : first;
        id[ID + i / 8] |= byte << (56 - 8 * (i % 8));
    }
    if (below(2))
        return;
    for (uint64_t i = (bytes + 7) / 8; i < ID_BYTES / 8; i++)
        id[ID + i] = any();
}

static void make_ids(void)
{
    uint64_t count = below(4) ? below(6) : below(IDS + 2);

    memset(ids, 0, sizeof ids);
    id_words = count * ID_WORDS;
    for (uint64_t i = 0; i < count; i++) {
        uint64_t bytes = 2 + below(below(4) ? 8 : ID_BYTES - 1), first = below(16) ? 1 + i : 1;
        make_id(ids + i * ID_WORDS, first, bytes);
    }
    if (below(8) == 0) {
        uint64_t word = sized();
        ids[below(id_words + 1)] = word;
    }
    if (below(30) == 0)
        id_words = below(id_words + 2);
}

/* A setup and what brings its state on; 0 where setup refuses. */
static int begin(void)
{
    uint64_t blocks = below(6) ? 1 + below(6) : below(BLOCKS + 1), base = PAGE * below(1000), refusal;

    memset(list, 0, sizeof list);
    list_words = blocks * BLOCK_WORDS;
    for (uint64_t i = 0; i < blocks; i++) {
        uint64_t *block = list + i * BLOCK_WORDS, pages = 1 + below(below(3) ? 8 : 100000);
        block[0] = base += PAGE * (below(2) ? 0 : below((uint64_t)1 << 40));
        block[1] = pages;
        block[4] = below(4) != 0;
        if (block[4] && below(4) == 0) {
            block[2] = below(pages);
            block[3] = 1 + below(pages - block[2]);
        }
        base += PAGE * pages;
    }
    if (below(8) == 0) {
        uint64_t word = sized();
        list[below(list_words + 1)] = word;
    }
    if (below(30) == 0)
        list_words = below(list_words + 2);
    for (size_t i = 0; i < ARKELUTZ_STATE_WORDS; i++)
        state[i] = any();
    request = below(3) ? below(100) : any();
    memset(front_words, 0, sizeof front_words);
    memset(stream_bytes, 0, sizeof stream_bytes);
    make_devices();
    make_ids();
    refusal = arkelutz_setup(state, list, list_words, devices, device_words, ids, id_words, journal, journal_words());
    told(SETUP, refusal, 0, 0);
    if (refusal != 0)
        return 0;
    for (uint64_t channel = 0; channel < CHANNELS; channel++) {
        if (below(4) == 0)
            continue;
        header(0, 4);
        put(1, 2);
        put(0, 2);
        receive(channel);
        for (uint64_t service = 0; service < SERVICES; service++) {
            if (service && below(2))
                continue;
            offer(channel, service);
            header(4, 10);
            put(handles[channel][service], 8);
            put(0, 2);
            receive(channel);
        }
    }
    return 1;
}

static void permit(uint64_t service)
{
    size_t words = journal_words(), bytes = out_bytes();
    uint64_t permitted = below(3) ? 1 : below(2) ? 0 : sized();
    struct arkelutz_answer a = arkelutz_permit(state, service, permitted, journal, words, out, bytes);
    told(PERMIT, a.refusal, a.length, 0);
}

/* Writes the order in the place of a length, its delay in that of pages. */
static void take(void)
{
    size_t words = journal_words(), bytes = out_bytes();
    uint64_t delay = any();
    struct arkelutz_order o = arkelutz_take(state, journal, words, out, bytes, &delay);
    told(TAKE, o.refusal, o.order, delay);
    if (o.refusal == 0 && o.order < ORDERS)
        taken[o.order]++;
}

/* Adds a message to a channel's stream: most have the payload_len that they say, some are the longest, or have a payload_len above 4,096. */
static void send(uint64_t channel)
{
    size_t bytes;

    make_message(channel);
    if (below(16) == 0) {
        header(9, (uint32_t)(MOST_PAYLOAD + below(2)));
        put(handle_of(channel, below(SERVICES)), 8);
        while (message_bytes < ROOM_BYTES)
            put(below(256), 1);
    } else if (message_bytes >= HEADER_BYTES && below(20)) {
        bytes = message_bytes;
        message_bytes = HEADER_BYTES - 4;
        put(bytes - HEADER_BYTES, 4);
        message_bytes = bytes;
    }
    if (stream_bytes[channel] + message_bytes > STREAM_BYTES)
        return;
    memcpy(streams[channel] + stream_bytes[channel], message, message_bytes);
    stream_bytes[channel] += message_bytes;
}

/* How many bytes of a stream are offered: few, those to any place, or all. */
static size_t piece_length(uint64_t channel)
{
    size_t most = stream_bytes[channel], length = below(3) ? most : below(2) ? below(HEADER_BYTES + 1) : below(most + 1);

    return length < most ? length : most;
}

/* Offers a piece of a channel's stream, which loses what is taken, and returns the refusal. */
static uint64_t piece(uint64_t channel)
{
    uint64_t at = channel < CHANNELS ? channel : 0, kept = front_words[2 * at], mark = front_words[2 * at + 1], given = any();
    size_t words = journal_words(), bytes = out_bytes(), length = any(), offered;
    struct arkelutz_pieced o;

    if (kept == 0 && below(4) == 0)
        stream_bytes[at] = 0; /* it begins with a message again, whatever came before */
    if (stream_bytes[at] == 0 || below(4) == 0)
        send(at);
    offered = piece_length(at);
    o = arkelutz_piece(front_words, front_bytes, state, channel, streams[at], offered, journal, words, out, bytes, &given, &length);
    add(given);
    told(PIECE, o.refusal, length, o.taken);
    full += o.refusal == 4;
    if (o.refusal)
        return o.refusal;
    given_whole += given && kept == 0;
    given_joined += given && kept > 0;
    over += given && front_words[2 * at + 1] == 1;
    dropped += mark == 1 && o.taken > 0;
    stream_bytes[at] -= o.taken;
    memmove(streams[at], streams[at] + o.taken, stream_bytes[at]);
    return 0;
}

/* Reopens a channel's front, whose stream begins with a message again, and returns the refusal. */
static uint64_t reopen(uint64_t channel)
{
    uint64_t refusal = arkelutz_reopen(front_words, front_bytes, state, channel);

    told(REOPEN, refusal, 0, 0);
    if (refusal == 0)
        stream_bytes[channel] = 0;
    return refusal;
}

/* Replaces a word of the front of a channel, the payload_len that it keeps, or both and how many bytes it keeps. */
static void change_front(uint64_t channel)
{
    static const uint64_t kept[] = {0, 1, 7, 8, 9, 100, ROOM_BYTES - 1, ROOM_BYTES, ROOM_BYTES + 1};
    uint64_t at = channel < CHANNELS && below(2) ? channel : below(CHANNELS), change = below(4);
    uint64_t payload = below(2) ? MOST_PAYLOAD - 1 + below(3) : below(MOST_PAYLOAD);

    if (change == 0)
        front_words[2 * at + 1] = below(3) ? below(3) : sized();
    if (change == 1)
        front_words[2 * at] = below(4) ? kept[below(sizeof kept / sizeof *kept)] : sized();
    if (change >= 2)
        for (size_t i = 0; i < 4; i++)
            front_bytes[at * ROOM_BYTES + 4 + i] = (uint8_t)(payload >> (24 - 8 * i));
    if (change == 3) {
        front_words[2 * at] = below(payload + HEADER_BYTES + 2);
        front_words[2 * at + 1] = 0;
    }
}

/* A piece or a reopening, now and then on a front that was changed. If one is unsound, front or state, the front comes back. */
static void front_call(uint64_t channel)
{
    static const uint8_t no_bytes[ARKELUTZ_FRONT_BYTES];
    uint64_t words[ARKELUTZ_FRONT_WORDS], no_words[ARKELUTZ_FRONT_WORDS] = {0};
    uint8_t bytes[ARKELUTZ_FRONT_BYTES];
    int drops = channel < CHANNELS && front_words[2 * channel + 1] != 0;

    memcpy(words, front_words, sizeof words);
    memcpy(bytes, front_bytes, sizeof bytes);
    if (below(4) == 0)
        change_front(channel);
    if ((below(drops ? 2 : 10) ? piece(channel) : reopen(channel)) != UNSOUND)
        return;
    memcpy(front_words, words, sizeof words);
    memcpy(front_bytes, bytes, sizeof bytes);
    /* an empty front is sound, so that only the state can refuse its reopening */
    unsound_fronts += arkelutz_reopen(no_words, no_bytes, state, 0) == 0;
}

static void one_call(void)
{
    uint64_t channel = below(40) ? below(CHANNELS) : sized(), service = below(40) ? below(SERVICES) : sized(), pages = any();
    size_t words = journal_words(), bytes = out_bytes(), run_words = below(6);
    struct arkelutz_answer a;
    struct arkelutz_drained d;

    switch (below(23)) {
    case 0:
        offer(channel, service);
        break;
    case 1:
        a = arkelutz_withdraw(state, channel, service, journal, words, out, bytes);
        told(WITHDRAW, a.refusal, a.length, 0);
        break;
    case 2:
        if (below(4))
            channel += CHANNELS;
        a = arkelutz_close(state, channel, journal, words, out, bytes);
        told(CLOSE, a.refusal, a.length, 0);
        break;
    case 3:
    case 4:
    case 5:
        a = arkelutz_work(state, below(20) ? 1 + below(below(2) ? 4 : 65535) : sized(), journal, words, out, bytes, &pages);
        told(WORK, a.refusal, a.length, pages);
        break;
    case 6:
        if (below(6) == 0)
            run_words = ARKELUTZ_JOURNAL_WORDS;
        d = arkelutz_drain(state, journal, words, run, run_words);
        told(DRAIN, d.refusal, d.entries, 0);
        break;
    case 7:
        make_message(channel);
        if (below(2))
            put_peer();
        bytes = arkelutz_show(state, channel, message, message_bytes);
        parts += bytes > 0;
        told(SHOW, 0, bytes, 0);
        break;
    case 8:
    case 9:
        permit(below(6) ? SHUTDOWN + below(2) : service);
        break;
    case 10:
        take();
        break;
    case 11:
    case 12:
    case 13:
    case 14:
        front_call(channel);
        break;
    default:
        make_message(channel);
        receive(channel);
    }
}

/* The place of a word to replace: half of them before those of devices, a few of permissions and the order, some of ids and peer registrations. */
static size_t place(void)
{
    if (below(2))
        return below(DEVICE_COUNT + 1);
    if (below(3) == 0)
        return ID_COUNT + below(ARKELUTZ_STATE_WORDS - ID_COUNT);
    return below(5) ? below(ARKELUTZ_STATE_WORDS) : PERMISSION + below(4);
}

/* A call, now and then on a state of which one or two words were replaced. If that state is unsound, the words come back. */
static void made_call(void)
{
    uint64_t kept[ARKELUTZ_STATE_WORDS], unsound = 0, after = 0;
    int change = below(3) == 0;

    memcpy(kept, state, sizeof state);
    for (uint64_t i = change ? 1 + below(2) : 0; i > 0; i--) {
        uint64_t word = below(3) ? sized() : below(2) ? below(5) : UINT32_MAX - below(2);
        state[place()] = word;
    }
    for (size_t i = 0; i < CALLS; i++)
        unsound += counts[i][UNSOUND];
    one_call();
    for (size_t i = 0; i < CALLS; i++)
        after += counts[i][UNSOUND];
    if (after != unsound)
        memcpy(state, kept, sizeof state);
}

int main(int argc, char **argv)
{
    uint64_t calls, unsound = 0;
    int whole = 1;

    if (argc != 3) {
        fprintf(stderr, "usage: states CALLS SEED\n");
        return 2;
    }
    calls = strtoull(argv[1], NULL, 10);
    seed = strtoull(argv[2], NULL, 10);
    while (done < calls) {
        int of_state = begin() ? CALLS_A_STATE : CALLS_REFUSED;

        for (int i = 0; i < of_state && done < calls; i++)
            made_call();
    }
    for (size_t call = 0; call < CALLS; call++) {
        printf("%-9s", names[call]);
        for (size_t refusal = 0; refusal < REFUSALS; refusal++)
            printf("%8" PRIu64, counts[call][refusal]);
        printf("\n");
        whole &= counts[call][0] > 0;
        unsound += counts[call][UNSOUND];
    }
    printf("orders taken: shutdown %" PRIu64 ", panic %" PRIu64 "\n", taken[1], taken[2]);
    printf("peer registrations: %" PRIu64 " made, %" PRIu64 " ended\n", registered, ended);
    printf("parts of show that are not empty: %" PRIu64 "\n", parts);
    printf("messages given: %" PRIu64 " from a piece alone, %" PRIu64 " joined, %" PRIu64 " of them with a payload_len above 4,096\n",
           given_whole, given_joined, over);
    printf("pieces: %" PRIu64 " dropped, %" PRIu64 " refused by a full journal\n", dropped, full);
    printf("unsound fronts before a sound state: %" PRIu64 "\n", unsound_fronts);
    whole &= unsound > 0 && taken[1] > 0 && taken[2] > 0 && registered > 0 && ended > 0 && parts > 0;
    return !(whole && given_whole > 0 && given_joined > 0 && over > 0 && dropped > 0 && full > 0 && unsound_fronts > 0);
}
