/*
 * The header's fields of entries held against the agent's: fields SEED. Random calls are made; after each accepted one its entry is drained and
 * must tell what the call was, by the header's functions. On those words and on random ones the functions must give what division and
 * remainder give, and the fields put together again must be the word. It fails unless every kind that the agent writes came.
 * Build: tools/build exports && cc -Iinclude examples/fields.c target/staticlib/libexports.a
 */
#include "arkelutz.h"

#include <inttypes.h>
#include <stdio.h>
#include <stdlib.h>

#define CALLS 60000
#define RANDOM_WORDS 60000
#define CHANNELS 4
#define SERVICES 4
#define BLOCKS 64
#define BLOCK_WORDS 5
#define BLOCK_BASE(i) ((uint64_t)(i) << 20)
#define PAGE 8192
#define KINDS 32
#define ANY_KIND 0 /* no entry has it */

struct fields {
    uint64_t number, kind, channel, service, record, code, count;
};

static uint64_t state[ARKELUTZ_STATE_WORDS], journal[ARKELUTZ_JOURNAL_WORDS], seed, last, request, kinds[KINDS];
static uint8_t out[ARKELUTZ_OUTPUT_BYTES], message[4096];
static size_t message_bytes;
static uint64_t handles[CHANNELS][SERVICES], named[BLOCKS], asked[BLOCKS], position;

static uint64_t any(void) /* splitmix64 */
{
    uint64_t z = seed += 0x9e3779b97f4a7c15u;
    z = (z ^ z >> 30) * 0xbf58476d1ce4e5b9u;
    z = (z ^ z >> 27) * 0x94d049bb133111ebu;
    return z ^ z >> 31;
}

static uint64_t below(uint64_t n) { return any() % n; }

static void must(int holds, const char *what, uint64_t word)
{
    if (holds)
        return;
    printf("%s: %016" PRIx64 " after entry %" PRIu64 "\n", what, word, last);
    exit(1);
}

static struct fields by_header(uint64_t first)
{
    struct fields f;

    f.number = arkelutz_entry_number(first);
    f.kind = arkelutz_entry_kind(first);
    f.channel = arkelutz_entry_channel(first);
    f.service = arkelutz_entry_service(first);
    f.record = arkelutz_entry_record(first);
    f.code = arkelutz_entry_code(first);
    f.count = arkelutz_entry_count(first);
    return f;
}

/* The last so many values of what is left of a word, which loses them: 01's widths from the right, 16, 3, 4, 2, 2, 5 and 32 bits. */
static uint64_t cut(uint64_t *word, uint64_t values)
{
    uint64_t field = *word % values;

    *word /= values;
    return field;
}

static void compare_words(uint64_t first, uint64_t second)
{
    struct fields f = by_header(first);
    uint64_t left = first, again = f.number;

    must(f.count == cut(&left, 65536), "count", first);
    must(f.code == cut(&left, 8), "code", first);
    must(f.record == cut(&left, 16), "record", first);
    must(f.service == cut(&left, 4), "service", first);
    must(f.channel == cut(&left, 4), "channel", first);
    must(f.kind == cut(&left, 32), "kind", first);
    must(f.number == left, "number", first);
    again = ((((again * 32 + f.kind) * 4 + f.channel) * 4 + f.service) * 16 + f.record) * 8 + f.code;
    must(again * 65536 + f.count == first, "put together", first);
    must(arkelutz_settled_block(second) == second % 64, "settled block", second);
    must(arkelutz_settled_record(second) == second / 64 % 64, "settled record", second);
}

/* Drains the one entry held: that of the call just accepted, which has to be of a kind, or of any. Gives its second word. */
static uint64_t entered(uint64_t kind, struct fields *f)
{
    uint64_t run[4];
    struct arkelutz_drained drained = arkelutz_drain(state, journal, ARKELUTZ_JOURNAL_WORDS, run, 4);

    must(drained.refusal == 0 && drained.entries == 1, "not one entry", drained.entries);
    compare_words(run[0], run[1]);
    *f = by_header(run[0]);
    must(f->number == ++last, "number", run[0]);
    must(kind == ANY_KIND || f->kind == kind, "kind", run[0]);
    kinds[f->kind]++;
    return run[1];
}

static void put(uint64_t number, unsigned bytes)
{
    while (bytes-- > 0)
        message[message_bytes++] = (uint8_t)(number >> 8 * bytes);
}

static void header(uint64_t type, uint64_t payload)
{
    message_bytes = 0;
    put(type, 4);
    put(payload, 4);
}

static struct fields receive(uint64_t channel, uint64_t kind, uint64_t *second)
{
    struct fields f;
    struct arkelutz_answer a = arkelutz_receive(state, channel, message, message_bytes, journal, ARKELUTZ_JOURNAL_WORDS, out, sizeof out);

    must(a.refusal == 0, "receive refused", a.refusal);
    *second = entered(kind, &f);
    must(f.channel == channel, "channel", f.channel);
    return f;
}

static void init(uint64_t channel)
{
    uint64_t major = below(8) ? 1 : below(65536), second;
    struct fields f;

    header(0, 4);
    put(major, 2);
    put(0, 2);
    f = receive(channel, major == 1 ? ARKELUTZ_KIND_READY : ARKELUTZ_KIND_VERSION_REFUSED, &second);
    must(f.count == (major == 1 ? 0 : major), "major", f.count);
}

static void offer(uint64_t channel, uint64_t service)
{
    struct fields f;

    if (arkelutz_offer(state, channel, service, journal, ARKELUTZ_JOURNAL_WORDS, out, sizeof out).refusal)
        return;
    entered(ARKELUTZ_KIND_OFFERED, &f);
    must(f.channel == channel && f.service == service, "offer", f.service);
    handles[channel][service] = ARKELUTZ_TOP_BIT | f.number;
}

/* REG_ACK or REG_NACK for the service's handle, of now or of before. */
static void answer_offer(uint64_t channel, uint64_t service)
{
    uint64_t refused = below(8) == 0, second;
    struct fields f;

    header(refused ? 5 : 4, refused ? 18 : 10);
    put(handles[channel][service], 8);
    put(0, refused ? 8 : 0);
    put(0, 2);
    f = receive(channel, ANY_KIND, &second);
    if (f.kind == ARKELUTZ_KIND_REGISTERED)
        must(f.service == service && second == handles[channel][service], "registered", second);
    if (f.kind == ARKELUTZ_KIND_OFFER_REFUSED)
        must(f.service == service && second == 0, "offer refused", second);
}

static void end_service(uint64_t channel, uint64_t service)
{
    struct fields f;
    struct arkelutz_answer a = arkelutz_withdraw(state, channel, service, journal, ARKELUTZ_JOURNAL_WORDS, out, sizeof out);

    if (a.refusal == 0) {
        entered(ARKELUTZ_KIND_ENDED, &f);
        must(f.channel == channel && f.service == service, "withdraw", f.service);
    }
    if (below(4))
        return;
    a = arkelutz_close(state, channel, journal, ARKELUTZ_JOURNAL_WORDS, out, sizeof out);
    must(a.refusal == 0 && entered(ARKELUTZ_KIND_CLOSED, &f) == 0 && f.channel == channel, "close", a.refusal);
}

/* CONFIGURE, UNCONFIGURE, QUERY, CANCEL or another type, of blocks of the list. */
static void memory(uint64_t channel)
{
    static const uint64_t types[] = {0x4d43, 0x4d43, 0x4d55, 0x4d55, 0x4d55, 0x4d51, 0x4d4e, 0x4d4e, 0x4d00};
    uint64_t type = types[below(sizeof types / sizeof *types)], records = type == 0x4d4e ? 0 : 1 + below(below(3) ? 4 : BLOCKS), second;
    struct fields f;

    header(9, 24 + 16 * records);
    put(handles[channel][0], 8);
    put(type, 4);
    put(records, 4);
    put(++request, 8);
    for (uint64_t i = 0; i < records; i++) {
        asked[i] = below(BLOCKS);
        put(BLOCK_BASE(asked[i]), 8);
        put(PAGE * (below(40) ? 1 + asked[i] % 3 : 9), 8);
    }
    f = receive(channel, ANY_KIND, &second);
    if (f.kind != ARKELUTZ_KIND_BEGUN)
        return;
    must(type == 0x4d55 && f.count == records && second == request, "begun", second);
    for (uint64_t i = 0; i < records; i++)
        named[i] = asked[i];
    position = 0;
}

static void work(void)
{
    uint64_t pages, second;
    struct fields f;
    struct arkelutz_answer a = arkelutz_work(state, 1 + below(3), journal, ARKELUTZ_JOURNAL_WORDS, out, sizeof out, &pages);

    if (a.refusal)
        return;
    second = entered(ANY_KIND, &f);
    if (f.kind == ARKELUTZ_KIND_REMOVAL_END) {
        must(f.count == (a.length > 0), "reply", f.count);
        return;
    }
    must(f.count == pages, "pages", f.count);
    if (f.kind == ARKELUTZ_KIND_COLLECTED)
        return;
    must(f.kind == ARKELUTZ_KIND_SETTLED && f.record == 0, "settled", f.kind);
    must(arkelutz_settled_block(second) == named[position], "block", second);
    must(arkelutz_settled_record(second) == position, "record", second);
    position++;
}

/* A request to the one device, or to shut down or to panic. */
static void ask(uint64_t channel)
{
    static const uint64_t types[] = {0x494f43, 0x494f55, 0x494f46, 0x494f53};
    uint64_t service = 1 + below(3), second;
    struct fields f;

    if (service == 1) {
        header(9, 30);
        put(handles[channel][1], 8);
        put(++request, 8);
        put(7, 8);
        put(types[below(4)], 4);
        put((uint64_t)'d' << 8, 2);
    } else {
        header(9, service == 2 ? 20 : 16);
        put(handles[channel][service], 8);
        put(++request, 8);
        put(below(1000), service == 2 ? 4 : 0);
    }
    f = receive(channel, ANY_KIND, &second);
    must(f.kind != ARKELUTZ_KIND_DEVICE || service == 1, "device", f.kind);
    must(f.kind != ARKELUTZ_KIND_ORDERED || f.service == service, "ordered", f.service);
}

static void orders(void)
{
    uint64_t service = 2 + below(2), permitted = below(4) != 0, delay;
    struct fields f;

    if (arkelutz_permit(state, service, permitted, journal, ARKELUTZ_JOURNAL_WORDS, out, sizeof out).refusal == 0) {
        entered(ARKELUTZ_KIND_PERMITTED, &f);
        must(f.service == service && f.code == permitted, "permitted", f.code);
    }
    if (arkelutz_take(state, journal, ARKELUTZ_JOURNAL_WORDS, out, sizeof out, &delay).refusal == 0)
        entered(ARKELUTZ_KIND_TAKEN, &f);
}

/* REG_REQ of the other end for one of the ids, UNREG or data under such a handle. */
static void peer(uint64_t channel)
{
    uint64_t handle = below(16), place = below(16), minor = below(60000), what = below(3), second;
    struct fields f;

    header(what == 0 ? 3 : what == 1 ? 6 : 9, what == 0 ? 14 : what == 1 ? 8 : 12);
    put(handle, 8);
    if (what == 0) {
        put(1, 2);
        put(minor, 2);
        put((uint64_t)('a' + place) << 8, 2);
    }
    put(0, what == 2 ? 4 : 0);
    f = receive(channel, ANY_KIND, &second);
    if (f.kind == ARKELUTZ_KIND_PEER_REGISTERED)
        must(f.record == place && f.count == minor && second == handle, "peer registered", second);
    if (f.kind == ARKELUTZ_KIND_PEER_ENDED)
        must(second == handle, "peer ended", second);
}

static void one_call(void)
{
    uint64_t channel = below(CHANNELS), service = below(SERVICES);

    switch (below(48)) {
    case 0: init(channel); break;
    case 1: end_service(channel, service); break;
    case 2: orders(); break;
    case 3: case 4: case 5: case 6: offer(channel, service); break;
    case 7: case 8: case 9: case 10: answer_offer(channel, service); break;
    case 11: case 12: case 13: case 14: ask(channel); break;
    case 15: case 16: case 17: case 18: peer(channel); break;
    case 19: case 20: case 21: case 22: memory(channel); break;
    default: work();
    }
}

/* 64 blocks, one device named d, and the ids a to p; the mark is the first entry. */
static void begin(void)
{
    static uint64_t blocks[BLOCKS * BLOCK_WORDS];
    static struct arkelutz_device device;
    static struct arkelutz_id ids[16];
    struct fields f;

    for (uint64_t i = 0; i < BLOCKS; i++) {
        blocks[BLOCK_WORDS * i] = BLOCK_BASE(i);
        blocks[BLOCK_WORDS * i + 1] = 1 + i % 3;
        blocks[BLOCK_WORDS * i + 4] = 1;
    }
    device.id = 7;
    arkelutz_name_device(&device, "d");
    for (size_t i = 0; i < 16; i++) {
        char id[2] = {(char)('a' + i), 0};
        ids[i].major = 1;
        ids[i].highest_minor = 65535;
        arkelutz_name_id(&ids[i], id);
    }
    must(arkelutz_setup(state, blocks, BLOCKS * BLOCK_WORDS, &device.id, ARKELUTZ_DEVICE_WORDS, &ids[0].major,
                        16 * ARKELUTZ_ID_WORDS, journal, ARKELUTZ_JOURNAL_WORDS) == 0, "setup", 0);
    entered(ARKELUTZ_KIND_MARK, &f);
}

/* Each kind that has a name came, but for 8, and no other did. */
static void all_kinds(void)
{
    static const unsigned with_name[] = {
        ARKELUTZ_KIND_READY,         ARKELUTZ_KIND_CLOSED,      ARKELUTZ_KIND_VERSION_REFUSED, ARKELUTZ_KIND_OFFERED,
        ARKELUTZ_KIND_REGISTERED,    ARKELUTZ_KIND_OFFER_REFUSED, ARKELUTZ_KIND_ENDED,         ARKELUTZ_KIND_DATA_REFUSED,
        ARKELUTZ_KIND_ANSWERED,      ARKELUTZ_KIND_CONFIGURED,  ARKELUTZ_KIND_BEGUN,           ARKELUTZ_KIND_CANCELLED,
        ARKELUTZ_KIND_COLLECTED,     ARKELUTZ_KIND_SETTLED,     ARKELUTZ_KIND_REMOVAL_END,     ARKELUTZ_KIND_NOTED,
        ARKELUTZ_KIND_DEVICE,        ARKELUTZ_KIND_PERMITTED,   ARKELUTZ_KIND_TAKEN,           ARKELUTZ_KIND_ORDERED,
        ARKELUTZ_KIND_PEER_REGISTERED, ARKELUTZ_KIND_PEER_ENDED, ARKELUTZ_KIND_PEER_DATA,      ARKELUTZ_KIND_MARK};
    uint64_t came = 0;

    for (size_t i = 0; i < sizeof with_name / sizeof *with_name; i++) {
        must(kinds[with_name[i]] > 0, "a kind that never came", with_name[i]);
        came += kinds[with_name[i]];
    }
    must(came == last, "a kind without a name came", came);
}

int main(int argc, char **argv)
{
    seed = argc == 2 ? strtoull(argv[1], NULL, 10) : 1;
    for (size_t i = 0; i < RANDOM_WORDS; i++) {
        uint64_t first = any();
        compare_words(first, any());
    }
    begin();
    for (uint64_t channel = 0; channel < CHANNELS; channel++)
        init(channel);
    for (size_t i = 0; i < CALLS; i++)
        one_call();
    all_kinds();
    printf("fields: %d random words and %" PRIu64 " entries, of every kind, told alike\n", RANDOM_WORDS, last);
    return 0;
}
