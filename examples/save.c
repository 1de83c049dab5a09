/*
 * A host's loop, with the journal saved: save FILE < LIST. It sets up the two blocks of the day at the panel, receives the message of each line
 * `receive CHANNEL BYTES` of a list of calls (in a domain they come from the hypervisor's queues), offers dr-mem where a channel is made ready,
 * works until no removal is outstanding, and saves entries where the agent holds 64, and at the end. `./reader FILE` reads what it saved.
 *
 * The agent forgets what it drained, so a copy of its state is drained, which leaves the journal as it is, and takes the state's place only when
 * the entries are on the disk. Until then the agent still holds them: a failed write loses none.
 * Build: tools/build exports && cc -Iinclude examples/save.c target/staticlib/libexports.a
 */
#define _POSIX_C_SOURCE 200809L
#include "arkelutz.h"

#include <errno.h>
#include <fcntl.h>
#include <inttypes.h>
#include <stdio.h>
#include <string.h>
#include <unistd.h>

#define MEMORY_SERVICE 0
#define BUDGET 3 /* pages a work step */
#define WORD_BYTES 8
#define MESSAGE_BYTES 16384
#define LINE_BYTES (2 * MESSAGE_BYTES + 32)

static const uint64_t blocks[] = {0x10000000, 4, 0, 0, 1, 0x20000000, 2, 1, 1, 1};
#define BLOCK_WORDS (sizeof blocks / sizeof *blocks)

static uint64_t state[ARKELUTZ_STATE_WORDS], copy[ARKELUTZ_STATE_WORDS], journal[ARKELUTZ_JOURNAL_WORDS];
static uint8_t out[ARKELUTZ_OUTPUT_BYTES], message[MESSAGE_BYTES];
static int file;
static off_t saved_bytes; /* of the file, all of them on the disk */
static uint64_t saved_entries;

static void put_word(uint8_t *bytes, uint64_t word)
{
    for (unsigned i = 0; i < WORD_BYTES; i++)
        bytes[i] = (uint8_t)(word >> (56 - 8 * i));
}

/* Writes all bytes, however few a write takes, and has them on the disk; 0 if not, and then the file ends where it did before. */
static int save_bytes(const uint8_t *bytes, size_t count)
{
    size_t done = 0;
    int failed = 0;

    while (done < count && !failed) {
        ssize_t wrote = write(file, bytes + done, count - done);
        if (wrote > 0)
            done += (size_t)wrote;
        else
            failed = wrote == 0 || errno != EINTR;
    }
    if (!failed && fsync(file) == 0) {
        saved_bytes += (off_t)count;
        return 1;
    }
    perror("save: the entries are held, and not saved");
    if (ftruncate(file, saved_bytes) != 0)
        perror("save: the file ends in a part of what was to be saved");
    return 0;
}

/* The file's beginning: the count of words, and the block list. */
static int save_blocks(void)
{
    uint8_t bytes[(1 + BLOCK_WORDS) * WORD_BYTES];

    put_word(bytes, BLOCK_WORDS);
    for (size_t i = 0; i < BLOCK_WORDS; i++)
        put_word(bytes + (1 + i) * WORD_BYTES, blocks[i]);
    return save_bytes(bytes, sizeof bytes);
}

/* Saves what is held, and has the agent forget it. */
static int save_entries(void)
{
    uint64_t run[ARKELUTZ_JOURNAL_WORDS];
    uint8_t bytes[sizeof run];
    struct arkelutz_drained drained;

    memcpy(copy, state, sizeof state);
    drained = arkelutz_drain(copy, journal, ARKELUTZ_JOURNAL_WORDS, run, ARKELUTZ_JOURNAL_WORDS);
    if (drained.refusal != 0)
        return 0;
    for (size_t i = 0; i < 2 * drained.entries; i++)
        put_word(bytes + i * WORD_BYTES, run[i]);
    if (!save_bytes(bytes, 2 * drained.entries * WORD_BYTES))
        return 0;
    memcpy(state, copy, sizeof state);
    saved_entries += drained.entries;
    return 1;
}

/* Whether a call is to be made again: it was refused since 64 entries were held, and they are saved now. */
static int again(uint64_t refusal) { return refusal == ARKELUTZ_REFUSED_HELD && save_entries(); }

static uint64_t receive(size_t channel, size_t bytes, size_t *length)
{
    struct arkelutz_answer a;

    do
        a = arkelutz_receive(state, channel, message, bytes, journal, ARKELUTZ_JOURNAL_WORDS, out, sizeof out);
    while (again(a.refusal));
    *length = a.length; /* a host sends out[0 .. length - 1] to the channel here, and where offer and work have a reply */
    return a.refusal;
}

static uint64_t offer(size_t channel)
{
    struct arkelutz_answer a;

    do
        a = arkelutz_offer(state, channel, MEMORY_SERVICE, journal, ARKELUTZ_JOURNAL_WORDS, out, sizeof out);
    while (again(a.refusal));
    return a.refusal;
}

/* Works until nothing is outstanding, which is refusal 6. A host may look for messages after each step. */
static uint64_t work(void)
{
    struct arkelutz_answer a;
    uint64_t pages;

    do
        a = arkelutz_work(state, BUDGET, journal, ARKELUTZ_JOURNAL_WORDS, out, sizeof out, &pages);
    while (a.refusal == ARKELUTZ_ACCEPTED || again(a.refusal));
    return a.refusal == ARKELUTZ_REFUSED_NOT_ALLOWED ? ARKELUTZ_ACCEPTED : a.refusal;
}

/* The bytes of pairs of hexadecimal digits. */
static size_t read_pairs(const char *digits)
{
    unsigned byte;
    size_t bytes = 0;

    while (bytes < sizeof message && sscanf(digits + 2 * bytes, "%2x", &byte) == 1)
        message[bytes++] = (uint8_t)byte;
    return bytes;
}

/* One message, and what follows from it. */
static uint64_t turn(size_t channel, size_t bytes)
{
    static const uint8_t init_ack[] = {0, 0, 0, 1};
    size_t length;
    uint64_t refusal = receive(channel, bytes, &length);

    if (refusal == ARKELUTZ_ACCEPTED && length >= sizeof init_ack && memcmp(out, init_ack, sizeof init_ack) == 0)
        refusal = offer(channel);
    return refusal == ARKELUTZ_ACCEPTED ? work() : refusal;
}

int main(int argc, char **argv)
{
    static char line[LINE_BYTES];
    uint64_t refusal;
    size_t channel;
    int at;

    /* a setup begins a new journal, and so a new file */
    file = argc == 2 ? open(argv[1], O_WRONLY | O_CREAT | O_EXCL | O_APPEND, 0644) : -1;
    if (file < 0) {
        fprintf(stderr, "usage: save FILE < LIST    (a new file; it cannot be made: %s)\n", argc == 2 ? strerror(errno) : "no name");
        return 2;
    }
    refusal = arkelutz_setup(state, blocks, BLOCK_WORDS, NULL, 0, NULL, 0, journal, ARKELUTZ_JOURNAL_WORDS);
    if (refusal == ARKELUTZ_ACCEPTED && !save_blocks())
        return 1;
    while (refusal == ARKELUTZ_ACCEPTED && fgets(line, sizeof line, stdin) != NULL)
        if (sscanf(line, "receive %zu %n", &channel, &at) == 1 && channel < 4)
            refusal = turn(channel, read_pairs(line + at));
    if (refusal != ARKELUTZ_ACCEPTED)
        fprintf(stderr, "save: refused with %" PRIu64 "\n", refusal);
    if (!save_entries() || close(file) != 0 || refusal != ARKELUTZ_ACCEPTED)
        return 1;
    printf("%" PRIu64 " entries saved\n", saved_entries);
    return 0;
}
