/*
 * The agent called from C: setup, the first seven calls of the day at the panel, and the trail drained.
 * Build: tools/build exports && cc -Iinclude examples/day.c target/staticlib/libexports.a
 */
#include "arkelutz.h"

#include <inttypes.h>
#include <stdio.h>

#define CHANNEL 2
#define MEMORY_SERVICE 0

static uint64_t journal[ARKELUTZ_JOURNAL_WORDS];
static uint8_t out[ARKELUTZ_OUTPUT_BYTES];

static uint64_t receive(uint64_t *state, const uint8_t *message, size_t bytes)
{
    return arkelutz_receive(state, CHANNEL, message, bytes, journal, ARKELUTZ_JOURNAL_WORDS, out, sizeof out).refusal;
}

static uint64_t work(uint64_t *state, uint64_t pages)
{
    uint64_t moved;
    return arkelutz_work(state, pages, journal, ARKELUTZ_JOURNAL_WORDS, out, sizeof out, &moved).refusal;
}

int main(void)
{
    static const uint64_t blocks[] = {0x10000000, 4, 0, 0, 1, 0x20000000, 2, 1, 1, 1};
    static const uint8_t init_1_0[] = {0, 0, 0, 0, 0, 0, 0, 4, 0, 1, 0, 0};
    static const uint8_t reg_ack_3[] = {0, 0, 0, 4, 0, 0, 0, 10, 0x80, 0, 0, 0, 0, 0, 0, 3, 0, 0};
    static const uint8_t unconfigure_a[] = {0,    0,    0, 9, 0, 0, 0, 0x28, 0x80, 0, 0, 0, 0, 0, 0, 3,
                                            0,    0, 0x4d, 0x55, 0, 0, 0, 1, 0, 0, 0, 0, 0, 0, 0, 9,
                                            0,    0,    0, 0, 0x10, 0, 0, 0, 0, 0, 0, 0, 0, 0, 0x80, 0};
    uint64_t run[ARKELUTZ_JOURNAL_WORDS];
    uint64_t state[ARKELUTZ_STATE_WORDS];
    uint64_t refused = arkelutz_setup(state, blocks, sizeof blocks / sizeof *blocks, NULL, 0, NULL, 0, journal, ARKELUTZ_JOURNAL_WORDS);

    refused |= receive(state, init_1_0, sizeof init_1_0);
    refused |= arkelutz_offer(state, CHANNEL, MEMORY_SERVICE, journal, ARKELUTZ_JOURNAL_WORDS, out, sizeof out).refusal;
    refused |= receive(state, reg_ack_3, sizeof reg_ack_3);
    refused |= receive(state, unconfigure_a, sizeof unconfigure_a);
    refused |= work(state, 3);
    refused |= work(state, 3);
    refused |= work(state, 1);

    struct arkelutz_drained drained = arkelutz_drain(state, journal, ARKELUTZ_JOURNAL_WORDS, run, ARKELUTZ_JOURNAL_WORDS);
    for (size_t i = 0; i < drained.entries; i++)
        printf("entry %016" PRIx64 " %016" PRIx64 "\n", run[2 * i], run[2 * i + 1]);
    return refused != 0 || drained.refusal != 0;
}
