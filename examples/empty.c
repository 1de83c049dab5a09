/*
 * What the header says of NULL with length 0: every call is lent it in each place that has a length, and must answer and leave all as where it is
 * lent a pointer with length 0.
 * Build: tools/build exports && cc -Iinclude examples/empty.c target/staticlib/libexports.a
 */
#include "arkelutz.h"

#include <stdio.h>
#include <string.h>

#define ANSWERS 80
#define CHANNEL 0
#define SERVICE 2

/* What the calls were lent, and what they answered. */
static struct made {
    uint64_t state[ARKELUTZ_STATE_WORDS], journal[ARKELUTZ_JOURNAL_WORDS], front_words[ARKELUTZ_FRONT_WORDS], answers[ANSWERS];
    uint8_t out[ARKELUTZ_OUTPUT_BYTES], front_bytes[ARKELUTZ_FRONT_BYTES];
    size_t count;
} with_null, with_pointer;

static void answer(struct made *m, uint64_t refusal, uint64_t told)
{
    m->answers[m->count++] = refusal;
    m->answers[m->count++] = told;
}

static void answered(struct made *m, struct arkelutz_answer a) { answer(m, a.refusal, a.length); }

/* The calls that are lent a journal of so many words and an output of so many bytes. */
static void act(struct made *m, uint64_t *journal, size_t words, uint8_t *out, size_t bytes, const uint8_t *message)
{
    uint64_t number = 7;
    size_t length = 7;
    struct arkelutz_order order;
    struct arkelutz_pieced pieced;

    answered(m, arkelutz_receive(m->state, CHANNEL, message, 0, journal, words, out, bytes));
    answered(m, arkelutz_offer(m->state, CHANNEL, SERVICE, journal, words, out, bytes));
    answered(m, arkelutz_withdraw(m->state, CHANNEL, SERVICE, journal, words, out, bytes));
    answered(m, arkelutz_close(m->state, CHANNEL, journal, words, out, bytes));
    answered(m, arkelutz_work(m->state, 1, journal, words, out, bytes, &number));
    answered(m, arkelutz_permit(m->state, SERVICE, 1, journal, words, out, bytes));
    order = arkelutz_take(m->state, journal, words, out, bytes, &number);
    answer(m, order.refusal, order.order);
    pieced = arkelutz_piece(m->front_words, m->front_bytes, m->state, CHANNEL, message, 0, journal, words, out, bytes, &number, &length);
    answer(m, pieced.refusal, pieced.taken);
    answer(m, number, length);
}

static void make(struct made *m, uint64_t *words, uint8_t *bytes)
{
    struct arkelutz_drained drained;

    answer(m, arkelutz_setup(m->state, words, 0, words, 0, words, 0, words, 0), 0);
    answer(m, arkelutz_setup(m->state, words, 0, words, 0, words, 0, m->journal, ARKELUTZ_JOURNAL_WORDS), 0);
    act(m, words, 0, bytes, 0, bytes);
    act(m, m->journal, ARKELUTZ_JOURNAL_WORDS, bytes, 0, bytes);
    act(m, m->journal, ARKELUTZ_JOURNAL_WORDS, m->out, sizeof m->out, bytes);
    drained = arkelutz_drain(m->state, words, 0, words, 0);
    answer(m, drained.refusal, drained.entries);
    drained = arkelutz_drain(m->state, m->journal, ARKELUTZ_JOURNAL_WORDS, words, 0);
    answer(m, drained.refusal, drained.entries);
    answer(m, arkelutz_show(m->state, CHANNEL, bytes, 0), 0);
}

int main(void)
{
    uint64_t words[1] = {7};
    uint8_t bytes[1] = {7};

    make(&with_null, NULL, NULL);
    make(&with_pointer, words, bytes);
    if (memcmp(&with_null, &with_pointer, sizeof with_null) != 0 || words[0] != 7 || bytes[0] != 7) {
        printf("NULL with length 0 is not as a pointer with length 0\n");
        return 1;
    }
    printf("NULL with length 0: %zu answers, as of a pointer with length 0\n", with_null.count / 2);
    return 0;
}
