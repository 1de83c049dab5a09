/*
 * Every pair of lists of versions over majors 1 to 3 and minors 0 and 1, in every order: the exchange that one end
 * starts with the other, held to what must come of it by a direct definition, the highest major that both hold and
 * the lower of its minors. It writes what it counted (tests/vio_pairs.answers) and ends with 0 if no call was refused
 * and no exchange came to anything else.
 * Build: tools/build vio_exports && cc -std=c99 -Iinclude tests/vio_pairs.c target/staticlib/libvio_exports.a
 */
#include "arkelutz_vio.h"

#include <inttypes.h>
#include <stdbool.h>
#include <stdio.h>
#include <stdlib.h>
#include <string.h>

#define MAJORS 3
#define NO_MINOR 2 /* there is no version of that major */

/* A list is a code of three digits to the base 7: 0 for no version, else 1 to 6 for 1.0, 1.1, 2.0, 2.1, 3.0, 3.1. */
#define CODES 343

/* More than any starter here holds majors, so that an exchange without an end is seen as a difference. */
#define REQUEST_LIMIT 9

/* The versions as setup takes them, a major and its minor each. */
struct list {
    size_t words;
    uint64_t versions[2 * MAJORS];
};

/* An end, beside the list that it was given. */
struct side {
    const struct list *list;
    uint64_t end[ARKELUTZ_VIO_END_WORDS];
};

struct counts {
    uint64_t lists, pairs, with_a_version, without, requests, most_requests, differences;
};

/* Nothing is worth counting once a call was refused or the output is lost, so the program ends there. */
static void must(bool holds, const char *otherwise)
{
    if (!holds) {
        fprintf(stderr, "vio_pairs: %s\n", otherwise);
        exit(1);
    }
}

static uint64_t minor_for(const struct list *list, uint64_t major)
{
    for (size_t i = 0; i < list->words; i += 2) {
        if (list->versions[i] == major)
            return list->versions[i + 1];
    }
    return NO_MINOR;
}

/* Reads the list of a code. Some codes are none: those without a version, with a gap before one, or a major twice. */
static bool read_list(struct list *list, unsigned code)
{
    list->words = 0;
    for (; code != 0; code /= 7) {
        unsigned digit = code % 7;
        uint64_t major = (digit + 1) / 2;

        if (digit == 0 || minor_for(list, major) != NO_MINOR)
            return false;
        list->versions[list->words++] = major;
        list->versions[list->words++] = (digit + 1) % 2;
    }
    return list->words != 0;
}

static struct side side_of(const struct list *list, uint8_t class_held, uint8_t class_accepted)
{
    struct arkelutz_vio_ready ready = arkelutz_vio_setup(class_held, class_accepted, list->versions, list->words);
    struct side side = {.list = list};

    must(ready.refusal == 0, "a list was refused");
    memcpy(side.end, ready.end, sizeof side.end);
    return side;
}

static struct arkelutz_vio_answer receive(struct side *side, uint32_t next, struct arkelutz_vio_answer message)
{
    struct arkelutz_vio_answer answer =
        arkelutz_vio_receive(side->end, ARKELUTZ_VIO_END_WORDS, next, message.first, message.second);

    must(answer.refusal == 0, "a message was refused");
    must(answer.count == 0 || answer.count == 2, "a message sent has not two words");
    return answer;
}

/* The exchange that the first end starts: the number of requests, each under the next session id. */
static uint32_t exchange(struct side *starter, struct side *other, uint32_t id)
{
    struct arkelutz_vio_answer sent = arkelutz_vio_start(starter->end, ARKELUTZ_VIO_END_WORDS, id);
    uint32_t requests = 0;

    must(sent.refusal == 0, "a start was refused");
    must(sent.count == 2, "a start sent no request");
    while (sent.count != 0 && requests < REQUEST_LIMIT) {
        struct arkelutz_vio_answer answer = receive(other, 0, sent);

        must(answer.count == 2, "a request got no answer");
        requests++;
        sent = receive(starter, id + requests, answer);
    }
    return requests;
}

/* The highest major that both lists hold, 0 if there is none. */
static uint64_t highest_common(const struct list *a, const struct list *b)
{
    uint64_t major = MAJORS;

    while (major != 0 && (minor_for(a, major) == NO_MINOR || minor_for(b, major) == NO_MINOR))
        major--;
    return major;
}

static bool has_agreed(const uint64_t *end, uint64_t id, uint64_t major, uint64_t minor)
{
    return end[ARKELUTZ_VIO_STAGE] == ARKELUTZ_VIO_AGREED && end[ARKELUTZ_VIO_ID] == id &&
           end[ARKELUTZ_VIO_MAJOR] == major && end[ARKELUTZ_VIO_MINOR] == minor;
}

/* Both have agreed on that major and the lower of its minors, under the last request's session id; or there is none,
   the starter's try has ended, and the other has no version. */
static bool is_right(const struct side *starter, const struct side *other, uint64_t major, uint64_t last_id)
{
    uint64_t one = minor_for(starter->list, major), two = minor_for(other->list, major);
    uint64_t minor = one < two ? one : two;

    if (major == 0)
        return starter->end[ARKELUTZ_VIO_STAGE] == ARKELUTZ_VIO_ENDED &&
               other->end[ARKELUTZ_VIO_STAGE] == ARKELUTZ_VIO_NOTHING;
    return has_agreed(starter->end, last_id, major, minor) && has_agreed(other->end, last_id, major, minor);
}

/* One exchange between two ends, in whatever session they are, counted. */
static void count_exchange(struct counts *counts, struct side *starter, struct side *other, uint32_t id)
{
    uint64_t major = highest_common(starter->list, other->list);
    uint32_t requests = exchange(starter, other, id);

    counts->requests += requests;
    if (counts->most_requests < requests)
        counts->most_requests = requests;
    if (major == 0)
        counts->without++;
    else
        counts->with_a_version++;
    if (!is_right(starter, other, major, id + requests - 1))
        counts->differences++;
}

/* An exchange between new ends, one more between the ends that this left, and one that the other end starts: an
   earlier session must not matter. The classes are those of a network device and of a network switch. */
static void count_pair(struct counts *counts, const struct list *a, const struct list *b)
{
    struct side one = side_of(a, 1, 2), two = side_of(b, 2, 1);

    counts->pairs++;
    count_exchange(counts, &one, &two, 100);
    count_exchange(counts, &one, &two, 200);
    count_exchange(counts, &two, &one, 300);
}

static void write_count(const char *what, uint64_t count)
{
    must(printf("%s %" PRIu64 "\n", what, count) >= 0, "the output cannot be written");
}

int main(void)
{
    static struct list lists[CODES];
    struct counts counts = {0};

    for (unsigned code = 0; code < CODES; code++) {
        if (read_list(&lists[counts.lists], code))
            counts.lists++;
    }
    for (size_t a = 0; a < counts.lists; a++) {
        for (size_t b = 0; b < counts.lists; b++)
            count_pair(&counts, &lists[a], &lists[b]);
    }
    write_count("lists", counts.lists);
    write_count("pairs", counts.pairs);
    write_count("exchanges with a version agreed", counts.with_a_version);
    write_count("exchanges without a version", counts.without);
    write_count("requests", counts.requests);
    write_count("most requests of an exchange", counts.most_requests);
    write_count("differences", counts.differences);
    /* what was written may still wait in a buffer */
    must(fclose(stdout) == 0, "the output cannot be written");
    must(counts.differences == 0, "an exchange came to something else");
    return 0;
}
