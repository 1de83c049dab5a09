/*
 * The VIO version handshake's calls, for C: link target/staticlib/libvio_exports.a, which `tools/build vio_exports` writes.
 *
 * Every call checks all that it is given and is proved to do nothing undefined on any words, lengths and numbers. What C must see to: each
 * pointer has as many elements as the length beside it says, and setup's list and an end do not overlap.
 *
 * refusal is 0 where the call was accepted; 7 where setup refuses a list; 8 where the words lent are no sound end (then nothing was written).
 * Nothing is allocated or kept between calls: an end's words are the caller's.
 */
#ifndef ARKELUTZ_VIO_H
#define ARKELUTZ_VIO_H

#include <stddef.h>
#include <stdint.h>

#ifdef __cplusplus
extern "C" {
#endif

#define ARKELUTZ_VIO_END_WORDS 39 /* start and receive ask for an end of just this length */
#define ARKELUTZ_VIO_MOST_VERSIONS 16

/* The session's words of an end, and its stages. */
#define ARKELUTZ_VIO_STAGE 2
#define ARKELUTZ_VIO_ID 3
#define ARKELUTZ_VIO_MAJOR 4
#define ARKELUTZ_VIO_MINOR 5

enum arkelutz_vio_stage {
    ARKELUTZ_VIO_NOTHING = 0,
    ARKELUTZ_VIO_ASKED = 1,  /* an open request: id, major and minor asked */
    ARKELUTZ_VIO_AGREED = 2, /* id, major and minor agreed */
    ARKELUTZ_VIO_ENDED = 3   /* its own try ended without a version */
};

struct arkelutz_vio_ready {
    uint64_t refusal; /* 0 or 7 */
    uint64_t end[ARKELUTZ_VIO_END_WORDS];
};

struct arkelutz_vio_answer {
    uint64_t refusal; /* 0 or 8 */
    uint64_t count;   /* of words sent: 0 or 2 */
    uint64_t first;
    uint64_t second;
};

/* Takes an end's class, the class that it accepts, and the versions that it holds, a major and its highest minor each, and gives the end. */
struct arkelutz_vio_ready arkelutz_vio_setup(uint8_t class_held, uint8_t class_accepted, const uint64_t *list, size_t list_words);

/* Starts a handshake under a session id: gives the request for the highest major. */
struct arkelutz_vio_answer arkelutz_vio_start(uint64_t *end, size_t end_words, uint32_t id);

/* Receives the two words of a message; next is the session id of the request that it may send next. */
struct arkelutz_vio_answer arkelutz_vio_receive(uint64_t *end, size_t end_words, uint32_t next, uint64_t first, uint64_t second);

#ifdef __cplusplus
}
#endif

#endif
