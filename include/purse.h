/* The proved purse for C programs. `rt lib` in crates/host writes crates/host/out/libhost.a, to link with on
   x86-64.

   Card memory, session, command, random bytes and response are byte areas of the caller's, each a pointer and a length. No
   length is asked for beforehand: a wrong one is answered, and changes nothing. What C itself asks for is the caller's part:
   no pointer is NULL, each has its bytes, and no area that is written overlaps another.

   The functions keep nothing between calls: all of a card is in its memory, all of a session in its area. They may run in
   several threads at once, on areas of their own.

   Memory that a purse with an older layout wrote reads as no card, and can be installed over. */

#ifndef PURSE_H
#define PURSE_H

#include <stddef.h>
#include <stdint.h>

#ifdef __cplusplus
extern "C" {
#endif

/* Bytes of each area. A response area may have more; what lies behind the response stays as it was. */
enum {
    PURSE_MEMORY = 4096,
    PURSE_SESSION = 128,
    PURSE_RANDOM = 8,
    PURSE_RESPONSE = 32
};

/* What a call can say. Of several reasons the first counts, in the order 1, 3, 4, 8, 2, 5, 6. */
enum {
    PURSE_DONE = 0,          /* done; a command's response leads the response area */
    PURSE_WRONG_MEMORY = 1,  /* memory is not 4,096 bytes */
    PURSE_NO_CARD = 2,       /* memory reads as no card */
    PURSE_SHORT_AREA = 3,    /* the response area has fewer than 32 bytes */
    PURSE_WRONG_RANDOM = 4,  /* the random bytes are not 8 */
    PURSE_AWAITS_START = 5,  /* memory awaits a start-up; this purse never has to say so */
    PURSE_WRONG_DATA = 6,    /* installation data: a number out of range, too short or too long */
    PURSE_CUT = 7,           /* the limit was reached before the last store */
    PURSE_NO_SESSION = 8     /* the session area is not 128 bytes, or reads as no session */
};

/* A limit says how many single-byte stores in card memory a call may make, as if power failed then. Any number will do; from
   65,535 on no call is cut. */
#define PURSE_NO_LIMIT ((size_t)-1)

/* Each call's result is one number: the answer in its lowest byte, the response's length in the next, the store count above.
   The count of a finished call is the least limit at which it isn't cut; a cut call reports its limit, a refused one 0. */
static inline unsigned purse_answer(uint64_t result)
{
    return (unsigned)(result % 256);
}

static inline size_t purse_length(uint64_t result)
{
    return (size_t)(result / 256 % 256);
}

static inline size_t purse_count(uint64_t result)
{
    return (size_t)(result / 65536);
}

/* The session area: after 0 it holds the session for the next command, after 7 zeros, which read as no session, so that a
   start-up is due; after any other answer it is as it was. Its bytes are the purse's own: keep them, and change none. */

/* Makes a fresh card, whatever memory held. The data: AID length (5 to 16), AID, log size (1 to 50), PIN tries (3 to 15), and
   the administration keys S-ENC, S-MAC and DEK, 16 bytes each. The session afterwards is the unselected one; what its area
   held doesn't matter. Answers 0, 1, 6, 7, 8. */
uint64_t purse_install(uint8_t *memory, size_t memory_len, uint8_t *session, size_t session_len,
                       const uint8_t *data, size_t data_len, size_t limit);

/* Power on: the session afterwards is the unselected one; what its area held doesn't matter. Answers 0, 1, 2, 8. */
uint64_t purse_start_up(uint8_t *memory, size_t memory_len, uint8_t *session, size_t session_len, size_t limit);

/* Sends a command of any length. The random bytes are the card challenge, should the command ask for one. Answers 0, 1, 2, 3,
   4, 7, 8; after 0 the response ends in the command's status word. */
uint64_t purse_command(uint8_t *memory, size_t memory_len, uint8_t *session, size_t session_len,
                       const uint8_t *command, size_t command_len, const uint8_t *random, size_t random_len,
                       uint8_t *response, size_t response_len, size_t limit);

#ifdef __cplusplus
}
#endif

#endif
