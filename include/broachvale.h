/* Broachvale: BEJ and JSON text by a dictionary, and a desk of RDE operations (DMTF DSP0218).
 *
 * Every function takes any bytes, ends, reads nothing beyond what it is lent, and answers a number: 0 for acceptance, or a
 * refusal's (enum broachvale_refusal). A lent buffer is a pointer and a length or count; NULL with 0 is a buffer of nothing.
 * What a function writes (a result, a desk, a store, a told row) must not overlap anything else that it is lent.
 *
 * A refusal changes no result buffer, no desk and no store. The told rows are answers, not buffers for a result: of read and
 * write the row is written on a refusal too, since a refusal says its place there (place, 0, 0); of the desk's status and list
 * it is written on acceptance alone. A told row that is too short gets as many numbers as it has room for; what it has
 * beyond them stays. A place is a count of bytes from 0 at the first byte of the payload or the text.
 *
 * After acceptance the bytes of a result buffer past the told length are as before. Nothing is kept between calls; calls on
 * different buffers may run at the same time. On x86-64 the deepest read used some 20 KB of stack and the deepest write some 35 KB.
 *
 * The rules are docs/RULES.md. What each function answers and leaves in each buffer is stated, and proved for every input, in
 * crates/exports; docs/CLAIMS.md says where. */
#ifndef BROACHVALE_H
#define BROACHVALE_H

#include <stddef.h>
#include <stdint.h>

#ifdef __cplusplus
extern "C" {
#endif

/* The version of this header; broachvale_version tells that of the library, in the same form. */
#define BROACHVALE_VERSION_MAJOR 0
#define BROACHVALE_VERSION_MINOR 2
#define BROACHVALE_VERSION_PATCH 0
#define BROACHVALE_VERSION \
    (65536u * BROACHVALE_VERSION_MAJOR + 256u * BROACHVALE_VERSION_MINOR + BROACHVALE_VERSION_PATCH)

uint32_t broachvale_version(void);

/* What a function answers. 1, 2 and 3 are tested in that order before anything else; 14 comes last. A desk tests 20, 21, then
 * for open 22, 26, 23 and for other calls 24, 25, 27. */
enum broachvale_refusal {
    BROACHVALE_ACCEPTED = 0,
    BROACHVALE_DICTIONARY_WRONG = 1, /* dictionary not accepted (tested first) */
    BROACHVALE_LENGTH_WRONG = 2,     /* payload or text length outside the table */
    BROACHVALE_HEADER_DIFFERS = 3,   /* header differs */
    BROACHVALE_PAST_END = 4,         /* a field passes the end of its enclosing value */
    BROACHVALE_WIDTH_WRONG = 5,      /* N is 0 or above 4 */
    BROACHVALE_NOT_KNOWN = 6,        /* sequence or name not known; array index out of turn */
    BROACHVALE_GIVEN_TWICE = 7,      /* child given twice in one set */
    BROACHVALE_NOT_IN_BASE = 8,      /* annotation selector, deferred bit, format or number kind not in the base */
    BROACHVALE_MISFIT = 9,           /* format doesn't fit the row; root no set */
    BROACHVALE_VALUE_WRONG = 10,     /* value wrong: integer length or range, a top byte that only repeats its sign, boolean, string, enum option, null with bytes, bytes left in a value */
    BROACHVALE_TOO_DEEP = 11,        /* depth passed */
    BROACHVALE_BUDGET_SPENT = 12,    /* a tuple begins with the budget spent */
    BROACHVALE_AFTER_ROOT = 13,      /* bytes after the root, in text other than spaces */
    BROACHVALE_NO_ROOM = 14,         /* all else right, result longer than the lent buffer or the table's limit */
    BROACHVALE_BAD_TEXT = 15,        /* up to the root's end, text breaks the grammar, or has an escape or a string byte not allowed */
    BROACHVALE_NOT_SOUND = 20,       /* desk not sound, or the store isn't 32,768 bytes */
    BROACHVALE_NUMBER_ZERO = 21,     /* operation number 0 */
    BROACHVALE_IN_USE = 22,          /* open: number in use */
    BROACHVALE_ALL_TAKEN = 23,       /* open: all 8 places taken */
    BROACHVALE_NO_SUCH_NUMBER = 24,  /* other calls but status: no such number */
    BROACHVALE_NOT_ALLOWED = 25,     /* call not allowed in this state */
    BROACHVALE_OPEN_WRONG = 26,      /* open: type above 6, or length wrong for the type */
    BROACHVALE_AMOUNT_WRONG = 27     /* feed: piece empty or longer than declared less received; take: n 0 or above due */
};

/* The limits: lengths in bytes, and the nesting of sets and arrays, where the root is 1. */
#define BROACHVALE_DICTIONARY_LEAST 22
#define BROACHVALE_DICTIONARY_MOST 65535
#define BROACHVALE_PAYLOAD_LEAST 7
#define BROACHVALE_PAYLOAD_MOST 16384
#define BROACHVALE_TEXT_LEAST 1
#define BROACHVALE_TEXT_MOST 65535
#define BROACHVALE_DEPTH_MOST 16
#define BROACHVALE_INTEGER_MOST 8
#define BROACHVALE_DESK_MOST 8 /* operations */
#define BROACHVALE_DECLARED_MOST 4096
#define BROACHVALE_STORE_BYTES 32768
#define BROACHVALE_DESK_BYTES 128

/* 0 where the bytes are a dictionary that is accepted, else 1. read and write ask this themselves, at every call. */
uint32_t broachvale_dictionary_check(const uint8_t *dictionary, size_t dictionary_length);

/* BEJ to JSON text, with a budget of tuples: a payload with more of them is refused with 12. Answers 0 to 14.
 * told[0], told[1], told[2]: place of the refusal, count of tuples, length of the text; 0 where there is none. The text has no
 * closing 00; a buffer of BROACHVALE_TEXT_MOST bytes always suffices. */
uint32_t broachvale_read(const uint8_t *dictionary, size_t dictionary_length,
                         const uint8_t *payload, size_t payload_length, size_t budget,
                         uint8_t *text, size_t text_length, size_t *told, size_t told_count);

/* JSON text to the shortest BEJ that means it. Answers 0, 1, 2, 6 to 11, 13, 14 or 15.
 * told[0], told[1], told[2]: place of the refusal, count of tuples, length of the payload; 0 where there is none. A buffer of
 * BROACHVALE_PAYLOAD_MOST bytes always suffices. */
uint32_t broachvale_write(const uint8_t *dictionary, size_t dictionary_length,
                          const uint8_t *text, size_t text_length,
                          uint8_t *payload, size_t payload_length, size_t *told, size_t told_count);

enum broachvale_type {
    BROACHVALE_HEAD = 0,
    BROACHVALE_READ = 1,
    BROACHVALE_CREATE = 2,
    BROACHVALE_DELETE = 3,
    BROACHVALE_UPDATE = 4,
    BROACHVALE_REPLACE = 5,
    BROACHVALE_ACTION = 6
};

enum broachvale_state {
    BROACHVALE_INACTIVE = 0,
    BROACHVALE_NEEDS_INPUT = 1,
    BROACHVALE_TRIGGERED = 2,
    BROACHVALE_RUNNING = 3,
    BROACHVALE_HAVE_RESULTS = 4,
    BROACHVALE_COMPLETED = 5,
    BROACHVALE_FAILED = 6,
    BROACHVALE_ABANDONED = 7
};

/* A desk is BROACHVALE_DESK_BYTES bytes, all 0 for an empty one, with a store of BROACHVALE_STORE_BYTES bytes; both are the
 * caller's to keep. Each function answers 0 or 20 to 27, reads the desk from its bytes, and on acceptance writes them back.
 * Bytes that spell no sound desk, of another length or with wrong records, answer 20. Only feed is lent the store. */

/* A new operation: state 1, or 2 where nothing is declared. Head, read and delete declare 0 bytes, create, update and replace
 * 1 to 4,096, action 0 to 4,096. Answers 20, 21, 22, 26, 23. */
uint32_t broachvale_desk_open(uint8_t *desk, size_t desk_length, uint16_t number, uint8_t type, uint32_t declared);

/* Keeps a piece of the request in the store, in state 1; state 2 once all declared bytes are in. Answers 20, 21, 24, 25, 27. */
uint32_t broachvale_desk_feed(uint8_t *desk, size_t desk_length, uint8_t *store, size_t store_length, uint16_t number,
                              const uint8_t *piece, size_t piece_length);

/* State 2 to 3. Answers 20, 21, 24, 25. */
uint32_t broachvale_desk_start(uint8_t *desk, size_t desk_length, uint16_t number);

/* State 3 to 6. Answers 20, 21, 24, 25. */
uint32_t broachvale_desk_finish_failed(uint8_t *desk, size_t desk_length, uint16_t number);

/* State 3 to 4 with so many result bytes due, or to 5 where there are none. Answers 20, 21, 24, 25. */
uint32_t broachvale_desk_finish_good(uint8_t *desk, size_t desk_length, uint16_t number, uint32_t results);

/* n result bytes fewer due, in state 4; state 5 at none. Answers 20, 21, 24, 25, 27. */
uint32_t broachvale_desk_take(uint8_t *desk, size_t desk_length, uint16_t number, uint32_t n);

/* State 1, 2, 3 or 4 to 7; nothing is due then. Answers 20, 21, 24, 25. */
uint32_t broachvale_desk_kill(uint8_t *desk, size_t desk_length, uint16_t number);

/* An operation in state 5, 6 or 7 leaves the desk, and its place is empty. Answers 20, 21, 24, 25. */
uint32_t broachvale_desk_close(uint8_t *desk, size_t desk_length, uint16_t number);

/* told[0], told[1], told[2]: state, received and due bytes; state 0 and zeros of a number that isn't there. Answers 20, 21. */
uint32_t broachvale_desk_status(const uint8_t *desk, size_t desk_length, uint16_t number, uint32_t *told,
                                size_t told_count);

/* operations[0] to operations[7]: the numbers in use, rising, then zeros. Answers 20. */
uint32_t broachvale_desk_list(const uint8_t *desk, size_t desk_length, uint16_t *operations, size_t operations_count);

#ifdef __cplusplus
}
#endif

#endif
