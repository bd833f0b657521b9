/* Transomrib: ingress policing (stream filters, gates, flow meters, ATS schedulers) of one bridge, as a C library.
 * Link with libtransomrib.a (x86-64, System V). It allocates nothing and keeps nothing: the whole state of a bridge is the table, the bank and
 * the lists that the caller lends to each call. Document 01 says what the records are and what each number means.
 *
 * Every value of every octet lent is a legal one: a spoiled table or bank gives some answer of document 01, and no undefined behaviour.
 * What the caller owes, and nothing tests:
 *   - each pointer is aligned for its type and not null, with a length of 0 too;
 *   - the memory behind it is as long as said, and was written: all zeros is a fresh bridge;
 *   - table, bank and lists overlap neither each other nor the input;
 *   - nothing else touches them during a call: one call at a time for one bridge. Calls for different bridges may run at once;
 *   - the stack is not shared with an interrupt handler: the code stores up to 128 octets below the stack pointer (the red zone);
 *   - memcpy, memmove, memset and memcmp exist where the compiler asks for them. */
#ifndef TRANSOMRIB_H
#define TRANSOMRIB_H
#include <stddef.h>
#include <stdint.h>
#ifdef __cplusplus
#define TRANSOMRIB_ASSERT static_assert
#define TRANSOMRIB_ALIGN alignof
extern "C" {
#else
#define TRANSOMRIB_ASSERT _Static_assert
#define TRANSOMRIB_ALIGN _Alignof
#endif

#define TRANSOMRIB_ROWS 64
#define TRANSOMRIB_BANK_WORDS 1480
#define TRANSOMRIB_LISTS_OCTETS 1408

/* A row of the filter table; place n is filter n's. All zeros is an empty place. Three octets of padding at the end may hold anything. */
struct transomrib_filter {
    uint32_t handle;
    uint16_t max_sdu; /* 0 none */
    uint8_t used;     /* 1 where the place holds a filter */
    uint8_t any_handle;
    uint8_t priority; /* 8 any */
    uint8_t gate;
    uint8_t oversize_block;
    uint8_t meter;     /* 255 none */
    uint8_t scheduler; /* 255 none */
};
TRANSOMRIB_ASSERT(sizeof(struct transomrib_filter) == 16 && TRANSOMRIB_ALIGN(struct transomrib_filter) == 4, "size and alignment of a row");
TRANSOMRIB_ASSERT(offsetof(struct transomrib_filter, max_sdu) == 4 && offsetof(struct transomrib_filter, used) == 6, "offsets in a row");
TRANSOMRIB_ASSERT(offsetof(struct transomrib_filter, any_handle) == 7 && offsetof(struct transomrib_filter, priority) == 8, "offsets in a row");
TRANSOMRIB_ASSERT(offsetof(struct transomrib_filter, gate) == 9 && offsetof(struct transomrib_filter, oversize_block) == 10, "offsets in a row");
TRANSOMRIB_ASSERT(offsetof(struct transomrib_filter, meter) == 11 && offsetof(struct transomrib_filter, scheduler) == 12, "offsets in a row");

/* State and counters of all objects but the filter rows, and the octets of the gate lists. */
struct transomrib_bank {
    uint64_t words[TRANSOMRIB_BANK_WORDS];
};
struct transomrib_lists {
    uint8_t octets[TRANSOMRIB_LISTS_OCTETS];
};
TRANSOMRIB_ASSERT(sizeof(struct transomrib_bank) == 11840 && TRANSOMRIB_ALIGN(struct transomrib_bank) == 8, "size and alignment of the bank");
TRANSOMRIB_ASSERT(sizeof(struct transomrib_lists) == 1408, "size of the lists");
TRANSOMRIB_ASSERT(sizeof(size_t) == 8, "a length has 64 bits");

/* verdict */
enum { TRANSOMRIB_REFUSED = 0, TRANSOMRIB_TAKEN = 1, TRANSOMRIB_PASSED = 2, TRANSOMRIB_DROPPED = 3 };

/* number, of a refusal */
enum {
    TRANSOMRIB_CUT_SHORT = 1,
    TRANSOMRIB_UNKNOWN_KIND = 2,
    TRANSOMRIB_OUT_OF_RANGE = 3,
    TRANSOMRIB_OUT_OF_TURN = 4,
    TRANSOMRIB_SET_UP_ALREADY = 5,
    TRANSOMRIB_NINTH_ENTRY = 6,
    TRANSOMRIB_MISSING = 7,
    TRANSOMRIB_BURST_TOO_SMALL = 8,
    TRANSOMRIB_TIME_GOES_BACK = 9,
    TRANSOMRIB_NOT_SET_UP = 10,
    TRANSOMRIB_TABLE_LENGTH = 11
};

/* number, of a drop */
enum {
    TRANSOMRIB_DROP_OVERSIZE_BLOCKED = 1,
    TRANSOMRIB_DROP_OVERSIZE = 2,
    TRANSOMRIB_DROP_GATE_BLOCKED = 3,
    TRANSOMRIB_DROP_GATE_CLOSED = 4,
    TRANSOMRIB_DROP_GATE_OCTETS = 5,
    TRANSOMRIB_DROP_YELLOW = 6,
    TRANSOMRIB_DROP_RED = 7,
    TRANSOMRIB_DROP_RESIDENCE = 8
};

/* An answer. A field that says nothing of the verdict is 0. */
struct transomrib_reply {
    uint64_t eligible; /* the eligibility time in ns, where timed is 1 */
    uint64_t used;     /* octets of the input that the record took; 0 of a refusal */
    uint8_t verdict;
    uint8_t number;
    uint8_t priority; /* the internal priority */
    uint8_t traffic_class;
    uint8_t drop_mark;
    uint8_t timed;
};
TRANSOMRIB_ASSERT(sizeof(struct transomrib_reply) == 24 && TRANSOMRIB_ALIGN(struct transomrib_reply) == 8, "size and alignment of a reply");
TRANSOMRIB_ASSERT(offsetof(struct transomrib_reply, used) == 8 && offsetof(struct transomrib_reply, verdict) == 16, "offsets in a reply");
TRANSOMRIB_ASSERT(offsetof(struct transomrib_reply, number) == 17 && offsetof(struct transomrib_reply, priority) == 18, "offsets in a reply");
TRANSOMRIB_ASSERT(offsetof(struct transomrib_reply, traffic_class) == 19 && offsetof(struct transomrib_reply, drop_mark) == 20, "offsets in a reply");
TRANSOMRIB_ASSERT(offsetof(struct transomrib_reply, timed) == 21, "offsets in a reply");

/* Takes the record at the start of input; octets after it are not looked at. A refusal leaves everything as it was. */
struct transomrib_reply transomrib_take(struct transomrib_filter *table, size_t rows, struct transomrib_bank *bank,
                                        struct transomrib_lists *lists, const uint8_t *input, size_t octets);

/* what, of transomrib_read, and whose the index is */
enum {
    TRANSOMRIB_MATCHING_FRAMES = 1,       /* filter 0..63 */
    TRANSOMRIB_PASSING_SDU = 2,           /* filter */
    TRANSOMRIB_NOT_PASSING_SDU = 3,       /* filter */
    TRANSOMRIB_PASSING_FRAMES = 4,        /* filter */
    TRANSOMRIB_NOT_PASSING_FRAMES = 5,    /* filter */
    TRANSOMRIB_RED_FRAMES = 6,            /* filter */
    TRANSOMRIB_OVERSIZE_FLAG = 7,         /* filter */
    TRANSOMRIB_INVALID_RECEIVE_FLAG = 8,  /* gate 0..15 */
    TRANSOMRIB_OCTETS_FLAG = 9,           /* gate */
    TRANSOMRIB_RED_FLAG = 10,             /* meter 0..15 */
    TRANSOMRIB_DISCARDED_FRAMES = 11      /* port 0..7 */
};

/* A counter, or a flag as 0 or 1; 0 for any other name and for an index past the table. */
uint64_t transomrib_read(const struct transomrib_bank *bank, uint32_t what, uint32_t index);

#ifdef __cplusplus
}
#endif
#endif
