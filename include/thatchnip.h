/* thatchnip.h: the grammar check as a C or C++ host calls it. Link target/staticlib/libthatchnip.a (made by `tools/archive`). */
#ifndef THATCHNIP_H
#define THATCHNIP_H

#include <stddef.h>
#include <stdint.h>

#ifdef __cplusplus
extern "C" {
#endif

/*
 * Checks a grammar's node image over three tables that the caller lends. The number that comes back is count + 2^32 * refusal; take
 * it apart with thatchnip_refusal and thatchnip_count.
 *
 * In Rattle the entry has four byte slices. Each slice comes as two arguments, a pointer to its first byte and its length in bytes, so the
 * C function has eight; the archive is x86-64 code, called by the System V convention (the last two arguments go on the stack).
 *
 *   image      read only. Any bytes may come in: the check ends with its reports or with one refusal.
 *   outcomes   work table, 8 bytes a place: one place for each (node, state) asked about.
 *   walked     work table, 4 bytes a place: one place for each (node, state) walked.
 *   reports    8 bytes a place: the reports come back here, in order; read them with thatchnip_report.
 *
 * A table has length / place size places, rounded down; bytes left over are no place. What the tables hold before the call is not read,
 * so they need not be cleared. After every return
 *
 *   - each byte of outcomes and walked is zero, left-over bytes too;
 *   - without a refusal the first count places of reports hold the reports, and each byte past them is zero;
 *   - with a refusal the count is 0 and each byte of reports is zero;
 *   - the image is as it was.
 *
 * What the caller owes; nothing checks it:
 *
 *   - each pointer leads to that many bytes, readable, those of the tables writable too, and no other thread touches them during the call;
 *   - no table overlaps the image or another table;
 *   - a slice of length 0 may have any pointer, also NULL: nothing is read or written through it. At any other length NULL is an error;
 *   - no alignment is asked;
 *   - 1 MiB of stack is free (docs/TRUST.md, "Stack use").
 *
 * The check keeps nothing between calls, takes no memory from the heap and calls only memcpy and memset. Two threads may check at once,
 * each with tables of its own.
 */
uint64_t thatchnip_check(const uint8_t *image, size_t image_length,
                         uint8_t *outcomes, size_t outcomes_length,
                         uint8_t *walked, size_t walked_length,
                         uint8_t *reports, size_t reports_length);

/* Bytes of one place in each table. */
#define THATCHNIP_OUTCOME_PLACE 8
#define THATCHNIP_WALKED_PLACE 4
#define THATCHNIP_REPORT_PLACE 8

/* The image: bytes of its table of contents, of a rule and of a node; the most rules, nodes and text bytes; the longest image that is not
 * refused. */
#define THATCHNIP_IMAGE_CONTENTS 24
#define THATCHNIP_IMAGE_RULE 12
#define THATCHNIP_IMAGE_NODE 24
#define THATCHNIP_RULES_MOST 256
#define THATCHNIP_NODES_MOST 2048
#define THATCHNIP_TEXT_MOST 8192
#define THATCHNIP_IMAGE_MOST                                                                                     \
    (THATCHNIP_IMAGE_CONTENTS + THATCHNIP_IMAGE_RULE * THATCHNIP_RULES_MOST +                                    \
     THATCHNIP_IMAGE_NODE * THATCHNIP_NODES_MOST + THATCHNIP_TEXT_MOST)

/* No image has more reports (proved: crates/thatchnip/proofs/Counts.antt): with this many places refusal 10 never comes. */
#define THATCHNIP_REPORTS_MOST 6400

/* There are 511 blank masks by length, 3 bases and 2 of intact, so no image has more (node, state) pairs: with this many places in both work
 * tables 8 and 9 never come. Far fewer do in practice, and every place costs time, since the tables are cleared. */
#define THATCHNIP_STATES 3066
#define THATCHNIP_PAIRS_MOST (THATCHNIP_NODES_MOST * THATCHNIP_STATES)

/* Refusals. 1 to 7 speak of the image, tried in that order over the whole of it; 8 to 10 of the lent tables (larger ones may help); 11 to 13 of
 * the check's own limits. Of 8 to 13 the first that is met is given. */
enum thatchnip_refusals {
    THATCHNIP_DONE = 0,              /* not refused */
    THATCHNIP_SHORT_IMAGE = 1,       /* the image is under 24 bytes */
    THATCHNIP_COUNT_OVER = 2,        /* over 256 rules, 2,048 nodes or 8,192 text bytes */
    THATCHNIP_WRONG_LAYOUT = 3,      /* a position or the total length is not as the counts have it */
    THATCHNIP_BAD_NODE = 4,          /* unknown kind, bits above 7, a stray field, text outside, an empty Ident, or start past end */
    THATCHNIP_BAD_RULE = 5,          /* an empty or outside name, or a root not below the node count */
    THATCHNIP_SAME_NAME = 6,         /* two rules share a name */
    THATCHNIP_PART_RULE_BROKEN = 7,  /* a part not below its node, or a node not exactly once a part or a root */
    THATCHNIP_OUTCOMES_FULL = 8,     /* a new (node, state) needs an outcome place and none is free */
    THATCHNIP_WALKED_FULL = 9,       /* a new (node, state) needs a walked place and none is free */
    THATCHNIP_REPORTS_FULL = 10,     /* a report is due and no place is free */
    THATCHNIP_STARTS_OVER = 11,      /* a 65th distinct start in one bounded or one greedy run */
    THATCHNIP_OPEN_OVER = 12,        /* a 257th node open at once */
    THATCHNIP_SEARCH_OVER = 13       /* the left-recursion search from one rule enters a 65,537th node */
};

/* Reasons of a report, and the node that it names. */
enum thatchnip_reasons {
    THATCHNIP_CANNOT_FAIL = 1,       /* the repetition: its part cannot fail */
    THATCHNIP_NOT_PROGRESSING = 2,   /* the repetition: its part does not progress */
    THATCHNIP_STACK_LOOP = 3,        /* the repetition: entered with a stack of this state it never ends */
    THATCHNIP_CHOICE_UNREACHED = 4,  /* the side of a choice that cannot fail, so what follows it is not reached */
    THATCHNIP_LEFT_RECURSION = 5     /* the Ident that leads back to its rule with nothing consumed */
};

/* What lies below the tracked entries of a state's stack. */
enum thatchnip_bases {
    THATCHNIP_BASE_EMPTY = 0,        /* no entry */
    THATCHNIP_BASE_BLANK = 1,        /* any number of entries of length 0, also none */
    THATCHNIP_BASE_ANY = 2           /* any entries */
};

/* Of the result: the refusal, 0 to 13. */
static inline uint32_t thatchnip_refusal(uint64_t result) {
    return (uint32_t)(result >> 32);
}

/* Of the result: how many reports stand in the report table; 0 where it refuses. */
static inline uint32_t thatchnip_count(uint64_t result) {
    return (uint32_t)(result & 0xffffffffu);
}

/* Report i of the table, for i below the count: node + 65,536 * state + 2^32 * reason, laid down little-endian. */
static inline uint64_t thatchnip_report(const uint8_t *reports, size_t i) {
    uint64_t report = 0;
    int k;
    for (k = THATCHNIP_REPORT_PLACE - 1; k >= 0; k--)
        report = report << 8 | reports[i * THATCHNIP_REPORT_PLACE + (size_t)k];
    return report;
}

/* Of a report: the node's number in the image. */
static inline uint32_t thatchnip_report_node(uint64_t report) {
    return (uint32_t)(report & 0xffffu);
}

/* Of a report: the state's number; 0 for every reason but 3 (and for 3 it may be 0 too: the empty stack, not intact). */
static inline uint32_t thatchnip_report_state(uint64_t report) {
    return (uint32_t)(report >> 16 & 0xffffu);
}

/* Of a report: the reason, 1 to 5. */
static inline uint32_t thatchnip_report_reason(uint64_t report) {
    return (uint32_t)(report >> 32);
}

/* Of a state (blank + 256 * length + 4,096 * base + 16,384 * intact): which tracked entries surely have length 0; bit 0 is the lowest
 * entry, bit length - 1 the top. */
static inline uint32_t thatchnip_state_blank(uint32_t state) {
    return state & 0xffu;
}

/* Of a state: how many entries are tracked above the base, 0 to 8. */
static inline uint32_t thatchnip_state_length(uint32_t state) {
    return state >> 8 & 0xfu;
}

/* Of a state: the base, 0 to 2. */
static inline uint32_t thatchnip_state_base(uint32_t state) {
    return state >> 12 & 0x3u;
}

/* Of a state: 1 where the base is the list with which the rule began, untouched; else 0. */
static inline uint32_t thatchnip_state_intact(uint32_t state) {
    return state >> 14 & 0x1u;
}

#ifdef __cplusplus
}
#endif

#endif
