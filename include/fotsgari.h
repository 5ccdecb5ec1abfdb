/* Lives of a bench, run through the proved library crates/fotsgari_c. docs/C.md explains it.
 *
 * Nothing checks that these declarations are those of the library, and nothing checks a call.
 * Every pointer must be valid for as many elements as the length after it says, aligned, and not
 * NULL, also where the length is 0. What is written (tape, outcomes, status) must not overlap
 * anything else that is handed over. Nothing of it is used after the call.
 */
#ifndef FOTSGARI_H
#define FOTSGARI_H

#include <stddef.h>
#include <stdint.h>

#ifdef __cplusplus
extern "C" {
#endif

/* The number of bytes of a tape that a statement takes. */
#define FOTSGARI_PLACE 20
#define FOTSGARI_SLOTS 64
#define FOTSGARI_REPLICAS 16

/* The numbers of the calls, with their arguments in order (docs/PROTOCOL.md). */
enum fotsgari_call_number {
    FOTSGARI_STAMP = 1,    /* operation */
    FOTSGARI_DELIVER = 2,  /* replica, slot */
    FOTSGARI_FIND = 3,     /* replica */
    FOTSGARI_DROP = 4,     /* replica */
    FOTSGARI_DECIDE = 5,   /* replica, slot, verdict: 0 operation, 1 no-op */
    FOTSGARI_PREPARE = 6,  /* replica, slot, verdict */
    FOTSGARI_COMMIT = 7,   /* replica, slot, verdict */
    FOTSGARI_SETTLE = 8,   /* replica, slot, verdict */
    FOTSGARI_REPLY = 9,    /* replica, slot */
    FOTSGARI_LEAVE = 10,   /* replica, target */
    FOTSGARI_FORGE = 11,   /* place among the records, from 0 */
    FOTSGARI_LEAD = 12,    /* replica, place of the first pick among the records, number of picks, base length, base word */
    FOTSGARI_START = 13,   /* replica, place of the first pick among the records, number of picks, base length, base word */
    FOTSGARI_ENTER = 14,   /* replica, length, word, view */
    FOTSGARI_ANSWER = 15,  /* bytes of the witness buffer, view, slot, word, result */
    FOTSGARI_NO_OP = 16    /* bytes of the witness buffer, view, slot */
};

/* A call. The arguments that it has not got are not read. */
struct fotsgari_call {
    uint64_t number;
    uint64_t arguments[5];
};

/* A record (docs/RECORDS.md). Any number is allowed in each field. */
struct fotsgari_record {
    uint8_t kind;
    uint8_t signer;
    uint8_t view;
    uint8_t last;
    uint8_t slot;
    uint8_t verdict;
    uint64_t word;
    uint64_t result;
};

enum fotsgari_outcome_kind {
    FOTSGARI_NOT_MADE = 0, /* no call of a life that ran is left so */
    FOTSGARI_GRANTED = 1,
    FOTSGARI_YES = 2,
    FOTSGARI_NO = 3,
    FOTSGARI_REFUSED = 4
};

/* What came of a call. */
struct fotsgari_outcome {
    uint8_t kind;
    uint8_t ground;                        /* refused: the number of the ground, else 0 */
    uint8_t witnesses[FOTSGARI_REPLICAS];  /* yes: a quorum that said it, and then zeros; else zeros */
    uint64_t place;                        /* refused: the place, else 0 */
};

/* A replica (docs/PROTOCOL.md, "What a bench holds"). */
struct fotsgari_replica {
    uint8_t view;
    uint8_t target;
    uint8_t base;
    uint8_t length;
    uint8_t mark; /* 1 where it is set, else 0 */
    uint64_t word;
    uint64_t sealed;
};

/* What a bench kept, at the end of its life, besides its register and its service. */
struct fotsgari_status {
    uint64_t stamped;                                     /* how many operations are stamped */
    uint64_t operations[FOTSGARI_SLOTS];                  /* that of slot 0 first, and then zeros */
    struct fotsgari_replica replicas[FOTSGARI_REPLICAS];  /* by their numbers */
};

/* What is answered. */
enum fotsgari_answer {
    FOTSGARI_RAN = 0,
    /* The open is refused on this ground. It is never refused on ground 5: the register is empty. */
    FOTSGARI_FAULT_BOUND = 3,
    FOTSGARI_FOREIGN_MASK = 4,
    /* What is wrong with the rest. Of the calls, the first with which something is wrong counts. */
    FOTSGARI_BAD_OUTCOMES = 101,    /* not as many outcomes as calls */
    FOTSGARI_BAD_CALL_NUMBER = 102, /* no call has the number */
    FOTSGARI_BAD_VERDICT = 103,     /* a verdict is neither 0 nor 1 */
    FOTSGARI_BAD_RECORDS = 104,     /* a call names records that there are not */
    FOTSGARI_NO_MEMORY = 105        /* malloc or realloc gave none */
};

/* Opens a bench that bears f foreign replicas, of which the mask names the foreign ones, with a
 * fresh service of this kind, over an empty register on the tape, whatever the tape holds; makes
 * every call in its turn, and writes what came of each to the outcomes, and what the bench kept at
 * its end to the status. The answer is then 0. With any other answer nothing is written.
 */
uint8_t fotsgari_run_rating(
    uint64_t f, uint64_t foreign,
    uint8_t *tape, size_t tape_length,
    const struct fotsgari_call *calls, size_t calls_length,
    const struct fotsgari_record *records, size_t records_length,
    struct fotsgari_outcome *outcomes, size_t outcomes_length,
    struct fotsgari_status *status);

uint8_t fotsgari_run_allotment(
    uint64_t f, uint64_t foreign,
    uint8_t *tape, size_t tape_length,
    const struct fotsgari_call *calls, size_t calls_length,
    const struct fotsgari_record *records, size_t records_length,
    struct fotsgari_outcome *outcomes, size_t outcomes_length,
    struct fotsgari_status *status);

#ifdef __cplusplus
}
#endif

#endif
