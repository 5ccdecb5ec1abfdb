/* Registers and the counting of a quorum, through the proved library crates/registers_c. docs/C.md
 * explains it.
 *
 * As in fotsgari.h, nothing checks these declarations or a call: every pointer must be valid for as
 * many elements as the length after it says, aligned, and not NULL, also where the length is 0, and
 * what is handed over must not overlap. Nothing of it is used after the call.
 */
#ifndef FOTSGARI_REGISTERS_H
#define FOTSGARI_REGISTERS_H

#include "fotsgari.h"

#ifdef __cplusplus
extern "C" {
#endif

/* The numbers of the requests. */
enum fotsgari_request_number {
    FOTSGARI_REQUEST_ASK = 1,      /* whether the register holds the statement */
    FOTSGARI_REQUEST_IS_EMPTY = 2, /* whether it holds none */
    FOTSGARI_REQUEST_ENTER = 3,    /* enters the statement */
    FOTSGARI_REQUEST_COUNT = 4     /* how many replicas said it, each under its own number */
};

enum fotsgari_request_outcome {
    FOTSGARI_NO_REQUEST = 0, /* no request has the number: nothing is done */
    FOTSGARI_REQUEST_GRANTED = 1,
    FOTSGARI_REQUEST_YES = 2,
    FOTSGARI_REQUEST_NO = 3,
    FOTSGARI_REQUEST_REFUSED = 4,
    FOTSGARI_REQUEST_COUNTED = 5
};

/* A request to a register, and what came of it. */
struct fotsgari_request {
    struct fotsgari_record statement;
    uint8_t number;   /* any number is allowed */
    uint8_t replicas; /* count: how many replicas there are, numbered from 0; any number is allowed */
    uint8_t outcome;  /* written */
    uint8_t value;    /* written: refused, the number of the ground; counted, how many; else 0 */
};

/* Each makes the requests in their turn to a register that is empty at first. A request's statement,
 * number and replicas stay as they are. */

/* Over the tape, with a place for each whole 20 bytes, whatever it holds. The statements that the
 * requests add stand packed at its start then, in order; the other bytes are as they were. */
void fotsgari_use_tape(
    uint8_t *tape, size_t tape_length, struct fotsgari_request *requests, size_t requests_length);

/* Over the table, with a place for each record, whatever it holds. The statements that the requests
 * add stand in its first places then, in order; the other records are as they were. */
void fotsgari_use_table(
    struct fotsgari_record *table, size_t table_length, struct fotsgari_request *requests,
    size_t requests_length);

/* A register with 32 places of its own: two spare sheets, one laid over the other. */
void fotsgari_use_sheets(struct fotsgari_request *requests, size_t requests_length);

#ifdef __cplusplus
}
#endif

#endif
