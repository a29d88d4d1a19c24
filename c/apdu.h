/* Reading and writing APDUs: the C interface of the library libapdu_c.a.
 *
 * docs/c-interface.md explains it at length, docs/wire-format.md has the bytes.
 *
 * Neither function keeps anything between calls or writes anywhere but where its comment says.
 * Both always return. They may be called from several threads at once, each with its own struct
 * and buffers.
 *
 * Every pointer must be valid: not null (not even with a size of 0), aligned for its type, and
 * pointing at memory that is there in full and has been set to something. What a call may write
 * must not overlap anything else that the call is given.
 */
#ifndef APDU_H
#define APDU_H

#include <stddef.h>
#include <stdint.h>

#ifdef __cplusplus
extern "C" {
#endif

/* What the functions return. */
#define APDU_DONE 0        /* done */
#define APDU_SHORT_SHEET 1 /* the buffer is under APDU_ROOM bytes */
#define APDU_GARBLED 5     /* the bytes, or the fields, are no APDU */

/* The room that apdu_write asks for. Every APDU fits. */
#define APDU_ROOM 64

/* kind */
#define APDU_KIND_INVOKE 1
#define APDU_KIND_RESULT 2
#define APDU_KIND_ERROR 3
#define APDU_KIND_REJECT 4

/* operation */
#define APDU_OP_NONE 0 /* in an error or a reject */
#define APDU_OP_AUTH_WTM_USER 1
#define APDU_OP_GET_WTAT_PARAM 2
#define APDU_OP_WTAT_PARAM_ENQ 3
#define APDU_OP_GET_WTAN_PARAM 4
#define APDU_OP_WTAN_PARAM_ENQ 5

/* verdict */
#define APDU_VERDICT_CORRECT 0
#define APDU_VERDICT_INCORRECT 1

/* error */
#define APDU_ERROR_INVALID_SERVED_USER_NR 1
#define APDU_ERROR_PARAM_NOT_AVAILABLE 2
#define APDU_ERROR_TEMPORARILY_UNAVAILABLE 3
#define APDU_ERROR_NOT_AUTHORIZED 4
#define APDU_ERROR_UNSPECIFIED 5

/* present: bit t stands for the field with tag t. */
#define APDU_HAS_USER (1u << 4)
#define APDU_HAS_CAN_COMPUTE (1u << 5)
#define APDU_HAS_CHALLENGE (1u << 6)
#define APDU_HAS_ALGORITHM (1u << 7)
#define APDU_HAS_UNIT (1u << 8)
#define APDU_HAS_SESSION (1u << 9)
#define APDU_HAS_RESPONSE (1u << 10)
#define APDU_HAS_VERDICT (1u << 11)
#define APDU_HAS_ERROR (1u << 12)
#define APDU_HAS_PROBLEM (1u << 13)

/* A user number is 1 to 15 decimal digits, and leading zeros count. It is kept as one number:
 * the count of digits times 10^15, plus the value of the digits. User 200 is APDU_USER(3, 200). */
#define APDU_USER_STEP UINT64_C(1000000000000000)
#define APDU_USER(count, value) ((uint64_t)(count) * APDU_USER_STEP + (uint64_t)(value))
#define APDU_USER_COUNT(user) ((uint64_t)(user) / APDU_USER_STEP)
#define APDU_USER_VALUE(user) ((uint64_t)(user) % APDU_USER_STEP)

/* The fields of one APDU. Tags in hexadecimal. */
struct apdu_fields {
    uint64_t user;                /* 04: count of digits * 10^15 + value */
    uint16_t present;             /* which of the fields 04 to 0D there are: bit t for tag t */
    uint16_t id;                  /* 02: the invoke id, never 0 */
    uint8_t kind;                 /* 01 */
    uint8_t operation;            /* 03; 0 in an error or a reject, which have none */
    uint8_t algorithm;            /* 07: any value */
    uint8_t verdict;              /* 0B */
    uint8_t error;                /* 0C */
    uint8_t problem;              /* 0D: any value */
    uint8_t challenge[8];         /* 06 */
    uint8_t unit_challenge[8];    /* 08, its first part */
    uint8_t unit_response[4];     /* 08, its second part */
    uint8_t session_key[16];      /* 09, its first part */
    uint8_t session_parameter[8]; /* 09, its second part */
    uint8_t response[4];          /* 0A */
};

/* Reads the APDU that the `size` bytes at `bytes` are, all of them.
 *
 * APDU_DONE:    *fields is set as a whole. A value whose field is absent is zero.
 * APDU_GARBLED: the bytes are no APDU. *fields is as it was. Bytes to which a reject would be the
 *               answer are no APDU either. */
uint8_t apdu_read(const uint8_t *bytes, size_t size, struct apdu_fields *fields);

/* Writes the APDU with these fields to the front of the `size` bytes at `out`.
 *
 * APDU_DONE:        the APDU stands at the front of `out`, the rest of `out` is as it was, and
 *                   *used is the APDU's length.
 * APDU_SHORT_SHEET: `size` is under APDU_ROOM. This is looked at first.
 * APDU_GARBLED:     the fields are no APDU: kind, operation and `present` do not go together, the
 *                   id is 0, or a field that is present has a value that it cannot have.
 *
 * On a refusal neither `out` nor *used has changed. Values of fields that are not present are not
 * looked at. */
uint8_t apdu_write(const struct apdu_fields *fields, uint8_t *out, size_t size, size_t *used);

#ifdef __cplusplus
}
#endif

#endif
