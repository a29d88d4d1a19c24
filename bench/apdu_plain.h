/* Reading and writing APDUs in plain C, written from the wire format alone. It shares no code with
 * the library; only the struct is the same. It is the baseline of the benchmark and the second
 * opinion of the comparison. */
#ifndef APDU_PLAIN_H
#define APDU_PLAIN_H

#include "apdu.h"

/* What plain_read makes of a string. */
#define PLAIN_APDU 0
#define PLAIN_REJECT 1
#define PLAIN_GARBLED 2

/* The problem of a reject that is due. */
#define PLAIN_UNKNOWN_OPERATION 1
#define PLAIN_WRONG_ARGUMENT 2

/* PLAIN_APDU sets *fields, PLAIN_REJECT sets *id and *problem; nothing else is ever changed. */
int plain_read(const uint8_t *bytes, size_t size, struct apdu_fields *fields, uint16_t *id,
               uint8_t *problem);

/* As apdu_write: 0, 1 or 5. */
uint8_t plain_write(const struct apdu_fields *fields, uint8_t *out, size_t size, size_t *used);

#endif
