/* Strings for the comparison and the benchmark, from a generator that gives the same on every
 * machine. It knows the wire format by itself and uses neither reader nor writer. */
#ifndef APDU_MAKE_H
#define APDU_MAKE_H

#include <stdbool.h>
#include <stddef.h>
#include <stdint.h>

/* Random numbers */
struct random {
    uint64_t state;
};

/* The stream number `index` of a seed. */
struct random random_stream(uint64_t seed, uint64_t index);
uint64_t random_next(struct random *r);
/* From 0 to bound - 1; the bound is at least 1. */
unsigned random_below(struct random *r, unsigned bound);
void random_bytes(struct random *r, void *bytes, size_t size);

/* A form: a kind, an operation, and a set of fields that an APDU of them may have. */
struct apdu_form {
    uint8_t kind, operation;
    uint16_t present;
};
#define APDU_FORMS 25
extern const struct apdu_form apdu_forms[APDU_FORMS];

/* The longest string that make_string makes. */
#define MADE_MOST 80000

/* An APDU of a form with random values; returns its length, at most 64. */
size_t make_apdu(struct random *r, const struct apdu_form *form, uint8_t *bytes);

/* A string of any sort: lawful, damaged, a row of fields, or random bytes. Returns its length, and
 * sets *lawful where it is surely an APDU. `bytes` has room for MADE_MOST. Behind the string there
 * may stand what was cut off it. */
size_t make_string(struct random *r, uint8_t *bytes, bool *lawful);

#endif
