/* Reads an APDU that is given in hexadecimal, prints its fields, and writes it back.
 *
 *     example HEX      spaces in HEX are skipped
 *
 * Exit status: 0 it is an APDU; 1 it is refused; 2 HEX is not hexadecimal. */
#include <inttypes.h>
#include <stdio.h>
#include <stdlib.h>
#include <string.h>

#include "apdu.h"

static const char *const kinds[] = {"none", "invoke", "result", "error", "reject"};
static const char *const operations[] = {"none", "authWtmUser", "getWtatParam", "wtatParamEnq",
                                         "getWtanParam", "wtanParamEnq"};
static const char *const verdicts[] = {"correct", "incorrect"};
static const char *const errors[] = {"none", "invalidServedUserNr", "paramNotAvailable",
                                     "temporarilyUnavailable", "notAuthorized", "unspecified"};

static int hex_digit(char c)
{
    if (c >= '0' && c <= '9')
        return c - '0';
    if (c >= 'A' && c <= 'F')
        return c - 'A' + 10;
    if (c >= 'a' && c <= 'f')
        return c - 'a' + 10;
    return -1;
}

/* Sets `bytes` to what `text` says and *size to their number. `bytes` has room for a byte for each
 * two characters of `text`. Returns 0 where `text` is not hexadecimal. */
static int from_hex(const char *text, uint8_t *bytes, size_t *size)
{
    size_t digits = 0;

    for (; *text; text++) {
        int digit;

        if (*text == ' ')
            continue;
        digit = hex_digit(*text);
        if (digit < 0)
            return 0;
        if (digits % 2 == 0)
            bytes[digits / 2] = (uint8_t)(digit << 4);
        else
            bytes[digits / 2] |= (uint8_t)digit;
        digits++;
    }
    *size = digits / 2;
    return digits % 2 == 0;
}

static void print_bytes(const char *name, const uint8_t *bytes, size_t size)
{
    printf("%s: ", name);
    for (size_t i = 0; i < size; i++)
        printf("%02X", bytes[i]);
    printf("\n");
}

/* The fields of an APDU that was read: so `kind` and the others are in their ranges. */
static void print_fields(const struct apdu_fields *f)
{
    printf("kind: %s\n", kinds[f->kind]);
    printf("invoke id: %u\n", (unsigned)f->id);
    if (f->operation != APDU_OP_NONE)
        printf("operation: %s\n", operations[f->operation]);
    if (f->present & APDU_HAS_USER)
        printf("user number: %0*" PRIu64 "\n", (int)APDU_USER_COUNT(f->user),
               APDU_USER_VALUE(f->user));
    if (f->present & APDU_HAS_CAN_COMPUTE)
        printf("canCompute\n");
    if (f->present & APDU_HAS_CHALLENGE)
        print_bytes("challenge", f->challenge, sizeof f->challenge);
    if (f->present & APDU_HAS_ALGORITHM)
        printf("algorithm: %u\n", (unsigned)f->algorithm);
    if (f->present & APDU_HAS_UNIT) {
        print_bytes("unit challenge", f->unit_challenge, sizeof f->unit_challenge);
        print_bytes("unit response", f->unit_response, sizeof f->unit_response);
    }
    if (f->present & APDU_HAS_SESSION) {
        print_bytes("session key", f->session_key, sizeof f->session_key);
        print_bytes("session parameter", f->session_parameter, sizeof f->session_parameter);
    }
    if (f->present & APDU_HAS_RESPONSE)
        print_bytes("response", f->response, sizeof f->response);
    if (f->present & APDU_HAS_VERDICT)
        printf("verdict: %s\n", verdicts[f->verdict]);
    if (f->present & APDU_HAS_ERROR)
        printf("error: %s\n", errors[f->error]);
    if (f->present & APDU_HAS_PROBLEM)
        printf("problem: %u\n", (unsigned)f->problem);
}

static int refused(uint8_t number)
{
    printf("refused with %u, %s\n", (unsigned)number,
           number == APDU_SHORT_SHEET ? "short sheet" : "garbled");
    return 1;
}

int main(int argc, char **argv)
{
    struct apdu_fields fields = {0};
    uint8_t out[APDU_ROOM] = {0};
    size_t size, used = 0;
    uint8_t *bytes, answer;

    if (argc != 2) {
        fprintf(stderr, "usage: example HEX\n");
        return 2;
    }
    bytes = calloc(strlen(argv[1]) / 2 + 1, 1); /* never of size 0, so never null for that */
    if (!bytes) {
        fprintf(stderr, "example: no memory\n");
        return 2;
    }
    if (!from_hex(argv[1], bytes, &size)) {
        fprintf(stderr, "example: the argument is not hexadecimal, two digits to a byte\n");
        free(bytes);
        return 2;
    }
    answer = apdu_read(bytes, size, &fields);
    free(bytes);
    if (answer != APDU_DONE)
        return refused(answer);
    print_fields(&fields);

    answer = apdu_write(&fields, out, sizeof out, &used);
    if (answer != APDU_DONE)
        return refused(answer);
    print_bytes("written back", out, used);
    return 0;
}
