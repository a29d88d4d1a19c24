/* The library against the plain implementation, on strings and structs from a fixed seed.
 *
 *     apdu_compare [--strings FILE --verdicts FILE] COUNT SEED
 *     apdu_compare --record N SEED
 *
 * For each string: it is read by both; where it is an APDU it is written back by both; and another
 * struct, lawful or spoiled, is written by both. Answers, structs and whole buffers are compared.
 * String number I of a seed is the same whatever COUNT is.
 *
 * --strings writes the strings up to 65,535 bytes as records (the byte 40 in hexadecimal, the
 * length in two bytes, high byte first, the string), and --verdicts what the plain implementation
 * makes of each of them, a line each. --record prints the string of record N, from 1.
 *
 * Exit status: 0 all agree; 1 they differ; 2 bad usage, or a file that cannot be written. */
#include <errno.h>
#include <inttypes.h>
#include <stdarg.h>
#include <stdio.h>
#include <stdlib.h>
#include <string.h>

#include "apdu_make.h"
#include "apdu_plain.h"

#define SHOWN_MOST 10     /* differing strings that are shown */
#define RECORD_MOST 65535 /* the longest string that fits into a record */
#define SHEET_MOST 100    /* the largest buffer that is written to */
#define MARGIN 32         /* bytes on either side of it */

static struct {
    uint64_t strings, apdus, rejects[3], garbled;
    uint64_t writes, answers[256];
    uint64_t forms[APDU_FORMS];
    uint64_t differing;
} tally;

/* The string at hand */
static struct {
    uint64_t number;
    const uint8_t *bytes;
    size_t size;
    bool differs;
} current;

static void print_hex(FILE *to, const uint8_t *bytes, size_t size)
{
    for (size_t i = 0; i < size; i++)
        fprintf(to, "%02X", bytes[i]);
}

/* Notes that something is not the same on the string at hand. True where it is to be shown. */
static bool differs(const char *format, ...)
{
    va_list words;

    if (!current.differs) {
        current.differs = true;
        tally.differing++;
        if (tally.differing <= SHOWN_MOST) {
            bool whole = current.size <= 200;

            printf("string %" PRIu64 ", %zu bytes: ", current.number, current.size);
            print_hex(stdout, current.bytes, whole ? current.size : 200);
            fputs(whole ? "\n" : "...\n", stdout);
        }
    }
    if (tally.differing > SHOWN_MOST)
        return false;
    printf("    ");
    va_start(words, format);
    vprintf(format, words);
    va_end(words);
    return true;
}

static void print_fields(const char *whose, const struct apdu_fields *f)
{
    printf("    %s: user %" PRIu64 ", present %04X, id %u, kind %u, operation %u, algorithm %u, "
           "verdict %u, error %u, problem %u, bytes ",
           whose, f->user, (unsigned)f->present, (unsigned)f->id, (unsigned)f->kind,
           (unsigned)f->operation, (unsigned)f->algorithm, (unsigned)f->verdict,
           (unsigned)f->error, (unsigned)f->problem);
    print_hex(stdout, f->challenge, sizeof f->challenge);
    printf(" ");
    print_hex(stdout, f->unit_challenge, sizeof f->unit_challenge);
    printf(" ");
    print_hex(stdout, f->unit_response, sizeof f->unit_response);
    printf(" ");
    print_hex(stdout, f->session_key, sizeof f->session_key);
    printf(" ");
    print_hex(stdout, f->session_parameter, sizeof f->session_parameter);
    printf(" ");
    print_hex(stdout, f->response, sizeof f->response);
    printf("\n");
}

/* The name of a member that is not the same in both, or NULL. Padding is not looked at. */
static const char *unequal(const struct apdu_fields *a, const struct apdu_fields *b)
{
#define LOOK_AT(member)                                                                            \
    if (memcmp(&a->member, &b->member, sizeof a->member) != 0)                                     \
    return #member
    LOOK_AT(user);
    LOOK_AT(present);
    LOOK_AT(id);
    LOOK_AT(kind);
    LOOK_AT(operation);
    LOOK_AT(algorithm);
    LOOK_AT(verdict);
    LOOK_AT(error);
    LOOK_AT(problem);
    LOOK_AT(challenge);
    LOOK_AT(unit_challenge);
    LOOK_AT(unit_response);
    LOOK_AT(session_key);
    LOOK_AT(session_parameter);
    LOOK_AT(response);
#undef LOOK_AT
    return NULL;
}

/* Reads the string at hand, and a copy of it, into structs with the same random bytes. Returns what
 * plain_read does, and sets the rest as it does. */
static int compare_read(struct random *r, const uint8_t *copy, struct apdu_fields *plain,
                        uint16_t *id, uint8_t *problem)
{
    struct apdu_fields before, library;
    const char *member;
    unsigned answer, wanted;
    int verdict;

    random_bytes(r, &before, sizeof before);
    library = before;
    *plain = before;
    answer = apdu_read(current.bytes, current.size, &library);
    verdict = plain_read(copy, current.size, plain, id, problem);
    wanted = verdict == PLAIN_APDU ? APDU_DONE : APDU_GARBLED;
    if (answer != wanted && differs("reading: library %u, plain %u\n", answer, wanted)) {
        print_fields("library", &library);
        print_fields("plain", plain);
    }
    member = unequal(&library, plain);
    if (answer == wanted && member && differs("reading: '%s' differs\n", member)) {
        print_fields("library", &library);
        print_fields("plain", plain);
    }
    member = unequal(&library, &before);
    if (answer != APDU_DONE && member)
        differs("reading: library refuses with %u and changes '%s'\n", answer, member);
    member = unequal(plain, &before);
    if (wanted != APDU_DONE && member)
        differs("reading: plain refuses with %u and changes '%s'\n", wanted, member);
    if (memcmp(current.bytes, copy, current.size) != 0)
        differs("reading: the string has changed\n");
    return verdict;
}

static size_t some_size(struct random *r)
{
    switch (random_below(r, 8)) {
    case 0:
        return APDU_ROOM - 1;
    case 1:
    case 2:
        return APDU_ROOM;
    case 3:
        return random_below(r, SHEET_MOST + 1);
    default:
        return APDU_ROOM + random_below(r, SHEET_MOST - APDU_ROOM + 1);
    }
}

/* Writes a struct by both, into buffers of one random size with the same random bytes. Where
 * `string` is not NULL, what is written has to be that string. */
static void compare_write(struct random *r, const struct apdu_fields *fields, const char *what,
                          const uint8_t *string, size_t string_size)
{
    uint8_t before[MARGIN + SHEET_MOST + MARGIN], library[sizeof before], plain[sizeof before];
    size_t size = some_size(r), used_before = (size_t)random_next(r);
    size_t used_library = used_before, used_plain = used_before;
    unsigned answer, wanted;
    bool show = false;

    random_bytes(r, before, sizeof before);
    memcpy(library, before, sizeof before);
    memcpy(plain, before, sizeof before);
    answer = apdu_write(fields, library + MARGIN, size, &used_library);
    wanted = plain_write(fields, plain + MARGIN, size, &used_plain);
    tally.writes++;
    tally.answers[wanted]++;

    if (answer != wanted)
        show = differs("writing %s to %zu bytes: library %u, plain %u\n", what, size, answer,
                       wanted);
    if (answer == wanted && used_library != used_plain)
        show = differs("writing %s to %zu bytes, %u: library says %zu bytes, plain %zu\n", what,
                       size, answer, used_library, used_plain);
    if (answer == wanted && memcmp(library, plain, sizeof before) != 0)
        show = differs("writing %s to %zu bytes, %u: the buffers differ\n", what, size, answer);
    if (answer != APDU_DONE &&
        (used_library != used_before || memcmp(library, before, sizeof before) != 0))
        show = differs("writing %s to %zu bytes: library refuses with %u and changes something\n",
                       what, size, answer);
    if (wanted != APDU_DONE &&
        (used_plain != used_before || memcmp(plain, before, sizeof before) != 0))
        show = differs("writing %s to %zu bytes: plain refuses with %u and changes something\n",
                       what, size, wanted);
    if (wanted == APDU_DONE && string &&
        (used_plain != string_size || memcmp(plain + MARGIN, string, string_size) != 0))
        show = differs("writing %s to %zu bytes: plain does not write the string\n", what, size);
    if (wanted == APDU_DONE &&
        (used_plain > size || memcmp(plain, before, MARGIN) != 0 ||
         memcmp(plain + MARGIN + used_plain, before + MARGIN + used_plain,
                sizeof before - MARGIN - used_plain) != 0))
        show = differs("writing %s to %zu bytes: plain changes more than the APDU\n", what, size);
    if (show) {
        print_fields("fields", fields);
        printf("    library: ");
        print_hex(stdout, library, sizeof library);
        printf("\n    plain:   ");
        print_hex(stdout, plain, sizeof plain);
        printf("\n");
    }
}

static uint8_t edge_byte(struct random *r)
{
    static const uint8_t edges[] = {0, 1, 2, 3, 4, 5, 6, 7, 127, 128, 254, 255};

    return edges[random_below(r, sizeof edges)];
}

/* A user number at and around the bounds of a count of digits. */
static uint64_t edge_user(struct random *r)
{
    unsigned count = random_below(r, 19);
    uint64_t bound = 1, any = random_next(r);

    for (unsigned i = 0; i < count; i++)
        bound *= 10;
    switch (random_below(r, 6)) {
    case 0:
        return APDU_USER(count, 0);
    case 1:
        return APDU_USER(count, bound - 1);
    case 2:
        return APDU_USER(count, bound);
    case 3:
        return APDU_USER(count, any % APDU_USER_STEP);
    case 4:
        return any >> random_below(r, 64);
    default:
        return UINT64_MAX - random_below(r, 2);
    }
}

static void spoil_fields(struct random *r, struct apdu_fields *f)
{
    switch (random_below(r, 10)) {
    case 0:
        f->kind = edge_byte(r);
        break;
    case 1:
        f->operation = edge_byte(r);
        break;
    case 2:
        f->present ^= (uint16_t)(1u << random_below(r, 16));
        break;
    case 3:
        f->present = apdu_forms[random_below(r, APDU_FORMS)].present;
        break;
    case 4:
        f->present = (uint16_t)random_next(r);
        break;
    case 5:
        f->id = 0;
        break;
    case 6:
        f->verdict = edge_byte(r);
        break;
    case 7:
        f->error = edge_byte(r);
        break;
    default:
        f->user = edge_user(r);
    }
}

/* A struct that is lawful or spoiled. Values of absent fields are random. */
static struct apdu_fields some_fields(struct random *r)
{
    const struct apdu_form *form = &apdu_forms[random_below(r, APDU_FORMS)];
    struct apdu_fields random, f;
    uint8_t bytes[APDU_ROOM], problem;
    uint16_t id;
    size_t size;

    if (random_below(r, 8) == 0) /* a result with a verdict or an error */
        form = &apdu_forms[random_below(r, 2) ? 14 : 23];
    random_bytes(r, &random, sizeof random);
    f = random;
    size = make_apdu(r, form, bytes);
    if (plain_read(bytes, size, &f, &id, &problem) != PLAIN_APDU)
        differs("plain refuses an APDU of the generator\n");
    if (!(f.present & APDU_HAS_USER))
        f.user = random.user;
    if (!(f.present & APDU_HAS_CHALLENGE))
        memcpy(f.challenge, random.challenge, sizeof f.challenge);
    if (!(f.present & APDU_HAS_ALGORITHM))
        f.algorithm = random.algorithm;
    if (!(f.present & APDU_HAS_UNIT)) {
        memcpy(f.unit_challenge, random.unit_challenge, sizeof f.unit_challenge);
        memcpy(f.unit_response, random.unit_response, sizeof f.unit_response);
    }
    if (!(f.present & APDU_HAS_SESSION)) {
        memcpy(f.session_key, random.session_key, sizeof f.session_key);
        memcpy(f.session_parameter, random.session_parameter, sizeof f.session_parameter);
    }
    if (!(f.present & APDU_HAS_RESPONSE))
        memcpy(f.response, random.response, sizeof f.response);
    if (!(f.present & APDU_HAS_VERDICT))
        f.verdict = random.verdict;
    if (!(f.present & APDU_HAS_ERROR))
        f.error = random.error;
    if (!(f.present & APDU_HAS_PROBLEM))
        f.problem = random.problem;
    for (unsigned times = random_below(r, 4); times > 0; times--)
        spoil_fields(r, &f);
    return f;
}

static void count_form(const struct apdu_fields *f)
{
    for (unsigned i = 0; i < APDU_FORMS; i++)
        if (f->kind == apdu_forms[i].kind && f->operation == apdu_forms[i].operation &&
            f->present == apdu_forms[i].present)
            tally.forms[i]++;
}

static void write_record(FILE *strings, FILE *verdicts, int verdict, const struct apdu_fields *f,
                         unsigned id, unsigned problem)
{
    uint8_t out[APDU_ROOM];
    size_t used = 0;

    fputc(0x40, strings);
    fputc((int)(current.size >> 8), strings);
    fputc((int)(current.size & 0xFF), strings);
    fwrite(current.bytes, 1, current.size, strings);
    switch (verdict) {
    case PLAIN_APDU:
        plain_write(f, out, sizeof out, &used);
        fputs("APDU: ", verdicts);
        print_hex(verdicts, out, used);
        fputc('\n', verdicts);
        break;
    case PLAIN_REJECT:
        fprintf(verdicts, "reject due: id %u, problem %u\n", id, problem);
        break;
    default:
        fputs("garbled\n", verdicts);
    }
}

/* Compares all that is done with string number `number` of a seed. */
static void compare(uint64_t seed, uint64_t number, FILE *strings, FILE *verdicts)
{
    static uint8_t bytes[MADE_MOST], copy[MADE_MOST];
    struct random r = random_stream(seed, number);
    struct apdu_fields fields, others;
    uint16_t id = 0;
    uint8_t problem = 0;
    bool lawful;
    int verdict;

    current.number = number;
    current.bytes = bytes;
    current.size = make_string(&r, bytes, &lawful);
    current.differs = false;
    memcpy(copy, bytes, current.size);
    tally.strings++;

    verdict = compare_read(&r, copy, &fields, &id, &problem);
    if (lawful && verdict != PLAIN_APDU)
        differs("plain refuses an APDU of the generator\n");
    switch (verdict) {
    case PLAIN_APDU:
        tally.apdus++;
        count_form(&fields);
        compare_write(&r, &fields, "it back", copy, current.size);
        break;
    case PLAIN_REJECT:
        if (problem == PLAIN_UNKNOWN_OPERATION || problem == PLAIN_WRONG_ARGUMENT)
            tally.rejects[problem]++;
        else
            differs("plain gives problem %u\n", (unsigned)problem);
        break;
    default:
        tally.garbled++;
    }
    others = some_fields(&r);
    compare_write(&r, &others, "fields", NULL, 0);
    if (strings && current.size <= RECORD_MOST)
        write_record(strings, verdicts, verdict, &fields, id, problem);
}

static int print_record(uint64_t record, uint64_t seed)
{
    static uint8_t bytes[MADE_MOST];
    bool lawful;

    for (uint64_t number = 0;; number++) {
        struct random r = random_stream(seed, number);
        size_t size = make_string(&r, bytes, &lawful);

        if (size <= RECORD_MOST && --record == 0) {
            print_hex(stdout, bytes, size);
            printf("\n");
            return 0;
        }
    }
}

static uint64_t number_of(const char *text)
{
    char *end;
    unsigned long long value;

    errno = 0;
    value = strtoull(text, &end, 10);
    if (*text < '0' || *text > '9' || *end || errno) {
        fprintf(stderr, "apdu_compare: %s is not a number\n", text);
        exit(2);
    }
    return value;
}

static FILE *open_file(const char *name)
{
    FILE *file = fopen(name, "wb");

    if (!file) {
        perror(name);
        exit(2);
    }
    return file;
}

static void close_file(FILE *file)
{
    bool wrong = ferror(file) != 0;

    if (fclose(file) != 0 || wrong) {
        fprintf(stderr, "apdu_compare: a file could not be written\n");
        exit(2);
    }
}

int main(int argc, char **argv)
{
    FILE *strings = NULL, *verdicts = NULL;
    uint64_t count, seed;
    unsigned forms = 0;

    if (argc == 4 && strcmp(argv[1], "--record") == 0 && number_of(argv[2]) > 0)
        return print_record(number_of(argv[2]), number_of(argv[3]));
    if (argc == 7 && strcmp(argv[1], "--strings") == 0 && strcmp(argv[3], "--verdicts") == 0) {
        strings = open_file(argv[2]);
        verdicts = open_file(argv[4]);
    } else if (argc != 3) {
        fprintf(stderr, "usage: apdu_compare [--strings FILE --verdicts FILE] COUNT SEED\n"
                        "       apdu_compare --record N SEED\n");
        return 2;
    }
    count = number_of(argv[argc - 2]);
    seed = number_of(argv[argc - 1]);
    for (uint64_t i = 0; i < count; i++)
        compare(seed, i, strings, verdicts);
    if (strings) {
        close_file(strings);
        close_file(verdicts);
    }

    for (unsigned i = 0; i < APDU_FORMS; i++)
        forms += tally.forms[i] > 0;
    printf("strings: %" PRIu64 " APDUs, of %u of the %u forms; due a reject %" PRIu64
           " with problem 1 and %" PRIu64 " with problem 2; %" PRIu64 " garbled\n",
           tally.apdus, forms, (unsigned)APDU_FORMS, tally.rejects[PLAIN_UNKNOWN_OPERATION],
           tally.rejects[PLAIN_WRONG_ARGUMENT], tally.garbled);
    printf("writes: %" PRIu64 " compared; %" PRIu64 " written, %" PRIu64 " refused with 1, %" PRIu64
           " refused with 5\n",
           tally.writes, tally.answers[APDU_DONE], tally.answers[APDU_SHORT_SHEET],
           tally.answers[APDU_GARBLED]);
    printf("%" PRIu64 " strings, %" PRIu64 " agree\n", tally.strings,
           tally.strings - tally.differing);
    return tally.differing ? 1 : 0;
}
