/* How many APDUs a second the library reads and writes, and the plain implementation.
 *
 * 65,536 APDUs of all forms, in a mixed order, are read, are written from their structs, and are
 * both read and written back, over and over. Library and plain take turns, and the best round of
 * each counts. Both stand in other object files than this one, so that no call can be left out. */
#define _POSIX_C_SOURCE 200809L
#include <inttypes.h>
#include <stdio.h>
#include <stdlib.h>
#include <string.h>
#include <time.h>

#include "apdu_make.h"
#include "apdu_plain.h"

/* So many that a processor cannot learn the branches that each of them takes. */
#define COUNT 65536
#define ROUNDS 5
#define SECONDS 1.0

static uint8_t strings[COUNT][APDU_ROOM];
static size_t sizes[COUNT];
static struct apdu_fields structs[COUNT];

/* One pass over all of them. Each returns a sum of what came out, which is the same for library
 * and plain. */

static uint64_t library_reads(void)
{
    struct apdu_fields f = {0};
    uint64_t sum = 0;

    for (unsigned i = 0; i < COUNT; i++) {
        sum += apdu_read(strings[i], sizes[i], &f) == APDU_DONE;
        sum += f.id;
    }
    return sum;
}

static uint64_t plain_reads(void)
{
    struct apdu_fields f = {0};
    uint64_t sum = 0;
    uint16_t id;
    uint8_t problem;

    for (unsigned i = 0; i < COUNT; i++) {
        sum += plain_read(strings[i], sizes[i], &f, &id, &problem) == PLAIN_APDU;
        sum += f.id;
    }
    return sum;
}

static uint64_t library_writes(void)
{
    uint8_t out[APDU_ROOM] = {0};
    uint64_t sum = 0;
    size_t used = 0;

    for (unsigned i = 0; i < COUNT; i++) {
        sum += apdu_write(&structs[i], out, sizeof out, &used) == APDU_DONE;
        sum += used + out[8];
    }
    return sum;
}

static uint64_t plain_writes(void)
{
    uint8_t out[APDU_ROOM] = {0};
    uint64_t sum = 0;
    size_t used = 0;

    for (unsigned i = 0; i < COUNT; i++) {
        sum += plain_write(&structs[i], out, sizeof out, &used) == APDU_DONE;
        sum += used + out[8];
    }
    return sum;
}

static uint64_t library_both(void)
{
    struct apdu_fields f = {0};
    uint8_t out[APDU_ROOM] = {0};
    uint64_t sum = 0;
    size_t used = 0;

    for (unsigned i = 0; i < COUNT; i++) {
        sum += apdu_read(strings[i], sizes[i], &f) == APDU_DONE;
        sum += apdu_write(&f, out, sizeof out, &used) == APDU_DONE;
        sum += used + out[8];
    }
    return sum;
}

static uint64_t plain_both(void)
{
    struct apdu_fields f = {0};
    uint8_t out[APDU_ROOM] = {0};
    uint64_t sum = 0;
    size_t used = 0;
    uint16_t id;
    uint8_t problem;

    for (unsigned i = 0; i < COUNT; i++) {
        sum += plain_read(strings[i], sizes[i], &f, &id, &problem) == PLAIN_APDU;
        sum += plain_write(&f, out, sizeof out, &used) == APDU_DONE;
        sum += used + out[8];
    }
    return sum;
}

static const struct {
    const char *name;
    uint64_t (*library)(void), (*plain)(void);
} works[] = {
    {"reading", library_reads, plain_reads},
    {"writing", library_writes, plain_writes},
    {"both", library_both, plain_both},
};
#define WORKS (sizeof works / sizeof works[0])

static double now(void)
{
    struct timespec t;

    clock_gettime(CLOCK_MONOTONIC, &t);
    return (double)t.tv_sec + (double)t.tv_nsec * 1e-9;
}

/* APDUs a second, over about SECONDS. Ends the program where a pass gives another sum. */
static double rate(uint64_t (*pass)(void), uint64_t wanted)
{
    double from = now(), took;
    uint64_t passes = 0;

    do {
        if (pass() != wanted) {
            fprintf(stderr, "apdu_speed: a pass gives another sum\n");
            exit(1);
        }
        passes++;
        took = now() - from;
    } while (took < SECONDS);
    return (double)(passes * COUNT) / took;
}

static void make_all(void)
{
    struct random r = random_stream(1, 0);
    uint16_t id;
    uint8_t problem;

    for (unsigned i = 0; i < COUNT; i++) {
        const struct apdu_form *form = &apdu_forms[random_below(&r, APDU_FORMS)];
        struct apdu_fields f = {0};
        uint8_t out[APDU_ROOM] = {0};
        size_t used = 0;

        sizes[i] = make_apdu(&r, form, strings[i]);
        if (plain_read(strings[i], sizes[i], &structs[i], &id, &problem) != PLAIN_APDU ||
            apdu_read(strings[i], sizes[i], &f) != APDU_DONE ||
            apdu_write(&f, out, sizeof out, &used) != APDU_DONE || used != sizes[i] ||
            memcmp(out, strings[i], used) != 0) {
            fprintf(stderr, "apdu_speed: APDU %u is not read or not written back\n", i);
            exit(1);
        }
    }
}

int main(void)
{
    double library[WORKS] = {0}, plain[WORKS] = {0};

    make_all();
    for (unsigned round = 0; round < ROUNDS; round++) {
        for (unsigned w = 0; w < WORKS; w++) {
            uint64_t wanted = works[w].plain();
            double library_rate = rate(works[w].library, wanted);
            double plain_rate = rate(works[w].plain, wanted);

            if (library_rate > library[w])
                library[w] = library_rate;
            if (plain_rate > plain[w])
                plain[w] = plain_rate;
        }
    }
    printf("%d APDUs over and over, best of %d rounds each, in turns; APDUs a second\n\n", COUNT,
           ROUNDS);
    printf("%-8s %14s %14s %16s\n", "", "library", "plain", "library/plain");
    for (unsigned w = 0; w < WORKS; w++)
        printf("%-8s %14.0f %14.0f %16.2f\n", works[w].name, library[w], plain[w],
               library[w] / plain[w]);
    return 0;
}
