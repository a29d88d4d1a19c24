#include "apdu_make.h"

#include <string.h>

/* Random numbers: xorshift64*, each stream started by two rounds of splitmix64. */

static uint64_t mix(uint64_t x)
{
    x += UINT64_C(0x9E3779B97F4A7C15);
    x = (x ^ x >> 30) * UINT64_C(0xBF58476D1CE4E5B9);
    x = (x ^ x >> 27) * UINT64_C(0x94D049BB133111EB);
    return x ^ x >> 31;
}

struct random random_stream(uint64_t seed, uint64_t index)
{
    uint64_t state = mix(mix(seed) ^ index);

    return (struct random){state ? state : 1};
}

uint64_t random_next(struct random *r)
{
    r->state ^= r->state >> 12;
    r->state ^= r->state << 25;
    r->state ^= r->state >> 27;
    return r->state * UINT64_C(2685821657736338717);
}

unsigned random_below(struct random *r, unsigned bound)
{
    return (unsigned)((random_next(r) >> 32) * bound >> 32);
}

void random_bytes(struct random *r, void *bytes, size_t size)
{
    uint8_t *p = bytes;

    for (size_t i = 0; i < size; i++)
        p[i] = (uint8_t)(random_next(r) >> 56);
}

static uint8_t random_byte(struct random *r)
{
    return (uint8_t)(random_next(r) >> 56);
}

static bool one_in(struct random *r, unsigned n)
{
    return random_below(r, n) == 0;
}

/* Forms */

const struct apdu_form apdu_forms[APDU_FORMS] = {
    {1, 1, 0x0010}, {1, 1, 0x0110},                                 /* 04, optional 08 */
    {1, 2, 0x0010}, {1, 2, 0x0030}, {1, 2, 0x0050}, {1, 2, 0x0070}, /* 04, optional 05 and 06 */
    {1, 3, 0x0010}, {1, 3, 0x0030}, {1, 3, 0x0050}, {1, 3, 0x0070},
    {1, 4, 0x00D0}, {1, 4, 0x00F0},                                 /* 04, optional 05, 06, 07 */
    {1, 5, 0x00D0}, {1, 5, 0x00F0},
    {2, 1, 0x0800},                                                 /* 0B */
    {2, 2, 0x0180}, {2, 2, 0x0280},                                 /* 07, 08 or 09 */
    {2, 3, 0x0180}, {2, 3, 0x0280},
    {2, 4, 0x0200}, {2, 4, 0x0400},                                 /* 09 or 0A */
    {2, 5, 0x0200}, {2, 5, 0x0400},
    {3, 0, 0x1000},                                                 /* 0C */
    {4, 0, 0x2000},                                                 /* 0D */
};

/* Rows of fields */

#define VALUE_MOST 32
#define ROW_MOST 20

struct field {
    uint8_t tag;
    uint16_t size; /* past VALUE_MOST the value goes on with random digits */
    uint8_t value[VALUE_MOST];
};

struct row {
    unsigned count;
    struct field fields[ROW_MOST];
};

static size_t lay(struct random *r, const struct row *row, uint8_t *bytes)
{
    uint8_t *p = bytes;

    for (unsigned i = 0; i < row->count; i++) {
        const struct field *f = &row->fields[i];
        size_t kept = f->size < VALUE_MOST ? f->size : VALUE_MOST;

        *p++ = f->tag;
        *p++ = (uint8_t)(f->size >> 8);
        *p++ = (uint8_t)f->size;
        memcpy(p, f->value, kept);
        p += kept;
        for (size_t more = f->size - kept; more > 0; more--)
            *p++ = (uint8_t)('0' + random_below(r, 10));
    }
    return (size_t)(p - bytes);
}

static void insert_field(struct row *row, unsigned at, const struct field *f)
{
    if (row->count == ROW_MOST)
        return;
    memmove(&row->fields[at + 1], &row->fields[at], (row->count - at) * sizeof *f);
    row->fields[at] = *f;
    row->count++;
}

static void one_byte(struct field *f, unsigned value)
{
    f->size = 1;
    f->value[0] = (uint8_t)value;
}

static void some_bytes(struct random *r, struct field *f, uint16_t size)
{
    f->size = size;
    switch (random_below(r, 8)) {
    case 0:
        memset(f->value, 0x00, size);
        break;
    case 1:
        memset(f->value, 0xFF, size);
        break;
    default:
        random_bytes(r, f->value, size);
    }
}

static void some_digits(struct random *r, struct field *f)
{
    static const uint8_t counts[] = {1, 2, 3, 14, 15};
    unsigned how = random_below(r, 8), zeros;

    f->size = (uint16_t)(one_in(r, 2) ? counts[random_below(r, sizeof counts)]
                                      : 1 + random_below(r, 15));
    zeros = one_in(r, 4) ? random_below(r, f->size + 1u) : 0;
    for (unsigned i = 0; i < f->size; i++) {
        unsigned digit = how == 0 || i < zeros ? 0 : how == 1 ? 9 : random_below(r, 10);

        f->value[i] = (uint8_t)('0' + digit);
    }
}

/* A field with this tag and a value that it may have. Unknown tags get any value. */
static struct field good_field(struct random *r, unsigned tag)
{
    static const uint16_t edges[] = {1, 256, 65535};
    struct field f;
    unsigned id;

    memset(&f, 0, sizeof f);
    f.tag = (uint8_t)tag;
    switch (tag) {
    case 0x01:
        one_byte(&f, 1 + random_below(r, 4));
        break;
    case 0x02:
        id = one_in(r, 4) ? edges[random_below(r, 3)] : 1 + random_below(r, 65535);
        f.size = 2;
        f.value[0] = (uint8_t)(id >> 8);
        f.value[1] = (uint8_t)id;
        break;
    case 0x03:
        one_byte(&f, 1 + random_below(r, 5));
        break;
    case 0x04:
        some_digits(r, &f);
        break;
    case 0x05:
        break;
    case 0x06:
        some_bytes(r, &f, 8);
        break;
    case 0x08:
        some_bytes(r, &f, 12);
        break;
    case 0x09:
        some_bytes(r, &f, 24);
        break;
    case 0x0A:
        some_bytes(r, &f, 4);
        break;
    case 0x0B:
        one_byte(&f, random_below(r, 2));
        break;
    case 0x0C:
        one_byte(&f, 1 + random_below(r, 5));
        break;
    case 0x07:
    case 0x0D:
        some_bytes(r, &f, 1);
        break;
    default:
        some_bytes(r, &f, (uint16_t)random_below(r, 17));
    }
    return f;
}

static void lawful_row(struct random *r, const struct apdu_form *form, struct row *row)
{
    row->count = 0;
    for (unsigned tag = 0x01; tag <= 0x0D; tag++) {
        struct field f;

        if (tag == 0x03 ? form->operation == 0 : tag > 0x03 && !(form->present >> tag & 1))
            continue;
        f = good_field(r, tag);
        if (tag == 0x01)
            f.value[0] = form->kind;
        if (tag == 0x03)
            f.value[0] = form->operation;
        insert_field(row, row->count, &f);
    }
}

size_t make_apdu(struct random *r, const struct apdu_form *form, uint8_t *bytes)
{
    struct row row;

    lawful_row(r, form, &row);
    return lay(r, &row, bytes);
}

/* Any form; more often a result with a verdict, an error or a reject, which have one form each. */
static const struct apdu_form *some_form(struct random *r)
{
    static const uint8_t few[] = {14, 23, 24};

    return &apdu_forms[one_in(r, 4) ? few[random_below(r, sizeof few)]
                                    : random_below(r, APDU_FORMS)];
}

/* Damage to a row: each field is still whole. */

/* Sets the value to one that is just out of its range, or any, where the field has a range. */
static void pass_range(struct random *r, struct field *f)
{
    unsigned any = random_byte(r), which = random_below(r, 3);

    switch (f->tag) {
    case 0x01:
        one_byte(f, which == 0 ? 0 : which == 1 ? 5 : any);
        break;
    case 0x02:
        f->value[0] = f->value[1] = 0;
        break;
    case 0x03:
    case 0x0C:
        one_byte(f, which == 0 ? 0 : which == 1 ? 6 : any);
        break;
    case 0x04:
        f->size = one_in(r, 4) ? 0 : 16;
        for (unsigned i = 0; i < f->size; i++)
            f->value[i] = (uint8_t)('0' + random_below(r, 10));
        break;
    case 0x0B:
        one_byte(f, which == 0 ? any : 2);
        break;
    }
}

/* Spoils the size or the value. */
static void spoil_field(struct random *r, struct field *f)
{
    static const uint8_t small[] = {0, 1, 2, 3, 4, 5, 6, 7, 128, 254, 255};
    static const uint8_t near_digits[] = {'/', ':', ' ', 0x00, 0x0A, 'A', 'a', 0xB0, 0xFF};
    unsigned at;

    switch (random_below(r, 8)) {
    case 0:
        f->size++;
        break;
    case 1:
        f->size = (uint16_t)(f->size ? f->size - 1 : 1);
        break;
    case 2:
        f->size = 0;
        break;
    case 3:
        f->size = (uint16_t)random_below(r, 28);
        break;
    case 4:
        f->size = (uint16_t)(f->size + 256);
        break;
    case 5:
        pass_range(r, f);
        break;
    default:
        if (f->size == 0) {
            f->size = 1;
        } else if (f->tag == 0x04) {
            at = random_below(r, f->size < VALUE_MOST ? f->size : VALUE_MOST);
            f->value[at] = near_digits[random_below(r, sizeof near_digits)];
        } else {
            f->value[0] = small[random_below(r, sizeof small)];
        }
    }
}

static void damage_row(struct random *r, struct row *row)
{
    static const uint8_t strange_tags[] = {0x00, 0x0E, 0x0F, 0x10, 0x24, 0x40, 0x84, 0xFF};
    unsigned at, to;
    struct field f;

    if (row->count == 0)
        return;
    at = random_below(r, row->count);
    to = random_below(r, row->count);
    switch (random_below(r, 10)) {
    case 0: /* two fields swapped */
        if (one_in(r, 2))
            to = (at + 1) % row->count;
        f = row->fields[at];
        row->fields[at] = row->fields[to];
        row->fields[to] = f;
        break;
    case 1: /* a field repeated */
        f = row->fields[at];
        insert_field(row, one_in(r, 2) ? at + 1 : to, &f);
        break;
    case 2: /* a field dropped */
        row->count--;
        memmove(&row->fields[at], &row->fields[at + 1], (row->count - at) * sizeof f);
        break;
    case 3: /* a field of another kind, where its tag belongs */
        f = good_field(r, 1 + random_below(r, 0x0D));
        for (at = 0; at < row->count && row->fields[at].tag < f.tag; at++)
            ;
        insert_field(row, at, &f);
        break;
    case 4: /* a field of another kind, or of none, anywhere */
        f = good_field(r, one_in(r, 2) ? 1 + random_below(r, 0x0D)
                                       : strange_tags[random_below(r, sizeof strange_tags)]);
        insert_field(row, one_in(r, 2) ? row->count : at, &f);
        break;
    case 5: /* another tag */
        row->fields[at].tag = (uint8_t)(row->fields[at].tag + (one_in(r, 2) ? 1 : 0xFF));
        break;
    case 6: /* another kind or operation over the same fields */
        at = one_in(r, 3) || row->count < 3 ? 0 : 2;
        f = good_field(r, at + 1);
        if (one_in(r, 4))
            f.value[0] = random_byte(r);
        if (row->fields[at].tag == f.tag)
            row->fields[at] = f;
        break;
    case 7:
        pass_range(r, &row->fields[at]);
        break;
    default:
        spoil_field(r, &row->fields[at]);
    }
}

/* A row of whole fields in rising order, mostly with an invoke's or a result's front. */
static void random_row(struct random *r, struct row *row)
{
    unsigned often = 2 + random_below(r, 4);

    row->count = 0;
    for (unsigned tag = 0x01; tag <= 0x0E; tag++) {
        struct field f;

        if (tag <= 0x03 ? one_in(r, 24) : tag == 0x0E ? !one_in(r, 16) : !one_in(r, often))
            continue;
        f = good_field(r, tag);
        if (tag == 0x01 && one_in(r, 2))
            f.value[0] = 1;
        if (one_in(r, tag <= 0x03 ? 24 : 12))
            spoil_field(r, &f);
        insert_field(row, row->count, &f);
    }
}

/* Damage to bytes */

static size_t append_bytes(struct random *r, uint8_t *bytes, size_t size, size_t more)
{
    if (one_in(r, 2))
        random_bytes(r, bytes + size, more);
    else
        memset(bytes + size, 0, more);
    return size + more;
}

/* Where the length of one of the fields at the front stands. There is a field. */
static size_t some_length(struct random *r, const uint8_t *bytes, size_t size)
{
    size_t starts[ROW_MOST] = {0}, at = 0;
    unsigned count = 0;

    while (count < ROW_MOST && size - at >= 3) {
        size_t value = (size_t)bytes[at + 1] << 8 | bytes[at + 2];

        starts[count++] = at;
        if (value > size - at - 3)
            break;
        at += 3 + value;
    }
    return starts[random_below(r, count)] + 1;
}

static size_t damage_bytes(struct random *r, uint8_t *bytes, size_t size)
{
    size_t at;

    if (size < 3)
        return append_bytes(r, bytes, size, random_below(r, 4));
    at = random_below(r, (unsigned)size);
    switch (random_below(r, 8)) {
    case 0:
        bytes[at] ^= (uint8_t)(1u << random_below(r, 8));
        return size;
    case 1:
        bytes[at] = random_byte(r);
        return size;
    case 2: /* a byte inserted */
        memmove(bytes + at + 1, bytes + at, size - at);
        bytes[at] = one_in(r, 2) ? 0 : random_byte(r);
        return size + 1;
    case 3: /* a byte removed */
        memmove(bytes + at, bytes + at + 1, size - at - 1);
        return size - 1;
    case 4: /* cut anywhere; what is cut off stays behind the end */
        return at;
    case 5: /* cut by a little */
        at = 1 + random_below(r, 4);
        return at < size ? size - at : 0;
    case 6: /* another length, one more, one less, or 256 more */
        at = some_length(r, bytes, size);
        if (one_in(r, 4)) {
            at += random_below(r, 2);
            bytes[at] = random_byte(r);
        } else if (one_in(r, 4)) {
            bytes[at]++;
        } else {
            bytes[at + 1] = (uint8_t)(bytes[at + 1] + (one_in(r, 2) ? 1 : 0xFF));
        }
        return size;
    default: /* a tail */
        return append_bytes(r, bytes, size, 1 + random_below(r, 5));
    }
}

static size_t random_string(struct random *r, uint8_t *bytes, size_t size)
{
    static const uint8_t front[] = {1, 0, 1, 1, 2, 0, 2, 0, 7, 3, 0, 1, 1};
    size_t at = 0;

    if (size >= sizeof front && one_in(r, 2)) {
        memcpy(bytes, front, sizeof front);
        bytes[12] = (uint8_t)random_below(r, 8);
        at = sizeof front;
    }
    if (one_in(r, 2)) {
        random_bytes(r, bytes + at, size - at);
        return size;
    }
    for (; at < size; at++)
        bytes[at] = (uint8_t)random_below(r, one_in(r, 2) ? 3 : 16);
    return size;
}

/* About 300 bytes, or 65,536 and more. */
static size_t long_string(struct random *r, uint8_t *bytes, bool huge)
{
    struct row row;
    unsigned at;
    size_t size;

    switch (random_below(r, 4)) {
    case 0: /* an APDU and a tail of 256 or 65,536 bytes */
        size = make_apdu(r, some_form(r), bytes);
        return append_bytes(r, bytes, size, huge ? 65536 : 256);
    case 1: /* a value that is longer by 256, or as long as a value can be */
        lawful_row(r, some_form(r), &row);
        at = random_below(r, row.count);
        row.fields[at].size = (uint16_t)(huge ? 65535 : row.fields[at].size + 256);
        return lay(r, &row, bytes);
    case 2: /* a long field behind an APDU */
        lawful_row(r, some_form(r), &row);
        row.fields[row.count] = good_field(r, 4 + random_below(r, 11));
        row.fields[row.count].size = (uint16_t)(huge ? 65000 + random_below(r, 536) : 300);
        row.count++;
        return lay(r, &row, bytes);
    default:
        return random_string(r, bytes, huge ? 70000 : 300);
    }
}

/* Mostly 1, at times 2 or 3. */
static unsigned some_times(struct random *r)
{
    return one_in(r, 4) ? 2 + random_below(r, 2) : 1;
}

size_t make_string(struct random *r, uint8_t *bytes, bool *lawful)
{
    unsigned sort = random_below(r, 100);
    struct row row;
    size_t size;

    *lawful = false;
    if (one_in(r, 300))
        return long_string(r, bytes, one_in(r, 20));
    if (sort < 10)
        return random_string(r, bytes, random_below(r, 81));
    if (sort < 25) {
        random_row(r, &row);
        return lay(r, &row, bytes);
    }
    lawful_row(r, some_form(r), &row);
    if (sort < 55) {
        *lawful = true;
        return lay(r, &row, bytes);
    }
    if (sort < 80)
        for (unsigned times = some_times(r); times > 0; times--)
            damage_row(r, &row);
    size = lay(r, &row, bytes);
    if (sort >= 76)
        for (unsigned times = some_times(r); times > 0; times--)
            size = damage_bytes(r, bytes, size);
    return size;
}
