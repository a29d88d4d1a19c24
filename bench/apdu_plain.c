/* APDUs in plain C: one loop over the fields, and one table of the sets of fields that each kind
 * and operation may have. */
#include "apdu_plain.h"

#include <stdbool.h>
#include <string.h>

#define BIT(tag) (1u << (tag))

/* A lawful `present` is one of `sets`, with any of `optional` besides. */
struct form {
    uint16_t sets[2];
    uint16_t optional;
};

#define FORM(one, other, optional) {{(one), (other)}, (optional)}
#define WTAT_INVOKE FORM(BIT(0x04), BIT(0x04), BIT(0x05) | BIT(0x06))
#define WTAT_RESULT FORM(BIT(0x07) | BIT(0x08), BIT(0x07) | BIT(0x09), 0)
#define WTAN_INVOKE                                                                                \
    FORM(BIT(0x04) | BIT(0x06) | BIT(0x07), BIT(0x04) | BIT(0x06) | BIT(0x07), BIT(0x05))
#define WTAN_RESULT FORM(BIT(0x09), BIT(0x0A), 0)

static const struct form invokes[] = {
    FORM(BIT(0x04), BIT(0x04), BIT(0x08)), WTAT_INVOKE, WTAT_INVOKE, WTAN_INVOKE, WTAN_INVOKE,
};
static const struct form results[] = {
    FORM(BIT(0x0B), BIT(0x0B), 0), WTAT_RESULT, WTAT_RESULT, WTAN_RESULT, WTAN_RESULT,
};
static const struct form error_form = FORM(BIT(0x0C), BIT(0x0C), 0);
static const struct form reject_form = FORM(BIT(0x0D), BIT(0x0D), 0);

/* The form of a kind and operation, or NULL where there is none. */
static const struct form *form_of(unsigned kind, unsigned operation)
{
    switch (kind) {
    case APDU_KIND_INVOKE:
        return operation - 1 < 5 ? &invokes[operation - 1] : NULL;
    case APDU_KIND_RESULT:
        return operation - 1 < 5 ? &results[operation - 1] : NULL;
    case APDU_KIND_ERROR:
        return operation == 0 ? &error_form : NULL;
    case APDU_KIND_REJECT:
        return operation == 0 ? &reject_form : NULL;
    }
    return NULL;
}

static bool has_form(const struct form *form, unsigned present)
{
    unsigned rest = present & ~(unsigned)form->optional;

    return rest == form->sets[0] || rest == form->sets[1];
}

/* Reading */

/* Whether a field with this tag and size begins at p, where three bytes are. */
static bool is_head(const uint8_t *p, unsigned tag, unsigned size)
{
    return p[0] == tag && p[1] == 0 && p[2] == size;
}

/* The user number of these digits, or 0, which is none. */
static uint64_t read_digits(const uint8_t *digits, size_t size)
{
    uint64_t value = 0;

    if (size < 1 || size > 15)
        return 0;
    for (size_t i = 0; i < size; i++) {
        unsigned digit = digits[i] - (unsigned)'0';

        if (digit > 9)
            return 0;
        value = value * 10 + digit;
    }
    return size * APDU_USER_STEP + value;
}

/* The size of a value, by tag. That of a user number varies. */
static const uint8_t value_sizes[] = {
    [0x05] = 0, [0x06] = 8, [0x07] = 1, [0x08] = 12, [0x09] = 24,
    [0x0A] = 4, [0x0B] = 1, [0x0C] = 1, [0x0D] = 1,
};

/* The fields from 04 on, before they are copied to the caller's struct. */
struct found {
    unsigned present;
    uint64_t user;
    const uint8_t *values[0x0E]; /* by tag, where the field is present */
};

/* Finds the fields from 04 on. False where they are not those of the form. */
static bool find_fields(const uint8_t *p, const uint8_t *end, const struct form *form,
                        struct found *found)
{
    unsigned last = 0x03;

    found->present = 0;
    found->user = 0;
    while (p != end) {
        unsigned tag;
        size_t size;

        if (end - p < 3)
            return false;
        tag = p[0];
        size = (size_t)p[1] << 8 | p[2];
        p += 3;
        if (tag <= last || tag > 0x0D || size > (size_t)(end - p))
            return false;
        if (tag == 0x04) {
            found->user = read_digits(p, size);
            if (found->user == 0)
                return false;
        } else if (size != value_sizes[tag]) {
            return false;
        }
        found->present |= BIT(tag);
        found->values[tag] = p;
        last = tag;
        p += size;
    }
    if (!has_form(form, found->present))
        return false;
    if (found->present & BIT(0x0B) && found->values[0x0B][0] > 1)
        return false;
    if (found->present & BIT(0x0C) && (found->values[0x0C][0] < 1 || found->values[0x0C][0] > 5))
        return false;
    return true;
}

static void copy_fields(const struct found *found, struct apdu_fields *f)
{
    const uint8_t *const *values = found->values;
    unsigned present = found->present;

    f->user = found->user;
    f->present = (uint16_t)present;
    if (present & BIT(0x06))
        memcpy(f->challenge, values[0x06], 8);
    if (present & BIT(0x07))
        f->algorithm = values[0x07][0];
    if (present & BIT(0x08)) {
        memcpy(f->unit_challenge, values[0x08], 8);
        memcpy(f->unit_response, values[0x08] + 8, 4);
    }
    if (present & BIT(0x09)) {
        memcpy(f->session_key, values[0x09], 16);
        memcpy(f->session_parameter, values[0x09] + 16, 8);
    }
    if (present & BIT(0x0A))
        memcpy(f->response, values[0x0A], 4);
    if (present & BIT(0x0B))
        f->verdict = values[0x0B][0];
    if (present & BIT(0x0C))
        f->error = values[0x0C][0];
    if (present & BIT(0x0D))
        f->problem = values[0x0D][0];
}

int plain_read(const uint8_t *bytes, size_t size, struct apdu_fields *restrict fields, uint16_t *id,
               uint8_t *problem)
{
    unsigned kind, invoke_id, operation = 0;
    const struct form *form;
    struct found found;
    size_t at = 9;

    if (size < 9 || !is_head(bytes, 0x01, 1) || !is_head(bytes + 4, 0x02, 2))
        return PLAIN_GARBLED;
    kind = bytes[3];
    invoke_id = (unsigned)bytes[7] << 8 | bytes[8];
    if (invoke_id == 0)
        return PLAIN_GARBLED;
    if (kind == APDU_KIND_INVOKE || kind == APDU_KIND_RESULT) {
        if (size < 13 || !is_head(bytes + 9, 0x03, 1))
            return PLAIN_GARBLED;
        operation = bytes[12];
        at = 13;
    }
    form = form_of(kind, operation);
    if (form && find_fields(bytes + at, bytes + size, form, &found)) {
        memset(fields, 0, sizeof *fields);
        fields->id = (uint16_t)invoke_id;
        fields->kind = (uint8_t)kind;
        fields->operation = (uint8_t)operation;
        copy_fields(&found, fields);
        return PLAIN_APDU;
    }
    if (kind != APDU_KIND_INVOKE)
        return PLAIN_GARBLED;
    *id = (uint16_t)invoke_id;
    *problem = form ? PLAIN_WRONG_ARGUMENT : PLAIN_UNKNOWN_OPERATION;
    return PLAIN_REJECT;
}

/* Writing */

static bool is_lawful_user(uint64_t user)
{
    static const uint64_t powers[] = {
        UINT64_C(1),
        UINT64_C(10),
        UINT64_C(100),
        UINT64_C(1000),
        UINT64_C(10000),
        UINT64_C(100000),
        UINT64_C(1000000),
        UINT64_C(10000000),
        UINT64_C(100000000),
        UINT64_C(1000000000),
        UINT64_C(10000000000),
        UINT64_C(100000000000),
        UINT64_C(1000000000000),
        UINT64_C(10000000000000),
        UINT64_C(100000000000000),
        UINT64_C(1000000000000000),
    };
    uint64_t count = APDU_USER_COUNT(user);

    return count >= 1 && count <= 15 && APDU_USER_VALUE(user) < powers[count];
}

static bool is_apdu(const struct apdu_fields *f)
{
    const struct form *form = form_of(f->kind, f->operation);

    if (!form || !has_form(form, f->present) || f->id == 0)
        return false;
    if (f->present & BIT(0x04) && !is_lawful_user(f->user))
        return false;
    if (f->present & BIT(0x0B) && f->verdict > 1)
        return false;
    if (f->present & BIT(0x0C) && (f->error < 1 || f->error > 5))
        return false;
    return true;
}

/* Each of these writes to p and returns where the next field goes. */

static uint8_t *put_head(uint8_t *p, uint8_t tag, uint8_t size)
{
    p[0] = tag;
    p[1] = 0;
    p[2] = size;
    return p + 3;
}

static uint8_t *put_byte(uint8_t *p, uint8_t tag, uint8_t value)
{
    p = put_head(p, tag, 1);
    *p = value;
    return p + 1;
}

static uint8_t *put_bytes(uint8_t *p, const uint8_t *value, size_t size)
{
    memcpy(p, value, size);
    return p + size;
}

static uint8_t *put_user(uint8_t *p, uint64_t user)
{
    uint8_t count = (uint8_t)APDU_USER_COUNT(user);
    uint64_t value = APDU_USER_VALUE(user);

    p = put_head(p, 0x04, count);
    for (unsigned i = count; i-- > 0; value /= 10)
        p[i] = (uint8_t)('0' + value % 10);
    return p + count;
}

uint8_t plain_write(const struct apdu_fields *f, uint8_t *restrict out, size_t size, size_t *used)
{
    unsigned present = f->present;
    uint8_t *p = out;

    if (size < APDU_ROOM)
        return APDU_SHORT_SHEET;
    if (!is_apdu(f))
        return APDU_GARBLED;

    p = put_byte(p, 0x01, f->kind);
    p = put_head(p, 0x02, 2);
    *p++ = (uint8_t)(f->id >> 8);
    *p++ = (uint8_t)f->id;
    if (f->operation)
        p = put_byte(p, 0x03, f->operation);
    if (present & BIT(0x04))
        p = put_user(p, f->user);
    if (present & BIT(0x05))
        p = put_head(p, 0x05, 0);
    if (present & BIT(0x06))
        p = put_bytes(put_head(p, 0x06, 8), f->challenge, 8);
    if (present & BIT(0x07))
        p = put_byte(p, 0x07, f->algorithm);
    if (present & BIT(0x08)) {
        p = put_bytes(put_head(p, 0x08, 12), f->unit_challenge, 8);
        p = put_bytes(p, f->unit_response, 4);
    }
    if (present & BIT(0x09)) {
        p = put_bytes(put_head(p, 0x09, 24), f->session_key, 16);
        p = put_bytes(p, f->session_parameter, 8);
    }
    if (present & BIT(0x0A))
        p = put_bytes(put_head(p, 0x0A, 4), f->response, 4);
    if (present & BIT(0x0B))
        p = put_byte(p, 0x0B, f->verdict);
    if (present & BIT(0x0C))
        p = put_byte(p, 0x0C, f->error);
    if (present & BIT(0x0D))
        p = put_byte(p, 0x0D, f->problem);
    *used = (size_t)(p - out);
    return APDU_DONE;
}
