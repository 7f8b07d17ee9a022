/* model_reel.c: a reel of payloads by document 02, request 6. */
#include "model.h"

#include "layout.h"

/* A run of access units, told by structs or by bytes. */
typedef struct run {
    size_t n;
    const captions_access_unit *units; /* null where bytes tell it */
    const uint8_t *bytes;
} run;

static captions_access_unit unit_at(const run *r, size_t i)
{
    const uint8_t *b;

    if (r->units != NULL)
        return r->units[i];
    b = r->bytes + 7 * i;
    return (captions_access_unit){.cc_valid_1 = b[0], .cc_valid_2 = b[1], .padding = b[2], .field1_data1 = b[3],
                                  .field1_data2 = b[4], .field2_data1 = b[5], .field2_data2 = b[6]};
}

/* The payload whose first unit is unit `at` of the run: `size` units, or what is left. */
static void take_payload(const run *r, uint32_t flags, size_t size, size_t at, payload_value *to)
{
    to->flags = flags;
    to->m = r->n - at < size ? r->n - at : size;
    for (size_t i = 0; i < to->m; i++)
        to->units[i] = unit_at(r, at + i);
}

/* A writer's refusal has no place. */
static captions_written refused(uint8_t number)
{
    return (captions_written){.refusal = {number, 0}};
}

/* Twice through all payloads: each is judged as a call of its own with the room that is left, and then all are laid out. */
static captions_written write_run(uint32_t flags, size_t size, const run *r, uint8_t *out, size_t room)
{
    static payload_value payload;
    size_t len = 0;

    if (flags > 255)
        return refused(15);
    if (size < 1 || size > 291)
        return refused(15);
    for (size_t at = 0; at < r->n; at += size) {
        uint8_t number;
        take_payload(r, flags, size, at, &payload);
        number = model_judge_payload(flags, payload.m, payload.units, room - len);
        if (number != 0)
            return refused(number);
        len += 1 + 5 * payload.m;
    }
    len = 0;
    for (size_t at = 0; at < r->n; at += size) {
        take_payload(r, flags, size, at, &payload);
        len += layout_payload(&payload, out + len);
    }
    return (captions_written){.len = len};
}

captions_written model_reel_write(uint32_t flags, size_t size, const captions_access_unit *units, size_t n, uint8_t *out,
                                  size_t room)
{
    run r = {n, units, NULL};

    return write_run(flags, size, &r, out, room);
}

/* Bytes that end within a unit tell no run. */
captions_written model_reel_write_bytes(uint32_t flags, size_t size, const uint8_t *units, size_t len, uint8_t *out,
                                        size_t room)
{
    run r = {len / 7, NULL, units};

    if (len % 7 != 0)
        return refused(15);
    return write_run(flags, size, &r, out, room);
}
