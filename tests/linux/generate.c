#include <string.h>

#include "generate.h"
#include "outside.h"
#include "random.h"

void any_settings(struct settings *s)
{
    static const uint32_t pieces[4] = {16, 700, 5000, 1048576};
    s->buffers = from_to(1, 16);
    s->longest_piece = from_to(1, pieces[from_to(0, 3)]);
    s->boundary = one_in(3) ? 0 : (uint64_t)1 << (one_in(2) ? from_to(9, 12) : from_to(9, 32));
    s->longest_message = one_in(2) ? 1364 : from_to(64, 1364);
    s->indirect = !one_in(4);
    s->solicited = one_in(2);
    any_bytes(s->own, sizeof s->own);
}

/* A power of two below 512 or above 2^32, or a lawful one with a lower bit beside it. */
uint64_t bad_boundary(void)
{
    if (one_in(2))
        return (uint64_t)1 << (one_in(2) ? from_to(0, 8) : from_to(33, 63));
    return (uint64_t)1 << from_to(9, 32) | (uint64_t)1 << from_to(0, 8);
}

static unsigned supported(const struct settings *s)
{
    return SRP_BUF_FORMAT_DIRECT | (s->indirect ? SRP_BUF_FORMAT_INDIRECT : 0);
}

void any_login(struct login *l, const struct settings *s)
{
    l->tag = any_number();
    l->length = one_in(2) ? s->longest_message : from_to(64, s->longest_message);
    if (one_in(12))
        l->length = one_in(2) ? from_to(0, 63) : s->longest_message + from_to(1, 0x7fffffff);
    l->formats = one_in(3) ? (unsigned)any_number() & supported(s) : supported(s);
    if (one_in(12))
        l->formats = (unsigned)any_number() & 0xffff;
    l->action = one_in(10) ? from_to(1, 3) : 0;
    l->crsolnt = one_in(2);
    l->losolnt = one_in(2);
    memcpy(l->target, s->own, sizeof l->target);
    if (one_in(12))
        l->target[from_to(0, 15)] ^= (uint8_t)from_to(1, 255);
}

uint32_t rejection(const struct login *l, const struct settings *s)
{
    if (l->length < 64)
        return SRP_LOGIN_REJ_UNABLE_ESTABLISH_CHANNEL;
    if (l->length > s->longest_message)
        return SRP_LOGIN_REJ_REQ_IT_IU_LENGTH_TOO_LARGE;
    if (l->formats & ~supported(s))
        return SRP_LOGIN_REJ_UNSUPPORTED_DESCRIPTOR_FMT;
    if (l->action == SRP_MULTICHAN_MULTI)
        return SRP_LOGIN_REJ_MULTI_CHANNEL_UNSUPPORTED;
    if (l->action > SRP_MULTICHAN_MULTI)
        return SRP_LOGIN_REJ_UNABLE_ESTABLISH_CHANNEL;
    return memcmp(l->target, s->own, sizeof l->target) ? SRP_LOGIN_REJ_UNABLE_ASSOCIATE_CHANNEL : 0;
}

/* A segment may end at 2^64 and not past it; many have multiples of small boundaries inside. */
static void any_segment(struct segment *s)
{
    s->length = one_in(5) ? 0 : from_to(1, one_in(3) ? 10 : 3000);
    s->address = any_number();
    if (one_in(6))
        s->address = (s->address >> 1 | 0xffffffff) - from_to(0, s->length);
    if (s->length && (s->address > (uint64_t)0 - s->length || one_in(6)))
        s->address = (uint64_t)0 - s->length;
    s->handle = (uint32_t)any_number();
}

static void any_side(struct side *s, unsigned formats)
{
    unsigned i;
    memset(s, 0, sizeof *s);
    s->format = from_to(0, 2);
    if (s->format && !(formats & 1u << s->format))
        s->format = SRP_NO_DATA_DESC;
    if (s->format == SRP_DATA_DESC_DIRECT)
        s->entries = 1;
    if (s->format == SRP_DATA_DESC_INDIRECT)
        s->entries = from_to(1, one_in(4) ? MOST_SEGMENTS : 4);
    for (i = 0; i < s->entries; i++)
        any_segment(&s->segments[i]);
    if (s->format != SRP_DATA_DESC_INDIRECT)
        return;
    s->copies = one_in(2) ? s->entries : from_to(0, s->entries);
    s->table_address = any_number();
    s->table_handle = (uint32_t)any_number();
    s->table_length = 16 * s->entries;
    s->total = buffer_length(s);
}

void any_request(struct request *r, struct channel *c)
{
    memset(r, 0, sizeof *r);
    do
        r->tag = one_in(2) ? from_to(0, 20) : any_number();
    while (find(c, r->tag));
    r->lun = one_in(3) ? any_number() : from_to(0, 2);
    if (c->held && one_in(2))
        r->lun = c->commands[from_to(0, c->held - 1)].lun;
    r->notification = (unsigned)any_number() & (UCSOLNT | SCSOLNT);
}

static uint32_t descriptor_length(const struct side *s)
{
    return s->format == 2 ? 20 + 16 * s->copies : 16 * s->format;
}

void any_command(struct request *r, struct channel *c)
{
    unsigned formats = c->formats;
    any_request(r, c);
    do {
        r->more_cdb = one_in(3) ? from_to(0, 63) : from_to(0, 2) / 2;
        any_side(&r->out, formats);
        any_side(&r->in, formats);
        if (one_in(20))
            r->more_cdb = formats = 0;
    } while (48 + 4 * r->more_cdb + descriptor_length(&r->out) + descriptor_length(&r->in) > c->agreed);
}

struct request *any_open(struct channel *c)
{
    return c->held ? &c->commands[from_to(0, c->held - 1)] : NULL;
}

uint32_t any_required(const struct side *s)
{
    uint32_t b = buffer_length(s);
    switch (from_to(0, 4)) {
    case 0:
        return from_to(0, b);
    case 1:
        return b + from_to(1, 5000);
    case 2:
        return (uint32_t)any_number();
    default:
        return b;
    }
}

/* All of the data, the data below h again or from h on, an offset of min(R, B) or above it, any part. */
void any_move(const struct side *s, uint32_t *offset, uint32_t *count)
{
    uint32_t length = data_length(s);
    *count = one_in(3) ? UINT32_MAX - from_to(0, 100) : from_to(0, one_in(2) ? length : 100);
    *offset = from_to(0, length);
    switch (from_to(0, 9)) {
    case 0:
    case 1:
        *offset = 0;
        *count = one_in(2) ? s->required : s->highest;
        break;
    case 2:
        *offset = s->highest;
        break;
    case 3:
        *offset = length;
        break;
    case 4:
        *offset = length + (one_in(2) ? 1 : from_to(1, UINT32_MAX - length));
    }
}

int spoil(struct side *s, uint8_t *table)
{
    unsigned fetched = fetched_length(s);
    if (s->format == SRP_NO_DATA_DESC)
        return 0;
    if (s->format == SRP_DATA_DESC_DIRECT || (s->copies == s->entries && one_in(3))) {
        s->segments[0].length = from_to(2, 100);
        s->segments[0].address = UINT64_MAX - from_to(0, s->segments[0].length - 2);
        s->total = buffer_length(s);
        return 1;
    }
    if (fetched && s->copies && one_in(2))
        table[from_to(0, 16 * s->copies - 1)] ^= (uint8_t)from_to(1, 255);
    else if (one_in(2))
        s->table_length += from_to(1, 15);
    else
        s->total += from_to(1, 0xffffffff);
    return 1;
}
