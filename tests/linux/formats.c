/* The values of buf_fmt, each in an SRP_CMD that is as long as its formats ask for, and srp_format_counts. */
#include "build.h"
#include "formats.h"
#include "outside.h"
#include "port.h"
#include "random.h"
#include "tally.h"

static int is_allowed(unsigned format, unsigned formats)
{
    return format == SRP_NO_DATA_DESC || (format == SRP_DATA_DESC_DIRECT && formats & SRP_BUF_FORMAT_DIRECT) ||
           (format == SRP_DATA_DESC_INDIRECT && formats & SRP_BUF_FORMAT_INDIRECT);
}

/* Which word of the answer counts a value: of those that pass, that draw 5, that draw 6. */
static unsigned word_of(unsigned value, unsigned formats)
{
    return !is_allowed(value >> 4, formats) ? 1 : !is_allowed(value & 15, formats) ? 2 : 0;
}

static void divide(unsigned formats)
{
    static const uint32_t drawn[3] = {0, SRP_REFUSED_OUT_FORMAT, SRP_REFUSED_IN_FORMAT};
    uint64_t counts[SRP_ANSWER_WORDS] = {0};
    uint8_t fetches[SRP_ANSWER_BYTES];
    unsigned value;
    for (value = 0; value <= UINT8_MAX; value++) {
        struct request r = {.tag = any_number(), .out = {.format = value >> 4}, .in = {.format = value & 15}};
        unsigned word = word_of(value, formats);
        size_t len = build_command(port.msg, &r);
        same("buf_fmt", "look", srp_look(port.msg, len, SRP_LONGEST_AGREED, formats, fetches, sizeof fetches),
             drawn[word]);
        counts[word]++;
    }
    lend();
    same("format counts", "returned", srp_format_counts(formats, port.answer), 0);
    answered("format counts", counts);
}

void divide_formats(void)
{
    divide(0);
    divide(SRP_BUF_FORMAT_DIRECT);
    divide(SRP_BUF_FORMAT_INDIRECT);
    divide(SRP_BUF_FORMAT_DIRECT | SRP_BUF_FORMAT_INDIRECT);
    lend();
    same("format counts", "returned", srp_format_counts(1u << SRP_DATA_DESC_IMM, port.answer), SRP_REFUSED_SETTING);
    answered("format counts", (const uint64_t[SRP_ANSWER_WORDS]){0});
}
