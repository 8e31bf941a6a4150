/*
 * srp_format_counts. Of its answer all eight words are compared: those behind the third are 0, and all of them after a
 * refusal.
 */
#include "calls.h"
#include "cases.h"

enum { DIRECT = SRP_FORMAT_BIT_DIRECT, INDIRECT = SRP_FORMAT_BIT_INDIRECT, BOTH = DIRECT | INDIRECT };

/* No two of the three numbers are alike: shows an exchange of words. */
static void agreed(void)
{
    format_counts("format counts, none agreed", 0, 1, 240, 15, 0);
    format_counts("format counts, direct alone", 0, 4, 224, 28, DIRECT);
    format_counts("format counts, indirect alone", 0, 4, 224, 28, INDIRECT);
    format_counts("format counts, both", 0, 9, 208, 39, BOTH);
}

/* Each other bit, alone and beside both formats; all bits. */
static void refusals(void)
{
    uint32_t bit;
    for (bit = 1; bit; bit <<= 1) {
        if (bit & BOTH)
            continue;
        format_counts("format counts 2, a bit", SRP_REFUSED_SETTING, 0, 0, 0, bit);
        format_counts("format counts 2, both and a bit", SRP_REFUSED_SETTING, 0, 0, 0, BOTH | bit);
    }
    format_counts("format counts 2, all bits", SRP_REFUSED_SETTING, 0, 0, 0, UINT32_MAX);
}

void format_cases(void)
{
    agreed();
    refusals();
}
