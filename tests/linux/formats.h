/* srp_format_counts, beside what srp_look says of each value of buf_fmt. */
#ifndef FORMATS_H
#define FORMATS_H

/* Of each agreement: none, direct alone, indirect alone, both. */
void divide_formats(void);

#endif
