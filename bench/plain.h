/* The label writer and the text reader of docs/BEHAVIOUR.md, for lengths, and the digits of a number, in plain C, by hand: what Tzaquedda is
 * measured beside. Called alike, but `position` is not looked at. `plain_` divides by ten for each digit, `paired_` takes pairs of digits from
 * a table. */
#include "tzaquedda.h"

tzq_length plain_write_label(tzq_timecode tc, uint8_t *line, size_t length, size_t place);
tzq_length paired_write_label(tzq_timecode tc, uint8_t *line, size_t length, size_t place);
tzq_read_count plain_read(const uint8_t *text, size_t length, uint64_t rate, bool position);
/* the last k digits of n at the front of a part; where they have no room nothing changes */
void plain_put_digits(uint8_t *part, size_t length, size_t k, uint64_t n);
void paired_put_digits(uint8_t *part, size_t length, size_t k, uint64_t n);
