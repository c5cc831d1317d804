/* The label writer of an earlier commit for bench.c, compiled with that commit's header (bench/run.sh --before): what makes up a timecode may
 * have grown since, and with it how one is handed over. */
#include "tzaquedda.h"

/* the timecode of bench.c */
typedef struct { int64_t count; uint64_t rate; bool position; } timecode_now;

/* that commit's tzq_write_label, under another name */
tzq_length earlier_write_label(tzq_timecode tc, uint8_t *line, size_t length, size_t place);
tzq_length before_write_label(timecode_now tc, uint8_t *line, size_t length, size_t place);

tzq_length before_write_label(timecode_now tc, uint8_t *line, size_t length, size_t place) {
    tzq_timecode then = {.count = tc.count, .rate = tc.rate};
    return earlier_write_label(then, line, length, place);
}
