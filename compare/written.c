/* What is written, held to C's own printf: every label of a day at each rate, told by an odometer that knows no formula; and digits::put_digits
 * on numbers around each power of ten, and others, in every width, every byte of the line with it. Prints 'N written, W wrong'. */
#include <inttypes.h>
#include <stdio.h>
#include <string.h>

#include "tzaquedda.h"

enum { ROOM = 48, MOST = 24, SHOWN = 20 };

void now_put_digits(uint8_t *part, size_t length, size_t k, uint64_t n);

static uint64_t judged, wrong;

static void hold(int right, const char *what, uint64_t a, uint64_t b) {
    judged++;
    if (!right && wrong++ < SHOWN)
        fprintf(stderr, "wrong: %s %" PRIu64 " %" PRIu64 "\n", what, a, b);
}

/* ---- labels: frames, seconds, minutes and hours turn over, and at a new minute that is no tenth the first D frames are left out */

typedef struct { unsigned hours, minutes, seconds, frames; } odometer;

static odometer turned(odometer o, unsigned timebase, unsigned d) {
    if (++o.frames < timebase)
        return o;
    o.frames = 0;
    if (++o.seconds < 60)
        return o;
    o.seconds = 0;
    if (++o.minutes == 60) {
        o.minutes = 0;
        o.hours++;
    }
    if (o.minutes % 10 != 0)
        o.frames = d;
    return o;
}

static void labels_of_a_day(uint64_t rate, unsigned timebase, unsigned d) {
    odometer o = {0, 0, 0, 0};
    for (int64_t count = 0; o.hours < 25; count++, o = turned(o, timebase, d)) {
        char expected[ROOM + 1];
        uint8_t line[ROOM];
        tzq_timecode up = {count, rate, false}, down = {-count, rate, false};
        size_t place = (size_t)(count % 7);
        memset(expected, '#', ROOM);
        memset(line, '#', ROOM);
        int length = sprintf(expected + place, "%02u:%02u:%02u%c%02u", o.hours, o.minutes, o.seconds, d ? ';' : ':', o.frames);
        expected[place + (size_t)length] = '#';
        tzq_length w = tzq_write_label(up, line, ROOM, place);
        hold(w.refused == 0 && w.length == (size_t)length && memcmp(line, expected, ROOM) == 0, "label of", rate, (uint64_t)count);
        if (count % 97 == 1) {
            memset(line, '#', ROOM);
            w = tzq_write_label(down, line, ROOM, place + 1);
            int same = line[place + 1] == '-' && memcmp(line + place + 2, expected + place, (size_t)length) == 0;
            hold(same && w.refused == 0 && w.length == (size_t)length + 1, "label below zero of", rate, (uint64_t)count);
        }
    }
}

/* ---- digits: the last k of a number that printf writes with zeros in front; none where they have no room */

static void digits_in(size_t k, uint64_t n) {
    char whole[ROOM];
    sprintf(whole, "%0*" PRIu64, MOST, n);
    for (size_t length = k > 0 ? k - 1 : 0; length <= k + 1; length++) {
        uint8_t line[ROOM], expected[ROOM];
        memset(line, '#', ROOM);
        memset(expected, '#', ROOM);
        if (k <= length)
            memcpy(expected, whole + MOST - k, k);
        now_put_digits(line, length, k, n);
        hold(memcmp(line, expected, ROOM) == 0, "digits of", n, k);
    }
}

static void in_every_width(uint64_t n) {
    for (size_t k = 0; k <= MOST; k++)
        digits_in(k, n);
}

static void numbers(void) {
    for (uint64_t n = 0; n < 20000; n++)
        in_every_width(n);
    for (uint64_t power = 1, e = 0; e < 20; e++, power *= 10)
        for (uint64_t near = 0; near <= 1000; near++)
            in_every_width(power + near - 500);
    uint64_t seed = 1;
    for (int i = 0; i < 50000; i++) {
        seed = seed * 6364136223846793005u + 1442695040888963407u;
        in_every_width(seed >> (i % 64));
    }
    for (uint64_t n = 0; n < 1000; n++)
        in_every_width(UINT64_MAX - n);
}

int main(void) {
    static const unsigned timebases[13] = {0, 24, 24, 25, 30, 30, 30, 48, 48, 50, 60, 60, 60};
    for (uint64_t rate = 1; rate <= 12; rate++)
        labels_of_a_day(rate, timebases[rate], rate == 5 ? 2 : rate == 11 ? 4 : 0);
    numbers();
    printf("%" PRIu64 " written, %" PRIu64 " wrong\n", judged, wrong);
    return wrong != 0;
}
