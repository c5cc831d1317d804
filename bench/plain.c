/* The same rules, refusals and answers as those of tzq_write_label and tzq_read for lengths, and the digits of digits::put_digits, written
 * as one would write them in C without proofs. Writing is there twice: dividing by ten for each digit, and taking pairs of digits from a
 * table. */
#include "plain.h"

#include <string.h>

static const uint8_t TIMEBASE[13] = {0, 24, 24, 25, 30, 30, 30, 48, 48, 50, 60, 60, 60};
static const uint8_t DROP[13] = {0, 0, 0, 0, 0, 2, 0, 0, 0, 0, 0, 4, 0};

/* ---- writing ---- */

/* the two digits of 0 to 99, one pair behind the other */
static const char PAIRS[] = "0001020304050607080910111213141516171819"
                            "2021222324252627282930313233343536373839"
                            "4041424344454647484950515253545556575859"
                            "6061626364656667686970717273747576777879"
                            "8081828384858687888990919293949596979899";

typedef uint8_t *two_digits(uint8_t *p, uint64_t n);

static inline uint8_t *two_divided(uint8_t *p, uint64_t n) {
    p[0] = (uint8_t)('0' + n / 10);
    p[1] = (uint8_t)('0' + n % 10);
    return p + 2;
}

static inline uint8_t *two_paired(uint8_t *p, uint64_t n) {
    memcpy(p, PAIRS + 2 * n, 2);
    return p + 2;
}

void plain_put_digits(uint8_t *part, size_t length, size_t k, uint64_t n) {
    if (length < k)
        return;
    for (size_t i = k; i > 0; n /= 10)
        part[--i] = (uint8_t)('0' + n % 10);
}

void paired_put_digits(uint8_t *part, size_t length, size_t k, uint64_t n) {
    if (length < k)
        return;
    size_t i = k;
    for (; i > 1; i -= 2, n /= 100)
        two_paired(part + i - 2, n % 100);
    if (i > 0)
        part[0] = (uint8_t)('0' + n % 10);
}

/* the label's number among all labels, dropped ones counted in */
static uint64_t with_dropped(uint64_t f, uint64_t timebase, uint64_t d) {
    if (d == 0)
        return f;
    uint64_t minute = 60 * timebase - d, ten = 600 * timebase - 9 * d;
    uint64_t tens = f / ten, rest = f % ten;
    uint64_t dropped = 9 * d * tens;
    if (rest >= 60 * timebase)
        dropped += d * ((rest - 60 * timebase) / minute + 1);
    return f + dropped;
}

__attribute__((always_inline)) static inline tzq_length write_by(two_digits *two, tzq_timecode tc, uint8_t *line, size_t length,
                                                                 size_t place) {
    tzq_length no = {0, 0};
    if (tc.rate < 1 || tc.rate > 12) {
        no.refused = TZQ_NO_SUCH;
        return no;
    }
    if (tc.count < -TZQ_MOST || tc.count > TZQ_MOST) {
        no.refused = TZQ_OUT_OF_BOUNDS;
        return no;
    }
    uint64_t timebase = TIMEBASE[tc.rate], d = DROP[tc.rate];
    uint64_t n = with_dropped((uint64_t)(tc.count < 0 ? -tc.count : tc.count), timebase, d);
    uint8_t text[TZQ_ROOM], *p = text;
    uint64_t frames = n % timebase, s = n / timebase, hours = s / 3600;
    if (tc.count < 0)
        *p++ = '-';
    if (hours >= 1000)
        *p++ = (uint8_t)('0' + hours / 1000);
    if (hours >= 100)
        *p++ = (uint8_t)('0' + hours / 100 % 10);
    p = two(p, hours % 100);
    *p++ = ':';
    p = two(p, s / 60 % 60);
    *p++ = ':';
    p = two(p, s % 60);
    *p++ = d ? ';' : ':';
    p = two(p, frames);
    size_t need = (size_t)(p - text);
    if (place > length || need > length - place) {
        no.refused = TZQ_NO_ROOM;
        return no;
    }
    memcpy(line + place, text, need);
    tzq_length yes = {0, need};
    return yes;
}

tzq_length plain_write_label(tzq_timecode tc, uint8_t *line, size_t length, size_t place) {
    return write_by(two_divided, tc, line, length, place);
}

tzq_length paired_write_label(tzq_timecode tc, uint8_t *line, size_t length, size_t place) {
    return write_by(two_paired, tc, line, length, place);
}

/* ---- reading ---- */

typedef struct { uint64_t value; size_t digits, next; } run;

static run digits_at(const uint8_t *text, size_t length, size_t at) {
    run r = {0, 0, at};
    while (r.next < length && text[r.next] >= '0' && text[r.next] <= '9') {
        if (r.digits < 9)
            r.value = 10 * r.value + (text[r.next] - '0');
        r.digits++;
        r.next++;
    }
    return r;
}

static tzq_read_count refused(uint64_t number, size_t place) {
    tzq_read_count a = {number, 0, 0, place, false};
    return a;
}

static tzq_read_count held(bool minus, uint64_t count, uint64_t format) {
    if (count > TZQ_MOST)
        return refused(TZQ_OUT_OF_BOUNDS, 0);
    tzq_read_count a = {0, minus ? -(int64_t)count : (int64_t)count, format, 0, false};
    return a;
}

/* the first digit of the first field that is too long */
enum { NOWHERE = -1 };

static int64_t first_long(int64_t before, size_t at, run r) { return before == NOWHERE && r.digits > 9 ? (int64_t)at : before; }

/* whether this frames number occurs in a foot of 4-perf or 3-perf, and a marker that is there is feet modulo 3 */
static bool on_film(uint64_t feet, uint64_t frames, bool perf, uint64_t marker) {
    if (!perf)
        return frames < 16;
    return frames < (feet % 3 == 2 ? 22 : 21) && marker == feet % 3;
}

static tzq_read_count read_footage(const uint8_t *text, size_t length, bool minus, run feet) {
    size_t at = feet.next + 1;
    run frames = digits_at(text, length, at);
    bool perf = false;
    uint64_t marker = 0;
    if (frames.digits == 0)
        return refused(TZQ_NO_SHAPE, at);
    int64_t over = first_long(first_long(NOWHERE, minus ? 1 : 0, feet), at, frames);
    size_t end = frames.next;
    if (end < length && text[end] == '.') {
        run p = digits_at(text, length, end + 1);
        if (p.digits == 0)
            return refused(TZQ_NO_SHAPE, end + 1);
        over = first_long(over, end + 1, p);
        perf = true;
        marker = p.value;
        end = p.next;
    }
    if (end != length)
        return refused(TZQ_NO_SHAPE, end);
    if (over != NOWHERE)
        return refused(TZQ_TOO_LONG, (size_t)over);
    if (!on_film(feet.value, frames.value, perf, marker))
        return refused(TZQ_NOT_ON_FILM, 0);
    if (perf)
        return held(minus, 64 * (feet.value / 3) + 21 * (feet.value % 3) + frames.value, 2);
    return held(minus, 16 * feet.value + frames.value, 1);
}

tzq_read_count plain_read(const uint8_t *text, size_t length, uint64_t rate, bool position) {
    (void)position;
    if (rate < 1 || rate > 12)
        return refused(TZQ_NO_SUCH, 0);
    bool minus = length > 0 && text[0] == '-';
    int64_t over = NOWHERE;
    size_t at = minus ? 1 : 0;
    uint64_t kept[4] = {0, 0, 0, 0};
    for (int fields = 1;; fields++) {
        if (fields > 4)
            return refused(TZQ_NO_SHAPE, at - 1);
        run r = digits_at(text, length, at);
        if (r.digits == 0)
            return refused(TZQ_NO_SHAPE, at);
        if (fields == 1 && r.next < length && text[r.next] == '+')
            return read_footage(text, length, minus, r);
        over = first_long(over, at, r);
        kept[0] = kept[1], kept[1] = kept[2], kept[2] = kept[3], kept[3] = r.value;
        if (r.next == length)
            break;
        if (text[r.next] != ':' && text[r.next] != ';')
            return refused(TZQ_NO_SHAPE, r.next);
        at = r.next + 1;
    }
    if (over != NOWHERE)
        return refused(TZQ_TOO_LONG, (size_t)over);
    uint64_t d = DROP[rate], minutes = 60 * kept[0] + kept[1];
    if (kept[2] == 0 && kept[3] < d && kept[1] % 10 != 0)
        return refused(TZQ_DROPPED_LABEL, 0);
    return held(minus, (60 * minutes + kept[2]) * TIMEBASE[rate] + kept[3] - d * (minutes - minutes / 10), 0);
}
