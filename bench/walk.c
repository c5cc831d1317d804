/* Walking along the shards, as one would write it in C without proofs: the same rules, refusals and answers as those of tzq_route. */
#include "walk.h"

static const uint8_t TIMEBASE[13] = {0, 24, 24, 25, 30, 30, 30, 48, 48, 50, 60, 60, 60};
static const uint8_t DROP[13] = {0, 0, 0, 0, 0, 2, 0, 0, 0, 0, 0, 4, 0};

static uint64_t day(uint64_t rate) { return 86400u * TIMEBASE[rate] - 1296u * DROP[rate]; }

static tzq_shards refused(uint64_t number, size_t place) {
    tzq_shards a = {number, place, 0, 0};
    return a;
}

/* ---- the label of a position: its count, or the refusal */

typedef struct { tzq_shards no; uint64_t count; } start;

static start no_start(uint64_t number, size_t place) {
    start s = {refused(number, place), 0};
    return s;
}

/* 14, 3, else the count of four fields */
static start counted(uint64_t rate, bool minus, const uint64_t *f) {
    uint64_t timebase = TIMEBASE[rate], d = DROP[rate], m = 60 * f[0] + f[1];
    if (minus || f[0] > 23 || f[1] > 59 || f[2] > 59 || f[3] >= timebase)
        return no_start(TZQ_NOT_STRICT, 0);
    if (f[2] == 0 && f[3] < d && f[1] % 10 != 0)
        return no_start(TZQ_DROPPED_LABEL, 0);
    start s = {refused(0, 0), (60 * m + f[2]) * timebase + f[3] - d * (m - m / 10)};
    return s;
}

static start read_label(uint64_t rate, const uint8_t *text, size_t length) {
    bool minus = length > 0 && text[0] == '-', too_long = false;
    size_t at = minus, place = 0;
    uint64_t kept[4] = {0, 0, 0, 0};
    for (int fields = 1; fields <= 4; fields++) {
        size_t first = at;
        uint64_t value = 0;
        for (; at < length && text[at] >= '0' && text[at] <= '9'; at++)
            value = at - first < 9 ? 10 * value + (text[at] - '0') : value;
        if (at == first)
            return no_start(TZQ_NO_SHAPE, at);
        if (at - first > 9 && !too_long)
            too_long = true, place = first;
        kept[0] = kept[1], kept[1] = kept[2], kept[2] = kept[3], kept[3] = value;
        if (at == length)
            return too_long ? no_start(TZQ_TOO_LONG, place) : counted(rate, minus, kept);
        if (text[at] != ':' && text[at] != ';')
            return no_start(TZQ_NO_SHAPE, at);
        if (fields < 4)
            at++;
    }
    return no_start(TZQ_NO_SHAPE, at);
}

/* ---- the directory and the query */

static bool keeps_rules(uint64_t rate, const uint64_t *firsts, size_t n, const uint64_t *ends, size_t m) {
    uint64_t low = 0;
    if (n != m || n > 256)
        return false;
    for (size_t i = 0; i < n; i++) {
        if (firsts[i] < low || ends[i] <= firsts[i] || ends[i] > day(rate))
            return false;
        low = ends[i];
    }
    return true;
}

static tzq_shards walk(uint64_t rate, const uint64_t *firsts, const uint64_t *ends, size_t n, int64_t length, const uint8_t *label,
                       size_t label_length) {
    start s = read_label(rate, label, label_length);
    if (s.no.refused)
        return s.no;
    if (length < 0 || length > TZQ_MOST)
        return refused(TZQ_OUT_OF_BOUNDS, 0);
    uint64_t end = s.count + (uint64_t)length;
    if (end > day(rate))
        return refused(TZQ_PAST_DAY, 0);
    tzq_shards a = refused(0, 0);
    for (size_t i = 0; i < n && firsts[i] < end; i++)
        if (ends[i] > s.count && length > 0) {
            a.first = a.after ? a.first : i;
            a.after = i + 1;
        }
    return a;
}

tzq_shards tested_walk(uint64_t rate, const uint64_t *firsts, size_t n, const uint64_t *ends, size_t m, int64_t length, const uint8_t *label,
                       size_t label_length) {
    if (rate < 1 || rate > 12)
        return refused(TZQ_NO_SUCH, 0);
    if (!keeps_rules(rate, firsts, n, ends, m))
        return refused(TZQ_BROKEN_DIRECTORY, 0);
    return walk(rate, firsts, ends, n, length, label, label_length);
}

tzq_shards bare_walk(uint64_t rate, const uint64_t *firsts, size_t n, const uint64_t *ends, size_t m, int64_t length, const uint8_t *label,
                     size_t label_length) {
    (void)m;
    return walk(rate, firsts, ends, n, length, label, label_length);
}
