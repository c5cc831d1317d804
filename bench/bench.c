/* Labels of lengths written and read a second through the C interface, and digits of nine-digit numbers, beside plain C (bench/plain.c) on
 * the same inputs in the same run. Where bench/run.sh links an earlier commit's library too, it is measured beside it as well, as `before`.
 * First all are compared on every input that is measured, on numbers around each power of ten, and on texts that are refused. */
#define _POSIX_C_SOURCE 199309L
#include <inttypes.h>
#include <stdio.h>
#include <stdlib.h>
#include <string.h>
#include <time.h>

#include "plain.h"

enum { INPUTS = 200000, ROUNDS = 15, WIDTH = 16, NINE = 9, SIDES = 4 };

/* the timecodes lie ready: one made up in the loop is stored field by field and loaded wider to be handed over, and the processor waits */
static tzq_timecode given[INPUTS];
static uint8_t kept[INPUTS][WIDTH];
static size_t lengths[INPUTS];
static uint64_t numbers[INPUTS];
static uint64_t sink;

typedef tzq_length writer(tzq_timecode, uint8_t *, size_t, size_t);
typedef tzq_read_count reader(const uint8_t *, size_t, uint64_t, bool);
typedef void digit_writer(uint8_t *, size_t, size_t, uint64_t);

/* linked by bench/run.sh: digits::put_digits, and both writers of the earlier commit (that of labels by way of bench/before.c) */
__attribute__((weak)) digit_writer now_put_digits, before_put_digits;
__attribute__((weak)) writer before_write_label;

/* what is measured side by side, ours first; a side that is not linked is left out */
static const char *const NAMES[SIDES] = {"ours", "before", "plain C", "plain C with the table"};
static writer *const WRITERS[SIDES] = {tzq_write_label, before_write_label, plain_write_label, paired_write_label};
static digit_writer *const DIGIT_WRITERS[SIDES] = {now_put_digits, before_put_digits, plain_put_digits, paired_put_digits};
static reader *const READERS[SIDES] = {tzq_read, NULL, plain_read, NULL};

/* counts spread over a day, and numbers of nine digits, in no order that a branch predictor could learn */
static int64_t count_at(uint64_t i) { return (int64_t)(i * 2654435761u % 2589408u); }
static uint64_t number_at(uint64_t i) { return 100000000u + i * 2654435761u % 900000000u; }

static void die(const char *what, uint64_t i) {
    fprintf(stderr, "bench: two differ in %s %" PRIu64 "\n", what, i);
    exit(1);
}

static double now(void) {
    struct timespec t;
    clock_gettime(CLOCK_MONOTONIC, &t);
    return (double)t.tv_sec + 1e-9 * (double)t.tv_nsec;
}

/* ---- the seconds that one input takes */

static double write_all(writer *w) {
    uint8_t line[WIDTH];
    memset(line, '.', sizeof line);
    double start = now();
    for (uint64_t i = 0; i < INPUTS; i++)
        sink += w(given[i], line, sizeof line, 0).length + line[7];
    return (now() - start) / INPUTS;
}

static double read_all(reader *r, uint64_t rate) {
    double start = now();
    for (uint64_t i = 0; i < INPUTS; i++)
        sink += (uint64_t)r(kept[i], lengths[i], rate, false).count;
    return (now() - start) / INPUTS;
}

static double put_all(digit_writer *d) {
    uint8_t line[WIDTH];
    memset(line, '.', sizeof line);
    double start = now();
    for (uint64_t i = 0; i < INPUTS; i++) {
        d(line, sizeof line, NINE, numbers[i]);
        sink += line[4];
    }
    return (now() - start) / INPUTS;
}

/* ---- all the same answers */

static bool same(tzq_read_count x, tzq_read_count y) {
    return x.refused == y.refused && x.count == y.count && x.format == y.format && x.place == y.place && x.position == y.position;
}

/* the labels of all counts, by every writer; then by both readers */
static void agree(uint64_t rate) {
    for (uint64_t i = 0; i < INPUTS; i++) {
        tzq_timecode tc = {count_at(i), rate, false};
        given[i] = tc;
        memset(kept[i], '.', WIDTH);
        tzq_length a = tzq_write_label(tc, kept[i], WIDTH, 0);
        for (int s = 1; s < SIDES; s++) {
            uint8_t other[WIDTH];
            memset(other, '.', WIDTH);
            if (!WRITERS[s])
                continue;
            tzq_length b = WRITERS[s](tc, other, WIDTH, 0);
            if (a.refused != b.refused || a.length != b.length || memcmp(kept[i], other, WIDTH) != 0)
                die("writing", i);
        }
        lengths[i] = a.length;
        tzq_read_count x = tzq_read(kept[i], a.length, rate, false);
        if (!same(x, plain_read(kept[i], a.length, rate, false)) || x.count != tc.count)
            die("reading", i);
    }
}

/* a number in k digits, by every digit writer, in a line that has room for them, or for one too few */
static void agree_on_digits(size_t k, uint64_t n) {
    for (size_t length = k > 0 ? k - 1 : 0; length <= k + 2; length++) {
        uint8_t first[32], other[32];
        memset(first, '.', sizeof first);
        plain_put_digits(first, length, k, n);
        for (int s = 0; s < SIDES; s++) {
            memset(other, '.', sizeof other);
            if (!DIGIT_WRITERS[s])
                continue;
            DIGIT_WRITERS[s](other, length, k, n);
            if (memcmp(first, other, sizeof other) != 0)
                die("the digits of", n);
        }
    }
}

static void agree_on_numbers(void) {
    for (uint64_t i = 0; i < INPUTS; i++)
        agree_on_digits(NINE, numbers[i]);
    for (uint64_t power = 1, e = 0; e < 20; e++, power *= 10)
        for (uint64_t near = 0; near < 200; near++)
            for (size_t k = 0; k <= 22; k++)
                agree_on_digits(k, power + near - 100);
}

static void agree_on_text(const uint8_t *text, size_t length, uint64_t i) {
    if (!same(tzq_read(text, length, i % 14, false), plain_read(text, length, i % 14, false)))
        die("text", i);
}

/* footages around the last frame of a foot, with no marker and with each digit */
static void agree_on_footages(void) {
    for (uint64_t i = 0; i < 40 * 40 * 11; i++) {
        char text[WIDTH];
        uint64_t feet = i / 11 / 40, frames = i / 11 % 40, marker = i % 11;
        int length = snprintf(text, sizeof text, marker < 10 ? "%" PRIu64 "+%02" PRIu64 ".%" PRIu64 : "%" PRIu64 "+%02" PRIu64, feet, frames, marker);
        agree_on_text((const uint8_t *)text, (size_t)length, i);
    }
}

/* texts of the reader's alphabet, most of them refused */
static void agree_on_texts(void) {
    static const char alphabet[] = "0123456789:;+.- 00000";
    uint64_t seed = 1;
    for (uint64_t i = 0; i < INPUTS; i++) {
        uint8_t text[WIDTH];
        size_t length = (size_t)(i % (WIDTH + 1));
        for (size_t k = 0; k < length; k++) {
            seed = seed * 6364136223846793005u + 1442695040888963407u;
            text[k] = (uint8_t)alphabet[(seed >> 33) % (sizeof alphabet - 1)];
        }
        agree_on_text(text, length, i);
    }
}

/* ---- what is shown */

static int by_size(const void *a, const void *b) {
    double x = *(const double *)a, y = *(const double *)b;
    return (x > y) - (x < y);
}

static double median(double *t) {
    qsort(t, ROUNDS, sizeof *t, by_size);
    return t[ROUNDS / 2];
}

/* ours in million a second; of each other side that and the ratio, our time over its */
static void show(const char *what, double times[SIDES][ROUNDS], int units) {
    double ours = median(times[0]);
    printf("%s: %.1f million/s", what, 1e-6 * units / ours);
    for (int s = 1; s < SIDES; s++) {
        double other = median(times[s]);
        if (other > 0)
            printf("; %s %.1f million/s, ratio %.2f", NAMES[s], 1e-6 * units / other, ours / other);
    }
    printf("\n");
}

static void measure_labels(uint64_t rate) {
    static double written[SIDES][ROUNDS], read[SIDES][ROUNDS];
    char what[32];
    agree(rate);
    for (int k = 0; k < ROUNDS; k++)
        for (int s = 0; s < SIDES; s++) {
            written[s][k] = WRITERS[s] ? write_all(WRITERS[s]) : 0;
            read[s][k] = READERS[s] ? read_all(READERS[s], rate) : 0;
        }
    snprintf(what, sizeof what, "labels written, rate %" PRIu64, rate);
    show(what, written, 1);
    snprintf(what, sizeof what, "labels read, rate %" PRIu64, rate);
    show(what, read, 1);
}

static void measure_digits(void) {
    static double times[SIDES][ROUNDS];
    for (int k = 0; k < ROUNDS; k++)
        for (int s = 0; s < SIDES; s++)
            times[s][k] = DIGIT_WRITERS[s] ? put_all(DIGIT_WRITERS[s]) : 0;
    show("digits of nine-digit numbers", times, NINE);
}

int main(void) {
    for (uint64_t i = 0; i < INPUTS; i++)
        numbers[i] = number_at(i);
    agree_on_texts();
    agree_on_footages();
    agree_on_numbers();
    measure_labels(2);
    measure_labels(5);
    if (now_put_digits)
        measure_digits();
    return sink == 0;
}
