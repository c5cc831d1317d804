/* Queries a second of tzq_route at 1, 16 and 256 shards, beside plain C that walks along the shards (bench/walk.c), in the same run. First all
 * are compared on every query that is measured, around every border, and on labels and directories that are refused. */
#define _POSIX_C_SOURCE 199309L
#include <inttypes.h>
#include <stdio.h>
#include <stdlib.h>
#include <string.h>
#include <time.h>

#include "walk.h"

enum { QUERIES = 100000, ROUNDS = 15, MOST = 256, WIDTH = 12, DAY = 2589408, SIDES = 3 };

static const char *const NAMES[SIDES] = {"ours", "plain C that tests and walks", "plain C that only walks"};
static router *const ROUTERS[SIDES] = {tzq_route, tested_walk, bare_walk};

static uint64_t firsts[MOST + 1], ends[MOST + 1];
static uint8_t labels[QUERIES][WIDTH];
static int64_t lengths[QUERIES];
static uint64_t sink;

static double now(void) {
    struct timespec t;
    clock_gettime(CLOCK_MONOTONIC, &t);
    return (double)t.tv_sec + 1e-9 * (double)t.tv_nsec;
}

/* shards over the whole day at 29.97 drop: a gap behind every third, the others touch */
static void divide(size_t n) {
    for (size_t i = 0; i < n; i++) {
        firsts[i] = DAY * (uint64_t)i / n;
        ends[i] = DAY * (uint64_t)(i + 1) / n - (i % 3 == 2 ? 1000 : 0);
    }
}

static void label_of(uint64_t count, uint8_t *text) {
    tzq_timecode tc = {(int64_t)count, 5, true};
    tzq_write_label(tc, text, WIDTH, 0);
}

/* starts spread over the day, in no order that a branch predictor could learn, lengths up to ten minutes */
static void queries(void) {
    for (uint64_t i = 0; i < QUERIES; i++) {
        uint64_t start = i * 2654435761u % DAY, length = i * 40503u % 18000u;
        label_of(start, labels[i]);
        lengths[i] = (int64_t)(start + length > DAY ? DAY - start : length);
    }
}

static void agree(size_t n, size_t m, int64_t length, const uint8_t *text, size_t size, uint64_t rate, int sides) {
    tzq_shards a = tzq_route(rate, firsts, n, ends, m, length, text, size);
    for (int s = 1; s < sides; s++) {
        tzq_shards b = ROUTERS[s](rate, firsts, n, ends, m, length, text, size);
        if (a.refused != b.refused || a.place != b.place || a.first != b.first || a.after != b.after) {
            fprintf(stderr, "routes: two differ at %zu shards, length %" PRId64 ", %.*s\n", n, length, (int)size, (const char *)text);
            exit(1);
        }
    }
}

/* every query that is measured; from one before to one behind each border to the same of each, and past the day */
static void agree_on(size_t n) {
    for (size_t i = 0; i < QUERIES; i++)
        agree(n, n, lengths[i], labels[i], 11, 5, SIDES);
    for (size_t i = 0; i < n; i++)
        for (size_t j = i; j < n && j < i + 3; j++)
            for (uint64_t k = 0; k < 36; k++) {
                uint8_t text[WIDTH];
                uint64_t from = (k % 2 ? firsts[i] : ends[i]) + k / 2 % 3, to = (k / 6 % 2 ? firsts[j] : ends[j]) + k / 12 % 3;
                label_of(from ? from - 1 : 0, text);
                agree(n, n, (int64_t)to - (int64_t)from, text, 11, 5, SIDES);
            }
}

/* labels that are refused, and directories that break a rule */
static void agree_on_refused(void) {
    static const char *const texts[] = {"", "-", "x", "1+00", "1:2:3:4:5", "1:2:3:4x", "0000000001", "1:0000000000001:0000000001",
                                        "24:00:00;00", "-1", "00:01:00;01", "00:60:00;00", "00:00:60;00", "30", "00:10:00;00"};
    divide(16);
    for (size_t i = 0; i < sizeof texts / sizeof *texts; i++)
        for (int64_t length = -1; length < 3; length++)
            for (uint64_t rate = 0; rate < 14; rate++)
                agree(rate % 5 ? 3 : 0, rate % 5 ? 3 : 0, length, (const uint8_t *)texts[i], strlen(texts[i]), rate, 2);
    for (size_t i = 0; i < 16; i++) {
        uint64_t kept = firsts[i];
        for (uint64_t other = kept > 1500 ? kept - 1500 : 0; other < kept + 1500; other += 50) {
            firsts[i] = other;
            agree(16, 16, 5, (const uint8_t *)"x", 1, 5, 2);
            agree(16, 15, 5, (const uint8_t *)"1", 1, 5, 2);
        }
        firsts[i] = kept;
    }
    divide(MOST + 1);
    agree(MOST + 1, MOST + 1, 5, (const uint8_t *)"1", 1, 5, 2);
}

static double ask_all(router *r, size_t n) {
    double start = now();
    for (size_t i = 0; i < QUERIES; i++)
        sink += r(5, firsts, n, ends, n, lengths[i], labels[i], 11).after;
    return (now() - start) / QUERIES;
}

static int by_size(const void *a, const void *b) {
    double x = *(const double *)a, y = *(const double *)b;
    return (x > y) - (x < y);
}

static void measure(size_t n) {
    static double times[SIDES][ROUNDS];
    divide(n);
    agree_on(n);
    for (int k = 0; k < ROUNDS; k++)
        for (int s = 0; s < SIDES; s++)
            times[s][k] = ask_all(ROUTERS[s], n);
    for (int s = 0; s < SIDES; s++)
        qsort(times[s], ROUNDS, sizeof **times, by_size);
    printf("%zu shards: %.2f million queries/s", n, 1e-6 / times[0][ROUNDS / 2]);
    for (int s = 1; s < SIDES; s++)
        printf("; %s %.2f, ratio %.2f", NAMES[s], 1e-6 / times[s][ROUNDS / 2], times[0][ROUNDS / 2] / times[s][ROUNDS / 2]);
    printf("\n");
}

int main(void) {
    queries();
    agree_on_refused();
    measure(1);
    measure(16);
    measure(256);
    return sink == 0;
}
