/* A shot list of a million shots, as a loader meets it: walked, tested, handed over in numbers and written again. Prints one line, which
 * bin/c-demo compares with what the numbers here make it. */
#include <stdio.h>
#include <stdlib.h>
#include <string.h>

#include "tzaquedda.h"

/* how many of each: a rate and a reel before every thousandth shot */
enum { SHOTS = 1000000, EVERY = 1000, BLOCKS = SHOTS / EVERY, RECORDS = SHOTS + 2 * BLOCKS, BYTES = 9 * SHOTS + 7 * BLOCKS };

static size_t put32(uint8_t *list, uint32_t n) {
    for (int i = 0; i < 4; i++)
        list[i] = (uint8_t)(n >> 8 * i);
    return 4;
}

/* shot n goes from n - 500000 to before n - 499999 + n % 3 */
static void make(uint8_t *list) {
    size_t at = 0;
    for (int32_t n = 0; n < SHOTS; n++) {
        if (n % EVERY == 0) {
            list[at++] = 3;
            at += put32(list + at, 4294967295u - (uint32_t)n);
            list[at++] = 1;
            list[at++] = (uint8_t)(n / EVERY % 12 + 1);
        }
        list[at++] = 2;
        at += put32(list + at, (uint32_t)(n - 500000));
        at += put32(list + at, (uint32_t)(n - 499999 + n % 3));
    }
}

/* the numbers of each record, in the order in which the walk gives them */
static size_t numbers_of(const uint8_t *list, size_t length, int64_t *numbers) {
    size_t at = 0, n = 0;
    tzq_record r = tzq_record_at(list, length, at, 0);
    for (; r.kind; r = tzq_record_at(list, length, at += r.size, r.held)) {
        numbers[n++] = (int64_t)r.kind;
        numbers[n++] = r.kind == 1 ? (int64_t)r.rate : r.kind == 2 ? r.first : (int64_t)r.reel;
        if (r.kind == 2)
            numbers[n++] = r.end;
    }
    return r.refused || at != length ? 0 : n;
}

int main(void) {
    uint8_t *list = malloc(BYTES), *line = malloc(BYTES + 2);
    int64_t *numbers = malloc(3 * sizeof *numbers * RECORDS);
    if (!list || !line || !numbers)
        return 1;
    make(list);
    memset(line, '.', BYTES + 2);
    tzq_checked c = tzq_check_list(list, BYTES);
    size_t n = numbers_of(list, BYTES, numbers);
    tzq_length w = tzq_write_list(numbers, n, line, BYTES + 2, 1);
    int same = w.length == BYTES && !memcmp(line + 1, list, BYTES) && line[0] == '.' && line[BYTES + 1] == '.';
    tzq_length full = tzq_write_list(numbers, n, line, BYTES, 1);
    tzq_checked cut = tzq_check_list(list, BYTES - 1);
    printf("long list: %d bytes, %zu records, %zu numbers, written again %s; one byte less: %d and %d\n", BYTES, c.records, n,
           same ? "the same" : "otherwise", (int)full.refused, (int)cut.refused);
    return 0;
}
