/* Calls every function of Tzaquedda and prints what it answers; the cases are those of docs/BEHAVIOUR.md. bin/c-demo compares the output with `expected`. */
#include <inttypes.h>
#include <stdio.h>
#include <string.h>

#include "tzaquedda.h"

/* a length */
static tzq_timecode tc(int64_t count, uint64_t rate) {
    tzq_timecode t = {count, rate, false};
    return t;
}

/* a position: a time of day */
static tzq_timecode pos(int64_t count, uint64_t rate) {
    tzq_timecode t = {count, rate, true};
    return t;
}

/* a count and its kind, or why there is none */
static void counted(const char *what, tzq_count a) {
    if (a.refused)
        printf("%s: refused %" PRIu64 "\n", what, a.refused);
    else
        printf("%s: %s%" PRId64 "\n", what, a.position ? "position " : "", a.count);
}

/* what a text reads as: a label's count, or a footage's with its film format; refused, the byte where it went wrong */
static void reads(const char *text, tzq_read_count a) {
    const char *kind = a.position ? "position " : "";
    if (a.refused)
        printf("read %s: refused %" PRIu64 " at %zu\n", text, a.refused, a.place);
    else if (a.format)
        printf("read %s: %s%" PRId64 " in film format %" PRIu64 "\n", text, kind, a.count, a.format);
    else
        printf("read %s: %s%" PRId64 "\n", text, kind, a.count);
}

static void read_label(const char *text, uint64_t rate) {
    reads(text, tzq_read((const uint8_t *)text, strlen(text), rate, false));
}

static void read_position(const char *text, uint64_t rate) {
    reads(text, tzq_read((const uint8_t *)text, strlen(text), rate, true));
}

static void read_footage(const char *text, uint64_t format, bool position) {
    reads(text, tzq_read_as((const uint8_t *)text, strlen(text), format, 2, position));
}

static void read_runtime(const char *text, uint64_t rate, bool position) {
    counted(text, tzq_read_runtime((const uint8_t *)text, strlen(text), rate, position));
}

/* the whole line, so that every byte of it shows */
static void wrote(const char *what, const uint8_t *line, size_t length, tzq_length a) {
    if (a.refused)
        printf("%s: [%.*s] refused %" PRIu64 "\n", what, (int)length, (const char *)line, a.refused);
    else
        printf("%s: [%.*s] %zu bytes\n", what, (int)length, (const char *)line, a.length);
}

static uint8_t *dots(uint8_t *line, size_t length) {
    memset(line, '.', length);
    return line;
}

static void label(tzq_timecode t) {
    uint8_t line[TZQ_ROOM];
    wrote("label", line, sizeof line, tzq_write_label(t, dots(line, sizeof line), sizeof line, 2));
}

static void footage(tzq_timecode t, uint64_t format) {
    uint8_t line[TZQ_ROOM];
    wrote("footage", line, sizeof line, tzq_write_footage(t, format, dots(line, sizeof line), sizeof line, 0));
}

static void runtime(tzq_timecode t, uint64_t precision) {
    uint8_t line[TZQ_ROOM];
    wrote("runtime", line, sizeof line, tzq_write_runtime(t, precision, dots(line, sizeof line), sizeof line, 0));
}

static void sections(tzq_timecode t) {
    tzq_label s = tzq_sections(t);
    printf("sections: %" PRIu64 " %d %" PRIu64 " %" PRIu64 " %" PRIu64 " %" PRIu64 "\n", s.refused, s.negative, s.hours, s.minutes,
           s.seconds, s.frames);
}

static void ticks(tzq_timecode t) {
    tzq_ticks a = tzq_premiere_ticks(t);
    printf("ticks: %" PRIu64 " %" PRId64 "\n", a.refused, a.ticks);
}

static void seconds(tzq_timecode t) {
    tzq_fraction f = tzq_seconds(t);
    printf("seconds: %" PRIu64 " %" PRId64 "/%" PRIu64 "\n", f.refused, f.numerator, f.denominator);
}

static void convert(tzq_timecode t, const uint64_t *rates, size_t length) {
    tzq_converted c = tzq_convert(t, rates, length);
    printf("convert: %" PRIu64 " %" PRId64 " at %" PRIu64 "\n", c.refused, c.count, c.rate);
}

static void ordered(const char *what, tzq_order o) {
    printf("%s: %" PRIu64 " %" PRId64 "\n", what, o.refused, o.order);
}

static void texts(void) {
    read_label("00:01:00;02", 5);
    read_label("00:01:00;00", 5);
    read_label("00:10:00;00", 5);
    read_label("00:01:00;04", 11);
    read_label("00:01:00;03", 11);
    read_label("-0:05", 2);
    read_label("000000007", 2);
    read_label("0000000007", 2);
    read_label("", 2);
    read_label("5400+00", 2);
    read_label("1+00.1", 2);
    read_label("1:00", 13);
    read_label("00:01:00;0x", 5);
    read_label("12+3:4", 2);
    read_label("-0000000001:00", 2);
    read_label("1+2.0000000003", 2);
    read_footage("2+00", 4, false);
    read_footage("2+00.0", 4, false);
    read_footage("1:00", 1, false);
    read_footage("1+2.", 1, false);
    read_footage("2+00", 5, false);
    read_footage("0+21", 2, false);
    read_footage("2+21", 2, false);
    read_footage("1+00.2", 2, false);
    read_footage("1+00", 2, false);
    read_label("0+20", 2);
    read_label("2+21.2", 2);
    read_label("-2+05.1", 2);
    read_label("25000000+16", 2);
    read_runtime("01:00:03.6", 1, false);
    read_runtime("1:00:00:00", 1, false);

    label(tc(1799, 5));
    label(tc(1800, 5));
    label(tc(901, 5));
    label(tc(2589407, 5));
    label(tc(2589408, 5));
    label(tc(86400, 1));
    label(tc(-5, 2));
    label(tc(400000001, 2));
    footage(tc(21, 2), 2);
    footage(tc(63, 2), 2);
    footage(tc(20, 2), 2);
    footage(tc(64, 2), 2);
    footage(tc(39, 2), 4);
    footage(tc(40, 2), 4);
    runtime(tc(86400, 1), 6);
    runtime(tc(23, 2), 1);
    runtime(tc(23, 2), 7);

    uint8_t line[11];
    wrote("exact room", line, sizeof line, tzq_write_label(tc(0, 2), dots(line, sizeof line), sizeof line, 0));
    wrote("no room", line, sizeof line, tzq_write_label(tc(0, 2), dots(line, sizeof line), sizeof line, 1));
    wrote("no wrap", line, sizeof line, tzq_write_label(tc(0, 2), dots(line, sizeof line), sizeof line, SIZE_MAX));

    sections(tc(-1800, 5));
    sections(tc(-1800, 0));
}

static void times(void) {
    counted("400000000 frames", tzq_with_frames(400000000, 2, false));
    counted("400000001 frames", tzq_with_frames(400000001, 2, false));
    counted("5292000000 ticks", tzq_with_premiere_ticks(5292000000, 2, false));
    counted("5291999999 ticks", tzq_with_premiere_ticks(5291999999, 2, false));
    counted("-5292000000 ticks", tzq_with_premiere_ticks(-5292000000, 2, false));
    counted("3600 seconds", tzq_with_seconds(3600, 1, 1, false));
    counted("1/0 seconds", tzq_with_seconds(1, 0, 1, false));
    ticks(tc(86400, 1));
    seconds(tc(86400, 1));
    seconds(tc(86400, 13));
    const uint64_t rates[] = {2, 12};
    convert(tc(1, 12), rates, 2);
    convert(tc(1, 12), rates, 0);
}

static void arithmetic(void) {
    counted("5 at 24 plus -1 at 48", tzq_add(tc(5, 2), tc(-1, 8)));
    counted("5 at 24 minus 1 at 48", tzq_sub(tc(5, 2), tc(1, 8)));
    ordered("1 at 24 beside 2 at 48", tzq_cmp(tc(1, 2), tc(2, 8)));
    ordered("-1 at 24 beside -1 at 48", tzq_cmp(tc(-1, 2), tc(-1, 8)));
    counted("5 times 1/2", tzq_mul(tc(5, 2), 1, 2));
    counted("-1 by 2", tzq_div(tc(-1, 2), 2));
    counted("-1 rem 2", tzq_rem(tc(-1, 2), 2));
    counted("-1 by 0", tzq_div(tc(-1, 2), 0));
    counted("-1 by 2/1", tzq_divq(tc(-1, 2), 2, 1));
    counted("-5 rem 3/2", tzq_remq(tc(-5, 2), 3, 2));
    counted("negated 7", tzq_neg(tc(7, 2)));
    counted("absolute -7", tzq_abs(tc(-7, 2)));
    counted("7 rebased", tzq_rebase(tc(7, 2), 12));
    counted("7 rebased to none", tzq_rebase(tc(7, 2), 13));
}

/* ---- positions; the table at the top of the header says what takes them ---- */

/* The day's last label at 29.97 drop, a frame later, and back: a length's hours run on past 23, a position's day begins again. The count and
 * kind of each answer are those of the next timecode; its rate is the one that was asked for. */
static void midnight(bool position) {
    static const char text[] = "23:59:59;29";
    tzq_read_count r = tzq_read((const uint8_t *)text, strlen(text), 5, position);
    reads(text, r);
    tzq_timecode last = {r.count, 5, r.position};
    tzq_count a = tzq_add(last, tc(1, 5));
    counted("a frame later", a);
    tzq_timecode later = {a.count, 5, a.position};
    label(later);
    a = tzq_sub(later, tc(1, 5));
    counted("and back", a);
    tzq_timecode back = {a.count, 5, a.position};
    label(back);
}

/* what is made a position is rounded, then held to a length's bounds, then reduced by whole days, negative ones too */
static void made(void) {
    counted("-1 frames", tzq_with_frames(-1, 5, true));
    counted("2589408 frames", tzq_with_frames(2589408, 5, true));
    counted("400000001 frames", tzq_with_frames(400000001, 5, true));
    counted("86401 seconds at 24", tzq_with_seconds(86401, 1, 2, true));
    counted("86400 seconds at 29.97 drop", tzq_with_seconds(86400, 1, 5, true)); /* count 2589411, three past the day's labels */
    counted("-5292000000 ticks", tzq_with_premiere_ticks(-5292000000, 2, true)); /* half a frame before midnight, rounded to -1 */
    read_runtime("-0.5", 2, true);
    read_position("129600+00", 2);
    read_footage("-0+01", 4, true);
}

/* a label is not reduced: it must be strict and have no sign, else 14, and then not be dropped, else 3 */
static void strict(void) {
    read_position("1:00", 5);
    read_position("23:60:00;00", 5);
    read_position("24:00:00;00", 5);
    read_position("-00:00:00;00", 5);
    read_position("00:01:00;01", 5);
    read_position("24:01:00;01", 5);
}

/* two timecodes of which one or both are positions; the difference of two is a length within one day, and not reduced */
static void kinds(void) {
    counted("1 at 24 plus position 48 at 48", tzq_add(tc(1, 2), pos(48, 8)));
    counted("position 0 at 24 minus 1 at 48", tzq_sub(pos(0, 2), tc(1, 8)));
    counted("00:00:00;00 minus 23:59:59;29", tzq_sub(pos(0, 5), pos(2589407, 5)));
    ordered("00:00:00;00 beside 23:59:59;29", tzq_cmp(pos(0, 5), pos(2589407, 5)));
    counted("position plus position", tzq_add(pos(1, 5), pos(1, 5)));
    counted("length minus position", tzq_sub(tc(1, 5), pos(1, 5)));
    ordered("length beside position", tzq_cmp(tc(1, 5), pos(1, 5)));
}

/* a position that is handed in lies in its rate's day, else 5; but 15 comes first */
static void in_its_day(void) {
    label(pos(2589408, 5));
    label(pos(-1, 5));
    counted("position past its day plus position", tzq_add(pos(2589408, 5), pos(1, 5)));
}

/* what else is told of a position, as of a length */
static void told(void) {
    sections(pos(1800, 5));
    footage(pos(21, 2), 2);
    runtime(pos(86400, 1), 6);
    ticks(pos(86400, 1));
    seconds(pos(86400, 1));
}

/* 15 for a position, and for its conversion through no rate at all too */
static void lengths_only(void) {
    const uint64_t rates[] = {12};
    counted("position times 1/2", tzq_mul(pos(5, 2), 1, 2));
    counted("position by 2", tzq_div(pos(5, 2), 2));
    counted("position rem 2", tzq_rem(pos(5, 2), 2));
    counted("position by 2/1", tzq_divq(pos(5, 2), 2, 1));
    counted("position rem 3/2", tzq_remq(pos(5, 2), 3, 2));
    counted("position negated", tzq_neg(pos(5, 2)));
    counted("position absolute", tzq_abs(pos(5, 2)));
    counted("position rebased", tzq_rebase(pos(5, 2), 12));
    convert(pos(5, 2), rates, 1);
    convert(pos(5, 2), rates, 0);
}

static void positions(void) {
    midnight(false);
    midnight(true);
    made();
    strict();
    kinds();
    in_its_day();
    told();
    lengths_only();
}

/* ---- why a text was turned down ---- */

/* what is told behind the number: an accepted text's count, a field with its limit and its value, or the first allowed label */
static void fact(tzq_reason r) {
    if (r.number == 0)
        printf(", %s%" PRId64 " in film format %" PRIu64, r.position ? "position " : "", r.count, r.format);
    if (r.field)
        printf(", field %" PRIu64 ": limit %" PRId64 ", value %" PRId64, r.field, r.limit, r.value);
    if (r.number == TZQ_DROPPED_LABEL)
        printf(", first %s%02" PRIu64 ":%02" PRIu64 ":%02" PRIu64 ";%02" PRIu64, r.negative ? "-" : "", r.hours, r.minutes, r.seconds, r.frames);
}

/* the phrase as it stands in the line, between two dots, and as the table has it */
static void why_in(const char *text, bool stated, uint64_t format, uint64_t rate, bool position, size_t room) {
    uint8_t line[52];
    tzq_reason r = tzq_why((const uint8_t *)text, strlen(text), stated, format, rate, position, dots(line, sizeof line), room, 1);
    if (r.refused) {
        printf("why %s: refused %" PRIu64 ", [%.*s] %s\n", text, r.refused, (int)room, (const char *)line, tzq_phrases[r.refused]);
        return;
    }
    printf("why %s: %" PRIu64 " at %zu", text, r.number, r.place);
    fact(r);
    printf(", [%.*s] %s\n", (int)r.length + 2, (const char *)line, tzq_phrases[r.number]);
}

static void why(const char *text, uint64_t rate, bool position) {
    why_in(text, false, 9, rate, position, 52); /* no film format is stated: 9 does not count */
}

static void why_as(const char *text, uint64_t format) {
    why_in(text, true, format, 2, false, 52);
}

static void reasons(void) {
    why("23:59:59;29", 5, true);
    why("-0:05", 2, false);
    why("1+00.1", 2, false);
    why_as("2+00", 4);
    why("00:01:00;0x", 5, false);
    why("-0000000001:00", 2, false);
    why("00:01:00;00", 5, true);
    why("-1:61:00;03", 11, false);
    why_as("2+00.0", 4);
    why("400000001", 2, false);
    why("-25000000+01", 2, true);
    why("1:00", 13, false);
    why_as("2+00", 5);
    why("0+20", 2, false);
    why("1+00.2", 2, false);
    why("-24:60:60;30", 5, true);
    why("24:60:60;30", 5, true);
    why("23:60:60;30", 5, true);
    why("23:59:60;30", 5, true);
    why("23:59:59;30", 5, true);
    why_in("1", false, 0, 2, false, 9);
    why_in("1", false, 0, 2, false, 8); /* one byte short: 8, and nothing is written */
}

static void tables(void) {
    for (uint64_t no = 0; no <= 13; no++) {
        tzq_rate_row r = tzq_rate(no);
        printf("rate %" PRIu64 ": %" PRIu64 " %" PRIu64 "/%" PRIu64 " %" PRIu64 " %" PRIu64 " drops %" PRIu64 "\n", no, r.refused,
               r.numerator, r.denominator, r.timebase, r.ticks, tzq_drop_frames_per_minute(no));
    }
    for (uint64_t no = 1; no <= 5; no++) {
        tzq_format_facts f = tzq_format(no);
        printf("format %" PRIu64 ": %" PRIu64 " %" PRIu64 " %" PRIu64 " %d\n", no, f.refused, f.perfs_per_frame, f.perfs_per_foot,
               f.perf_field);
    }
    counted("minute 1", tzq_minute_start(1));
    counted("minute 2", tzq_minute_start(2));
    counted("minute 1439", tzq_minute_start(1439));
    counted("minute 1440", tzq_minute_start(1440));
}

/* a list record by record, as a loader walks it */
static void walk(const uint8_t *list, size_t length) {
    size_t at = 0;
    tzq_record r = tzq_record_at(list, length, at, 0);
    for (; r.kind; r = tzq_record_at(list, length, at += r.size, r.held)) {
        if (r.kind == 1)
            printf(" rate %" PRIu64, r.rate);
        else if (r.kind == 2)
            printf(" shot %" PRId64 " %" PRId64 " at rate %" PRIu64, r.first, r.end, r.held);
        else
            printf(" reel %" PRIu64, r.reel);
    }
    if (r.refused)
        printf(" refused %" PRIu64 " at byte %zu\n", r.refused, at);
    else
        printf(" end at byte %zu\n", at);
}

static void check(const uint8_t *list, size_t length) {
    tzq_checked c = tzq_check_list(list, length);
    printf("list of %zu bytes: %" PRIu64 " %zu:", length, c.refused, c.records);
    walk(list, length);
}

static void write_list(const int64_t *numbers, size_t count, size_t room, size_t place) {
    uint8_t line[32];
    tzq_length a = tzq_write_list(numbers, count, dots(line, sizeof line), room, place);
    printf("write: %" PRIu64 " %zu ", a.refused, a.length);
    for (size_t i = 0; i < room; i++)
        printf("%02x", line[i]);
    printf("\n");
}

/* README's list: reel 7, rate 5, a shot of 110 frames, an empty one */
static void lists(void) {
    static const uint8_t list[] = {3, 7, 0, 0, 0, 1, 5, 2, 0xf6, 0xff, 0xff, 0xff, 100, 0, 0, 0, 2, 100, 0, 0, 0, 100, 0, 0, 0};
    check(list, sizeof list);
    check(list, 0);
    check(list, 20);     /* a body cut short: 10 */
    check(list + 7, 9);  /* a shot before any rate: 11 */
    static const uint8_t unknown[] = {1, 5, 4};
    check(unknown, sizeof unknown);
    static const int64_t records[] = {3, 7, 1, 5, 2, -10, 100, 2, 100, 100};
    write_list(records, 10, 32, 2);
    write_list(records, 10, 27, 2);
    write_list(records, 10, 26, 2); /* one byte short: 8, and nothing is written */
    write_list(records, 9, 32, 0);  /* the last shot's end is missing: 10 */
    static const int64_t wrong[] = {1, 300, 2, 5, 4};
    write_list(wrong, 5, 8, 0);
    write_list(wrong + 2, 3, 8, 0);
    static const int64_t backward[] = {1, 2, 2, 5, 4};
    write_list(backward, 5, 8, 0);
    static const int64_t reel[] = {3, 4294967296};
    write_list(reel, 2, 8, 0);
}

static void route(const uint64_t *firsts, const uint64_t *ends, size_t shards, int64_t length, const char *label) {
    tzq_shards a = tzq_route(5, firsts, shards, ends, shards, length, (const uint8_t *)label, strlen(label));
    printf("route %" PRId64 " %s: %" PRIu64 " %zu %zu %zu\n", length, label, a.refused, a.place, a.first, a.after);
}

/* three shards: the first two touch at frame 1800, from 3598 up to 5000 is a gap */
static void routes(void) {
    static const uint64_t firsts[] = {0, 1800, 5000}, ends[] = {1800, 3598, 6000};
    route(firsts, ends, 3, 1, "00:00:59;29");
    route(firsts, ends, 3, 2, "00:00:59;29"); /* one frame more: the next shard too */
    route(firsts, ends, 3, 0, "00:00:59;29");
    route(firsts, ends, 3, 1402, "00:02:00;02"); /* the gap, up to where shard 2 begins */
    route(firsts, ends, 3, 1403, "00:02:00;02");
    route(firsts, ends, 3, 6000, "00:00:00;00");
    route(firsts, ends, 3, 1, "23:59:59;29"); /* ends with the day */
    route(firsts, ends, 3, 2, "23:59:59;29"); /* past it: 17 */
    route(firsts, ends, 3, -1, "00:00:00;00");
    route(firsts, ends, 3, -1, "00:01:00;00"); /* the label comes before the length: 3 */
    route(firsts, ends, 3, 1, "1+00"); /* a footage: 1, at byte 1 */
    route(firsts, ends, 3, 1, "24:00:00;00");
    route(ends, firsts, 3, 1, "x"); /* ends before firsts: 16 */
    route(firsts, ends, 0, 1, "00:00:00;00"); /* no shard at all */
    tzq_shards a = tzq_route(5, firsts, 3, ends, 2, 1, (const uint8_t *)"0", 1);
    printf("a first without an end: %" PRIu64 "\n", a.refused);
    a = tzq_route(13, firsts, 3, ends, 2, 1, (const uint8_t *)"x", 1);
    printf("no such rate: %" PRIu64 "\n", a.refused);
}

int main(void) {
    texts();
    times();
    arithmetic();
    positions();
    reasons();
    tables();
    lists();
    routes();
    return 0;
}
