/* Tzaquedda for C: timecode, feet and frames, runtimes, ticks and seconds as frame counts at twelve rates, shot lists, and the router.
 *
 * Link with the static library that `bin/prove --library exports` makes (target/staticlib/libexports.a, x86-64 Linux):
 *
 *     cc -I include your.c target/staticlib/libexports.a
 *
 * examples/c/demo.c calls every function once or more; bin/c-demo builds and runs it. docs/BEHAVIOUR.md has the rules, worked cases and
 * all limits.
 *
 * Every function is total: it answers for all arguments, keeps nothing between calls, allocates nothing, and may be called from any
 * number of threads at once. A pointer must not be null and must point at as many elements as the length behind it says (a pointer to
 * anything will do where that is 0); a line that is written must not overlap anything else that is passed. Structs may grow and functions
 * take more from version to version, under the same names: what is linked with the library is compiled with the header of the same
 * version, all of it anew.
 *
 * Each answer begins with `refused`: 0, or one of the numbers below, and then every other number of the answer is 0 (but the place in the
 * text that tzq_read, tzq_read_as and tzq_route answer with 1 and 2), `position` false, a fraction 0/1, and no byte of the line has changed. Of
 * several refusals the first is given in the order 6, 15, 5 (of an input), 7, 1, 2, 4, 13 (of a footage) or 14 (of a label), 3, 5 (of the
 * resulting count), 8; of a shot list the earliest record at fault decides, and for a record the order is 9, 10, 6, 5, 11, 12; where a
 * list is written, 8 comes last; of the router the order is 6, 16, the label's own (1, 2, 14, 3), 5 (of the length), 17.
 *
 * ---- Lengths and positions ----
 *
 * A timecode is a length, or a position: a time of day, where `23:59:59;29` is followed by `00:00:00;00`. A length's count goes from
 * -400,000,000 to 400,000,000. A position's goes from 0 up to its rate's day, which is not included: 24 hours of the timebase, less the
 * dropped labels, 86400 x timebase - 1296 x tzq_drop_frames_per_minute(rate) (2,589,408 at rate 5, 5,178,816 at rate 11); another count
 * handed in is refused 5. What is made a position is rounded first, then held to a length's bounds (5), then reduced by whole days,
 * negative ones too. Which operations take what:
 *
 *     operation                                                        takes                   answers
 *     tzq_with_frames, tzq_with_premiere_ticks, tzq_with_seconds,      position true or false  a position or a length, as asked
 *       tzq_read, tzq_read_as, tzq_read_runtime, tzq_why
 *     tzq_write_label, tzq_write_footage, tzq_write_runtime,           either                  a text, fields, ticks, seconds
 *       tzq_sections, tzq_premiere_ticks, tzq_seconds
 *     tzq_add                                                          length, length          a length
 *                                                                      position, length        a position at the left one's rate
 *                                                                      length, position        a position at the left one's rate
 *                                                                      position, position      refused 15
 *     tzq_sub                                                          length, length          a length
 *                                                                      position, length        a position at the left one's rate
 *                                                                      position, position      a length, perhaps negative, not reduced
 *                                                                      length, position        refused 15
 *     tzq_cmp                                                          two of one kind         the order of their instants
 *                                                                      one of each             refused 15
 *     tzq_mul, tzq_div, tzq_rem, tzq_divq, tzq_remq, tzq_neg, tzq_abs, length                  a length
 *       tzq_rebase, tzq_convert                                        position                refused 15
 */
#ifndef TZAQUEDDA_H
#define TZAQUEDDA_H

#include <stdbool.h>
#include <stddef.h>
#include <stdint.h>

#ifdef __cplusplus
extern "C" {
#endif

/* ---- Refusals ---- */

enum {
    TZQ_NO_SHAPE = 1,      /* the text has no shape */
    TZQ_TOO_LONG = 2,      /* the shape fits, but a field has over 9 digits or a fraction over 6 */
    TZQ_DROPPED_LABEL = 3, /* a dropped label at rate 5 or 11 */
    TZQ_NO_PERF_FIELD = 4, /* a perf field with a stated format that has none */
    TZQ_OUT_OF_BOUNDS = 5, /* an input number or the resulting count is outside its bounds */
    TZQ_NO_SUCH = 6,       /* no such rate (1 to 12) or film format (1 to 4) */
    TZQ_ZERO_DIVISOR = 7,  /* the divisor is zero */
    TZQ_NO_ROOM = 8,       /* place plus the length of what is written exceeds the line's length */
    TZQ_NO_SUCH_KIND = 9,  /* a record of a shot list has no such kind (1 to 3) */
    TZQ_CUT_SHORT = 10,    /* the body of a record is cut short */
    TZQ_NO_RATE_YET = 11,  /* a shot before any rate */
    TZQ_END_BEFORE_FIRST = 12, /* a shot's end before its first frame */
    TZQ_NOT_ON_FILM = 13,  /* a footage's frames number does not occur in that foot, or its perf field, if any, is not feet modulo 3 */
    TZQ_NOT_STRICT = 14,   /* a label of a position that is not strict or has a sign */
    TZQ_WRONG_KIND = 15,   /* a position where only a length may be, or one of each compared: see the table above */
    TZQ_BROKEN_DIRECTORY = 16, /* a directory of shards that breaks a rule */
    TZQ_PAST_DAY = 17      /* a query that ends past the day */
};

/* The phrase of each refusal by its number, 0 being nothing refused: what tzq_why lays down. Plain ASCII, none longer than 128 bytes; each
 * ends with a 0, which is not laid down. */
static const char *const tzq_phrases[18] = {
    "accepted",
    "not in a form that can be read",
    "a number has too many digits",
    "a dropped label, which no frame has",
    "a perf field, which this film format does not have",
    "the count of frames is out of bounds",
    "no such rate or film format",
    "a division by zero",
    "no room for what is to be written",
    "no such kind of record",
    "a record is cut short",
    "a shot before any rate",
    "a shot ends before it begins",
    "no such place on the film",
    "not a time of day",
    "a position where only a length may be",
    "a directory that breaks its rules",
    "a query that ends past the day"
};

/* ---- Numbers that are passed and answered ---- */

/* The most that a length's count may be, either side of zero. */
#define TZQ_MOST 400000000

/* Room enough for any label (14 bytes at most), footage (14) or runtime (18). */
#define TZQ_ROOM 18

/* Rates 1 to 12: 23.98, 24, 25, 29.97, 29.97 drop, 30, 47.95, 48, 50, 59.94, 59.94 drop, 60.
 * Film formats 1 to 4: 4-perf, 3-perf, 2-perf on 35 mm; 16 mm. */

/* A timecode: a count, a rate, and whether it is a position (false: a length). Set all three, or initialize: `{.count = 1, .rate = 5}` is a
 * length. Nothing is assumed of the two numbers: what takes a timecode refuses a rate that is none (6), then a position where none may be (15), then a count out of its
 * bounds (5). `position` is a bool of C, true or false and nothing else. */
typedef struct { int64_t count; uint64_t rate; bool position; } tzq_timecode;

/* The count of a timecode, and whether it is a position; of tzq_minute_start a count, position false. */
typedef struct { uint64_t refused; int64_t count; bool position; } tzq_count;
typedef struct { uint64_t refused; int64_t count; uint64_t format; size_t place; bool position; } tzq_read_count; /* format 0: a label; 1 to 4: a footage's */
typedef struct { uint64_t refused; int64_t order; } tzq_order; /* -1, 0 or 1 */
typedef struct { uint64_t refused; int64_t ticks; } tzq_ticks;
typedef struct { uint64_t refused; int64_t numerator; uint64_t denominator; } tzq_fraction;
typedef struct { uint64_t refused; int64_t count; uint64_t rate; } tzq_converted;
typedef struct { uint64_t refused; size_t length; } tzq_length;
typedef struct { uint64_t refused; size_t place; size_t first; size_t after; } tzq_shards; /* shards first to after - 1 are asked */

typedef struct {
    uint64_t refused;
    bool negative;
    uint64_t hours, minutes, seconds, frames; /* minutes and seconds under 60, frames under the timebase; a length's hours run on past 23 */
} tzq_label;

/* What a limit and a value speak of. */
enum {
    TZQ_FIELD_NONE = 0,
    TZQ_FIELD_COUNT = 1,
    TZQ_FIELD_SIGN = 2,
    TZQ_FIELD_HOURS = 3,
    TZQ_FIELD_MINUTES = 4,
    TZQ_FIELD_SECONDS = 5,
    TZQ_FIELD_FRAMES = 6,
    TZQ_FIELD_MARKER = 7
};

/* Why a text is read as it is: what tzq_read or tzq_read_as answers, its refusal as `number`, and the fact behind that. */
typedef struct {
    uint64_t refused;       /* of the tool itself: 8 or 0 */
    uint64_t number;        /* 0: accepted; else the reader's refusal */
    size_t place;           /* the reader's */
    int64_t count;          /* of an accepted text; else 0 */
    uint64_t format;        /* of an accepted footage, 1 to 4; else 0 */
    bool position;          /* of an accepted text that is one */
    uint64_t field;         /* 5, 13 and 14: what is at fault, a TZQ_FIELD_ number; else 0 */
    int64_t limit, value;   /* 5, 13 and 14: the nearest value that is allowed there, and the value; of a sign both are 0; else 0 */
    bool negative;          /* 3: the first allowed label of that minute, its minutes and seconds under 60; else 0 */
    uint64_t hours, minutes, seconds, frames;
    size_t length;          /* of the phrase */
} tzq_reason;

typedef struct {
    uint64_t refused;
    uint64_t numerator, denominator; /* frames a second, in lowest terms */
    uint64_t timebase;               /* frames a second of the labels */
    uint64_t ticks;                  /* ticks a frame; a second has 254016000000 */
} tzq_rate_row;

typedef struct {
    uint64_t refused;
    uint64_t perfs_per_frame, perfs_per_foot;
    bool perf_field; /* whether a footage of this format may have a perf field */
} tzq_format_facts;

/* A record of a shot list: kind 1 a rate, 2 a shot, 3 a reel, with its own numbers by name, the rate that is held behind it, and how many
 * bytes it has. Kind 0 with refused 0: the list is over. Numbers of another kind are 0. */
typedef struct {
    uint64_t refused;
    uint64_t kind;
    uint64_t rate;      /* kind 1: the rate, 1 to 12 */
    int64_t first, end; /* kind 2: first frame and end frame, the end not included */
    uint64_t reel;      /* kind 3: the reel, 0 to 4294967295 */
    uint64_t held;      /* the rate that is held behind the record: its own, or what was given */
    size_t size;        /* the next record begins so many bytes on */
} tzq_record;

typedef struct { uint64_t refused; size_t records; } tzq_checked;

/* ---- Reading ---- */

/* What the `length` bytes of text read as at a rate, a position or else a length, with no film format stated.
 * A label: optional `-`, one to four fields of digits divided by `:` or `;`, the last is frames, then leftward seconds, minutes, hours.
 * A footage: optional `-`, feet, `+`, frames, optionally `.` and a perf field; with a perf field it is 3-perf, without 4-perf.
 * The whole text counts, nothing around it. Refuses 6: no such rate; 1, 2; 13: a footage that cannot be on the film; 14, 3, 5.
 * The label of a position must be strict (hours under 24, minutes and seconds under 60, frames under the timebase; fields left out are 0)
 * and have no sign, not even `-0`: else 14. A footage gets no 14: its count is reduced by whole days.
 * The frames of a foot are numbered from 0: 4-perf has 16 a foot, 2-perf 32, 16 mm 20, and 3-perf 22 where feet modulo 3 is 2, else 21. A
 * frames number that the foot has not, or a perf field that is not feet modulo 3 by value, is refused 13, whatever the sign.
 * `place` is the byte of the text, from 0, where it went wrong. Refused 1: the length of the longest beginning of the text that also
 * begins some label or footage, so text[place], if the text goes that far, is the byte that none has there. Refused 2: the first digit
 * of the first field that is too long. Else 0. */
tzq_read_count tzq_read(const uint8_t *text, size_t length, uint64_t rate, bool position);

/* The same with a stated film format, 1 to 4: then only a footage is taken, and the place of 1 is that of footages alone.
 * Refuses 6: no such rate or film format; 1, 2; 4: a perf field with a format other than 3-perf; 13, 5. 3-perf may leave the field out. */
tzq_read_count tzq_read_as(const uint8_t *text, size_t length, uint64_t format, uint64_t rate, bool position);

/* The frame nearest to the time that a runtime gives, halves away from zero, as a position or else a length.
 * A runtime: optional `-`, one to three fields divided by `:`, optionally `.` and a fraction; the last field is seconds, then leftward
 * minutes, hours. Refuses 6: no such rate; 1; 2: a field of over 9 digits or a fraction of over 6; 5: the resulting count. */
tzq_count tzq_read_runtime(const uint8_t *text, size_t length, uint64_t rate, bool position);

/* Why a text of `text_length` bytes is read as it is: the very number and place that tzq_read would give, or where `stated` is true and
 * `format` is the stated film format, tzq_read_as (`format` does not count where `stated` is false); the fact behind it, and the phrase of the
 * number, tzq_phrases[number], laid down in the line from `place` on, with nothing to end it.
 * The fact: for 5 the count; for 13 the frames number, or else the marker; for 14 a sign, or else the leftmost field that no time of day has;
 * for 3 the first allowed label of the text's minute, minutes past 59 carried into hours, the text's sign kept. An accepted text has number 0
 * and its count.
 * Refuses 8 alone: place plus the phrase's length exceeds `line_length`; room for 50 bytes is enough for any. Then every other number is 0. */
tzq_reason tzq_why(const uint8_t *text, size_t text_length, bool stated, uint64_t format, uint64_t rate, bool position,
                   uint8_t *line, size_t line_length, size_t place);

/* ---- Writing: each text is laid down in the line from `place` on; only its own bytes change, and nothing ends it ---- */

/* The label of a timecode: `-` for counts below 0, two digits at least for each field, `:` throughout but `;` before frames at rates
 * 5 and 11. The fields are those of the one allowed label whose count is the absolute count.
 * Answers the text's length. Refuses 6, 5, and 8: place plus text length exceeds `length`. */
tzq_length tzq_write_label(tzq_timecode tc, uint8_t *line, size_t length, size_t place);

/* The footage of a timecode in a film format: `-` for counts below 0, feet unpadded, `+`, frames of two digits at least; 3-perf adds
 * `.` and feet modulo 3. The rate is not used, but must be one.
 * Answers the text's length. Refuses 6: no such rate or film format; 5; 8. */
tzq_length tzq_write_footage(tzq_timecode tc, uint64_t format, uint8_t *line, size_t length, size_t place);

/* The runtime of a timecode: the absolute time rounded to `precision` decimals (0 to 6), halves away from zero, carried into seconds,
 * minutes and hours of two digits at least, trailing zeros dropped but one digit kept; `-` for counts below 0.
 * Answers the text's length. Refuses 6; 5: the count or the precision is out of bounds; 8. */
tzq_length tzq_write_runtime(tzq_timecode tc, uint64_t precision, uint8_t *line, size_t length, size_t place);

/* The fields of the label that tzq_write_label writes. Refuses 6, 5. */
tzq_label tzq_sections(tzq_timecode tc);

/* ---- Counts, ticks and seconds ---- */

/* A count at a rate, as a length the count itself, as a position reduced by whole days. Refuses 6: no such rate; 5: the count is out of a
 * length's bounds. */
tzq_count tzq_with_frames(int64_t count, uint64_t rate, bool position);

/* The frame nearest to a number of ticks, halves away from zero, as a position or else a length; any number of ticks is taken.
 * Refuses 6: no such rate; 5: the resulting count is out of bounds. */
tzq_count tzq_with_premiere_ticks(int64_t ticks, uint64_t rate, bool position);

/* The frame nearest to p/q seconds, halves away from zero, as a position or else a length: |p| at most 10^12, q from 1 to 1,000,000.
 * Refuses 6: no such rate; 5: p or q, or then the resulting count, is out of bounds. */
tzq_count tzq_with_seconds(int64_t p, uint64_t q, uint64_t rate, bool position);

/* The ticks of a timecode, exactly: count times the rate's ticks a frame. Refuses 6, 5. */
tzq_ticks tzq_premiere_ticks(tzq_timecode tc);

/* The seconds of a timecode, exactly: a fraction in lowest terms, its denominator above 0. Refuses 6, 5. */
tzq_fraction tzq_seconds(tzq_timecode tc);

/* The timecode's instant through a list of `length` rates, the nearest frame taken at each in turn, halves away from zero; an empty
 * list gives back the start. For lengths only. Refuses 6: its own rate or any listed number is no rate; 15: a position, whatever the list;
 * 5: its own count, or that after any step. */
tzq_converted tzq_convert(tzq_timecode tc, const uint64_t *rates, size_t length);

/* ---- Arithmetic: what stands behind tzq_cmp is for lengths only, and refuses a position 15, behind 6 and before 5 ---- */

/* The sum and the difference of two timecodes: the exact instant, rounded once at a's rate, halves away from zero; what is a position (see
 * the table above) is then reduced by whole days. Refuses 6: either rate; 15; 5: either count, or then the resulting count, before it is
 * reduced. */
tzq_count tzq_add(tzq_timecode a, tzq_timecode b);
tzq_count tzq_sub(tzq_timecode a, tzq_timecode b);

/* How two timecodes of one kind compare, by instant: -1, 0 or 1. Refuses 6: either rate; 15: a position and a length; 5: either count. */
tzq_order tzq_cmp(tzq_timecode a, tzq_timecode b);

/* The product with p/q, rounded, halves away from zero: |p| at most 1,000,000, q from 1 to 1,000,000; a whole factor is p/1.
 * Refuses 6; 15: a position; 5: the count, p or q, or then the resulting count. */
tzq_count tzq_mul(tzq_timecode tc, int64_t p, uint64_t q);

/* The quotient by a whole number, truncated, and its remainder, which takes the dividend's sign; any divisor is taken but 0.
 * Refuses 6; 15: a position; 5: the count; 7: n is 0. */
tzq_count tzq_div(tzq_timecode tc, int64_t n);
tzq_count tzq_rem(tzq_timecode tc, int64_t n);

/* The quotient by p/q, floored, and the remainder (count x q rem p)/q, with the dividend's sign, rounded: |p| at most 1,000,000,
 * q from 1 to 1,000,000. Refuses 6; 15: a position; 5: the count, p or q; 7: p is 0; 5: the resulting count. */
tzq_count tzq_divq(tzq_timecode tc, int64_t p, uint64_t q);
tzq_count tzq_remq(tzq_timecode tc, int64_t p, uint64_t q);

/* The negated count, and the absolute count. Refuses 6; 15: a position; 5. */
tzq_count tzq_neg(tzq_timecode tc);
tzq_count tzq_abs(tzq_timecode tc);

/* The same count, taken at another rate. Refuses 6: either rate; 15: a position; 5: the count. */
tzq_count tzq_rebase(tzq_timecode tc, uint64_t rate);

/* ---- Shot lists: records one after the other, each a byte of kind and a body whose length the kind fixes ----
 *
 *     kind 1, a rate:  1 byte
 *     kind 2, a shot:  8 bytes, first frame and end frame, each signed 32-bit, low byte first; the end is not included
 *     kind 3, a reel:  4 bytes, unsigned 32-bit, low byte first
 *
 * A rate holds until the next one. Equal first and end is an empty shot, no byte at all an empty list; both are allowed. */

/* The record at byte `at` of a list, given the rate held: 0 before the first record, then what the record before it answered (any number
 * that is no rate counts as none). At or past the list's end: kind 0. To walk a list:
 *     for (r = tzq_record_at(list, length, at = 0, 0); r.kind; r = tzq_record_at(list, length, at += r.size, r.held)) ..
 * after which r.refused says whether the walk came to the end (0) or to a record at fault.
 * Refuses 9, 10, 6, 5, 11, 12. */
tzq_record tzq_record_at(const uint8_t *list, size_t length, size_t at, uint64_t held);

/* How many records a list has, all of them tested, in time proportional to its length.
 * Refuses what its earliest record at fault is refused: 9, 10, 6, 5, 11, 12; never 8. */
tzq_checked tzq_check_list(const uint8_t *list, size_t length);

/* Writes a list from `place` on. It is handed over in `count` numbers: for each record its kind and then its own numbers, 1 RATE, 2 FIRST
 * END or 3 REEL. The whole list is tested before a byte is written. Answers how many bytes it has.
 * Refuses what the earliest record at fault is refused, 9 (any other kind), 10 (its numbers are cut short), 6, 5 (a frame past
 * 400,000,000 either side of zero, a reel that is no unsigned 32-bit number), 11, 12; then 8: place plus the list's length exceeds
 * `length`. */
tzq_length tzq_write_list(const int64_t *numbers, size_t count, uint8_t *line, size_t length, size_t place);

/* ---- The router: which shards of a reel a query must ask ----
 *
 * A directory is up to 256 shards of one reel at one rate, none at all too: shard i has the frames of the day from firsts[i] up to ends[i],
 * which is not one of them. Its rules: as many firsts as ends; none empty; in rising order without overlap (they may touch, and gaps are
 * allowed); none ends past the day. A query is the label of a position, where it starts, and a length in frames. */

/* The first shard that must be asked and the one after the last, both 0 where there is none: a shard is among them exactly when some frame
 * lies both in it and in the query. A query of length 0 asks none, and one that ends where a shard begins does not ask that shard. The time
 * is that of testing the directory, in proportion to its shards, and of finding them by halving.
 * Refuses 6: no such rate; 16: the directory breaks a rule; 1, 2 (each with its place in the label), 14 or 3: the label's own, where a
 * footage has no shape; 5: a length outside 0 to 400,000,000; 17: start plus length is beyond the day (a query may end with the day, and
 * never goes on into the next). */
tzq_shards tzq_route(uint64_t rate, const uint64_t *firsts, size_t firsts_length, const uint64_t *ends, size_t ends_length,
                     int64_t length, const uint8_t *label, size_t label_length);

/* ---- The constant tables ---- */

/* The row of a rate. Refuses 6: no such rate. */
tzq_rate_row tzq_rate(uint64_t rate);

/* How many labels a minute drops, but each tenth: 2 at rate 5, 4 at rate 11, and 0 for every other number. */
uint64_t tzq_drop_frames_per_minute(uint64_t rate);

/* What is known of a film format. Refuses 6: no such film format. */
tzq_format_facts tzq_format(uint64_t format);

/* The first frame number of a minute of a 29.97 drop day, 0 to 1439. Refuses 5: any other minute. */
tzq_count tzq_minute_start(uint64_t minute);

#ifdef __cplusplus
}
#endif

#endif
