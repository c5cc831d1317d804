#!/usr/bin/env python3
"""Holds positions to a walk around the day, label by label, which knows no formula.

`python3 compare/positions.py full|quick ASK ..` asks our program (`ask`'s commands) and compares whole answers; compare/all.sh calls it.
The walk is that of days.py; makers.py makes positions in every way that there is, and marks.py puts the mark before everything. Here are every
label of the day, what lies around midnight, sums, differences and comparisons of all kinds of timecodes, and what is done
with one position. The last line is 'positions: N judged, 0 wrong'.
"""

import sys
from itertools import product
from random import Random

import all as comparison
import footages
import forms
import makers
import marks
from days import BOUND, DAYS, RATES, TICKS_A_SECOND, length_made, nearest, position_made
from makers import LARGEST, SMALLEST

# -- Every label of the day, and what lies around midnight --


def written(rate, count, label):
    """A label written in a line that has room for it."""
    place = count % 7
    room = place + 11 + count % 4
    return b"label @%d %d %d %d" % (rate, count, place, room), forms.laid(label, place, room)


def read_and_written(rate, counts):
    for count in counts:
        label = DAYS[rate].label(count)
        yield b"read @%d %s" % (rate, label), b"label @%d" % count
        yield written(rate, count, label)


def whole_day(rate, first, last):
    """Every label from one count to before another."""
    return read_and_written(rate, range(first, last))


def parts_of_day(rate, minutes, step):
    """The last labels and the first around every so many minutes, and every so many between."""
    day = DAYS[rate]
    around = {first + few for first in (*day.firsts[::minutes], day.length) for few in range(-3, 7)}
    return read_and_written(rate, sorted(around.union(range(0, day.length, step)).intersection(range(day.length))))


def starts(day):
    """Positions around midnight, and some others."""
    return [*range(5), *range(day.last - 4, day.length), day.firsts[1], day.firsts[10] - 1, day.firsts[720]]


def midnight(rate, farthest):
    """A few frames on or back, and whole days beside, three at most: the walk of the few frames tells where that is."""
    day = DAYS[rate]
    for start, few in product(starts(day), range(-farthest, farthest + 1)):
        there = b"@%d" % day.stepped(start, few)
        for days in range(-3, 4):
            length = days * day.length + few
            yield b"add @%d %d %d %d" % (rate, start, rate, length), there
            yield b"add %d %d @%d %d" % (rate, length, rate, start), there
            yield b"sub @%d %d %d %d" % (rate, start, rate, -length), there
            yield b"count @%d %d" % (rate, start + length), there


# -- Two timecodes, each as mark, rate and count --

# the kinds that are taken, left and right, and the kind of the answer
KINDS = {
    b"add": {(b"", b""): b"", (b"@", b""): b"@", (b"", b"@"): b"@"},
    b"sub": {(b"", b""): b"", (b"@", b""): b"@", (b"@", b"@"): b""},
    b"cmp": {(b"", b""): b"", (b"@", b"@"): b""},
}


def is_within(mark, rate, count):
    """Whether a count is within its bounds."""
    return 0 <= count <= DAYS[rate].last if mark else -BOUND <= count <= BOUND


def of_two(word, left, right):
    """The answer to two timecodes: 6, then 15, then 5, then the exact time, rounded at the left one's rate."""
    (mark, rate, count), (mark2, rate2, count2) = left, right
    if rate not in RATES or rate2 not in RATES:
        return b"refused 6"
    if (mark, mark2) not in KINDS[word]:
        return b"refused 15"
    if not is_within(*left) or not is_within(*right):
        return b"refused 5"
    a_second = RATES[rate][0]
    seconds, seconds2 = count / a_second, count2 / RATES[rate2][0]
    if word == b"cmp":
        return b"-1" if seconds < seconds2 else b"1" if seconds > seconds2 else b"0"
    exact = (seconds + seconds2 if word == b"add" else seconds - seconds2) * a_second
    return position_made(rate, exact) if KINDS[word][mark, mark2] else length_made(exact)


def two_asked(word, left, right):
    return b"%s %s%d %d %s%d %d" % (word, *left, *right), of_two(word, left, right)


def edges(mark, rate):
    """Counts of a kind, all within its bounds."""
    last = DAYS[rate].last
    if mark:
        return [0, 1, 2, last // 2, last - 1, last]
    return [0, 1, -1, 2, -3, last, last + 1, -last - 1, last + 2, -last - 2, 2 * last + 3, BOUND, -BOUND]


def two_rates(rate, rate2):
    """All kinds at two rates, with counts at the day's ends and at the bounds."""
    for word, mark, mark2 in product(KINDS, (b"", b"@"), (b"", b"@")):
        for count, count2 in product(edges(mark, rate), edges(mark2, rate2)):
            yield two_asked(word, (mark, rate, count), (mark2, rate2, count2))


COUNTS = [0, 1, -1, 2_589_407, 2_589_408, 5_178_815, 5_178_816, 5_184_000, 9_999_999, BOUND, BOUND + 1, -BOUND, -BOUND - 1, LARGEST, SMALLEST]


def every_kind(word, rates):
    """All kinds with good and bad rates, and good and bad counts."""
    for mark, mark2, rate, rate2 in product((b"", b"@"), (b"", b"@"), rates, rates):
        for count, count2 in product(COUNTS, repeat=2):
            yield two_asked(word, (mark, rate, count), (mark2, rate2, count2))


def round_trips(rate, seed, many):
    """Any two positions of one rate: from the one to the other and back, and which is first."""
    random, last = Random(1000 * rate + seed), DAYS[rate].last
    for _ in range(many):
        p, q = random.randint(0, last), random.choice([0, last, random.randint(0, last), random.randint(0, last)])
        yield b"sub @%d %d @%d %d" % (rate, p, rate, q), b"%d" % (p - q)
        yield b"add @%d %d %d %d" % (rate, q, rate, p - q), b"@%d" % p
        yield b"add %d %d @%d %d" % (rate, p - q, rate, q), b"@%d" % p
        yield b"sub @%d %d %d %d" % (rate, p, rate, p - q), b"@%d" % q
        yield b"cmp @%d %d @%d %d" % (rate, p, rate, q), b"-1" if p < q else b"1" if p > q else b"0"


def random_timecode(random):
    mark, rate = random.choice([b"", b"@", b"@"]), random.choice([*RATES])
    last = DAYS[rate].last
    if mark:
        return mark, rate, random.choice([0, last, random.randint(0, last), random.randint(0, last), random.randint(-5, last + 5)])
    return mark, rate, random.randint(-BOUND, BOUND) >> random.randint(0, 28)


def random_pairs(seed, many):
    random = Random(seed)
    for _ in range(many):
        yield two_asked(random.choice([*KINDS]), random_timecode(random), random_timecode(random))


# -- One timecode --


def given(rate):
    """Counts on both sides of a position's bounds, and between them."""
    last = DAYS[rate].last
    return [0, 1, 2, last // 3, last // 2, last - 1, last, last + 1, last + 2, -1, -2, -last, BOUND, -BOUND, BOUND + 1, LARGEST, SMALLEST]


def footage_of(form, count):
    """The footage at which the walk along the film meets a frame."""
    foot, number, marker, _ = next(met for met in makers.frames_of(form, count) if met[-1] == count)
    return b"%d+%02d" % (foot, number) + (b".%d" % marker if form == 2 else b"")


def runtime_of(rate, count, precision):
    """Rounded to the precision, and its digits parted."""
    if not 0 <= precision <= 6:
        return b"refused 5"
    digits = b"%0*d" % (precision + 1, nearest(count / RATES[rate][0] * 10**precision))
    whole, fraction = int(digits[: len(digits) - precision]), digits[len(digits) - precision :].rstrip(b"0")
    return b"%02d:%02d:%02d.%s" % (whole // 3600, whole // 60 % 60, whole % 60, fraction or b"0")


def line_of(text, place, room):
    """A writer's answer: the text in its line, or a refusal and the line as it was."""
    return text + b" " + b"#" * room if text.startswith(b"refused") else forms.laid(text, place, room)


def writers(rate):
    """The label, the footage in each format, the runtime at each precision, in lines that have room or not; 5 outside the day."""
    for count, (place, room) in product(given(rate), ((0, 16), (2, 18), (5, 16), (6, 16), (0, 0), (LARGEST, 20))):
        within = is_within(b"@", rate, count)
        text = DAYS[rate].label(count) if within else b"refused 5"
        yield b"label @%d %d %d %d" % (rate, count, place, room), line_of(text, place, room)
        for form in footages.GAUGES:
            text = footage_of(form, count) if within else b"refused 5"
            yield b"footage %d @%d %d %d %d" % (form, rate, count, place, room), line_of(text, place, room)
        for precision in (*range(-1, 8), LARGEST):
            text = runtime_of(rate, count, precision) if within else b"refused 5"
            yield b"runtime @%d %d %d %d %d" % (rate, count, precision, place, room), line_of(text, place, room)


def times(rate):
    """Ticks and seconds, exactly; 5 outside the day."""
    random, last = Random(rate), DAYS[rate].last
    for count in (*given(rate), *(random.randint(0, last) for _ in range(500))):
        seconds = count / RATES[rate][0]
        within = is_within(b"@", rate, count)
        yield b"ticks @%d %d" % (rate, count), b"%d" % int(seconds * TICKS_A_SECOND) if within else b"refused 5"
        yield b"seconds @%d %d" % (rate, count), b"%d/%d" % seconds.as_integer_ratio() if within else b"refused 5"


# what stands behind the count, good and bad
FRACTIONS = [b" 1 2", b" -3 1", b" 0 1", b" 0 0", b" 1000001 1", b" 1 1000001"]
DIVISORS = [b" 2", b" -1", b" 0"]
LENGTHS_ONLY = {b"mul": FRACTIONS, b"divq": FRACTIONS, b"remq": FRACTIONS, b"div": DIVISORS, b"rem": DIVISORS, b"neg": [b""], b"abs": [b""]}
LENGTHS_ONLY |= {b"rebase": [b" 5", b" 12"], b"convert": [b"", b" 5", b" 1 12 5", b" 2" * 64]}
# and a rate that there is none of
NO_RATE = {b"rebase": [b" 0", b" 13", b" -1"], b"convert": [b" 13", b" 5 0", b" 1 13 2", b" -1"]}


def lengths_only(rate):
    """15 for every count, before 5 and 7, but behind 6."""
    for count in given(rate if rate in RATES else 5):
        for word, ends in LENGTHS_ONLY.items():
            yield from ((b"%s @%d %d%s" % (word, rate, count, end), b"refused 15" if rate in RATES else b"refused 6") for end in ends)
        for word, ends in NO_RATE.items():
            yield from ((b"%s @%d %d%s" % (word, rate, count, end), b"refused 6") for end in ends)


# what would be refused otherwise if there were such a rate
BAD = {
    b"refused 6 0": [b"read @%d x", b"read @%d -0", b"read @%d 99:99", b"read @%d 0000000001", b"read @%d ", b"read @%d", b"read_as 2 @%d 1+00.0"],
    b"refused 6": [b"read_runtime @%d x", b"count @%d 9000000000", b"from_ticks @%d 9000000000000000000", b"from_seconds @%d 5 0", b"ticks @%d -1"],
    b"refused 6 ####": [b"label @%d -1 0 4", b"footage 1 @%d -1 0 4", b"runtime @%d -1 7 0 4"],
}


def no_such():
    """6 before everything else, for a rate and for a format."""
    for number in (0, 13, -1, 300, LARGEST, SMALLEST):
        for answer, lines in BAD.items():
            yield from ((line % number, answer) for line in lines)
        yield b"read_as %d @5 x" % number, b"refused 6 0"
        yield b"footage %d @5 2589408 0 4" % number, b"refused 6 ####"


# -- What is judged --


def at_one_rate(quick, ask, rate):
    many, seeds = (1000, 1) if quick else (20000, 6)
    if rate in (5, 11) and not quick:
        length = DAYS[rate].length
        yield from ((whole_day, rate, first, min(first + 100_000, length)) for first in range(0, length, 100_000))
    else:
        yield parts_of_day, rate, *((7, 4001) if quick else (1, 53))
    yield midnight, rate, 3 if quick else 40
    yield makers.made_all_ways, rate
    yield makers.at_limits, rate, 211 if quick else 3
    yield makers.short_texts, ask, rate, 2 if quick else 4
    for make in (writers, times, lengths_only):
        yield make, rate
    for seed in range(seeds):
        yield makers.random_labels, rate, seed, many
        yield round_trips, rate, seed, many // 4


def jobs(quick, ask):
    yield (marks.all_marks,)
    yield (no_such,)
    for rate in RATES:
        yield from at_one_rate(quick, ask, rate)
    for rate in (0, 13, -1, LARGEST):
        yield lengths_only, rate
    for rate, rate2 in product(RATES, RATES):
        if not quick or rate in (5, 13 - rate2):
            yield two_rates, rate, rate2
    for word in KINDS:
        yield every_kind, word, (5, 11, 13) if quick else (5, 2, 11, 12, 0, 13, -1)
    for seed in range(2 if quick else 12):
        many = 1000 if quick else 20000
        yield random_pairs, seed, many
        yield makers.any_numbers, ask, seed, many
        yield makers.damaged_labels, ask, seed, many
        yield from ((makers.any_texts, ask, word, seed, many) for word in (b"read", b"read_as", b"read_runtime"))


def work(job):
    ask, (make, *arguments) = job
    asked, wanted = zip(*make(*arguments))
    given = comparison.answers(ask, asked)
    return len(asked), [one for one in zip(asked, given, wanted) if one[1] != one[2]]


def main():
    size, *ask = sys.argv[1:]
    comparison.judge_all("positions", work, ((ask, job) for job in jobs(size == "quick", ask)))


if __name__ == "__main__":
    main()
