#!/usr/bin/env python3
"""Holds `route` to the documents: which shards a query must ask, and every refusal with its place.

`python3 compare/routes.py full|quick ASK ..` asks our program (`ask`'s commands) and compares whole answers; compare/all.sh calls it. What is
right is told by router.py, which shares nothing with the port and looks at the frames; directories.py has the directories, offered.py texts for the
start. What router.py finds by borders is held to sets of frames first. The last line is 'routes: N judged, 0 wrong'.
"""

import os
import sys
from heapq import nsmallest
from itertools import islice, product
from multiprocessing import Pool
from random import Random

import all as comparison
import directories
import offered
import router
from days import BOUND, DAYS
from router import LARGEST, LONGEST_LINE, SMALLEST, Directory, Film, label

RATES = [*DAYS]
NO_RATES = [0, 13, -1, 14, 255, 256, 261, 2**32 + 5, LARGEST, SMALLEST]

# -- The model's own search --


def by_frames(frames):
    """By borders, along a day of a few frames, and by sets of frames: every good directory and every query; as wrong answers are."""
    for shards in directories.every_small(frames):
        film = Film(frames, shards)
        for start in range(frames):
            for after in range(start, frames + 1):
                right = router.by_sets(shards, start, after)
                for found in (router.by_borders(shards, start, after), film.asked(start, after)):
                    if found != right:
                        yield b"%s from %d up to %d" % (router.shown(shards), start, after), b"%d %d" % found, b"%d %d" % right


# -- Good directories --


def bases(rate):
    """Where a few frames are looked at: at the day's beginning and end, and around the first minute, whose first labels may be dropped."""
    return (0, DAYS[rate].length - 6, DAYS[rate].firsts[1] - 3)


def small(rate, base):
    """Every good directory over six frames, every query from one before up to one behind; by sets of frames."""
    day = DAYS[rate].length
    for n, shards in enumerate(directories.every_small(6)):
        directory = Directory(rate, [(base + first, base + end) for first, end in shards])
        for start in range(max(base - 1, 0), min(base + 7, day)):
            for after in range(start, base + 8):
                line, answer = directory.from_frame(start, after, n + after)
                if after <= day:
                    answer = b"%d %d" % router.by_sets(directory.shards, start, after)
                yield line, answer


def at_borders(rate, first, many, step):
    """Queries from and up to around the borders of some directories, laid along the day; of large ones those at every so many borders."""
    random = Random(first)
    for shards in islice(directories.good(rate), first, first + many):
        directory = Directory(rate, shards, laid=True)
        pairs = directories.every_query(directory.day, shards) if len(shards) < 5 else directories.some_queries(directory.day, shards, random, step)
        for n, (start, after) in enumerate(pairs):
            yield directory.from_frame(start, after, n)


def whole_day(rate):
    """To the day's end exactly, and one frame more, from every kind of start; and lengths around the bound."""
    day = DAYS[rate].length
    for shards in ([], [(0, day)], [(day - 1, day)], directories.touching(0, day, 256), directories.spaced(0, 256, 1, 1)):
        directory = Directory(rate, shards)
        for start in (0, 1, 2, 1799, 1800, day // 2, day - 2, day - 1):
            lengths = [0, 1, *(day - start + few for few in range(-2, 4)), day, day + 1, 2 * day, 2**31, 2**32 - start, 2**32, 2**32 + 1]
            for length in (*lengths, BOUND - 1, BOUND, BOUND + 1, BOUND + 2, -1, -2, -start, -day, -BOUND, 2**63 - start, LARGEST, SMALLEST, SMALLEST + 1):
                if length <= LARGEST:
                    yield directory.query(length, label(rate, start))


# -- Broken directories --


def small_broken(rate, numbers, many):
    """Every list of so many shards with any of a few numbers at their ends, good and not."""
    pairs = [*product(numbers, repeat=2)]
    queries = [(0, b"0"), (1, label(rate, 0)), (DAYS[rate].length, b"0"), (2, b"0:01"), (-1, b"x")]
    for n, shards in enumerate(product(pairs, repeat=many)):
        directory = Directory(rate, shards)
        yield from (directory.query(*query) for query in (queries if many < 3 else queries[n % 5 : n % 5 + 1]))


def broken(rate, many, step):
    """Each rule broken at every place, or every so many and the last, of three directories of a size; alone, and with a fault of the query beside it."""
    day = DAYS[rate].length
    queries = [(1, b"0"), (day, b"0"), (0, b"0"), (5, b"1:00:00:00"), (-1, b"0"), (day + 1, b"0"), (1, b""), (1, b"24:00:00:00"), (BOUND + 1, b"x")]
    for shards in (directories.touching(0, day, many), directories.spaced(5, many, 2, 1), directories.spaced(day - 3 * many, many, 2, 1)):
        for place in sorted({*range(0, many, step), many - 1}):
            for n, made in enumerate(directories.breaks(day, shards, place)):
                directory = Directory(rate, made)
                yield directory.query(*queries[0])
                yield directory.query(*queries[(n + place) % len(queries)])


def too_many(rate):
    for shards in directories.too_many():
        directory = Directory(rate, shards)
        for length, text in ((1, b"0"), (0, b"0"), (300, b"0"), (DAYS[2].length, b"0"), (-1, b"0"), (1, b"x"), (1, b"")):
            line, answer = directory.query(length, text)
            yield line, answer if len(line) <= LONGEST_LINE else b"not understood"


# -- Several refusals at once --

# the label's own: 1 and its place, 2 and its place, 14, 3 at rates 5 and 11; and none
STARTS = [b"", b"x", b"1+00", b"12+05.1", b"-3+07", b"1:2+3", b"0+20", b"25000000+01", b"1:2:3:4:5", b"1:", b"-", b"--0", b"0000000001+00"]
STARTS += [b"0000000001", b"-1:0000000001", b"1:2:3:4444444444", b"0:0000000000:99:00000000000", b"0000000001x", b"-0000000099:00"]
STARTS += [b"24:00:00:00", b"00:60:00:00", b"00:00:60:00", b"00:00:00:60", b"999999999", b"-0", b"-00:01:00;00", b"-1:60", b"24:01:00;00", b"-24:01:00;00"]
STARTS += [b"00:01:00;00", b"00:01:00;01", b"0:1:0:3", b"23:59:00;00", b"1:0;1"]
STARTS += [b"0", b"00:01:00;02", b"00:01:00;04", b"23:59:59:23", b"000000001:000000002:000000003:000000004"]


def lengths_at(rate):
    """Good ones, those that reach past the day from some starts or from all, and those outside the bounds."""
    day = DAYS[rate].length if rate in DAYS else 2_589_408
    return [0, 1, day - 1, day, day + 1, BOUND, BOUND + 1, -1, LARGEST, SMALLEST]


def several(rate):
    """Each kind of directory with each start and each length."""
    day = DAYS[rate].length if rate in DAYS else 2_589_408
    lists = [[], [(0, day)], [(3, 1800), (1800, 1801), (day - 5, day)], [(0, 0)], [(5, 3)], [(0, 2), (1, 3)], [(4, 5), (0, 1)], [(-1, 1)], [(-5, 10)]]
    lists += [[(0, day + 1)], [(LARGEST, SMALLEST)], [(0, 1), (1, 2), (2, day + 1)], directories.touching(0, 257, 257)]
    for shards, text, length in product(lists, STARTS, lengths_at(rate)):
        yield Directory(rate, shards).query(length, text)


# -- Starts --


def at_starts(make, *arguments):
    """Texts of offered.py, whatever kind and format they are for, as the start of a query in one of four directories."""
    made = {rate: [Directory(rate, shards) for shards in some_shards(rate)] for rate in (*RATES, *offered.NO_RATES)}
    asked = dict.fromkeys((rate, text) for rate, _, _, text in make(*arguments))
    for n, (rate, text) in enumerate(asked):
        yield made[rate][n % 4].query((0, 1, 1000, 2_000_000, 100_000)[n % 5], text)


def some_shards(rate):
    day = DAYS[rate].length if rate in DAYS else 100
    return [(0, day)], directories.touching(0, day, 24), [(0, 1), (3, 4), (1798, 1802), (day - 2, day)], []


def near_dropped(rate, minutes):
    """Around the first labels of every so many minutes, those that are dropped among them: one frame a shard on both sides of the minute."""
    day = DAYS[rate]
    for n in range(0, 1440, minutes):
        first, (hour, minute) = day.firsts[n], day.clock[n]
        directory = Directory(rate, [(max(first, 3) + few, max(first, 3) + few + 1) for few in range(-3, 7)])
        for frame, length in product(range(8), (0, 1, 2, 3)):
            yield directory.query(length, b"%02d:%02d:00;%02d" % (hour, minute, frame))
        for start, length in product(range(max(first - 4, 0), first + 8), (1, 2, 9)):
            yield directory.query(length, label(rate, start, n))


# -- What is not understood --

NO_NUMBERS = [b"", b"x", b"+5", b"5x", b"--5", b"5-", b"0x5", b"5.0", b"5,", b" 5", b"@5", b"@", b"@@5", b"5@", b"5#7", b"@5#7", b"#", b"-", b"--", b"5_0"]
NO_NUMBERS += [b"\t5", b"5\t", b"5\r", b"\0", b"5\0", b"'5'", b"\xff", b"\xd9\xa5", b"1e3", b"- 5", b"5 -", b"0-1", b"1:00", b"1/2"]
NO_NUMBERS += [b"9223372036854775808", b"-9223372036854775809", b"9" * 30, b"18446744073709551621", b"-" + b"9" * 30, b"0" * 30 + b"9223372036854775808"]

# in a number's place inside a shard; a number of that place may begin with `-`
NO_ENDS = [b"", b"-", b"--5", b"+5", b"x", b"5x", b"x5", b"5.0", b" 5", b"5 ", b"@5", b"5@", b"0x5", b"\t5", b"5\r", b"\0", b"\xff", b"5_", b"1:00"]
NO_ENDS += [b"9223372036854775808", b"-9223372036854775809", b"99999999999999999999", b"18446744073709551616", b"-18446744073709551611", b"1" * 40]

NO_SHARDS = [b"", b",", b"--", b"---", b"-,", b",-", b"-,-", b"0", b"5", b"-5", b"-0", b"0-", b"-0-", b"-5-", b"0-1,", b",0-1", b"0-1,,2-3", b",,", b"0-1,-"]
NO_SHARDS += [b"-,0-1", b"0-1,2", b"0-1,2-", b"0-1,-2", b"0_1", b"0-1-2", b"0-1-", b"0---1", b"--1-0", b"0-1--", b"0:1", b"0..1", b"0+1", b"+0-1", b"0-+1"]
NO_SHARDS += [b"0-1;2-3", b"0-1:2-3", b"0-1.2-3", b"0-1 2-3", b"0 -1", b"0- 1", b" 0-1", b"0-1, 2-3", b"0-1 ,2-3", b"0-1,2-3,", b"[0-1]", b"0-1\r", b"0-1\0"]
NO_SHARDS += [b"0\xe2\x80\x931", b"\xff", b"0-\xff", b"none", b"_", b"0-1@", b"@0-1", b"0@1-1", b"0-1#7", b"0-1,x", b"x,0-1", b"-x", b"0-0x1", b"00:00:00;00", b"0-1\t"]
# from another request on shards may have nodes
NO_SHARDS += [b"0-1@1", b"0-100@1.2.63,100-250@7"]


def no_lines():
    """Lines that are not understood: a word that is none, before a good text, a bad one and none at all."""
    ends = (b"", b" ", b" 1:00", b" x", b" 24:00:00;00")
    for rate, shards, length in ((b"5", b"0-1", b"0"), (b"13", b"-", b"-1"), (b"2", b"5--3,0-0", b"400000001")):
        for word, end in product(NO_NUMBERS, ends):
            yield b"route %s %s %s%s" % (word, shards, length, end)
            if not word.startswith(b"5 "):  # that is a length and a text
                yield b"route %s %s %s%s" % (rate, shards, word, end)
        yield from (b"route %s %s %s%s" % (rate, word, length, end) for word, end in product(NO_SHARDS, ends))


def no_shards():
    """A number that is none at each end of each shard, the first, one between, the last of many, or one past those that there may be."""
    for many, word in product((1, 2, 3, 8, 256, 257, 300), NO_ENDS):
        for place, is_end in product({0, 1, many // 2, many - 1} & {*range(many)}, (False, True)):
            shards = [[b"%d" % n, b"%d" % (n + 1)] for n in range(many)]
            shards[place][is_end] = word
            line = b"route 5 %s 1 0" % b",".join(b"-".join(shard) for shard in shards)
            # a shard may begin with a `-`, and a word with a blank behind it ends the shards
            if (word, is_end) not in ((b"-", False), (b"", False)) and not (word == b"5 " and is_end and place == many - 1):
                yield line


NO_LINES = [b"", b" ", b"route", b"route ", b"route 5", b"route 5 ", b"route 5 -", b"route 5 - ", b"route 5 0-1", b"route 5 0-1 ", b"route 5 - 1:00", b"route - 0 1:00"]
NO_LINES += [b"Route 5 - 0 ", b"ROUTE 5 - 0 1", b"routes 5 - 0 1", b"rout 5 - 0 1", b"route5 - 0 1", b" route 5 - 0 1", b"@route 5 - 0 1", b"route\t5 - 0 1"]
NO_LINES += [b"route 5 0 0-1 1:00", b"route 0-1 5 0 1:00", b"route 5 - - 0 1", b"route 5 0-1 2-3 0 1", b"route  5 - 0 1", b"route 5  - 0 1", b"route 5 -  0 1"]
NO_LINES += [b"route @5 - 0 1:00", b"route 5 1+00 0 1", b"route 5 - x", b"route 5 - 0x", b"route 5 -1 0 1:00", b"route_as 5 - 0 1", b"route 5 - @0 1", b"route 5 0-1,2-3"]


def not_understood():
    for line in dict.fromkeys((*NO_LINES, *no_lines(), *no_shards())):
        yield line, b"not understood"


# a line that is nearly not understood, and what it asks: rate, shards, length, text
LINES = {
    b"route 5 - 0": (5, [], 0, b""),
    b"route 5 - 0 ": (5, [], 0, b""),
    b"route 5 - 0  ": (5, [], 0, b" "),
    b"route 5 - 0  1": (5, [], 0, b" 1"),
    b"route 5 - 0 1 ": (5, [], 0, b"1 "),
    b"route 5 - 0 1\r": (5, [], 0, b"1\r"),
    b"route 5 - 0 1:00": (5, [], 0, b"1:00"),
    b"route 5 - 0 -": (5, [], 0, b"-"),
    b"route 5 - 0 @5": (5, [], 0, b"@5"),
    b"route 5 - 0 - 0 1": (5, [], 0, b"- 0 1"),
    b"route 5 0-1 0 route 5 0-1 0 0": (5, [(0, 1)], 0, b"route 5 0-1 0 0"),
    b"route 5 0-1 1 0": (5, [(0, 1)], 1, b"0"),
    b"route 5 00-1 1 0": (5, [(0, 1)], 1, b"0"),
    b"route 5 -0-5 1 0": (5, [(0, 5)], 1, b"0"),
    b"route 5 -00-005 1 0": (5, [(0, 5)], 1, b"0"),
    b"route 5 0--0 1 0": (5, [(0, 0)], 1, b"0"),
    b"route 5 -0--0 1 0": (5, [(0, 0)], 1, b"0"),
    b"route 5 -5-10 1 0": (5, [(-5, 10)], 1, b"0"),
    b"route 5 5--3 1 0": (5, [(5, -3)], 1, b"0"),
    b"route 5 -5--3 1 0": (5, [(-5, -3)], 1, b"0"),
    b"route 5 0-1,-0-1 1 0": (5, [(0, 1), (0, 1)], 1, b"0"),
    b"route 5 -0-1,1-2,-2--3 1 0": (5, [(0, 1), (1, 2), (-2, -3)], 1, b"0"),
    b"route 5 -0-1,0001-2 2 0": (5, [(0, 1), (1, 2)], 2, b"0"),
    b"route 5 0-100,100-250 50 00:00:00;00": (5, [(0, 100), (100, 250)], 50, b"00:00:00;00"),
    b"route 5 0-100,100-250 -0 00:00:00;00": (5, [(0, 100), (100, 250)], 0, b"00:00:00;00"),
    b"route 005 0-1 0001 0": (5, [(0, 1)], 1, b"0"),
    b"route -5 0-1 1 0": (-5, [(0, 1)], 1, b"0"),
    b"route -0 0-1 1 0": (0, [(0, 1)], 1, b"0"),
    b"route 13 0-1 1": (13, [(0, 1)], 1, b""),
    b"route %d %d-%d %d x" % (LARGEST, LARGEST, LARGEST, LARGEST): (LARGEST, [(LARGEST, LARGEST)], LARGEST, b"x"),
    b"route %d %d-%d %d x" % (SMALLEST, SMALLEST, SMALLEST, SMALLEST): (SMALLEST, [(SMALLEST, SMALLEST)], SMALLEST, b"x"),
    b"route 5 %d-%d %d x" % (LARGEST, SMALLEST, SMALLEST): (5, [(LARGEST, SMALLEST)], SMALLEST, b"x"),
    b"route 5 %d-%d 1 0" % (SMALLEST, LARGEST): (5, [(SMALLEST, LARGEST)], 1, b"0"),
    b"route 5 0-1 %d 0" % LARGEST: (5, [(0, 1)], LARGEST, b"0"),
    b"route 5 0-1 %d 0" % SMALLEST: (5, [(0, 1)], SMALLEST, b"0"),
    b"route %s5 %s1-%s7 -%s0 0" % ((b"0" * 60,) * 4): (5, [(1, 7)], 0, b"0"),
    b"route 5 -%s0-%s7 %s3 0" % ((b"0" * 60,) * 3): (5, [(0, 7)], 3, b"0"),
}


def good_lines():
    for line, (rate, shards, length, text) in LINES.items():
        yield line, Directory(rate, shards).answer(length, text)


def long_lines():
    """As long as a line may be, and longer: zeros before each number, and texts that go on."""
    shards = directories.touching(0, 2_589_408, 256)
    for length in (4095, 4096, 4097, LONGEST_LINE - 1, LONGEST_LINE, LONGEST_LINE + 1, LONGEST_LINE + 2, 3 * LONGEST_LINE):
        lines = [(b"route ", b"5 0-1 1 0", [(0, 1)], 1, b"0"), (b"route 5 ", b"7-9,9-10 9 0:01", [(7, 9), (9, 10)], 9, b"0:01")]
        lines += [(b"route 5 0-", b"9 1 0", [(0, 9)], 1, b"0"), (b"route 5 - ", b"0 0", [], 0, b"0"), (b"route 5 0-1,", b"1-7 9 0", [(0, 1), (1, 7)], 9, b"0")]
        lines += [(b"route 5 ", router.shown(shards) + b" 2589408 0", shards, 2_589_408, b"0")]
        for front, rest, made, frames, text in lines:
            answer = Directory(5, made).answer(frames, text)
            if len(front + rest) <= length:
                yield front + b"0" * (length - len(front + rest)) + rest, answer if length <= LONGEST_LINE else b"not understood"
        for made, text in product(([], [(0, 1)], [(1, 0)]), (b"0", b"1:", b"1+", b":", b"-0", b"x", b" ", b"1:2:3:4", b"1:2:3:4:", b"-1;0")):
            directory = Directory(5, made)
            text += b"0" * (length - len(directory.line(7, text)))
            yield directory.line(7, text), directory.answer(7, text) if length <= LONGEST_LINE else b"not understood"
            yield directory.line(7, text[:-1] + b"x"), directory.answer(7, text[:-1] + b"x") if length <= LONGEST_LINE else b"not understood"


# -- Random ones --


def random_shards(random, day):
    """Mostly good ones, few or many, in a part of the day or all of it; seldom one that is broken."""
    many = random.choice((0, 1, 2, 3, random.randint(1, 12), random.randint(1, 12), random.randint(1, 40)))
    span = random.choice((2 * many + 3, 50 + 2 * many, 5000, day))
    first = random.choice((0, 0, day - span, random.randint(0, day - span)))
    shards = directories.scattered(random, first, first + span, many)
    if shards and random.random() < 0.1:
        return random.choice([*directories.breaks(day, shards, random.randrange(len(shards)))])
    return shards


def random_query(random, rate, shards):
    """From around a border or anywhere, up to around a border or any length; seldom outside the bounds, or no good label."""
    day = DAYS[rate].length
    borders = [0, day, *(border for shard in shards for border in shard if 0 <= border <= day)]
    start = random.choice((random.choice(borders) + random.randint(-2, 2), random.randrange(day)))
    start = min(max(start, 0), day - 1)
    after = random.choice((random.choice(borders) + random.randint(-2, 2), random.randint(start, day), start + random.randint(0, 5)))
    length = max(after - start, 0) if random.random() < 0.95 else random.choice((-1, BOUND, BOUND + 1, day, day - start + 1, LARGEST, SMALLEST))
    text = label(rate, start, random.randrange(5))
    if random.random() < 0.1:
        text = random.choice((offered.damaged(random, text), offered.random_footage(random), offered.random_label(random, rate), b"-" + text))
    return length, text.replace(b"\n", b"x")


def random_ones(seed, many):
    random = Random(seed)
    for _ in range(many):
        rate = random.choice(RATES)
        shards = random_shards(random, DAYS[rate].length)
        queries = [random_query(random, rate, shards) for _ in range(4)]
        directory = Directory(rate if random.random() < 0.99 else random.choice(NO_RATES), shards)
        yield from (directory.query(*query) for query in queries)


# -- Judging --


def text_jobs(quick):
    for rate in (5, 11) if quick else RATES:
        yield from ((at_starts, offered.labels, rate, True, many) for many in ((1, 2, 3) if quick else (1, 2, 3, 4)))
        yield at_starts, offered.footages, rate, True, None, 211 if quick else 17
        yield near_dropped, rate, 37 if quick else 1 if rate in (5, 11) else 20
    yield at_starts, offered.chosen, True
    yield at_starts, offered.short_texts, 5, True, None, 3 if quick else 5
    yield at_starts, offered.dropped, 5
    yield at_starts, offered.long_fields
    yield from ((at_starts, offered.pieced, rate, True, None, sign, 7 if quick else 1) for rate in (5, 9) for sign in offered.SIGNS)
    yield from ((at_starts, offered.every_byte, text) for text in offered.BASES[:: 3 if quick else 1])
    yield from ((at_starts, offered.random_texts, seed, 5_000) for seed in range(2 if quick else 20))


def broken_jobs(quick):
    for rate in (5, 12) if quick else RATES:
        last = DAYS[rate].length
        yield small_broken, rate, range(-1, 4), 1
        yield small_broken, rate, range(-1, 4), 2
        yield small_broken, rate, (0, 1, 2, last - 1, last, last + 1), 2
        yield from ((broken, rate, many, 1) for many in (1, 2, 3, 5))
        yield several, rate
        yield whole_day, rate
    yield from ((several, rate) for rate in NO_RATES[:: 4 if quick else 1])
    yield from ((small_broken, rate, range(4), 3) for rate in ((5,) if quick else (2, 5, 11)))
    yield from ((broken, rate, many, 61 if quick else 5) for rate, many in ((5, 256), (2, 255), (11, 64), (9, 129)))
    yield from ((too_many, rate) for rate in (5, 2, 11, 13))


def jobs(quick):
    """Each gives pairs of a line and its right answer."""
    yield from ((make,) for make in (not_understood, good_lines, long_lines))
    yield from broken_jobs(quick)
    for rate in (5, 2) if quick else RATES:
        yield from ((small, rate, base) for base in bases(rate))
        many = len([*directories.good(rate)])
        yield from ((at_borders, rate, first, 7, 200 if quick else 8 if rate == 5 else 80) for first in range(0, many, 7))
    yield from text_jobs(quick)
    yield from ((random_ones, seed, 2_500) for seed in range(2 if quick else 40))


def work(job):
    """How many were judged, how many were wrong, and the shortest of these."""
    ask, (make, *arguments) = job
    if make is by_frames:
        asked, wrong = (), [*make(*arguments)]
    else:
        asked, wanted = zip(*make(*arguments))
        wrong = [one for one in zip(asked, comparison.answers(ask, asked), wanted) if one[1] != one[2]]
    return len(asked), len(wrong), nsmallest(20, wrong, by_length)


def by_length(one):
    return comparison.by_length(one[0])


def main():
    size, *ask = sys.argv[1:]
    judged, wrong, shortest = 0, 0, []
    with Pool(os.cpu_count()) as pool:
        for many, bad, found in pool.imap_unordered(work, ((ask, job) for job in ((by_frames, 8), *jobs(size == "quick")))):
            judged, wrong, shortest = judged + many, wrong + bad, nsmallest(20, [*shortest, *found], by_length)
    for line, ours, wanted in shortest:
        print(f"wrong: {line!r}: ours {ours!r}, right {wanted!r}")
    print(f"routes: {judged} judged, {wrong} wrong")
    sys.exit(1 if wrong else 0)


if __name__ == "__main__":
    main()
