#!/usr/bin/env python3
"""Holds `why` to the documents: number, place, count, fact, phrase, and every byte of the line.

`python3 compare/why.py [--random N] [--readme FILE] full|quick ASK ..` asks our program (`ask`'s commands) and compares whole answers. What is
right is told by reasons.py, which shares nothing with the port; offered.py has the texts. Each text is given to `read` or `read_as` too, and
the reader's own number, place and count must be those of `why`. The phrases are those of README.md, or of FILE; N is how many random
texts are asked about. The last line is 'why: N judged, 0 wrong'.
"""

import argparse
import os
from heapq import nsmallest
from itertools import product
from multiprocessing import Pool

import all as comparison
import offered
import reasons
from offered import KINDS, LARGEST, RATES, SIGNS, SMALLEST
from reasons import LONGEST_LINE

# -- Lines --


def line_of(question, place, room):
    rate, position, stated, text = question
    return b"why %s%d %s %d %d %s" % (b"@" if position else b"", rate, b"-" if stated is None else b"%d" % stated, place, room, text)


def reading_of(question):
    rate, position, stated, text = question
    return b"%s %s%d %s" % (b"read" if stated is None else b"read_as %d" % stated, b"@" if position else b"", rate, text)


def about_texts(phrases, make, *arguments):
    """For each text `why`, in a line that has room for any phrase, and the reader."""
    longest = max(map(len, phrases.values()))
    for n, question in enumerate(make(*arguments)):
        one, position = reasons.why(*question), question[1]
        place = min(n % 3, 128 - longest)
        room = min(128, longest + place + n % 4)
        yield line_of(question, place, room), reasons.shown(one, position, phrases[one.number], place, room)
        yield reading_of(question), reasons.read(one, position)


def agree(why, reading):
    """Whether `why` has the reader's number and place, or its count."""
    if reading.startswith(b"refused "):
        return why.startswith(reading[8:] + b" ") and not why.startswith(b"0 ")
    return why.split(b" ")[:3] == [b"0", b"0", *reading.split(b" ")[1:2]]


# -- Room --

# every number, by every kind of way to it
EVERY_NUMBER = {
    0: [(5, False, None, b"-1:00"), (5, True, None, b"23:59:59;29"), (5, True, 4, b"-0+01")],
    1: [(5, False, None, b""), (5, True, None, b"00:01:00;0x"), (5, False, 1, b"1:00")],
    2: [(5, False, None, b"0000000001"), (5, True, 1, b"1+2.0000000003")],
    3: [(5, False, None, b"-0:75:00;00"), (11, True, None, b"00:01:00;03"), (5, False, None, b"999999999:999999999:0;0")],
    4: [(5, False, 1, b"1+00.1")],
    5: [(2, False, None, b"400000001"), (5, False, None, b"-999999999:999999999:999999999:999999999"), (5, True, None, b"-25000000+01")],
    6: [(13, False, None, b"5"), (5, True, 0, b"1+00"), (-1, False, -1, b"")],
    13: [(5, False, None, b"0+20"), (5, True, 2, b"-1+00.2")],
    14: [(5, True, None, b"-0"), (5, True, None, b"24:00:00;00"), (12, True, None, b"60")],
}


def huge_places(length):
    """Places that a sum could wrap at."""
    for power in (7, 8, 15, 16, 31, 32, 63):
        around = (2**power + few for few in (-length - 1, -length, 1 - length, -1, 0, 1, 128 - length))
        yield from (place for place in around if 0 <= place <= LARGEST)


def rooms(phrases, number, every):
    """Every room with every place in it and past it, of the first way; and of each where the phrase just fits and does not; and huge places."""
    phrase, (first, *_) = phrases[number], EVERY_NUMBER[number]
    length = len(phrase)
    tried = {(first, place, room) for room, place in product(range(0, 129, every), range(131))}
    for question in EVERY_NUMBER[number]:
        tried |= {(question, place, room) for room in range(129) for place in (0, *range(max(0, room - length - 1), room + 3))}
        tried |= {(question, place, room) for place, room in product(huge_places(length), (0, 1, length, 127, 128))}
    for question, place, room in sorted(tried, key=repr):
        yield line_of(question, place, room), reasons.shown(reasons.why(*question), question[1], phrase, place, room)


# -- What is not understood --

# in place of any of the four words
NO_WORDS = [b"", b"x", b"+5", b"5x", b"--5", b"5-", b"0x5", b"5.0", b"5,", b" 5", b"5 ", b"@", b"@@5", b"5@", b"@5@", b"@+5", b"@-", b"@ 5"]
NO_WORDS += [b"-@5", b"\t5", b"5\t", b"5\r", b"\0", b"5\0", b"'5'", b"#5", b"5#7", b"5#0", b"@5#7", b"#", b"\xff", b"\xd9\xa5"]
NO_WORDS += [b"9223372036854775808", b"-9223372036854775809", b"9" * 30, b"18446744073709551621"]
# and in place of each: RATE, FORMAT, PLACE, ROOM
NO_SUCH_WORD = {
    1: [b"-", b"@@", b"5@5", b"@5 @5"],
    2: [b"@1", b"@-1", b"--", b"-x", b"x-", b"- ", b"-1-", b"none", b"_", b"@0", b"1.", b"-\r"],
    3: [b"-", b"-1", b"@0", b"@5", b"%d" % SMALLEST, b"-2", b"-40"],
    4: [b"-", b"-1", b"@40", b"@0", b"129", b"130", b"256", b"1024", b"-128", b"%d" % LARGEST, b"%d" % SMALLEST, b"0129"],
}
GOOD = [[b"why", b"5", b"-", b"0", b"40"], [b"why", b"@5", b"1", b"3", b"128"], [b"why", b"13", b"9", b"200", b"0"]]
NO_LINES = [b"", b" ", b"why", b"why ", b"why 5", b"why 5 ", b"why 5 -", b"why 5 - ", b"why 5 - 0", b"why 5 - 0 ", b"why @5 2 0 "]
NO_LINES += [b"why @5", b"why @", b"why -", b"why - 0 40 5", b"why 5 0 40", b"Why 5 - 0 40", b"WHY 5 - 0 40", b"whys 5 - 0 40"]
NO_LINES += [b"wh 5 - 0 40", b"why5 - 0 40", b"@why 5 - 0 40", b" why 5 - 0 40", b"why\t5 - 0 40", b"why_as 1 5 0 40 1+00"]
NO_LINES += [b"why 5 - 0 5:00", b"why 5 -0 40 x", b"why 5 - 40", b"why 5 - 0 1:00:00:00", b"why 5 1+00 0 40", b"why 5 - 1:00 0 40"]
NO_LINES += [b"why 00:01:00;00", b"why 5 00:01:00;00", b"why 5 - - 0 40", b"why - 5 0 40 x"]


def no_lines():
    """Lines that are not understood: a word that is none, before a good text, a bad one and none at all."""
    yield from ((line, b"not understood") for line in NO_LINES)
    for good, n, end in product(GOOD, range(1, 5), (b"", b" ", b" 1:00", b" x", b" 24:00:00;00")):
        for word in (*NO_WORDS, *NO_SUCH_WORD[n]):
            if (n, word) != (4, b"5 "):  # that is a room and a blank before the text
                yield b" ".join([*good[:n], word, *good[n + 1 :]]) + end, b"not understood"


# a line that is nearly not understood, and what it asks: rate, kind, format, text; place and room
LINES = {
    b"why 5 - 0 128": ((5, False, None, b""), 0, 128),
    b"why 5 - 0 128 ": ((5, False, None, b""), 0, 128),
    b"why 5 - 0 128  ": ((5, False, None, b" "), 0, 128),
    b"why 5 - 0 128  1": ((5, False, None, b" 1"), 0, 128),
    b"why 5 - 0 128 1 ": ((5, False, None, b"1 "), 0, 128),
    b"why 5 - 0 128 1:00\r": ((5, False, None, b"1:00\r"), 0, 128),
    b"why 5 - 0 128 40 1": ((5, False, None, b"40 1"), 0, 128),
    b"why 5 - 0 128 -": ((5, False, None, b"-"), 0, 128),
    b"why 5 - 0 128 @5": ((5, False, None, b"@5"), 0, 128),
    b"why 5 - 0 128 why 5 - 0 128": ((5, False, None, b"why 5 - 0 128"), 0, 128),
    b"why @5 1 0 128": ((5, True, 1, b""), 0, 128),
    b"why @005 - 00 0128 1": ((5, True, None, b"1"), 0, 128),
    b"why " + b"0" * 40 + b"5 - " + b"0" * 40 + b"2 " + b"0" * 40 + b"128 1": ((5, False, None, b"1"), 2, 128),
    b"why 5 001 0 128 1+00": ((5, False, 1, b"1+00"), 0, 128),
    b"why 5 " + b"0" * 40 + b"2 0 128 1+00": ((5, False, 2, b"1+00"), 0, 128),
    b"why 5 -0 0 128 1+00": ((5, False, 0, b"1+00"), 0, 128),
    b"why 5 -1 0 128 1+00": ((5, False, -1, b"1+00"), 0, 128),
    b"why -5 - 0 128 1": ((-5, False, None, b"1"), 0, 128),
    b"why -0 - 0 128 1": ((0, False, None, b"1"), 0, 128),
    b"why @-5 - 0 128 1": ((-5, True, None, b"1"), 0, 128),
    b"why @0 - 0 128": ((0, True, None, b""), 0, 128),
    b"why %d - 0 128 1" % LARGEST: ((LARGEST, False, None, b"1"), 0, 128),
    b"why @%d %d 0 128 1" % (SMALLEST, SMALLEST): ((SMALLEST, True, SMALLEST, b"1"), 0, 128),
    b"why 5 %d %d 128 1" % (LARGEST, LARGEST): ((5, False, LARGEST, b"1"), LARGEST, 128),
    b"why 5 - -0 128 1": ((5, False, None, b"1"), 0, 128),
    b"why 5 - 0 -0 1": ((5, False, None, b"1"), 0, 0),
    b"why 5 - 0 0": ((5, False, None, b""), 0, 0),
    b"why 5 - 0 0 1": ((5, False, None, b"1"), 0, 0),
    b"why 5 - 128 128 1": ((5, False, None, b"1"), 128, 128),
    b"why 13 - 0 0 1": ((13, False, None, b"1"), 0, 0),
}


def good_lines(phrases):
    for line, (question, place, room) in LINES.items():
        one = reasons.why(*question)
        yield line, reasons.shown(one, question[1], phrases[one.number], place, room)


def long_lines(phrases):
    """As long as a line may be, and longer."""
    for position, stated, text in product(KINDS, (None, 1), (b"0", b"1:", b"1+", b"1+0.", b":", b"-0", b"x", b" ")):
        for length in (LONGEST_LINE - 1, LONGEST_LINE, LONGEST_LINE + 1, 3 * LONGEST_LINE):
            question = 5, position, stated, (text + b"0" * length)[: length - len(line_of((5, position, stated, b""), 0, 128))]
            one, line = reasons.why(*question), line_of(question, 0, 128)
            yield line, reasons.shown(one, position, phrases[one.number], 0, 128) if length <= LONGEST_LINE else b"not understood"


# -- Judging --


def questions(quick, random):
    """The texts, as functions of offered.py and what they are given."""
    for rate, position in product(RATES, KINDS):
        if not quick or rate in (2, 5, 11):
            yield from ((offered.labels, rate, position, many) for many in ((1, 2, 3) if quick else (1, 2, 3, 4)))
    for rate in RATES:
        yield from ((make, rate) for make in (offered.every_divider, offered.dropped, offered.bound_labels) if not quick or rate in (5, 9, 11))
    for rate, position, stated in product(RATES, KINDS, offered.FORMATS):
        yield offered.footages, rate, position, stated, 101 if quick else 1 if rate in (5, 8) else 7
    yield from ((offered.chosen, position) for position in KINDS)
    for rate, position, stated in ((5, False, None), (5, True, None), (11, False, 2), (9, True, 3)):
        yield from ((offered.pieced, rate, position, stated, sign, 7 if quick else 1) for sign in SIGNS)
        yield offered.short_texts, rate, position, stated, 3 if quick else 5
    yield from ((offered.every_byte, text) for text in offered.BASES[:: 3 if quick else 1])
    yield (offered.long_fields,)
    yield from ((offered.random_texts, seed, min(25_000, random - 25_000 * seed)) for seed in range(-(-random // 25_000)))


def jobs(quick, random, phrases):
    """Each gives pairs of a line and its right answer."""
    yield (no_lines,)
    yield from ((make, phrases) for make in (good_lines, long_lines))
    yield from ((rooms, phrases, number, 16 if quick else 1) for number in EVERY_NUMBER)
    yield from ((about_texts, phrases, *question) for question in questions(quick, random))


def work(job):
    """How many were judged, how many were wrong, and the shortest of these."""
    ask, (make, *arguments) = job
    asked, wanted = zip(*make(*arguments))
    given = comparison.answers(ask, asked)
    wrong = [one for one in zip(asked, given, wanted) if one[1] != one[2]]
    if make is about_texts:
        pairs = zip(asked[::2], given[::2], asked[1::2], given[1::2])
        wrong += [(b"%s, %s" % (line, reading), b"%s, %s" % (why, read), b"the same") for line, why, reading, read in pairs if not agree(why, read)]
    return len(asked), len(wrong), nsmallest(20, wrong, by_length)


def by_length(one):
    return len(one[0]), one[0]


def judge(ask, quick, random, phrases):
    """Works through all jobs; whether nothing is wrong."""
    shortest = [*reasons.faults_of(phrases)]
    judged, wrong = len(phrases), len(shortest)
    if not shortest:  # without phrases nothing can be judged
        with Pool(os.cpu_count()) as pool:
            for many, bad, found in pool.imap_unordered(work, ((ask, job) for job in jobs(quick, random, phrases))):
                judged, wrong, shortest = judged + many, wrong + bad, nsmallest(20, [*shortest, *found], by_length)
    for line, ours, wanted in shortest:
        print(f"wrong: {line!r}: ours {ours!r}, right {wanted!r}")
    print(f"why: {judged} judged, {wrong} wrong")
    return wrong == 0


def main():
    parser = argparse.ArgumentParser(description="holds `why` to the documents")
    parser.add_argument("--random", type=int, metavar="N", help="random texts: 20,000 if quick, else 1,500,000")
    parser.add_argument("--readme", default=reasons.README, metavar="FILE", help="where the phrases stand")
    parser.add_argument("size", choices=("full", "quick"))
    parser.add_argument("ask", nargs=argparse.REMAINDER, help="our program")
    given = parser.parse_args()
    quick = given.size == "quick"
    random = given.random if given.random is not None else 20_000 if quick else 1_500_000
    raise SystemExit(0 if judge(given.ask or ["bin/ask"], quick, random, reasons.phrases_of(given.readme)) else 1)


if __name__ == "__main__":
    main()
