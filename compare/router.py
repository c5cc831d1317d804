#!/usr/bin/env python3
"""Which shards of a directory a query must ask, told from the documents alone; and the lines of `ask` that show it.

Nothing here is shared with the port or with model.py. Where a text stops being a label is found by trying what could stand behind each
beginning of it, and a label's count is what the odometer of days.py has counted where it shows that label. Which shards are asked is found by
laying the directory along the day and looking at the frames of the query (`Film`); or, for a directory that is asked little, by borders
(`by_borders`), which routes.py holds to sets of frames.

`python3 compare/router.py < lines` answers `route` in our program's place.
"""

import re
import sys
from array import array
from bisect import bisect_left
from functools import lru_cache
from itertools import product

from days import BOUND, DAYS, label_answer

MOST_SHARDS = 256
# a line of `ask` may have as many bytes, its newline not counted
LONGEST_LINE = 8192
LARGEST, SMALLEST = 2**63 - 1, -(2**63)

# -- The start: a text that can only be a label --

LABEL = re.compile(rb"-?[0-9]+(?:[:;][0-9]+){0,3}")
# what could stand behind a beginning: every text of up to two bytes over those that a label has
COMPLETIONS = [bytes(made) for many in range(3) for made in product(b"0:;-", repeat=many)]


def begins_label(text):
    return any(LABEL.fullmatch(text + completion) for completion in COMPLETIONS)


def longest_beginning(text):
    """What begins a label has only beginnings that do, so the first that does not ends it."""
    return bisect_left(range(len(text) + 1), True, key=lambda many: not begins_label(text[:many])) - 1


@lru_cache(maxsize=1 << 16)
def start_of(rate, text):
    """The count of a position's label; or its refusal, as `ask` shows it: 1, 2, 14, 3 in that order."""
    if not LABEL.fullmatch(text):
        return b"refused 1 %d" % longest_beginning(text)
    minus, bare = (b"-", text[1:]) if text.startswith(b"-") else (b"", text)
    answer = label_answer(rate, minus, bare.replace(b";", b":").split(b":"))
    return answer if answer.startswith(b"refused") else int(answer.removeprefix(b"label @"))


# -- Directories --


def is_good(day, shards):
    """At most so many, none empty, in rising order without overlap, none before the day or past it; what touches does not overlap."""
    if len(shards) > MOST_SHARDS:
        return False
    if any(first >= end or first < 0 or end > day for first, end in shards):
        return False
    return all(end <= first for (_, end), (first, _) in zip(shards, shards[1:]))


def by_borders(shards, start, after):
    """The first shard that shares a frame with the query, which ends before `after`, and the one after the last."""
    numbers = [n for n, (first, end) in enumerate(shards) if max(first, start) < min(end, after)]
    return (numbers[0], numbers[-1] + 1) if numbers else (0, 0)


def by_sets(shards, start, after):
    """The same by sets of frames."""
    numbers = [n for n, (first, end) in enumerate(shards) if set(range(first, end)) & set(range(start, after))]
    return (min(numbers), max(numbers) + 1) if numbers else (0, 0)


class Film:
    """A directory laid along the day, frame by frame: whether a shard holds it, and which one."""

    def __init__(self, day, shards):
        self.held, self.by = bytearray(day), array("H", bytes(2 * day))
        for n, (first, end) in enumerate(shards):
            self.held[first:end] = b"\1" * (end - first)
            self.by[first:end] = array("H", [n]) * (end - first)

    def asked(self, start, after):
        """From the query's first frame that is held to its last one."""
        first, last = self.held.find(1, start, after), self.held.rfind(1, start, after)
        return (self.by[first], self.by[last] + 1) if first >= 0 else (0, 0)


def shown(shards):
    return b",".join(b"%d-%d" % shard for shard in shards) or b"-"


class Directory:
    """Shards at a rate: the line that asks a query of them, and its right answer. `laid` lays them along the day."""

    def __init__(self, rate, shards, laid=False):
        self.rate, self.shards, self.words = rate, tuple(shards), b"route %d %s" % (rate, shown(shards))
        self.day = DAYS[rate].length if rate in DAYS else 0
        self.refused = 6 if rate not in DAYS else 0 if is_good(self.day, self.shards) else 16
        self.film = Film(self.day, self.shards) if laid and not self.refused else None

    def line(self, length, text):
        return b"%s %d %s" % (self.words, length, text)

    def answer(self, length, text):
        """6, 16, the label's own, 5, 17 in that order; else the first shard and the one after the last."""
        if self.refused:
            return b"refused %d 0" % self.refused
        start = start_of(self.rate, text)
        if isinstance(start, bytes):
            return start
        if not 0 <= length <= BOUND:
            return b"refused 5 0"
        if start + length > self.day:
            return b"refused 17 0"
        return b"%d %d" % self.asked(start, start + length)

    def asked(self, start, after):
        return self.film.asked(start, after) if self.film else by_borders(self.shards, start, after)

    def query(self, length, text):
        return self.line(length, text), self.answer(length, text)

    def from_frame(self, start, after, way=0):
        """The query from a frame of the day up to another, its label written in one of some ways."""
        return self.query(after - start, label(self.rate, start, way))


def label(rate, count, way=0):
    """A frame's label: as it is written; with other dividers; without the fields in front that are 0; with more zeros in front."""
    text = DAYS[rate].label(count)
    if way % 5 == 1:
        return text.replace(b":", b";")
    if way % 5 == 2:
        return text.replace(b";", b":")
    if way % 5 == 3:
        return re.sub(rb"^(?:00[:;]){0,3}0?", b"", text)
    return b":".join(field.zfill(2 + way % 8) for field in re.split(b"[:;]", text)) if way % 5 == 4 else text


# -- Lines of `ask` --

NUMBER = rb"-?[0-9]+"
SHARDS = re.compile(rb"-|%s-%s(?:,%s-%s)*" % (NUMBER, NUMBER, NUMBER, NUMBER))
LINE = re.compile(rb"route (%s) ([^ ]*) (%s)(?: (.*))?" % (NUMBER, NUMBER), re.DOTALL)
SHARD = re.compile(rb"(%s)-(%s)" % (NUMBER, NUMBER))


def number(word):
    """A number within 64 bits, whatever zeros stand in front."""
    found = int(word.lstrip(b"-0")[:20] or b"0") * (-1 if word.startswith(b"-") else 1)
    if not SMALLEST <= found <= LARGEST:
        raise ValueError
    return found


def understood(line):
    """Rate, shards, length and text of a line that has them."""
    words = LINE.fullmatch(line)
    if len(line) > LONGEST_LINE or not words or not SHARDS.fullmatch(words[2]):
        raise ValueError
    shards = [(number(first), number(end)) for first, end in SHARD.findall(words[2])]
    return number(words[1]), shards, number(words[3]), words[4] or b""


def answer(line):
    try:
        rate, shards, length, text = understood(line)
    except ValueError:
        return b"not understood"
    return Directory(rate, shards).answer(length, text)


def main():
    for line in sys.stdin.buffer:
        sys.stdout.buffer.write(answer(line.removesuffix(b"\n")) + b"\n")


if __name__ == "__main__":
    main()
