#!/usr/bin/env python3
"""Why a text is turned down, told from the documents alone: number, place, count and fact; and the lines of `ask` that show it.

Nothing here is shared with the port or with model.py. Texts are walked byte by byte over a table of steps, labels are counted by an odometer
that walks ten minutes frame by frame, footages by a walk along three feet, perf by perf. The phrases are those of README.md.

`python3 compare/reasons.py [README] < lines` answers `why`, `read` and `read_as` in our program's place.
"""

import re
import sys
from pathlib import Path
from typing import NamedTuple

README = Path(__file__).resolve().parent.parent / "README.md"
BOUND = 400_000_000
MOST_DIGITS = 9
# a line of `ask` may have as many bytes, its newline not counted
LONGEST_LINE = 8192
TIMEBASES = {1: 24, 2: 24, 3: 25, 4: 30, 5: 30, 6: 30, 7: 48, 8: 48, 9: 50, 10: 60, 11: 60, 12: 60}
# the frame numbers that a minute begins without, but in every tenth minute
PASSED = {5: (0, 1), 11: (0, 1, 2, 3)}
# perfs a frame, perfs a foot
FILM = {1: (4, 64), 2: (3, 64), 3: (2, 64), 4: (1, 20)}


class Why(NamedTuple):
    """The answer but for the phrase; `shape` is what the reader says of an accepted text, before its count and behind it."""

    number: int
    place: int = 0
    count: int = 0
    limit: int = 0
    value: int = 0
    label: bytes = b"-"
    shape: tuple = ()


# -- The odometer, and the walk along the film --


def ten_minutes(rate):
    """What the odometer has counted where each of ten minutes begins, the frame number that it then shows, and what it has counted after all ten."""
    counted, begins = 0, []
    for minute in range(10):
        passed = () if minute == 0 else PASSED.get(rate, ())
        shown = [(second, frame) for second in range(60) for frame in range(TIMEBASES[rate]) if second > 0 or frame not in passed]
        begins.append((counted, shown[0][1]))
        counted += len(shown)
    return begins, counted


def three_feet(form):
    """The frame that each of three feet begins with and the last frame number in it, a frame lying in the foot of its last perf; and the
    frames of all three."""
    perfs, perfs_a_foot = FILM[form]
    ends = [perf // perfs_a_foot for perf in range(3 * perfs_a_foot) if perf % perfs == perfs - 1]
    return [(ends.index(foot), ends.count(foot) - 1) for foot in range(3)], len(ends)


MINUTES = {rate: ten_minutes(rate) for rate in TIMEBASES}
FEET = {form: three_feet(form) for form in FILM}
# a day is 144 times ten minutes
DAYS = {rate: 144 * counted for rate, (_, counted) in MINUTES.items()}


# -- Shapes --

# from, by which bytes, to: `0` is any digit, `:` either divider; each state leads on to some shape
FOOTAGE_STEPS = "start - signed|start 0 field|signed 0 field|field 0 field|field + plus|plus 0 frames|frames 0 frames"
FOOTAGE_STEPS += "|frames . dot|dot 0 perf|perf 0 perf"
LABEL_STEPS = "field : two|two 0 second|second 0 second|second : three|three 0 third|third 0 third|third : four|four 0 fourth|fourth 0 fourth"
BYTES = {"0": b"0123456789", ":": b":;"}
LABELS = ("field", "second", "third", "fourth")
FOOTAGES = ("frames", "perf")


def table(steps):
    """For each state the next one by byte."""
    made = {}
    for before, by, after in (step.split(" ") for step in steps.split("|")):
        made.setdefault(before, {}).update((byte, after) for byte in BYTES.get(by, by.encode()))
        made.setdefault(after, {})
    return made


STEPS = {True: table(FOOTAGE_STEPS), False: table(FOOTAGE_STEPS + "|" + LABEL_STEPS)}


def walked(text, is_stated):
    """How many bytes go on towards some shape, and where they lead; nowhere if the walk ends before the text."""
    steps, state = STEPS[is_stated], "start"
    for at, byte in enumerate(text):
        after = steps[state].get(byte)
        if after is None:
            return at, None
        state = after
    return len(text), state


def parted(text):
    """The fields' digits of a text that has a shape."""
    for divider in b":;+.":
        text = text.replace(b"%c" % divider, b" ")
    return text.removeprefix(b"-").split(b" ")


def first_long(place, fields):
    """Where the first field that is too long begins, if the first field begins at a place."""
    for digits in fields:
        if len(digits) > MOST_DIGITS:
            return place
        place += len(digits) + 1
    return None


# -- Number, place and fact --


def why(rate, position, stated, text):
    """In the order 6, 1, 2, 4, 13 or 14, 3, 5."""
    if rate not in TIMEBASES or stated is not None and stated not in FILM:
        return Why(6)
    place, state = walked(text, stated is not None)
    if state not in (FOOTAGES if stated is not None else LABELS + FOOTAGES):
        return Why(1, place)
    minus, fields = text[:1] == b"-", parted(text)
    place = first_long(int(minus), fields)
    if place is not None:
        return Why(2, place)
    values = [int(digits) for digits in fields]
    return of_footage(rate, position, stated, minus, values) if state in FOOTAGES else of_label(rate, position, minus, values)


def of_footage(rate, position, stated, minus, values):
    """4; 13 for the frames, then for the marker; then the count."""
    feet, frames, *marker = values
    if marker and stated not in (None, 2):
        return Why(4)
    form = stated or (2 if marker else 1)
    begins, in_three = FEET[form]
    threes, foot = divmod(feet, 3)
    first, last = begins[foot]
    if frames > last:
        return Why(13, limit=last, value=frames)
    if marker and marker[0] != foot:
        return Why(13, limit=foot, value=marker[0])
    return counted(rate, position, minus, threes * in_three + first + frames, (b"footage ", b" %d" % form))


def of_label(rate, position, minus, values):
    """14 for a sign, then for the leftmost field that is not strict; 3; then the count."""
    values = [0, 0, 0, *values][-4:]
    if position and minus:
        return Why(14)
    for value, limit in zip(values, (23, 59, 59, TIMEBASES[rate] - 1)):
        if position and value > limit:
            return Why(14, limit=limit, value=value)
    hours, minutes, seconds, frames = values
    begins, in_ten = MINUTES[rate]
    tens, minute = divmod(60 * hours + minutes, 10)
    begun, first = begins[minute]
    if seconds == 0 and frames < first:
        return Why(3, label=first_label(minus, hours, minutes, first))
    return counted(rate, position, minus, tens * in_ten + begun - first + seconds * TIMEBASES[rate] + frames, (b"label ", b""))


def first_label(minus, hours, minutes, first):
    """A minute's first label, as it is written: minutes past 59 are hours."""
    while minutes > 59:
        whole = minutes // 60
        hours, minutes = hours + whole, minutes - 60 * whole
    return b"%s%02d:%02d:00;%02d" % (b"-" if minus else b"", hours, minutes, first)


def counted(rate, position, minus, count, shape):
    """5, with the count as the text has it; else a position's is brought into the day."""
    count = -count if minus else count
    if abs(count) > BOUND:
        return Why(5, limit=-BOUND if minus else BOUND, value=count)
    return Why(0, count=count % DAYS[rate] if position else count, shape=shape)


# -- Phrases --


def rows(readme):
    """The cells of the table under Refusals, its head first."""
    section = Path(readme).read_text().partition("\n## Refusals\n")[2].partition("\n## ")[0]
    first_table = re.search(r"(?:^\|.*\n)+", section, re.MULTILINE)
    for row in first_table[0].splitlines() if first_table else ():
        yield [cell.strip().replace("\\|", "|") for cell in re.split(r"(?<!\\)\|", row)[1:-1]]


def phrases_of(readme):
    """The phrase of each number that has one."""
    head, *body = [*rows(readme)] or [[]]
    columns = [n for n, cell in enumerate(head) if cell.strip("`") == "phrase"]
    if not columns:
        sys.exit(f"{readme}: the table under Refusals has no column 'phrase'")
    found = {int(cells[0]): cell for cells in body if cells[0].isdigit() for cell in cells[columns[0] : columns[0] + 1]}
    return {0: b"accepted"} | {number: bare(cell) for number, cell in found.items() if cell not in ("", "-")}


def bare(cell):
    """A phrase without the marks that show it as code."""
    return cell.removeprefix("`").removesuffix("`").encode()


def faults_of(phrases):
    """What is wrong with the phrases, as answers are."""
    for number in sorted({1, 2, 3, 4, 5, 6, 13, 14, *phrases}):
        phrase = phrases.get(number)
        if phrase is None:
            yield b"phrase of %d" % number, b"none", b"one"
        elif not re.fullmatch(rb"[ -~]{1,128}", phrase) or b"#" in phrase:
            yield b"phrase of %d" % number, phrase, b"1 to 128 bytes of printable ASCII without #"
    if phrases[0] != b"accepted":
        yield b"phrase of 0", phrases[0], b"accepted"
    for number, phrase in phrases.items():
        if [*phrases.values()].count(phrase) > 1:
            yield b"phrase of %d" % number, phrase, b"another one"


# -- Lines of `ask` --


def shown(one, position, phrase, place, room):
    """The answer to `why`: the phrase laid into its line, or 8."""
    rest = room - place - len(phrase)
    if rest < 0:
        return b"refused 8 " + b"#" * room
    count = b"@%d" % one.count if position and one.number == 0 else b"%d" % one.count
    facts = one.number, one.place, count, one.limit, one.value, one.label, len(phrase)
    return b"%d %d %s %d %d %s %d %s" % (*facts, b"#" * place + phrase + b"#" * rest)


def read(one, position):
    """The reader's own answer."""
    if one.number:
        return b"refused %d %d" % (one.number, one.place)
    before, behind = one.shape
    return b"%s%s%d%s" % (before, b"@" if position else b"", one.count, behind)


def number(word, least=-(2**63), most=2**63 - 1):
    if not re.fullmatch(rb"-?[0-9]+", word) or not least <= int(word) <= most:
        raise ValueError
    return int(word)


def answer(line, phrases):
    """The answer to a line: `why RATE FORMAT PLACE ROOM TEXT`, `read RATE TEXT`, `read_as FORMAT RATE TEXT`."""
    word, *words = line.split(b" ", {b"why": 5, b"read": 2, b"read_as": 3}.get(line.split(b" ")[0], 1))
    try:
        order = {b"why": "rfpot", b"read": "rt", b"read_as": "frt"}[word]
        given = dict(zip(order, words if len(words) == len(order) else [*words, b""], strict=True))
        position = given["r"].startswith(b"@")
        rate = number(given["r"].removeprefix(b"@"))
        stated = None if word == b"read" or word == b"why" and given["f"] == b"-" else number(given["f"])
        place, room = number(given.get("p", b"0"), 0), number(given.get("o", b"0"), 0, 128)
    except (KeyError, ValueError):
        return b"not understood"
    if len(line) > LONGEST_LINE:
        return b"not understood"
    one = why(rate, position, stated, given["t"])
    return shown(one, position, phrases[one.number], place, room) if word == b"why" else read(one, position)


def main():
    phrases = phrases_of(*sys.argv[1:] or [README])
    for line in sys.stdin.buffer:
        sys.stdout.buffer.write(answer(line.removesuffix(b"\n"), phrases) + b"\n")


if __name__ == "__main__":
    main()
