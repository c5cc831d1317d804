#!/usr/bin/env python3
"""Holds `read_list` and `write_list` to the format of shot lists as docs/BEHAVIOUR.md says it, by Python's own packing of numbers.

`python3 compare/lists.py full|quick ASK ..` asks our program (`ask`'s commands) and compares whole answers; compare/all.sh calls it. What is
read is written again, too, and must have the same bytes. The last line is 'shot lists: N judged, 0 wrong'.
"""

import re
import struct
import sys
from itertools import product
from random import Random

import all as comparison

KINDS = {1: ("rate", "B"), 2: ("shot", "<ii"), 3: ("reel", "<I")}
WORDS = {word: kind for kind, (word, _) in KINDS.items()}
HEX = re.compile(rb"-|(?:[0-9a-fA-F]{2})+")
NUMBER = re.compile(rb"-?[0-9]+")
MOST = 400_000_000
# a line of `ask` may have as many bytes, its newline not counted, and so many of a list
LONGEST_LINE = 8192
LONGEST_LIST = (LONGEST_LINE - len("read_list ")) // 2


class Refused(Exception):
    pass


# -- The format --


def judged(kind, numbers, held):
    """The rate that is held behind a record, or what it is refused."""
    if kind == 1:
        if not 1 <= numbers[0] <= 12:
            raise Refused(6)
        return numbers[0]
    if kind == 2:
        if any(abs(frame) > MOST for frame in numbers):
            raise Refused(5)
        if held is None:
            raise Refused(11)
        if numbers[1] < numbers[0]:
            raise Refused(12)
    elif not 0 <= numbers[0] < 2**32:
        raise Refused(5)
    return held


def read(data):
    """The records of a list."""
    records, held, at = [], None, 0
    while at < len(data):
        if data[at] not in KINDS:
            raise Refused(9)
        _, form = KINDS[data[at]]
        body = data[at + 1 : at + 1 + struct.calcsize(form)]
        if len(body) < struct.calcsize(form):
            raise Refused(10)
        numbers = struct.unpack(form, body)
        held = judged(data[at], numbers, held)
        records.append((data[at], numbers))
        at += 1 + len(body)
    return records


def packed(records):
    return b"".join(bytes([kind]) + struct.pack(KINDS[kind][1], *numbers) for kind, numbers in records)


def words(records):
    return [word for kind, numbers in records for word in (KINDS[kind][0], *map(str, numbers))]


# -- Answers of `ask` --


def shown(data):
    return data.hex().encode() or b"-"


def read_list(rest):
    if not HEX.fullmatch(rest):
        return b"not understood"
    records = read(bytes.fromhex(rest.decode()) if rest != b"-" else b"")
    return " ".join([str(len(records)), *words(records)]).encode()


def within(word, least=-(2**63), most=2**63 - 1):
    if not NUMBER.fullmatch(word) or not least <= int(word) <= most:
        raise ValueError
    return int(word)


def parsed(rest):
    """PLACE, ROOM and the records."""
    place, room, *left = rest.split(b" ")
    place, room, records = within(place, 0), within(room, 0, 1024), []
    while left:
        kind = WORDS[left.pop(0).decode("latin-1")]
        many = 2 if kind == 2 else 1
        if len(left) < many:
            raise ValueError
        records.append((kind, tuple(map(within, left[:many]))))
        left = left[many:]
    return place, room, records


def write_list(rest):
    try:
        place, room, records = parsed(rest)
    except (ValueError, KeyError):
        return b"not understood"
    line, held = b"#" * room, None
    try:
        for kind, numbers in records:
            held = judged(kind, numbers, held)
        data = packed(records)
        if place + len(data) > room:
            raise Refused(8)
    except Refused as refusal:
        return b"refused %d %s" % (refusal.args[0], shown(line))
    return b"%d %s" % (len(data), shown(line[:place] + data + line[place + len(data) :]))


def right(command):
    """The whole answer of `ask`."""
    word, _, rest = command.partition(b" ")
    if len(command) > LONGEST_LINE:
        return b"not understood"
    try:
        return {b"read_list": read_list, b"write_list": write_list}[word](rest)
    except Refused as refusal:
        return b"refused %d" % refusal.args


# -- Lists --

FRAMES = (0, 1, -1, 99, MOST, MOST + 1, -MOST, -MOST - 1, 2**31 - 1, -(2**31))
PAST = (2**31, -(2**31) - 1, 2**32, 2**63 - 1, -(2**63))
RATES = (0, 1, 5, 12, 13, 255)
REELS = (0, 7, 255, 256, 65536, 2**24, 2**31, 2**32 - 1)


def bounds():
    """Each record at each bound of its bytes."""
    yield from ((1, (rate,)) for rate in RATES)
    yield from ((2, pair) for pair in product(FRAMES, repeat=2))
    yield from ((3, (reel,)) for reel in REELS)


def at_bounds():
    """Each record at each bound, alone and behind a rate, a reel and a rate, and another record at fault."""
    before = [[], [(1, (5,))], [(1, (5,)), (3, (7,))], [(3, (7,))], [(2, (MOST + 1, 0))], [(1, (0,))], [(1, (2,)), (2, (1, 0))]]
    for front, made in product(before, bounds()):
        data = packed([*front, made])
        yield b"read_list " + shown(data)
        yield b"read_list " + shown(data + b"\4")
        yield b"read_list " + shown(data + packed([(2, (3, 2))]))
        yield b"write_list 1 40 " + " ".join(words([*front, made])).encode()
    for front, made in product(before, bounds_past()):
        yield b"write_list 1 40 " + " ".join(words([*front, made])).encode()


def bounds_past():
    """Each record with numbers that its bytes cannot hold."""
    yield from ((1, (rate,)) for rate in (256, 261, 300, -1, -251, *PAST))
    yield from ((2, pair) for pair in product((0, *PAST), repeat=2))
    yield from ((3, (reel,)) for reel in (2**32, -1, *PAST))


def pairs():
    """Two records of each kind and of each fault, one behind the other, before any rate and behind one; the second one cut short, too."""
    ones = [b"\0", b"\4\0", b"\xff", b"\1", b"\2", b"\2" + bytes(7), b"\3\0\0", *map(packed, ([(1, (r,))] for r in (0, 1, 12, 13)))]
    ones += [packed([(2, pair)]) for pair in product((0, 5, -5, MOST, MOST + 1, -MOST - 1), repeat=2)] + [packed([(3, (7,))])]
    for front, one, two in product((b"", b"\1\5", b"\3\1\0\0\0"), ones, ones):
        yield b"read_list " + shown(front + one + two)


def short_lists(longest):
    """Every list of up to so many bytes over those that matter."""
    for many in range(longest + 1):
        yield from (b"read_list " + shown(bytes(made)) for made in product((0, 1, 2, 3, 4, 12, 13, 255), repeat=many))


def good(random, many):
    """Records that nothing speaks against."""
    records, held = [], False
    for _ in range(many):
        kind = random.choice((1, 2, 2, 3)) if held else random.choice((1, 3))
        held |= kind == 1
        frames = sorted(random.choice((random.randint(-MOST, MOST), random.randint(-300, 300), MOST, -MOST)) for _ in "ab")
        numbers = {1: (random.randint(1, 12),), 2: tuple(frames), 3: (random.randint(0, 2 ** random.randint(0, 32) - 1),)}[kind]
        records.append((kind, numbers))
    return records


def cut(seed, many):
    """Good lists, whole and cut at every byte."""
    random = Random(seed)
    for _ in range(many):
        data = packed(good(random, random.randint(0, 30)))
        yield from (b"read_list " + shown(data[:at]) for at in range(len(data) + 1))


def damaged(seed, many):
    """Random bytes, and good lists with bytes changed, taken out and put in."""
    random = Random(seed)
    for _ in range(many):
        data = bytearray(packed(good(random, random.randint(1, 40))))
        for _ in range(random.randint(1, 3)):
            at = random.randrange(len(data)) if data else 0
            data[at : at + random.randint(0, 2)] = bytes(random.choice((0, 1, 2, 3, 255, random.randrange(256))) for _ in range(random.randint(0, 2)))
        yield b"read_list " + shown(bytes(data))
        yield b"read_list " + shown(random.randbytes(random.randint(1, 20)))


def full_lines():
    """Lists as long as a line may be, and one byte longer: of rates, shots, reels and all of them."""
    for record in ((1, (12,)), (2, (-MOST, -MOST)), (3, (2**32 - 1,))):
        many = LONGEST_LIST // len(packed([record]))
        data = packed([(1, (12,))] * (record[0] == 2) + [record] * (many - (record[0] == 2)))
        yield from (b"read_list " + shown(data), b"read_list " + shown(data) + b"0", b"read_list " + shown(data + b"\1"))
        yield from (b"read_list " + shown((data + bytes(size))[:size]) for size in (2043, 2044, LONGEST_LIST, LONGEST_LIST + 1))
    for word in ("rate 5", "reel 7", "shot 0 0"):
        made = " ".join(["write_list 0 1024 rate 5", *[word] * 1200]).encode()
        yield from (made[:at] for at in (4096, 4097, *range(LONGEST_LINE - 8, LONGEST_LINE + 2)))


def written(seed, many):
    """Records as words, good and not, in lines that have room, just enough or not."""
    random = Random(seed)
    for _ in range(many):
        records = good(random, random.randint(0, 12))
        if random.random() < 0.4 and records:
            records[random.randrange(len(records))] = random.choice((*bounds(), *bounds_past()))
        size = sum({1: 2, 2: 9, 3: 5}[kind] for kind, _ in records)
        place = random.choice((0, 0, 1, 3, random.randint(0, 60), 2**63 - 1))
        room = max(0, min(1024, place % 100 + size + random.choice((-2, -1, 0, 0, 1, 3))))
        yield " ".join(["write_list", str(place), str(room), *words(records)]).encode()


# as `not understood`, but for the HEX in capitals, a PLACE past ROOM and numbers with zeros in front
MALFORMED = [
    *(b"read_list" + rest for rest in (b"", b" ", b"  -", b" - ", b" --", b" 0", b" 000", b" 0g", b" 01-", b" -01", b" 01 05", b" 0105 ", b" 0x01", b" 01\xe9")),
    *(b"read_list " + text for text in (b"-", b"0105", b"01FF", b"01fF", b"03ABCDEFAB", b"03abcdefab")),
    *(b"write_list" + rest for rest in (b"", b" 0", b" 0 ", b" -1 0", b" 0 -1", b" 0 1025", b" 0 1025 rate 13", b" x 0", b" 0 0 ", b" 0  0")),
    *(b"write_list 0 9" + rest for rest in (b" rate", b" rate ", b" rate x", b" rate  5", b"  rate 5", b" rate 5 ", b" rate 5  reel 1", b" rate 5 6", b" Rate 5")),
    *(b"write_list 0 9" + rest for rest in (b" shot 1", b" shot 1 ", b" shot 1 2 3", b" shot", b" reel", b" reel +1", b" reel 1x", b" rates 5", b" rat 5", b" kind 1 5")),
    *(b"write_list 0 9 rate %d" % n for n in (2**63, -(2**63) - 1, 2**63 - 1, -(2**63), 10**30)),
    *(b"write_list " + rest for rest in (b"0 0", b"1 0", b"5 4", b"0 1024", b"1024 1024", b"1025 1024", b"9223372036854775807 1024", b"9223372036854775808 1")),
    *(b"write_list " + rest for rest in (b"0 2 rate 005", b"0 9 rate 5 shot -0 0", b"00 07 reel 007", b"0 1024 rate 1 shot 5 5")),
]


# -- Judging --


def jobs(quick):
    yield (lambda: iter(MALFORMED),)
    yield from ((made,) for made in (at_bounds, pairs, full_lines))
    yield short_lists, 4 if quick else 6
    for seed in range(4 if quick else 60):
        yield cut, seed, 40
        yield damaged, seed, 4_000
        yield written, seed, 4_000


def again(command, answer):
    """What was read, to be written again, and the answer that has the same bytes."""
    word, _, rest = command.partition(b" ")
    if word != b"read_list" or not answer[:1].isdigit():
        return None
    data = b"" if rest == b"-" else bytes.fromhex(rest.decode())
    made = b" ".join([b"write_list 0 %d" % len(data), *answer.split(b" ", 1)[1:]])
    return (made, b"%d %s" % (len(data), shown(data))) if len(data) <= 1024 and len(made) <= LONGEST_LINE else None


def work(job):
    """How many were judged, and what was wrong."""
    ask, number, quick = job
    make, *arguments = list(jobs(quick))[number]
    asked = list(dict.fromkeys(make(*arguments)))
    answers = list(comparison.answers(ask, asked))
    wrong = [(command, ours, wanted) for command, ours in zip(asked, answers) if ours != (wanted := right(command))]
    back = [made for command, ours in zip(asked, answers) if (made := again(command, ours))]
    if back:
        read_back = zip(back, comparison.answers(ask, [command for command, _ in back]))
        wrong += [(command, ours, wanted) for (command, wanted), ours in read_back if ours != wanted]
    return len(asked) + len(back), wrong


def main():
    size, *ask = sys.argv[1:]
    quick = size == "quick"
    comparison.judge_all("shot lists", work, [(ask, number, quick) for number in range(len(list(jobs(quick))))])


if __name__ == "__main__":
    main()
