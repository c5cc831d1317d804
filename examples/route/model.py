#!/usr/bin/env python3
"""examples/route/model.py DIRECTORY < queries: what bin/route must print, worked out anew: every shard is held against every query, frame
ranges as sets of numbers are, and labels are read by docs/BEHAVIOUR.md. Slow and plain; nothing of the library is in it."""
import re
import sys

TIMEBASE = {1: 24, 2: 24, 3: 25, 4: 30, 5: 30, 6: 30, 7: 48, 8: 48, 9: 50, 10: 60, 11: 60, 12: 60}
DROPPED = {5: 2, 11: 4}
PHRASE = {
    1: "not in a form that can be read",
    2: "a number has too many digits",
    3: "a dropped label, which no frame has",
    5: "the count of frames is out of bounds",
    14: "not a time of day",
    17: "a query that ends past the day",
}


def count_of(rate, hours, minutes, seconds, frames):
    """The frames before a label: all labels before it, less those that are dropped, counted minute by minute."""
    whole = ((hours * 60 + minutes) * 60 + seconds) * TIMEBASE[rate] + frames
    total = hours * 60 + minutes
    return whole - DROPPED.get(rate, 0) * sum(1 for m in range(1, total + 1) if m % 10 != 0)


def day_of(rate):
    return count_of(rate, 23, 59, 59, TIMEBASE[rate] - 1) + 1


class Bad(Exception):
    pass


def directory(data):
    lines = data.split(b"\n")
    if lines[-1] == b"":
        lines.pop()
    head, shards = None, []
    for number, line in enumerate(lines, 1):
        def bad(words):
            raise Bad(f"line {number}: {words}")
        if len(line) > 4096:
            bad("too long")
        words = re.sub(rb"#.*", b"", line, flags=re.S).strip(b" \t\r")
        if words == b"":
            continue
        m = re.fullmatch(rb"([0-9]+)[ \t\r]+([0-9]+)", words)
        if not m or max(int(m.group(1)), int(m.group(2))) >= 2**63:
            bad("not two numbers")
        a, b = int(m.group(1)), int(m.group(2))
        if head is None:
            if a not in TIMEBASE:
                bad("no such rate (refused 6)")
            if b >= 2**32:
                bad("no such reel")
            head = a, b
            continue
        if len(shards) == 256:
            bad("more than 256 shards (refused 16)")
        if not a < b:
            bad("the shard's end is not after its first frame (refused 16)")
        if shards and a < shards[-1][1]:
            bad("the shard begins before the one before it ends (refused 16)")
        if b > day_of(head[0]):
            bad("the shard ends past the day (refused 16)")
        shards.append((a, b))
    if head is None:
        raise Bad("no line with rate and reel")
    return head[0], head[1], shards


def beginning(label):
    """How far a text goes as some label does."""
    return max(n for n in range(len(label) + 1) if re.fullmatch(rb"-?(?:[0-9]+[:;]){0,3}[0-9]*", label[:n]))


def position(rate, label):
    """(refusal, place) or (0, count)."""
    if not re.fullmatch(rb"-?[0-9]+(?:[:;][0-9]+){0,3}", label):
        return 1, beginning(label)
    for m in re.finditer(rb"[0-9]+", label):
        if len(m.group()) > 9:
            return 2, m.start()
    fields = [int(x) for x in re.findall(rb"[0-9]+", label)]
    hours, minutes, seconds, frames = [0] * (4 - len(fields)) + fields
    if label.startswith(b"-") or hours > 23 or minutes > 59 or seconds > 59 or frames >= TIMEBASE[rate]:
        return 14, 0
    if seconds == 0 and minutes % 10 != 0 and frames < DROPPED.get(rate, 0):
        return 3, 0
    return 0, count_of(rate, hours, minutes, seconds, frames)


def answer(rate, reel, shards, line):
    m = re.fullmatch(rb"(-?[0-9]+) (.*)", line, flags=re.S)
    if not m or not -2**63 <= int(m.group(1)) < 2**63 or len(line) > 4096:
        return "not understood: a query is LENGTH LABEL"
    length = int(m.group(1))
    refused, at = position(rate, m.group(2))
    if refused == 0 and not 0 <= length <= 400000000:
        refused, at = 5, 0
    if refused == 0 and at + length > day_of(rate):
        refused, at = 17, 0
    if refused:
        return f"refused {refused} {at}: {PHRASE[refused]}"
    query = range(at, at + length)
    asked = [i for i, (first, end) in enumerate(shards) if first in query or (length > 0 and at in range(first, end))]
    if not asked:
        return f"no shard of reel {reel}"
    if len(asked) == 1:
        return f"shard {asked[0]} of reel {reel}"
    assert asked == list(range(asked[0], asked[-1] + 1))
    return f"shards {asked[0]} to {asked[-1]} of reel {reel}"


def main():
    try:
        rate, reel, shards = directory(open(sys.argv[1], "rb").read())
    except Bad as e:
        print(f"error: {e}")
        return
    lines = sys.stdin.buffer.read().split(b"\n")
    if lines[-1] == b"":
        lines.pop()
    for line in lines:
        print(answer(rate, reel, shards, line))


main()
