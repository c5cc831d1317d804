"""The inputs of the comparison: commands of `ask`, made by the same rules on every run.

`jobs` lists what is made: each job is a function and its arguments, and gives a list of commands. Random ones come from the
job's own seed.
"""

from itertools import product
from random import Random

import model
from chosen import BOUND, FORMATS, RATES, count, fraction, one_of, past, up_to
from texts import SHORT, WIDE, every_text, random_texts

# -- Writers --


def line(random, length):
    """PLACE and ROOM for a text of about that length: enough, just enough or not, and a place far past the line."""
    if random.random() < 0.03:
        return b"%d %d" % (random.choice([2**63 - 1, 2**63 - 12, 2**32, 129, 128]), random.randint(0, 128))
    place = random.choice([0, 0, 1, 2, 7, random.randint(0, 110)])
    room = place + length + random.choice([-9, -2, -1, 0, 0, 1, 1, 2, 3, 5, 18])
    return b"%d %d" % (place, min(128, room))


def label_with_room(rate, count):
    return b"label %d %d %d %d" % (rate, count, count % 19, count % 19 + 11 + count % 4)


def day(rate, first, last):
    """A day's labels from one count to before another, each in a line that has room for it."""
    return [label_with_room(rate, count) for count in range(first, last)]


def day_steps(rate, step):
    """The counts around each minute's beginning, and every so many between."""
    firsts = [model.label_count(rate, 0, minute, 0, 0) for minute in range(1441)]
    counts = {*range(0, firsts[-1], step), *(first + k for first in firsts for k in range(6) if first + k < firsts[-1])}
    return [label_with_room(rate, count) for count in sorted(counts)]


def labels(seed, many):
    """Counts around seconds, minutes, ten minutes, hours and days."""
    random = Random(seed)
    commands = []
    for _ in range(many):
        rate = one_of(random, RATES)
        timebase, dropped = model.RATES.get(rate, (0, 0, 24))[2], model.DROPPED.get(rate, 0)
        ten = 600 * timebase - 9 * dropped
        number = count(random, timebase, 60 * timebase - dropped, ten, 6 * ten, 144 * ten)
        commands.append(b"label %d %d %s" % (rate, number, line(random, 11)))
    return commands


def footages(seed, many):
    """Counts around each format's feet."""
    random = Random(seed)
    commands = []
    for _ in range(many):
        form, rate, number = one_of(random, FORMATS), one_of(random, RATES), count(random, 16, 20, 21, 32, 64)
        commands.append(b"footage %d %d %d %s" % (form, rate, number, line(random, 9)))
    return commands


def runtimes(seed, many):
    """Counts around seconds, minutes and hours, at each precision."""
    random = Random(seed)
    commands = []
    for _ in range(many):
        rate = one_of(random, RATES)
        n, d, timebase, _ = model.RATES.get(rate, (24, 1, 24, 0))
        number = count(random, timebase, 60 * timebase, 3600 * n // d, n)
        within = random.random() < 0.97
        precision = random.randint(0, 6) if within else random.choice([-1, 7, 8, 9, 20, 1001, 2**63 - 1])
        commands.append(b"runtime %d %d %d %s" % (rate, number, precision, line(random, 11)))
    return commands


def first_runtimes(rate, last):
    """The first counts at each precision, in a line that has room."""
    return [b"runtime %d %d %d %d %d" % (rate, n, p, n % 5, n % 5 + 18) for n in range(last) for p in range(7)]


# -- Operations --


def one_count(random):
    return b"%d %d" % (one_of(random, RATES), count(random))


def two_counts(random):
    """Two timecodes: any, and those that lie near each other."""
    rate, rate2 = one_of(random, RATES), one_of(random, RATES)
    number = count(random)
    if random.random() < 0.7:
        return b"%d %d %d %d" % (rate, number, rate2, count(random))
    left, right = (model.RATES.get(r, (0, 0, 0, 1))[3] for r in (rate, rate2))
    near = number * left // right + random.randint(-1, 2)
    return b"%d %d %d %d" % (rate, number, rate2, max(-(2**63), min(near, 2**63 - 1)))


def some_ticks(random):
    """Ticks: around half a frame, and any."""
    rate = one_of(random, RATES)
    ticks = model.RATES.get(rate, (0, 0, 0, 1))[3]
    if random.random() < 0.5:
        number = (2 * up_to(random, BOUND) + 1) * ticks // 2 + random.randint(-1, 1)
    else:
        number = random.choice([past(random), up_to(random, 2**62), up_to(random, 10**13)])
    return b"%d %d" % (rate, number)


def some_seconds(random):
    """Seconds: any, and those half way between two frames."""
    rate = one_of(random, RATES)
    if random.random() < 0.7:
        return b"%d %s" % (rate, fraction(random, random.choice([10**12, 10**7])))
    n, d, _, _ = model.RATES.get(rate, (24, 1, 0, 0))
    return b"%d %d %d" % (rate, (2 * up_to(random, 10**6) + 1) * d, 2 * n)


def by_fraction(random):
    return b"%s %s" % (one_count(random), fraction(random, 10**6))


def by_number(random):
    """A whole divisor: any 64-bit number."""
    chance = random.random()
    divisor = past(random) if chance < 0.1 else up_to(random, BOUND if chance < 0.5 else 1000)
    return b"%s %d" % (one_count(random), divisor)


def to_rate(random):
    return b"%s %d" % (one_count(random), one_of(random, RATES))


def through_rates(random):
    """A list of none to 64 rates, mostly short."""
    many = random.randint(0, 6) if random.random() < 0.97 else random.randint(7, 64)
    return b" ".join([one_count(random), *(b"%d" % one_of(random, RATES) for _ in range(many))])


OPERATIONS = {
    b"count": one_count,
    b"from_ticks": some_ticks,
    b"from_seconds": some_seconds,
    b"ticks": one_count,
    b"seconds": one_count,
    b"add": two_counts,
    b"sub": two_counts,
    b"cmp": two_counts,
    b"mul": by_fraction,
    b"div": by_number,
    b"rem": by_number,
    b"divq": by_fraction,
    b"remq": by_fraction,
    b"neg": one_count,
    b"abs": one_count,
    b"rebase": to_rate,
    b"convert": through_rates,
}


def operations(word, seed, many):
    random = Random(seed)
    return [word + b" " + OPERATIONS[word](random) for _ in range(many)]


EDGES = [0, 1, -1, 2, -5, 12, 901, -1800, 86400, -2589408, BOUND - 1, BOUND, -BOUND, BOUND + 1]


def all_pairs(word):
    """Each pair of rates with each pair of edges."""
    return [b"%s %d %d %d %d" % (word, r, c, s, d) for r, s, c, d in product(RATES, RATES, EDGES, EDGES)]


def all_steps(word):
    """Each edge from each rate to each."""
    return [b"%s %d %d %d" % (word, r, c, s) for r, s, c in product(RATES, RATES, EDGES)]


def minutes():
    return [b"minute %d" % minute for minute in range(1440)]


# -- What is made --


def jobs(quick):
    """All jobs: half a million commands, or 26 million."""
    longest, wide, many, seeds = (4, 2, 5000, 1) if quick else (6, 4, 50000, 4)
    for rate in RATES:
        yield every_text, b"read %d " % rate, SHORT, longest
        yield every_text, b"read_runtime %d " % rate, SHORT, longest
        yield first_runtimes, rate, many // 20
    for form, rate in zip(FORMATS, (1, 5, 11, 12)):
        yield every_text, b"read_as %d %d " % (form, rate), SHORT, longest
        yield every_text, b"read_as %d %d " % (form, rate), WIDE, wide
    for rate in (2, 5):
        yield every_text, b"read %d " % rate, WIDE, wide
        yield every_text, b"read_runtime %d " % rate, WIDE, wide
    for seed in range(5 * seeds):
        for word in (b"read", b"read_as", b"read_runtime"):
            yield random_texts, word, seed, many
        for make in (labels, footages, runtimes):
            yield make, seed, many
    for seed, word in product(range(seeds), OPERATIONS):
        yield operations, word, seed, many
    for word in (b"add", b"sub", b"cmp"):
        yield (all_pairs, word)
    for word in (b"rebase", b"convert"):
        yield (all_steps, word)
    yield (minutes,)
    for rate, length in ((5, 2589408), (11, 5178816)):
        if quick:
            yield day_steps, rate, 997
        else:
            yield from ((day, rate, first, min(first + 200000, length)) for first in range(0, length, 200000))
