"""Directories of shards for the judge of the router, good and broken, as lists of first frame and frame behind the last; and numbers of
frames around their borders."""

from itertools import combinations, product
from random import Random

from days import BOUND, DAYS
from router import LARGEST, SMALLEST

SIZES = [1, 2, 3, 4, 5, 7, 8, 9, 16, 17, 31, 33, 63, 64, 65, 127, 128, 129, 200, 254, 255, 256]

# -- Good ones --


def every_small(frames):
    """Every good directory over a few frames: each way to part them into runs, and each run a shard or a gap."""
    for many in range(frames):
        for cuts in combinations(range(1, frames), many):
            runs = [*zip((0, *cuts), (*cuts, frames))]
            for chosen in product((False, True), repeat=len(runs)):
                # two gaps beside each other are one gap, which another way to part them has
                if not any(not here and not behind for here, behind in zip(chosen, chosen[1:])):
                    yield [run for run, is_shard in zip(runs, chosen) if is_shard]


def touching(first, after, many):
    """So many shards that fill the frames from one up to another, all about as long."""
    borders = [first + (after - first) * n // many for n in range(many + 1)]
    return [*zip(borders, borders[1:])]


def spaced(first, many, length, gap):
    """So many shards of one length with the same gap before each."""
    return [(first + n * (gap + length) + gap, first + (n + 1) * (gap + length)) for n in range(many)]


def at_minutes(rate, many, few):
    """A shard for each minute from the last of the day back, each beginning and ending some frames beside it."""
    borders = [border + few for border in (*DAYS[rate].firsts[1439 - many : 1439], DAYS[rate].firsts[1439])]
    return [*zip(borders, borders[1:])]


def scattered(random, first, after, many):
    """Borders anywhere; about half of the shards touch the one before."""
    borders = sorted(random.sample(range(first, after + 1), min(2 * many, after + 1 - first)))
    shards = [*zip(borders[::2], borders[1::2])]
    return [(shards[n - 1][1] if n and random.random() < 0.5 else shard[0], shard[1]) for n, shard in enumerate(shards)]


def good(rate):
    """Directories of every size: touching, spaced, scattered, in the whole day and in a part of it."""
    day, random = DAYS[rate].length, Random(rate)
    yield from ([], [(0, day)], [(0, 1)], [(day - 1, day)], [(1, day - 1)], [(0, 1), (day - 1, day)], [(0, day // 2), (day // 2, day)])
    for many in SIZES:
        yield touching(0, day, many)
        yield touching(day - many, day, many)
        yield spaced(0, many, 1 + many % 3, 1 + many % 2)
        yield spaced(day - 1000 * many, many, 999, 1)
        yield at_minutes(rate, many, many % 3 - 1)
        yield scattered(random, 0, day, many)
        yield scattered(random, 0, 2 * many, many)


# -- Broken ones --


def breaks(day, shards, n):
    """Each rule broken at one place."""
    first, end = shards[n]
    before, behind = shards[:n], shards[n + 1 :]
    empty = [(first, first), (end, end), (end, first), (end, end - 1), (0, 0), (day, day)]
    outside = [(-1, end), (-end, end), (-end, -first), (first, day + 1), (day, day + 1), (day - 1, day + 1), (first, 2 * day)]
    huge = [(first + few, end + few) for few in (2**8, 2**16, 2**31, 2**32, -(2**32), 2**33, 2**62)]
    huge += [(first, end + 2**32), (first - 2**32, end), (SMALLEST, end), (first, LARGEST), (SMALLEST, LARGEST), (LARGEST, SMALLEST), (SMALLEST, SMALLEST)]
    huge += [(LARGEST - 1, LARGEST), (first, SMALLEST), (LARGEST, end), (first, BOUND), (-BOUND, end)]
    for shard in empty + outside + huge:
        yield [*before, shard, *behind]
    yield [*before, (first, end), (first, end), *behind]
    if before:
        yield [*before, (before[-1][1] - 1, end), *behind]
        yield [*before, (before[-1][0], end), *behind]
        yield [*before[:-1], (first, end), before[-1], *behind]
        yield [(first, end), *before, *behind]
    if behind:
        yield [*before, (first, behind[0][0] + 1), *behind]
        yield [*before, (first, behind[-1][1]), *behind]
        yield [*before, *behind, (first, end)]


def too_many():
    """More shards than there may be, else good; and as many as there may be."""
    for many in (255, 256, 257, 258, 259, 300, 511, 512, 513, 640):
        yield touching(0, many, many)
        yield touching(0, 3 * many, many)
    yield from ([(0, 1)] * many for many in (256, 257, 600, 2000))
    yield from ([(0, 0)] * many for many in (256, 257, 2000))
    yield [*touching(0, 256, 256), (0, 1)]
    yield [*touching(0, 256, 256), (-1, 256)]
    yield [*touching(0, 256, 256), *touching(256, 512, 256)]
    yield [(0, 1)] * 256 + [(5, 9)]


# -- Frames around borders --


def near(day, borders):
    """Frames at, one before and one behind each border that lie in the day or end it."""
    return sorted({border + few for border in borders for few in (-1, 0, 1) if 0 <= border + few <= day})


def every_query(day, shards):
    """From near any border, or an end of the day, up to near any other, and one frame past the day."""
    frames = near(day, {0, day, *(border for shard in shards for border in shard)})
    for start in frames:
        if start < day:
            yield from ((start, after) for after in (*frames, day + 1) if start <= after)


def some_queries(day, shards, random, step):
    """From near one border of so many, the first ones and the last ones always: no frame, few, up to near the next borders, to the day's end, past it and anywhere."""
    borders = sorted({border for shard in shards for border in shard})
    for n in sorted({0, 1, len(borders) - 2, len(borders) - 1, *range(random.randrange(step), len(borders), step)}):
        following = near(day, [*borders[n + 1 : n + 3], *random.sample(borders, 1)])
        for start in near(day - 1, [borders[n]]):
            afters = {start, start + 1, start + 2, day, day + 1, random.randint(start, day), *following}
            yield from ((start, after) for after in sorted(afters) if after >= start)
