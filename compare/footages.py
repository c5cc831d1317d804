#!/usr/bin/env python3
"""Holds which footages are read, and as what, to a walk along the film, perf by perf, which knows no formula.

`python3 compare/footages.py full|quick ASK ..` asks our program (`ask`'s commands) and compares whole answers; compare/all.sh calls it.
A frame lies in the foot that its last perf lies in, and the frames of a foot are numbered from 0 as the walk meets them. A footage whose
foot and number the walk has met is the frame met there; any other cannot be on the film, and is refused 13. The marker of a foot is told by
counting 0, 1, 2 as the walk goes. The last line is 'footages: N judged, 0 wrong'.
"""

import sys
from functools import lru_cache
from itertools import product

import all as comparison

# perfs a frame, perfs a foot
GAUGES = {1: (4, 64), 2: (3, 64), 3: (2, 64), 4: (1, 20)}
BOUND = 400_000_000

# frames in three feet, which begin and end with a frame and with the marker 0
IN_THREE = {1: 48, 2: 64, 3: 96, 4: 60}

# where the walks begin: the film's beginning; feet of five digits; where each format passes the bound on counts; the last feet of nine digits
STARTS = [0, 99_999, 12_499_998, 18_749_997, 19_999_998, 24_999_999, 999_999_996]


@lru_cache(maxsize=None)
def walk(form, foot, feet):
    """From where a foot, a frame and three feet begin together, for so many feet: the count of each frame by its foot and its number in
    that foot; and each foot's marker."""
    perfs_a_frame, perfs_a_foot = GAUGES[form]
    met, markers = {}, {}
    frame = foot // 3 * IN_THREE[form]
    of_frame = of_foot = number = marker = 0
    for _ in range(feet * perfs_a_foot):
        markers[foot] = marker
        of_frame += 1
        of_foot += 1
        if of_frame == perfs_a_frame:  # the frame's last perf
            met[foot, number] = frame
            of_frame, frame, number = 0, frame + 1, number + 1
        if of_foot == perfs_a_foot:
            of_foot, foot, number, marker = 0, foot + 1, 0, (1, 2, 0)[marker]
    return met, markers


def right(start, feet, stated, minus, foot, number, marker):
    """The whole answer of `ask`; the fields and the marker are given as numbers, a marker that is absent as none."""
    if marker is not None and stated not in (None, 2):
        return b"refused 4 0"
    form = stated or (1 if marker is None else 2)
    met, markers = walk(form, start, feet)
    if (foot, number) not in met or marker not in (None, markers[foot]):
        return b"refused 13 0"
    count = met[foot, number]
    return b"refused 5 0" if count > BOUND else b"footage %d %d" % (-count if minus else count, form)


MARKERS = [b"", *(b".%0*d" % (width, n) for width in (1, 2) for n in range(10**width)), b".000", b".002", b".003", b".000000001", b".999999999"]
NUMBERS = [*range(35), 63, 64, 999_999_999]


def commands(quick, start, stated):
    """Every frames number past the last one of a foot, with every marker, from a foot on; with a sign and zeros in front, and without."""
    feet = min(3 if quick else 9, 10**9 - start)
    ask = b"read 5 " if stated is None else b"read_as %d 5 " % stated
    for foot, number, perf in product(range(start, start + feet), NUMBERS, [*MARKERS[:5], *MARKERS[5:: 12 if quick else 1]]):
        marker = int(perf[1:]) if perf else None
        for minus in (False, True):
            wide = minus and (foot + number) % 2 == 0
            text = b"%s%0*d+%0*d%s" % (b"-" * minus, 9 if wide else 1, foot, 9 if wide else 1 + number % 3, number, perf)
            yield ask + text, right(start, feet, stated, minus, foot, number, marker)


def work(job):
    ask, *of_what = job
    asked, wanted = zip(*commands(*of_what))
    given = comparison.answers(ask, asked)
    return len(asked), [one for one in zip(asked, given, wanted) if one[1] != one[2]]


def jobs(quick, ask):
    for start, stated in product(STARTS, (None, *GAUGES)):
        yield ask, quick, start, stated


def main():
    size, *ask = sys.argv[1:]
    comparison.judge_all("footages", work, jobs(size == "quick", ask))


if __name__ == "__main__":
    main()
