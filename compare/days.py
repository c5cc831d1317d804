"""A rate's day, walked label by label: what an odometer shows, which knows no formula; and the answers that follow from it.

The odometer counts up frames, seconds, minutes and hours, and passes over the labels that are dropped. So it tells the count of every label,
which labels there are, which are passed over, and how long the day is. After the day's last label comes its first. A count past the day, or
before it, is brought in by one day after the other; what is rounded is rounded from a fraction.
"""

from bisect import bisect_right
from fractions import Fraction
from functools import lru_cache
from math import floor

# frames a second; the timebase; the frame numbers that a minute begins without
RATES = {
    1: (Fraction(24000, 1001), 24, ()),
    2: (Fraction(24), 24, ()),
    3: (Fraction(25), 25, ()),
    4: (Fraction(30000, 1001), 30, ()),
    5: (Fraction(30000, 1001), 30, (0, 1)),
    6: (Fraction(30), 30, ()),
    7: (Fraction(48000, 1001), 48, ()),
    8: (Fraction(48), 48, ()),
    9: (Fraction(50), 50, ()),
    10: (Fraction(60000, 1001), 60, ()),
    11: (Fraction(60000, 1001), 60, (0, 1, 2, 3)),
    12: (Fraction(60), 60, ()),
}
TICKS_A_SECOND = 254_016_000_000
BOUND = 400_000_000

# -- The walk --


@lru_cache(maxsize=None)
def minute_walked(rate, tenth):
    """A minute, second by second and frame by frame: what is shown, in order; where in it each stands; and what is passed over, which is
    nothing where the minute is a multiple of 10."""
    _, timebase, dropped = RATES[rate]
    shown, passed = [], set()
    for second in range(60):
        for frame in range(timebase):
            if second == 0 and frame in dropped and not tenth:
                passed.add((second, frame))
            else:
                shown.append((second, frame))
    return shown, {section: n for n, section in enumerate(shown)}, passed


class Day:
    """A rate's day, walked from midnight to midnight: the count that each minute begins with, and how many labels there are."""

    def __init__(self, rate):
        self.rate, self.begins = rate, {}
        count = 0
        for hour in range(24):
            for minute in range(60):
                self.begins[hour, minute] = count
                count += len(self.minute(minute)[0])
        self.length, self.last = count, count - 1
        self.clock, self.firsts = list(self.begins), list(self.begins.values())

    def minute(self, minute):
        return minute_walked(self.rate, minute in (0, 10, 20, 30, 40, 50))

    def label(self, count):
        """What the odometer shows after so many frames."""
        n = bisect_right(self.firsts, count) - 1
        hour, minute = self.clock[n]
        second, frame = self.minute(minute)[0][count - self.firsts[n]]
        return b"%02d:%02d:%02d%s%02d" % (hour, minute, second, b";" if RATES[self.rate][2] else b":", frame)

    def found(self, hour, minute, second, frame):
        """What the four fields of a label read as: the count at which they are shown, 3 if they are passed over, 14 if the odometer never
        gets there."""
        if (hour, minute) not in self.begins:
            return b"refused 14 0"
        _, shown, passed = self.minute(minute)
        if (second, frame) in passed:
            return b"refused 3 0"
        if (second, frame) not in shown:
            return b"refused 14 0"
        return b"label @%d" % (self.begins[hour, minute] + shown[second, frame])

    def stepped(self, count, steps):
        """So many frames on, or back, one after the other: after the last comes the first."""
        for _ in range(steps):
            count = 0 if count == self.last else count + 1
        for _ in range(-steps):
            count = self.last if count == 0 else count - 1
        return count

    def brought(self, count):
        """A count brought into the day, one day after the other."""
        while count < 0:
            count += self.length
        while count > self.last:
            count -= self.length
        return count


DAYS = {rate: Day(rate) for rate in RATES}

# -- Answers --


def nearest(exact):
    """The whole number nearest to a fraction; of two, the one farther from zero."""
    below = floor(exact)
    rest = exact - below
    if rest == Fraction(1, 2):
        return below if exact < 0 else below + 1
    return below + 1 if rest > Fraction(1, 2) else below


def length_made(exact):
    """A length from so many frames: rounded, then held to the bound."""
    count = nearest(exact)
    return b"%d" % count if -BOUND <= count <= BOUND else b"refused 5"


def position_made(rate, exact):
    """A position from so many frames: rounded, then held to the bound, then brought into the day."""
    return brought(rate, length_made(exact))


def brought(rate, answer):
    """A position's answer, where a length of the same numbers has that one: a refusal stays, a count is brought into the day."""
    if answer.startswith(b"refused"):
        return answer
    words = answer.split(b" ")
    n = 1 if words[0] == b"footage" else 0
    words[n] = b"@%d" % DAYS[rate].brought(int(words[n]))
    return b" ".join(words)


def label_answer(rate, minus, digits):
    """What a text of the label's shape reads as, its sign and its fields' digits apart: 2 and the place, 14, 3 or the count."""
    place = len(minus)
    for field in digits:
        if len(field) > 9:
            return b"refused 2 %d" % place
        place += len(field) + 1
    absent = [0] * (4 - len(digits))
    return b"refused 14 0" if minus else DAYS[rate].found(*absent, *map(int, digits))
