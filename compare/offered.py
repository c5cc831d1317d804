"""Texts to ask about: each with a rate, whether it is to be a position, and the stated format, if any.

Every way to each refusal: labels and footages on both sides of every limit, counts on both sides of the bounds, several faults in one
text, texts of no shape, and random ones that mix all of these.
"""

from itertools import product
from random import Random

LARGEST, SMALLEST = 2**63 - 1, -(2**63)
RATES = range(1, 13)
NO_RATES = [0, 13, -1, 256, 261, 2**32 + 5, LARGEST, SMALLEST]
FORMATS = [None, 1, 2, 3, 4]
NO_FORMATS = [0, 5, -1, 257, 2**32 + 2, LARGEST, SMALLEST]
TIMEBASES = [24, 24, 25, 30, 30, 30, 48, 48, 50, 60, 60, 60]
KINDS = (False, True)
SIGNS = (b"", b"-")
BOUND = 400_000_000

# -- Labels --

HOURS = [0, 22, 23, 24, 25, 99, 100, 999_999_999]
SIXTY = [0, 1, 9, 10, 11, 58, 59, 60, 61, 119, 120, 599, 600, 999_999_999]


def frames_at(rate):
    """Frame numbers around the dropped ones and around the timebase."""
    timebase = TIMEBASES[rate - 1]
    return [0, 1, 2, 3, 4, 5, timebase - 1, timebase, timebase + 1, 999_999_999]


def joined(values, n):
    """Fields in the n-th way: every choice of dividers, and one to nine digits."""
    text = b""
    for at, value in enumerate(values):
        divider = b":;"[n >> at & 1 : (n >> at & 1) + 1] if at else b""
        text += divider + b"%0*d" % ((2, 1, 9, 2, 3)[(n + at) % 5], value)
    return text


def labels(rate, position, many):
    """Every combination of values around the limits, so many fields, with a sign and without."""
    sets = (HOURS, SIXTY, SIXTY, frames_at(rate))[4 - many :]
    for n, (values, sign) in enumerate(product(product(*sets), SIGNS)):
        yield rate, position, None, sign + joined(values, n // 2 + n // 97)


def every_divider(rate):
    """Labels of each length with each choice of dividers, each kind, with a sign and without, any format stated."""
    for many, sign, position, stated in product(range(1, 5), SIGNS, KINDS, (None, 1, 2)):
        for values in ((0, 0, 0, 0), (1, 2, 3, 4), (0, 1, 0, 1), (25, 71, 0, 3), (7, 59, 59, 61)):
            for n in range(16):
                yield rate, position, stated, sign + joined(values[4 - many :], n)


def dropped(rate):
    """The first labels of every minute of some hours, and of minutes past 59; of two, three and four fields."""
    hours = [b"", b"0:", b"7:", b"23:", b"24:", b"99:", b"100:", b"4630:", b"999999999:"]
    minutes = [*range(62), 69, 70, 71, 119, 120, 121, 599, 600, 601, 3599, 3601, 99_999, 999_999_939, 999_999_961, 999_999_990]
    for hour, minute, frame, sign, position in product(hours, minutes, range(6), SIGNS, KINDS):
        text = b"%s%s%0*d:%s;%d" % (sign, hour, 1 + frame % 2, minute, b"0" * (1 + minute % 3), frame)
        yield rate, position, None, text
    for frame, zeros, sign, position in product(range(6), (1, 2, 9), SIGNS, KINDS):
        yield rate, position, None, b"%s%0*d" % (sign, zeros, frame)
        yield rate, position, None, b"%s0:%0*d" % (sign, zeros, frame)


# -- Counts at the bounds --


def nominal(rate, hours, minutes, seconds):
    """What a label counts up to its frames."""
    whole = 60 * hours + minutes
    return (60 * whole + seconds) * TIMEBASES[rate - 1] - {5: 2, 11: 4}.get(rate, 0) * (whole - whole // 10)


def bound_labels(rate):
    """Labels whose counts lie around the bounds, spread over their fields in many ways."""
    seconds_there = BOUND // TIMEBASES[rate - 1]
    hours_there = seconds_there // 3600
    minutes_there = seconds_there // 60
    spread = [(0, 0, 0), (0, 0, seconds_there), (0, 0, 7), (0, minutes_there, 0), (0, minutes_there, 1), (hours_there, 0, 0), (hours_there, 1, 59)]
    spread += [(hours, minutes, seconds) for hours in (1, 999, hours_there - 1) for minutes in (0, 11, 59, 6001) for seconds in (0, 1, 60, 9999)]
    strict = [(hours_there + few, minutes, seconds) for few in (-1, 0, 1) for minutes in range(60) for seconds in (0, 17, 59)]
    for (hours, minutes, seconds), few, sign in product([*spread, *strict], (-BOUND, *range(-4, 5), 999_999, 7 * BOUND), SIGNS):
        frames = BOUND + few - nominal(rate, hours, minutes, seconds)
        if few == -BOUND:
            frames = 0
        if 0 <= frames <= 999_999_999:
            yield rate, False, None, sign + joined((hours, minutes, seconds, frames), few + 8)


# -- Footages --

AT_BOUND = {1: 25_000_000, 2: 18_750_000, 3: 12_500_000, 4: 20_000_000}
FEET = [*range(7), 99_999, 999_999_997, 999_999_998, 999_999_999, *(feet + few for feet in AT_BOUND.values() for few in range(-4, 5))]
FRAMES = [0, 1, 2, 14, 15, 16, 17, 18, 19, 20, 21, 22, 23, 30, 31, 32, 33, 63, 64, 999_999_999]
MARKERS = [b"", b".0", b".1", b".2", b".3", b".4", b".7", b".00", b".01", b".02"]
MARKERS += [b".000000001", b".000000002", b".999999999", b".0000000001", b".00000000000000000002"]


def footages(rate, position, stated, step):
    """Every combination of feet, frames and markers around the limits, or one of so many."""
    made = [*product(FEET, FRAMES, MARKERS, SIGNS)]
    for n, (feet, frames, marker, sign) in enumerate(made[::step]):
        yield rate, position, stated, b"%s%0*d+%0*d%s" % (sign, (1, 1, 9, 2)[n % 4], feet, (2, 1, 9)[n % 3], frames, marker)


# -- Several faults, and no shape --

# one of each kind, and several faults in one: 1 before 2 before 4 before 13 or 14, 3, 5
CHOSEN = [b"", b"5", b"-0", b"0", b"1:00", b"01:00:00:00", b"23:59:59;29", b"24:00:00;00", b"00:60:00;00", b"00:00:60;00", b"00:00:00;60"]
CHOSEN += [b"-1", b"-24:60:60:99", b"00:01:00;00", b"-00:01:00;01", b"0:75:0;1", b"24:01:00;00", b"999999999:1:0;0", b"00:01:00:03"]
CHOSEN += [b"400000000", b"400000001", b"-400000001", b"999999999", b"999999999:0:0:0", b"0000000001", b"-1:0000000001", b"1:2:3:4444444444"]
CHOSEN += [b"1:0000000002:0000000003", b"1:2:3:4:5", b"1:2:3:", b":", b"-", b"--1", b"x", b" 1", b"1 ", b"0+00", b"0+15", b"0+16", b"0+20"]
CHOSEN += [b"0+20.0", b"0+21.0", b"1+00.2", b"2+21.2", b"2+22.1", b"2+21.1", b"2+22.2", b"1+00", b"1+99.9", b"-1+00.4", b"4+00.01"]
CHOSEN += [b"25000000+00", b"25000000+01", b"-25000001+15", b"-25000000+16", b"18750000+00.0", b"18750000+01.0", b"18750001+00.2"]
CHOSEN += [b"999999999+99.9", b"20000000+01", b"12500000+01", b"0000000001+00", b"1+0000000000", b"1+2.0000000003", b"1+2.", b"1+", b"+"]
CHOSEN += [b"+2", b"1+2.3.4", b"1+2:3", b"1:00+5", b"1.2", b"1+-2", b"0000000001+2.x", b"1+00.1", b"-0+01", b"-162000+01"]


def chosen(position):
    """Each of these with every rate and every format, good and bad."""
    for text, rate, stated in product(CHOSEN, (*RATES, *NO_RATES), (*FORMATS, *NO_FORMATS)):
        yield rate, position, stated, text


PIECES = [b"0", b"00", b"1", b"24", b"59", b"60", b"999999999", b"0000000001", b"12345678901234567890", b""]
BETWEEN = [b":", b";", b"+", b".", b"-", b"x", b""]


def pieced(rate, position, stated, sign, step):
    """Up to four fields, good, past a limit, too long or missing, divided by what divides and what does not; of three one of so many."""
    for made in [*product(PIECES, BETWEEN, PIECES, BETWEEN, PIECES)][::step]:
        yield rate, position, stated, sign + b"".join(made)
    for fields in product(PIECES[2:9:2], repeat=4):
        yield rate, position, stated, sign + b":".join(fields)
        yield rate, position, stated, sign + b":".join(fields) + b":0"


def short_texts(rate, position, stated, longest):
    """Every text of up to so many bytes that matter."""
    for many in range(longest + 1):
        yield from ((rate, position, stated, bytes(made)) for made in product(b"069:;+.-@", repeat=many))


BASES = [b"00:01:00;02", b"-1:2:3:4", b"5", b"12:34", b"25+12", b"-2+21.2", b"1+00.1", b"0000000001:00", b"400000001", b"24:01:00;00"]


def every_byte(text):
    """Every byte but a newline in place of each and before each, and the text cut at each."""
    for at, byte in product(range(len(text) + 1), [byte for byte in range(256) if byte != 10]):
        for rest, (position, stated) in product((text[at:], text[at + 1 :]), ((False, None), (True, None), (True, 2), (False, 4))):
            yield 5 + byte % 7, position, stated, text[:at] + b"%c" % byte + rest
    for at, position, stated, rate in product(range(len(text) + 1), KINDS, FORMATS, (5, 11, 2)):
        yield rate, position, stated, text[:at]
        yield rate, position, stated, text[at:]


def long_fields():
    """Fields of each of six lengths in every place, whole and with something behind them."""
    for dividers in (b"", b":", b";:", b":;:", b"+", b"+."):
        for widths in product((1, 8, 9, 10, 11, 40) if len(dividers) < 3 else (1, 9, 10, 25), repeat=len(dividers) + 1):
            fields = [b"%0*d" % (width, width % 3) for width in widths]
            text = fields[0] + b"".join(b"%c%s" % pair for pair in zip(dividers, fields[1:]))
            for sign, end, stated, position in product(SIGNS, (b"", b"x", b":", b"."), (None, 1, 2), KINDS):
                yield 5, position, stated, sign + text + end


# -- Random ones --


def random_field(random, limit):
    """Mostly within a limit or around it; seldom of any size, or too long."""
    chance = random.random()
    if chance < 0.5:
        value = random.randrange(limit)
    elif chance < 0.85:
        value = random.choice((0, 0, 0, 1, limit - 1, limit - 1, limit, limit + 1, 2 * limit))
    else:
        value = int(10 ** (9 * random.random()))
    return b"%0*d" % (random.choice((2, 2, 1, 3)) if chance < 0.97 else random.randint(8, 12), value)


def random_label(random, rate):
    """At the beginning of a minute, with a count around the bound, or any."""
    timebase = TIMEBASES[rate - 1]
    chance = random.random()
    if chance < 0.25:
        hours, minutes = random.choice((0, 1, 23, 24, random.randrange(5000))), random.randrange(random.choice((60, 60, 2000)))
        return b"%s%02d:00;%02d" % (b"%d:" % hours if chance < 0.2 else b"", minutes, random.randrange(6))
    if chance < 0.35:
        hours, minutes, seconds = int(BOUND / timebase / 3600 * random.random()), random.randrange(90), random.randrange(90)
        return b"%d:%d:%d:%d" % (hours, minutes, seconds, max(0, BOUND + random.randint(-3, 3) - nominal(rate, hours, minutes, seconds)))
    text = random_field(random, timebase)
    for limit in (60, 60, 24)[: random.choice((0, 1, 2, 3, 3, 3, 3))]:
        text = random_field(random, limit) + random.choice((b":", b";")) + text
    return text


def random_footage(random):
    """Feet of any size or at a bound, frames around a foot's last, a right marker or any or none."""
    feet = random.choice((random.randrange(12), random.randrange(10**6), random.randrange(10**9), random.choice(FEET)))
    chance = random.random()
    frames = b"%0*d" % (random.randint(1, 2), random.randrange(24)) if chance < 0.7 else random_field(random, random.choice((16, 20, 21, 22, 32)))
    marker = random.choice((b"", b".%d" % (feet % 3), b".%d" % (feet % 3), b".%0*d" % (random.randint(1, 10), random.randrange(5))))
    return b"%0*d+%s%s" % (random.choice((1, 1, 3, 9, 10)), feet, frames, marker)


def damaged(random, text):
    """A byte put in, changed or taken away, or the text cut."""
    at = random.randrange(len(text) + 1)
    byte = random.choice((b":", b";", b"+", b".", b"-", b"0", b"x", b" ", b"@", b"\r", b"\0", b"\xff", b"0000000000"))
    before, behind = text[:at], text[at + 1 :]
    return random.choice((before + byte + text[at:], before + byte + behind, before + behind, before))


def random_texts(seed, many):
    random = Random(seed)
    for _ in range(many):
        rate = random.choice((*RATES, 5, 11, 5, 11))
        is_label = random.random() < 0.6
        text = random_label(random, rate) if is_label else random_footage(random)
        if random.random() < 0.2:
            text = b"-" + text
        while random.random() < 0.12:
            text = damaged(random, text)
        stated = random.choice((None, None, None, *FORMATS) if not is_label else (None, None, None, None, None, None, None, 2))
        if random.random() < 0.01:
            rate = random.choice(NO_RATES)
        if random.random() < 0.01:
            stated = random.choice(NO_FORMATS)
        yield rate, random.random() < 0.5, stated, text
