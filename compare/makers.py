"""Every way to make a position, as commands of `ask` with the answers that are right: around midnight, whole days away, and at the bounds.

Each function gives pairs of a command and its answer. Those that are given our program ask it for lengths first: what is made into a
position is what a length is, brought into the day, but for labels, which are looked for in the day that was walked.
"""

from fractions import Fraction
from itertools import product
from math import floor
from random import Random

import all as comparison
import footages
import texts
from days import BOUND, DAYS, RATES, TICKS_A_SECOND, brought, label_answer, position_made

LARGEST, SMALLEST = 2**63 - 1, -(2**63)

# -- Numbers --


def targets(rate):
    """Counts around midnight, up to two days each way, around the bounds, and two more."""
    day = DAYS[rate].length
    around = [days * day + few for days in range(-2, 3) for few in range(-3, 4)]
    return [*around, *(sign * (BOUND + few) for sign in (1, -1) for few in range(-2, 3)), 7 * day + day // 2, -day // 3]


def from_counts(rate):
    for count in (*targets(rate), 2**31, LARGEST, SMALLEST):
        yield b"count @%d %d" % (rate, count), position_made(rate, Fraction(count))


def from_ticks(rate):
    """Whole frames, half frames, and a tick more and less."""
    frame = TICKS_A_SECOND / RATES[rate][0]
    for target, half, tick in product(targets(rate), (-1, 0, 1), (-1, 0, 1)):
        ticks = floor((target + Fraction(half, 2)) * frame) + tick
        yield b"from_ticks @%d %d" % (rate, ticks), position_made(rate, ticks / frame)
    for ticks in (LARGEST, SMALLEST):
        yield b"from_ticks @%d %d" % (rate, ticks), b"refused 5"


def seconds_asked(rate, p, q):
    within = abs(p) <= 10**12 and 1 <= q <= 10**6
    return b"from_seconds @%d %d %d" % (rate, p, q), position_made(rate, Fraction(p, q) * RATES[rate][0]) if within else b"refused 5"


def from_seconds(rate):
    """The fractions next to a frame and next to half a frame, over large and small numbers; both bounds."""
    a_second = RATES[rate][0]
    for target, half, q, few in product(targets(rate), (0, 1), (1, 2, 1000, 2 * a_second.numerator, 999_983, 10**6), (-1, 0, 1)):
        yield seconds_asked(rate, floor((target + Fraction(half, 2)) / a_second * q) + few, q)
    for p, q in product((0, 5, 10**12, 10**12 + 1, -(10**12), -(10**12) - 1, LARGEST, SMALLEST), (-1, 0, 1, 10**6, 10**6 + 1)):
        yield seconds_asked(rate, p, q)


def any_numbers(ask, seed, many):
    """Counts, ticks and seconds of any size."""
    random = Random(seed)
    made = []
    for _ in range(many):
        rate = random.choice([*RATES])
        frame = int(TICKS_A_SECOND / RATES[rate][0])
        count = random.randint(-BOUND, BOUND) >> random.randint(0, 28)
        ticks = count * frame + random.randint(-frame, frame)
        seconds = random.randint(-(10**12), 10**12) >> random.randint(0, 30), random.choice([1, 1, 2, 1001, random.randint(1, 10**6)])
        made.append(random.choice([(b"count", rate, b"%d" % count), (b"from_ticks", rate, b"%d" % ticks), (b"from_seconds", rate, b"%d %d" % seconds)]))
    lengths = comparison.answers(ask, [b"%s %d %s" % one for one in made])
    for (word, rate, numbers), length in zip(made, lengths):
        yield b"%s @%d %s" % (word, rate, numbers), brought(rate, length)


# -- Runtimes and footages --


def from_runtimes(rate):
    """The millionths next to a frame and next to half a frame, as seconds alone and with minutes and hours."""
    a_second = RATES[rate][0]
    for target, half, few in product(targets(rate), (0, 1), (-1, 0, 1)):
        millionths = floor((abs(target) + Fraction(half, 2)) / a_second * 10**6) + few
        minus = b"-" * (target < 0)
        exact = Fraction(millionths, 10**6) * a_second
        answer = position_made(rate, -exact if minus else exact)
        whole, fraction = divmod(millionths, 10**6)
        clock = b"%02d:%02d:%02d" % (whole // 3600, whole // 60 % 60, whole % 60)
        for text in (b"%d" % whole, b"0:%d" % whole, clock) if millionths >= 0 else ():
            yield b"read_runtime @%d %s%s.%06d" % (rate, minus, text, fraction), answer
    for text, number in ((b"", 1), (b"x", 1), (b"1:2:3:4", 1), (b"1;2", 1), (b"0000000001", 2), (b"0.0000001", 2), (b"999999999:0:0", 5)):
        yield b"read_runtime @%d %s" % (rate, text), b"refused %d" % number
    for text in (b"0", b"-0", b"-0.0", b"-00:00:00.000000"):
        yield b"read_runtime @%d %s" % (rate, text), b"@0"


def frames_of(form, count):
    """The frames of some feet around a count, as the walk along the film meets them: foot, number, marker and count."""
    first = max(0, count // footages.IN_THREE[form] - 1) * 3
    met, markers = footages.walk(form, first, 9)
    return [(foot, number, markers[foot], frame) for (foot, number), frame in met.items()]


def from_footages(rate):
    """The footages around each of the counts in each format."""
    for form, target, minus in product(footages.GAUGES, targets(rate), (b"", b"-")):
        for foot, number, marker, count in frames_of(form, abs(target)):
            if abs(count - abs(target)) <= 2:
                answer = position_made(rate, Fraction(-count if minus else count))
                answer = answer + b" 0" if answer.startswith(b"refused") else b"footage %s %d" % (answer, form)
                yield from footage_asked(rate, form, minus, foot, number, marker, answer)


def footage_asked(rate, form, minus, foot, number, marker, answer):
    """With the format stated and with none; and what cannot be on the film, which has no position either."""
    text = b"%s%d+%02d" % (minus, foot, number)
    with_marker = b"%s.%d" % (text, marker)
    yield b"read_as %d @%d %s" % (form, rate, text), answer
    yield b"read_as %d @%d %s" % (form, rate, with_marker), answer if form == 2 else b"refused 4 0"
    yield b"read_as %d @%d %s%d+%d" % (form, rate, minus, foot, 32), b"refused 13 0"
    if form == 1:
        yield b"read @%d %s" % (rate, text), answer
    if form == 2:
        yield b"read @%d %s" % (rate, with_marker), answer
        yield b"read @%d %s.%d" % (rate, text, marker + 1), b"refused 13 0"


def made_all_ways(rate):
    for make in (from_counts, from_ticks, from_seconds, from_runtimes, from_footages):
        yield from make(rate)


# -- Labels --


def field_of(number, random):
    """A field's digits: two mostly, or as few as there can be, or zeros in front, seldom more than nine."""
    chance = random.random()
    return b"%0*d" % (2 if chance < 0.6 else 1 if chance < 0.8 else 9 if chance < 0.97 else random.randint(10, 12), number)


def label_asked(rate, minus, values, random):
    digits = [field_of(value, random) for value in values]
    text = digits[0]
    for field in digits[1:]:
        text += random.choice([b":", b";"]) + field
    return b"read @%d %s%s" % (rate, minus, text), label_answer(rate, minus, digits)


def limits(rate):
    """Hours, minutes, seconds and frames on both sides of each limit."""
    timebase = RATES[rate][1]
    hours = [0, 1, 9, 22, 23, 24, 25, 47, 48, 59, 99, 100, 999_999_999]
    minutes = [0, 1, 2, 9, 10, 11, 50, 58, 59, 60, 61, 70, 100, 999_999_999]
    seconds = [0, 1, 2, 58, 59, 60, 61, 120, 999_999_999]
    return hours, minutes, seconds, [0, 1, 2, 3, 4, 5, timebase - 1, timebase, timebase + 1, 2 * timebase, 99, 100, 999_999_999]


def at_limits(rate, step):
    """Every combination of such values, of one to four fields, or every so many; with a sign and without."""
    random = Random(rate)
    for many in range(1, 5):
        for values in [*product(*limits(rate)[4 - many :])][:: step if many > 2 else 1]:
            for minus in (b"", b"", b"-"):
                yield label_asked(rate, minus, values, random)


def random_labels(rate, seed, many):
    """Labels whose fields are mostly within their limits, one often around its own; some at the beginning of a minute."""
    random = Random(1000 * rate + seed)
    tops = (24, 60, 60, RATES[rate][1])
    for _ in range(many):
        values = [random.randrange(top) for top in tops]
        if random.random() < 0.5:
            n = random.randrange(4)
            values[n] = tops[n] + random.choice([-2, -1, 0, 0, 1, 2, tops[n], 9 * tops[n]])
        if random.random() < 0.4:
            values[2:] = [0, random.randrange(6)]
        yield label_asked(rate, b"-" * (random.random() < 0.1), values[random.choice([0, 0, 0, 1, 2, 3]) :], random)


# -- Any text --


def as_label(text):
    """The sign and the fields' digits of a text that has the label's shape; none of any other."""
    minus, text = (b"-", text[1:]) if text.startswith(b"-") else (b"", text)
    digits = text.replace(b";", b":").split(b":")
    is_label = len(digits) <= 4 and all(field and not field.strip(b"0123456789") for field in digits)
    return (minus, digits) if is_label else None


def read_both(ask, front, rates_and_texts):
    """Texts read as positions: labels are looked for in the day, all others are what they are as lengths, brought into it."""
    lengths = comparison.answers(ask, [b"%s%d %s" % (front, rate, text) for rate, text in rates_and_texts])
    for (rate, text), length in zip(rates_and_texts, lengths):
        label = as_label(text) if front == b"read " and rate in RATES else None
        yield b"%s@%d %s" % (front, rate, text), label_answer(rate, *label) if label else brought(rate, length)


def damaged_labels(ask, seed, many):
    """Labels of the day, with one to three damages."""
    random = Random(seed)
    made = []
    for _ in range(many):
        rate = random.choice([*RATES, 5, 11])
        text = DAYS[rate].label(random.randint(0, DAYS[rate].last))
        for _ in range(random.randint(1, 3)):
            text = texts.damaged(random, text)
        made.append((rate, text))
    return read_both(ask, b"read ", made)


def any_texts(ask, word, seed, many):
    """Texts of each shape around its limits, three in ten damaged."""
    by_front = {}
    for command in texts.random_texts(word, 7000 + seed, many):
        *front, rate, text = command.split(b" ", 3 if word == b"read_as" else 2)
        by_front.setdefault(b" ".join(front) + b" ", []).append((int(rate), text))
    for front, made in by_front.items():
        yield from read_both(ask, front, made)


def short_texts(ask, rate, longest):
    """Every text of up to so many bytes that matter."""
    made = [(rate, text) for text in texts.every_text(b"", [b"0", b"2", b"5", b":", b";", b"+", b".", b"-", b"@"], longest)]
    for front in (b"read ", b"read_as 2 ", b"read_runtime "):
        yield from read_both(ask, front, made)
