"""Texts for the readers: every short one, random ones of each shape around its limits, and damaged copies."""

from itertools import product
from random import Random

import model
from chosen import BOUND, FORMATS, RATES, near_bound, one_of

# -- Every short text --

# the bytes that matter: a digit of each end, both dividers, the other marks, the one foreign byte that the crate takes
SHORT = [b"0", b"9", b":", b";", b"+", b".", b"-", b"|"]
# and more foreign bytes, a digit of another script and what is no UTF-8 among them
WIDE = [*SHORT, b"1", b"x", b" ", b"\r", b"\0", "é".encode(), "٣".encode(), b"\xff"]


def every_text(prefix, pieces, longest):
    """All texts of up to so many pieces."""
    return [prefix + b"".join(text) for length in range(longest + 1) for text in product(pieces, repeat=length)]


# -- Fields --

SMALL = [0, 1, 2, 3, 4, 5, 9, 10, 11, 19, 20, 23, 24, 25, 29, 30, 31, 47, 48, 49, 50, 58, 59, 60, 61, 99, 100, 5999]


def digits(random, length):
    return b"%0*d" % (length, random.randrange(10**length))


def field(random):
    """A field: a small value, one of any size, one of 8 to 11 digits, or a very long one."""
    chance = random.random()
    if chance < 0.6:
        return b"%0*d" % (random.randint(1, 3), random.choice(SMALL))
    if chance < 0.85:
        return b"%d" % random.randrange(10 ** random.randint(1, 9))
    if chance < 0.97:
        zeros = random.choice([0, 0, 0, 5, 7])
        return b"0" * zeros + digits(random, random.randint(8, 11) - zeros)
    return digits(random, random.randint(15, 25))


def sign(random):
    return b"-" if random.random() < 0.3 else b""


def some_fields(random, most, dividers):
    """One to so many fields, now and then one more."""
    text = field(random)
    for _ in range(random.randint(0, most - 1) + (random.random() < 0.1)):
        text += b"%c%s" % (random.choice(dividers), field(random))
    return text


# -- Shapes --


def label_scan(random, rate):
    """A label; three in ten near a dropped one or near a bound."""
    chance = random.random()
    if chance < 0.2:
        hours = b"%d:" % random.choice(SMALL) if chance < 0.1 else b""
        seconds = random.choice([b"0", b"00", b"000", b"1", b"60"])
        return sign(random) + hours + b"%d:%s;%d" % (random.choice(SMALL), seconds, random.randint(0, 6))
    if chance < 0.3:
        h, m, s = random.randint(0, 1800), random.randint(0, 90), random.randint(1, 90)
        frames = near_bound(random) - model.label_count(rate, h, m, s, 0)
        return sign(random) + b"%d:%d:%d:%d" % (h, m, s, frames)
    return sign(random) + some_fields(random, 4, random.choice([b":", b":;", b":;|"]))


# frames numbers around the last one of a foot in each format
LAST_FRAMES = [0, 1, 15, 16, 17, 19, 20, 21, 22, 23, 31, 32, 33]


def on_film(random, count):
    """A footage as a count is written in some format, zeros in front of its fields, at times with the marker left out or another one."""
    perfs, perfs_a_foot = model.FORMATS[random.choice([*FORMATS, 2, 2])]
    feet, rest = divmod(count * perfs + perfs - 1, perfs_a_foot)
    chance = random.random()
    marker = feet % 3 if chance < 0.6 else random.choice([0, 1, 2, 3, feet % 100])
    perf = b"" if chance > 0.8 or perfs != 3 and chance > 0.2 else b".%0*d" % (random.randint(1, 2), marker)
    return b"%0*d+%0*d%s" % (random.randint(1, 4), feet, random.randint(1, 3), rest // perfs, perf)


def footage_scan(random, rate):
    """A footage, with a perf field or none; three in ten as written for a count or nearly so, two in ten near a bound."""
    chance = random.random()
    if chance < 0.3:
        return sign(random) + on_film(random, near_bound(random) if chance < 0.1 else random.randint(0, BOUND >> random.randint(0, 28)))
    if chance < 0.4:
        feet = random.randint(0, BOUND // 40)
        frames = near_bound(random) - model.footage_count(random.choice(FORMATS), feet)
        return sign(random) + b"%d+%d" % (feet, frames)
    frames = b"%d" % random.choice(LAST_FRAMES) if chance < 0.6 else field(random)
    perf = b"" if random.random() < 0.45 else b"." + digits(random, random.choice([1, 1, 1, 2, 2, random.randint(3, 11)]))
    return sign(random) + field(random) + b"+" + frames + perf


def runtime_scan(random, rate):
    """A runtime; one in five near half a frame or near a bound."""
    n, d, _, _ = model.RATES[rate]
    chance = random.random()
    if chance < 0.2:
        frames = near_bound(random) if chance < 0.1 else random.randint(0, BOUND >> random.randint(0, 28))
        millionths = (2 * frames + 1) * d * 10**6 // (2 * n) + random.randint(0, 1)
        return sign(random) + b"%d.%06d" % divmod(millionths, 10**6)
    text = sign(random) + some_fields(random, 3, random.choice([b":", b":", b":", b":;|"]))
    if chance < 0.4:
        return text
    return text + b"." + digits(random, random.randint(1, 6) if chance < 0.9 else random.randint(7, 30))


FOREIGN = [*WIDE, b"/", b"a", b"\x80", b"\t", b",", b"_", "：".encode()]


def damaged(random, text):
    """The text with a byte taken away, changed, put in or doubled, cut off, or with something at its end."""
    at = random.randrange(len(text) + 1)
    byte = random.choice(FOREIGN)
    return random.choice(
        [
            text[:at] + text[at + 1 :],
            text[:at] + byte + text[at + 1 :],
            text[:at] + byte + text[at:],
            text[:at] + text[max(0, at - 1) :],
            text[:at],
            text + byte,
        ]
    )


OWN = {b"read": [label_scan, label_scan, footage_scan], b"read_as": [footage_scan], b"read_runtime": [runtime_scan]}


def random_texts(word, seed, many):
    """Texts of the command's own shapes, and some of the others; three in ten damaged."""
    random = Random(seed)
    commands = []
    for _ in range(many):
        rate = random.choice([*RATES, *model.DROPPED])
        shape = random.choice(OWN[word] if random.random() < 0.9 else [label_scan, footage_scan, runtime_scan])
        text = shape(random, rate)
        if random.random() < 0.3:
            text = damaged(random, text)
        form = b"%d " % one_of(random, FORMATS) if word == b"read_as" else b""
        commands.append(b"%s %s%d %s" % (word, form, one_of(random, [rate]), text))
    return commands
