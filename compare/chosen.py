"""Random numbers around each limit: rates and formats, counts, fractions."""

import model

RATES = range(1, 13)
FORMATS = range(1, 5)
BOUND = model.BOUND

# past the bounds, where 64 bits end, and where the crate's arithmetic does
HUGE = [BOUND + 1, 871444882, 2**31, 10**12 + 1, 9 * 10**15, 10**16, 10**18, 2**63 - 1]


def one_of(random, known):
    """A rate or a format; seldom one that there is none of."""
    if random.random() < 0.995:
        return random.choice(known)
    return random.choice([0, 13, -1, 2**32 + 1, 2**63 - 1, -(2**63)])


def either_sign(random, number):
    return -number if random.random() < 0.4 else number


def up_to(random, bound):
    """A number of any size up to the bound; at times the bound itself, or one past it."""
    chance = random.random()
    if chance < 0.1:
        number = random.choice([0, 1, 2, bound - 1, bound, bound + 1])
    elif chance < 0.55:
        number = random.randint(0, bound)
    else:
        number = random.randint(0, bound >> random.randint(0, bound.bit_length()))
    return either_sign(random, number)


def past(random):
    """A number that is mostly far outside the bounds."""
    chance = random.random()
    if chance < 0.05:
        return -(2**63)
    number = random.choice(HUGE) if chance < 0.5 else random.randrange(1 << random.randint(29, 63))
    return either_sign(random, number)


def near_bound(random):
    return BOUND + random.randint(-2, 2)


def count(random, *units):
    """A count: of any size, around a multiple of one of the units, or past the bounds."""
    chance = random.random()
    if chance < 0.04:
        return past(random)
    if units and chance < 0.5:
        unit = random.choice(units)
        multiple = unit * random.randint(0, BOUND // unit >> random.randint(0, 20))
        return either_sign(random, multiple + random.randint(-2, 2))
    return up_to(random, BOUND)


def fraction(random, bound):
    """P and Q: p to the bound, q often small, so that halves are met."""
    p = past(random) if random.random() < 0.03 else up_to(random, bound)
    chance = random.random()
    if chance < 0.4:
        q = random.choice([1, 2, 2, 3, 4, 6, 8, 10, 1000, 1001, 24000, 48000, 120000])
    elif chance < 0.95:
        q = abs(up_to(random, 10**6))
    else:
        q = random.choice([0, -1, -2, 10**6 + 1, past(random)])
    return b"%d %d" % (p, q)
