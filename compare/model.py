#!/usr/bin/env python3
"""The rules of docs/BEHAVIOUR.md as a model in whole numbers, written apart from the port and from the crate.

`python3 compare/model.py < commands > answers` answers the commands of compare/README.md, one line each: a number, a text,
or `refused N`; `not understood` for what is no command. `python3 compare/model.py cases` runs the worked cases. Rules stand in
quotation marks.

A timecode is a length or a position; the rate of a position has the mark `@` before it, and so has a count in an answer that is a
position's. Texts are bytes. Writers give the text itself, without a line to lay it down in, so 8 is never given here.
"""

import re
import sys
from math import gcd

# "Rates, one constant table": frames a second as a fraction, timebase, ticks a frame
RATES = {
    1: (24000, 1001, 24, 10594584000),
    2: (24, 1, 24, 10584000000),
    3: (25, 1, 25, 10160640000),
    4: (30000, 1001, 30, 8475667200),
    5: (30000, 1001, 30, 8475667200),
    6: (30, 1, 30, 8467200000),
    7: (48000, 1001, 48, 5297292000),
    8: (48, 1, 48, 5292000000),
    9: (50, 1, 50, 5080320000),
    10: (60000, 1001, 60, 4237833600),
    11: (60000, 1001, 60, 4237833600),
    12: (60, 1, 60, 4233600000),
}

# "A second has 254016000000 ticks."
assert all(n * ticks == 254016000000 * d for n, d, _, ticks in RATES.values())

# "D be 2 at rate 5, 4 at rate 11, else 0"
DROPPED = {5: 2, 11: 4}

# "Formats 1 to 4: 4-perf, 3-perf, 2-perf on 35 mm (64 perfs a foot), and 16 mm (1 perf a frame, 20 a logical foot)":
# perfs a frame, perfs a foot
FORMATS = {1: (4, 64), 2: (3, 64), 3: (2, 64), 4: (1, 20)}

# "counts from -400,000,000 to 400,000,000"
BOUND = 400_000_000


class Marked(int):
    """A number with the mark `@`: the rate of a position, or its count in an answer."""

    def __str__(self):
        return f"@{int(self)}"


def is_position(rate):
    """ "A timecode now says whether it is a position or a length." """
    return isinstance(rate, Marked)


def day(rate):
    """ "24 hours of the timebase, less the dropped labels": D in each minute that is no multiple of 10."""
    return 24 * 60 * 60 * RATES[rate][2] - DROPPED.get(rate, 0) * (24 * 60 - 24 * 6)


# "so 2,589,408 at rate 5 and 5,178,816 at rate 11"
assert (day(5), day(11)) == (2_589_408, 5_178_816)


class Refused(Exception):
    """A refusal, with its number."""

    def __init__(self, number):
        super().__init__(number)
        self.number = number


# -- What is checked first: "6, 15, [..] input bounds (5), 7, 1, 2, 4, then 13 for a footage and 14 for a label, 3, resulting count (5), 8" --


def known_rates(*rates):
    """6: "no such rate (1 to 12)"."""
    if any(rate not in RATES for rate in rates):
        raise Refused(6)


def known_format(form):
    """6: "or film format (1 to 4)"."""
    if form not in FORMATS:
        raise Refused(6)


def of_kinds(allowed, *rates):
    """15: "adding two positions, taking a position from a length, comparing a position with a length, or giving a position to an
    operation for lengths only". What is allowed is said by letters: `l` is a length, `p` a position."""
    if "".join("p" if is_position(rate) else "l" for rate in rates) not in allowed:
        raise Refused(15)


def within(number, low, high):
    """5: "an input number [..] is outside its bounds"."""
    if not low <= number <= high:
        raise Refused(5)


def given(rate, count):
    """A timecode's count: "A position's count lies from 0 up to its rate's day, which isn't included"."""
    if is_position(rate):
        within(count, 0, day(rate) - 1)
    else:
        within(count, -BOUND, BOUND)


def given_fraction(p, q, bound):
    """A fraction p/q: |p| at most the bound, "q from 1 to 1,000,000"."""
    within(p, -bound, bound)
    within(q, 1, 1_000_000)


def not_zero(divisor):
    """7: "divisor zero"."""
    if divisor == 0:
        raise Refused(7)


def counted(count):
    """5: "the resulting count [..] is outside its bounds"."""
    within(count, -BOUND, BOUND)
    return count


def made(rate, count):
    """The resulting count at a rate: "Making or adding positions reduces the count by whole days, negative ones too, after the bound on
    it is checked." """
    counted(count)
    return Marked(count % day(rate)) if is_position(rate) else count


# -- Rounding --


def signed(number, like):
    return -number if like < 0 else number


def nearest(p, q):
    """The whole number nearest to p/q, "halves away from zero"; q above 0."""
    return signed((2 * abs(p) + q) // (2 * q), p)


def truncated(p, q):
    """p/q without its fraction; q not 0."""
    return signed(abs(p) // abs(q), p * q)


def remainder(p, q):
    """What `truncated` leaves: "its remainder takes the dividend's sign"."""
    return p - q * truncated(p, q)


# -- Reading texts --

# "ASCII only, the whole text, nothing around it. A field is one or more digits."
# "Label: optional `-`, then one to four fields, each two divided by `:` or `;`."
LABEL = re.compile(rb"(-?)([0-9]+(?:[:;][0-9]+){0,3})")
# "Footage: optional `-`, feet, `+`, frames, optionally `.` and a perf field."
FOOTAGE = re.compile(rb"(-?)([0-9]+)\+([0-9]+)(?:\.([0-9]+))?")
# "Runtime: optional `-`, one to three fields divided by `:`, optionally `.` and a fraction of one or more digits."
RUNTIME = re.compile(rb"(-?)([0-9]+(?::[0-9]+){0,2})(?:\.([0-9]+))?")


def fields(*texts, fraction=b""):
    """The fields' values. 2: "a field has over 9 digits or a fraction over 6"."""
    if any(len(text) > 9 for text in texts) or len(fraction) > 6:
        raise Refused(2)
    return [int(text) for text in texts]


def right_justified(values, wanted):
    """ "right-justified, absent ones zero"."""
    return [0] * (wanted - len(values)) + values


# Texts that begin some label, and some footage; "fields of any length".
LABEL_BEGUN = re.compile(rb"-?(?:[0-9]+[:;]){0,3}[0-9]*")
FOOTAGE_BEGUN = re.compile(rb"-?(?:[0-9]+(?:\+(?:[0-9]+(?:\.[0-9]*)?)?)?)?")
ALLOWED = {b"read": (LABEL_BEGUN, FOOTAGE_BEGUN), b"read_as": (FOOTAGE_BEGUN,)}


def place(command, number):
    """The place of a refusal of `read` or `read_as`. 1: "the length of the longest beginning of the text that also begins some
    text of an allowed shape"; 2: "the first digit of the first field that is too long"; else 0."""
    word, _, rest = command.partition(b" ")
    text = (rest.split(b" ", TEXTS[word][1])[TEXTS[word][1] :] or [b""])[0]
    if number == 1:
        return max(begun.match(text).end() for begun in ALLOWED[word])
    long = re.search(rb"[0-9]{10}", text) if number == 2 else None
    return long.start() if long else 0


def with_sign(sign, count):
    """The count, "negated for `-`"; "`-0` is 0"."""
    return -count if sign else count


def read(rate, text):
    """The count of a label or a footage, no film format stated."""
    known_rates(rate)
    label, footage = LABEL.fullmatch(text), FOOTAGE.fullmatch(text)
    if label:
        return made(rate, label_read(rate, label))
    if footage:
        # "Without a stated format, perf present means 3-perf, absent means 4-perf."
        return made(rate, footage_read(1 if footage[4] is None else 2, footage))
    raise Refused(1)


def read_as(form, rate, text):
    """The count of a text with a stated film format: "with a stated film format only a footage"."""
    known_rates(rate)
    known_format(form)
    footage = FOOTAGE.fullmatch(text)
    if not footage:
        raise Refused(1)
    return made(rate, footage_read(form, footage))


def label_read(rate, match):
    sign, numbers = match.groups()
    values = fields(*re.split(rb"[:;]", numbers))
    # "The last is frames, then leftward seconds, minutes, hours"
    hours, minutes, seconds, frames = right_justified(values, 4)
    # 14: "a position label that isn't strict or has a sign"
    if is_position(rate) and (sign or not is_strict(rate, hours, minutes, seconds, frames)):
        raise Refused(14)
    if is_dropped(rate, minutes, seconds, frames):
        raise Refused(3)
    return with_sign(sign, label_count(rate, hours, minutes, seconds, frames))


def footage_read(form, match):
    sign, feet, frames, perf = match.groups()
    feet, frames, *marker = fields(*(text for text in (feet, frames, perf) if text is not None))
    # 4: "a perf field with a stated format that has none"
    if perf is not None and form != 2:
        raise Refused(4)
    if not on_film(form, feet, frames, marker):
        raise Refused(13)
    return with_sign(sign, footage_count(form, feet) + frames)


def read_runtime(rate, text):
    """The count of a runtime."""
    known_rates(rate)
    match = RUNTIME.fullmatch(text)
    if not match:
        raise Refused(1)
    sign, numbers, fraction = match.groups(default=b"")
    values = fields(*numbers.split(b":"), fraction=fraction)
    # "The last field is seconds, then leftward minutes, hours"
    hours, minutes, seconds = right_justified(values, 3)
    unit = 10 ** len(fraction)
    whole = (60 * hours + minutes) * 60 + seconds
    return made(rate, with_sign(sign, seconds_count(rate, whole * unit + int(fraction or b"0"), unit)))


# -- Labels and counts --


def label_count(rate, hours, minutes, seconds, frames):
    """ "The count is (60 x M + seconds) x timebase + frames - D x (M - M/10 rounded down)"."""
    m = 60 * hours + minutes
    return (60 * m + seconds) * RATES[rate][2] + frames - DROPPED.get(rate, 0) * (m - m // 10)


def is_dropped(rate, minutes, seconds, frames):
    """ "Refusal 3: seconds 0, frames below D, minutes not a multiple of 10; sign ignored." """
    return seconds == 0 and frames < DROPPED.get(rate, 0) and minutes % 10 != 0


def is_strict(rate, hours, minutes, seconds, frames):
    """ "strict (hours under 24, minutes and seconds under 60, frames under the timebase)"."""
    return hours < 24 and minutes < 60 and seconds < 60 and frames < RATES[rate][2]


def sections(rate, count):
    """Hours, minutes, seconds and frames: "those of the one allowed label, with minutes and seconds under 60 and frames
    under the timebase, whose count is the absolute count. Hours run on past 23." """
    known_rates(rate)
    given(rate, count)
    timebase, drop = RATES[rate][2], DROPPED.get(rate, 0)
    # ten minutes: one of 60 timebases, then nine of D fewer, whose first label is D
    tens, rest = divmod(abs(count), 600 * timebase - 9 * drop)
    if rest < 60 * timebase:
        minute, label = 0, rest
    else:
        minute, label = divmod(rest - 60 * timebase, 60 * timebase - drop)
        minute, label = minute + 1, label + drop
    hours, minutes = divmod(10 * tens + minute, 60)
    seconds, frames = divmod(label, timebase)
    # what they are defined by
    assert minutes < 60 and seconds < 60 and frames < timebase and not is_dropped(rate, minutes, seconds, frames)
    assert label_count(rate, hours, minutes, seconds, frames) == abs(count)
    return hours, minutes, seconds, frames


def minus(count):
    """ "sign for counts below 0"."""
    return "-" if count < 0 else ""


def label(rate, count):
    """ "two digits at least for each field, `:` throughout but `;` before frames at rates 5 and 11"."""
    hours, minutes, seconds, frames = sections(rate, count)
    return f"{minus(count)}{hours:02}:{minutes:02}:{seconds:02}{';' if rate in DROPPED else ':'}{frames:02}"


# -- Footage --


def footage_count(form, feet):
    """ "3-perf counts 64 frames for each three whole feet and 21 for each left over; the others count 16, 32 or 20 a
    foot" """
    if form == 2:
        return feet // 3 * 64 + feet % 3 * 21
    return feet * {1: 16, 3: 32, 4: 20}[form]


def on_film(form, feet, frames, marker):
    """Not so for a footage "whose frames number doesn't occur in that foot (21 frames in 3-perf feet that leave 0 or 1 modulo 3, 22 in
    those that leave 2; 16, 32 and 20 a foot in the others), or whose marker is present and isn't feet modulo 3"."""
    left = feet % 3
    occurring = {1: 16, 2: 22 if left == 2 else 21, 3: 32, 4: 20}[form]
    return frames < occurring and marker in ([], [left])


def footage(form, rate, count):
    """ "the last perf is f x P + P - 1; feet is that over the perfs a foot, unpadded; frames the rest over P, two digits
    at least; `-` in front if the count is below 0. 3-perf adds `.` and feet modulo 3." """
    known_rates(rate)
    known_format(form)
    given(rate, count)
    perfs, perfs_a_foot = FORMATS[form]
    feet, rest = divmod(abs(count) * perfs + perfs - 1, perfs_a_foot)
    return f"{minus(count)}{feet}+{rest // perfs:02}" + (f".{feet % 3}" if form == 2 else "")


# -- Time --


def seconds_count(rate, p, q):
    """The nearest frame to p/q seconds."""
    n, d, _, _ = RATES[rate]
    return nearest(p * n, q * d)


def count_itself(rate, count):
    """The count of a timecode that is made from one."""
    known_rates(rate)
    return made(rate, count)


def from_ticks(rate, ticks):
    """ "Ticks, seconds and runtime become the nearest frame, halves away from zero." """
    known_rates(rate)
    return made(rate, nearest(ticks, RATES[rate][3]))


def from_seconds(rate, p, q):
    """ "Seconds p/q: |p| at most 10^12, q from 1 to 1,000,000." """
    known_rates(rate)
    given_fraction(p, q, 10**12)
    return made(rate, seconds_count(rate, p, q))


def ticks(rate, count):
    """ "its instant in ticks is count times the last column, exactly"."""
    known_rates(rate)
    given(rate, count)
    return count * RATES[rate][3]


def seconds(rate, count):
    """ "seconds as a fraction in lowest terms"."""
    known_rates(rate)
    given(rate, count)
    n, d, _, _ = RATES[rate]
    common = gcd(count * d, n)
    return f"{count * d // common}/{n // common}"


def runtime(rate, count, precision):
    """ "runtime as the absolute time rounded to the precision, halves away from zero, carried into seconds, minutes and
    hours, trailing zeros dropped but one digit kept (`.0` at precision 0 [..]), hours, minutes and seconds of two digits
    at least, `-` if the count is below 0" """
    known_rates(rate)
    given(rate, count)
    within(precision, 0, 6)
    n, d, _, _ = RATES[rate]
    whole, fraction = divmod(nearest(abs(count) * d * 10**precision, n), 10**precision)
    digits = f"{fraction:0{precision}}".rstrip("0") if precision else ""
    minutes, second = divmod(whole, 60)
    hours, minute = divmod(minutes, 60)
    return f"{minus(count)}{hours:02}:{minute:02}:{second:02}.{digits or '0'}"


def minute(m):
    """ "the 1,440 first frame numbers of a 29.97 drop day's minutes": "Entry 0 is 0; each next is 1800 more after a minute
    that is a multiple of 10, else 1798 more." """
    within(m, 0, 1439)
    return sum(1798 if before % 10 else 1800 for before in range(m))


# -- Arithmetic --


def add(rate, count, rate2, count2):
    """ "A sum or difference of two timecodes is the exact instant, rounded at the left one's rate." """
    known_rates(rate, rate2)
    of_kinds(("ll", "pl", "lp"), rate, rate2)
    given(rate, count)
    given(rate2, count2)
    # "A position plus or minus a length, or a length plus a position, is a position at the left one's rate"
    left = Marked(rate) if is_position(rate2) else rate
    return made(left, nearest(count * RATES[rate][3] + count2 * RATES[rate2][3], RATES[rate][3]))


def sub(rate, count, rate2, count2):
    known_rates(rate, rate2)
    of_kinds(("ll", "pl", "pp"), rate, rate2)
    given(rate, count)
    given(rate2, count2)
    # "position minus position is a length that may be negative"
    left = int(rate) if is_position(rate2) else rate
    return made(left, nearest(count * RATES[rate][3] - count2 * RATES[rate2][3], RATES[rate][3]))


def cmp(rate, count, rate2, count2):
    """ "Comparison is by instant." "Two positions may be compared." """
    known_rates(rate, rate2)
    of_kinds(("ll", "pp"), rate, rate2)
    given(rate, count)
    given(rate2, count2)
    left, right = count * RATES[rate][3], count2 * RATES[rate2][3]
    return (left > right) - (left < right)


# "Products, divisions, remainders, negation, absolute value, `rebase` and conversion take lengths only."


def mul(rate, count, p, q):
    """ "Product with p/q: rounded." "Factors and rational divisors p/q: |p| at most 1,000,000" """
    known_rates(rate)
    of_kinds("l", rate)
    given(rate, count)
    given_fraction(p, q, 1_000_000)
    return counted(nearest(count * p, q))


def div(rate, count, n):
    """ "Integer division truncates"."""
    known_rates(rate)
    of_kinds("l", rate)
    given(rate, count)
    not_zero(n)
    return counted(truncated(count, n))


def rem(rate, count, n):
    """ "its remainder takes the dividend's sign"."""
    known_rates(rate)
    of_kinds("l", rate)
    given(rate, count)
    not_zero(n)
    return counted(remainder(count, n))


def divq(rate, count, p, q):
    """ "Division by p/q floors"."""
    known_rates(rate)
    of_kinds("l", rate)
    given(rate, count)
    given_fraction(p, q, 1_000_000)
    not_zero(p)
    return counted(count * q // p)


def remq(rate, count, p, q):
    """ "its remainder is (f x q rem p)/q, dividend's sign, rounded"."""
    known_rates(rate)
    of_kinds("l", rate)
    given(rate, count)
    given_fraction(p, q, 1_000_000)
    not_zero(p)
    return counted(nearest(remainder(count * q, p), q))


def neg(rate, count):
    """ "Negation and absolute value act on the count." """
    known_rates(rate)
    of_kinds("l", rate)
    given(rate, count)
    return -count


def absolute(rate, count):
    known_rates(rate)
    of_kinds("l", rate)
    given(rate, count)
    return abs(count)


def rebase(rate, count, rate2):
    """ "`rebase` keeps the count"."""
    known_rates(rate, rate2)
    of_kinds("l", rate)
    given(rate, count)
    return count


def convert(rate, count, *rates):
    """ "the nearest frame taken at every listed rate in turn"; "An empty list of rates gives back the start." """
    known_rates(rate, *rates)
    of_kinds("l", rate)
    given(rate, count)
    for step in rates:
        # "(through a list of rates, the count after any step)"
        count = counted(nearest(count * RATES[rate][3], RATES[step][3]))
        rate = step
    return f"{count} {rate}"


# -- Commands --

# a text at the end, after so many numbers
TEXTS = {b"read": (read, 1), b"read_as": (read_as, 2), b"read_runtime": (read_runtime, 1)}

# numbers only: so many
NUMBERS = {
    b"count": (count_itself, 2),
    b"from_ticks": (from_ticks, 2),
    b"from_seconds": (from_seconds, 3),
    b"label": (label, 2),
    b"sections": (lambda rate, count: "{} {} {} {}".format(*sections(rate, count)), 2),
    b"footage": (footage, 3),
    b"runtime": (runtime, 3),
    b"ticks": (ticks, 2),
    b"seconds": (seconds, 2),
    b"add": (add, 4),
    b"sub": (sub, 4),
    b"cmp": (cmp, 4),
    b"mul": (mul, 4),
    b"div": (div, 3),
    b"rem": (rem, 3),
    b"divq": (divq, 4),
    b"remq": (remq, 4),
    b"neg": (neg, 2),
    b"abs": (absolute, 2),
    b"rebase": (rebase, 3),
    b"minute": (minute, 1),
}

# which of a command's numbers are the rates of timecodes, and so may have the mark; of every other one the first alone
RATES_AT = {b"read_as": (1,), b"footage": (1,), b"add": (0, 2), b"sub": (0, 2), b"cmp": (0, 2), b"minute": ()}

NUMBER = re.compile(rb"(-?)0*([0-9]{1,19})")


def number(word):
    """A 64-bit signed number."""
    match = NUMBER.fullmatch(word)
    value = int(match[1] + match[2]) if match else None
    return value if match and -(2**63) <= value < 2**63 else None


def rate_number(word):
    """A number that may have the mark: "`@` before the RATE of a timecode makes it a position"."""
    value = number(word.removeprefix(b"@"))
    return Marked(value) if value is not None and word.startswith(b"@") else value


def answer(line):
    """The answer to a command, as text."""
    command, _, rest = line.partition(b" ")
    last = []
    if command in TEXTS:
        function, wanted = TEXTS[command]
        words = rest.split(b" ", wanted)
        last = words[wanted:] or [b""]
        words = words[:wanted]
    elif command == b"convert":
        words = rest.split(b" ")
        function, wanted = convert, max(2, len(words))
    elif command in NUMBERS:
        function, wanted = NUMBERS[command]
        words = rest.split(b" ")
    else:
        return "not understood"
    rates = RATES_AT.get(command, (0,))
    numbers = [rate_number(word) if n in rates else number(word) for n, word in enumerate(words)]
    if len(numbers) != wanted or None in numbers:
        return "not understood"
    try:
        return str(function(*numbers, *last))
    except Refused as refusal:
        return f"refused {refusal.number}"


# -- The worked cases that are commands --

CASES = """
label 5 1799 = 00:00:59;29
label 5 1800 = 00:01:00;02
read 5 00:01:00;00 = refused 3
read 5 00:10:00;00 = 17982
label 5 901 = 00:00:30;01
label 5 2589407 = 23:59:59;29
label 5 2589408 = 24:00:00;00
read 11 00:01:00;04 = 3600
read 11 00:01:00;03 = refused 3
label 1 86400 = 01:00:00:00
ticks 1 86400 = 915372057600000
runtime 1 86400 6 = 01:00:03.6
from_seconds 1 3600 1 = 86314
footage 2 2 21 = 1+00.1
footage 2 2 63 = 2+21.2
footage 2 2 20 = 0+20.0
footage 2 2 64 = 3+00.0
footage 4 2 39 = 1+19
footage 4 2 40 = 2+00
read 2 5400+00 = 86400
from_ticks 2 5292000000 = 1
from_ticks 2 5291999999 = 0
from_ticks 2 -5292000000 = -1
div 2 -1 2 = 0
divq 2 -1 2 1 = -1
add 2 5 8 -1 = 5
convert 12 1 2 12 = 0 12
runtime 2 23 1 = 00:00:01.0
count 2 400000000 = 400000000
count 2 400000001 = refused 5
read 2 000000007 = 7
read 2 0000000007 = refused 2
read 2 -0:05 = -5
read 2 -0 = 0
read 2  = refused 1
read 5 1:00;00 = refused 3
minute 0 = 0
minute 1 = 1800
minute 2 = 3598
minute 9 = 16184
minute 10 = 17982
minute 1439 = 2587610
label @5 2589407 = 23:59:59;29
label @5 2589408 = refused 5
read @5 23:59:59;29 = @2589407
read @5 24:00:00;00 = refused 14
read @5 24:01:00;00 = refused 14
read @5 00:01:00;00 = refused 3
read @5 -0 = refused 14
read 5 24:00:00;00 = 2589408
count @5 -1 = @2589407
count @5 2589408 = @0
count @11 5178816 = @0
count @11 5178815 = @5178815
add @5 10 5 3 = @13
add 5 3 @5 10 = @13
add @5 2589407 5 1 = @0
sub @2 0 8 1 = @2073599
sub @5 0 @5 10 = -10
cmp @5 0 @5 10 = -1
add @5 10 @5 3 = refused 15
sub 5 10 @5 3 = refused 15
cmp @5 10 5 3 = refused 15
convert @5 10 = refused 15
"""


def cases():
    wrong = 0
    for case in CASES.strip().split("\n"):
        command, _, expected = case.rpartition(" = ")
        got = answer(command.encode())
        if got != expected:
            wrong += 1
            print(f"{command}: {got} instead of {expected}")
    print(f"{len(CASES.strip().splitlines())} cases, {wrong} wrong")
    return 1 if wrong else 0


def main():
    if sys.argv[1:] == ["cases"]:
        sys.exit(cases())
    if sys.argv[1:]:
        sys.exit("usage: compare/model.py < commands, or compare/model.py cases")
    for line in sys.stdin.buffer:
        sys.stdout.write(answer(line.removesuffix(b"\n")) + "\n")


if __name__ == "__main__":
    main()
