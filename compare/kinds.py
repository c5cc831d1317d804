"""The kinds of difference that docs/DIFFERENCES.md lists, each as a rule.

`kind` is asked about an answer of the crate that is not the model's, and gives the number of the kind that it is of, or
none: then it is unlisted. A rule does not skip an input, it says what the crate answers there: the model's formulas
without its bounds (`unbounded`), but for the crate's faults, which are formulas here (`crate_label`, `crate_runtimes`,
`crate_read`). Known by shape only: where the crate panics on huge numbers (14, 17), and which way it rounds half a second
at precision 0 (6) and half a frame of a fraction of over 6 digits (13).
"""

import importlib.util
import re
from math import prod

import model


def model_without_bounds():
    """The model a second time, where every number, every field and every footage is taken."""
    spec = importlib.util.spec_from_file_location("unbounded", model.__file__)
    unbounded = importlib.util.module_from_spec(spec)
    spec.loader.exec_module(unbounded)
    unbounded.within = lambda *_: None
    unbounded.on_film = lambda *_: True
    unbounded.fields = lambda *texts, fraction=b"": [int(text) for text in texts]
    return unbounded


unbounded = model_without_bounds()

PANIC = "panic"
NO_SUCH_VALUE = "not understood"


def kind(command, right, crate):
    """The number of a difference: the command as the judge takes it, the model's answer, the crate's answer."""
    word, _, rest = command.partition(b" ")
    if right == "refused 6" and crate == NO_SUCH_VALUE:
        return 20
    if word in model.TEXTS:
        *numbers, text = rest.split(b" ", model.TEXTS[word][1])
        return of_text(word, [int(n) for n in numbers], text, right, crate)
    return of_numbers(word, [int(n) for n in rest.split(b" ")], right, crate)


# -- Writing labels at rates 5 and 11 (1, 2) --

DAY = {5: 2589408, 11: 5178816}


def drop_frame_adjustment(rate, frames):
    """The crate's: folded by a day, and multiplied before it is divided."""
    dropped, timebase = model.DROPPED[rate], model.RATES[rate][2]
    tens, rest = divmod(frames % DAY[rate], 600 * timebase - 9 * dropped)
    minutes = dropped * (rest - dropped) // (60 * timebase - dropped) if rest > dropped else 0
    return 9 * dropped * tens + minutes


def crate_label(rate, count):
    frames = abs(count)
    if rate in DAY:
        frames += drop_frame_adjustment(rate, frames)
    seconds, frames = divmod(frames, model.RATES[rate][2])
    minutes, seconds = divmod(seconds, 60)
    hours, minutes = divmod(minutes, 60)
    divider = ";" if rate in DAY else ":"
    return f"{model.minus(count)}{hours:02}:{minutes:02}:{seconds:02}{divider}{frames:02}"


def label_kind(rate, count):
    if rate not in DAY:
        return None
    return 1 if abs(count) < DAY[rate] else 2


# -- Writing runtimes (3 to 6; 7 is a bound) --


def crate_runtimes(rate, count, precision):
    """The crate formats the fraction of a second as a float, takes the zeros off both ends and appends the rest. At
    precision 0 half a second is rounded as the Rust version has it."""
    if not 0 <= precision <= 1000:
        return [NO_SUCH_VALUE]
    n, d, _, _ = model.RATES[rate]
    seconds, rest = divmod(abs(count) * d, n)
    front = f"{model.minus(count)}{seconds // 3600:02}:{seconds // 60 % 60:02}:{seconds % 60:02}"
    if rest == 0:
        return [front + ".0"]
    if precision == 0 and 2 * rest == n:
        return [front, front + "1"]
    return [front + f"{rest / n:.{precision}f}".strip("0")]


def runtime_kind(precision, right, crate):
    """No fraction asked for, a bare point, a 1 that is not carried, a half."""
    if precision == 0:
        return 6
    if crate + "0" == right:
        return 4
    return 3 if re.search(r":[0-9]{2}1\.$", crate) else 5


# -- Reading texts (8 to 15, 21; a count out of bounds is 16) --

# the crate's shapes: `|` divides fields, `;` those of a runtime too, and a perf field is one digit
CRATE_LABEL = re.compile(rb"-?[0-9]+(?:[:|;][0-9]+){0,3}")
CRATE_FOOTAGE = re.compile(rb"-?[0-9]+\+[0-9]+(?:\.[0-9])?")
CRATE_RUNTIME = re.compile(rb"-?[0-9]+(?:[:|;][0-9]+){0,2}(?:\.[0-9]+)?")
CRATE_SHAPES = {
    b"read": (CRATE_LABEL, CRATE_FOOTAGE),
    b"read_as": (CRATE_FOOTAGE,),
    b"read_runtime": (CRATE_RUNTIME,),
}

# the crate's errors for the refusals that are left without bounds
ERRORS = {"refused 3": "error DropFrameValue", "refused 4": "error UnknownStrFormat"}


def fields(text):
    """The values of a text's fields, those after a point left out."""
    return [int(field) for field in re.findall(rb"[0-9]+", text.partition(b".")[0])]


def twice_rounded(rate, text):
    """The counts of a runtime as the crate has it: the fraction rounded to a frame first, then the sum. Over 6 digits go
    through a float and a 32-bit fraction, so that near half a frame there are two."""
    sign, numbers, fraction = model.RUNTIME.fullmatch(text).groups(default=b"")
    hours, minutes, seconds = model.right_justified(fields(numbers), 3)
    n, d, _, _ = model.RATES[rate]
    p, q = int(fraction or b"0") * n, 10 ** len(fraction) * d
    slack = q // 10**6 if len(fraction) > 6 else 0
    whole = (60 * hours + minutes) * 60 + seconds
    return [
        model.with_sign(sign, model.nearest(whole * n + frames * d, d))
        for frames in (model.nearest(p - slack, q), model.nearest(p + slack, q))
    ]


def crate_read(word, numbers, text):
    """What the crate answers to a text, panics aside."""
    if not any(shape.fullmatch(text) for shape in CRATE_SHAPES[word]):
        return ["error UnknownStrFormat"]
    if max(fields(text)) >= 2**63:
        return ["error Conversion"]
    text = re.sub(rb"[|;]", b":", text)
    if word == b"read_runtime":
        return [str(count) for count in twice_rounded(*numbers, text)]
    answer = unbounded.answer(b" ".join([word, *(b"%d" % n for n in numbers), text]))
    return [ERRORS.get(answer, answer)]


def of_text(word, numbers, text, right, crate):
    if right == "refused 6":
        return None
    if crate == "error Utf8":
        return 15 if right == "refused 1" and not is_utf8(text) else None
    expected = crate_read(word, numbers, text)
    if crate == PANIC:
        return 14 if not expected[0].startswith("error") and max(fields(text)) >= 10**9 else None
    if crate not in expected:
        return None
    if crate.startswith("error"):
        # both refuse, or the crate alone, a perf field of more digits
        return 15 if right.startswith("refused") else 10
    if right == "refused 1":
        return 8 if b"|" in text else 9
    if right == "refused 2":
        return 12 if re.search(rb"[0-9]{10}", text.partition(b".")[0]) else 13
    if right == "refused 13":
        return 21
    return 16 if right == "refused 5" else 11


def is_utf8(text):
    try:
        text.decode()
    except UnicodeDecodeError:
        return False
    return True


# -- Numbers: the writers' faults (1 to 6), bounds and divisors (7, 16 to 19) --

# where the counts stand, if not second; where p/q stands and how large p may be; what has a divisor, standing third
COUNTS = {b"footage": (2,), b"add": (1, 3), b"sub": (1, 3), b"cmp": (1, 3)}
COUNTS |= {b"from_ticks": (), b"from_seconds": (), b"minute": ()}
FRACTIONS = {b"from_seconds": (1, 10**12), b"mul": (2, 10**6), b"divq": (2, 10**6), b"remq": (2, 10**6)}
DIVISORS = (b"div", b"rem", b"divq", b"remq")


class Given:
    """The numbers of a command by what they are, and whether they are outside their bounds."""

    def __init__(self, word, numbers):
        at, most = FRACTIONS.get(word, (None, 0))
        self.counts = [numbers[n] for n in COUNTS.get(word, (1,))]
        self.p, self.q = numbers[at : at + 2] if at else (0, 1)
        self.past_count = any(abs(count) > model.BOUND for count in self.counts)
        self.past_fraction = abs(self.p) > most or not 1 <= self.q <= 10**6
        self.zero_divisor = word in DIVISORS and numbers[2] == 0


def of_numbers(word, numbers, right, crate):
    given = Given(word, numbers)
    if crate == PANIC:
        return panic_kind(word, given, right)
    if right == "refused 6" or given.q == 0 or given.zero_divisor:
        return None
    if crate in crate_compute(word, numbers):
        return bound_kind(word, given) if right == "refused 5" else fault_kind(word, numbers, right, crate)
    if word == b"ticks" and given.past_count and crate == str(wrapped(unbounded.ticks(*numbers))):
        return 17
    return None


def crate_compute(word, numbers):
    """What the crate answers to numbers, panics and wrapped ticks aside."""
    if word == b"label":
        return [crate_label(*numbers)]
    if word == b"runtime":
        return crate_runtimes(*numbers)
    if word in FRACTIONS and numbers[-1] < 0:
        # a fraction has its sign above
        numbers = [*numbers[:-2], -numbers[-2], -numbers[-1]]
    function, _ = unbounded.NUMBERS.get(word, (unbounded.convert, None))
    return [str(function(*numbers))]


def panic_kind(word, given, right):
    """A divisor of 0, a fraction over 0, or numbers past their bounds that pass 64 bits."""
    if right == "refused 6":
        # the first timecode is made before the other rates are looked at
        return 17 if word in (b"add", b"sub", b"cmp", b"convert") and is_huge(given.counts[0]) else None
    if given.q == 0:
        return 18
    if given.zero_divisor:
        return 19
    return 17 if (given.past_count or given.past_fraction) and is_huge(*given.counts, given.p, given.q) else None


def bound_kind(word, given):
    """What is outside its bounds: a count, p or q, the precision, or else the resulting count."""
    if given.past_count:
        return 16
    return 18 if given.past_fraction else 7 if word == b"runtime" else 16


def fault_kind(word, numbers, right, crate):
    """1 to 6: all is within its bounds."""
    if word == b"label":
        return label_kind(*numbers)
    return runtime_kind(numbers[2], right, crate) if word == b"runtime" else None


def wrapped(number):
    """The low 64 bits, signed."""
    return (number + 2**63) % 2**64 - 2**63


def is_huge(*numbers):
    """Whether the numbers, multiplied with each other and with a rate, can pass 64 bits."""
    return prod(max(1, abs(n)) for n in numbers) * 60000 * 1001 >= 2**63
