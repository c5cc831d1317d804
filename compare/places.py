#!/usr/bin/env python3
"""Holds the places of the text reader's refusals to a search over all completions, which knows nothing of scanners.

`python3 compare/places.py full|quick ASK ..` asks our program (`ask`'s commands) and compares whole answers; compare/all.sh calls it.
The number is the model's. The place of 1 is found by trying: the longest beginning of the text that some completion makes a
text of an allowed shape, the shapes being the model's regular expressions, matched whole. The place of 2 is where the
first run of over 9 digits begins: in a text of a shape the runs of digits are its fields. The last line is 'places: N judged, 0 wrong'.
"""

import re
import sys
from functools import lru_cache
from itertools import product
from random import Random

import all as comparison
import forms
import model
import texts

# every completion of up to three bytes: the empty text is three from a footage, and no beginning of a text of a shape is farther
BYTES = [b"0", b"+", b":", b";", b".", b"-"]
COMPLETIONS = sorted((b"".join(made) for n in range(4) for made in product(BYTES, repeat=n)), key=lambda c: (c.strip(b"0+"), c))
SHAPES = {b"read": (model.LABEL, model.FOOTAGE), b"read_as": (model.FOOTAGE,)}


@lru_cache(maxsize=1 << 20)
def begins(word, text):
    """Whether some completion makes the text one of an allowed shape."""
    return any(shape.fullmatch(text + completion) for completion in COMPLETIONS for shape in SHAPES[word])


def longest_beginning(word, text):
    """What begins with a text begins with all of its beginnings, so the first that fails ends it."""
    return next((n - 1 for n in range(len(text) + 1) if not begins(word, text[:n])), len(text))


def first_long(text):
    return next(run.start() for run in re.finditer(rb"[0-9]+", text) if len(run[0]) > 9)


def right(command):
    """The whole answer of `ask`."""
    answer = model.answer(command).encode()
    if not answer.startswith(b"refused"):
        return forms.shown(command, answer)
    word, _, rest = command.partition(b" ")
    text = rest.split(b" ", model.TEXTS[word][1])[-1]
    place = {b"refused 1": lambda: longest_beginning(word, text), b"refused 2": lambda: first_long(text)}
    return b"%s %d" % (answer, place.get(answer, lambda: 0)())


# -- Texts --

READERS = (b"read 2 ", b"read_as 1 2 ", b"read_as 2 2 ")
# the bytes that matter, and one that none of the shapes has
SHORT = [b"0", b"9", b":", b";", b"+", b".", b"-", b"x"]


def short_texts(first, longest):
    """All texts of up to so many bytes that begin with `first`."""
    return [reader + text for reader in READERS for text in texts.every_text(first, SHORT, longest - len(first))]


def long_fields():
    """One to four fields of each of four lengths in labels, two and three in footages, `-` in front or none; whole, with another
    byte at each place, and cut there."""
    made = []
    for many in range(1, 5):
        for lengths in product((1, 9, 10, 13), repeat=many):
            digits = [b"1234567890123"[:length] for length in lengths]
            made.append(b":".join(digits))
            made.append(b";".join(digits))
            if many in (2, 3):
                made.append(b"+".join(digits[:2]) + b"".join(b"." + perf for perf in digits[2:]))
    made = [sign + text for text in dict.fromkeys(made) for sign in (b"", b"-")]
    made += [text[:at] + byte + text[at + 1 :] for text in made[::7] for at in range(len(text)) for byte in (b"x", b"+", b":", b"")]
    return [reader + text for reader in READERS for text in made]


def damaged_texts(seed, many):
    """Labels and footages around their limits, each with one to three damages."""
    random = Random(seed)
    made = []
    for _ in range(many):
        text = random.choice([texts.label_scan, texts.footage_scan])(random, 2)
        for _ in range(random.randint(1, 3)):
            text = texts.damaged(random, text)
        made.append(random.choice(READERS) + text.replace(b"\n", b"x"))
    return made


def jobs(quick):
    longest = 4 if quick else 6
    yield short_texts, b"", 1
    for first in SHORT:
        yield from ((short_texts, first + second, longest) for second in SHORT)
    yield (long_fields,)
    yield from ((damaged_texts, seed, 5_000) for seed in range(2 if quick else 80))


def work(job):
    """How many were judged, and what was wrong."""
    ask, (make, *arguments) = job
    asked = list(dict.fromkeys(make(*arguments)))
    given = zip(asked, comparison.answers(ask, asked))
    return len(asked), [(command, ours, wanted) for command, ours in given if ours != (wanted := right(command))]


def main():
    size, *ask = sys.argv[1:]
    comparison.judge_all("places", work, ((ask, job) for job in jobs(size == "quick")))


if __name__ == "__main__":
    main()
