#!/usr/bin/env python3
"""Makes the stored sample: some thousands of commands of `ask`, and the answers that are right.

`python3 compare/sample.py DIR` writes DIR/stdin and DIR/stdout, the same on every run. An answer is the crate's where the
crate and the model agree, and the model's where the difference is of a listed kind (kinds.py); an unlisted one ends
the run. Our own program is not asked. What the crate has nothing for (minutes out of bounds, lines that are no commands) is
as docs/BEHAVIOUR.md and compare/README.md say; shot lists are lists.py's.
"""

import subprocess
import sys
from itertools import product
from pathlib import Path

import all as comparison
import commands
import forms
import kinds
import lists
import model
import texts

HERE = Path(__file__).resolve().parent

# a wrong number of words, an extra blank, what is no number, a number past 64 bits, a ROOM outside 0 to 128, over 64 rates
NOT_UNDERSTOOD = [
    "",
    "blank",
    "Label 5 1800 0 16",
    "label",
    "label 5 1800",
    "label 5 1800 0",
    "label 5 1800 0 16 0",
    "label  5 1800 0 16",
    "label 5  1800 0 16",
    "label 5 1800 0 16 ",
    " label 5 1800 0 16",
    "label 5 +1800 0 16",
    "label 5 1800x 0 16",
    "label 5 x 0 16",
    "label 5 - 0 16",
    "label 5 9223372036854775808 0 16",
    "label 5 -9223372036854775809 0 16",
    "label 13 99999999999999999999 0 16",
    "label 5 1800 0 129",
    "label 5 1800 0 -1",
    "footage 2 2 21 0",
    "runtime 1 86400 6 0 129",
    "read",
    "read x 1",
    "read_as 1",
    "read_as 1 x 1+0",
    "read_runtime",
    "count 2",
    "count 2 5 5",
    "ticks 2",
    "add 2 5 8",
    "add 2 5 8 -1 0",
    "mul 2 5 1",
    "divq 2 5 1 1 1",
    "convert",
    "convert 2",
    "convert 2 5 x",
    "convert 2 5" + " 2" * 65,
    "minute",
    "minute 1 1",
]


def with_line(command):
    """A writer's command of the judge, given a line."""
    return command + b" 2 20" if command.startswith(forms.WRITERS) else command


def of_cases():
    """The worked cases and the list's inputs; of positions, which the crate has none of, there are cases in cases.txt."""
    cases = (case.rpartition(" = ")[0].encode() for case in model.CASES.strip().split("\n") if "@" not in case)
    return [*map(with_line, cases), *(command for command, _ in comparison.shown_in_list())]


def of_readers():
    """Every text of up to two bytes, labels around the dropped ones, and random texts."""
    for word in (b"read 5 ", b"read_as 1 2 ", b"read_as 2 11 ", b"read_runtime 1 "):
        yield from texts.every_text(word, texts.SHORT, 2)
    for label in product(model.DROPPED, (0, 1, 9, 10, 59, 60, 61), (0, 1, 60), range(6)):
        yield b"read %d 1:%d:%d;%d" % label
    for word, many in ((b"read", 400), (b"read_as", 250), (b"read_runtime", 250)):
        yield from texts.random_texts(word, 100, many)


def of_writers():
    """Labels around each kind of minute at rates 5 and 11, each way a line can be too short, and random counts."""
    for rate, minute in product(model.DROPPED, (0, 1, 2, 9, 10, 11, 59, 60, 61, 599, 600, 1439, 1440, 6000)):
        first = model.label_count(rate, 0, minute, 0, 0)
        for count in range(first - 2, first + 6):
            yield b"label %d %d 0 13" % (rate, count)
    for place, room in product((0, 1, 4, 5, 2**63 - 1), (1, 10, 11, 12, 15, 16, 128)):
        yield b"label 5 1800 %d %d" % (place, room)
        yield b"footage 2 2 -16383 %d %d" % (place, room)
        yield b"runtime 1 -86401 6 %d %d" % (place, room)
    for rate, precision, count in product((1, 2, 12), range(7), (0, 1, 6, 9, 23, 59, 1439, 86399, -86400)):
        yield b"runtime %d %d %d 1 18" % (rate, count, precision)
    for make in (commands.labels, commands.footages, commands.runtimes):
        yield from make(100, 300)


def of_operations():
    """Random numbers, and some edges at pairs of rates."""
    for word in commands.OPERATIONS:
        yield from commands.operations(word, 100, 80)
    for word in (b"add", b"sub", b"cmp"):
        yield from commands.all_pairs(word)[::211]
    for word in (b"rebase", b"convert"):
        yield from commands.all_steps(word)[::29]
    yield b"convert 12 400000000" + b" 1 12" * 32
    yield from commands.minutes()[::17]
    yield from commands.minutes()[-1:]


def of_lists():
    """Shot lists: each record at each bound, faults in pairs, lists cut at every byte, records as words, and what is not understood."""
    yield from [*lists.at_bounds()][::9]
    yield from [*lists.pairs()][::23]
    yield from lists.cut(100, 4)
    yield from lists.damaged(100, 60)
    yield from lists.written(100, 120)
    yield from (command for command in lists.MALFORMED if b"\xe9" not in command)


def is_plain(command):
    """Whether a file of such lines reads well: lines of no bytes and the byte 0 are left to the comparison."""
    return b"\0" not in command and not (command.startswith(forms.WRITERS) and command.endswith(b" 0"))


def right_answers(judge, asked):
    """The model's answers, once it is shown that the crate's are the same or of a listed kind."""
    from_judge = comparison.answers([judge], [forms.for_judge(command) for command in asked])
    for command, crate in zip(asked, from_judge):
        right = forms.from_model(command)
        bare = forms.for_model(command)
        if right != forms.from_crate(command, crate) and not kinds.kind(bare, model.answer(bare), crate.decode()):
            sys.exit(f"unlisted: {command!r}: crate {crate!r}, right {right!r}")
        yield right


def main():
    (folder,) = sys.argv[1:]
    judge = subprocess.run([HERE / "judge.sh", "build"], stdout=subprocess.PIPE, check=True, text=True).stdout.strip()
    made = dict.fromkeys([*of_cases(), *of_readers(), *of_writers(), *of_operations()])
    asked = [command for command in made if is_plain(command)]
    answered = list(right_answers(judge, asked))
    for command in dict.fromkeys(of_lists()):
        asked.append(command)
        answered.append(lists.right(command))
    for minute in (-1, 1440, 2**63 - 1):
        asked.append(b"minute %d" % minute)
        answered.append(b"refused 5")
    for text in NOT_UNDERSTOOD:
        asked.append(text.encode())
        answered.append(b"not understood")
    for name, lines in (("stdin", asked), ("stdout", answered)):
        (Path(folder) / name).write_bytes(b"\n".join(lines) + b"\n")


if __name__ == "__main__":
    main()
