#!/usr/bin/env python3
"""Runs the inputs of commands.py through the crate and through our program, and holds each difference to the list.

`compare/all.sh` calls it with `full` or `quick`, the judge's path, and the program that answers `ask`'s commands. Where the
two answers are the same, the model is asked too for one in ten; where they differ, always: ours must be the model's
answer, and the crate's what the rule of a listed kind says (kinds.py). All else is unlisted. The inputs that
docs/DIFFERENCES.md shows come first, and each must be of its own kind.
"""

import os
import re
import subprocess
import sys
import time
from collections import Counter
from multiprocessing import Pool
from pathlib import Path

import commands
import forms
import kinds
import model

LIST = Path(__file__).resolve().parent.parent / "docs" / "DIFFERENCES.md"


def answers(program, asked):
    """A program's answers, one a command."""
    given = b"\n".join(asked) + b"\n"
    done = subprocess.run(program, input=given, stdout=subprocess.PIPE, stderr=subprocess.DEVNULL, check=True)
    lines = done.stdout.split(b"\n")
    if len(lines) != len(asked) + 1:
        raise RuntimeError(f"{program}: {len(lines) - 1} answers to {len(asked)} commands, from {asked[0]} on")
    return lines[:-1]


def judge_all(name, work, jobs):
    """Works through jobs, each of which gives how many were judged and what was wrong; tells of both, and ends the program."""
    judged, wrong = 0, []
    with Pool(os.cpu_count()) as pool:
        for many, found in pool.imap_unordered(work, jobs):
            judged += many
            wrong += found
    for command, ours, wanted in sorted(wrong, key=lambda one: by_length(one[0]))[:20]:
        print(f"wrong: {command!r}: ours {ours!r}, right {wanted!r}")
    print(f"{name}: {judged} judged, {len(wrong)} wrong")
    sys.exit(1 if wrong else 0)


def differences(judge, ask, asked):
    """Where the crate, our program and the model are not of one mind: the command, the number of the kind or none, and
    the three answers."""
    from_judge = answers(judge, [forms.for_judge(command) for command in asked])
    for n, (command, crate, ours) in enumerate(zip(asked, from_judge, answers(ask, asked))):
        wanted = forms.from_crate(command, crate)
        same = is_same(ours, wanted)
        if same and n % 10:
            continue
        bare = forms.for_model(command)
        meant = model.answer(bare)
        right = forms.shown(command, meant.encode())
        if same and right == wanted:
            continue
        listed = not same and is_same(ours, right)
        yield command, kinds.kind(bare, meant, crate.decode()) if listed else None, crate, ours, right


def is_same(ours, wanted):
    """Whether that is the wanted answer; a line of no bytes may be left out with the blank before it."""
    return ours == wanted or ours + b" " == wanted


class Found:
    """How many were compared, how many differences of each kind there are and the shortest, and what is unlisted."""

    def __init__(self, compared=0, unlisted=()):
        self.compared, self.listed, self.shortest, self.unlisted = compared, Counter(), {}, list(unlisted)

    def take(self, number, command, many):
        self.listed[number] += many
        self.shortest[number] = min(self.shortest.get(number, command), command, key=by_length)

    def add(self, other):
        self.compared += other.compared
        self.unlisted += other.unlisted
        for number, command in other.shortest.items():
            self.take(number, command, other.listed[number])


def by_length(command):
    return len(command), command


def work(job):
    """What a job finds."""
    judge, ask, (make, *arguments) = job
    asked = make(*arguments)
    found = Found(len(asked))
    for command, number, *three in differences(judge, ask, asked):
        if number is None:
            found.unlisted.append((command, *three))
        else:
            found.take(number, command, 1)
    return found


def shown_in_list():
    """The inputs that docs/DIFFERENCES.md shows, with the number of their kind; a writer is given a line."""
    for row in LIST.read_text().splitlines():
        cells = re.split(r"(?<!\\)\|", row)
        if len(cells) > 3 and cells[1].strip().isdigit():
            for command in re.findall(r"`([^`]+)`", cells[2].replace("\\|", "|")):
                room = " 2 20" if command.encode().startswith(forms.WRITERS) else ""
                yield (command + room).encode(), int(cells[1])


def listed_wrongly(judge, ask):
    """The inputs of the list that are not of the kind that they are listed under."""
    listed = dict(shown_in_list())
    found = {command: (number, *three) for command, number, *three in differences(judge, ask, list(listed))}
    for command, number in listed.items():
        was, *three = found.get(command, (None, b"", b"", b""))
        if was != number:
            yield command, *three


def report(found):
    """A line for each kind, the shortest unlisted differences, and the sum."""
    for number in range(1, max(found.listed, default=0) + 1):
        shortest = f", the shortest {found.shortest[number]!r}" if number in found.shortest else ""
        print(f"kind {number}: {found.listed[number]}{shortest}")
    for command, crate, ours, right in sorted(found.unlisted, key=lambda one: by_length(one[0]))[:20]:
        print(f"unlisted: {command!r}: crate {crate!r}, ours {ours!r}, model {right!r}")
    print(f"{found.compared} compared, {found.listed.total()} listed differences, {len(found.unlisted)} unlisted")


def tell(found, began):
    """How far it is, in one line on standard error that is kept up to date, where that is a terminal."""
    so_far = int(time.monotonic() - began)
    if sys.stderr.isatty():
        print(f"\r{found.compared:,} compared, {so_far // 60}:{so_far % 60:02} so far", end="", file=sys.stderr, flush=True)


def main():
    size, judge, *ask = sys.argv[1:]
    began = time.monotonic()
    found = Found(unlisted=listed_wrongly([judge], ask))
    print(f"comparing {'half a' if size == 'quick' else '26'} million inputs", file=sys.stderr, flush=True)
    with Pool(os.cpu_count()) as pool:
        for one in pool.imap_unordered(work, (([judge], ask, job) for job in commands.jobs(size == "quick"))):
            found.add(one)
            tell(found, began)
    if sys.stderr.isatty():
        print(file=sys.stderr)
    report(found)
    sys.exit(1 if found.unlisted else 0)


if __name__ == "__main__":
    main()
