#!/usr/bin/env python3
"""A command as the program `ask` takes it, and as the judge and the model do; their answers as `ask` must give them.

What is compared are `ask`'s commands. Its writers lay their text down from PLACE in a line of ROOM bytes, each `#` before,
and answer the length and the whole line, or `refused N` and the whole line; its readers say label or footage, and `refused N PLACE`.
The judge and the model are asked for the text or the count alone: `for_judge` and `for_model` give what they are asked, `shown` what
`ask` must then answer, every byte of the line included. The crate's errors have no place: it is the model's.

`python3 compare/forms.py < commands` answers `ask`'s commands with the model in the program's place.
"""

import sys

import model

WRITERS = (b"label", b"footage", b"runtime")

# the text reader's refusals have a place, a runtime's have none
PLACED = (b"read", b"read_as")

# what the crate's errors are called here; a text that cannot be given to the crate, a value that it has none of,
# and a panic are nothing that `ask` can answer
MEANT = {
    b"error UnknownStrFormat": b"refused 1",
    b"error Conversion": b"refused 2",
    b"error DropFrameValue": b"refused 3",
    b"not understood": b"no such value",
}


def for_model(command):
    """A writer's command without PLACE and ROOM; any other as it is."""
    return command.rsplit(b" ", 2)[0] if command.startswith(WRITERS) else command


def for_judge(command):
    """As for the model, but that the crate has no minute table: it is asked to read the minute's first label."""
    if not command.startswith(b"minute "):
        return for_model(command)
    hour, minute = divmod(int(command.split(b" ")[1]), 60)
    return b"read 5 %02d:%02d:00;%02d" % (hour, minute, 2 if minute % 10 else 0)


def laid(text, place, room):
    """The answer of a writer that has room for the text, or refusal 8."""
    rest = room - place - len(text)
    if rest < 0:
        return b"refused 8 " + b"#" * room
    return b"%d %s%s%s" % (len(text), b"#" * place, text, b"#" * rest)


def with_place(command, answer):
    """A refusal of the text reader, as `ask` shows it."""
    return b"%s %d" % (answer, model.place(command, int(answer.split(b" ")[1])))


def shown(command, answer):
    """The answer of `ask` to a command, from the judge's or the model's."""
    word, _, rest = command.partition(b" ")
    refused = answer[:1].isalpha()
    if word in WRITERS:
        _, place, room = rest.rsplit(b" ", 2)
        if refused:
            return answer + b" " + b"#" * int(room) if answer.startswith(b"refused") else answer
        return laid(answer, int(place), int(room))
    if refused:
        return with_place(command, answer) if word in PLACED and answer.startswith(b"refused") else answer
    if word == b"read":
        if b"+" not in rest:
            return b"label " + answer
        return b"footage %s %d" % (answer, 2 if b"." in rest else 1)
    if word == b"read_as":
        return b"footage %s %d" % (answer, model.number(rest.partition(b" ")[0]))
    return answer


def from_crate(command, answer):
    """What `ask` answers if it agrees with the crate."""
    return shown(command, MEANT.get(answer, answer))


def is_understood(command):
    """What the model does not look at: PLACE is 0 or more, ROOM 0 to 128, and at most 64 rates are listed."""
    word, *words = command.split(b" ")
    if word == b"convert":
        return len(words) <= 2 + 64
    if word not in WRITERS:
        return True
    line = [model.number(number) for number in words[-2:]]
    return len(line) == 2 and None not in line and 0 <= line[0] and 0 <= line[1] <= 128


def from_model(command):
    """What `ask` answers if it agrees with the model."""
    if not is_understood(command):
        return b"not understood"
    return shown(command, model.answer(for_model(command)).encode())


def main():
    for line in sys.stdin.buffer:
        sys.stdout.buffer.write(from_model(line.removesuffix(b"\n")) + b"\n")


if __name__ == "__main__":
    main()
