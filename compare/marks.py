"""The mark `@`, as commands of `ask` with the answers that are right: where it belongs, where it does not, and before what is no rate."""

import forms

# each command with good numbers, and its answer if the mark stands before that word alone, a rate; before any other number none belongs
LINES = [
    (b"read 5 1:00", {1: b"label @30"}),
    (b"read_as 1 5 1+00", {2: b"footage @16 1"}),
    (b"read_runtime 2 1", {1: b"@24"}),
    (b"count 5 7", {1: b"@7"}),
    (b"from_ticks 2 10584000000", {1: b"@1"}),
    (b"from_seconds 2 1 2", {1: b"@12"}),
    (b"label 5 1800 0 11", {1: b"11 00:01:00;02"}),
    (b"footage 2 5 21 0 6", {2: b"6 1+00.1"}),
    (b"runtime 2 24 1 0 10", {1: b"10 00:00:01.0"}),
    (b"ticks 2 1", {1: b"10584000000"}),
    (b"seconds 2 1", {1: b"1/24"}),
    (b"add 5 10 5 3", {1: b"@13", 3: b"@13"}),
    (b"sub 5 10 5 3", {1: b"@7", 3: b"refused 15"}),
    (b"cmp 5 10 5 3", {1: b"refused 15", 3: b"refused 15"}),
    (b"mul 5 10 1 2", {1: b"refused 15"}),
    (b"div 5 10 2", {1: b"refused 15"}),
    (b"rem 5 10 2", {1: b"refused 15"}),
    (b"divq 5 10 1 2", {1: b"refused 15"}),
    (b"remq 5 10 1 2", {1: b"refused 15"}),
    (b"neg 5 10", {1: b"refused 15"}),
    (b"abs 5 10", {1: b"refused 15"}),
    (b"rebase 5 10 2", {1: b"refused 15"}),
    (b"convert 5 10 2 12", {1: b"refused 15"}),
    (b"minute 5", {}),
]

# in a rate's place: what is no number with a mark
MALFORMED = [b"@", b"@@5", b"@ 5", b"5@", b"@5@", b"@+5", b"@-", b"@--5", b"@x", b"@5x", b"@0x5", b" @5", b"-@5", b"@\t5", b"@'5'", b"@\xff5"]
MALFORMED += [b"@9223372036854775808", b"@-9223372036854775809", b"@" + b"9" * 30, b"#5", b"&5", b"@5.0", b"@5,5", b"@5\r", b"\0@5", b"@5@5"]
# and a number that is no rate
NO_RATES = [b"@-1", b"@0", b"@-0", b"@13", b"@256", b"@4294967301", b"@18", b"@9223372036854775807", b"@-9223372036854775808", b"@000"]

# not understood, though a refusal would be due if the mark belonged there
MISPLACED = [b"rebase 13 5 @5", b"rebase @5 10 @5", b"rebase 5 400000001 @13", b"convert 13 400000001 @5", b"convert @5 10 5 @5"]
MISPLACED += [b"add 13 @0 5 0", b"add @5 9999999 @5 @0", b"sub 13 0 5 @0", b"cmp 5 @9999999999 @5 0", b"mul @5 1 @1 2", b"div @5 1 @0"]
MISPLACED += [b"label 13 1 @0 4", b"label @5 2589408 0 @16", b"footage @9 13 0 0 4", b"runtime @5 -1 @7 0 4", b"read_as @9 13 x"]
MISPLACED += [b"from_ticks @13 @0", b"from_seconds @13 @1 1", b"from_seconds @13 1 @1", b"minute @1440"]
MISPLACED += [b"read_list @01", b"read_list @-", b"write_list @0 16 rate 5", b"write_list 0 16 rate @5"]
# nor are these with a good mark: words too few or too many, blanks, no such command, a line or a list out of its limits
MISSHAPEN = [b"@", b"@5", b"@read 5 1", b"@count 5 1", b"count@5 1", b"count @5", b"count @5 1 ", b"count  @5 1", b" count @5 1", b"count @5 1 1"]
MISSHAPEN += [b"add @5 1 @5", b"add @5 1 5 1 1", b"label @5 1800", b"label @5 1800 0 129", b"label @5 1800 -1 16", b"minute @5 1", b"Count @5 1"]
MISSHAPEN += [b"convert @5", b"convert @5 10 ", b"convert @5 10" + b" 5" * 65, b"read_as 1", b"read_as 1 @ 1+00", b"read @x 1", b"read @", b"count @5 x"]


def with_word(line, n, word):
    words = line.split(b" ")
    return b" ".join([*words[:n], word, *words[n + 1 :]])


def refused_six(line):
    """6 as each command shows it."""
    word = line.split(b" ")[0]
    if word in forms.PLACED:
        return b"refused 6 0"
    return b"refused 6 " + b"#" * int(line.split(b" ")[-1]) if word in forms.WRITERS else b"refused 6"


def before_every_word():
    """A text at the end aside."""
    for line, answers in LINES:
        words = line.split(b" ")
        for n, word in enumerate(words[:-1] if words[0].startswith(b"read") else words):
            yield with_word(line, n, b"@" + word), answers.get(n, b"not understood")


def in_place_of_rates():
    for line, answers in LINES:
        for n, answer in answers.items():
            rate = line.split(b" ")[n]
            yield from ((with_word(line, n, mark), b"not understood") for mark in MALFORMED)
            yield from ((with_word(line, n, mark), refused_six(line)) for mark in NO_RATES)
            yield from ((with_word(line, n, b"@" + zeros + rate), answer) for zeros in (b"0", b"0" * 30))


def in_texts():
    """A text is a text, and an empty one has no shape."""
    yield from ((b"read @5" + end, b"refused 1 0") for end in (b"", b" ", b"  ", b" @", b" @5", b" @1:00", b"  1"))
    yield from ((b"read_runtime @5" + end, b"refused 1") for end in (b"", b" ", b" @1", b" 1@"))
    yield from ((b"read_as 1 @5" + end, b"refused 1 0") for end in (b"", b" ", b" @1+00"))
    yield b"read @5 1@", b"refused 1 1"
    yield b"read_as 1 @5 1:00", b"refused 1 1"


def all_marks():
    yield from before_every_word()
    yield from in_place_of_rates()
    yield from in_texts()
    yield from ((line, b"not understood") for line in (*MISPLACED, *MISSHAPEN))
