"""Certificates as texts, of both versions, apart from the program.

Which lines have the form, and what the compact form of a full certificate is.
"""

import re

LONGEST = 67_108_864
NUMBER = re.compile(rb"0|[1-9]\d{0,4}")
NAME = re.compile(rb"[A-Za-z_]\w*", re.A)


def is_number(text):
    return bool(NUMBER.fullmatch(text)) and int(text) <= 65_535


def are_names(text, others=()):
    """Whether these are rising names, or others, with commas between them; or nothing."""
    names = text.split(b",") if text else []
    is_rising = all(one < two for one, two in zip(names, names[1:]))
    return is_rising and all(NAME.fullmatch(it) or it in others for it in names)


def is_drops(text):
    sets = text.split(b":")
    return len(sets) == 2 and are_names(sets[0], [b"!"]) and are_names(sets[1])


def is_fact(text):
    count, _, sets = text.partition(b":")
    return text == b"-" or is_number(count) and is_drops(sets)


def has_fields(line, tests):
    fields = line.split(b" ")
    held = (one(it) if callable(one) else one == it for one, it in zip(tests, fields))
    return len(fields) == len(tests) and all(held)


def counts_of(line, words):
    """The numbers of a second line with these words, if it is one."""
    tests = [test for word in words for test in (word, is_number)]
    return [int(it) for it in line.split(b" ")[1::2]] if has_fields(line, tests) else None


def function_line(number):
    return [b"f", b"%d" % number, is_fact, is_drops, is_fact, is_fact]


def full_forms(counts):
    """For each line after the second the fields that it may have."""
    for number in range(1, counts[0] + 1):
        fields = [b"c", b"%d" % number, is_fact, is_fact, is_fact]
        yield [fields, [*fields, is_fact]]
    for number in range(1, counts[1] + 1):
        yield [function_line(number)]


def compact_forms(counts):
    least = 0

    def is_higher(text):
        nonlocal least
        held = is_number(text) and int(text) >= least
        least = int(text) + 1 if held else least
        return held

    yield [[b"s", is_fact]]
    for _ in range(counts[2]):
        yield [[b"h", is_higher, is_fact]]
    for number in range(1, counts[1] + 1):
        yield [function_line(number)]


def fault_line(text):
    """The number of the first line that has not the form, 0 of a text that is too long, or None."""
    if len(text) > LONGEST:
        return 0
    *lines, rest = text.split(b"\n")
    if not lines or lines[0] not in (b"shset certificate 1", b"shset certificate 2"):
        return 1
    is_full = lines[0].endswith(b"1")
    words = [b"commands", b"functions", *([] if is_full else [b"loops"])]
    forms = full_forms if is_full else compact_forms
    counts = counts_of(lines[1], words) if len(lines) > 1 else None
    if counts is None:
        return 2
    at = 2
    for wanted in forms(counts):
        if at >= len(lines) or not any(has_fields(lines[at], it) for it in wanted):
            return at + 1
        at += 1
    return at + 1 if lines[at:] or rest else None


def compact_of(full, args, names):
    """The compact form of a full certificate, if so many operands and these names are declared."""
    _, counts, *lines = full.splitlines()
    start = b",".join(sorted({b"IFS", b"OPTIND", b"PPID", *names}))
    heads = [it for it in map(bytes.split, lines) if it[0] == b"c" and len(it) == 6]
    turns = [b"h %s %s" % (fields[1], fields[5]) for fields in heads]
    functions = [line for line in lines if line.startswith(b"f ")]
    first = b"shset certificate 2\n%s loops %d\ns %d:%s:" % (counts, len(turns), args, start)
    return b"\n".join([first, *turns, *functions, b""])
