"""Scripts for which a call could take longer than in proportion: a family for each way in which it could, by the size of its scripts in bytes.

bench/measure.py times them all, and tests/families holds each to a limit.
"""

import random
from pathlib import Path

MOST_COMMANDS = 65_000
MOST_NAMES = 3_900
ALL_PARAMETERS = ("--args", "65535")


def joined(lines, size):
    """As many of the lines as fit."""
    chosen, length = [], 0
    for line in lines:
        length += len(line) + 1
        if length > size:
            break
        chosen.append(line)
    return chosen


def text_of(lines):
    return "\n".join(lines) + "\n"


def straight(size):
    """Assignments and commands; some expand what may be unset."""
    lines = []
    for number in range(size):
        lines += (f'name_{number % 3000}="value of {number} and $PPID"', f'echo "$name_{number % 3000} is set" plain_word_{number}', f'log "$other_{number % 50}"')
        if len(lines) * 30 > size:
            break
    return text_of(joined(lines, size))


def count_of(size, sample, most=MOST_NAMES):
    """How many lines of the length of a sample fit."""
    return max(2, min(most, size // (len(sample) + 1)))


def shift_after(size):
    return straight(size - 30) + "while :; do shift; done\n"


def shift_in_links(piece, start="while :; do ", end="b; done\n"):
    """Each link leaves fewer parameters than the one before it, and all leave many."""

    def of(size):
        count = max(2, (size - len(start) - len(end)) // len(piece % 60000))
        return start + "".join(piece % (65_000 - 54_000 * n // count) for n in range(count)) + end

    return of


def shift_in_clauses(piece):
    """The same in clauses that fall through."""
    return shift_in_links(piece, "while :; do case x in ", "b) c;; esac; done\n")


def shift_both_ways(size):
    """Functions that call the next and the one before, each with fewer parameters than the one before it."""
    last = count_of(size, 'f1000() { f1001 "$@"; }\nf1000() { f1000 "$@"; }\n( shift 1000; f1000 "$@" )') - 1
    lines = [f'f{number}() {{ f{min(number + 1, last)} "$@"; }}\nf{number}() {{ f{max(number - 1, 0)} "$@"; }}' for number in range(last + 1)]
    return text_of(lines + [f'( shift {number + 1}; f{number} "$@" )' for number in range(last + 1)])


def shift_words(size):
    return "set -- " + "a " * ((size - 60) // 2) + "&& while :; do shift; done\n"


def shift_around(size):
    return "while :; do shift\n" + straight(size - 30) + "done\n"


def shift_choice(size):
    """Doubled or not, so that no step is the same as the last."""
    return "while :; do shift; a && set -- \"$@\" \"$@\"\n" + straight(size - 60) + "done\n"


def zigzag_order(count):
    """The first, the last, the second, the last but one, ..."""
    return [number // 2 if number % 2 == 0 else count - 1 - number // 2 for number in range(count)]


def shift_functions(size):
    """Functions that call each other in a circle. Each shifts, and they are defined in an order that zigzags."""
    count = count_of(size, 'f1000() { shift; f1000 "$@"; }')
    doubled = ['set -- "$@" a'] + ['set -- "$@" "$@"'] * 16
    lines = [f'f{number}() {{ shift; a && f{(number + 1) % count} "$@"; }}' for number in zigzag_order(count)]
    return text_of([*doubled, *lines, 'f0 "$@"'])


def shift_meets(size):
    """The same, and each calls two others."""
    count = count_of(size, 'f1000() { a && f1000 "$@"; f1000 "$@"; }')
    lines = [f'f{number}() {{ {"shift; " if number == 0 else ""}a && f{(number + 1) % count} "$@"; b && f{(number * 7 + 3) % count} "$@"; }}' for number in range(count)]
    return text_of(lines + ['f0 "$@"'])


def shift_substitutions(size):
    count = count_of(size, 'f1000() { x=$(shift; f1000 "$@") ${1?}; }')
    lines = [f'f{number}() {{ x=$(shift; f{(number + 1) % count} "$@") y=${{1?}}; }}' for number in zigzag_order(count)]
    return text_of(lines + ['f0 "$@"'])


def shift_nested(size):
    depth = 30
    one = "while a; do shift; " * depth + "b" + "; done" * depth
    return text_of(joined([one] * size, size))


def shift_beside(line):
    """Losing parameters turn by turn, beside commands that keep them."""
    def made(size):
        return "f() { :; }\nwhile a; do shift\n" + f"{line}\n" * ((size - 40) // (len(line) + 1)) + "done\n"
    return made


def shift_floors(size):
    """Each branch lowers the parameters to fewer than the one before."""
    line = 'a && { shift; : "${60000?}"; continue; }'
    count = count_of(size - 30, line, size)
    step = max(1, 60000 // count)
    return text_of(["while :; do", *(f'a && {{ shift; : "${{{65000 - number * step}?}}"; continue; }}' for number in range(count)), "b; done"])


def shift_stages(size):
    """Each function has a loop that is reached once the one before is left."""
    loop = "( while :; do shift; done )"
    count = count_of(size, f'f1000() {{ f1000 "$@"; {loop}; }}\nb && f1000 "$@"')
    lines = [f'f{number}() {{ f{number - 1} "$@"; {loop}; }}' for number in range(1, count)]
    return text_of([*lines, "f0() { a || {", *(f'b && f{number} "$@"' for number in range(1, count)), "}; }", 'f0 "$@"'])


def shift_waves(size):
    """Branches after a loop, each with fewer parameters than the one before, and then many commands."""
    count = max(2, size * 2 // 3 // 27)
    branches = [f'elif a; then : "${{{count + 1000 - number}?}}"' for number in range(count)]
    lines = ["while a; do shift; done", f'if a; then : "${{{count + 1001}?}}"', *branches, "fi"]
    return text_of([*lines, *(["b"] * max(2, (size - len(text_of(lines))) // 2))])


def chain(order):
    def made(size):
        count = count_of(size, "f1000() { f1000; }")
        numbers = list(range(count))
        if order == "reversed":
            numbers.reverse()
        if order == "shuffled":
            random.Random(1).shuffle(numbers)
        lines = [f"f{number}() {{ f{number + 1}; }}" for number in numbers]
        return text_of(lines + [f"f{count}() {{ :; }}", "f0"])
    return made


def chain_of_facts(size):
    """Each sets a variable, and the last loses one in five."""
    count = count_of(size, "f1000() { v1000=; f1000; }", MOST_NAMES // 2)
    lines = [f"f{number}() {{ v{number}=; f{number + 1}; }}" for number in range(count)]
    lost = " ".join(f"v{number}" for number in range(0, count, 5))
    return text_of(lines + [f"f{count}() {{ unset {lost}; }}", "f0", *(f'echo "$v{number}"' for number in range(0, count, 50))])


def in_group(size):
    count = count_of(size, "f1000() { f1000; }")
    lines = [f"f{number}() {{ f{number + 1}; }}" for number in range(count)]
    random.Random(1).shuffle(lines)
    return text_of(["{", *lines, f"f{count}() {{ :; }}", "f0", "}"])


def functions_in_functions(size):
    """Functions that are defined in functions that are defined in functions, and called there."""
    count = count_of(size, "a1000() { b1000() { c1000() { x=1; }; c1000; }; b1000; }; a1000", MOST_NAMES // 3)
    return text_of(f"a{n}() {{ b{n}() {{ c{n}() {{ x=1; }}; c{n}; }}; b{n}; }}; a{n}" for n in range(count))


def deep_functions(size):
    depth = 60
    line = "".join(f"f{level}() {{ " for level in range(depth)) + ":" + "".join(f"; }}; f{depth - 1 - level}" for level in range(depth))
    return text_of(joined([line] * size, size))


def definitions_in_substitutions(size):
    count = count_of(size, 'x=$(f1000() { y=1; }; f1000); while a; do f1000; done')
    return text_of(f"x=$(f{n}() {{ y=1; }}; f{n}); while a; do f{n}; done" for n in range(count))


def calls_late(size):
    """Functions whose calls are reached once another one returns. Each calls one other, in any order."""
    count = count_of(size, "f1000() { h; unset v1000; a && f1000; }\nv1000=;b && f1000", 1900)
    order = list(range(count))
    random.Random(1).shuffle(order)
    after = dict(zip(order, order[1:] + order[-1:]))
    lines = [f"f{n}() {{ h; unset v{n}; a && f{after[n]}; }}" for n in range(count)]
    names = "".join(f"v{n}=;" for n in range(count))
    return text_of(["h() { a || ( m ); }", *lines, "m() {", names, *(f"b && f{n}" for n in range(count)), "}", "h"])


def losing_recursion(size):
    count = count_of(size, "a && unset v1000", MOST_NAMES - 100)
    return text_of([*(f"v{n}=" for n in range(count // 2)), "f() {", *(f"a && unset v{n}" for n in range(count // 2)), "f; }", "f"])


def losing_circle(size):
    """Functions in a circle. Each loses a name."""
    count = count_of(size, "f1000() { unset v1000; a && f1000; }; v1000=", MOST_NAMES // 2)
    lines = [f"v{n}=" for n in range(count)] + [f"f{n}() {{ unset v{n}; a && f{(n + 1) % count}; }}" for n in zigzag_order(count)]
    return text_of(lines + ["f0"])


def groups_in_groups(size):
    depth = 30
    blocks = []
    for block in range(size):
        names = [f"g{block}_{level}" for level in range(depth)]
        blocks.append("".join(f"{{ {name}() {{ a; }}; " for name in names) + "".join(f"{name}; }}; " for name in reversed(names)) + ":")
        if len(blocks) * len(blocks[0]) > size or len(blocks) * depth > MOST_NAMES - depth:
            break
    return text_of(joined(blocks, size))


def triggers(size):
    """What is lost at one line has another one lose something, from the last to the first, in a loop."""
    count = count_of(size, "c1000() { exit; }\na && c1000 && unset -f c1000")
    lines = [f"c{n}() {{ exit; }}" for n in range(count)]
    back = [f"a && c{n} && unset -f c{n + 1}" for n in reversed(range(count - 1))]
    return text_of([*lines, "while a; do", *back, "unset -f c0", "done"])


def triggers_before(line):
    """Triggers before such lines, over which each loss goes."""

    def of(size):
        count = max(3, min(200, size // 150))
        start = [f"c{n}() {{ exit; }}" for n in range(count)]
        back = [f"a && c{n} && unset -f c{n + 1}" for n in reversed(range(count - 1))]
        lines = [*start, "while a; do", *back, "unset -f c0"]
        rest = size - len(text_of(lines)) - len("done\n")
        return text_of([*lines, *([line] * min(MOST_COMMANDS - 5 * count, rest // (len(line) + 1))), "done"])

    return of


def triggers_before_names(size):
    """Each loss takes a variable too, before lines that set one each. So it gives each of these a set of its own."""
    count = max(3, min(200, size // 150))
    start = [f"c{n}() {{ exit; }}\nw{n}=" for n in range(count)]
    back = [f"a && c{n} && unset w{n} && unset -f c{n + 1}" for n in reversed(range(count - 1))]
    lines = [*start, "while a; do", *back, "unset -f c0"]
    names = (f"read -r v{n}" for n in range(MOST_NAMES - 2 * count))
    return text_of([*lines, *joined(names, size - len(text_of(lines)) - len("done\n")), "done"])


def triggers_by_functions(size):
    count = count_of(size, "c1000() { exit; }\nf1000() { a && c1000 && unset -f c1000; f1000; }", MOST_NAMES // 2)
    lines = [f"c{n}() {{ exit; }}" for n in range(count)]
    lines += [f"f{n}() {{ a && c{n} && unset -f c{(n + 1) % count}; f{(n + 1) % count}; }}" for n in zigzag_order(count)]
    return text_of([*lines, "a && unset -f c0", "f0"])


def trigger_calls(size):
    """So many triggers, and as many functions through which each loss goes."""
    count = count_of(size, "c1000() { exit; }\na && c1000 && unset -f c1000\ng1000() { g1000; }", MOST_NAMES // 2)
    lines = [f"c{n}() {{ exit; }}" for n in range(count)] + [f"g{n}() {{ a && g{n + 1}; }}" for n in range(count)]
    back = [f"a && c{n} && unset -f c{n + 1}" for n in reversed(range(count - 1))]
    return text_of([*lines, f"g{count}() {{", *back, "a && g0; }", "unset -f c0", "g0"])


def unset_of(size):
    names = " ".join(f"v{n}" for n in range(min(MOST_NAMES - 10, size // 12)))
    return f"f() {{ unset {names}; }}\n"


def findings_of_parts(size):
    start = unset_of(size)
    return start + " | ".join(["f"] * max(2, (size - len(start)) // 4)) + "\n"


def rows_in_loop(size):
    """A row of its own at each command and at each round."""
    count = count_of(size, "v1000=; a && unset v1000", MOST_NAMES)
    lines = [f"v{n}=; a && unset v{(n * 7) % count}" for n in range(count)]
    return text_of(["while a; do", *lines, "done"])


def losing_loops(size):
    depth = 50
    line = "".join(f"while a; do v{level}=; " for level in range(depth)) + "b" + "".join(f"; unset v{level}; done" for level in range(depth))
    return text_of(joined([line] * size, size))


def losing_loops_outward(size):
    depth = 50
    line = "".join(f"v{level}=; while a; do " for level in range(depth)) + "b" + "".join(f"; unset v{depth - 1 - level}; done" for level in range(depth))
    return text_of(joined([line] * size, size))


def jumps(size):
    depth = 50
    line = "while a; do " * depth + "".join(f"b && unset v{level} && continue {level + 1}; c && break {level + 1}; " for level in range(depth)) + "d" + "; done" * depth
    return text_of(joined([line] * size, size))


def calls_back(size):
    """Each line calls a function whose facts fall by a later one."""
    count = count_of(size, "f1000() { a && f1000; unset v1000; }\nf1000", MOST_NAMES // 2)
    lines = [f"f{n}() {{ a && f{n + 1}; unset v{n}; }}" for n in range(count)] + [f"f{count}() {{ :; }}"]
    return text_of(lines + [f"v{n}=; f{n}" for n in reversed(range(count))])


def many_definitions(size):
    count = count_of(size, "f() { v1000=; f; }\na && f", MOST_NAMES)
    return text_of([f"f() {{ v{n}=; b && f; }}\na && f" for n in range(count)])


def many_callers(size):
    count = count_of(size, "f1000() { unset v1000; a && f1000; }\nh1000() { f0; }", MOST_NAMES // 4)
    lines = [f"f{n}() {{ unset v{n}; a && f{n + 1}; }}" for n in range(count)] + [f"f{count}() {{ :; }}"]
    return text_of(lines + [f"h{n}() {{ f0; }}" for n in range(count)] + [f"h{n}" for n in range(count)])


def complete_graph(size):
    count = max(2, min(1000, int((size / 6) ** 0.5)))
    calls = "; ".join(f"f{n}" for n in range(count))
    return text_of([*(f"f{n}() {{ a && v{n}= && unset v{(n * 3 + 1) % count} && {{ {calls}; }}; }}" for n in range(count)), "f0"])


def falling_clauses(size):
    count = count_of(size, "a) unset v1000 ;&", MOST_NAMES)
    return text_of(["while a; do case $x in", *(f"a) v{n}=; unset v{(n + 1) % count} ;&" for n in range(count)), "b) : ;;", "esac; done"])


def long_elif(size):
    count = count_of(size, "elif f1000; then v1000=; f0", MOST_NAMES // 2)
    return text_of(["f() { a && unset v; }", "while a; do if f; then :", *(f"elif f; then v{n}=; f" for n in range(count)), "fi; done"])


def long_links(size):
    return "f() { a && unset v; }\nwhile a; do v=; f" + " && f || f" * (size // 11) + "; done\n"


def long_pipes(size):
    return "f() { a && unset v; }\nwhile a; do v=; f" + " | f" * (size // 4) + "; done\n"


def background(size):
    return "f() { a && unset v; }\nwhile a; do v=\n" + "f &\n" * (size // 4) + "done\n"


def nested_substitutions(size):
    depth = 20
    line = "f $(g " * depth + "h" + ")" * depth
    return text_of(["f() { a && unset v && g; }", "g() { b && f; }", "h() { f; }", "v=", *joined([line] * size, size - 60)])


def documents(size):
    line = "cat <<E\n$(f; v=; f) $(while f; do g; done)\nE"
    return text_of(["f() { a && unset v && g; }", "g() { b && f; }", *joined([line] * size, size - 60)])


def reached_back(opens, part, filler, closes):
    """Parts that are reached from the last to the first: fN returns only once gN is gone. C stands for the commands of a part. Others are the rest."""

    def of(size):
        count = count_of(size // 2, f"g1000() {{ exit; }}\nf1000() {{ g1000; }}\n{part}f1000; unset -f g1000; f1000", MOST_NAMES // 2)
        lines = [f"g{n}() {{ exit; }}\nf{n}() {{ g{n}; }}" for n in range(count + 1)]
        chain = [f"f{n + 1}; unset -f g{n}; f{n}" for n in range(count)] + [f"unset -f g{count}; f{count}"]
        text = text_of(lines) + opens + "".join(part.replace("C", commands) for commands in chain)
        room = min(size - len(text) - len(closes), (MOST_COMMANDS - 10 * count) * len(filler) // 2)
        return text + filler * max(0, room // len(filler)) + closes

    return of


def reached_by_others(opens, part, filler, closes, between=""):
    """Parts of a function that are reached from the last to the first, one in each pass over what is outside. Each part loses a name. N stands for its number. After what is between, others are the rest."""

    def of(size):
        count = count_of(size // 2, f"g1000() {{ exit; }}\nf1000() {{ g1000; }}\nv1000=\n{part}( f1000; unset -f g1000; f1000 ) | b\n1000", MOST_NAMES // 3)
        lines = [f"g{n}() {{ exit; }}\nf{n}() {{ g{n}; }}\nv{n}=" for n in range(count + 1)]
        chain = [f"( f{n + 1}; unset -f g{n}; f{n} ) | b\n" for n in range(count)] + [f"( unset -f g{count}; f{count} ) | b\n"]
        parts = "".join(part.replace("N", str(n)) for n in range(count + 1))
        ends = closes + "".join(chain)
        text = text_of(lines) + opens + parts + between
        room = min(size - len(text) - len(ends), (MOST_COMMANDS - 14 * count) * len(filler) // 2)
        return text + filler * max(0, room // len(filler)) + ends

    return of


def loses_by_one(calls):
    """A function that loses names one by one, one in each pass over what is outside, and is called so."""
    return reached_by_others("F() { case x in\n", "N) fN; unset vN;;\n", calls, "", "esac; }\n")


def in_main(made):
    """All of a script in a function that is called once."""
    return lambda size: "main() {\n" + made(size) + "}\nmain\n"


def enters_with_less(body):
    """A function of a long body, which is entered with less by one caller after the other, from the last to the first."""
    return lambda size: reached_back("F() {\n" + body * (size // 3 // len(body)) + "}\n", "( C; F ) | b\n", "a|b\n", "")(size)


def long_body(opens, piece, closes=""):
    """The body of a function is one long command. Each of its callers enters it with a name less."""

    def of(size):
        count = count_of(size // 2, "v1000=\nunset v1000; f\n", MOST_NAMES // 2)
        room = size - len(text_of(f"v{n}=\nunset v{n}; f" for n in range(count))) - len(opens) - len(closes) - 12
        body = opens + piece * max(1, room // len(piece)) + closes
        return text_of([*(f"v{n}=" for n in range(count)), f"f() {{ {body}; }}", *(f"unset v{n}; f" for n in range(count))])

    return of


def long_function(piece, before=""):
    """The name of a function takes a third of the text, and its body is short commands."""

    def of(size):
        name = "f" * (size // 3)
        room = size - 2 * len(name) - len(before) - 10
        return before + name + "() {\n" + piece * max(1, room // len(piece)) + "}\n" + name + "\n"

    return of


def two_ways(there, back, is_crosswise, start="all\nf0"):
    """Two definitions of each function, which call the next (K), that before it or across (J), or its mirror (Z). `all` sets all names."""

    def made(size):
        sample = f"v1000=1\n{there}\n{back}"
        for letter in "NKJZ":
            sample = sample.replace(letter, "1000")
        count = count_of(size, sample)
        last = count - 1
        across = [last - n if 2 * n < last else min(count - n, last) for n in range(count)]
        before = across if is_crosswise else [max(0, n - 1) for n in range(count)]

        def each_of(definitions):
            for n in range(count):
                definition = definitions
                for letter, number in ("K", min(n + 1, last)), ("J", before[n]), ("Z", last - n), ("N", n):
                    definition = definition.replace(letter, str(number))
                yield definition

        names = (f"v{n}=1" for n in range(count))
        return text_of(["all() {", *names, "}", *each_of(there), *each_of(back), start])

    return made


def from_the_end(definitions):
    """Functions that call others and the next (K), and are called from the last on, each time with a name less."""

    def made(size):
        count = count_of(size, definitions.replace("N", "1000").replace("K", "1000") + "v1000=1\nunset v1000; ( f1000 )")
        made_of = [definitions.replace("N", str(n)).replace("K", str(min(n + 1, count - 1))) for n in range(count)]
        calls = (f"unset v{n}; ( f{n} )" for n in reversed(range(count)))
        return text_of([*(f"v{n}=1" for n in range(count)), *made_of, "f0", *calls])

    return made


def call_waves(order):
    """A chain of calls that is entered everywhere, each time with a parameter less."""

    def of(size):
        count = count_of(size, 'f1000() { f1000 "$@"; }\nshift; f1000 "$@"')
        numbers = list(range(1, count))
        if order == "mixed":
            random.Random(3).shuffle(numbers)
        chain = [f'f{n}() {{ f{n - 1} "$@"; }}' for n in numbers]
        return text_of(["f0() { b; }", *chain, *(f'shift; f{n} "$@"' for n in range(count))])

    return of


def each(line, most=MOST_NAMES):
    """A line for each of so many numbers, and again from the first: N is the number, K the next, M another."""
    return line, most


def numbered(line, most, size):
    texts, number = [], 0
    while size > 0:
        text = line.replace("N", str(number % most)).replace("K", str((number + 1) % most)).replace("M", str((7 * number + 3) % most))
        texts.append(text)
        size -= len(text)
        number += 1
    return "".join(texts)


def of(*parts):
    """Scripts of these parts. A text is there once, and lines share what room is left."""
    texts = [part for part in parts if isinstance(part, str)]

    def made(size):
        room = (size - sum(map(len, texts))) // (len(parts) - len(texts))
        return "".join(part if isinstance(part, str) else numbered(*part, room) for part in parts)

    return made


def falling(opens, text, closes):
    """A text for each of so many names, from the last in byte order to the first, and again from the last."""

    def made(size):
        count = max(1, (size - len(opens) - len(closes)) // (len(text) + 3))
        return opens + "".join(text.replace("N", f"{9999 - number % MOST_NAMES}") for number in range(count)) + closes

    return made


def of_one_hash(size):
    """Functions whose names had one hash before it took the script, each called some eight times."""
    names = (Path(__file__).parent / "names_of_one_hash.txt").read_text().split()
    chosen = names[: max(2, size // 40)]
    definitions = "".join(f"{name}() {{ a; }}\n" for name in chosen)
    calls = range((size - len(definitions)) // 6)
    return definitions + "".join(f"{chosen[call % len(chosen)]}\n" for call in calls)


def within(opens, middle, closes, depth):
    """A line of so many levels."""
    return opens * depth + middle + closes * depth + "\n"


def one_name(size):
    """Names so long that forty fill a script."""
    return of(each("a" * (size // 40) + "N=x\n"))(size)


def long_ends(size):
    """A here-document whose lines are a prefix of its end line."""
    end = "E" * (size // 8)
    return f"cat <<{end}\n" + (end[1:] + "\n") * 6 + end + "\n"


def findings_within(size):
    """Pipelines in parts of pipelines, each with a finding."""
    return unset_of(size) + of(each(within("{ ", "f | a", "; } | a", 50)))(size // 2)


# Families of lines: of reading, of sets of names, of calls, of loops, and of findings.
LINED = {
    "assignments": of(each("vN=x\n")),
    "assigned and used": of(each('vN=x; echo "$vN"\n')),
    "uses of parameters": of("echo ", each('"$1"'), "\n"),
    "findings": of(each("echo $vN\n")),
    "findings in a loop": of("while a; do\n", each("echo $vN\n"), "done\n"),
    "findings in a line": of("echo ", each("$vN "), "\n"),
    "findings at the end": of(each("\n"), each("echo $vN\n")),
    "long names": one_name,
    "branches": of(each("if a; then vN=1; else vN=2; fi\n")),
    "branches in branches": of(each(within("if a; then vN=; ", "a", "; fi", 50))),
    "conditions": of(each(within("if ", "a", "; then b; fi", 30))),
    "loops in conditions": of(each(within("while ", "a", "; do b; done", 30))),
    "long case": of("case x in\n", each("(pN) vN=1 ;;\n"), "esac\n"),
    "long pattern": of("case x in\n(", each("pN|"), "z) a ;; esac\n"),
    "case in case": of(each(within("case a in (b) vN=; ", "a", " ;; esac", 50))),
    "words of patterns": of("case x in\n", each('("$(a)$vN") vN=1 ;;\n'), "esac\n"),
    "and": of(each("a && "), "b\n"),
    "pipeline": of(each("a | "), "b\n"),
    "pipelines in pipelines": of(each(within("{ ", "vN= | a", "; } | a", 30))),
    "names in pipelines": of(each('a | { vN=; b; } | c "$vN"\n')),
    "semicolons": of(each("a;")),
    "short in background": of(each("a&")),
    "negated": of(each("! a\n")),
    "operators": of(each("a ; b & c && d || e | f\n")),
    "subshells": of(each(within("( vN=; ", "a", " )", 50))),
    "subshells that exit": of(each("( vN=1; exit ) || w=1\n")),
    "substituted": of(each('x=$(echo "$(aN)")\n', 3000)),
    "backquotes": of(each("x=`echo a`\n")),
    "long backquotes": of("x=`", each("a b c\n"), "`\n"),
    "default in default": of(each('echo "' + "${a:-" * 30 + "x" + "}" * 30 + '"\n')),
    "assigned by default": of(": ", each('"${vN:=x}" '), "\n"),
    "default used": of(": ", each('"${vN:=x}" "$vM" '), "\n"),
    "names of one hash": of_one_hash,
    "names that fall": falling("", "vN=\n", ""),
    "names that fall in a line": falling("", "vN= ", "\n"),
    "names that fall in a sum": falling(": $((1", "+vN", "))\n"),
    "sums": of(each("echo $((1+2*(3-4)))\n")),
    "sums in sums": of(each("echo " + "$(( " * 30 + "1" + " ))" * 30 + "\n")),
    "parentheses": of(each("echo $((" + "(" * 30 + "1" + ")" * 30 + "))\n")),
    "sums that assign": of(each(": $((vN=1))\n")),
    "sum of substitutions": of("echo $((", each("$(a) + ${vN-1} + "), "1))\n"),
    "document a line": of(each("cat <<E\n$x ${y-} $(a)\nE\n")),
    "documents of a line": of("cat ", each("<<E "), "\n", each("E\n\n")),
    "document of ends": of("cat <<EE\n", each("E\n"), "EE\n"),
    "document of long ends": long_ends,
    "document of continued lines": of("cat <<E\n", each("E\\\n"), "\nE\n"),
    "document of tabs": of("cat <<-E\n", each("\t"), "x\n", each("\t"), "E\n"),
    "documents that assign": of("while a; do\n", each("cat <<E\n${vN:=x}\nE\n"), "done\n"),
    "redirections": of("a ", each(">fN "), "\n"),
    "redirected groups": of(each('{ a; } >"${vN:=x}"\n')),
    "one word": of("echo ", each("a"), "\n"),
    "many words": of("echo ", each("a "), "\n"),
    "quoted": of(each("echo 'a'\"b\"\\c\n")),
    "quoted by dollars": of(each("x=$'a\\n'\n")),
    "dollars": of("echo ", each("$"), "\n"),
    "tildes": of("x=", each("~:"), "\n"),
    "brackets": of("echo ", each("["), "\n"),
    "trimmed": of(each('echo "${vN%%*"${w#?}"}"\n')),
    "comments": of(each("# comment ${x} $(\n")),
    "spaces": of(each(" "), "\necho\n"),
    "empty lines": of(each("\n")),
    "continued lines": of(each("\\\n"), "echo a\n"),
    "reserved words": of(each("echo if then else fi do done case esac in\n")),
    "shifted": of("set -- a b c\n", each('shift; echo "$1"\n')),
    "operands set": of(each('set -- a b; echo "$2"\n')),
    "operands twice": of(each('set -- "$@" "$@"; shift; f "$3"\n')),
    "operands in one": of("set -- ", each('"$@" '), '\necho "$1"\n'),
    "exported": of("export ", each("vN=1 "), "\n"),
    "exported in lines": of(each("export vN=1 vK vM\n")),
    "read only": of(each("readonly vN=1\n")),
    "read": of("read -r ", each("vN "), "\n"),
    "options": of(each('while getopts ab: vN; do case $vN in (a) echo "$OPTARG" ;; esac; done\n')),
    "set by for": of(each('for vN in a b; do echo "$vN"; done\n')),
    "words of for": of("for i in ", each('"$x" '), '\ndo echo "$i"; done\n'),
    "for in for": of(each("for vN in a; do " * 30 + "b" + "; done" * 30 + "\n")),
    "loops in loops": of(each(within("while a; do ", "x=1", "; done", 30))),
    "loops after names": of(each("vN=\n"), each("while a; do b; done\n")),
    "loops in loops after names": of(each("vN=\n"), each(within("while a; do ", "b", "; done", 30))),
    "loops that set": of(each("while a; do vN=; done\n"), each('echo "$vN"\n')),
    "loops that lose": of(each("until vN=; a; do unset vN; done\n")),
    "lost in a loop": of(each("vN=x\n"), "while a; do\n", each("unset vN\n"), "done\n"),
    "left": of("while a; do\n", each("a && break\nvN=1\n"), "done\n"),
    "next turns": of("while a; do\n", each("a && continue\nvN=1\n"), "done\n"),
    "returned": of("f() {\n", each("a && return\nvN=1\n"), "}\nf\n"),
    "returned in loops": of("f() {\n", each("vN=; while a; do b && return; unset vN; done\n"), "}\nf\n"),
    "exits": of(each("vN=; a || exit 1\n")),
    "ended by a function": of("die() { echo x; exit 1; }\nwhile a; do\n", each("vN=; a || die\n"), "done\n"),
    "lost at once": of(each("vN=\n"), "unset ", each("vN "), "\n"),
    "functions": of(each("fN() { echo x; }\nfN\n")),
    "functions not called": of(each('fN() { echo "$vN"; }\n', MOST_NAMES // 2)),
    "functions after names": of(each("vN=\n", MOST_NAMES // 2), each("fN() { a; }; fN\n", MOST_NAMES // 2)),
    "functions that set": of(each("fN() { vN=; }\n", MOST_NAMES // 2), each('fN; echo "$vN"\n', MOST_NAMES // 2)),
    "functions that lose": of(each("vN=\n", 1500), each("fN() { unset vN; }\n", 1500), "while a; do\n", each("fN\n", 1500), "done\n"),
    "functions that call two": of(each("fN() { { fK; }; { fM; }; }\n"), "f0\n"),
    "functions that call one thrice": of(each("fN() { fK; fK; fK; }\n"), "f0\n"),
    "functions in groups": of(each("fN() { " + "{ " * 20 + "fK" + "; }" * 20 + "; }\n"), "f0\n"),
    "calls in substitutions": of(each("fN() { x=$(fK); }\n"), "f0\n"),
    "calls in pipelines": of(each("fN() { fK | a; }\n"), "f0\n"),
    "calls in pipelines after names": of(each("vN=\n"), "f() { :; }\n", each("f|a;"), "\n"),
    "calls in pipelines that lose one": of(each("vN=\n"), "f() { unset v0; }\n", each("f|a;"), "\n"),
    "calls in conditions": of(each("fN() { if fK; then vN=; fi; }\n", MOST_NAMES // 2), "f0\n"),
    "functions in one another": of(each("fN() { gN() { fK; }; gN; }\n", MOST_NAMES // 2), "f0\n"),
    "functions taken back": of(each("fN() { unset -f fK; a && fK; }\n"), "f0\n"),
    "functions lost": of(each("fN() { :; }\n"), "while a; do\n", each("unset -f fN\n"), "done\n"),
    "recursion": of(each("vN=x\n", 1500), each("fN() { fM || fK; unset vN; }\n", 1500), "f0\n"),
    "calls both ways": two_ways("fN() { fK; }", "fN() { unset vN; fJ; }", False),
    "calls crosswise": two_ways("fN() { fK; }", "fN() { unset vN; fJ; }", True),
    "calls crosswise, set before": two_ways("fN() { all; fK; }", "fN() { unset vN; fJ; }", True),
    "calls crosswise, set for a call": two_ways("fN() { all; fK; }", "fN() { vN=1 fJ; }", True, "f0"),
    "calls crosswise, set after": two_ways("fN() { a && return; fK; all; }", "fN() { fJ; unset vN; }", True),
    "calls of mirrors": two_ways("fN() { fZ; ( fK ); }", "fN() { unset vK; }", False),
    "calls crosswise beside subshells": two_ways("fN() { ( fK ); fJ; }", "fN() { unset vN; }", True),
    "recursion to the next": of(each("vN=x\n", 1500), each("fN() { fK || fM; unset vN; }\n", 1500), "f0\n"),
    "defined again": of(each("f() { vN=1; }\nf\n")),
    "defined again, then called": of(each("f() { unset vN; }\n"), each("f\n")),
    "defined again between": of(each("f() { unset vN; a || f; }\nf\nvN=\n")),
    "defined again, in turn": of(each("fN() { unset vN; }\nvN=x\n", 60), each("fN; fM\n", 60)),
    "defined again, in one": of("h() {\n", each("fN() {\na && fN && unset -f fM\n}\n", 60), each("fN() { f; unset vN; }\nfN\na && g\n", 400), "}\nh\n"),
    "defined again, in a loop": of("while a; do\n", each("fN() { unset vN; }\nvN=x\n", 60), each("while a; do unset vN; done\nif fN; then fM; else unset vN; fi\n{ fN; vN=$(fM); }\n", 60), "done\n"),
    "entries of one body": of(each("vN=\n"), "f() {\n", each('b "$vN"\n'), "}\n", each("unset vN; f\n")),
    "entries by functions": of(each("vN=\n", 1900), "f() { :; }\n", each("gN() { f; }; unset vN; gN\n", 1900)),
    "entries of functions": of(each("vN=\n", 1900), "f() { :; }\n", each("gN() { unset vN; f; }\n", 1900), each("gN\n", 1900)),
    "entries in a loop": of(each("vN=\n", 1900), "f() { :; }\n", each("gN() { f; }\n", 1900), "while a; do\n", each("unset vN\ngN\n", 1900), "done\n"),
    "entries by recursion": of(each("vN=\n", 1900), "f() { a && f; }\n", each("gN() { f; unset vN; }; gN\n", 1900)),
    "entries in conditions": of(each("vN=\n", 1900), "f() { :; }\n", each("gN() { if f; then unset vN; fi; }; gN\n", 1900)),
    "entries late": of("h() { a || ( m ); }\nf() { a && f; }\n", each("gN() { f; unset vN; }\n", 1900), "m() { h\n", each("vN=\n", 1900), each("gN\n", 1900), "}\nh\n"),
    "entries from the end": from_the_end("fN() { gN; ( fK ); }\ngN() { a; }\n"),
    "entries from the end, deep": from_the_end("fN() { gN; ( fK ); }\ngN() { hN; }\nhN() { iN; }\niN() { a; }\n"),
    "entries of long bodies": of(each("vN=\n", 1900), "f() {\n", each('b "$vN"\n', 1900), "}\n", each("gN() { unset vN; f; }; gN\n", 1900)),
    "lost along calls": of(each("fN() { unset vN; fK; }\n", MOST_NAMES // 2), "f0\n"),
    "findings of parts of parts": findings_within,
    "told by callers": of("f0() { unset v; }\n", each("fN() { f0 | f0; }\n"), "f9\n"),
}

# Commands that keep the parameters, each in its own way.
BESIDE = {
    "call": 'f "$@"',
    "continue": "b && continue",
    "declare": "export x=1; readonly y",
    "defaults": ': "${x=1}" ${1?}',
    "exec": "exec >f",
    "expand": 'x=$(b) >"$x"',
    "for": "for i in a; do b; done",
    "group": "{ b; } >f",
    "leave": "b && break",
    "next": "while b; do continue 2; done",
    "options": "getopts a x",
    "pattern": "case x in a) b ;& *) c ;; esac",
    "pipe": "a | b & ! c",
    "read": "read -r x",
    "set": "set -f; times",
    "trap": "trap - INT",
    "turn": "until b; do c; done >f",
    "unset": "unset x",
}

# Loops in which the parameters fall by one each time round: what is before their lines, and after.
ROUND = {
    "arithmetic": ("while :; do shift; x=$((x+1))\n", "done\n"),
    "break far": ("f() { shift; while :; do break 4294967295; done\n", 'f "$@"; }\nf "$@"\n'),
    "continue far": ("while :; do shift\n", "continue 4294967295; done\n"),
    "count": ("i=0\nfor x do shift; i=$((i + 1))\n", "done\n"),
    "fall": ("while :; do case x in a) shift ;& b) : ;; esac\n", "done\n"),
    "last fall": ("while :; do case x in *) shift ;& esac\n", "done\n"),
    "operators": ("x=${y-$(while :; do shift\n", "done)}\n"),
    "patterns": ("case x in $(while :; do shift\n", "done)) ;; esac\n"),
    "redirected call": ("d() { exit; }\nwhile :; do shift; d >f\n", "done\n"),
    "redirected true": ("while :; do shift; true >f && break\n", "done\n"),
    "returns": ("f() { while :; do shift; b && return\n", 'done; }\nf "$@"\n'),
    "sums": ("x=$(($(while :; do shift\n", "done)))\n"),
    "unmatched": ("while :; do shift; case $x in a) exit ;; esac\n", "done\n"),
    "unsure call": ("a && d() { exit; }\nwhile :; do shift; d\n", "done\n"),
}

# By its name, how a script is made, and with which options it is read.
FAMILIES = {
    "shift in links": (shift_in_links('{ a && { shift; : "${%d?}"; }; } || '), ALL_PARAMETERS),
    "shift in ifs": (shift_in_links('if a; then shift; : "${%d?}"; else false; fi || '), ALL_PARAMETERS),
    "shift in clauses": (shift_in_clauses('a) a && { shift; : "${%d?}"; } ;& '), ALL_PARAMETERS),
    "shift last in clauses": (shift_in_clauses('a) a && { : "${%d?}"; shift; } ;& '), ALL_PARAMETERS),
    "shift both ways": (shift_both_ways, ALL_PARAMETERS),
    "shift after": (shift_after, ALL_PARAMETERS),
    "shift words": (shift_words, ()),
    "shift around": (shift_around, ALL_PARAMETERS),
    "shift choice": (shift_choice, ALL_PARAMETERS),
    "shift functions": (shift_functions, ()),
    "shift meets": (shift_meets, ALL_PARAMETERS),
    "shift words in": (shift_substitutions, ALL_PARAMETERS),
    "shift nested": (shift_nested, ALL_PARAMETERS),
    "shift floors": (shift_floors, ALL_PARAMETERS),
    "shift stages": (shift_stages, ALL_PARAMETERS),
    "shift waves": (shift_waves, ALL_PARAMETERS),
    **{f"shift and {name}": (shift_beside(line), ALL_PARAMETERS) for name, line in BESIDE.items()},
    "shift over sets": (of("while :; do shift\n", each('set -- $x "$@"\n'), "done\n"), ALL_PARAMETERS),
    "shift over processes": (of("while :; do shift; ( set --\n", each("a&"), "); done\n"), ALL_PARAMETERS),
    "shift over both": (of("while :; do shift; ( set --\n", each("a|b;c&"), "); done\n"), ALL_PARAMETERS),
    "shift over pipelines": (of("while :; do shift; ( set --\n", each("a|b;"), "); done\n"), ALL_PARAMETERS),
    "shift by recursion": (of("f() { shift; ( set --\n", each("a&"), '); f "$@"; }\nf "$@"\n'), ALL_PARAMETERS),
    **{f"shift round {name}": (of(start, each('echo "$vN"\n'), end), ALL_PARAMETERS) for name, (start, end) in ROUND.items()},
    "chain": (chain("in order"), ()),
    "chain back": (chain("reversed"), ()),
    "chain shuffled": (chain("shuffled"), ()),
    "chain of facts": (chain_of_facts, ()),
    "in a group": (in_group, ()),
    "in functions": (functions_in_functions, ()),
    "deep functions": (deep_functions, ()),
    "in words": (definitions_in_substitutions, ()),
    "losing alone": (losing_recursion, ()),
    "losing circle": (losing_circle, ()),
    "groups": (groups_in_groups, ()),
    "triggers": (triggers, ()),
    "triggers before": (triggers_before("b"), ()),
    "triggers before assignments": (triggers_before("v1=x"), ()),
    "triggers before names": (triggers_before_names, ()),
    "trigger circle": (triggers_by_functions, ()),
    "trigger calls": (trigger_calls, ()),
    "findings of parts": (findings_of_parts, ()),
    "rows": (rows_in_loop, ()),
    "losing inward": (losing_loops, ()),
    "losing outward": (losing_loops_outward, ()),
    "reached back in case": (reached_back("case x in\n", "a) C ;;\n", "a) b;;\n", "esac\n"), ()),
    "reached back in if": (reached_back("if a; then b\n", "elif a; then ( C )\n", "elif a; then b\n", "fi\n"), ()),
    "reached back in a pipeline": (reached_back("a", " | ( C )", "|a", "\n"), ()),
    "reached back in operands": (reached_back("echo ", "$(C) ", '"$a" ', "\n"), ()),
    "reached back in a here-document": (reached_back("cat <<E\n", "$(C)\n", "$(b)\n", "E\n"), ()),
    "reached back in items": (reached_back("", "a|b && ( C )\n", "a|b && c\n", ""), ()),
    "reached back in links": (reached_back("a", " || ( C )", "||a", "\n"), ()),
    "reached back in pipelines": (reached_back("", "( C ) | b\n", "a|b\n", ""), ()),
    "reached back in redirections": (reached_back("a ", '>"$(C)" ', ">a ", "\n"), ()),
    "reached back in assignments": (reached_back("", "a=$(C) ", "a=b ", "\n"), ()),
    "reached back in clauses": (reached_back("case x in\n", "a) C ;;\n", "a) ;;\n", "esac\n"), ()),
    "reached back in lists of patterns": (lambda size: reached_back("case x in " + "a|" * (size // 4) + "a) ;;\n", "a) C ;;\n", "a) b;;\n", "esac\n")(size), ()),
    "reached back in parts of a pattern": (lambda size: reached_back("case x in " + '"$a"' * (size // 8) + ") ;;\n", "a) C ;;\n", "a) b;;\n", "esac\n")(size), ()),
    "reached back in patterns": (reached_back("case x in ", "$(C)|", "a|", "b) c;; esac\n"), ()),
    "reached back in words of for": (reached_back("for i in ", "$(C) ", "a ", "; do b; done\n"), ()),
    "reached back in a word": (reached_back("echo ", "$(C)", "$(b)", "\n"), ()),
    "reached back in a sum": (reached_back(": $((1", "+$(C)", "+1", "))\n"), ()),
    "reached back after a group": (lambda size: reached_back("{ " + "b; " * (size // 12) + "} ", ">$(C) ", ">b ", "\n")(size), ()),
    "reached back after constants": (lambda size: reached_back(": $((1" + "+1" * (size // 8), "+$(C)", "+1", "))\n")(size), ()),
    "reached back after lines": (lambda size: reached_back("cat <<E\n" + "$a\n" * (size // 9), "$(C)\n", "$a\n", "E\n")(size), ()),
    "reached back beside a document": (reached_back("echo <<E ", "$(C) ", '"$a" ', "\nE\n"), ()),
    "reached back in targets": (reached_back("a <<E ", '>"$(C)" ', ">a ", "\nE\n"), ()),
    "reached back in targets of a group": (reached_back("{ a; } <<E ", '>"$(C)" ', ">a ", "\nE\n"), ()),
    "reached back after targets": (lambda size: reached_back("{ b; } " + ">f " * (size // 6), ">$(C) ", ">b ", "\n")(size), ()),
    "reached back before a list": (lambda size: reached_back("while a; do\n", "( C ) | b\n", "a\n", "a" + "||a" * (size // 10) + "\ndone\n")(size), ()),
    "reached back after a pipeline": (lambda size: reached_back("a|" * (size // 6) + "b\n", "( C ) | b\n", "a\n", "")(size), ()),
    "reached back in lists of a loop": (reached_back("while a; do\n", "a|b && ( C )\n", "a|b && c\n", "done\n"), ()),
    "reached back in case in a function": (reached_back("h() { case x in\n", "a) ( C );;\n", "a) b;;\n", "esac; }\nh\n"), ()),
    "reached back in links in a function": (reached_back("h() { a", " || ( C )", "||a", "; }\nh\n"), ()),
    "reached back beside documents": (lambda size: reached_back("a " + "<<E " * (size // 18), '>"$(C)" ', ">a ", "\n" + "E\n" * (size // 18))(size), ()),
    "reached back in definitions": (reached_back("a", " || ( C )", "||f() { b; }", "\n"), ()),
    "reached by others in case": (reached_by_others("h() { case x in\n", "a) fN; unset vN;;\n", "a) b;;\n", "esac; }\nh | a\n"), ()),
    "reached by others in if": (reached_by_others("h() { if a; then b\n", "elif a; then fN; unset vN\n", "elif a; then b\n", "fi; }\nh | a\n"), ()),
    "calls of one that loses": (loses_by_one("F\n"), ()),
    "calls of one that loses in links": (loses_by_one("a && F || b\n"), ()),
    "calls of one that loses in words": (loses_by_one("b $(F)\n"), ()),
    "calls of one that loses in groups": (loses_by_one("{ " * 50 + "F" + "; }" * 50 + "\n"), ()),
    "calls of one that loses in loops": (loses_by_one("while a; do " * 50 + "F" + "; done" * 50 + "\n"), ()),
    "calls of one that loses in bodies": (loses_by_one("h() { F; F; F; }\nh\n"), ()),
    "calls of one that loses deep in bodies": (loses_by_one("h() { " + "{ " * 40 + "F" + "; }" * 40 + "; }\nh\n"), ()),
    "calls of one that loses in main": (in_main(loses_by_one("F\n")), ()),
    "calls of one that loses in words in main": (in_main(loses_by_one("b $(F)\n")), ()),
    "calls of one that loses in loops in main": (in_main(loses_by_one("while a; do " * 50 + "F" + "; done" * 50 + "\n")), ()),
    "entered with less": (enters_with_less("a\n"), ()),
    "entered with less in links": (enters_with_less("a && a || a\n"), ()),
    "entered with less in a loop": (enters_with_less("while a; do b; done\n"), ()),
    "entered with less, and calls": (enters_with_less("h() { b; }\nh\n"), ()),
    "losses before lines": (reached_back("", "c && { C; }\n", "a\n", ""), ()),
    "losses before links": (lambda size: reached_back("", "c && { C; }\n", "a|b\n", "c" + " && a" * (size // 15) + "\n")(size), ()),
    "losses before a case": (lambda size: reached_back("", "c && { C; }\n", "a|b\n", "case x in\n" + "1) a;;\n" * (size // 21) + "esac\n")(size), ()),
    "losses before words": (lambda size: reached_back("", "c && { C; }\n", "a|b\n", "c" + " $(a)" * (size // 15) + "\n")(size), ()),
    "losses in a loop": (reached_back("while x; do\n", "c && { C; }\n", "a\n", "done\n"), ()),
    "losses in clauses that fall": (reached_back("case x in\n", "1) C;&\n", "2) a;;\n", "esac\n"), ()),
    "losses in links": (reached_back("d", " || c && { C; }", " || a", "\n"), ()),
    "losses in a function": (reached_back("F() {\n", "c && { C; }\n", "a\n", "}\nF\n"), ()),
    "losses before loops": (reached_back("", "c && { C; }\n", "while a; do b; done\n", ""), ()),
    "losses before calls": (reached_back("h() { b; }\n", "c && { C; }\n", "h\n", ""), ()),
    "long body of words": (long_body("echo ", "a "), ()),
    "long body of a word": (long_body("echo $(b)", '"a"'), ()),
    "long body of operands": (long_body("unset ", "z "), ()),
    "long body of clauses": (long_body("case x in ", "a);;", "esac"), ()),
    "long body of assignments": (long_body("x=$(b) ", "a= "), ()),
    "long function of returns": (long_function("a && return\n"), ()),
    "long function of losses": (long_function("unset a\n"), ()),
    "long function of calls": (long_function("g\n", "g() { unset x; }\n"), ()),
    "jumps": (jumps, ()),
    "call waves": (call_waves("rising"), ("--args", "65535")),
    "call waves mixed": (call_waves("mixed"), ("--args", "65535")),
    "calls back": (calls_back, ()),
    "calls late": (calls_late, ()),
    "definitions": (many_definitions, ()),
    "callers": (many_callers, ()),
    "complete": (complete_graph, ()),
    "clauses": (falling_clauses, ()),
    "elif": (long_elif, ()),
    "links": (long_links, ()),
    "pipes": (long_pipes, ()),
    "background": (background, ()),
    "substitutions": (nested_substitutions, ()),
    "documents": (documents, ()),
    **{name: (made, ()) for name, made in LINED.items()},
}

# How many times as long as a straight script of the same size a family may take.
MOST_RATIO = 8
# A certificate is so many times as fast to write or read as a straight script of its length.
CERTIFICATE_RATIO = 10


def rounds_of(text, _lines):
    """Each loss is a round of its own over the script."""
    return text.count("unset -f")


def findings_of(text, lines):
    """A finding takes a quarter of what a line of a straight script does."""
    return lines / straight(len(text)).count("\n") / 4 / MOST_RATIO


# Losses that come one by one may take so many times MOST_RATIO: some sweeps go over all commands again.
SWEEPS = 2


def sweeps_of(_text, _lines):
    """Losses come one by one, so each command is looked at some more times, whatever the size."""
    return SWEEPS


# How often MOST_RATIO a family may take if what it has to find grows faster than its text, or if its losses come one by one.
ROUNDS = {
    "triggers": rounds_of,
    "triggers before": rounds_of,
    "triggers before assignments": rounds_of,
    "triggers before names": rounds_of,
    "trigger calls": rounds_of,
    "findings of parts": findings_of,
    "findings of parts of parts": findings_of,
    **{name: sweeps_of for name in FAMILIES if name.startswith(("calls of one that loses", "entered with less", "losses "))},
}


def limit_of(name, text, lines):
    """How many times as long as its straight script a family may take, by its text and the lines of its answer."""
    return MOST_RATIO * max(1, ROUNDS[name](text, lines)) if name in ROUNDS else MOST_RATIO


def certificate_limit(limit, text, certificate):
    """The same for `cert` and `check`, by the length of the certificate too."""
    return limit + certificate / len(text) / CERTIFICATE_RATIO
