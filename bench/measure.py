#!/usr/bin/env python3
"""Measures shset beside other readers of shell scripts.

Makes scripts of 10 KB, 100 KB and 1 MB, straight ones and ones of each kind of words, and prints for each the processor time and
the peak memory of `shset lint`, `shset print`, `dash -n`, `shfmt` and, of straight ones, `shellcheck`, their ratios to shset's, and how they grew
from the script a tenth as long: by 10 at most if they are linear in the text. All of them read a script whole, whether shset goes
on to analyse it or not. A script of short lines is 130 KB long in place of 1 MB, one of
pipelines 240 KB, and one of functions or nested loops 540 KB, since there may be no more commands. Kinds can be
given as arguments. `shset cert` writes the script's certificate and `shset check` uses it, if the script has one that is not too long.
A tool that is not installed is not run; one that takes longer than the limit is stopped and shown as more than
that, and is not run on the larger scripts of that kind. The peak memory is that of GNU time (Debian's package time). Run it once the
program is built.

The kind `kernels` is another: what rows of 4,096 bits do to each other, by `sh_rows` and by plain loops in C at -O3, in seconds for as
many rounds, and how many times as long the former take. It needs the program of crates/rows_timer built, and `cc`.

The kind `families` makes scripts of each family (`families.py`) at three sizes, and a straight script of the same size. It prints the
seconds and megabytes of `shset lint`, `cert`, `check` and `print`, how many times the straight script's they are, and how they grew from a
script half as long. It ends with status 1 if a family takes more than its limit there, or if its time grows by more than 2.3. Families can be
given after the word. tests/families holds the same in the gate, at one size.

The kind `certificates` shows for a script of each kind how long its compact certificate is, how many times the script's length that is, and
the seconds of `shset lint` and of `shset check` by it, with their ratio. It ends with status 1 if a certificate is more than twice as long as
its script or is not printed, or if `check` takes more than 1.5 times as long as `lint`. Kinds can be given after the word.

The kind `table` shows for scripts of 1 MB how many milliseconds and megabytes more their call table takes, once they are read, and the
profile after it. Two kinds of scripts are added that have as many words as fit. It needs the program of crates/show_steps built.
"""
import os
import shutil
import signal
import subprocess
import sys
import tempfile

from families import FAMILIES, certificate_limit, limit_of, straight

SIZES = (10_000, 100_000, 1_000_000)
# The longest scripts of short lines, of pipelines, and of functions or loops, which have nearly as many commands as there may be.
SHORT_LINES = 130_000
PIPELINES = 240_000
BODIES = 540_000
LIMIT_SECONDS = 60
RUNS = 3
HERE = os.path.dirname(os.path.abspath(__file__))
PROGRAM = os.path.join(HERE, "..", "crates", "shset", "out", "shset")
TIMER = os.path.join(HERE, "..", "crates", "rows_timer", "out", "rows_timer")
ROUNDS = "10000000"
FAMILY_SIZE = 40_000
MOST_GROWTH = 2.3
# How long a certificate may be, in lengths of its script, and its check, in times of `lint`.
MOST_LENGTH = 2
MOST_CHECK = 1.5
# Less cannot be distinguished from what a process itself takes.
LEAST_SECONDS = 0.01
SHOW_STEPS = os.path.join(HERE, "..", "crates", "show_steps", "out", "show_steps")
# Other processes disturb so short a time, so it is the least of more runs.
TABLE_RUNS = 15
# Nearly as many commands as there may be, of seven words each.
SEVEN_WORDS = 917_000


def straight_lines():
    """Assignments and commands whose words have quoted expansions, some of names that are never set."""
    number = 0
    while True:
        name = f"name_{number % 3000}"
        yield f'{name}="value of {number} and $PPID"'
        yield f'echo "${name} is set" plain_word_{number}'
        yield f'log "$other_{number % 50}"'
        number += 1


def repeated_lines(*lines):
    while True:
        yield from lines


def script_of(lines, size):
    """As many of the lines as fit."""
    chosen, length = ["#!/bin/sh"], 10
    for line in lines:
        length += len(line) + 1
        if length > size:
            break
        chosen.append(line)
    return "\n".join(chosen) + "\n"


def word_of(head, piece, tail, size):
    """One command whose operand is as many pieces as fit between the head and the tail."""
    head = "echo " + head
    return head + piece * ((size - len(head) - len(tail) - 1) // len(piece)) + tail + "\n"


def nested(depth):
    """Braced expansions in one another. Each fourth removes a quoted pattern."""
    word = "a b"
    for level in range(depth):
        word = '${x#"' + word + '"}' if level % 4 == 3 else "${x:-" + word + "}"
    return word


PLAIN = "echo " + "plain_word-" * 40 + " " + "a.b/c" * 40
QUOTES = "echo 'a b;c'\"d e $x f\"\\g \"it's \\$y\" 'more of it'\\'''"
EXPANSIONS = "echo $x${y}$1${10}${#x}${x%%/*}\"$@\" $# ~/a ${y:+$x}"
SUM = "echo $((a = b ? 1 + 2 * (3 - $x) << 4 : ~c && d || e))"
PARENTHESES = "echo $((" + "(" * 60 + "1 + 2 * x" + ")" * 60 + "))"
CASES_AND_LOOPS = (
    "case \"$x\" in (a | b*) echo \"some words $y\" plain_word other_word ;; c) log more words >>file ;; *) : ;; esac",
    'while read -r line; do echo "$line and more words here" && log plain_word; done <file',
    'for item in one two three "$@"; do if [ "$item" = one ]; then echo plain words here; else log other words; fi; done',
)
SUBSTITUTIONS = 'echo "$(echo some words $(log more_words "deep $(cat file)") and plain)" $(cat other_file) plain_word'


def tower(opening, middle, closing, depth):
    """A line of so many levels."""
    return opening * depth + middle + closing * depth


# Towers whose commands are long enough for 1 MB of them to be no more than there may be.
TOWERS = (
    tower("for x in a b c d; do ", "echo plain_word", "; done", 60),
    tower("{ ", "echo " + "plain_word-" * 90, "; }", 60),
    tower("echo $(", "log " + "plain-word " * 60, " and words)", 60),
    tower('if [ "$x" = a ]; then ', "echo word", "; fi", 30),
)

def nested_loops(depth):
    """Loops in one another, each with an assignment."""
    return "".join(f"while a; do x{level}=1; " for level in range(depth)) + "b" + "; done" * depth


def calling_functions():
    """Functions that each call the next, in the order in which they are defined: as many as have names, with twelve commands before each call."""
    body = 'x=1; echo "some words $x"; ' * 6
    for number in range(2900):
        yield f"f{number}() {{ {body}f{number + 1}; }}"
    yield "f2900() { :; }"
    yield "f0"


def one_function(size):
    """A function that holds the whole of a script."""
    body = script_of(straight_lines(), size - 40)
    return "main() {\n" + body + "}\nmain\n"


DOCUMENT = "cat <<E\n" + "some words of a body with $x and ${y-z} in them, " * 2 + "\nE"


def one_document(size):
    """One here-document of as many lines as fit."""
    line = "a line of words with $x and ${y-z} in it\n"
    return "cat <<E\n" + line * ((size - 10) // len(line)) + "E\n"


def documents_in(depth):
    """Here-documents in one another's bodies."""
    text = "echo a few plain words"
    for level in range(depth):
        text = f"cat <<E{level}\nwords $({text}\n)\nE{level}"
    return text


# How a script of a size is made, by what is in it.
KINDS = {
    "straight": lambda size: script_of(straight_lines(), size),
    "long word": lambda size: word_of("", "plain_word-", "", size),
    "long words": lambda size: script_of(repeated_lines(PLAIN), size),
    "quotes": lambda size: script_of(repeated_lines(QUOTES), size),
    "long quote": lambda size: word_of('"', "a b;c $x ", '"', size),
    "expansions": lambda size: script_of(repeated_lines(EXPANSIONS), size),
    "nested braces": lambda size: script_of(repeated_lines("echo " + nested(20), 'echo "${x-${y:-${z+a b}}}"'), size),
    "deep braces": lambda size: script_of(repeated_lines("echo " + nested(60)), size),
    "long default": lambda size: word_of("${x-", "a b 'c' ", "}", size),
    "arithmetic": lambda size: script_of(repeated_lines(SUM), size),
    "parentheses": lambda size: script_of(repeated_lines(PARENTHESES), size),
    "long sum": lambda size: word_of("$((1", " + 1", "))", size),
    "continuations": lambda size: word_of('"', "ab\\\n", '"', size),
    "short lines": lambda size: script_of(repeated_lines("a"), min(size, SHORT_LINES)),
    "towers": lambda size: script_of(repeated_lines(*TOWERS), size),
    "case and loops": lambda size: script_of(repeated_lines(*CASES_AND_LOOPS), size),
    "substitutions": lambda size: script_of(repeated_lines(SUBSTITUTIONS), size),
    "one document": one_document,
    "documents": lambda size: script_of(repeated_lines(DOCUMENT), size),
    "deep documents": lambda size: script_of(repeated_lines(documents_in(60)), size),
    "nested loops": lambda size: script_of(repeated_lines(nested_loops(60)), min(size, BODIES)),
    "functions": lambda size: script_of(calling_functions(), min(size, BODIES)),
    "one function": one_function,
    "pipelines": lambda size: script_of(repeated_lines("a | b && c"), min(size, PIPELINES)),
    "more pipelines": lambda size: script_of(repeated_lines("a | b && a | b"), min(size, PIPELINES)),
    "comments": lambda size: script_of(repeated_lines("# a comment 'of $(some) \"words", "a \\", "b # more"), size),
}

WORDIEST = {
    "words": lambda size: word_of("", "a ", "", size),
    "seven words": lambda size: script_of(repeated_lines("a b c d e f g"), min(size, SEVEN_WORDS)),
}


def stop(_signal, _frame):
    raise TimeoutError


def run(words):
    """The processor seconds and the peak kilobytes of one run, or None if it took too long."""
    with tempfile.NamedTemporaryFile() as peak:
        child = subprocess.Popen(
            ["/usr/bin/time", "-q", "-f", "%M", "-o", peak.name, *words],
            stdout=subprocess.DEVNULL, stderr=subprocess.DEVNULL, start_new_session=True)
        signal.signal(signal.SIGALRM, stop)
        signal.alarm(LIMIT_SECONDS)
        try:
            _, _, usage = os.wait4(child.pid, 0)
            return usage.ru_utime + usage.ru_stime, int(peak.read())
        except TimeoutError:
            os.killpg(child.pid, signal.SIGKILL)
            os.wait4(child.pid, 0)
            return None
        finally:
            signal.alarm(0)


def best(words):
    """The least of a few runs, each number by itself."""
    results = []
    for _ in range(RUNS):
        result = run(words)
        if result is None:
            return None
        results.append(result)
        if result[0] > LIMIT_SECONDS / RUNS:
            break
    return min(seconds for seconds, _ in results), min(kilobytes for _, kilobytes in results)


def tools(kind, path):
    yield "shset lint", [PROGRAM, "lint", path]
    yield "shset print", [PROGRAM, "print", path]
    yield "shset cert", [PROGRAM, "cert", path]
    with open(path + ".cert", "wb") as file:
        try:
            made = subprocess.run([PROGRAM, "cert", path], stdout=file, stderr=subprocess.DEVNULL, timeout=LIMIT_SECONDS).returncode == 0
        except subprocess.TimeoutExpired:
            made = False
    if made:
        yield "shset check", [PROGRAM, "check", path, path + ".cert"]
    if shutil.which("dash"):
        yield "dash -n", ["dash", "-n", path]
    if shutil.which("shfmt"):
        yield "shfmt", ["shfmt", "-ln", "posix", path]
    if kind == "straight" and shutil.which("shellcheck"):
        yield "shellcheck", ["shellcheck", "--shell=sh", path]


def growth(now, before):
    """How often as much it is as it was, if that can be seen."""
    return f"{now / before:.1f}" if before and before > 0.005 else ""


def measure(kind, folder):
    before = {}
    stopped = set()
    for size in SIZES:
        path = os.path.join(folder, "script.sh")
        with open(path, "w", encoding="ascii") as file:
            file.write(KINDS[kind](size))
        own = None
        for name, words in tools(kind, path):
            result = None if name in stopped else best(words)
            if result is None:
                stopped.add(name)
                print(f"{kind:<14} {size:>9}  {name:<11} {'> ' + str(LIMIT_SECONDS):>9}")
                continue
            own = own or result
            seconds, kilobytes = result
            old_seconds, old_kilobytes = before.get(name, (None, None))
            before[name] = result
            ratios = f"{seconds / max(own[0], 0.001):>10.1f} {kilobytes / own[1]:>12.2f}"
            grown = f"{growth(seconds, old_seconds):>11} {growth(kilobytes, old_kilobytes):>13}"
            print(f"{kind:<14} {size:>9}  {name:<11} {seconds:>9.3f} {kilobytes / 1024:>8.1f}  {ratios}  {grown}")


def measure_kernels(folder):
    if not os.access(TIMER, os.X_OK) or not shutil.which("cc"):
        sys.exit("build crates/rows_timer first, by `rt run` there; and install cc")
    loops = os.path.join(folder, "loops")
    parts = []
    # apart, so that no loop is taken into the rounds
    for name in ("kernels", "kernels_main"):
        parts.append(os.path.join(folder, name + ".o"))
        subprocess.run(["cc", "-O3", "-c", os.path.join(HERE, name + ".c"), "-o", parts[-1]], check=True)
    subprocess.run(["cc", *parts, "-o", loops], check=True)
    print(f"{'kernel':<14} {'rounds':>9}  {'sh_rows':>9} {'C':>9}  {'ratio':>5}")
    for kernel in ("meet", "remove", "within"):
        answers = {subprocess.run([at, kernel, "1000"], stdout=subprocess.PIPE, check=True).stdout for at in (TIMER, loops)}
        if len(answers) > 1:
            sys.exit(f"{kernel}: the two do not give the same")
        (own, _), (other, _) = best([TIMER, kernel, ROUNDS]), best([loops, kernel, ROUNDS])
        print(f"{kernel:<14} {ROUNDS:>9}  {own:>9.3f} {other:>9.3f}  {own / other:>5.2f}")


def take(words):
    """The least processor seconds of a few runs and their peak megabytes, with what a process itself takes."""
    result = best(words)
    return (float(LIMIT_SECONDS), 0.0) if result is None else (result[0], result[1] / 1024)


def shown(name, size, taken, straight_taken, before, limit):
    """A line for a run, and whether it took no more than it may."""
    (seconds, megabytes), (plain, plain_megabytes) = taken, straight_taken
    ratio = seconds / max(plain, LEAST_SECONDS)
    grown = seconds / before if before and before > LEAST_SECONDS else None
    columns = f"{seconds:>9.3f} {megabytes:>8.1f} {ratio:>10.1f} {megabytes / plain_megabytes:>12.2f} {'' if grown is None else f'{grown:.1f}':>7}"
    print(f"{name:<36} {size:>9} {columns}", flush=True)
    return ratio <= limit and (grown is None or grown <= MOST_GROWTH)


def family_runs(options, path):
    """The words of each action on a script. It is checked by its certificate, if it has one."""
    runs = {name: [PROGRAM, name, *options, path] for name in ("lint", "cert")}
    with open(path + ".cert", "wb") as file:
        if subprocess.run(runs["cert"], stdout=file, stderr=subprocess.DEVNULL, check=False).returncode == 0:
            runs["check"] = [PROGRAM, "check", *options, path, path + ".cert"]
    return {**runs, "print": [PROGRAM, "print", path]}


def measure_family(name, folder):
    made, options = FAMILIES[name]
    path, beside = os.path.join(folder, "script.sh"), os.path.join(folder, "straight.sh")
    is_good, before = True, {}
    for times in (1, 2, 4):
        text = made(FAMILY_SIZE * times)
        for at, content in ((path, text), (beside, straight(len(text)))):
            with open(at, "w", encoding="ascii") as file:
                file.write(content)
        plain = {action: take(words) for action, words in family_runs((), beside).items()}
        answer = subprocess.run([PROGRAM, "lint", *options, path], stdout=subprocess.PIPE, check=False).stdout
        limit = limit_of(name, text, answer.count(b"\n"))
        for action, words in family_runs(options, path).items():
            most = certificate_limit(limit, text, os.path.getsize(path + ".cert")) if action in ("cert", "check") else limit
            taken = take(words)
            is_good &= shown(f"{name} {action}", len(text), taken, plain[action], before.get(action), most)
            before[action] = taken[0]
    return is_good


def measure_families(names, folder):
    if not set(names) <= set(FAMILIES):
        sys.exit("families: " + ", ".join(FAMILIES))
    print(f"{'family':<36} {'bytes':>9} {'seconds':>9} {'MB':>8} {'time ratio':>10} {'memory ratio':>12} {'growth':>7}")
    slow = [name for name in names or FAMILIES if not measure_family(name, folder)]
    sys.exit("too slow: " + ", ".join(slow) if slow else 0)


def measure_certificate(kind, folder):
    """A line for a kind, and whether its certificate is short enough, and its check fast enough."""
    path, cert = os.path.join(folder, "script.sh"), os.path.join(folder, "cert")
    with open(path, "w", encoding="ascii") as file:
        file.write(KINDS[kind](SIZES[-1]))
    with open(cert, "wb") as file:
        is_made = subprocess.run([PROGRAM, "cert", path], stdout=file, stderr=subprocess.DEVNULL, check=False).returncode == 0
    size, length = os.path.getsize(path), os.path.getsize(cert)
    lint, _ = take([PROGRAM, "lint", path])
    if not is_made:
        print(f"{kind:<14} {size:>9} {'none':>9} {'':>6} {lint:>9.3f}", flush=True)
        return False
    check, _ = take([PROGRAM, "check", path, cert])
    print(f"{kind:<14} {size:>9} {length:>9} {length / size:>6.2f} {lint:>9.3f} {check:>9.3f} {check / lint:>6.2f}", flush=True)
    return length <= MOST_LENGTH * size and check <= MOST_CHECK * max(lint, LEAST_SECONDS)


def measure_certificates(kinds, folder):
    if not set(kinds) <= set(KINDS):
        sys.exit("kinds: " + ", ".join(KINDS))
    print(f"{'kind':<14} {'bytes':>9} {'cert':>9} {'times':>6} {'lint':>9} {'check':>9} {'ratio':>6}")
    over = [kind for kind in kinds or KINDS if not measure_certificate(kind, folder)]
    sys.exit("too long or too slow: " + ", ".join(over) if over else 0)


def measure_table(folder):
    if not os.access(SHOW_STEPS, os.X_OK):
        sys.exit("build crates/show_steps first, by `rt run` there")
    print(f"{'kind':<14} {'bytes':>9}  {'table ms':>8} {'MB':>6}  {'profile ms':>10} {'MB':>6}")
    path = os.path.join(folder, "script.sh")
    for kind, made in {**KINDS, **WORDIEST}.items():
        with open(path, "w", encoding="ascii") as file:
            file.write(made(SIZES[-1]))
        columns, before = [f"{kind:<14} {os.path.getsize(path):>9}"], best([SHOW_STEPS, path, "tree"])[1]
        for step, width in (("table", 8), ("profile", 10)):
            said = [subprocess.run([SHOW_STEPS, path, step, "timed"], stdout=subprocess.PIPE, check=True).stdout for _ in range(TABLE_RUNS)]
            kilobytes = best([SHOW_STEPS, path, step])[1]
            columns.append(f"{min(map(int, said)) / 1000:>{width}.1f} {(kilobytes - before) / 1024:>6.1f}")
            before = kilobytes
        print("  ".join(columns))


def main():
    if sys.argv[1:] == ["table"]:
        with tempfile.TemporaryDirectory() as folder:
            measure_table(folder)
        return
    if sys.argv[1:2] == ["families"]:
        with tempfile.TemporaryDirectory() as folder:
            measure_families(sys.argv[2:], folder)
        return
    if sys.argv[1:2] == ["certificates"]:
        with tempfile.TemporaryDirectory() as folder:
            measure_certificates(sys.argv[2:], folder)
        return
    if sys.argv[1:] == ["kernels"]:
        with tempfile.TemporaryDirectory() as folder:
            measure_kernels(folder)
        return
    if not os.access(PROGRAM, os.X_OK):
        sys.exit("build the program first: ./shset --help")
    if not os.access("/usr/bin/time", os.X_OK):
        sys.exit("install GNU time first: Debian's package time")
    kinds = sys.argv[1:] or list(KINDS)
    if not set(kinds) <= set(KINDS):
        sys.exit("kinds: " + ", ".join(KINDS) + "; or certificates, families, kernels or table")
    print(f"{'kind':<14} {'bytes':>9}  {'tool':<11} {'seconds':>9} {'MB':>8}  {'time ratio':>10} {'memory ratio':>12}  {'time growth':>11} {'memory growth':>13}")
    with tempfile.TemporaryDirectory() as folder:
        for kind in kinds:
            measure(kind, folder)


if __name__ == "__main__":
    main()
