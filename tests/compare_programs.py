"""The programs sheet, ledger and gate against the second program: what they print, byte for byte, and how they end.

    python3 tests/compare_programs.py [FOLDER]

runs these comparisons alone, on the programs in that folder.
"""
import importlib.util
import os
import random
import select
import shlex
import signal
import subprocess
import sys
import time
from collections import Counter
from concurrent.futures import ThreadPoolExecutor
from itertools import zip_longest
from pathlib import Path
from typing import NamedTuple

import program_inputs
from compare_record import SHOWN, shown
from good_scans import SHEET
from program_inputs import SEED
from second_program import programs, record

ROOT = Path(__file__).resolve().parent.parent
PROGRAMS = ROOT / "target" / "bin"
KEPT = ROOT / "target" / "differences"
EXAMPLES = ROOT / "examples"

AT_ONCE = 2  # processes
PATIENCE = 20  # seconds for one process

# Document 01's example for the sheet program.
EXAMPLE = b"grid 2 1\ngates 2 placed 2\n1 0 1 50 2\n"

# What a printed text is, by its first word.
SORTS = {
    b"grid": "with a sheet",
    b"ray": "with a ledger",
    b"inside": "inside",
    b"outside": "outside",
    b"refused": "refused",
    b"too": "too large",
    b"usage:": "with the usage line",
}


class Ended(NamedTuple):
    output: bytes
    errors: bytes
    status: int | None  # nothing where it had to be stopped


class Input(NamedTuple):
    """One run of a program: its arguments, its standard input, what it has to print, and words on it."""

    arguments: list
    data: bytes
    expected: bytes
    words: str


def record_input(rule, words, data):
    return Input([], data, rule(data), words)


def gate_input(arguments):
    return Input(arguments, b"", programs.gate_text(arguments), "")


# Running.


def finished(process, data=None):
    try:
        output, errors = process.communicate(data, timeout=PATIENCE)
    except subprocess.TimeoutExpired:
        process.kill()
        process.communicate()
        return Ended(b"", b"", None)
    return Ended(output or b"", errors, process.returncode)


def started(program, arguments, output=subprocess.PIPE):
    words = [program, *arguments]
    return subprocess.Popen(words, stdin=subprocess.PIPE, stdout=output, stderr=subprocess.PIPE)


def run(program, one):
    return finished(started(program, one.arguments), one.data)


def run_in_pieces(program, data, pieces, pause):
    """The data comes in pieces of these lengths, each after a pause."""
    process = started(program, [])
    try:
        for length in pieces:
            time.sleep(pause)
            os.write(process.stdin.fileno(), data[:length])
            data = data[length:]
    except BrokenPipeError:
        pass  # It ended before its input did; what it printed is compared all the same.
    return finished(process)


# Differences.


def ending_lines(ended, allowed=()):
    if ended.status is None:
        return [f"it did not end in {PATIENCE} seconds"]
    lines = [f"it printed {ended.errors[:200]} on standard error"] if ended.errors else []
    if ended.status < 0 and ended.status not in allowed:
        lines.append(f"signal {-ended.status} ended it")
    return lines


def output_lines(got, expected):
    """The first line in which two texts differ."""
    pairs = zip_longest(got.splitlines(True), expected.splitlines(True), fillvalue=b"")
    differing = ((number, *pair) for number, pair in enumerate(pairs, 1) if pair[0] != pair[1])
    return [
        f"line {number} is {one[:200]} in the program and {other[:200]} by the rule" for number, one, other in differing
    ][:1]


def command(program, one):
    """A command that shows the difference again, or the input itself. An input too long to print is kept as a file."""
    if one.arguments or not one.words:
        words = " ".join(shlex.quote(os.fsdecode(word)) for word in one.arguments)
        return f"{program.name} {words if len(words) <= 1_000 else words[:1_000] + ' and so on'}"
    if len(one.data) <= SHOWN:
        return f"{one.words}; the input of {program.name} is {shown(one.data)}"
    KEPT.mkdir(parents=True, exist_ok=True)
    path = KEPT / f"{program.name}-{len(list(KEPT.iterdir()))}.scan"
    path.write_bytes(one.data)
    return f"{one.words}; {program.name} < {path.relative_to(ROOT)}"


def differences(program, one, ended, allowed=()):
    lines = ending_lines(ended, allowed)
    if ended.status is not None:
        lines += output_lines(ended.output, one.expected)
    if not lines:
        return []
    where = command(program, one)
    return [f"{line}: {where}" for line in lines]


def compared(program, inputs):
    with ThreadPoolExecutor(AT_ONCE) as pool:
        results = pool.map(lambda one: run(program, one), inputs)
        return [line for one, ended in zip(inputs, results) for line in differences(program, one, ended)]


# Inputs by the thousand.


def marks_in(text):
    """The marks in a ledger or in the text of a single gate."""
    first, *others = text.splitlines()
    if first.startswith((b"inside", b"outside")):
        return [first.split()[-1]]
    return [line.split()[-1] for line in others] if first.startswith(b"ray") else []


def told(inputs):
    """How many texts of each sort there are, and how many marked and unmarked gates in them."""
    sorts = Counter(SORTS[one.expected.split()[0]] for one in inputs)
    counts = [f"{count} {sort}" for sort, count in sorts.items()]
    marks = Counter(mark for one in inputs for mark in marks_in(one.expected))
    if marks:
        counts.append(f"{marks[b'1']} gates marked, {marks[b'0']} unmarked")
    return ", ".join(counts)


def every_group(program, groups):
    """The comparisons of one program, and one more: that every refusal number was met."""
    met, total = set(), 0
    for name, inputs in groups:
        inputs = list(inputs)
        total += len(inputs)
        met |= {int(one.expected.split()[1]) for one in inputs if one.expected.startswith(b"refused")}
        yield f"{program.name}, {len(inputs)} {name}: {told(inputs)}, seed {SEED}", compared(program, inputs)
    numbers = (3, 4, 5, 7) if program.name == "gate" else (1, 2, 3, 4, 5, 7, 8, 11, 12, 13, 14)
    missing = [f"no input is refused with {number}" for number in numbers if number not in met]
    yield f"{program.name}, {total} inputs, every refusal number among them", missing


def record_groups(rule, groups):
    for name, chosen in groups:
        yield name, (record_input(rule, words, data) for words, data in chosen)


def gate_groups():
    for name, chosen in program_inputs.gate_groups():
        yield name, map(gate_input, chosen)


# Other ways to come in and to go out.


def example_lines(sheet):
    """Document 01's example, by the program and by the second program."""
    data = record.write_record(SHEET, 100)
    one = Input([], data, EXAMPLE, "document 01's example")
    return differences(sheet, one, run(sheet, one)) + [
        f"by the second program, {line}" for line in output_lines(programs.sheet_text(data), EXAMPLE)
    ]


def piece_lines(program, rule):
    """The example byte by byte, and a record of 4,096 gates in pieces of any length."""
    draw = random.Random(SEED + 3)
    example = record.write_record(SHEET, 100)
    large = record.write_record(program_inputs.scan_of_size(draw, (16, 256), (32, 32)), 20_000)
    lines = []
    for data, pieces, pause in (
        (example, [1] * len(example), 0.002),
        (large, [draw.randint(1, 1_000) for _ in range(100)], 0.001),
    ):
        one = record_input(rule, "in pieces", data)
        lines += differences(program, one, run_in_pieces(program, data, pieces, pause))
    return lines


def closed(program, one):
    """The program with its standard output closed."""
    shell = ["-c", 'exec "$@" >&-', "sh", program, *one.arguments]
    return finished(started("/bin/sh", shell), one.data)


def unread(program, one):
    """The program with a pipe that nobody reads any more."""
    reading, writing = os.pipe()
    os.close(reading)
    process = started(program, one.arguments, writing)
    os.close(writing)
    return finished(process, one.data)


def left(program, one):
    """The program with a reader that leaves after a few bytes."""
    reading, writing = os.pipe()
    process = started(program, one.arguments, writing)
    os.close(writing)
    try:
        process.stdin.write(one.data)
        process.stdin.close()
    except BrokenPipeError:
        pass
    if select.select([reading], [], [], PATIENCE)[0]:
        os.read(reading, 10)
    os.close(reading)
    process.stdin = None
    return finished(process)


def lost_lines(folder):
    """Where a program says something or does not end because nobody reads what it prints."""
    draw = random.Random(SEED + 4)
    small = record.write_record(SHEET, 100)
    large = record.write_record(program_inputs.scan_of_size(draw, (16, 256), (32, 32)), 20_000)
    gate = [str(word).encode() for word in program_inputs.BASES[program_inputs.Hrap].values()]
    runs = [("sheet", [], small), ("sheet", [], large), ("sheet", [], b""), ("gate", gate, b""), ("gate", [], b"")]
    runs += [("ledger", [], small), ("ledger", [], large), ("ledger", [], b"")]
    for name, arguments, data in runs:
        program, one = folder / name, Input(arguments, data, b"", f"{len(data)} bytes")
        for way in (closed, unread, left):
            for line in ending_lines(way(program, one), allowed=(-signal.SIGPIPE,)):
                yield f"{line}: {way.__doc__} {command(program, one)}"


# The examples and the pages.


def made():
    """The examples as examples/make.py makes them, by file name."""
    spec = importlib.util.spec_from_file_location("make_examples", EXAMPLES / "make.py")
    module = importlib.util.module_from_spec(spec)
    spec.loader.exec_module(module)
    return module.records()


def made_lines(records):
    for name, data in records.items():
        path = EXAMPLES / name
        if not path.exists() or path.read_bytes() != data:
            yield f"examples/{name} is not what examples/make.py makes, {shown(data)}"


def story_lines():
    """Where README.md does not show what the story prints."""
    done = subprocess.run(["sh", "examples/story.sh"], cwd=ROOT, capture_output=True, timeout=PATIENCE)
    if done.returncode != 0 or done.stderr:
        yield f"it ended with status {done.returncode} and {done.stderr[:200]}"
    told = "".join(f"    {line}".rstrip() + "\n" for line in done.stdout.decode().splitlines())
    if told not in (ROOT / "README.md").read_text():
        yield "README.md does not have the text that `sh examples/story.sh` prints, indented by four"


def comparisons(folder=PROGRAMS):
    sheet, ledger, gate = (folder / name for name in ("sheet", "ledger", "gate"))
    missing = [f"{program} is not there" for program in (sheet, ledger, gate) if not program.exists()]
    yield "the programs are built", missing
    if missing:
        return
    yield "sheet prints document 01's example", example_lines(sheet)
    yield from every_group(sheet, record_groups(programs.sheet_text, program_inputs.sheet_groups()))
    yield from every_group(ledger, record_groups(programs.ledger_text, program_inputs.ledger_groups()))
    yield from every_group(gate, gate_groups())
    yield "sheet, input in pieces", piece_lines(sheet, programs.sheet_text)
    yield "ledger, input in pieces", piece_lines(ledger, programs.ledger_text)
    yield "sheet, ledger and gate end in silence where nobody reads", list(lost_lines(folder))
    records = made()
    yield "the examples are what examples/make.py makes", list(made_lines(records))
    for program, rule in ((sheet, programs.sheet_text), (ledger, programs.ledger_text)):
        inputs = [record_input(rule, name, data) for name, data in records.items()]
        yield f"{program.name}, the examples", compared(program, inputs)
    if folder == PROGRAMS:
        yield "the story in README.md is what the programs print", list(story_lines())


def main():
    from run import Count

    count, start = Count(), time.monotonic()
    for title, lines in comparisons(Path(sys.argv[1]).resolve() if len(sys.argv) > 1 else PROGRAMS):
        count.note(title, lines, time.monotonic() - start)
        start = time.monotonic()
    print(f"{count.passed} passed, {count.failed} failed")
    return 0 if count.failed == 0 else 1


if __name__ == "__main__":
    sys.exit(main())
