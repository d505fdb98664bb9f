"""The Python binding in its two forms, without numpy and with it: its doctests, its checks, and the examples that use it.

    python3 tests/compare_python.py

runs these comparisons alone.
"""
import re
import subprocess
import sys
import tempfile
import time
from itertools import takewhile
from pathlib import Path
from typing import NamedTuple

import exact_counts_runs

ROOT = Path(__file__).resolve().parent.parent
BINDING = ROOT / "bindings" / "python"
EXAMPLES = ROOT / "examples"
PATIENCE = 120  # seconds for one process
CANDIDATES = (sys.executable, "/usr/bin/python3")  # where numpy is looked for

WITHOUT_NUMPY = "import sys; sys.modules['numpy'] = None; "  # an import of it fails
DOCTESTS = "import doctest, sys; sys.path.insert(0, sys.argv[1]); import uldrevin; print(*doctest.testmod(uldrevin))"
EXAMPLE_RUN = (
    f"import runpy, sys; sys.path.insert(0, {str(EXAMPLES)!r}); del sys.argv[0]; runpy.run_path(sys.argv[0], run_name='__main__')"
)
NO_PICTURE = "matplotlib is not here; install python3-matplotlib to draw the pictures"

# A whole scan, tallied and published, that gives the counts as its means.
OTHER_MEANS = (
    f"import sys; sys.path.insert(0, {str(BINDING)!r}); import uldrevin; remap = uldrevin.remap; "
    "uldrevin.remap = lambda *scan: (whole := remap(*scan))._replace(means=whole.counts); "
)


class Form(NamedTuple):
    """An interpreter, and what it runs first."""

    words: str
    interpreter: str
    before: str
    arguments: list  # of tests/python_binding.py


def run(words):
    return subprocess.run(words, cwd=ROOT, capture_output=True, text=True, timeout=PATIENCE)


def has(interpreter, module):
    return Path(interpreter).exists() and run([interpreter, "-c", f"import {module}"]).returncode == 0


def forms():
    yield Form("without numpy", sys.executable, WITHOUT_NUMPY, ["plain"])
    found = [interpreter for interpreter in CANDIDATES if has(interpreter, "numpy")]
    if not found:
        print("the numpy half of the Python binding was not run: no numpy is here; `apt-get install python3-numpy` gets it", flush=True)
        return
    yield Form("with numpy", found[0], "", [])


def doctest_lines(form):
    """How many examples were tried, and the lines of those that failed."""
    done = run([form.interpreter, "-c", form.before + DOCTESTS, str(BINDING)])
    told = done.stdout.splitlines()
    failed, tried = map(int, told[-1].split()) if done.returncode == 0 else (1, 0)
    if failed == 0 and tried > 0:
        return tried, []
    return tried, [*told, *done.stderr.splitlines()] or ["no example was tried"]


def check_lines(form):
    """The closing line of tests/python_binding.py, and its differences."""
    done = run([form.interpreter, str(ROOT / "tests" / "python_binding.py"), *form.arguments])
    told = done.stdout.splitlines()
    closing = told[-1] if told and re.match(r"[1-9]\d* checks with", told[-1]) else ""
    if done.returncode == 0 and len(told) == 1 and closing and not done.stderr:
        return closing, []
    return closing or "not all checks", [*told, *done.stderr.splitlines(), f"it ended with status {done.returncode}"]


# The examples.


def example(form, name, *arguments, before=""):
    return run([form.interpreter, "-c", form.before + before + EXAMPLE_RUN, str(EXAMPLES / name), *arguments])


def worked_again(text):
    """The last lines of the cell's ledger, from the gates that it lists."""
    rows = [list(map(int, row)) for row in re.findall(r"^ *\d+ +\d+ +(\d+) +(\d+) +[-\d]+$", text, re.MULTILINE)]
    measured = [(0 if value == 65_534 else value, quality) for value, quality in rows if value != 65_535]
    products, qualities = sum(value * quality for value, quality in measured), sum(quality for _, quality in measured)
    mean = f"mean    = floor({products} / {qualities}) = {products // max(1, qualities)}"
    return mean, f"quality = floor({qualities} / {len(measured)}) = {qualities // max(1, len(measured))}"


def storm_lines(form):
    """Its numbers follow from the gates that it lists, and it draws the picture or says that it cannot."""
    with tempfile.TemporaryDirectory() as folder:
        picture = Path(folder) / "storm.png"
        done = example(form, "storm.py", str(picture))
        drawn = picture.exists() and picture.read_bytes().startswith(b"\x89PNG")
    lines = [f"`{line}` is not printed" for line in worked_again(done.stdout) if line not in done.stdout.splitlines()]
    if done.returncode != 0:
        lines.append(f"it ended with status {done.returncode} and {done.stderr[-200:]}")
    if drawn == (NO_PICTURE in done.stdout):
        lines.append("it drew the picture and says that it cannot" if drawn else "it neither drew the picture nor says that it cannot")
    return lines


def shown(command):
    """The lines that examples/README.md shows below a command."""
    _, text = (EXAMPLES / "README.md").read_text().split(f"    $ {command}\n")
    return [line[4:] for line in takewhile(lambda line: line.startswith("    "), text.splitlines())]


def sheets_worked_again(lines):
    """What the two maps of examples/two_sheets.py say below them: how many cells differ, with stars, and the first that differs most."""
    rows = [line.split()[1:] for line in reversed(lines) if re.match(r" +\d+ ", line)]  # row 0 is the southernmost, and stands last
    columns = len(rows[0]) // 2
    cells = [pair for row in rows for pair in zip(row[:columns], row[columns:])]
    apart = [abs(int(plain.rstrip("*")) - int(by_quality.rstrip("*"))) for plain, by_quality in cells]
    yield f"{sum(plain.endswith('*') and by_quality.endswith('*') for plain, by_quality in cells)} of {len(cells)} cells differ (*)"
    yield f"{sum(difference > 0 for difference in apart)} of {len(cells)} cells differ (*)"
    cell = apart.index(max(apart))
    yield f"Column {cell % columns}, row {cell // columns}, cell {cell}, has the greatest difference. Its gates:"


def divisions_worked_again(lines):
    """The sums and both means of the cell of examples/two_sheets.py, from the gates that it lists."""
    numbers = [int(word) for line in lines if re.fullmatch(r"\d[ \d]*", line) for word in line.split()]
    values, qualities = numbers[2::4], numbers[3::4]
    products = sum(value * quality for value, quality in zip(values, qualities))
    count, quality_sum, value_sum = len(values), sum(qualities), sum(values)
    yield f"count {count:,}, quality sum {quality_sum:,}, value sum {value_sum:,}, sum of value x quality {products:,}"
    yield f"plain {value_sum:,} / {count:,} = {value_sum // count:,}"
    yield f"by quality {products:,} / {quality_sum:,} = {products // quality_sum:,}"


def two_sheets_lines(form):
    """It prints what its README shows, and that follows from the maps and the gates in it."""
    done, expected = example(form, "two_sheets.py"), shown("python3 examples/two_sheets.py")
    worked = [*sheets_worked_again(expected), *divisions_worked_again(expected)]
    lines = [f"`{line}` is not in examples/README.md" for line in worked if line not in expected]
    if (done.stdout.splitlines(), done.returncode) != (expected, 0):
        lines += [*done.stdout.splitlines(), f"it ended with status {done.returncode} and {done.stderr[-200:]}, expected {expected}"]
    return lines


def turning_lines(form):
    """It prints what its README shows. Where a list is not that of the whole scan, it names it, and its status is 1."""
    good = shown("python3 examples/turning.py")
    different = [*good[:-1], "other than those of the whole scan: means"]
    lines = []
    for before, expected, status in (("", good, 0), (OTHER_MEANS, different, 1)):
        done = example(form, "turning.py", before=before)
        if (done.stdout.splitlines(), done.returncode) != (expected, status):
            lines += [*done.stdout.splitlines(), f"it ended with status {done.returncode} and {done.stderr[-200:]}, expected {expected}"]
    return lines


def exact_counts_lines(form):
    """How many runs were made, and where one, or what its README shows, is not what the second program has, or ended otherwise."""
    chosen, lines = list(exact_counts_runs.runs()), []
    for command, expected in exact_counts_runs.shown_in_readme():
        if shown(command) != expected:
            lines.append(f"examples/README.md shows {shown(command)} for `{command}`, expected {expected}")
    for one in chosen:
        words = [form.interpreter, "-c", form.before + one.code, *one.words]
        done = subprocess.run(words, cwd=ROOT, input=one.data, capture_output=True, timeout=PATIENCE)
        for name, got, expected in (
            ("standard output", done.stdout, one.output),
            ("standard error", done.stderr, one.errors),
            ("status", done.returncode, one.status),
        ):
            if got != expected:
                lines.append(f"{one.words}, {len(one.data)} bytes: {name} is {got!r:.300}, expected {expected!r:.300}")
    return len(chosen), lines


def comparisons():
    for form in forms():
        tried, lines = doctest_lines(form)
        yield f"the Python binding {form.words}: {tried} doctest examples", lines
        closing, lines = check_lines(form)
        yield f"the Python binding: {closing}", lines
        yield f"examples/storm.py {form.words}", storm_lines(form)
        yield f"examples/two_sheets.py {form.words}", two_sheets_lines(form)
        yield f"examples/turning.py {form.words}", turning_lines(form)
        runs, lines = exact_counts_lines(form)
        yield f"examples/exact_counts.py {form.words}: {runs} runs, each cell of the example records among them", lines


def main():
    from run import Count

    count, start = Count(), time.monotonic()
    for title, lines in comparisons():
        count.note(title, lines, time.monotonic() - start)
        start = time.monotonic()
    print(f"{count.passed} passed, {count.failed} failed")
    return 0 if count.failed == 0 else 1


if __name__ == "__main__":
    sys.exit(main())
