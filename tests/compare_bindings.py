"""The library from C, Rust and Python: the same functions, structs and sentences for refusals, the same grids, ledgers and marks.

    python3 tests/compare_bindings.py

runs these comparisons alone, on the library that `make library` built and the programs in target/bin.
"""
import subprocess
import sys

import declarations
from declarations import ROOT

ARCHIVE = "target/staticlib/libuldrevin.a"
GCC = ["gcc", "-std=c99", "-Wall", "-Wextra", "-Werror", "-pedantic", "-O2", "-Iinclude"]
CARGO = ["cargo", "--offline", "--quiet"]
LINES = 10  # shown of a failed command


def ended(words, data=b""):
    return subprocess.run(words, cwd=ROOT, input=data, capture_output=True)


def failed(words):
    """The last lines that a command printed, where it failed."""
    done = ended(words)
    if done.returncode == 0:
        return []
    printed = (done.stdout + done.stderr).decode(errors="replace").splitlines()
    return [f"it ended with status {done.returncode}", *printed[-LINES:]]


# First grids, and grids of rays that are fed one at a time.


def built_for_c(source, name):
    return failed([*GCC, source, ARCHIVE, "-o", f"target/{name}"])


def rust_example(name):
    return [*CARGO, "run", "-p", "uldrevin", "--example", name]


def first_grids():
    """The commands that print a grid and a ledger with its marks, by language."""
    return {
        "C": ["target/first_grid"],
        "Rust": rust_example("first_grid"),
        "Python": [sys.executable, "examples/first_grid.py"],
    }


def turning_grids():
    """The commands that feed the rays to a sweep and print a grid, by language. tests/compare_python.py runs examples/turning.py."""
    return {"C": ["target/turning"], "Rust": rust_example("turning")}


def printed_sheet(record):
    return ended(["target/bin/sheet"], record).stdout.decode()


def expected_grid(record):
    """What the proved programs print for a record: the sheet, then cells and marks from the ledger."""
    sheet = printed_sheet(record)
    if not sheet.startswith("grid"):
        return sheet
    columns = int(sheet.split()[1])
    entries = []
    for line in ended(["target/bin/ledger"], record).stdout.decode().splitlines()[1:]:
        ray, gate, *_, column, row, mark = line.split()
        inside = row != "outside"
        entries.append(f"{ray} {gate} {int(row) * columns + int(column) if inside else 'outside'} {mark}\n")
    return sheet + "ledger\n" + "".join(entries)


def grids_differ(command, expected_of):
    differences = []
    for name in ("hrap.scan", "radolan.scan", "crossing.scan"):
        record = (ROOT / "examples" / name).read_bytes()
        for words, data in (("", record), (" cut short", record[:-1]), (" with a byte more", record + b"\0")):
            done, expected = ended(command, data), expected_of(data)
            if (done.stdout.decode(), done.returncode) != (expected, 0 if expected.startswith("grid") else 1):
                differences.append(f"{name}{words}: status {done.returncode}, printed {done.stdout[:200]!r}, {done.stderr[-200:]!r}")
    return differences


def comparisons():
    yield from declarations.functions()
    yield "the functions have the same parameters in C, Rust and Python", declarations.parameters()
    yield "the structs have the same fields in C, Rust and Python", declarations.structs()
    yield "the sentences of the refusals are the same in C, Rust and Python", declarations.sentences()
    yield "a C program compiles without a warning and finds what documents 01 and 02 say", (
        built_for_c("tests/from_c.c", "from_c") or failed(["target/from_c"])
    )
    yield "the examples in the documentation of the crate for Rust", failed([*CARGO, "test", "-p", "uldrevin"])
    yield "the cases of document 01 by the plain program", failed([*CARGO, "test", "-p", "plain_program"])
    faults = built_for_c("examples/first_grid.c", "first_grid")
    for language, command in first_grids().items():
        yield f"first grid and ledger from {language} as the programs print them", faults or grids_differ(command, expected_grid)
        faults = []
    faults = built_for_c("examples/turning.c", "turning")
    for language, command in turning_grids().items():
        yield f"the grid of rays fed one at a time from {language} as the program sheet prints it", (
            faults or grids_differ(command, printed_sheet)
        )
        faults = []


def main():
    from run import Count

    count = Count()
    for title, differences in comparisons():
        count.note(title, differences)
    print(f"{count.passed} passed, {count.failed} failed")
    return 0 if count.failed == 0 else 1


if __name__ == "__main__":
    sys.exit(main())
