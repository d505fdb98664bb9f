"""The test command: everything that is proved and everything that is run, closed by one line that counts them all.

    python3 tests/run.py [MODULE]

With a module, as compare_scan, it runs the comparisons of that one alone.
"""
import importlib
import re
import shutil
import subprocess
import sys
import time
from concurrent.futures import ThreadPoolExecutor
from pathlib import Path

ROOT = Path(__file__).resolve().parent.parent
sys.path.insert(0, str(ROOT / "tests"))
SHOWN = 10  # differences printed of one comparison
CORES = 2
CLOSING = re.compile(r"(\d+) passed, (\d+) failed")

# Started and shown in this order: the longest first, so that none of them is left for the end.
COMPARISONS = (
    "compare_at_scale",
    "compare_sine",
    "compare_record",
    "compare_sweep",
    "compare_exact_cells",
    "compare_placement",
    "compare_publish",
    "compare_scan",
    "compare_programs",
    "compare_bindings",
    "compare_python",
    "compare_built_files",
    "compare_tables",
)
WITHOUT_THE_LIBRARY = ("compare_programs",)
PROGRAMS = ("sheet", "ledger", "gate")

# What `rt ci` says of each must-fail edit that is refused, with the first fact that no longer holds.
REFUSED = re.compile(r"rt: must-fail (\S+)\.edit: refused, as it must be(.*)")
# What it says where an edit no longer fits the proof file, or where the prover gave up, and so shows nothing of the contract.
UNFIT = re.compile(
    r"names what the edit took away|only by a limit of the prover|has no field|has no `|is not in scope|was not admitted"
    r"|no equation of the list has an instance"
)
# The line with which `rt ci` ends well, and where edits are bad their number in it.
WELL = "rt: ok"
BAD = re.compile(r", [1-9]\d* bad\b")


class Count:
    passed = 0
    failed = 0

    def note(self, title, differences, seconds=None):
        good = not differences
        self.passed += good
        self.failed += not good
        took = "" if seconds is None else f" ({seconds:.0f} s)"
        print(f"{'ok' if good else 'FAILED'}: {title}{took}", flush=True)
        for line in differences[:SHOWN]:
            print(f"    {line}")
        if len(differences) > SHOWN:
            print(f"    and {len(differences) - SHOWN} more")


def run(words):
    """Runs a command at the root, shows what it prints, and answers its status and its lines."""
    process = subprocess.Popen(words, cwd=ROOT, stdout=subprocess.PIPE, stderr=subprocess.STDOUT, text=True)
    lines = []
    for line in process.stdout:
        lines.append(line.rstrip("\n"))
        if not CLOSING.fullmatch(lines[-1]):  # one such line stands at the very end
            print(line, end="", flush=True)
    return process.wait(), lines


def add(count, title, status, lines):
    """Adds what a command counted in its last line. One without such a line, or that failed and counted no failure, has failed."""
    counted = CLOSING.fullmatch(lines[-1] if lines else "")
    if counted:
        count.passed += int(counted.group(1))
        count.failed += int(counted.group(2))
    if not counted or (status != 0 and counted.group(2) == "0"):
        count.note(title, [f"it ended with status {status}"])


def proofs(count):
    """`rt ci` proves every listed crate, refuses what is not laid out, tries the must-fail edits and runs the programs."""
    status, lines = run(["rt", "ci"])
    add(count, "rt ci", status, lines)
    well = [line for line in lines if line.startswith(WELL)]
    count.note("rt ci ends well, with no bad edit", [line for line in well if BAD.search(line)] if well else [f"it says no `{WELL}`"])
    return lines


def must_fail_lines(count, lines):
    """Each edit was refused because a fact no longer holds."""
    told = dict(found.groups() for found in map(REFUSED.fullmatch, lines) if found)
    for edit in sorted(ROOT.glob("crates/*/must-fail/*.edit")):
        name = f"{edit.parent.parent.name}/{edit.stem}"
        fact = told.get(name, "")
        if not fact:
            differences = ["no refusal was found"]
        else:
            differences = [fact] if UNFIT.search(fact) else []
        count.note(f"the refusal of {name} names a fact", differences)


def take_programs():
    """The programs that `rt ci` has just proved, built and run are the ones that are compared."""
    folder = ROOT / "target" / "bin"
    folder.mkdir(parents=True, exist_ok=True)
    for name in PROGRAMS:
        (folder / name).unlink(missing_ok=True)
        built = ROOT / "crates" / name / "out" / name
        if built.exists():
            shutil.copy(built, folder)


def compared(module):
    """The comparisons of one module, in this process."""
    count, start = Count(), time.monotonic()
    for title, differences in importlib.import_module(module).comparisons():
        count.note(title, differences, time.monotonic() - start)
        start = time.monotonic()
    return closed(count)


def in_own_process(module):
    return subprocess.run(
        [sys.executable, __file__, module], cwd=ROOT, stdout=subprocess.PIPE, stderr=subprocess.STDOUT, text=True, errors="replace"
    )


def comparisons(count, modules):
    """A process for each module, as many at once as there are cores. What one prints is shown when it and those before it are done."""
    with ThreadPoolExecutor(CORES) as cores:
        for module, done in zip(modules, cores.map(in_own_process, modules)):
            lines = done.stdout.splitlines()
            for line in lines:
                if not CLOSING.fullmatch(line):
                    print(line, flush=True)
            add(count, module, done.returncode, lines)


def closed(count):
    print(f"{count.passed} passed, {count.failed} failed")
    return 0 if count.failed == 0 and count.passed > 0 else 1


def main():
    count = Count()
    must_fail_lines(count, proofs(count))
    take_programs()
    status, lines = run(["make", "--no-print-directory", "library"])
    count.note("the library is built from the proved archive", [] if status == 0 else lines[-SHOWN:])
    comparisons(count, COMPARISONS if status == 0 else WITHOUT_THE_LIBRARY)
    return closed(count)


if __name__ == "__main__":
    sys.exit(compared(sys.argv[1]) if len(sys.argv) > 1 else main())
