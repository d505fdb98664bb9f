"""A minute of the comparison at scale, library against plain program: random and edge gates, scans, sweeps, damaged records.

    python3 tests/compare_at_scale.py [SEED]

runs it alone. The seed is taken from the clock unless it is given, and is printed, so that a run can be repeated.
"""
import subprocess
import sys
from pathlib import Path

ROOT = Path(__file__).resolve().parent.parent
SECONDS = 60
COMMAND = ["cargo", "--offline", "--quiet", "run", "--release", "-p", "at_scale", "--", "--seconds", str(SECONDS)]


def comparisons(*seed):
    process = subprocess.Popen([*COMMAND, *seed], cwd=ROOT, stdout=subprocess.PIPE, stderr=subprocess.STDOUT, text=True)
    lines = []
    for line in process.stdout:
        lines.append(line.rstrip("\n"))
        print(line, end="", flush=True)
    status = process.wait()
    closing = lines[-1] if lines else "nothing printed"
    yield f"library and plain program at scale: {closing}", [] if status == 0 else [f"it ended with status {status}"]


def main():
    from run import Count

    count = Count()
    for title, differences in comparisons(*sys.argv[1:]):
        count.note(title, differences)
    return 0 if count.failed == 0 else 1


if __name__ == "__main__":
    sys.exit(main())
