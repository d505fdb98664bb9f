"""Prints the bytes of code and of constants in the archive, the shared library and each program, as `size -A` has them."""
import subprocess
from pathlib import Path

TARGET = Path(__file__).resolve().parent.parent.parent / "target"
FILES = ("staticlib/libuldrevin.a", "libuldrevin.so", "bin/sheet", "bin/ledger", "bin/gate")


def section_sizes(path):
    """Name and bytes of each section, of every object file of an archive."""
    listed = subprocess.run(["size", "-A", "-d", path], capture_output=True, text=True, check=True).stdout
    for line in listed.splitlines():
        words = line.split()
        if len(words) == 3 and words[0].startswith("."):
            yield words[0], int(words[1])


def bytes_of(path, name):
    return sum(size for section, size in section_sizes(path) if section == name or section.startswith(f"{name}."))


def main():
    print("\nBytes of code and of constants\n")
    print("| file | code | constants |")
    print("|---|---|---|")
    for name in FILES:
        print(f"| {name} | {bytes_of(TARGET / name, '.text')} | {bytes_of(TARGET / name, '.rodata')} |")


if __name__ == "__main__":
    main()
