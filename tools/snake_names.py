"""Brings the definitions, fields and lemmas of specs/ and proofs/ to snake case, everywhere in crates/: `countOf` is `count_of`, and
`values-length` is `values_length`. Types keep their capitals; names that Rattle makes for goals, and names of its library, stay.

    python3 tools/snake_names.py [--show]

With --show it writes nothing and prints the names, and what falls together.
"""
import re
import sys
from pathlib import Path

ROOT = Path(__file__).resolve().parent.parent
TOKEN = re.compile(r"[^\s(){},;.«»\"'`⌜⌝:|\[\]◌]+(?:'+(?![^\s(){},;.]))?")
DECLARED = re.compile(r"\s*(?:unfoldable |abbrev |opaque )?(?:pub )?([^\s:{}(),;.]+) :(?: |$)")
# Names that would fall together with another: a lemma beside its definition, a field beside the test that it speaks of.
APART = {
    "kLimit": "limit_of_k",
    "left_by": "left_by_lem",
    "centres-accepted": "centres_pass",
    "site-accepted": "site_passes",
    "grid-accepted": "grid_passes",
    "lengths-accepted": "lengths_pass",
    "content-accepted": "content_passes",
    "sums-accepted": "sums_pass",
}
LEMMAS = (
    "columns-there", "content-length", "given-exact", "grid-length", "grid-of", "head-left", "is-measured", "is-number", "kind-accepted",
    "lists-exact", "mesh-column-of-zero", "no-rays", "number-in", "record-length", "scan-in", "scan-read", "sweep-left", "unless-refused",
)
QUOTED = re.compile(r"`[^`\n]*`")
LOCAL = re.compile(r"\s*let ")
FOREIGN = re.compile(r"\s*(?:pub )?(?:ghost )?use (?!Rattle\.(?:%s)\.)")


def snake(name):
    """The name in snake case."""
    name = re.sub(r"(?<=[a-z0-9])([A-Z])(?=[a-z]|$)", lambda m: "_" + m.group(1).lower(), name)
    return name.replace("-", "_")


def shared_files():
    for folder in ("specs", "proofs"):
        yield from sorted(ROOT.glob(f"crates/*/{folder}/*.antt"))


def all_files():
    for pattern in ("crates/*/specs/*.antt", "crates/*/proofs/**/*.antt", "crates/*/src/**/*.rt", "crates/*/must-fail/*.edit"):
        yield from sorted(ROOT.glob(pattern))


def foreign_names(crates):
    """Names that are imported from the library."""
    names = set()
    foreign = re.compile(FOREIGN.pattern % "|".join(crates))
    for path in all_files():
        for line in path.read_text().splitlines():
            if foreign.match(line):
                names.update(TOKEN.findall(line))
    return names


def declared_names():
    names = {}
    for path in shared_files():
        for line in path.read_text().splitlines():
            found = DECLARED.match(line)
            if found and not LOCAL.match(line):
                names.setdefault(found.group(1), path)
    return names


def main():
    show = "--show" in sys.argv[1:]
    crates = [line.split(":")[0].split()[0] for line in (ROOT / "crates.txt").read_text().splitlines() if ":" in line and line[0] != "#"]
    foreign = foreign_names(crates)
    declared = declared_names()
    turned = {}
    for name in declared:
        lower = name[0].islower() or "-" in name
        new = snake(name)
        if lower and new != name and name not in foreign and re.fullmatch(r"[^\W]*[A-Za-z0-9_*'ℤℕ≤≡-]+", name):
            turned[name] = new
    turned.update((name, snake(name) + "_lem") for name in LEMMAS)
    turned.update(APART)
    if show:
        present = set()
        for path in all_files():
            present.update(TOKEN.findall(path.read_text()))
        by_new = {}
        for name, new in turned.items():
            by_new.setdefault(new, []).append(name)
        for new, names in sorted(by_new.items()):
            if len(names) > 1:
                print("together:", new, names)
            elif new in present:
                print("present:", new, names, "declared" if new in declared else "", "foreign" if new in foreign else "")
        print("foreign kept:", sorted(name for name in declared if name in foreign and snake(name) != name and (name[0].islower() or "-" in name)))
        print("odd:", sorted(name for name in declared if snake(name) != name and name not in turned and name not in foreign))
        print(len(turned))
        return
    for path in all_files():
        text = path.read_text()
        new = TOKEN.sub(lambda m: turned.get(m.group(), m.group()), text)
        if new != text:
            path.write_text(new)
    for path in [ROOT / "README.md", *sorted(ROOT.glob("docs/*.md")), *sorted(ROOT.glob("docs/changes/*.md"))]:
        text = path.read_text()
        new = QUOTED.sub(lambda span: TOKEN.sub(lambda m: turned.get(m.group(), m.group()), span.group()), text)
        if new != text:
            path.write_text(new)


if __name__ == "__main__":
    main()
