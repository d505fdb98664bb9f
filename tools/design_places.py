#!/usr/bin/env python3
"""Counts places of docs/DESIGN-PASS.md that a line's text doesn't show.

    tools/design_places.py twins | parameters | facts | loops | conversions [FOLDER]

FOLDER is the top of a checkout, this one if none is given. Each prints a line for a place or a group of places, and how many there are.
"""
import collections
import pathlib
import re
import sys

WIDTHS = {"u8", "u16", "u32", "u64", "usize", "i16", "i32", "i64"}
KEPT_WORDS = {"while", "for", "in", "if", "else", "return", "match", "let", "mut", "fn", "true", "false", "len", "as"}


def closing(text, start):
    """The place behind the bracket that closes the one at `start`."""
    pairs = {"(": ")", "{": "}", "[": "]"}
    depth = 0
    for k in range(start, len(text)):
        if text[k] in pairs:
            depth += 1
        elif text[k] in pairs.values():
            depth -= 1
            if depth == 0:
                return k + 1
    return len(text)


def functions(top):
    """(file, line, name, parameters, clauses, body) of each function of src/."""
    for path in sorted(pathlib.Path(top).glob("crates/*/src/**/*.rt")):
        text = re.sub(r"//[^\n]*", "", path.read_text())
        for found in re.finditer(r"\bfn (\w+)(?:<[^(]*>)?\(", text):
            end = closing(text, found.end() - 1)
            parameters = text[found.end() : end - 1]
            clauses = []
            while True:
                head = re.compile(r"[^{;]*").match(text, end)
                at = head.end()
                if at >= len(text) or text[at] == ";":
                    body = ""
                    break
                stop = closing(text, at)
                clause = re.search(r"\b(requires|ensures)\b[^{]*$", text[end:at])
                if clause:
                    clauses.append((clause.group(1), text[at + 1 : stop - 1]))
                    end = stop
                else:
                    body = text[at + 1 : stop - 1]
                    break
            line = text.count("\n", 0, found.start()) + 1
            yield str(path.relative_to(top)), line, found.group(1), parameters, clauses, body


def shape(body):
    """A body without its names, numbers and widths."""
    out = []
    for word in re.findall(r"\w+|[^\w\s]", body):
        if word in KEPT_WORDS or not re.match(r"\w", word):
            out.append(word)
        else:
            out.append("T" if word in WIDTHS else "_")
    return " ".join(out)


def twins(top):
    groups = collections.defaultdict(list)
    for file, line, name, parameters, clauses, body in functions(top):
        key = shape(body)
        if len(key.split()) >= 12:
            groups[(key, len(parameters.split(":")))].append(f"{file}:{line} {name}")
    groups = [g for g in groups.values() if len(g) > 1]
    for group in groups:
        print(" | ".join(group))
    print(len(groups), "groups,", sum(len(g) for g in groups), "functions")


def names_of(parameters):
    return [re.sub(r"^mut ", "", p.strip()).split(":")[0].strip() for p in re.split(r",(?![^<\[(]*[>\])])", parameters) if ":" in p]


def parameters_together(top):
    pairs = collections.Counter()
    for *_, parameters, clauses, body in functions(top):
        names = names_of(parameters)
        pairs.update((a, b) for a, b in zip(names, names[1:]))
    rows = [(n, p) for p, n in pairs.items() if n >= 3]
    for n, (a, b) in sorted(rows, reverse=True):
        print(n, a, b)
    print(len(rows), "pairs of neighbours in three signatures or more")
    counts = [(len(names_of(p)), f"{f}:{l} {n}") for f, l, n, p, _, _ in functions(top)]
    print(sum(1 for n, _ in counts if n >= 8), "functions with eight parameters or more; the most is", max(counts))


def facts(top):
    where = collections.defaultdict(set)
    for file, line, name, _, clauses, _ in functions(top):
        for kind, text in clauses:
            if kind == "requires":
                for fact in re.split(r"×", text):
                    fact = " ".join(fact.split()).strip("() ")
                    where[re.sub(r"\b[a-z_]+\b(?=\.(now|old))", "_", fact)].add(f"{file}:{line} {name}")
    rows = [(len(w), f, w) for f, w in where.items() if len(w) >= 3]
    for n, fact, w in sorted(rows, reverse=True):
        print(n, fact, "|", ", ".join(sorted(w)))
    print(len(rows), "facts asked by three functions or more")


def loops(top):
    total = 0
    for file, line, name, _, _, body in functions(top):
        for found in re.finditer(r"\bwhile ([^{]*)\{", body):
            total += 1
            print(f"{file} {name}: while {found.group(1).strip()}")
    print(total, "while loops")


def conversions(top):
    total = 0
    for file, line, name, parameters, _, body in functions(top):
        text = " ".join(body.split())
        whole = re.fullmatch(r"(\(?\w+ as \w+\)?|match \w+ \{.*\}|if [^{]*\{ [^{}]* \} else \{ [^{}]* \}|(if [^{]* \{ return [^{}]*; \} )+[\w: ()]+)", text)
        if whole and len(names_of(parameters)) <= 2:
            total += 1
            print(f"{file}:{line} {name}: {text[:110]}")
    print(total, "functions of one choice or one cast")


if __name__ == "__main__":
    what = {"twins": twins, "parameters": parameters_together, "facts": facts, "loops": loops, "conversions": conversions}
    if len(sys.argv) not in (2, 3) or sys.argv[1] not in what:
        sys.exit(__doc__)
    what[sys.argv[1]](sys.argv[2] if len(sys.argv) == 3 else pathlib.Path(__file__).resolve().parent.parent)
