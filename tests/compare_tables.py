"""The three tables against ones made afresh from document 01's rule: S as the source has it, F and G as the compiled library works them out.

Below 1,000 the sine is the entry of F itself, since S[0] is 0 and S[900] is Q. From 899,001 to 900,000 it tells the entry of G: the number beside
it on either side would give another sine.
"""
import re
from pathlib import Path

import library
from second_program import sine

SOURCE = Path(__file__).resolve().parent.parent / "crates" / "coarse_sines" / "src" / "lib.rt"


def source_table():
    body = re.search(r"^const S: \[u32; (\d+)\] = \[(.*?)\];", SOURCE.read_text(), re.M | re.S)
    entries = [int(word) for word in re.findall(r"\d+", body.group(2))]
    assert len(entries) == int(body.group(1))
    return entries


def compared_s():
    written, table = source_table(), sine.table_s()
    differences = [
        f"S[{place}] is {got} in the source and {expected} by the rule"
        for place, (got, expected) in enumerate(zip(written, table))
        if got != expected
    ]
    if len(written) != len(table):
        differences.append(f"S has {len(written)} entries in the source and {len(table)} by the rule")
    yield f"table S, {len(table)} entries", differences


def with_entry(angle, entry):
    """The sine of an angle from 0 to 900,000, with this number for the entry of G."""
    a, b = divmod(angle, 1000)
    return (sine.table_s()[a] * entry + sine.table_s()[900 - a] * sine.table_f()[b]) // sine.Q


def compared_f(compiled):
    for b, expected in enumerate(sine.table_f()):
        got = compiled.uldrevin_sine(b)
        if got != expected:
            yield f"F[{b}] is {got} in the library and {expected} by the rule"


def compared_g(compiled):
    for angle in range(899_001, 900_001):
        b = angle % 1000
        got, entry = compiled.uldrevin_sine(angle), sine.table_g()[b]
        if got != with_entry(angle, entry):
            yield f"the sine of {angle} is {got} in the library, where G[{b}] is {entry} by the rule"
        if got in (with_entry(angle, entry - 1), with_entry(angle, entry + 1)):
            yield f"the sine of {angle}, {got}, does not tell G[{b}]"


def comparisons():
    yield from compared_s()
    compiled = library.load()
    for name, differences in (("F", compared_f(compiled)), ("G", compared_g(compiled))):
        yield f"table {name} as it is worked out, 1000 entries", list(differences)
