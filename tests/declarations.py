"""What the header, the crate for Rust and the module for Python declare: functions, their parameters, structs, sentences of refusals."""
import re
import subprocess
import sys
from ctypes import c_int64, c_size_t, c_uint8, c_uint32, c_uint64, c_void_p
from pathlib import Path
from types import SimpleNamespace

ROOT = Path(__file__).resolve().parent.parent
sys.path.insert(0, str(ROOT / "bindings" / "python"))

import uldrevin  # noqa: E402

HEADER = ROOT / "include" / "uldrevin.h"
RUST = ROOT / "bindings" / "rust" / "src"


# Functions.


def exported():
    """The functions that the shared library exports."""
    words = ["nm", "-D", "--defined-only", "target/libuldrevin.so"]
    listed = subprocess.run(words, cwd=ROOT, capture_output=True).stdout.decode()
    return set(re.findall(r" T (uldrevin_\w+)", listed))


def declared(path, pattern):
    return set(re.findall(pattern, path.read_text(), re.MULTILINE))


class Asked:
    """Stands in for the shared library and keeps the functions that are asked of it, by name."""

    def __init__(self):
        self.functions = {}

    def __getattr__(self, name):
        return self.functions.setdefault(name, SimpleNamespace())


def declared_in_python():
    asked = Asked()
    uldrevin._declare(asked)
    return asked.functions


def functions():
    names = exported()
    for language, found in (
        ("C", declared(HEADER, r"^\w+ (uldrevin_\w+)\(")),
        ("Rust", declared(RUST / "exports.rs", r"fn (uldrevin_\w+)\(")),
        ("Python", set(declared_in_python())),
    ):
        differences = [] if names else ["the library exports nothing"]
        differences += [f"{name} is not declared" for name in sorted(names - found)]
        differences += [f"{name} is not exported" for name in sorted(found - names)]
        yield f"the functions that the library exports are declared for {language}", differences


# Types in words that all languages share. c_size_t and c_uint64 are one type, so that C's size_t and Rust's usize are 64 bits here too.

STRUCTS = ("site", "grid", "scan", "sweep")
COMMON = {
    **{c_int64.__name__: "i64", c_uint8.__name__: "u8", c_uint32.__name__: "u32", c_uint64.__name__: "u64", c_size_t.__name__: "u64"},
    **{"int64_t": "i64", "uint8_t": "u8", "uint16_t": "u16", "uint32_t": "u32", "uint64_t": "u64", "size_t": "u64", "usize": "u64"},
    **{word: name for name in STRUCTS for word in (f"uldrevin_{name}", f"{name.capitalize()}Numbers", f"_{name.capitalize()}")},
}


def in_common(held):
    return COMMON.get(held, held)


def header_text():
    return re.sub(r"/\*.*?\*/", "", HEADER.read_text(), flags=re.DOTALL)


# Parameters: for each function the pointer's kind, `const`, `mut` or none, the type and the name of each, in order.


def header_parameters():
    for name, inside in re.findall(r"^\w+ (uldrevin_\w+)\(([^)]*)\);", header_text(), re.MULTILINE):
        found = re.findall(r"(const )?(?:struct )?(\w+) (\*?)(\w+)(?:,|$)", inside)
        yield name, [((const.strip() or "mut") if star else "", in_common(held), word) for const, held, star, word in found]


def rust_parameters():
    for name, inside in re.findall(r"fn (uldrevin_\w+)\(([^)]*)\)", (RUST / "exports.rs").read_text()):
        found = re.findall(r"(\w+): (?:\*(const|mut) )?(\w+)", inside)
        yield name, [(pointer, in_common(held), word) for word, pointer, held in found]


def python_types(function):
    """The types of a function's parameters; a pointer to a type has a star, and one to the numbers of a list is a star alone."""
    for held in function.argtypes:
        pointed = getattr(held, "_type_", None)
        if held is c_void_p:
            yield "*"
        else:
            yield f"*{in_common(pointed.__name__)}" if isinstance(pointed, type) else in_common(held.__name__)


def types_for_python(parameters):
    """The same of the header's parameters. A pointer to a list has the list's length behind it."""
    names = [word for _, _, word in parameters]
    for pointer, held, word in parameters:
        if f"{word}_length" in names:
            yield "*"
        else:
            yield f"*{held}" if pointer else held


def parameters():
    expected, rust = dict(header_parameters()), dict(rust_parameters())
    python = {name: list(python_types(function)) for name, function in declared_in_python().items()}
    differences = [] if expected else ["the header declares nothing"]
    for name, found in expected.items():
        if rust.get(name) != found:
            differences.append(f"Rust: {name} has {rust.get(name)}, and {found} in the header")
        if python.get(name) != list(types_for_python(found)):
            differences.append(f"Python: {name} has {python.get(name)}, and {list(types_for_python(found))} in the header")
    return differences


# Structs. Each has a name, and a type and a name for each field, in the words of its language.


def header_structs():
    for name, body in re.findall(r"^struct (\w+) \{([^}]*)\}", header_text(), re.MULTILINE):
        yield name, re.findall(r"(\w+) (\w+);", body)


def rust_structs():
    text = (RUST / "exports.rs").read_text()
    for name, body in re.findall(r"^#\[repr\(C\)\]\n(?:#.*\n)*pub struct (\w+) \{([^}]*)\}", text, re.MULTILINE):
        yield name, [(held, field) for field, held in re.findall(r"pub (\w+): (\w+),", body)]


def python_structs():
    for struct in (uldrevin._Site, uldrevin._Grid, uldrevin._Scan, uldrevin._Sweep):
        yield struct.__name__, [(held.__name__, field) for field, held in struct._fields_]


def fields_in_common(found):
    return {in_common(name): [f"{in_common(held)} {field}" for held, field in fields] for name, fields in found}


def structs():
    expected = fields_in_common(header_structs())
    differences = [] if set(expected) == set(STRUCTS) else [f"the header has the structs {sorted(expected)}"]
    for language, found in (("Rust", rust_structs()), ("Python", python_structs())):
        found = fields_in_common(found)
        for name in sorted({*expected, *found}):
            if found.get(name) != expected.get(name):
                differences.append(f"{language}: {name} has {found.get(name)}, and {expected.get(name)} in the header")
    return differences


# Sentences.


def header_sentences():
    return re.findall(r"^ \*\s+(\d+)  (\w.*)$", HEADER.read_text(), re.MULTILINE)


def rust_sentences():
    return re.findall(r'^\s+(\d+) => "(.*)",$', (RUST / "refusal.rs").read_text(), re.MULTILINE)


def python_sentences():
    return [(str(number), sentence) for number, sentence in uldrevin.SENTENCES.items()]


NUMBERS = [*range(1, 9), *range(11, 20), 31]  # the refusals of document 01, and of document 02 so far


def sentences():
    expected = header_sentences()
    differences = [] if [int(number) for number, _ in expected] == NUMBERS else [f"the header has {expected}"]
    for language, found in (("Rust", rust_sentences()), ("Python", python_sentences())):
        differences += [f"{language}: {entry}" for entry in sorted(set(found) ^ set(expected))]
    return differences
