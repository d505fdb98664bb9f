"""The library's calls for a sweep, each against the second program's answer, as lists of differences."""
from array import array
from ctypes import c_int64, sizeof
from typing import NamedTuple, Sequence

from compare_scan import WRITTEN
from lent_lists import GIVEN, MARGIN, changed_lines, earlier, given_lists, lending, lending_all, with_margins, within_margins
from lent_structs import scan_struct, sweep_within
from library import Sweep
from publish_calls import PUBLISHED
from record_calls import answered, list_lines, number_of, refused
from second_program import scan as scan_rules, sweep as rules
from second_program.scan import Cells, Lent, Sums

STATE = sizeof(Sweep) // sizeof(c_int64)  # numbers
SUMS = Sums._fields
ENTRIES_AND_SUMS = Lent._fields
CELLS = Cells._fields
HELD = (*ENTRIES_AND_SUMS, *CELLS)
EXACT = {}  # no step from any length


def exact_lengths(scan):
    """Of all lists that the caller of a sweep holds."""
    lengths = scan_rules.lent_lengths(scan)
    return (*lengths, lengths.counts, lengths.counts)


class Rays(NamedTuple):
    azimuths: Sequence[int]
    values: Sequence[int]
    qualities: Sequence[int]


def rays_of(scan, start, end):
    gates = slice(start * scan.gates, end * scan.gates)
    return Rays(scan.azimuths[start:end], scan.values[gates], scan.qualities[gates])


class Desk:
    """What the caller of a sweep holds, each with margins: the state, and the lists that are lent to be written.

    Each call answers with the second program's number and the differences. A step makes the length of a list wrong.
    """

    def __init__(self, compiled, lengths, state=None):
        """Lists of these lengths, cells last. They hold what was there earlier, and so does the state, unless its numbers are given."""
        self.compiled = compiled
        self.state = earlier("q", STATE) if state is None else with_margins("q", state)
        letters = (*WRITTEN, *PUBLISHED)
        self.lists = {name: earlier(letter, length) for name, letter, length in zip(HELD, letters, lengths)}

    def numbers(self, name, step=0):
        """What a list holds without its margins."""
        held = self.lists[name]
        return held[MARGIN : len(held) - MARGIN + step].tolist()

    def alter(self, name, place, number):
        self.lists[name][MARGIN + place] = number

    def alter_state(self, place, number):
        self.state[MARGIN + place] = number

    def sums(self):
        """The lists of sums as they are held, with margins."""
        return Sums(*(self.lists[name] for name in SUMS))

    def sweep(self):
        return rules.sweep_of(within_margins(self.state))

    def open(self, scan, steps=EXACT):
        head = scan_struct(scan)
        lengths = [len(sums) for sums in self.seen(SUMS, steps)]
        expected = rules.open_sweep(rules.scan_of(array("q", bytes(head))), lengths)
        arguments = head, *self.lent(SUMS, steps), sweep_within(self.state)
        return self.compared("open", arguments, expected, SUMS, {"scan": head})

    def take(self, rays, steps=EXACT):
        ledger, marks, *sums = self.seen(ENTRIES_AND_SUMS, steps)
        expected = rules.take(self.sweep(), rays, ledger, marks, Sums(*sums))
        given = dict(zip(GIVEN, given_lists(rays)))
        arguments = sweep_within(self.state), *lending_all(given.values()), *self.lent(ENTRIES_AND_SUMS, steps)
        return self.compared("take", arguments, expected, ENTRIES_AND_SUMS, given)

    def close(self, steps=EXACT):
        lengths = [len(cells) for cells in self.seen(CELLS, steps)]
        expected = rules.close(self.sweep(), Sums(*self.seen(SUMS, steps)), lengths)
        arguments = sweep_within(self.state), *self.lent((*SUMS, *CELLS), steps)
        return self.compared("close", arguments, expected, CELLS, {name: self.lists[name] for name in SUMS})

    def seen(self, names, steps):
        """The lists as a call sees them."""
        return [self.numbers(name, steps.get(name, 0)) for name in names]

    def lent(self, names, steps):
        return [part for name in names for part in lending(self.lists[name], steps.get(name, 0))]

    def compared(self, operation, arguments, expected, written, read):
        """Makes the call. After a refusal state and lists have to be as before, what is only read always."""
        before = {name: self.lists[name][:] for name in written}
        state_before, read_before = self.state[:], [bytes(held) for held in read.values()]
        number = getattr(self.compiled, f"uldrevin_sweep_{operation}")(*arguments)
        state, *wanted = [None] * (1 + len(written)) if refused(expected) else flat(*expected)
        lines = answered(number, number_of(expected)) + list_lines("state", state_before, self.state, state)
        for name, numbers in zip(written, wanted):
            lines += list_lines(name, before[name], self.lists[name], numbers)
        return number_of(expected), lines + changed_lines(read, read.values(), read_before)


def flat(sweep, *lists):
    """The state's numbers and each list that is written."""
    yield rules.numbers_of(sweep)
    for one in lists:
        yield from one if isinstance(one, Sums) else [one]


def beside_meant(number, found, meant):
    """What was found, and where the second program's number is not the one that was meant."""
    return found if number == meant else [*found, f"answered with {number} by the rule, meant to be answered with {meant}"]
