"""Whole sweeps, in which the caller hands on the latest state and untouched lists, beside the tally of the same rays as a whole scan."""
from collections import Counter

import good_sweeps
from compare_scan import answer, described
from lent_lists import filled_with, within_margins
from publish_calls import cells_of, publish_lines
from record_calls import answered
from second_program import scan as scan_rules
from sweep_calls import CELLS, ENTRIES_AND_SUMS, Desk, beside_meant, exact_lengths, rays_of


class Course:
    """A sweep over a scan, from its opening on, and what has been found of it."""

    def __init__(self, compiled, scan):
        self.compiled, self.scan = compiled, scan
        self.desk = Desk(compiled, exact_lengths(scan))
        self.lent = {name: held[:] for name, held in self.desk.lists.items()}
        self.whole = scan_rules.tally(scan, scan_rules.lent_lengths(scan)).lists
        lengths = cells_of(self.desk.sums())
        self.sheets = [scan_rules.publish(by_quality, self.whole.sums, lengths) for by_quality in (False, True)]
        self.numbers, self.lines = Counter(), []

    def note(self, words, number, found, meant):
        self.numbers[number] += 1
        self.lines += [f"{described(self.scan)}: {words}: {line}" for line in beside_meant(number, found, meant)]

    def open(self):
        self.note("opened", *self.desk.open(self.scan), 0)
        self.beside_rays(0)

    def take(self, start, end):
        self.note(f"rays {start} to {end}", *self.desk.take(rays_of(self.scan, start, end)), 0)
        self.beside_rays(end)

    def refuse(self, wrong):
        number, found = getattr(self.desk, wrong.operation)(*wrong.given, wrong.steps)
        self.note(f"{wrong.operation} to be refused, {wrong.steps}", number, found, wrong.number)

    def close(self):
        self.note("closed", *self.desk.close(), 0)
        self.beside("closed", self.whole._asdict() | self.sheets[self.scan.by_quality]._asdict())
        self.beside_whole_scan()

    def beside_rays(self, taken):
        """Ledger, marks and sums are those of the rays so far; what is for rays not yet taken, and the cells, are as lent."""
        entries, marks = (held[: taken * self.scan.gates] for held in (self.whole.ledger, self.whole.marks))
        sums = scan_rules.sums_of(self.scan._replace(**rays_of(self.scan, 0, taken)._asdict()), entries)
        self.beside(f"after {taken} rays", dict(zip(ENTRIES_AND_SUMS, (entries, marks, *sums))) | dict.fromkeys(CELLS, ()))

    def beside(self, words, expected):
        """Each list holds these numbers from its start, and behind them what it held when it was lent."""
        for name, numbers in expected.items():
            if self.desk.lists[name] != filled_with(self.lent[name], numbers):
                self.lines.append(f"{described(self.scan)}: {words}: {name} is not that of these rays, and else as lent")

    def beside_whole_scan(self):
        """Ledger, marks and sums are those of the library's own tally, and so are both sheets that are published from the sums."""
        number, _, lists, _ = answer(self.compiled, self.scan, scan_rules.lent_lengths(self.scan))
        found = answered(number, 0)
        for name, held in lists._asdict().items():
            if within_margins(held) != self.desk.numbers(name):
                found.append(f"{name} is not that of the library's tally")
        for weighting, sheet in enumerate(self.sheets):
            for words, sums in (("the sweep", self.desk.sums()), ("the tally", lists.sums)):
                lines = publish_lines(self.compiled, weighting, sums, cells_of(sums), sheet)
                found += [f"published from {words} with weighting {weighting}: {line}" for line in lines]
        self.lines += [f"{described(self.scan)}: {line}" for line in found]

    def sheets_differ(self):
        plain, by_quality = self.sheets
        return plain != by_quality


def whole_sweep(compiled, scan, division, draw=None):
    """A sweep of these groups. With a draw, operations to be refused are between them."""
    course, start = Course(compiled, scan), 0
    course.open()
    for end in division:
        for wrong in good_sweeps.wrong_operations(draw, scan, start, end) if draw else ():
            course.refuse(wrong)
        course.take(start, end)
        start = end
    for wrong in good_sweeps.wrong_at_the_end(draw, scan) if draw else ():
        course.refuse(wrong)
    course.close()
    for wrong in good_sweeps.wrong_after_closing(scan):
        course.refuse(wrong)
    return course
