"""Sweeps by the compiled library against the second program's: the answer, the state and every list after every operation."""
import random
from collections import Counter
from itertools import combinations, cycle, islice, product

import altered_sums
import good_sweeps
import library
import limit_sums
import marked_gates
import wrong_sweeps
from compare_scan import described
from good_scans import SEED, SHEET
from lent_lists import within_margins
from publish_calls import cells_of, publish_lines
from second_program.placement import Hrap, Radolan
from second_program.record import head_of
from second_program.scan import Cells
from second_program.sweep import WIDEST
from sweep_calls import CELLS, HELD, SUMS, Desk, Rays, beside_meant, exact_lengths, rays_of
from whole_sweeps import whole_sweep
from wrong_scans import apply
from wrong_sweeps import ORDER, STAGES


def told(numbers):
    """How many operations were done, and how many refused with each number."""
    refused = ", ".join(f"{count} with {number}" for number, count in sorted(numbers.items()) if number != 0)
    return f"{numbers[0]} done, refused {refused}"


def state_of(scan, taken, closed=0):
    return [*head_of(scan).values(), taken, closed]


# Whole sweeps.


def divisions(compiled):
    draw, differing = random.Random(SEED + 11), Counter()
    for words, chosen, between in (
        ("divided at random, refused operations between", good_sweeps.divided_scans(draw), draw),
        ("by single rays and all at once", good_sweeps.by_ones_and_at_once(draw), None),
        ("of the largest scan and on the largest grid", good_sweeps.largest(draw), None),
    ):
        numbers, lines, sweeps = Counter(), [], 0
        for scan, division in chosen:
            course = whole_sweep(compiled, scan, division, between)
            numbers += course.numbers
            lines += course.lines
            differing[scan.by_quality] += course.sheets_differ()
            sweeps += 1
        yield f"{sweeps} sweeps {words}: {told(numbers)}, seed {SEED}", lines
    plain, by_quality = (differing[weighting] for weighting in (False, True))
    lines = [] if plain and by_quality else ["in one of the weightings there is none"]
    yield f"sweeps among them whose two sheets differ, {plain} closed plain and {by_quality} by quality", lines


def at_limits_of_the_mark(compiled):
    """Each aimed gate has the mark that it is meant to have, and every mixture is met by measured gates and by others."""
    draw, chosen, numbers, lines = random.Random(SEED + 14), marked_gates.aimed_scans(), Counter(), []
    for aimed in chosen:
        course = whole_sweep(compiled, aimed.scan, good_sweeps.any_division(draw, aimed.scan.rays))
        found = aimed.other_marks(course.desk.numbers("marks"))
        numbers += course.numbers
        lines += course.lines + [f"{described(aimed.scan)}: {line}" for line in found]
    met, missing = marked_gates.met_in(chosen)
    title = f"{len(chosen)} sweeps at both sides of each limit of the mark, seed {marked_gates.SEED}"
    yield f"{title}: {met}, {told(numbers)}", lines + missing


# Refusals and altered states.


def case_lines(compiled, case):
    desk = Desk(compiled, case.lengths, case.state.values())
    for name in case.full:
        for place in range(len(desk.numbers(name))):
            desk.alter(name, place, getattr(WIDEST, name))
    found = beside_meant(*(desk.take(case.rays) if case.operation == "take" else desk.close()), case.meant)
    return [f"{case.words}: {line}" for line in found]


def cases_compared(compiled, cases):
    """The differences, how many cases have each number, and what was met: numbers in a stage, sets of numbers that applied."""
    lines, numbers, met = [], Counter(), set()
    for case in cases:
        lines += case_lines(compiled, case)
        numbers[case.meant] += 1
        met.add((case.operation, case.stage, case.meant))
        met.add((case.operation, case.kind, *sorted(case.applying)))
    return lines, numbers, met


def stages_not_met(met):
    """Each number has to be given in every stage in which something wrong by itself can bring it about."""
    for (operation, stage), numbers in wrong_sweeps.IN_STAGE.items():
        for number in numbers:
            if (operation, stage, number) not in met:
                yield f"{operation}, {stage.name}: no case is refused with {number}"


NEVER_BOTH = (17, 18)


def not_met(operations, met, size):
    """Every set of so many numbers has to be met for each operation and both kinds of grid."""
    for operation, kind in product(operations, (Radolan, Hrap)):
        for numbers in combinations(sorted(ORDER[operation]), size):
            if numbers != NEVER_BOTH and (operation, kind, *numbers) not in met:
                yield f"{operation} on a grid of {kind.__name__}: no case has exactly the wrong numbers {numbers}"


def refusals(compiled):
    lines, numbers, met = cases_compared(compiled, wrong_sweeps.alone())
    lines += [*stages_not_met(met), *not_met(wrong_sweeps.OPERATIONS, met, 1)]
    yield f"refusals of taking and closing, each alone in every stage: {told(numbers)}", lines
    lines, numbers, met = cases_compared(compiled, wrong_sweeps.in_pairs())
    lines += not_met(wrong_sweeps.OPERATIONS, met, 2)
    yield f"refusals of taking and closing in pairs in every stage: {told(numbers)}", lines
    for words, cases in (
        ("one number at its limits or far beyond them, or another head", wrong_sweeps.altered_states()),
        ("two numbers far beyond their limits, or one and a wrong list", wrong_sweeps.altered_pairs()),
        ("rays announced and rays taken", wrong_sweeps.rays_and_taken()),
    ):
        lines, numbers, _ = cases_compared(compiled, cases)
        yield f"altered states, {words}: {told(numbers)}", lines


def opening(compiled):
    """The state that is written over is of every stage in turn, or no state at all."""
    stages, met = cycle((*STAGES, None)), set()
    for words, chosen in wrong_sweeps.opening():
        lines, numbers = [], Counter()
        for good, changes in chosen:
            met.add(("open", type(good.grid), *sorted(change.number for change in changes)))
            scan, lengths = apply(good, changes)
            stage = next(stages)
            # Means and qualities are not lent.
            desk = Desk(compiled, (*lengths, 0, 0), stage and state_of(good, stage.taken, stage.closed))
            meant = min(change.number for change in changes)
            found = beside_meant(*desk.open(scan), meant)
            numbers[meant] += 1
            lines += [f"{described(scan)}, {stage}, changes {[tuple(change) for change in changes]}: {line}" for line in found]
        yield f"opening, {words}: {told(numbers)}", lines
    missing = [*not_met(["open"], met, 1), *not_met(["open"], met, 2)]
    yield "opening, every number alone and every pair of numbers among them", missing


# Altered sums.


def holding(compiled, scan, state, sums):
    """A desk whose sums hold these numbers."""
    desk = Desk(compiled, exact_lengths(scan), state)
    for name, numbers in zip(SUMS, sums):
        for place, number in enumerate(numbers):
            desk.alter(name, place, number)
    return desk


def any_sums(draw, shares):
    """Sums of any size in which the shares find room."""
    return [
        [draw.choice((0, widest - share, draw.randint(0, widest - share))) for share in of_list]
        for of_list, widest in zip(shares, WIDEST)
    ]


def group_lines(compiled, draw, group):
    """Each sum of each cell with a share at both sides of its width, all others with room; in the end the group is taken."""
    shares, rays, numbers, lines = group.shares(), group.rays(), Counter(), []
    desk = holding(compiled, group.scan, state_of(group.scan, group.start), any_sums(draw, shares))

    def note(words, number, found, meant):
        numbers[number] += 1
        prefix = f"{group.words}, {described(group.scan)}, rays {group.start} to {group.end}, {words}"
        lines.extend(f"{prefix}: {line}" for line in beside_meant(number, found, meant))

    cells = [cell for cell, count in enumerate(shares.counts) if count != 0] or [0, len(shares.counts) - 1]
    for name, of_list, widest in zip(SUMS, shares, WIDEST):
        for cell in sorted({*cells[:2], *cells[-1:]}):
            before = desk.numbers(name)[cell]
            for step in altered_sums.steps_of(of_list[cell], widest):
                desk.alter(name, cell, widest - of_list[cell] + step)
                if step > 0:
                    note(f"{name}[{cell}] too large by {step}", *desk.take(rays), 31)
                else:
                    fresh = holding(compiled, group.scan, state_of(group.scan, group.start), map(desk.numbers, SUMS))
                    note(f"{name}[{cell}] with room for {-step} more", *fresh.take(rays), 0)
            desk.alter(name, cell, before)
    note("with room in every cell", *desk.take(rays), 0)
    return numbers, lines


def widths(compiled):
    draw = random.Random(SEED + 12)
    for words, groups in (
        ("in the first or the last cell of a grid", altered_sums.groups_in_cells()),
        (f"over several cells and outside, seed {SEED}", islice(altered_sums.spread_groups(draw), 80)),
    ):
        groups, numbers, lines = list(groups), Counter(), []
        for group in groups:
            counted, found = group_lines(compiled, draw, group)
            numbers += counted
            lines += found
        yield f"sums at both sides of each width, {len(groups)} groups {words}: {told(numbers)}", lines


MOST_CELLS = 1_500  # closed at once


def closing_lines(compiled, scan, cells):
    """A closing over cells of these counts and sums."""
    grid = scan.grid._replace(columns=len(cells), rows=1)
    scan = scan._replace(grid=grid)
    desk = holding(compiled, scan, state_of(scan, scan.rays), zip(*cells))
    return desk, [f"{described(scan)}: {line}" for line in beside_meant(*desk.close(), 0)]


def closings(compiled):
    lines, count = [], 0
    for scan, by_quality in product(wrong_sweeps.SWEEPS, (False, True)):
        cells = list(limit_sums.cells_at_limits(by_quality))
        for start in range(0, len(cells), MOST_CELLS):
            _, found = closing_lines(compiled, scan._replace(by_quality=by_quality), cells[start : start + MOST_CELLS])
            lines += found
        count += len(cells)
    yield f"closing with altered sums, {count} cells at both sides of each limit", lines
    lines, by_hand = [], limit_sums.BY_HAND
    for scan, by_quality in product(wrong_sweeps.SWEEPS, (False, True)):
        desk, found = closing_lines(compiled, scan._replace(by_quality=by_quality), [sums for sums, *_ in by_hand])
        lines += found
        for (sums, *published), *got in zip(by_hand, *map(desk.numbers, CELLS)):
            if tuple(got) != published[by_quality]:
                lines.append(f"{sums}, by quality {by_quality}: {got} in the library and {published[by_quality]} by hand")
        lines += both_sheets_by_hand(compiled, desk)
    yield f"closing with altered sums, {len(by_hand)} cells by hand in both weightings on both grids, and both sheets", lines


def both_sheets_by_hand(compiled, desk):
    """Once a sweep is closed, each sheet is published from its sums, whatever the weighting that it was opened with."""
    lines = []
    for weighting in (0, 1):
        sheet = Cells(*map(list, zip(*(published[weighting] for _, *published in limit_sums.BY_HAND))))
        found = publish_lines(compiled, weighting, desk.sums(), cells_of(desk.sums()), sheet)
        lines += [f"published after closing, weighting {weighting}: {line}" for line in found]
    return lines


# Any operation at any time, with states kept from earlier and numbers altered.


def any_altered(draw, desk, kept):
    """Alters something that the caller holds."""
    kind = draw.randrange(4)
    if kind == 0:
        desk.state[:] = draw.choice(kept)
    elif kind == 1:
        place = draw.choice((0, 1, 2, 3, 4, 5, 7, 8, 12, 13, 13, 14))
        desk.alter_state(place, draw.choice((0, 1, 2, 3, within_margins(desk.state)[place] + draw.choice((-1, 1)))))
    else:
        name = draw.choice(SUMS)
        widest = getattr(WIDEST, name)
        number = draw.choice((0, widest, widest - draw.randrange(300), draw.randint(0, widest)))
        desk.alter(name, draw.randrange(len(desk.numbers(name))), number)


def any_operation(draw, desk, scan):
    operation = draw.randrange(12)
    if operation == 0:
        return desk.open(scan)
    if operation <= 3:
        return desk.close()
    start = draw.randrange(scan.rays)
    rays = rays_of(scan, start, draw.randint(start, min(scan.rays, start + 3)))
    if operation == 4 and rays.azimuths:
        _, rays = good_sweeps.bad_ray(draw, rays)
    return desk.take(rays)


def any_sequences(compiled):
    draw = random.Random(SEED + 13)
    numbers, lines = Counter(), []
    scans = [scan for scan in good_sweeps.mixed_scans(draw) if scan.grid.columns * scan.grid.rows <= 400]
    for number, scan in enumerate(islice(cycle(scans), 300)):
        desk, kept = Desk(compiled, exact_lengths(scan)), []
        for step in range(25):
            kept.append(desk.state[:])
            if step > 0 and draw.random() < 0.3:
                any_altered(draw, desk, kept[1:])
            answered_with, found = any_operation(draw, desk, scan) if step > 0 else desk.open(scan)
            numbers[answered_with] += 1
            lines += [f"sequence {number}, step {step}, {described(scan)}: {line}" for line in found]
    yield f"sequences of any operations, older states and altered numbers between: {told(numbers)}, seed {SEED}", lines


# The ray of document 01's sheet fed three times. All numbers that are expected are written here by hand.

SHEET_HEAD = [600_000, -1_050_000, 3, 2, 0, 100_000, 2, 400, 932, 476_250, 2, 1, 1]


def sheet_rays(rays):
    return Rays([0] * rays, [1, 7] * rays, [90, 10] * rays)


def sheet_steps(desk):
    """Each operation with its number, and the rays taken and whether the sweep is closed afterwards."""
    yield "opened", desk.open(SHEET._replace(rays=3)), 0, 0, 0
    yield "closed before the first ray", desk.close(), 18, 0, 0
    yield "one ray", desk.take(sheet_rays(1)), 0, 1, 0
    yield "no rays", desk.take(sheet_rays(0)), 6, 1, 0
    yield "three rays, too many", desk.take(sheet_rays(3)), 17, 1, 0
    yield "azimuth 3,600,000", desk.take(sheet_rays(1)._replace(azimuths=[3_600_000])), 7, 1, 0
    yield "quality 101", desk.take(sheet_rays(1)._replace(qualities=[90, 101])), 8, 1, 0
    yield "a ledger of the group alone", desk.take(sheet_rays(1), {"ledger": -4}), 6, 1, 0
    yield "marks of the group alone", desk.take(sheet_rays(1), {"marks": -4}), 6, 1, 0
    yield "closed early", desk.close(), 18, 1, 0
    yield "two rays", desk.take(sheet_rays(2)), 0, 3, 0
    yield "one ray, too many", desk.take(sheet_rays(1)), 17, 3, 0
    yield "closed with a short list", desk.close({"means": -1}), 6, 3, 0
    yield "closed", desk.close(), 0, 3, 1
    yield "one ray after closing", desk.take(sheet_rays(1)), 19, 3, 1
    yield "closed again", desk.close(), 19, 3, 1


def by_hand(compiled):
    desk = Desk(compiled, (6, 6, 2, 2, 2, 2, 2, 2))
    lent = {name: desk.numbers(name) for name in HELD}
    lines, steps = [], 0
    for words, (number, found), meant, taken, closed in sheet_steps(desk):
        lists = (
            [1] * (2 * taken) + lent["ledger"][2 * taken :],
            [1] * (2 * taken) + lent["marks"][2 * taken :],  # X is 0, on a line
            [0, 2 * taken],
            [0, 100 * taken],
            [0, 8 * taken],
            [0, 160 * taken],
            [65_535, 1] if closed else lent["means"],
            [0, 50] if closed else lent["cell_qualities"],
        )
        found = beside_meant(number, found, meant)
        if within_margins(desk.state) != [*SHEET_HEAD, taken, closed]:
            found.append(f"the state is {within_margins(desk.state)}")
        for name, numbers in zip(HELD, lists):
            if desk.numbers(name) != numbers:
                found.append(f"{name} is {desk.numbers(name)} and {numbers} by hand")
        lines += [f"{words}: {line}" for line in found]
        steps += 1
    yield f"the ray of document 01's sheet fed three times, {steps} operations by hand", lines


def comparisons():
    compiled = library.load()
    yield from by_hand(compiled)
    yield from divisions(compiled)
    yield from at_limits_of_the_mark(compiled)
    yield from opening(compiled)
    yield from refusals(compiled)
    yield from widths(compiled)
    yield from closings(compiled)
    yield from any_sequences(compiled)
