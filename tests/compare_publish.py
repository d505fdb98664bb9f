"""Publishing by the compiled library against the second program: both sheets from one tally, and cells from sums that no tally made."""
import random
from itertools import combinations, product

import compare_scan
import library
from compare_scan import described
from good_scans import SEED, groups
from lent_structs import WEIGHTINGS
from limit_sums import BY_HAND, WANTED, cells_at_limits, kinds_of
from publish_calls import cells_of, held_sums, publish_lines
from record_calls import number_of
from second_program import scan as rules
from second_program.scan import NO_MEAN, Cells, Sums
from second_program.sweep import WIDEST
from sweep_calls import beside_meant
from wrong_scans import resized

PLAIN = 0
ALL_WEIGHTINGS = (PLAIN, *WEIGHTINGS)


# Sums from tallies.


def by_document_01(scan, by_quality, measured):
    """Means and qualities of all cells by the measured gates of those that have any."""
    length = scan.grid.columns * scan.grid.rows
    sheet = Cells([rules.mean_of(by_quality, [])] * length, [rules.quality_of([])] * length)
    for cell, gates in measured.items():
        sheet.means[cell] = rules.mean_of(by_quality, gates)
        sheet.cell_qualities[cell] = rules.quality_of(gates)
    return sheet


def means_beyond(by_quality, measured, means):
    """Means that are not between the least and the greatest contributing value."""
    for cell, gates in measured.items():
        values, mean = rules.contributing_values(by_quality, gates), means[cell]
        if mean != NO_MEAN and not (values and min(values) <= mean <= max(values)):
            yield f"the mean of cell {cell} is {mean}, by quality {by_quality}, with contributing values {sorted(values)}"


def published_twice(compiled, scan):
    """Both sheets from one tally of the library: how many means differ between them, and where they are not document 01's."""
    lengths = rules.lent_lengths(scan)
    number, _, lists, lines = compare_scan.answer(compiled, scan, lengths)
    if number != 0:
        return 0, [*lines, f"refused with {number}"]
    expected, cells = rules.tally(scan, lengths).lists, cells_of(lists.sums)
    measured, sheets = rules.contributors(scan, expected.ledger), []
    for by_quality, weighting in ((False, PLAIN), (True, 1)):
        sheet = by_document_01(scan, by_quality, measured)
        lines += publish_lines(compiled, weighting, lists.sums, cells, sheet)
        lines += means_beyond(by_quality, measured, sheet.means)
        if rules.publish(by_quality, expected.sums, cells) != sheet:
            lines.append(f"the second program publishes otherwise, by quality {by_quality}")
        sheets.append(sheet)
    return sum(plain != weighted for plain, weighted in zip(*(sheet.means for sheet in sheets))), lines


def from_tallies(compiled):
    for name, chosen in groups():
        scans, differing, lines = 0, 0, []
        for number, scan in enumerate(chosen):
            means, found = published_twice(compiled, scan)
            scans += 1
            differing += means
            lines += [f"scan {number}, {described(scan)}: {line}" for line in found]
        if differing == 0:
            lines.append("no mean differs between the two sheets")
        title = f"both sheets from one tally, {scans} scans {name}, seed {SEED}"
        yield f"{title}: {differing} means differ between them", lines


# Sums that no tally made.


def beside_rules(compiled, weighting, sums):
    """The cells of any sums, in lists of their length."""
    held = held_sums(sums)
    lengths = cells_of(held)
    return publish_lines(compiled, weighting, held, lengths, rules.publish(weighting != PLAIN, sums, lengths))


def columns_of(cells):
    """Lists of sums from the sums of single cells."""
    return Sums(*map(list, zip(*cells)))


def at_limits(compiled):
    for by_quality, name in ((False, "plain"), (True, "by quality")):
        cells = list(cells_at_limits(by_quality))
        met = {kind for cell in cells for kind in kinds_of(by_quality, cell)}
        lines = [f"no cell has {kind}" for kind in sorted(map(str, WANTED - met))]
        for weighting in (PLAIN, 1):
            found = beside_rules(compiled, weighting, columns_of(cells))
            lines += [f"weighting {weighting}: {line}" for line in found]
        yield f"sums at both sides of each limit of a cell {name}, {len(cells)} cells in both weightings", lines


def by_hand(compiled):
    lines, sums = [], columns_of(sums for sums, *_ in BY_HAND)
    for weighting in ALL_WEIGHTINGS:
        by_quality, held = weighting != PLAIN, held_sums(sums)
        wanted = Cells(*map(list, zip(*(published[by_quality] for _, *published in BY_HAND))))
        found = publish_lines(compiled, weighting, held, cells_of(held), wanted)
        if rules.publish(by_quality, sums, cells_of(held)) != wanted:
            found.append("the second program publishes otherwise")
        lines += [f"weighting {weighting}: {line}" for line in found]
    yield f"sums by hand, {len(BY_HAND)} cells in {len(ALL_WEIGHTINGS)} weightings, of which all but 0 are by quality", lines


def any_number(draw, widest):
    """Of any width up to the widest."""
    return draw.choice((0, 1, widest, draw.randint(0, widest), draw.getrandbits(draw.randint(1, widest.bit_length()))))


MOST_DRAWN = 1_000  # longer lists repeat them


def any_sums(draw, lengths):
    """Lists of these lengths."""
    drawn = ([any_number(draw, widest) for _ in range(min(length, MOST_DRAWN))] for widest, length in zip(WIDEST, lengths))
    return Sums(*map(resized, drawn, lengths))


def at_random(compiled):
    draw, lines, cells = random.Random(SEED + 21), [], 0
    for _ in range(200):
        sums = any_sums(draw, [draw.randint(0, 200)] * len(WIDEST))
        for weighting in (PLAIN, draw.choice(WEIGHTINGS)):
            found = beside_rules(compiled, weighting, sums)
            lines += [f"weighting {weighting}: {line}" for line in found]
        cells += len(sums.counts)
    yield f"any sums, {cells} cells in both weightings, seed {SEED}", lines


# Lengths.

ALL_LISTS = (*Sums._fields, *Cells._fields)
MORE_CELLS = 1_500 * 1_500 + 1  # than any grid has


def wrong_lengths(length):
    """Lengths of the six lists that are not all equal, by name."""
    exact = dict.fromkeys(ALL_LISTS, length)
    for name, other in product(ALL_LISTS, {length - 1, length + 1, 0, 2 * length} - {length}):
        yield exact | {name: other}
    for names in (*combinations(ALL_LISTS, 2), Sums._fields, Cells._fields):
        for step in (-1, 1):
            yield exact | dict.fromkeys(names, length + step)


def of_lengths(compiled, draw, lengths, meant):
    """Publishes sums of these lengths in both weightings, where the answer has to be the one that is meant."""
    sums = any_sums(draw, [lengths[name] for name in Sums._fields])
    cells, lines = Cells(*(lengths[name] for name in Cells._fields)), []
    for weighting in (PLAIN, 1):
        expected = rules.publish(weighting != PLAIN, sums, cells)
        found = publish_lines(compiled, weighting, held_sums(sums), cells, expected)
        found = beside_meant(number_of(expected), found, meant)
        lines += [f"lengths {lengths}, weighting {weighting}: {line}" for line in found]
    return lines


def list_lengths(compiled):
    draw, lines = random.Random(SEED + 22), []
    wrong = [lengths for length in (1, 2, 8, 9, MOST_DRAWN) for lengths in wrong_lengths(length)]
    for lengths in wrong:
        lines += of_lengths(compiled, draw, lengths, 6)
    yield f"lists that are not all equally long, one wrong, two, and all sums or all cells, {len(wrong)} times 6", lines
    lines, accepted = [], (0, 1, 2, 3, 7, 8, MOST_DRAWN, MORE_CELLS)
    for length in accepted:
        lines += of_lengths(compiled, draw, dict.fromkeys(ALL_LISTS, length), 0)
    yield f"six lists of {', '.join(f'{length:,}' for length in accepted)} cells in both weightings", lines


def comparisons():
    compiled = library.load()
    yield from by_hand(compiled)
    yield from at_limits(compiled)
    yield from at_random(compiled)
    yield from list_lengths(compiled)
    yield from from_tallies(compiled)
