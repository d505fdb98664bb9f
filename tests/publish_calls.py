"""The library's call that publishes cells from sums, against expected answers and cells, as lists of differences."""
from lent_lists import MARGIN, changed_lines, earlier, filled_with, lending_all, with_margins
from record_calls import answered, number_of, refused
from second_program.scan import Cells, Sums

SHOWN = 3  # places printed of one list

# By array's letters.
SUMMED = Sums("I", "I", "Q", "Q")
PUBLISHED = Cells("H", "B")


def held_sums(sums):
    """The sums as they are lent, with margins."""
    return Sums(*map(with_margins, SUMMED, sums))


def cells_of(held):
    """How long the two lists are for sums that are held with margins."""
    length = len(held.counts) - 2 * MARGIN
    return Cells(length, length)


def sums_told(held, place):
    """The sums of the cell at a place of a list with margins. A place in the margins has none, nor have some where the lengths are wrong."""
    if not MARGIN <= place < min(map(len, held)) - MARGIN:
        return "no cell"
    return ", ".join(f"{name} {numbers[place]}" for name, numbers in held._asdict().items())


def cell_lines(name, held, got, wanted, says):
    """Where a list with margins is not as wanted."""
    if got == wanted:
        return []
    places = [place for place, (one, other) in enumerate(zip(got, wanted)) if one != other]
    lines = [
        f"{name}[{place - MARGIN}] ({sums_told(held, place)}) is {got[place]} in the library and {wanted[place]} {says}"
        for place in places[:SHOWN]
    ]
    return lines if len(places) <= SHOWN else [*lines, f"{name} differs in {len(places)} places"]


def publish_lines(compiled, weighting, held, lengths, expected):
    """Publishes sums that are held with margins into lists of these lengths. Expected are the cells, or a refusal number, after which
    the lists are the earlier ones; the sums always stay.
    """
    lists = Cells(*map(earlier, PUBLISHED, lengths))
    before, sums_before = [one[:] for one in lists], [bytes(one) for one in held]
    number = compiled.uldrevin_publish(weighting, *lending_all([*held, *lists]))
    lines = answered(number, number_of(expected))
    says = "by the rule" if not refused(expected) else "before the call, which has to be refused"
    for place, (name, old, got) in enumerate(zip(Cells._fields, before, lists)):
        wanted = old if refused(expected) else filled_with(old, expected[place])
        lines += cell_lines(name, held, got, wanted, says)
    return lines + changed_lines(Sums._fields, held, sums_before)
