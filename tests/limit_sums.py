"""Sums that no tally made, at both sides of each limit of a published cell."""
from second_program.scan import GREATEST_MEAN, Sums
from second_program.sweep import WIDEST

COUNTS = (0, 1, 2, 3, 100, 65_535, 65_536, 2**31, 2**32 - 1)


def quality_sums_for(count):
    """Cell qualities of 0, of 99 to 101, and of 255 and over, whose low bytes are small."""
    for quality in (0, 1, 99, 100, 101, 102, 127, 128, 255, 256, 257, 300, 65_536 + 50):
        yield from (quality * count + step for step in (-1, 0, 1))
    yield from (0, 1, 101, 2**16, 2**31, 2**32 - 2, 2**32 - 1)


def value_sums_for(divisor):
    """Means of 65,532 to 65,536, and of 65,536 and over, whose low bytes are small."""
    for mean in (0, 1, 65_532, 65_533, 65_534, 65_535, 65_536, 65_536 + 7, 2**17, 2**32 + 5, 2**48 + 65_533):
        yield from (mean * divisor + step for step in (-1, 0, 1))
    yield from (0, 1, 65_533, 65_534, 65_535, 2**32, 2**63 - 1, 2**63, 2**64 - 2, 2**64 - 1)


def fitting(numbers, widest):
    return sorted({number for number in numbers if 0 <= number <= widest})


def opposite(total, divisor):
    """A sum with another mean by the same divisor, so that one sum taken for the other shows."""
    return 0 if divisor != 0 and total // divisor > GREATEST_MEAN else WIDEST.value_sums


def cells_at_limits(by_quality):
    """The sums of single cells. The sum that is not asked for has another mean."""
    for count in COUNTS:
        for quality_sum in fitting(quality_sums_for(count), WIDEST.quality_sums):
            divisor = quality_sum if by_quality else count
            for total in fitting(value_sums_for(divisor), WIDEST.value_sums):
                other = opposite(total, divisor)
                yield Sums(count, quality_sum, *((other, total) if by_quality else (total, other)))


# Whether the count, the quality sum and the sum that is asked for are 0.
NOTHING_IN = {
    (True, False, False): "count 0 with sums",
    (False, True, False): "quality sum 0 with sums",
    (True, True, False): "both 0 with sums",
    (True, True, True): "both 0 and no sums",
}
GREATEST_BY = {1: "the greatest sum by 1", WIDEST.counts: "the greatest sum by the greatest divisor"}

# What the cells have to be like in each weighting.
WANTED = {
    *(("mean", mean) for mean in range(65_532, 65_537)),
    *(("left over", left) for left in ("nothing", "one", "all but one")),
    *(("quality", quality) for quality in (99, 100, 101, 255, 256)),
    *NOTHING_IN.values(),
    *GREATEST_BY.values(),
}


def kinds_of(by_quality, cell):
    """What a cell is like, by the sum and the divisor that are asked for."""
    total, divisor = (cell.weighted_sums, cell.quality_sums) if by_quality else (cell.value_sums, cell.counts)
    if divisor != 0:
        mean, left = divmod(total, divisor)
        yield "mean", mean
        yield "left over", {0: "nothing", 1: "one", divisor - 1: "all but one"}.get(left)
    if cell.counts != 0:
        yield "quality", cell.quality_sums // cell.counts
    yield NOTHING_IN.get((cell.counts == 0, cell.quality_sums == 0, total == 0))
    if total == WIDEST.value_sums:
        yield GREATEST_BY.get(divisor)


# Count, quality sum, value sum and weighted sum; mean and quality, plain and by quality. Worked out by hand.
NO_MEAN = 65_535
BY_HAND = (
    ((0, 0, 0, 0), (NO_MEAN, 0), (NO_MEAN, 0)),
    ((2, 100, 8, 160), (4, 50), (1, 50)),
    ((1, 1, 65_532, 7), (65_532, 1), (7, 1)),
    ((1, 1, 65_533, 0), (65_533, 1), (0, 1)),
    ((1, 1, 0, 65_533), (0, 1), (65_533, 1)),
    ((1, 1, 65_534, 7), (NO_MEAN, 1), (7, 1)),
    ((1, 1, 7, 65_534), (7, 1), (NO_MEAN, 1)),
    ((1, 1, 65_535, 65_536), (NO_MEAN, 1), (NO_MEAN, 1)),
    ((1, 1, 65_536, 65_535), (NO_MEAN, 1), (NO_MEAN, 1)),
    ((1, 1, 65_543, 65_543), (NO_MEAN, 1), (NO_MEAN, 1)),
    ((10, 20, 655_339, 1_310_679), (65_533, 2), (65_533, 2)),
    ((10, 20, 655_340, 1_310_680), (NO_MEAN, 2), (NO_MEAN, 2)),
    ((7, 11, 6, 10), (0, 1), (0, 1)),
    ((7, 11, 7, 11), (1, 1), (1, 1)),
    ((7, 11, 8, 12), (1, 1), (1, 1)),
    ((7, 11, 13, 21), (1, 1), (1, 1)),
    ((7, 11, 14, 22), (2, 1), (2, 1)),
    ((1, 99, 5, 500), (5, 99), (5, 99)),
    ((1, 100, 5, 500), (5, 100), (5, 100)),
    ((1, 101, 5, 500), (5, 100), (4, 100)),
    ((1, 255, 5, 510), (5, 100), (2, 100)),
    ((1, 256, 5, 512), (5, 100), (2, 100)),
    ((1, 300, 5, 300), (5, 100), (1, 100)),
    ((10, 999, 50, 5_994), (5, 99), (6, 99)),
    ((10, 1_009, 50, 5), (5, 100), (0, 100)),
    ((10, 1_010, 50_500, 50_500), (5_050, 100), (50, 100)),
    ((0, 7, 70, 140), (NO_MEAN, 0), (20, 0)),
    ((0, 0, 70, 140), (NO_MEAN, 0), (NO_MEAN, 0)),
    ((3, 0, 70, 140), (23, 0), (NO_MEAN, 0)),
    ((1, 1, 2**64 - 1, 2**64 - 1), (NO_MEAN, 1), (NO_MEAN, 1)),
    ((0, 2**32 - 1, 2**64 - 1, 2**64 - 1), (NO_MEAN, 0), (NO_MEAN, 0)),
    ((2**32 - 1, 2**32 - 1, 2**64 - 1, 2**64 - 1), (NO_MEAN, 1), (NO_MEAN, 1)),
    ((2**32 - 1, 0, 65_533, 65_533), (0, 0), (NO_MEAN, 0)),
    ((1, 2**32 - 1, 65_533, 65_533), (65_533, 100), (0, 100)),
    ((2**32 - 1, 1, 281_466_386_710_529, 1), (65_533, 0), (1, 0)),
    ((2**32 - 1, 1, 281_466_386_710_530, 65_534), (NO_MEAN, 0), (NO_MEAN, 0)),
    ((1, 2**32 - 1, 1, 281_466_386_710_529), (1, 100), (65_533, 100)),
    ((1, 2**32 - 1, 65_534, 281_466_386_710_530), (NO_MEAN, 100), (NO_MEAN, 100)),
)
