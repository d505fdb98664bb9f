"""A made storm of 360 rays of 230 gates on a window of 131 x 131 HRAP cells, weighted by quality, with the ledger of one cell.

    python3 examples/storm.py [PICTURE]

It prints the ledger of the cell, and draws the cells' mean, quality and count into the picture, target/storm.png by default. Values are
rain in hundredths of a millimetre an hour, which is this storm's own choice of unit.
"""
import sys
from math import cos, radians, sin
from pathlib import Path
from typing import NamedTuple

ROOT = Path(__file__).resolve().parent.parent
sys.path.insert(0, str(ROOT / "bindings" / "python"))

import uldrevin  # noqa: E402
from uldrevin import NO_ECHO, NOT_MEASURED, Hrap, Site, flat  # noqa: E402

KILOMETRE = 100_000  # centimetres
DEGREE = 10_000

SITE = Site(latitude=353_300, longitude=-972_800)
RAYS, GATES = 360, 230
FIRST, SPACING = KILOMETRE // 2, KILOMETRE
SIDE_CELLS = 131  # columns and rows of the window

MINUTES = 45  # from the storm's start to the scan
FAINTEST = 10  # below this value there is no echo
HILL_RAYS, HILL_GATE = range(137, 149), 60  # a hill hides these rays wholly from this gate on, and in part the ray at each side
RIDGE_RAYS, RIDGE_GATE = range(290, 312), 35  # a ridge hides these rays in part from this gate on
CHOSEN_GATE = 135, 88  # ray and gate of the cell that is shown


class Shower(NamedTuple):
    """An oval of rain that moves. Lengths are kilometres, east and north of the radar, and speeds kilometres an hour."""

    east: float  # of the middle, at the start
    north: float
    speed_east: float
    speed_north: float
    length: float  # from the middle to the end
    width: float  # from the middle to the side
    direction: float  # of the length, degrees clockwise from north
    heaviest: float


SHOWERS = (
    Shower(-133, 2, 44, 14, 134, 70, 0, 300),
    Shower(-94, 70, 44, 14, 84, 20, 338, 3_000),
    Shower(-78, -48, 44, 14, 92, 19, 17, 3_900),
    Shower(-69, 0, 44, 14, 24, 15, 5, 3_200),
    Shower(46, -98, 36, 26, 22, 17, 20, 6_200),
    Shower(88, -46, 36, 26, 17, 13, 40, 4_300),
    Shower(62, 50, 36, 18, 74, 40, 112, 380),
    Shower(88, 62, 36, 18, 26, 15, 100, 1_300),
)


# The scan.


def rain(shower, east, north):
    """Heaviest in the middle, and less by the square of the distance from it, to nothing at the edge."""
    hours = MINUTES / 60
    east -= shower.east + hours * shower.speed_east
    north -= shower.north + hours * shower.speed_north
    turn = radians(shower.direction)
    along = (east * sin(turn) + north * cos(turn)) / shower.length
    across = (east * cos(turn) - north * sin(turn)) / shower.width
    return shower.heaviest * max(0, 1 - along * along - across * across)


def value_of(ray, gate):
    if ray in HILL_RAYS and gate >= HILL_GATE:
        return NOT_MEASURED
    turn, distance = radians(azimuth_of(ray) / DEGREE), (FIRST + gate * SPACING) / KILOMETRE
    value = int(sum(rain(shower, distance * sin(turn), distance * cos(turn)) for shower in SHOWERS))
    return value if value >= FAINTEST else NO_ECHO


def quality_of(ray, gate):
    """From 100 at the radar to 32 at the end of a ray, and two fifths of that where the ray is hidden in part."""
    quality = 100 - 3 * gate // 10
    return quality * 2 // 5 if hidden_in_part(ray, gate) else quality


def hidden_in_part(ray, gate):
    beside_hill = ray in (HILL_RAYS.start - 1, HILL_RAYS.stop) and gate >= HILL_GATE
    return beside_hill or (ray in RIDGE_RAYS and gate >= RIDGE_GATE)


def azimuth_of(ray):
    return ray * DEGREE + DEGREE // 2


def window():
    """The HRAP window that has the radar in its middle cell."""
    mesh = Hrap(i=0, j=0, columns=1_500, rows=1_500)
    row, column = divmod(uldrevin.place(SITE, mesh, azimuth=0, range=0).cell, mesh.columns)
    return Hrap(column - SIDE_CELLS // 2, row - SIDE_CELLS // 2, SIDE_CELLS, SIDE_CELLS)


def storm():
    gates = [(ray, gate) for ray in range(RAYS) for gate in range(GATES)]
    return uldrevin.Scan(
        SITE,
        window(),
        uldrevin.BY_QUALITY,
        FIRST,
        SPACING,
        azimuths=[azimuth_of(ray) for ray in range(RAYS)],
        values=[value_of(ray, gate) for ray, gate in gates],
        qualities=[quality_of(ray, gate) for ray, gate in gates],
    )


# The ledger of one cell.


def gate_line(scan, place):
    """Ray, gate, value, quality and value x quality."""
    value, quality = scan.values[place], scan.qualities[place]
    product = {NOT_MEASURED: "-", NO_ECHO: "0"}.get(value, f"{value * quality}")
    return f"{place // GATES:>3} {place % GATES:>4} {value:>6} {quality:>7} {product:>15}"


def ledger_lines(scan, remapped, cell):
    """The gates of the cell, and how its mean and quality come from them."""
    places = [place for place, entry in enumerate(flat(remapped.ledger)) if entry == cell]
    count, quality_sum, _, weighted_sum, mean, quality = (flat(cells)[cell] for cells in remapped[2:])
    return [
        f"Column {cell % SIDE_CELLS}, row {cell // SIDE_CELLS}: ledger entry {cell}",
        "",
        "ray gate  value quality value x quality",
        *(gate_line(scan, place) for place in places),
        "",
        f"count           {count:>23}",
        f"quality sum     {quality_sum:>23}",
        f"sum of products {weighted_sum:>23}",
        "",
        f"mean    = floor({weighted_sum} / {quality_sum}) = {mean}",
        f"quality = floor({quality_sum} / {count}) = {quality}",
        "",
        f"{NO_ECHO} is no echo and counts as 0;",
        f"{NOT_MEASURED} is not measured, and neither",
        "it nor its quality counts.",
    ]


# The picture.

RAIN = (0, 1, 50, 100, 250, 500, 1_000, 2_000, 4_000, 6_500)
QUALITIES = range(0, 101, 10)
COUNTS = (1, 2, 4, 6, 8, 12, 16, 32, 64, 256, 1_024)


def drawn(axes, name, unit, cells, bounds, colours, chosen):
    """One picture of the cells, row 0 at the bottom, with its colour bar below."""
    from matplotlib.colors import BoundaryNorm

    image = axes.imshow(cells, colours, BoundaryNorm(bounds, 256), origin="lower", aspect="equal", interpolation="nearest")
    axes.plot(chosen % SIDE_CELLS, chosen // SIDE_CELLS, "s", markersize=10, fillstyle="none", color="red")
    axes.set_title(f"{name.capitalize()}, {unit}")
    axes.set_xlabel("column")
    bar = axes.figure.colorbar(image, ax=axes, orientation="horizontal", fraction=0.05, pad=0.12, ticks=bounds, label=name)
    bar.ax.tick_params(labelsize=8)


def draw(path, remapped, chosen, lines):
    import matplotlib

    matplotlib.use("Agg")
    from matplotlib import pyplot
    from numpy.ma import masked_where

    places = {"left": 0.042, "right": 0.757, "bottom": 0.09, "top": 0.99, "wspace": 0.14}
    figure, (mean, quality, count) = pyplot.subplots(1, 3, figsize=(14.4, 4.8), dpi=100, gridspec_kw=places)
    means = masked_where(remapped.means == uldrevin.NO_MEAN, remapped.means)
    qualities, counts = (masked_where(remapped.counts == 0, cells) for cells in (remapped.cell_qualities, remapped.counts))
    drawn(mean, "mean", "hundredths of a millimetre an hour", means, RAIN, "YlGnBu", chosen)
    drawn(quality, "quality", "0 to 100", qualities, QUALITIES, "viridis", chosen)
    drawn(count, "count", "measured gates", counts, COUNTS, "magma_r", chosen)
    mean.set_ylabel("row")
    figure.text(0.77, 0.5, "\n".join(["In the middle of the red square:", *lines]), family="monospace", fontsize=9.5, va="center")
    path.parent.mkdir(parents=True, exist_ok=True)
    figure.savefig(path)


def main():
    path = Path(sys.argv[1]) if len(sys.argv) > 1 else ROOT / "target" / "storm.png"
    scan = storm()
    remapped = uldrevin.remap(*scan)
    ray, gate = CHOSEN_GATE
    chosen = flat(remapped.ledger)[ray * GATES + gate]
    lines = ledger_lines(scan, remapped, chosen)
    print("\n".join(lines))
    try:
        draw(path, remapped, chosen, lines)
    except ImportError:
        print("matplotlib is not here; install python3-matplotlib to draw the pictures")


if __name__ == "__main__":
    main()
