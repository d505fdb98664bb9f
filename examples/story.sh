# The story that `make run` shows: how a number of a sheet came about. Each command is printed behind a $ and then run.
# README.md has the same text; the test command compares the two.
set -eu
cd "$(dirname "$0")/.."

say() { printf '# %s\n' "$1"; }
show() { printf '$ %s\n' "$1"; eval "$1"; }

say 'The sheet of a shower: the grid, the gates, then column, row, mean, quality and count of each cell.'
show 'target/bin/sheet < examples/hrap.scan'
say 'Column 0, row 1 has the mean 434 and the count 5. The ledger has the gates that lie in it, with their positions:'
say 'ray gate azimuth range value quality x y column row mark'
show "target/bin/ledger < examples/hrap.scan | awk '\$9 == 0 && \$10 == 1'"
say '65534 is no echo and counts as 0, 65535 is not measured and does not count:'
say '(73 + 0 + 625 + 720 + 756) / 5 = 2174 / 5, which is 434 and 4 left over; a mean is never rounded upwards.'
say 'Ray 9 looks west and leaves the grid at x = (573 - 401) x 476250 = 81915000. Gates 5 to 9 lie less than one cell'
say 'beyond. Cut towards zero, their column would be 0, and their rain would count there; by floor it is -1, outside:'
show "target/bin/ledger < examples/hrap.scan | awk '\$1 == 9 && \$2 >= 3 && \$2 <= 9'"
say 'Gate 5 of that ray, placed again by itself:'
show 'target/bin/gate 353300 -972800 2700000 550000 hrap 573 320 6 5'
say 'The last field is the mark: 1 for a gate 0 to 49 centimetres east or north of an edge line of cells, or 1 to 50 west'
say 'or south of it. How many gates of this scan are marked:'
show "target/bin/ledger < examples/hrap.scan | awk 'NR > 1 && \$NF == 1' | wc -l"
say 'At 5.45 km the same ray would have one, 43 centimetres beyond the edge:'
show 'target/bin/gate 353300 -972800 2700000 545000 hrap 573 320 6 5'
say 'Another radar stands on a crossing of two lines. How many of its 80 gates are marked:'
show "target/bin/ledger < examples/crossing.scan | awk 'NR > 1 && \$NF == 1' | wc -l"
say 'Its ray 2 looks east, along the line y = -420928583, and bends away from it, by 53 centimetres at gate 8:'
show "target/bin/ledger < examples/crossing.scan | awk '\$1 == 2 && \$2 >= 6'"
say 'A gate without a mark lies in the very cell that exact fractions give, or outside in both; that is proved. So by exact'
say 'positions a cell has at least its unmarked measured gates, and at most those and the marked measured gates that lie in'
say 'it or in a cell beside it. No gate of the shower is marked: every count of its sheet is certain. Column 1, row 5 of the'
say 'other grid has 3 gates. Marked ones in it or beside it, 3 sides each way from x = -400000 and y = -420828583:'
show "target/bin/ledger < examples/crossing.scan | awk '\$NF == 1 && \$5 != 65535 && \$7 >= -400000 && \$7 < -100000 && \$8 >= -420828583 && \$8 < -420528583' | wc -l"
say 'None, so 3 is certain. Column 1, row 4 has no gate, and these in it or beside it:'
show "target/bin/ledger < examples/crossing.scan | awk '\$NF == 1 && \$5 != 65535 && \$7 >= -400000 && \$7 < -100000 && \$8 >= -420928583 && \$8 < -420628583'"
say 'Gates 2 and 3 of ray 6 leave its count open: by exact positions it is from 0 to 2.'
