/*
 * Uldrevin: radar gates to cells of the American HRAP mesh or the German RADOLAN raster, in whole numbers.
 *
 * Link with target/staticlib/libuldrevin.a or target/libuldrevin.so, which `make library` builds for x86-64 Linux. Each function here is
 * proved to follow the rules ("document 01", and "document 02" for a sweep, the mark and publishing apart from the tally) for every number
 * that its parameters, structs and lists can hold, where the pointers are as said under "Pointers"; docs/STATEMENTS.md lists what is
 * proved. A wider number that is passed for a narrower one, such as one of 64 bits for the number of a field, is cut by C before the call,
 * and the answer is that of what is left.
 *
 * Units. Angles are ten-thousandths of a degree, lengths are centimetres. Azimuths are clockwise from north, longitudes east positive.
 *
 * Answers. Every function but the sine and the cosine answers 0 when it is done, or a refusal number. No number need be checked first:
 * every number in a struct has an answer, and so have the azimuth and the range of a single gate. One that is out of bounds is refused by
 * its own rule, whatever its size and sign. After a refusal everything that was lent for output holds what it held before. The lowest
 * number that applies is given, but for records, which are checked from the front, and for a sweep, whose three functions each name their
 * own order:
 *
 *    1  the number of rays is not 1 to 720
 *    2  the number of gates in a ray is not 1 to 1,000
 *    3  the first centre, the spacing, the last centre or the range is out of bounds
 *    4  the latitude is not 200,000 to 750,000 or the longitude is not -1,800,000 to 1,800,000
 *    5  a number of the grid is out of bounds
 *    6  the length of a list is not exact
 *    7  an azimuth is not 0 to 3,599,999
 *    8  a quality is over 100
 *   11  the record is cut short
 *   12  a tag of the record is not the next one
 *   13  a length, the kind or the weighting byte of the record is wrong
 *   14  bytes stand after field 7 of the record
 *   15  the scan has over 32,767 gates, too many for a record
 *   16  the buffer is shorter than the record
 *   17  more rays than were announced
 *   18  rays are missing
 *   19  the sweep is closed
 *   31  a count or sum of a cell would pass its width
 *
 * Pointers. They are not checked. A struct or a single number is lent as a pointer to it, a list as a pointer to its first number and its
 * length in numbers. Each pointer, those to cell, x, y, mark, a head that is read, a sweep, start and length too, is aligned for its type
 * and never null, not even with the length 0, and points to one struct or number, or to as many numbers as the length says. What is lent
 * for output overlaps nothing else that is lent to the same call; a sweep is lent for output to each of its functions. Nothing is kept
 * after the call, and nothing is allocated; calls from several threads do not disturb each other, where none of them is lent for output
 * what another is lent.
 */
#ifndef ULDREVIN_H
#define ULDREVIN_H

#include <stddef.h>
#include <stdint.h>

#ifdef __cplusplus
extern "C" {
#endif

/* The ledger entry, and the cell, of a gate outside the grid. */
#define ULDREVIN_OUTSIDE UINT32_C(4294967295)
/* The value of a gate that was measured with no echo: it counts as 0. Other values of measured gates are 0 to 65,533. */
#define ULDREVIN_NO_ECHO UINT16_C(65534)
/* The value of a gate that was not measured: it contributes nothing. */
#define ULDREVIN_NOT_MEASURED UINT16_C(65535)
/* The mean of a cell whose divisor is 0, or whose sums give more than 65,533, as those of a tally never do. */
#define ULDREVIN_NO_MEAN UINT16_C(65535)

/* The sine and the cosine of any angle, times 2^30. */
int64_t uldrevin_sine(int64_t angle);
int64_t uldrevin_cosine(int64_t angle);

/* The radar's site. A number out of bounds is refused by 4. */
struct uldrevin_site {
    int64_t latitude;  /* 200,000 to 750,000 */
    int64_t longitude; /* -1,800,000 to 1,800,000 */
};

/* The kinds of grid. */
#define ULDREVIN_KIND_RADOLAN 1
#define ULDREVIN_KIND_HRAP 2

/*
 * A grid. A number out of bounds and a kind other than these two are refused by 5. A cell's number is row x columns + column. Rows count
 * northward and columns eastward, both from 0. A gate on a west or south edge belongs to the cell east or north of it.
 */
struct uldrevin_grid {
    int64_t kind;    /* ULDREVIN_KIND_RADOLAN or ULDREVIN_KIND_HRAP */
    int64_t x;       /* RADOLAN: the south-west corner's x, -2,000,000,000 to 2,000,000,000; HRAP: the first column I, -10,000 to 10,000 */
    int64_t y;       /* RADOLAN: the corner's y; HRAP: the first row J; with the limits of x */
    int64_t side;    /* RADOLAN: of a cell, 10,000 to 10,000,000; HRAP: plays no part in a call, and is 476,250 where it is written */
    int64_t columns; /* 1 to 1,500 */
    int64_t rows;    /* 1 to 1,500 */
};

/* A scan without its lists. Gate g of a ray, from 0, has its centre at first + g x spacing. */
struct uldrevin_scan {
    struct uldrevin_site site;
    int64_t rays;    /* 1 to 720, else refused by 1 */
    int64_t gates;   /* those of a ray, 1 to 1,000, else refused by 2 */
    int64_t first;   /* 0 to 46,000,000, which the last centre does not exceed either, else refused by 3 */
    int64_t spacing; /* 1 to 1,000,000, else refused by 3 */
    struct uldrevin_grid grid;
    int64_t weighting; /* 0 plain, any other number by quality, for a record and for closing a sweep; 0 or 1 where it is written */
};

/*
 * Places one gate. azimuth: 0 to 3,599,999, else refused by 7. range: 0 to 46,000,000, taken along the sphere, else refused by 3.
 * cell: the gate's cell, ULDREVIN_OUTSIDE outside the grid. x, y: its position, inside or outside. mark: 1 or 0, inside or outside.
 * Refusals: 3, 4, 5, 7.
 *
 * The mark is 1 where the remainder of x less the x of the grid's south-west corner, by the side and never negative, is under 50 or at
 * least the side less 50, or the same for y: the position is 0 to 49 centimetres east or north of a cell's edge line, or 1 to 50 west or
 * south of it. The lines are taken as prolonged beyond the grid. Where the mark is 0, the cell is the very one that the same formulas give
 * in exact fractions, or both are outside.
 */
uint32_t uldrevin_place(const struct uldrevin_site *site, const struct uldrevin_grid *grid, int64_t azimuth, int64_t range,
                        uint32_t *cell, int64_t *x, int64_t *y, uint8_t *mark);

/*
 * Tallies a whole scan. scan.weighting plays no part in it, and the sums serve both weightings of uldrevin_publish. In come, ray by ray:
 *   azimuths        one a ray, in any order; equal ones may occur
 *   values          one a gate, rays x gates
 *   qualities       one a gate, rays x gates, each 0 to 100
 * Out go; what these lists held before plays no part:
 *   ledger          one a gate, rays x gates: its cell, or ULDREVIN_OUTSIDE; measured or not
 *   marks           one a gate, rays x gates bytes: its mark, 1 or 0, as uldrevin_place gives it; measured or not
 *   counts          one a cell, columns x rows: the measured gates in it
 *   quality_sums    one a cell: the sum of their qualities
 *   value_sums      one a cell: the sum of their values
 *   weighted_sums   one a cell: the sum of their values, each times its quality
 * Refusals: 1 to 8.
 */
uint32_t uldrevin_tally(const struct uldrevin_scan *scan,
                        const uint32_t *azimuths, size_t azimuths_length,
                        const uint16_t *values, size_t values_length,
                        const uint8_t *qualities, size_t qualities_length,
                        uint32_t *ledger, size_t ledger_length,
                        uint8_t *marks, size_t marks_length,
                        uint32_t *counts, size_t counts_length,
                        uint32_t *quality_sums, size_t quality_sums_length,
                        uint64_t *value_sums, size_t value_sums_length,
                        uint64_t *weighted_sums, size_t weighted_sums_length);

/*
 * Publishes cells from sums. weighting: 0 plain, any other number by quality. In come counts, quality_sums, value_sums and weighted_sums,
 * one a cell, of any number of cells, 0 too. Any sums are accepted, those of a tally or a sweep and all others. Out go; what these lists
 * held before plays no part:
 *   means           one a cell: plain, the value sum by the count; by quality, the weighted sum by the quality sum; never rounded upwards;
 *                   ULDREVIN_NO_MEAN for divisor 0, and where the sums give more than 65,533
 *   cell_qualities  one a cell, in either weighting: the quality sum by the count, never rounded upwards; 0 for count 0, and 100 where the
 *                   sums give more than 100
 * Refusals: 6, unless the six lists are all equally long.
 */
uint32_t uldrevin_publish(int64_t weighting,
                          const uint32_t *counts, size_t counts_length,
                          const uint32_t *quality_sums, size_t quality_sums_length,
                          const uint64_t *value_sums, size_t value_sums_length,
                          const uint64_t *weighted_sums, size_t weighted_sums_length,
                          uint16_t *means, size_t means_length,
                          uint8_t *cell_qualities, size_t cell_qualities_length);

/*
 * A sweep: a scan that is fed ray by ray while the antenna turns. It is opened with the numbers of the scan, takes one ray or several at a
 * time, and is closed. Its lists are as long as those of the whole scan from the start. While a caller hands on the latest sweep and
 * untouched lists, the ledger and the marks of the rays taken, and the sums, are those that uldrevin_tally gives for the whole scan of
 * these rays, however they were divided, and after closing the cells are those that uldrevin_publish gives from these sums in the weighting
 * of the scan. From the same sums uldrevin_publish gives the cells in either weighting, at any time. A group of rays with one bad ray is
 * refused whole, and the sweep goes on without it.
 *
 * It is plain numbers, which a caller may keep, copy or alter: they are tested again at each call, and a call that is done writes them all.
 */
struct uldrevin_sweep {
    struct uldrevin_scan scan; /* as opened; its rays are those announced */
    int64_t taken;             /* the rays taken so far, at most those announced, else refused by 17 */
    int64_t closed;            /* 0 open, any other number closed; 0 or 1 where it is written */
};

/*
 * Opens a sweep. In comes:
 *   scan            with the number of rays that will be taken; not the scan inside the sweep that is lent
 * Out go; what they held before plays no part:
 *   counts          one a cell, columns x rows: 0
 *   quality_sums    one a cell: 0
 *   value_sums      one a cell: 0
 *   weighted_sums   one a cell: 0
 *   sweep           the scan's numbers, no ray taken, not closed
 * Refusals, in this order: 1 to 6.
 */
uint32_t uldrevin_sweep_open(const struct uldrevin_scan *scan,
                             uint32_t *counts, size_t counts_length,
                             uint32_t *quality_sums, size_t quality_sums_length,
                             uint64_t *value_sums, size_t value_sums_length,
                             uint64_t *weighted_sums, size_t weighted_sums_length,
                             struct uldrevin_sweep *sweep);

/*
 * Takes one ray or several, which follow those taken before. In come, ray by ray:
 *   azimuths        one a ray, for at least one ray
 *   values          one a gate, azimuths_length x gates
 *   qualities       one a gate, azimuths_length x gates, each 0 to 100
 * Both in and out go:
 *   sweep           its taken grows by these rays
 *   ledger          one a gate of all rays announced, rays x gates: the entries of these rays, from taken x gates on; all others stay
 *   marks           one a gate of all rays announced, rays x gates bytes: 1 or 0 for these rays, from taken x gates on; all others stay
 *   counts          one a cell, columns x rows: grows by the measured gates of these rays in it
 *   quality_sums    one a cell: grows by their qualities
 *   value_sums      one a cell: grows by their values, whatever the weighting
 *   weighted_sums   one a cell: grows by their values, each times its quality, whatever the weighting
 * Refusals, in this order: 19; 17 where these rays and those taken are more than were announced; 1 to 5 for the numbers of the sweep; 6,
 * also for no rays; 7; 8; 31 where a count or a quality sum would pass 32 bits, or a value sum or a weighted sum 64, which is never given
 * while the latest sweep and untouched lists are handed on.
 */
uint32_t uldrevin_sweep_take(struct uldrevin_sweep *sweep,
                             const uint32_t *azimuths, size_t azimuths_length,
                             const uint16_t *values, size_t values_length,
                             const uint8_t *qualities, size_t qualities_length,
                             uint32_t *ledger, size_t ledger_length,
                             uint8_t *marks, size_t marks_length,
                             uint32_t *counts, size_t counts_length,
                             uint32_t *quality_sums, size_t quality_sums_length,
                             uint64_t *value_sums, size_t value_sums_length,
                             uint64_t *weighted_sums, size_t weighted_sums_length);

/*
 * Closes a sweep that has taken all its rays, and publishes its cells in the weighting with which it was opened, which stands
 * in its scan. In come counts, quality_sums, value_sums and weighted_sums, one a cell, columns x rows. Out go:
 *   sweep           it is closed, and takes no more rays
 *   means           one a cell, as uldrevin_publish gives them from these sums, also from sums that a caller has altered
 *   cell_qualities  one a cell, as uldrevin_publish gives them
 * Refusals, in this order: 19; 17 where more rays are taken than were announced; 1 to 5 for the numbers of the sweep; 18; 6.
 */
uint32_t uldrevin_sweep_close(struct uldrevin_sweep *sweep,
                              const uint32_t *counts, size_t counts_length,
                              const uint32_t *quality_sums, size_t quality_sums_length,
                              const uint64_t *value_sums, size_t value_sums_length,
                              const uint64_t *weighted_sums, size_t weighted_sums_length,
                              uint16_t *means, size_t means_length,
                              uint8_t *cell_qualities, size_t cell_qualities_length);

/*
 * Checks a scan record and gives its head. record: its bytes, of any length and content. scan: the head, every number of it written.
 * Refusals: 11 to 14 from the front, then 1 to 5, 7 and 8.
 */
uint32_t uldrevin_record_head(const uint8_t *record, size_t record_length, struct uldrevin_scan *scan);

/*
 * Reads a scan record. azimuths: as many as the record has rays; values and qualities: rays x gates each; uldrevin_record_head tells both.
 * Refusals: 11 to 14 from the front, then 1 to 8.
 */
uint32_t uldrevin_record_read(const uint8_t *record, size_t record_length, struct uldrevin_scan *scan,
                              uint32_t *azimuths, size_t azimuths_length,
                              uint16_t *values, size_t values_length,
                              uint8_t *qualities, size_t qualities_length);

/*
 * Finds the content of a field, number 1 to 7, in a record: it has *length bytes, the first of them record[*start]. For any other number
 * both are 0. Refusals: those of uldrevin_record_head, whatever the number; a refused record has no place to tell, and both stay.
 */
uint32_t uldrevin_record_field(const uint8_t *record, size_t record_length, uint32_t number, uint64_t *start, uint64_t *length);

/*
 * Writes the record of a scan, given as to uldrevin_tally, into a buffer. *length: the record's bytes, which are
 * 59 + 4 x rays + 3 x rays x gates for RADOLAN and 8 fewer for HRAP. The buffer behind them stays. Refusals: 1 to 8, 15, 16.
 */
uint32_t uldrevin_record_write(const struct uldrevin_scan *scan,
                               const uint32_t *azimuths, size_t azimuths_length,
                               const uint16_t *values, size_t values_length,
                               const uint8_t *qualities, size_t qualities_length,
                               uint8_t *buffer, size_t buffer_length, uint64_t *length);

#ifdef __cplusplus
}
#endif

#endif
