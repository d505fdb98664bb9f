/*
 * The library as a C program calls it: each function of include/uldrevin.h, done and refused, with what is lent looked at each time, and
 * each number of the structs at its place. The numbers expected are document 01's own examples, for publishing a table of sums on both
 * sides of each limit, for a sweep those of the whole scan, and the bytes those of docs/RECORD.md.
 */
#include <inttypes.h>
#include <stdio.h>
#include <string.h>

#include "uldrevin.h"

#define BEYOND (INT64_C(1) << 32) /* the low 32 bits are 0 */
#define LENGTH(list) (sizeof(list) / sizeof *(list))

static unsigned checks, differences;

static void check(const char *what, int holds)
{
    checks++;
    if (!holds) {
        differences++;
        printf("different: %s\n", what);
    }
}

/* What a check with some other number is called, until the next is. */
static const char *with(const char *kind, const char *name, int64_t number)
{
    static char text[80];
    snprintf(text, sizeof text, "%s %s %" PRId64, kind, name, number);
    return text;
}

/* ---- sine and cosine */

static void sines(void)
{
    const int64_t q = INT64_C(1) << 30;
    check("sine of 90 degrees", uldrevin_sine(900000) == q);
    check("sine of -90 degrees", uldrevin_sine(-900000) == -q);
    check("sine of the least angle of 64 bits", uldrevin_sine(INT64_MIN) == uldrevin_sine(INT64_MIN + 3600000));
    check("cosine of 0", uldrevin_cosine(0) == q);
    check("cosine of the greatest angle of 64 bits", uldrevin_cosine(INT64_MAX) == uldrevin_cosine(INT64_MAX - 3600000));
}

/* ---- single gates */

struct place {
    uint32_t cell;
    int64_t x, y;
    uint8_t mark;
};
static const struct place before = {7, 8, 9, 10};

static int same_place(struct place one, struct place other)
{
    return one.cell == other.cell && one.x == other.x && one.y == other.y && one.mark == other.mark;
}

static uint32_t place(const struct uldrevin_site *site, const struct uldrevin_grid *grid, int64_t azimuth, int64_t range, struct place *p)
{
    *p = before;
    return uldrevin_place(site, grid, azimuth, range, &p->cell, &p->x, &p->y, &p->mark);
}

static uint32_t place_radolan(int64_t latitude, int64_t columns, int64_t azimuth, int64_t range, struct place *p)
{
    struct uldrevin_site site = {.latitude = latitude, .longitude = 100000};
    struct uldrevin_grid grid = {ULDREVIN_KIND_RADOLAN, .x = -52346220, .y = -465864470, .side = 100000, .columns = columns, .rows = 900};
    return place(&site, &grid, azimuth, range, p);
}

static uint32_t place_hrap(int64_t longitude, int64_t rows, int64_t azimuth, int64_t range, struct place *p)
{
    struct uldrevin_site site = {.latitude = 600000, .longitude = longitude};
    struct uldrevin_grid grid = {ULDREVIN_KIND_HRAP, .x = 400, .y = 932, .side = 0, .columns = 2, .rows = rows};
    return place(&site, &grid, azimuth, range, p);
}

static void gates(void)
{
    struct place p;
    check("RADOLAN gate placed", place_radolan(510000, 900, 0, 0, &p) == 0 && p.cell == 404623 && p.x == 0 && p.mark == 0);
    check("RADOLAN gate outside", place_radolan(510000, 523, 0, 0, &p) == 0 && p.cell == ULDREVIN_OUTSIDE && p.x == 0 && p.mark == 0);
    check("RADOLAN range", place_radolan(510000, 900, 0, 46000001, &p) == 3 && same_place(p, before));
    check("RADOLAN latitude", place_radolan(750001, 900, 0, 0, &p) == 4 && same_place(p, before));
    check("RADOLAN columns", place_radolan(510000, 1501, 0, 0, &p) == 5 && same_place(p, before));
    check("RADOLAN azimuth", place_radolan(510000, 900, 3600000, 0, &p) == 7 && same_place(p, before));
    check("HRAP gate placed on a line", place_hrap(-1050000, 1, 0, 0, &p) == 0 && p.cell == 1 && p.x == 0 && p.mark == 1);
    check("HRAP gate on the line, outside",
          place_hrap(-1050000, 1, 1800000, 46000000, &p) == 0 && p.cell == ULDREVIN_OUTSIDE && p.x == 0 && p.mark == 1);
    check("HRAP gate outside",
          place_hrap(-1050000, 1, 900000, 46000000, &p) == 0 && p.cell == ULDREVIN_OUTSIDE && p.x > 0 && p.mark == 0);
    check("HRAP range before site", place_hrap(INT64_MIN, 0, UINT32_MAX, UINT32_MAX, &p) == 3 && same_place(p, before));
    check("HRAP longitude", place_hrap(1800001, 1, 0, 0, &p) == 4 && same_place(p, before));
    check("HRAP rows", place_hrap(-1050000, 0, 0, 0, &p) == 5 && same_place(p, before));
    check("HRAP azimuth", place_hrap(-1050000, 1, UINT32_MAX, 0, &p) == 7 && same_place(p, before));
}

/* An azimuth or a range that is negative or that 32 bits do not hold, also with good low 32 bits. */
static void far_gates(void)
{
    static const int64_t wrong[] = {-1, INT64_MIN, INT64_MAX, BEYOND, BEYOND + 900000, 900000 - BEYOND};
    for (size_t k = 0; k < LENGTH(wrong); k++) {
        const int64_t far = wrong[k];
        struct place p;
        check(with("RADOLAN", "azimuth", far), place_radolan(510000, 900, far, 0, &p) == 7 && same_place(p, before));
        check(with("RADOLAN", "range", far), place_radolan(510000, 900, 0, far, &p) == 3 && same_place(p, before));
        check(with("HRAP", "azimuth", far), place_hrap(-1050000, 1, far, 0, &p) == 7 && same_place(p, before));
        check(with("HRAP", "range", far), place_hrap(-1050000, 1, 0, far, &p) == 3 && same_place(p, before));
    }
}

/* ---- tallies of whole scans of one ray of two gates on two cells; document 01's example, by quality, and a plain one */

static const struct uldrevin_scan hrap = {
    .site = {.latitude = 600000, .longitude = -1050000},
    .rays = 1,
    .gates = 2,
    .first = 0,
    .spacing = 100000,
    .grid = {ULDREVIN_KIND_HRAP, .x = 400, .y = 932, .side = 476250, .columns = 2, .rows = 1},
    .weighting = 1,
};
static const struct uldrevin_scan radolan = {
    .site = {.latitude = 510000, .longitude = 100000},
    .rays = 1,
    .gates = 2,
    .first = 0,
    .spacing = 100000,
    .grid = {ULDREVIN_KIND_RADOLAN, .x = 0, .y = -425000000, .side = 10000000, .columns = 2, .rows = 1},
    .weighting = 0,
};
static const uint32_t azimuths[1] = {0};
static const uint16_t values[2] = {1, 7};
static const uint8_t qualities[2] = {90, 10};

/* They fill the struct, so that all of it can be compared. */
struct lists {
    uint64_t value_sums[2], weighted_sums[2];
    uint32_t ledger[2], counts[2], quality_sums[2];
    uint8_t marks[2], behind[6];
};

/* The lengths of the lists that a tally is lent, in the order of the parameters. */
static const size_t tally_lengths[9] = {1, 2, 2, 2, 2, 2, 2, 2, 2};

static uint32_t tally_with(const struct uldrevin_scan *scan, const uint32_t *azimuths_given, const uint8_t *qualities_given,
                           const size_t *n, struct lists *l)
{
    return uldrevin_tally(scan, azimuths_given, n[0], values, n[1], qualities_given, n[2], l->ledger, n[3], l->marks, n[4],
                          l->counts, n[5], l->quality_sums, n[6], l->value_sums, n[7], l->weighted_sums, n[8]);
}

static uint32_t tally(const struct uldrevin_scan *scan, struct lists *l)
{
    return tally_with(scan, azimuths, qualities, tally_lengths, l);
}

/* Lists that hold something else than a scan gives. */
static struct lists held_lists(void)
{
    struct lists held;
    memset(&held, 0xA5, sizeof held);
    return held;
}

static int same_lists(const struct lists *one, const struct lists *other)
{
    return memcmp(one, other, sizeof *one) == 0;
}

static int empty(const struct lists *l, int cell)
{
    return l->counts[cell] == 0 && l->quality_sums[cell] == 0 && l->value_sums[cell] == 0 && l->weighted_sums[cell] == 0;
}

/* Both gates, whose values are 1 and 7 and whose qualities 90 and 10, lie in the cell. */
static int both_gates(const struct lists *l, int cell)
{
    return l->counts[cell] == 2 && l->quality_sums[cell] == 100 && l->value_sums[cell] == 8 && l->weighted_sums[cell] == 160;
}

static void scans(void)
{
    const struct lists held = held_lists();
    struct lists l = held;
    check("HRAP scan tallied", tally(&hrap, &l) == 0 && memcmp(l.behind, held.behind, sizeof l.behind) == 0);
    check("HRAP ledger", l.ledger[0] == 1 && l.ledger[1] == 1);
    check("HRAP marks", l.marks[0] == 1 && l.marks[1] == 1);
    check("HRAP sums", empty(&l, 0) && both_gates(&l, 1));
    l = held;
    check("RADOLAN scan tallied", tally(&radolan, &l) == 0 && memcmp(l.behind, held.behind, sizeof l.behind) == 0);
    check("RADOLAN ledger", l.ledger[0] == 0 && l.ledger[1] == 0);
    check("RADOLAN marks", l.marks[0] == 1 && l.marks[1] == 1);
    check("RADOLAN sums", both_gates(&l, 0) && empty(&l, 1));
    l = held;
    static const uint8_t bad_quality[2] = {90, 101};
    static const uint32_t bad_azimuth[1] = {3600000};
    struct uldrevin_scan no_rays = hrap, no_spacing = hrap, no_side = radolan;
    no_rays.rays = no_spacing.spacing = no_side.grid.side = 0;
    check("scan of no rays", tally(&no_rays, &l) == 1 && same_lists(&l, &held));
    check("scan with spacing 0", tally(&no_spacing, &l) == 3 && same_lists(&l, &held));
    check("scan with a side of 0", tally(&no_side, &l) == 5 && same_lists(&l, &held));
    for (size_t k = 0; k < LENGTH(tally_lengths); k++) {
        size_t n[LENGTH(tally_lengths)];
        memcpy(n, tally_lengths, sizeof n);
        n[k]--;
        check(with("tally:", "short list", (int64_t)k),
              tally_with(&hrap, bad_azimuth, bad_quality, n, &l) == 6 && same_lists(&l, &held));
    }
    check("scan with an azimuth of 360 degrees",
          tally_with(&radolan, bad_azimuth, bad_quality, tally_lengths, &l) == 7 && same_lists(&l, &held));
    check("scan with a quality of 101",
          tally_with(&hrap, azimuths, bad_quality, tally_lengths, &l) == 8 && same_lists(&l, &held));
}

/* ---- publishing: the sums of a cell, those that a tally gives and others, and what is published of them in each weighting */

struct published {
    uint32_t count, quality_sum;
    uint64_t value_sum, weighted_sum;
    uint16_t plain, by_quality;
    uint8_t quality;
};
static const struct published table[] = {
    {0, 0, 0, 0, ULDREVIN_NO_MEAN, ULDREVIN_NO_MEAN, 0},
    {2, 100, 8, 160, 4, 1, 50},
    {2, 0, 7, 0, 3, ULDREVIN_NO_MEAN, 0},
    {0, 0, 8, 160, ULDREVIN_NO_MEAN, ULDREVIN_NO_MEAN, 0},
    {0, 100, 8, 160, ULDREVIN_NO_MEAN, 1, 0},
    {1, 0, 8, 160, 8, ULDREVIN_NO_MEAN, 0},
    {2, 201, UINT64_C(2) * 65534 - 1, UINT64_C(201) * 65534 - 1, 65533, 65533, 100},
    {2, 202, UINT64_C(2) * 65534, UINT64_C(202) * 65534 - 1, ULDREVIN_NO_MEAN, 65533, 100},
    {2, 199, UINT64_C(2) * 65534 - 1, UINT64_C(199) * 65534, 65533, ULDREVIN_NO_MEAN, 99},
    {1, 1, UINT64_C(65536) * 65536, BEYOND + 7, ULDREVIN_NO_MEAN, ULDREVIN_NO_MEAN, 1},
    {1, 256 + 7, 3, 5, 3, 0, 100},
    {1, UINT32_MAX, UINT64_MAX, 0, ULDREVIN_NO_MEAN, 0, 100},
    {UINT32_MAX, 1, 0, UINT64_MAX, 0, ULDREVIN_NO_MEAN, 0},
    {UINT32_MAX, UINT32_MAX, UINT64_MAX, UINT64_MAX, ULDREVIN_NO_MEAN, ULDREVIN_NO_MEAN, 1},
};
#define CELLS LENGTH(table)

/* The sums of the table in lists, and lists to publish into. They fill the struct, so that all of it can be compared. */
struct sheet {
    uint64_t value_sums[CELLS], weighted_sums[CELLS];
    uint32_t counts[CELLS], quality_sums[CELLS];
    uint16_t means[CELLS];
    uint8_t cell_qualities[CELLS], behind[8 - 3 * CELLS % 8];
};

static struct sheet held_sheet(void)
{
    struct sheet held;
    memset(&held, 0xA5, sizeof held);
    for (size_t cell = 0; cell < CELLS; cell++) {
        held.counts[cell] = table[cell].count;
        held.quality_sums[cell] = table[cell].quality_sum;
        held.value_sums[cell] = table[cell].value_sum;
        held.weighted_sums[cell] = table[cell].weighted_sum;
    }
    return held;
}

static uint32_t publish_with(int64_t weighting, struct sheet *s, const size_t *n)
{
    return uldrevin_publish(weighting, s->counts, n[0], s->quality_sums, n[1], s->value_sums, n[2], s->weighted_sums, n[3],
                            s->means, n[4], s->cell_qualities, n[5]);
}

/* The table's first cells are published, and those behind them stay. */
static void published(int64_t weighting, size_t cells)
{
    const size_t n[6] = {cells, cells, cells, cells, cells, cells};
    struct sheet s = held_sheet(), expected = s;
    for (size_t cell = 0; cell < cells; cell++) {
        expected.means[cell] = weighting == 0 ? table[cell].plain : table[cell].by_quality;
        expected.cell_qualities[cell] = table[cell].quality;
    }
    check(with("publish:", "weighting", weighting), publish_with(weighting, &s, n) == 0 && memcmp(&s, &expected, sizeof s) == 0);
}

/* Any weighting but 0 is by quality. Each list in its turn is one number shorter than the others, or longer. */
static void publishing(void)
{
    static const int64_t weightings[] = {0, 1, 2, -1, BEYOND, INT64_MIN, INT64_MAX};
    for (size_t k = 0; k < LENGTH(weightings); k++) {
        const struct sheet held = held_sheet();
        struct sheet s = held;
        for (size_t cells = 0; cells <= CELLS; cells++)
            published(weightings[k], cells);
        for (size_t list = 0; list < 6; list++) {
            size_t shorter[6] = {CELLS, CELLS, CELLS, CELLS, CELLS, CELLS}, longer[6] = {0, 0, 0, 0, 0, 0};
            shorter[list]--;
            longer[list]++;
            check(with("publish:", "shorter list", (int64_t)list),
                  publish_with(weightings[k], &s, shorter) == 6 && memcmp(&s, &held, sizeof s) == 0);
            check(with("publish:", "longer list", (int64_t)list),
                  publish_with(weightings[k], &s, longer) == 6 && memcmp(&s, &held, sizeof s) == 0);
        }
    }
}

/* ---- sweeps of two rays of two gates on two cells */

struct rays {
    uint32_t azimuths[2];
    uint16_t values[4];
    uint8_t qualities[4];
};
static const struct rays good = {{0, 900000}, {1, 7, 3, ULDREVIN_NO_ECHO}, {90, 10, 60, 40}};

/* A sweep and its lists. They fill the struct, so that all of it can be compared. */
struct swept {
    struct uldrevin_sweep sweep;
    uint64_t value_sums[2], weighted_sums[2];
    uint32_t ledger[4], counts[2], quality_sums[2];
    uint16_t means[2];
    uint8_t marks[4], cell_qualities[2], behind[6];
};

static struct swept held_swept(void)
{
    struct swept held;
    memset(&held, 0xA5, sizeof held);
    return held;
}

static int same_swept(const struct swept *one, const struct swept *other)
{
    return memcmp(one, other, sizeof *one) == 0;
}

/* The lengths of the lists that are lent, in the order of the parameters. */
static const size_t open_lengths[4] = {2, 2, 2, 2}, close_lengths[6] = {2, 2, 2, 2, 2, 2};

static uint32_t open_with(const struct uldrevin_scan *scan, struct swept *s, const size_t *n)
{
    return uldrevin_sweep_open(scan, s->counts, n[0], s->quality_sums, n[1], s->value_sums, n[2], s->weighted_sums, n[3], &s->sweep);
}

static uint32_t open_sweep(const struct uldrevin_scan *scan, struct swept *s)
{
    return open_with(scan, s, open_lengths);
}

static uint32_t take_with(struct swept *s, const struct rays *r, size_t first, const size_t *n)
{
    return uldrevin_sweep_take(&s->sweep, r->azimuths + first, n[0], r->values + 2 * first, n[1], r->qualities + 2 * first, n[2],
                               s->ledger, n[3], s->marks, n[4], s->counts, n[5], s->quality_sums, n[6], s->value_sums, n[7],
                               s->weighted_sums, n[8]);
}

/* Takes some of the rays, the first of them by its place among both. */
static uint32_t take(struct swept *s, const struct rays *r, size_t first, size_t rays)
{
    const size_t n[9] = {rays, 2 * rays, 2 * rays, 4, 4, 2, 2, 2, 2};
    return take_with(s, r, first, n);
}

static uint32_t close_with(struct swept *s, const size_t *n)
{
    return uldrevin_sweep_close(&s->sweep, s->counts, n[0], s->quality_sums, n[1], s->value_sums, n[2], s->weighted_sums, n[3],
                                s->means, n[4], s->cell_qualities, n[5]);
}

static uint32_t close_sweep(struct swept *s)
{
    return close_with(s, close_lengths);
}

/* The cells of the sweep's sums in any weighting. */
static uint32_t publish_swept(struct swept *s, int64_t weighting)
{
    return uldrevin_publish(weighting, s->counts, 2, s->quality_sums, 2, s->value_sums, 2, s->weighted_sums, 2, s->means, 2,
                            s->cell_qualities, 2);
}

static struct uldrevin_scan of_two_rays(const struct uldrevin_scan *scan)
{
    struct uldrevin_scan both = *scan;
    both.rays = 2;
    return both;
}

/* A sweep that has taken some of the good rays. */
static struct swept sweep_with(const struct uldrevin_scan *scan, size_t rays)
{
    const struct uldrevin_scan both = of_two_rays(scan);
    struct swept s = held_swept();
    check("sweep opened", open_sweep(&both, &s) == 0);
    if (rays != 0)
        check("rays taken", take(&s, &good, 0, rays) == 0);
    return s;
}

/* Both sheets of a closed sweep: all four gates, 1, 7, 3 and 0 with the qualities 90, 10, 60 and 40, lie in the cell. */
static void both_sheets(const struct swept *closed, int cell)
{
    struct swept s = *closed;
    check("sums of both rays", s.counts[cell] == 4 && s.quality_sums[cell] == 200 && s.value_sums[cell] == 11
          && s.weighted_sums[cell] == 340);
    check("the sheet that was closed", publish_swept(&s, s.sweep.scan.weighting) == 0 && same_swept(&s, closed));
    check("plain sheet", publish_swept(&s, 0) == 0 && s.means[cell] == 2 && s.cell_qualities[cell] == 50);
    check("quality sheet", publish_swept(&s, 1) == 0 && s.means[cell] == 1 && s.cell_qualities[cell] == 50);
}

/* The rays one by one, and both at once, give what the whole scan gives. The x of all gates but the last is 0, on a line. */
static void sweeps(void)
{
    static const uint8_t marks[4] = {1, 1, 1, 0};
    const struct swept held = held_swept();
    struct uldrevin_scan grids[] = {of_two_rays(&hrap), of_two_rays(&radolan), of_two_rays(&hrap), of_two_rays(&radolan)};
    grids[2].weighting = 0;
    grids[3].weighting = 1;
    for (size_t k = 0; k < LENGTH(grids); k++) {
        struct swept s = sweep_with(&grids[k], 0), expected = held;
        expected.sweep = (struct uldrevin_sweep){grids[k], .taken = 0, .closed = 0};
        memset(expected.counts, 0, sizeof expected.counts);
        memset(expected.quality_sums, 0, sizeof expected.quality_sums);
        memset(expected.value_sums, 0, sizeof expected.value_sums);
        memset(expected.weighted_sums, 0, sizeof expected.weighted_sums);
        check("sweep as opened", same_swept(&s, &expected));

        check("whole scan tallied", uldrevin_tally(&grids[k], good.azimuths, 2, good.values, 4, good.qualities, 4, expected.ledger, 4,
              expected.marks, 4, expected.counts, 2, expected.quality_sums, 2, expected.value_sums, 2, expected.weighted_sums, 2) == 0);
        check("whole scan published", publish_swept(&expected, grids[k].weighting) == 0);
        check("its marks", memcmp(expected.marks, marks, sizeof marks) == 0);
        check("first ray taken", take(&s, &good, 0, 1) == 0 && s.sweep.taken == 1);
        check("its ledger", memcmp(s.ledger, expected.ledger, 2 * sizeof *s.ledger) == 0);
        check("marks of the first ray", memcmp(s.marks, marks, 2 * sizeof *s.marks) == 0);
        check("ledger of the ray to come", memcmp(s.ledger + 2, held.ledger + 2, 2 * sizeof *s.ledger) == 0);
        check("marks of the ray to come", memcmp(s.marks + 2, held.marks + 2, 2 * sizeof *s.marks) == 0);
        check("cells before closing", memcmp(s.means, held.means, sizeof s.means) == 0
              && memcmp(s.cell_qualities, held.cell_qualities, sizeof s.cell_qualities) == 0);
        check("second ray taken", take(&s, &good, 1, 1) == 0 && s.sweep.taken == 2 && s.sweep.closed == 0);
        check("sweep closed", close_sweep(&s) == 0);
        expected.sweep.taken = 2;
        expected.sweep.closed = 1;
        check("sweep as the whole scan", same_swept(&s, &expected));
        struct swept at_once = sweep_with(&grids[k], 2);
        check("both rays at once", close_sweep(&at_once) == 0 && same_swept(&at_once, &expected));
        both_sheets(&s, grids[k].grid.kind == ULDREVIN_KIND_HRAP ? 1 : 0);
    }
}

/* A group of rays is refused, and everything is as it was. */
static void take_refused(const char *what, const struct swept *s, const struct rays *r, size_t first, size_t rays, uint32_t rule)
{
    struct swept after = *s;
    check(what, take(&after, r, first, rays) == rule && same_swept(&after, s));
}

static void close_refused(const char *what, const struct swept *s, uint32_t rule)
{
    struct swept after = *s;
    check(what, close_sweep(&after) == rule && same_swept(&after, s));
}

/* Each refusal of take and close, with the next in order applying too where it can. */
static void sweeps_refused(void)
{
    struct rays bad_azimuth = good, bad_quality = good;
    bad_quality.qualities[3] = bad_azimuth.qualities[0] = 101;
    bad_azimuth.azimuths[1] = 3600000;
    struct swept none = sweep_with(&hrap, 0), one = sweep_with(&hrap, 1), both = sweep_with(&hrap, 2), closed = both, s;
    take_refused("no rays", &none, &good, 0, 0, 6);
    take_refused("azimuth of 360 degrees in a group", &none, &bad_azimuth, 0, 2, 7);
    take_refused("azimuth of 360 degrees in a ray", &one, &bad_azimuth, 1, 1, 7);
    take_refused("quality of 101 in a group", &none, &bad_quality, 0, 2, 8);
    take_refused("quality of 101 in a ray", &one, &bad_quality, 1, 1, 8);
    take_refused("a ray too many in a group", &one, &bad_azimuth, 0, 2, 17);
    take_refused("a ray too many", &both, &bad_azimuth, 1, 1, 17);
    close_refused("closed with no ray", &none, 18);
    close_refused("closed with one ray", &one, 18);
    check("sweep closed", close_sweep(&closed) == 0);
    take_refused("a ray too many, closed", &closed, &bad_azimuth, 1, 1, 19);
    close_refused("closed again", &closed, 19);
    s = both;
    s.sweep.scan.rays = s.sweep.scan.gates = 0;
    take_refused("a ray too many of no gates", &s, &good, 1, 1, 17);
    close_refused("more rays than announced, and no gates", &s, 17);
    s.sweep.scan.rays = 2;
    s.sweep.taken = 1;
    take_refused("a ray of no gates", &s, &good, 1, 1, 2);
    close_refused("one ray of no gates", &s, 2);
    check("the good ray after all", take(&one, &good, 1, 1) == 0 && same_swept(&one, &both));
}

/* Each list in its turn is one number short. */
static void short_sweep_lists(void)
{
    const struct uldrevin_scan scan = of_two_rays(&hrap);
    const struct swept held = held_swept(), none = sweep_with(&hrap, 0), both = sweep_with(&hrap, 2);
    struct rays bad = good;
    bad.azimuths[0] = 3600000;
    struct swept s = held;
    for (size_t k = 0; k < 4; k++) {
        size_t n[4] = {2, 2, 2, 2};
        n[k]--;
        check(with("open:", "short list", (int64_t)k), open_with(&scan, &s, n) == 6 && same_swept(&s, &held));
    }
    s = none;
    for (size_t k = 0; k < 9; k++) {
        size_t n[9] = {2, 4, 4, 4, 4, 2, 2, 2, 2};
        n[k]--;
        check(with("take:", "short list", (int64_t)k), take_with(&s, &bad, 0, n) == 6 && same_swept(&s, &none));
    }
    s = both;
    for (size_t k = 0; k < 6; k++) {
        size_t n[6] = {2, 2, 2, 2, 2, 2};
        n[k]--;
        check(with("close:", "short list", (int64_t)k), close_with(&s, n) == 6 && same_swept(&s, &both));
        s.sweep.taken = 1;
        check(with("close:", "ray missing, short list", (int64_t)k), close_with(&s, n) == 18);
        s = both;
    }
}

/* The four sums of the cell of both rays, which a caller has altered. */
static struct swept with_sums(int64_t weighting, size_t rays, uint32_t count, uint32_t quality_sum, uint64_t value_sum,
                              uint64_t weighted_sum)
{
    struct uldrevin_scan scan = hrap;
    scan.weighting = weighting;
    struct swept s = sweep_with(&scan, rays);
    s.counts[1] = count;
    s.quality_sums[1] = quality_sum;
    s.value_sums[1] = value_sum;
    s.weighted_sums[1] = weighted_sum;
    return s;
}

/*
 * The good rays have four gates, qualities of 200, values of 1 + 7 + 3 and products of 1 x 90 + 7 x 10 + 3 x 60 in the cell. All sums grow,
 * and 31 is for each of them, in either weighting.
 */
static void full_sums(int64_t weighting)
{
    static const uint32_t most_count = UINT32_MAX - 4, most_quality = UINT32_MAX - 200;
    static const uint64_t most_value = UINT64_MAX - 11, most_weighted = UINT64_MAX - 340;
    struct rays bad_quality = good;
    bad_quality.qualities[3] = 101;
    struct swept s = with_sums(weighting, 0, most_count, most_quality, most_value, most_weighted);
    check("sums that become full", take(&s, &good, 0, 2) == 0 && s.counts[1] == UINT32_MAX && s.quality_sums[1] == UINT32_MAX
          && s.value_sums[1] == UINT64_MAX && s.weighted_sums[1] == UINT64_MAX);
    s = with_sums(weighting, 0, most_count + 1, 0, 0, 0);
    take_refused("a count over 32 bits", &s, &good, 0, 2, 31);
    take_refused("a quality of 101 and a count over 32 bits", &s, &bad_quality, 0, 2, 8);
    s = with_sums(weighting, 0, 0, most_quality + 1, 0, 0);
    take_refused("a quality sum over 32 bits", &s, &good, 0, 2, 31);
    s = with_sums(weighting, 0, 0, 0, most_value + 1, 0);
    take_refused("a value sum over 64 bits", &s, &good, 0, 2, 31);
    s = with_sums(weighting, 0, 0, 0, 0, most_weighted + 1);
    take_refused("a weighted sum over 64 bits", &s, &good, 0, 2, 31);
}

/* Closing publishes any sums in the weighting of the sweep. */
static void altered_sums(void)
{
    static const int64_t weightings[] = {0, 1};
    for (size_t k = 0; k < LENGTH(weightings); k++) {
        full_sums(weightings[k]);
        for (size_t row = 0; row < CELLS; row++) {
            const struct published *p = &table[row];
            struct swept s = with_sums(weightings[k], 2, p->count, p->quality_sum, p->value_sum, p->weighted_sum), expected = s;
            expected.means[0] = ULDREVIN_NO_MEAN;
            expected.means[1] = weightings[k] == 0 ? p->plain : p->by_quality;
            expected.cell_qualities[0] = 0;
            expected.cell_qualities[1] = p->quality;
            expected.sweep.closed = 1;
            check(with("closed:", "row of the table", (int64_t)row), close_sweep(&s) == 0 && same_swept(&s, &expected));
        }
    }
}

/* Any number but 0 is closed, and any number of rays taken has an answer. */
static void altered_states(void)
{
    static const int64_t closed[] = {1, 2, -1, BEYOND, INT64_MIN, INT64_MAX};
    static const int64_t taken[] = {3, -1, BEYOND, BEYOND + 1, 1 - BEYOND, INT64_MIN, INT64_MAX};
    const struct swept both = sweep_with(&hrap, 2);
    for (size_t k = 0; k < LENGTH(closed); k++) {
        struct swept s = both;
        s.sweep.closed = closed[k];
        s.sweep.scan.gates = 0;
        take_refused(with("take:", "closed", closed[k]), &s, &good, 0, 1, 19);
        close_refused(with("close:", "closed", closed[k]), &s, 19);
    }
    for (size_t k = 0; k < LENGTH(taken); k++) {
        struct swept s = both;
        s.sweep.taken = taken[k];
        s.sweep.scan.gates = 0;
        take_refused(with("take:", "taken", taken[k]), &s, &good, 0, 1, 17);
        close_refused(with("close:", "taken", taken[k]), &s, 17);
    }
}

/* ---- the record of document 01's example */

static const uint8_t example[61] = {
    1, 0, 8,  0x00, 0x09, 0x27, 0xC0, 0xFF, 0xEF, 0xFA, 0x70,
    2, 0, 12, 0, 1, 0, 2, 0, 0, 0, 0, 0x00, 0x01, 0x86, 0xA0,
    3, 0, 9,  2, 0x01, 0x90, 0x03, 0xA4, 0, 2, 0, 1,
    4, 0, 1,  1,
    5, 0, 4,  0, 0, 0, 0,
    6, 0, 4,  0, 1, 0, 7,
    7, 0, 2,  90, 10};

/* A buffer for the record of a scan of two gates, and its length. */
struct buffer {
    uint64_t length;
    uint8_t bytes[80];
};

static struct buffer held_buffer(void)
{
    struct buffer held;
    memset(&held, 0xA5, sizeof held);
    return held;
}

static int same_buffer(const struct buffer *one, const struct buffer *other)
{
    return memcmp(one, other, sizeof *one) == 0;
}

static uint32_t write_record_into(const struct uldrevin_scan *scan, size_t buffer_length, struct buffer *b)
{
    return uldrevin_record_write(scan, azimuths, 1, values, 2, qualities, 2, b->bytes, buffer_length, &b->length);
}

static uint32_t write_record(const struct uldrevin_scan *scan, struct buffer *b)
{
    return write_record_into(scan, sizeof b->bytes, b);
}

static int same_scan(const struct uldrevin_scan *one, const struct uldrevin_scan *other)
{
    return memcmp(one, other, sizeof *one) == 0;
}

static void records_written(void)
{
    const struct buffer held = held_buffer();
    struct buffer b = held;
    check("record written", write_record(&hrap, &b) == 0 && b.length == sizeof example);
    check("record's bytes", memcmp(b.bytes, example, sizeof example) == 0);
    check("buffer behind the record",
          memcmp(b.bytes + sizeof example, held.bytes + sizeof example, sizeof b.bytes - sizeof example) == 0);
    b = held;
    struct uldrevin_scan wrong = hrap;
    wrong.gates = 1;
    check("buffer too short", write_record_into(&hrap, sizeof example - 1, &b) == 16 && same_buffer(&b, &held));
    check("record of wrong lists", write_record(&wrong, &b) == 6 && same_buffer(&b, &held));
    check("RADOLAN record written", write_record(&radolan, &b) == 0 && b.length == 69 && b.bytes[28] == 17 && b.bytes[49] == 0);
}

static void records_read(void)
{
    const struct uldrevin_scan nothing = {.rays = 0};
    struct uldrevin_scan head = nothing;
    uint32_t azimuth[1] = {9};
    uint16_t value[2] = {9, 9};
    uint8_t quality[2] = {9, 9};
    check("head", uldrevin_record_head(example, sizeof example, &head) == 0 && same_scan(&head, &hrap));
    head = nothing;
    check("list too short", uldrevin_record_read(example, sizeof example, &head, azimuth, 1, value, 1, quality, 2) == 6);
    check("record cut short", uldrevin_record_read(example, sizeof example - 1, &head, azimuth, 1, value, 2, quality, 2) == 11);
    check("head untouched", same_scan(&head, &nothing));
    check("lists untouched", azimuth[0] == 9 && value[0] == 9 && value[1] == 9 && quality[0] == 9 && quality[1] == 9);
    check("read", uldrevin_record_read(example, sizeof example, &head, azimuth, 1, value, 2, quality, 2) == 0);
    check("head as read", same_scan(&head, &hrap));
    check("lists as read", azimuth[0] == 0 && memcmp(value, values, sizeof value) == 0 && memcmp(quality, qualities, sizeof quality) == 0);
}

static void fields(void)
{
    uint64_t start = 3, length = 3;
    check("values' place", uldrevin_record_field(example, sizeof example, 6, &start, &length) == 0 && start == 52 && length == 4);
    check("no field 8", uldrevin_record_field(example, sizeof example, 8, &start, &length) == 0 && start == 0 && length == 0);
    start = length = 3;
    check("field of no bytes", uldrevin_record_field(example, 0, 6, &start, &length) == 11 && start == 3 && length == 3);
}

/* Each number that only a record has, from one change of the example. */
static void damaged(void)
{
    struct uldrevin_scan head;
    uint8_t record[sizeof example + 1];
    memcpy(record, example, sizeof example);
    record[sizeof example] = 0;
    check("a byte behind", uldrevin_record_head(record, sizeof record, &head) == 14);
    record[11] = 3;
    check("wrong tag", uldrevin_record_head(record, sizeof example, &head) == 12);
    record[11] = 2;
    record[41] = 2;
    check("wrong weighting", uldrevin_record_head(record, sizeof example, &head) == 13);
}

/* ---- the structs: each number at its place */

/* A number of a scan: its place, and the rule that refuses it, 0 for none. */
struct number {
    const char *name;
    size_t place;
    uint32_t radolan_rule, hrap_rule;
};
static const struct number numbers[] = {
    {"latitude", offsetof(struct uldrevin_scan, site.latitude), 4, 4},
    {"longitude", offsetof(struct uldrevin_scan, site.longitude), 4, 4},
    {"rays", offsetof(struct uldrevin_scan, rays), 1, 1},
    {"gates", offsetof(struct uldrevin_scan, gates), 2, 2},
    {"first", offsetof(struct uldrevin_scan, first), 3, 3},
    {"spacing", offsetof(struct uldrevin_scan, spacing), 3, 3},
    {"kind", offsetof(struct uldrevin_scan, grid.kind), 5, 5},
    {"x", offsetof(struct uldrevin_scan, grid.x), 5, 5},
    {"y", offsetof(struct uldrevin_scan, grid.y), 5, 5},
    {"side", offsetof(struct uldrevin_scan, grid.side), 5, 0},
    {"columns", offsetof(struct uldrevin_scan, grid.columns), 5, 5},
    {"rows", offsetof(struct uldrevin_scan, grid.rows), 5, 5},
    {"weighting", offsetof(struct uldrevin_scan, weighting), 0, 0},
};

/* The numbers follow each other, 64 bits each, in a scan, in the site and the grid alone, and in a sweep. */
static void layout(void)
{
    for (size_t k = 0; k < LENGTH(numbers); k++)
        check(with("place of", numbers[k].name, (int64_t)k), numbers[k].place == k * sizeof(int64_t));
    check("size of a scan", sizeof(struct uldrevin_scan) == LENGTH(numbers) * sizeof(int64_t));
    check("size of a site", sizeof(struct uldrevin_site) == 2 * sizeof(int64_t));
    check("longitude in a site", offsetof(struct uldrevin_site, longitude) == sizeof(int64_t));
    check("size of a sweep", sizeof(struct uldrevin_sweep) == (LENGTH(numbers) + 2) * sizeof(int64_t));
    check("scan in a sweep", offsetof(struct uldrevin_sweep, scan) == 0);
    check("taken in a sweep", offsetof(struct uldrevin_sweep, taken) == LENGTH(numbers) * sizeof(int64_t));
    check("closed in a sweep", offsetof(struct uldrevin_sweep, closed) == (LENGTH(numbers) + 1) * sizeof(int64_t));
    check("size of a grid", sizeof(struct uldrevin_grid) == 6 * sizeof(int64_t));
    const size_t grid = offsetof(struct uldrevin_scan, grid);
    check("kind in a grid", offsetof(struct uldrevin_grid, kind) == offsetof(struct uldrevin_scan, grid.kind) - grid);
    check("x in a grid", offsetof(struct uldrevin_grid, x) == offsetof(struct uldrevin_scan, grid.x) - grid);
    check("y in a grid", offsetof(struct uldrevin_grid, y) == offsetof(struct uldrevin_scan, grid.y) - grid);
    check("side in a grid", offsetof(struct uldrevin_grid, side) == offsetof(struct uldrevin_scan, grid.side) - grid);
    check("columns in a grid", offsetof(struct uldrevin_grid, columns) == offsetof(struct uldrevin_scan, grid.columns) - grid);
    check("rows in a grid", offsetof(struct uldrevin_grid, rows) == offsetof(struct uldrevin_scan, grid.rows) - grid);
}

/* A record whose thirteen numbers all differ, and its head. */
static const uint8_t differing[89] = {
    1, 0, 8,  0x00, 0x07, 0xC8, 0x30, 0x00, 0x01, 0x86, 0xA2,
    2, 0, 12, 0, 3, 0, 2, 0x00, 0x00, 0xC3, 0x50, 0x00, 0x01, 0x86, 0xA1,
    3, 0, 17, 1, 0xFC, 0xE1, 0x42, 0x94, 0xE4, 0x3B, 0x78, 0xEA, 0x00, 0x01, 0x86, 0xA0, 0x03, 0x84, 0x03, 0x85,
    4, 0, 1,  0,
    5, 0, 12, 0, 0, 0, 4, 0, 0, 0, 5, 0, 0, 0, 6,
    6, 0, 12, 0, 7, 0, 8, 0, 9, 0, 10, 0, 11, 0, 12,
    7, 0, 6,  13, 14, 15, 16, 17, 18};
static const struct uldrevin_scan differing_head = {
    .site = {.latitude = 510000, .longitude = 100002},
    .rays = 3,
    .gates = 2,
    .first = 50000,
    .spacing = 100001,
    .grid = {ULDREVIN_KIND_RADOLAN, .x = -52346220, .y = -465864470, .side = 100000, .columns = 900, .rows = 901},
    .weighting = 0,
};

/* Each number of the record comes to its own name and goes back from there, and nothing is written beside the struct. */
static void named_numbers(void)
{
    struct {
        int64_t before;
        struct uldrevin_scan head;
        int64_t after;
    } lent = {.before = 5, .after = 6};
    struct uldrevin_scan *head = &lent.head;
    uint32_t azimuth[3];
    uint16_t value[6];
    uint8_t quality[6], record[sizeof differing] = {0};
    uint64_t length = 0;
    check("different numbers", uldrevin_record_head(differing, sizeof differing, head) == 0 && same_scan(head, &differing_head));
    memset(head, 0, sizeof *head);
    check("different numbers read", uldrevin_record_read(differing, sizeof differing, head, azimuth, 3, value, 6, quality, 6) == 0);
    check("head of different numbers", same_scan(head, &differing_head));
    check("beside the head", lent.before == 5 && lent.after == 6);
    check("different numbers written",
          uldrevin_record_write(head, azimuth, 3, value, 6, quality, 6, record, sizeof record, &length) == 0);
    check("bytes of different numbers", length == sizeof differing && memcmp(record, differing, sizeof record) == 0);
}

/* ---- the structs: every number has an answer */

static void check_call(const char *call, const char *what, int holds)
{
    char both[100];
    snprintf(both, sizeof both, "%s: %s", call, what);
    check(both, holds);
}

/* Every call that takes the scan refuses it by the rule and leaves all that is lent. The rules 4 and 5 are those of site and grid. */
static void refused(const char *what, const struct uldrevin_scan *scan, uint32_t rule)
{
    const struct uldrevin_scan given = *scan;
    const struct lists held = held_lists();
    const struct buffer unwritten = held_buffer();
    struct lists l = held;
    struct buffer b = unwritten;
    struct place p;
    struct swept none = held_swept(), s = none;
    check_call("open", what, open_sweep(scan, &s) == rule && same_swept(&s, &none));
    none.sweep = s.sweep = (struct uldrevin_sweep){*scan, .taken = 0, .closed = 0};
    check_call("take", what, take(&s, &good, 0, 1) == rule && same_swept(&s, &none));
    check_call("close", what, close_sweep(&s) == rule && same_swept(&s, &none));
    check_call("tally", what, tally(scan, &l) == rule && same_lists(&l, &held));
    check_call("write", what, write_record(scan, &b) == rule && same_buffer(&b, &unwritten));
    if (rule == 4 || rule == 5)
        check_call("place", what, place(&scan->site, &scan->grid, 0, 0, &p) == rule && same_place(p, before));
    check_call("scan untouched", what, same_scan(scan, &given));
}

/* One number of a good scan is another: 32 bits do not hold it but the low 32 are good, it is lower than any allowed, or it is an end. */
static void wrong_number(const char *kind, const struct uldrevin_scan *good, const struct number *number, uint32_t rule)
{
    int64_t right;
    memcpy(&right, (const char *)good + number->place, sizeof right);
    const int64_t wrong[] = {right + BEYOND, right - BEYOND, -2000000001, INT64_MIN, INT64_MAX};
    for (size_t k = 0; k < LENGTH(wrong); k++) {
        struct uldrevin_scan scan = *good;
        memcpy((char *)&scan + number->place, &wrong[k], sizeof wrong[k]);
        refused(with(kind, number->name, wrong[k]), &scan, rule);
    }
}

static void wrong_numbers(void)
{
    for (size_t k = 0; k < LENGTH(numbers); k++) {
        if (numbers[k].radolan_rule != 0)
            wrong_number("RADOLAN", &radolan, &numbers[k], numbers[k].radolan_rule);
        if (numbers[k].hrap_rule != 0)
            wrong_number("HRAP", &hrap, &numbers[k], numbers[k].hrap_rule);
    }
}

static void wrong_kinds(void)
{
    static const int64_t wrong[] = {0, 3, -1, BEYOND + ULDREVIN_KIND_RADOLAN, BEYOND + ULDREVIN_KIND_HRAP, INT64_MIN};
    for (size_t k = 0; k < LENGTH(wrong); k++) {
        struct uldrevin_scan like_radolan = radolan, like_hrap = hrap;
        like_radolan.grid.kind = like_hrap.grid.kind = wrong[k];
        refused(with("RADOLAN", "kind", wrong[k]), &like_radolan, 5);
        refused(with("HRAP", "kind", wrong[k]), &like_hrap, 5);
    }
}

/* A sweep of two rays, of which each call is given the scan's numbers anew. */
static uint32_t sweep_again(const struct uldrevin_scan *scan, struct swept *s)
{
    const struct uldrevin_scan given = of_two_rays(scan);
    uint32_t refusal = open_sweep(&given, s);
    for (size_t ray = 0; ray < 2 && refusal == 0; ray++) {
        s->sweep.scan = given;
        refusal = take(s, &good, ray, 1);
    }
    s->sweep.scan = given;
    return refusal == 0 ? close_sweep(s) : refusal;
}

/* Both scans give the same tally, the same sweep and the same record. The other has its numbers as they are written. */
static void same_answers(const char *what, const struct uldrevin_scan *one, const struct uldrevin_scan *other)
{
    const struct uldrevin_scan given = of_two_rays(one), written = of_two_rays(other);
    struct lists l = held_lists(), expected_lists = l;
    struct buffer b = held_buffer(), expected_buffer = b;
    struct swept s = held_swept(), expected = s;
    check_call("open", what, open_sweep(&given, &s) == 0 && same_scan(&s.sweep.scan, &written));
    s.sweep.scan = given;
    check_call("take", what, take(&s, &good, 0, 1) == 0 && same_scan(&s.sweep.scan, &written));
    check_call("sweep", what, sweep_again(one, &s) == 0 && sweep_again(other, &expected) == 0 && same_swept(&s, &expected));
    check_call("tally", what, tally(one, &l) == 0 && tally(other, &expected_lists) == 0 && same_lists(&l, &expected_lists));
    check_call("write", what,
               write_record(one, &b) == 0 && write_record(other, &expected_buffer) == 0 && same_buffer(&b, &expected_buffer));
}

/* Any weighting but 0 is by quality, and none plays a part in a tally. */
static void weightings(void)
{
    static const int64_t by_quality[] = {-1, 2, BEYOND, INT64_MIN, INT64_MAX};
    struct uldrevin_scan weighted = radolan;
    weighted.weighting = 1;
    struct lists l = held_lists(), expected = l;
    check("tally: plain and by quality", tally(&radolan, &expected) == 0 && tally(&weighted, &l) == 0 && same_lists(&l, &expected));
    for (size_t k = 0; k < LENGTH(by_quality); k++) {
        struct uldrevin_scan on_hrap = hrap, on_radolan = radolan;
        on_hrap.weighting = on_radolan.weighting = by_quality[k];
        same_answers(with("HRAP", "weighting", by_quality[k]), &on_hrap, &hrap);
        same_answers(with("RADOLAN", "weighting", by_quality[k]), &on_radolan, &weighted);
    }
}

/* The side of an HRAP grid plays no part. */
static void hrap_sides(void)
{
    static const int64_t sides[] = {0, 1, -1, BEYOND, BEYOND + 476250, INT64_MIN, INT64_MAX};
    struct place expected, p;
    check("gate of the example", place(&hrap.site, &hrap.grid, 0, 0, &expected) == 0 && expected.cell == 1);
    for (size_t k = 0; k < LENGTH(sides); k++) {
        struct uldrevin_scan scan = hrap;
        const char *what = with("HRAP", "side", sides[k]);
        scan.grid.side = sides[k];
        same_answers(what, &scan, &hrap);
        check_call("place", what, place(&scan.site, &scan.grid, 0, 0, &p) == 0 && same_place(p, expected));
    }
}

int main(void)
{
    sines();
    gates();
    far_gates();
    scans();
    publishing();
    sweeps();
    sweeps_refused();
    short_sweep_lists();
    altered_sums();
    altered_states();
    records_written();
    records_read();
    fields();
    damaged();
    layout();
    named_numbers();
    wrong_numbers();
    wrong_kinds();
    weightings();
    hrap_sides();
    printf("%u checks, %u differences\n", checks, differences);
    return differences != 0;
}
