/* Reads a scan record from standard input and prints its grid, as the program sheet does, then its ledger with the marks. */
#include <inttypes.h>
#include <stdio.h>
#include <stdlib.h>

#include "uldrevin.h"

/* A record has at most 32,767 gates, and is shorter than this. */
#define MOST_BYTES 200000

struct scan {
    struct uldrevin_scan head;
    uint32_t *azimuths;
    uint16_t *values;
    uint8_t *qualities;
};

struct grid {
    uint32_t *ledger, *counts, *quality_sums;
    uint64_t *value_sums, *weighted_sums;
    uint16_t *means;
    uint8_t *marks, *cell_qualities;
};

static void *list(size_t numbers, size_t size)
{
    void *made = calloc(numbers, size);
    if (made == NULL) {
        fprintf(stderr, "first_grid: no memory\n");
        exit(2);
    }
    return made;
}

static size_t gates_of(const struct scan *scan)
{
    return (size_t)(scan->head.rays * scan->head.gates);
}

static size_t cells_of(const struct scan *scan)
{
    return (size_t)(scan->head.grid.columns * scan->head.grid.rows);
}

static uint32_t read_scan(const uint8_t *record, size_t length, struct scan *scan)
{
    uint32_t refusal = uldrevin_record_head(record, length, &scan->head);
    if (refusal != 0)
        return refusal;
    size_t rays = (size_t)scan->head.rays, gates = gates_of(scan);
    scan->azimuths = list(rays, sizeof *scan->azimuths);
    scan->values = list(gates, sizeof *scan->values);
    scan->qualities = list(gates, sizeof *scan->qualities);
    return uldrevin_record_read(record, length, &scan->head, scan->azimuths, rays, scan->values, gates, scan->qualities, gates);
}

static uint32_t tally(const struct scan *scan, struct grid *grid)
{
    size_t rays = (size_t)scan->head.rays, gates = gates_of(scan), cells = cells_of(scan);
    grid->ledger = list(gates, sizeof *grid->ledger);
    grid->marks = list(gates, sizeof *grid->marks);
    grid->counts = list(cells, sizeof *grid->counts);
    grid->quality_sums = list(cells, sizeof *grid->quality_sums);
    grid->value_sums = list(cells, sizeof *grid->value_sums);
    grid->weighted_sums = list(cells, sizeof *grid->weighted_sums);
    return uldrevin_tally(&scan->head, scan->azimuths, rays, scan->values, gates, scan->qualities, gates,
                          grid->ledger, gates, grid->marks, gates, grid->counts, cells, grid->quality_sums, cells,
                          grid->value_sums, cells, grid->weighted_sums, cells);
}

/* In the weighting that the record names. */
static uint32_t publish(const struct scan *scan, struct grid *grid)
{
    size_t cells = cells_of(scan);
    grid->means = list(cells, sizeof *grid->means);
    grid->cell_qualities = list(cells, sizeof *grid->cell_qualities);
    return uldrevin_publish(scan->head.weighting, grid->counts, cells, grid->quality_sums, cells, grid->value_sums, cells,
                            grid->weighted_sums, cells, grid->means, cells, grid->cell_qualities, cells);
}

static size_t placed_in(const struct scan *scan, const struct grid *grid)
{
    size_t placed = 0;
    for (size_t k = 0; k < gates_of(scan); k++)
        placed += scan->values[k] != ULDREVIN_NOT_MEASURED && grid->ledger[k] != ULDREVIN_OUTSIDE;
    return placed;
}

static void print_grid(const struct scan *scan, const struct grid *grid)
{
    size_t columns = (size_t)scan->head.grid.columns;
    printf("grid %zu %" PRId64 "\n", columns, scan->head.grid.rows);
    printf("gates %zu placed %zu\n", gates_of(scan), placed_in(scan, grid));
    for (size_t cell = 0; cell < cells_of(scan); cell++)
        if (grid->counts[cell] != 0)
            printf("%zu %zu %u %u %" PRIu32 "\n", cell % columns, cell / columns,
                   grid->means[cell], grid->cell_qualities[cell], grid->counts[cell]);
}

static void print_ledger(const struct scan *scan, const struct grid *grid)
{
    size_t gates = (size_t)scan->head.gates;
    printf("ledger\n");
    for (size_t k = 0; k < gates_of(scan); k++)
        if (grid->ledger[k] == ULDREVIN_OUTSIDE)
            printf("%zu %zu outside %u\n", k / gates, k % gates, grid->marks[k]);
        else
            printf("%zu %zu %" PRIu32 " %u\n", k / gates, k % gates, grid->ledger[k], grid->marks[k]);
}

int main(void)
{
    static uint8_t record[MOST_BYTES];
    struct scan scan = {0};
    struct grid grid = {0};
    size_t length = fread(record, 1, sizeof record, stdin);
    uint32_t refusal = read_scan(record, length, &scan);
    if (refusal == 0)
        refusal = tally(&scan, &grid);
    if (refusal == 0)
        refusal = publish(&scan, &grid);
    if (refusal != 0) {
        printf("refused %" PRIu32 "\n", refusal);
        return 1;
    }
    print_grid(&scan, &grid);
    print_ledger(&scan, &grid);
    return 0;
}
