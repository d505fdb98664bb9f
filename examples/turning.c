/* Reads a scan record from standard input, feeds its rays one at a time to a sweep, and prints its grid, as the program sheet does. */
#include <inttypes.h>
#include <stdio.h>
#include <stdlib.h>

#include "uldrevin.h"

/* A record has at most 32,767 gates, and is shorter than this. */
#define MOST_BYTES 200000

struct scan {
    struct uldrevin_scan head;
    uint32_t *azimuths;
    uint16_t *values;
    uint8_t *qualities;
};

struct grid {
    uint32_t *ledger, *counts, *quality_sums;
    uint64_t *value_sums, *weighted_sums;
    uint16_t *means;
    uint8_t *marks, *cell_qualities;
};

static void *list(size_t numbers, size_t size)
{
    void *made = calloc(numbers, size);
    if (made == NULL) {
        fprintf(stderr, "turning: no memory\n");
        exit(2);
    }
    return made;
}

static uint32_t read_scan(const uint8_t *record, size_t length, struct scan *scan)
{
    uint32_t refusal = uldrevin_record_head(record, length, &scan->head);
    if (refusal != 0)
        return refusal;
    size_t rays = (size_t)scan->head.rays, gates = rays * (size_t)scan->head.gates;
    scan->azimuths = list(rays, sizeof *scan->azimuths);
    scan->values = list(gates, sizeof *scan->values);
    scan->qualities = list(gates, sizeof *scan->qualities);
    return uldrevin_record_read(record, length, &scan->head, scan->azimuths, rays, scan->values, gates, scan->qualities, gates);
}

static uint32_t feed(const struct scan *scan, struct grid *grid)
{
    size_t rays = (size_t)scan->head.rays, gates = (size_t)scan->head.gates;
    size_t cells = (size_t)(scan->head.grid.columns * scan->head.grid.rows);
    struct uldrevin_sweep sweep;
    grid->ledger = list(rays * gates, sizeof *grid->ledger);
    grid->marks = list(rays * gates, sizeof *grid->marks);
    grid->counts = list(cells, sizeof *grid->counts);
    grid->quality_sums = list(cells, sizeof *grid->quality_sums);
    grid->value_sums = list(cells, sizeof *grid->value_sums);
    grid->weighted_sums = list(cells, sizeof *grid->weighted_sums);
    grid->means = list(cells, sizeof *grid->means);
    grid->cell_qualities = list(cells, sizeof *grid->cell_qualities);

    uint32_t refusal = uldrevin_sweep_open(&scan->head, grid->counts, cells, grid->quality_sums, cells, grid->value_sums, cells,
                                           grid->weighted_sums, cells, &sweep);
    for (size_t ray = 0; ray < rays && refusal == 0; ray++)
        refusal = uldrevin_sweep_take(&sweep, scan->azimuths + ray, 1, scan->values + ray * gates, gates,
                                      scan->qualities + ray * gates, gates, grid->ledger, rays * gates, grid->marks, rays * gates,
                                      grid->counts, cells, grid->quality_sums, cells, grid->value_sums, cells,
                                      grid->weighted_sums, cells);
    if (refusal == 0)
        refusal = uldrevin_sweep_close(&sweep, grid->counts, cells, grid->quality_sums, cells, grid->value_sums, cells,
                                       grid->weighted_sums, cells, grid->means, cells, grid->cell_qualities, cells);
    return refusal;
}

static void print_grid(const struct uldrevin_scan *head, const struct grid *grid)
{
    size_t columns = (size_t)head->grid.columns, cells = columns * (size_t)head->grid.rows;
    uint32_t placed = 0;
    for (size_t cell = 0; cell < cells; cell++)
        placed += grid->counts[cell];
    printf("grid %zu %" PRId64 "\n", columns, head->grid.rows);
    printf("gates %" PRId64 " placed %" PRIu32 "\n", head->rays * head->gates, placed);
    for (size_t cell = 0; cell < cells; cell++)
        if (grid->counts[cell] != 0)
            printf("%zu %zu %u %u %" PRIu32 "\n", cell % columns, cell / columns,
                   grid->means[cell], grid->cell_qualities[cell], grid->counts[cell]);
}

int main(void)
{
    static uint8_t record[MOST_BYTES];
    struct scan scan = {0};
    struct grid grid = {0};
    size_t length = fread(record, 1, sizeof record, stdin);
    uint32_t refusal = read_scan(record, length, &scan);
    if (refusal == 0)
        refusal = feed(&scan, &grid);
    if (refusal != 0) {
        printf("refused %" PRIu32 "\n", refusal);
        return 1;
    }
    print_grid(&scan.head, &grid);
    return 0;
}
