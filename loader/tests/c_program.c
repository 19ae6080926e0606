/* Calls every export of the library through the header, and prints the answers; dry_run where HAS_DRY_RUN is defined. */
#include "sort_placement.h"
#include <stdio.h>
#include <string.h>

/* A source of one stream and one column. */
static void one_source(uint8_t block[512]) {
    block[2] = 1;
    block[4] = 1;
    block[8] = 1;
    block[8 + 2] = 1;
    block[8 + 13] = 1;
    block[508] = 5;
}

static uint8_t plan[512], out[SORT_PLACEMENT_MOST_BYTES];

/* A rewrite's number, and how much it wrote. */
static void print_rewrite(const char *name, uint32_t number) {
    if (number == 0)
        printf("%s 0 %zu\n", name, sort_placement_length(out));
    else
        printf("%s %u\n", name, number);
    out[2] = out[3] = 0;
}

#ifdef HAS_DRY_RUN
/* The rows of the one source come back. */
static void print_dry_run(void) {
    static uint8_t rows[4 + 2 * 12], delivered[SORT_PLACEMENT_DRY_RUN_BYTES];
    const uint8_t choices[] = {1, 0};
    rows[0] = 2;
    rows[8] = 7;
    rows[16] = 1;
    uint32_t number = dry_run(plan, sizeof plan, rows, sizeof rows, choices, sizeof choices, delivered, sizeof delivered);
    size_t length = sort_placement_rows_length(delivered, 1, 1);
    printf("dry_run %u %zu %d\n", number, length, memcmp(rows, delivered, sizeof rows) == 0);
    /* the null of the second row has a cell */
    rows[20] = 1;
    number = dry_run(plan, sizeof plan, rows, sizeof rows, choices, 0, delivered, sizeof delivered);
    printf("wrong rows %d\n", number == SORT_PLACEMENT_WRONG_ROWS);
}
#endif

/* How many of the refusals' numbers differ from the one before. */
static int refusals(void) {
    const uint32_t numbers[] = {
        SORT_PLACEMENT_LENGTH,        SORT_PLACEMENT_SUM,          SORT_PLACEMENT_HEADER,         SORT_PLACEMENT_KIND,
        SORT_PLACEMENT_SHAPE,         SORT_PLACEMENT_FIELD,        SORT_PLACEMENT_COLUMN,         SORT_PLACEMENT_WIDTH,
        SORT_PLACEMENT_NO_SUCH_NODE,  SORT_PLACEMENT_PARTIAL_SORT, SORT_PLACEMENT_TOO_MANY_NODES, SORT_PLACEMENT_SHORT_OUTPUT,
        SORT_PLACEMENT_CONSTANT_SORT, SORT_PLACEMENT_WRONG_ROWS,   SORT_PLACEMENT_TOO_MANY_ROWS,  SORT_PLACEMENT_NOT_STEPPED,
    };
    uint32_t last = 0;
    int count = 0;
    for (size_t i = 0; i < sizeof numbers / sizeof *numbers; i++) {
        count += numbers[i] > last;
        last = numbers[i];
    }
    return count;
}

int main(void) {
    uint32_t passes = 7;
    one_source(plan);
    uint32_t number = check_order(plan, sizeof plan, &passes);
    printf("check %u %u\n", number, passes);
    printf("short %d\n", check_order(plan, 511, &passes) == SORT_PLACEMENT_LENGTH);
    print_rewrite("copy", copy_plan(plan, sizeof plan, out, sizeof out));
    print_rewrite("ensure", ensure_sorting(plan, sizeof plan, out, sizeof out));
    print_rewrite("parallelize", parallelize_sorts(plan, sizeof plan, out, sizeof out));
    print_rewrite("preserve", replace_with_order_preserving_variants(plan, sizeof plan, 1, 0, 0, out, sizeof out));
    print_rewrite("push", pushdown_sorts(plan, sizeof plan, out, sizeof out));
    print_rewrite("partial", replace_with_partial_sort(plan, sizeof plan, 1, out, sizeof out));
#ifdef HAS_DRY_RUN
    print_dry_run();
#endif
    printf("refusals %d\n", refusals());
    return 0;
}
