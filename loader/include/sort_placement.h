/* The C exports of the proved library of sort placement, for x86-64; a header for C99 and later, and for C++.

   A plan is a file of 1 to 18 blocks of 512 bytes. Each call returns 0, or the number of a refusal; a refused call has written
   nothing, neither to the output nor to *passes.

   How long an answer is: an accepted rewrite writes a file from the start of its output and leaves the bytes past it as they were.
   Bytes 2 and 3 of the output are then the block total, little-endian; sort_placement_length gives the length in bytes. An accepted
   dry run writes rows in the same way; sort_placement_rows_length gives their length.

   Buffers: plan, rows and choices must not overlap out, nor may *passes stand inside the plan. The pointers are not null, also where
   a length is 0. Nothing is kept after a call, and nothing is allocated.

   Threads: the library has no state of its own, so calls may run in any number of threads at once, on the same plan too, as long
   as each has its own output.

   Stack: a call takes at most SORT_PLACEMENT_MOST_STACK bytes of it, and on a plan of up to 20 nodes at most
   SORT_PLACEMENT_STACK_TO_20_NODES; a dry run takes at most SORT_PLACEMENT_DRY_RUN_STACK. Measured on random plans and on plans that
   were sought for it. A thread that calls needs them beside what it takes itself.

   Names: the exports have no prefix of their own. A program that links the library can have no other external symbol named
   check_order, copy_plan, ensure_sorting, parallelize_sorts, replace_with_order_preserving_variants, pushdown_sorts,
   replace_with_partial_sort or dry_run. The library uses memcpy and memset of the C library, and nothing else. What this header
   adds begins with sort_placement_ or SORT_PLACEMENT_. */
#ifndef SORT_PLACEMENT_H
#define SORT_PLACEMENT_H

#include <stddef.h>
#include <stdint.h>

#ifdef __cplusplus
extern "C" {
#endif

/* An output of this length is never too short: for a file, and for what a dry run delivers. */
#define SORT_PLACEMENT_MOST_BYTES 9216
#define SORT_PLACEMENT_DRY_RUN_BYTES 94720

/* The bytes of stack that a call takes at most: on any plan, on one of up to 20 nodes, and in a dry run. */
#define SORT_PLACEMENT_MOST_STACK 262144
#define SORT_PLACEMENT_STACK_TO_20_NODES 49152
#define SORT_PLACEMENT_DRY_RUN_STACK 1572864

/* The refusals. Of a file: */
#define SORT_PLACEMENT_LENGTH 1          /* length 0, no multiple of 512, or above 18 blocks */
#define SORT_PLACEMENT_SUM 2             /* a block's sum */
#define SORT_PLACEMENT_HEADER 3          /* a block's header or padding */
#define SORT_PLACEMENT_KIND 4            /* unknown kind, or a child count that it can't have */
#define SORT_PLACEMENT_SHAPE 5           /* records missing or left over */
#define SORT_PLACEMENT_FIELD 6           /* another field outside its rule, or union children of unequal width */
#define SORT_PLACEMENT_COLUMN 7          /* a column not below its width, or twice in one key list */
#define SORT_PLACEMENT_WIDTH 8           /* a node wider than 32 columns */
/* Of a rewrite: */
#define SORT_PLACEMENT_NO_SUCH_NODE 20   /* no node of that number */
#define SORT_PLACEMENT_PARTIAL_SORT 21   /* a tree with a partial sort is not rewritten */
#define SORT_PLACEMENT_TOO_MANY_NODES 23 /* more than 126 nodes on the way */
#define SORT_PLACEMENT_SHORT_OUTPUT 24   /* the output is shorter than what is to be written */
#define SORT_PLACEMENT_CONSTANT_SORT 25  /* pushing meets a sort whose keys are all constant */
/* Of a dry run: */
#define SORT_PLACEMENT_WRONG_ROWS 26     /* rows that break their form, or their source's declared order or constants */
#define SORT_PLACEMENT_TOO_MANY_ROWS 27  /* the sources together have more than 256 rows */
#define SORT_PLACEMENT_NOT_STEPPED 256   /* and above: 256 plus the number of the first join or aggregate, up to 381 */

/* *passes is 1 where the plan passes the order check, 0 where it does not. The check looks at orders, not at distributions.
   Refusals 1 to 8. */
uint32_t check_order(const uint8_t *plan, size_t plan_len, uint32_t *passes);

/* Reads a plan and writes it: the same bytes. Refusals 1 to 8, then 24. */
uint32_t copy_plan(const uint8_t *plan, size_t plan_len, uint8_t *out, size_t out_len);

/* The rewrites. Refusals 1 to 8, then 21, 23, 24; pushing also 25. A setting is off at zero and on at all else. */
uint32_t ensure_sorting(const uint8_t *plan, size_t plan_len, uint8_t *out, size_t out_len);
uint32_t parallelize_sorts(const uint8_t *plan, size_t plan_len, uint8_t *out, size_t out_len);
uint32_t replace_with_order_preserving_variants(const uint8_t *plan, size_t plan_len, uint8_t spr_better, uint8_t spm_better,
                                                uint8_t prefer_existing, uint8_t *out, size_t out_len);
uint32_t pushdown_sorts(const uint8_t *plan, size_t plan_len, uint8_t *out, size_t out_len);

/* One node, by its number from 0. A sort whose unbounded child meets all its keys stays as it is. Refusals 1 to 8, then 20, 24. */
uint32_t replace_with_partial_sort(const uint8_t *plan, size_t plan_len, uint32_t node, uint8_t *out, size_t out_len);

/* A dry run: the rows of the plan's sources go through it, one row through one operator in each step, and those that its root
   delivers are written to out. Rows, in and out, stand by stream, in node and stream order: a row count in four bytes, then by row
   the set of its null columns in four, column 0 the lowest bit, and each cell in eight, 0 for a null; all little-endian. Each choice
   of a step, of an operator or of a stream, takes the next byte of choices, modulo what there is to choose from; a choice of one takes
   none. A list that ends starts over, and an empty one counts as zeros.
   Refusals 1 to 8, then 256 plus a node's number, 26, 27, 24. */
uint32_t dry_run(const uint8_t *plan, size_t plan_len, const uint8_t *rows, size_t rows_len, const uint8_t *choices,
                 size_t choices_len, uint8_t *out, size_t out_len);

/* The length of the file that an accepted rewrite has written to out. */
static inline size_t sort_placement_length(const uint8_t *out) {
    return 512u * ((size_t)out[2] + 256u * (size_t)out[3]);
}

/* The length of the rows that an accepted dry run has written to out, by the streams and the width of the plan's root. */
static inline size_t sort_placement_rows_length(const uint8_t *out, size_t streams, size_t width) {
    size_t at = 0;
    for (size_t i = 0; i < streams; i++) {
        /* a dry run has at most 256 rows */
        size_t count = (size_t)out[at] + 256u * (size_t)out[at + 1];
        at += 4u + count * (4u + 8u * width);
    }
    return at;
}

#ifdef __cplusplus
}
#endif

#endif
