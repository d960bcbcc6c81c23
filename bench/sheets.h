/* The sheets that the benchmark runs on, the same at every call. */
#ifndef SHEETS_H
#define SHEETS_H

#include "plain.h"

enum { SHEET_BYTES = 870 };

typedef struct {
  uint8_t bytes[SHEET_BYTES];
  size_t count;
} written_t;

/* A number from 0 to below the limit; the seed goes on. */
uint64_t roll(uint64_t *seed, uint64_t limit);

/* A sheet as bytes, with labels of one to sixteen letters. */
void write_sheet(const sheet_t *sheet, written_t *written);

/* The sheet as the library's list. */
void list_sheet(const sheet_t *sheet, uint64_t *list);

/* So many rows that together load the box to a part of a hundred, with separations from 1 to the longest. */
sheet_t ordinary(uint64_t *seed, uint64_t rows, uint64_t longest, uint64_t load);

/* One row of a long budget above rows of budget 1, all on all processors. */
sheet_t long_above_short(uint64_t rows, uint64_t longest);

/* Rows on all processors, with budgets that fill the longest separation together. */
sheet_t equal_wide(uint64_t rows, uint64_t longest);

/* Rows whose every number is as large as it may be. */
sheet_t largest(uint64_t rows, uint64_t longest);

/* Two rows that fill the box, and one of budget 1 below. */
sheet_t saturated(uint64_t longest);

/* Five rows close to what two processors can do. */
sheet_t nearly_full(uint64_t longest);

/* Two rows of short separations that nearly fill one processor, above rows of a long deadline: found by a climb. */
sheet_t nearly_saturated(uint64_t rows, uint64_t longest);

/* Rows on three processors of which two are nearly always taken: as a climb found it. */
sheet_t two_taken(void);

/* A long wide row beside one that always runs, above rows of budget 1: what a climb's worst sheet has in it, made as bad as it goes. */
sheet_t long_beside_always(uint64_t rows, uint64_t longest);

/* So many rows of one thread with separations about so long, whose shares fill one processor but for a hair, above rows on all processors. */
sheet_t brim(uint64_t *seed, uint64_t count, uint64_t about, uint64_t rows, uint64_t longest);

#endif
