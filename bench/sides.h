/* The sides of the benchmark: the proved library, and the same plain C by each compiler. All work on the inputs that main.c has. */
#ifndef SIDES_H
#define SIDES_H

#include "sheets.h"

enum { BATCH = 64, SLOTS = 1000, SCENARIO_ROOM = 4 + SLOTS * (1 + 4 * MOST_ROWS), LETTERS = 94 };

/* Sheets to judge. */
extern const written_t *sheets;
extern size_t sheet_count;

/* A sheet to run, the same as the library's list, and the releases of its slots. */
extern sheet_t running;
extern uint64_t list[2 + 4 * MOST_ROWS], releases[SLOTS * MOST_ROWS];

/* The same releases as a scenario's bytes. */
extern uint8_t scenario[SCENARIO_ROOM];
extern size_t scenario_length;

/* A sheet to write, the same as the library's list, and where the labels of its rows lie in the letters. */
typedef struct {
  sheet_t sheet;
  uint64_t list[2 + 4 * MOST_ROWS];
  part_t labels[MOST_ROWS];
} unwritten_t;

/* Sheets to write, and the letters that labels are made of: every byte that a label may have. */
extern const unwritten_t *unwritten;
extern size_t unwritten_count;
extern uint8_t letters[LETTERS];

/* The jobs of a side: judge the sheets, by its search or by the paper's iteration; from the fresh state, a run of the slots, and the slots one by one;
 * read the scenario, and write it; write the sheets. */
enum { VERDICTS, PAPER_VERDICTS, RUN, ONE_BY_ONE, READ_SCENARIO, WRITE_SCENARIO, WRITE_SHEETS, JOBS };
typedef void job_t(void);

/* What a side does, and where what it did last is found. */
typedef struct {
  job_t *jobs[JOBS];
  const void *text, *codes, *state, *entries, *bytes;
  const size_t *length;
  const uint64_t *done;
} side_t;

/* The C by gcc is left out where no gcc makes x86-64 code. */
extern const side_t proved, plain_by_clang;
extern const side_t plain_by_gcc __attribute__((weak));

#endif
