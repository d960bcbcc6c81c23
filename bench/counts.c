/* How many lengths each search tries: every length in turn, the paper's iteration, and the search that skips, with the stretches that it tries too and the rows that it looks at.
 * counts: the families.   counts climb SEED CLIMBS: the worst sheet that random climbs on the count come to, and the time that it takes here. */
#include <stdio.h>
#include <stdlib.h>
#include <string.h>
#include <time.h>

#include "sheets.h"

/* Whether a limit is raised. */
enum { RAISED = MOST_SEPARATION > 1000000 || MOST_ROWS > 32 };

static uint64_t count(const sheet_t *sheet, search_t *search) {
  uint64_t bounds[MOST_ROWS];
  lengths_tried = stretches_tried = rows_looked_at = 0;
  plain_bounds(sheet, search, bounds);
  return lengths_tried + stretches_tried;
}

static void show(const sheet_t *sheet) {
  printf("m = %llu, rows", (unsigned long long)sheet->processors);
  for (size_t k = 0; k < sheet->count; k++) {
    const row_t *row = &sheet->rows[k];
    printf(" (%llu,%llu,%llu,%llu)", (unsigned long long)row->threads, (unsigned long long)row->separation, (unsigned long long)row->deadline,
           (unsigned long long)row->budget);
  }
  printf("\n");
}

/* How many lengths a search tries on some sheets together. */
static uint64_t together(const sheet_t *sheets, size_t many, search_t *search) {
  uint64_t lengths = 0, stretches = 0, rows = 0;
  for (size_t i = 0; i < many; i++) {
    count(&sheets[i], search);
    lengths += lengths_tried;
    stretches += stretches_tried;
    rows += rows_looked_at;
  }
  lengths_tried = lengths;
  stretches_tried = stretches;
  rows_looked_at = rows;
  return lengths;
}

/* One line of the table, on some sheets together; with raised limits only the search itself, which ends soon, and every length in turn on a single sheet only. */
static void lines(const char *name, const sheet_t *sheets, size_t many) {
  printf("| %s | ", name);
  if (RAISED || many > 1)
    printf("- | ");
  else
    printf("%llu | ", (unsigned long long)together(sheets, many, walking_bound));
  if (RAISED)
    printf("- | ");
  else
    printf("%llu | ", (unsigned long long)together(sheets, many, paper_bound));
  together(sheets, many, skipping_bound);
  printf("%llu + %llu | %llu |\n", (unsigned long long)lengths_tried, (unsigned long long)stretches_tried, (unsigned long long)rows_looked_at);
}

static void line(const char *name, sheet_t sheet) { lines(name, &sheet, 1); }

/* So many rows on each of 64 sheets. */
static void ordinary_line(const char *name, uint64_t rows, uint64_t longest, uint64_t load) {
  enum { SHEETS = 64 };
  static sheet_t sheets[SHEETS];
  uint64_t seed = 20261115;
  for (size_t i = 0; i < SHEETS; i++) sheets[i] = ordinary(&seed, rows, longest, load);
  lines(name, sheets, SHEETS);
}

/* The ordinary sheets that the benchmark is timed on. */
static void ordinary_lines(void) {
  ordinary_line("64 ordinary sheets, 1 row, T to 1,000", 1, 1000, 40);
  ordinary_line("64 ordinary sheets, 2 rows, T to 1,000", 2, 1000, 40);
  ordinary_line("64 ordinary sheets, 4 rows, T to 1,000", 4, 1000, 40);
  ordinary_line("64 ordinary sheets, 8 rows, T to 1,000", 8, 1000, 40);
  ordinary_line("64 ordinary sheets, 12 rows, T to 1,000", 12, 1000, 40);
  ordinary_line("64 ordinary sheets, 32 rows, T to 1,000", 32, 1000, 40);
  ordinary_line("64 ordinary sheets, 12 rows, T to 1,000,000", 12, 1000000, 40);
  ordinary_line("64 ordinary sheets, 32 rows, T to 1,000,000, load 30", 32, 1000000, 30);
  ordinary_line("64 loaded sheets, 12 rows, T to 1,000", 12, 1000, 90);
}

static sheet_t any_sheet(uint64_t *seed, uint64_t most_rows) {
  sheet_t sheet = {.processors = 1 + roll(seed, 8), .count = 2 + roll(seed, most_rows - 1)};
  for (size_t k = 0; k < sheet.count; k++) {
    uint64_t separation = 1 + roll(seed, roll(seed, 2) ? MOST_SEPARATION : 1000), budget = 1 + roll(seed, separation / sheet.count + 1);
    sheet.rows[k] = (row_t){1 + roll(seed, sheet.processors), separation, separation, budget < separation ? budget : separation};
  }
  return sheet;
}

/* Random sheets, together and the worst of them. */
static void random_lines(void) {
  enum { SHEETS = 3000 };
  static sheet_t sheets[SHEETS];
  uint64_t seed = 20261115, most = 0;
  const sheet_t *worst = sheets;
  for (size_t i = 0; i < SHEETS; i++) {
    sheets[i] = any_sheet(&seed, 32);
    uint64_t tried = count(&sheets[i], skipping_bound);
    if (tried > most) most = tried, worst = &sheets[i];
  }
  lines("3,000 random sheets, together", sheets, SHEETS);
  line("the worst of them", *worst);
}

/* A small change of a sheet that leaves it legal. */
static void change(sheet_t *sheet, uint64_t *seed) {
  row_t *row = &sheet->rows[roll(seed, sheet->count)];
  switch (roll(seed, 9)) {
    case 0:
      sheet->processors = 1 + roll(seed, 4);
      break;
    case 1:
      if (sheet->count < MOST_ROWS) sheet->rows[sheet->count] = *row, sheet->count++;
      break;
    case 2:
      if (sheet->count > 2) *row = sheet->rows[--sheet->count];
      break;
    case 3:
      row->threads = 1 + roll(seed, sheet->processors);
      break;
    case 4:
      row->separation = 1 + roll(seed, MOST_SEPARATION);
      break;
    case 5:
      row->separation = 1 + roll(seed, 200);
      break;
    case 6:
      row->budget = 1 + roll(seed, row->separation);
      break;
    case 7:
      row->budget += roll(seed, 3);
      row->budget -= row->budget > 1;
      break;
    default:
      row->separation += roll(seed, 5);
      row->separation -= row->separation > 2 ? 2 : 0;
      break;
  }
  for (size_t k = 0; k < sheet->count; k++) {
    row_t *each = &sheet->rows[k];
    if (each->threads > sheet->processors) each->threads = sheet->processors;
    if (each->separation > MOST_SEPARATION) each->separation = MOST_SEPARATION;
    if (each->budget > each->separation) each->budget = each->separation;
    each->deadline = each->separation;
  }
}

/* A change by one of a short row, for sheets that are full to the brim. */
static void nudge(sheet_t *sheet, uint64_t *seed) {
  row_t *row = &sheet->rows[roll(seed, sheet->count)];
  if (row->separation > 200) return;
  row->separation += roll(seed, 3);
  row->separation -= row->separation > 1;
  row->budget += roll(seed, 3);
  row->budget -= row->budget > 1;
  if (row->budget > row->separation) row->budget = row->separation;
  row->deadline = row->separation;
}

/* A climb from a sheet: 1,500 changes, each kept where it does not lower the count, or fewer where the lengths of all come to 100 million. */
static uint64_t climbed(sheet_t *sheet, uint64_t *seed, void (*changed)(sheet_t *, uint64_t *)) {
  uint64_t tried = count(sheet, skipping_bound), all = tried;
  for (int step = 0; step < 1500 && all < 100000000; step++) {
    sheet_t other = *sheet;
    changed(&other, seed);
    if (roll(seed, 2)) changed(&other, seed);
    uint64_t with = count(&other, skipping_bound);
    all += with;
    if (with >= tried) *sheet = other, tried = with;
  }
  return tried;
}

/* Climbs from random sheets and from ones that are full to the brim, by turns. */
static void climb(uint64_t seed, uint64_t climbs) {
  uint64_t most = 0;
  sheet_t worst = {0};
  for (uint64_t i = 0; i < climbs; i++) {
    bool full = i % 2 == 1;
    uint64_t rows = 3 + roll(&seed, 18);
    sheet_t sheet = full ? brim(&seed, rows, 10 + roll(&seed, 71), rows + 1 + roll(&seed, MOST_ROWS - rows), MOST_SEPARATION) : any_sheet(&seed, 8);
    uint64_t tried = climbed(&sheet, &seed, full ? nudge : change);
    if (tried > most) most = tried, worst = sheet;
  }
  clock_t start = clock();
  count(&worst, skipping_bound);
  printf("T to %d: %llu + %llu, %.3f s in C here: ", MOST_SEPARATION, (unsigned long long)lengths_tried, (unsigned long long)stretches_tried,
         (double)(clock() - start) / CLOCKS_PER_SEC);
  show(&worst);
}

int main(int arguments, char **words) {
  if (arguments == 4 && strcmp(words[1], "climb") == 0) {
    climb(strtoull(words[2], NULL, 10) * 7919 + 88172645463325252u, strtoull(words[3], NULL, 10));
    return 0;
  }
  printf("| sheet (%d rows, T to %d) | every length | paper's iteration | the search | rows looked at |\n|---|---|---|---|---|\n", MOST_ROWS, MOST_SEPARATION);
  if (!RAISED) ordinary_lines();
  line("a long wide row above short ones", long_above_short(MOST_ROWS, MOST_SEPARATION));
  line("wide rows, budgets up by one", equal_wide(MOST_ROWS, MOST_SEPARATION));
  random_lines();
  line("saturated", saturated(MOST_SEPARATION));
  line("five rows close to full", nearly_full(MOST_SEPARATION));
  line("climb 1: two short rows that nearly fill a processor", nearly_saturated(MOST_ROWS, MOST_SEPARATION));
  line("climb 2: two of three processors taken", two_taken());
  line("climb 3: a long wide row beside one that always runs", long_beside_always(MOST_ROWS, MOST_SEPARATION));
  uint64_t seed = 77;
  static const uint64_t BRIMS[][2] = {{3, 10}, {5, 10}, {15, 80}, {20, 40}, {28, 80}};
  for (size_t i = 0; i < sizeof BRIMS / sizeof BRIMS[0]; i++) {
    char name[40];
    snprintf(name, sizeof name, "brim: %llu rows about %llu slots", (unsigned long long)BRIMS[i][0], (unsigned long long)BRIMS[i][1]);
    line(name, brim(&seed, BRIMS[i][0], BRIMS[i][1], MOST_ROWS, MOST_SEPARATION));
  }
  return 0;
}
