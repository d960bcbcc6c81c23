#include "sheets.h"

uint64_t roll(uint64_t *seed, uint64_t limit) {
  *seed ^= *seed << 13;
  *seed ^= *seed >> 7;
  *seed ^= *seed << 17;
  return *seed % limit;
}

void write_sheet(const sheet_t *sheet, written_t *written) {
  static const uint8_t MARK[] = {0x47, 0x53, 0x48, 0x01};
  uint8_t *to = written->bytes;
  for (size_t i = 0; i < sizeof MARK; i++) *to++ = MARK[i];
  to = write_number(write_number(to, sheet->processors), sheet->count);
  for (size_t k = 0; k < sheet->count; k++) {
    const row_t *row = &sheet->rows[k];
    uint64_t length = 1 + k % LONGEST_LABEL;
    to = write_number(to, length);
    for (uint64_t i = 0; i < length; i++) *to++ = 'a' + (k + i) % 26;
    to = write_number(write_number(write_number(write_number(to, row->threads), row->separation), row->deadline), row->budget);
  }
  written->count = to - written->bytes;
}

void list_sheet(const sheet_t *sheet, uint64_t *list) {
  *list++ = sheet->processors;
  *list++ = sheet->count;
  for (size_t k = 0; k < sheet->count; k++) {
    const row_t *row = &sheet->rows[k];
    *list++ = row->threads;
    *list++ = row->separation;
    *list++ = row->deadline;
    *list++ = row->budget;
  }
}

static sheet_t empty(uint64_t processors) { return (sheet_t){.processors = processors}; }

static void add(sheet_t *sheet, uint64_t threads, uint64_t separation, uint64_t deadline, uint64_t budget) {
  sheet->rows[sheet->count++] = (row_t){threads, separation, deadline, budget};
}

sheet_t ordinary(uint64_t *seed, uint64_t rows, uint64_t longest, uint64_t load) {
  sheet_t sheet = empty(16);
  for (uint64_t k = 0; k < rows; k++) {
    uint64_t threads = 1 + roll(seed, 8), separation = longest / 10 + roll(seed, longest - longest / 10) + 1;
    uint64_t share = separation * load * sheet.processors / (100 * rows * threads);
    uint64_t budget = share < 1 ? 1 : share > separation ? separation : share;
    uint64_t deadline = separation - roll(seed, (separation - budget) / 4 + 1);
    add(&sheet, threads, separation, deadline, budget);
  }
  return sheet;
}

sheet_t long_above_short(uint64_t rows, uint64_t longest) {
  sheet_t sheet = empty(MOST_PROCESSORS);
  add(&sheet, MOST_PROCESSORS, longest, longest, longest / 2);
  while (sheet.count < rows) add(&sheet, MOST_PROCESSORS, longest, longest, 1);
  return sheet;
}

sheet_t equal_wide(uint64_t rows, uint64_t longest) {
  sheet_t sheet = empty(MOST_PROCESSORS);
  while (sheet.count < rows) add(&sheet, MOST_PROCESSORS, longest, longest, longest / (2 * rows) + sheet.count);
  return sheet;
}

sheet_t largest(uint64_t rows, uint64_t longest) {
  sheet_t sheet = empty(MOST_PROCESSORS);
  while (sheet.count < rows) add(&sheet, MOST_PROCESSORS, longest, longest, longest);
  return sheet;
}

sheet_t saturated(uint64_t longest) {
  sheet_t sheet = empty(1);
  add(&sheet, 1, 2, 2, 1);
  add(&sheet, 1, 2, 2, 1);
  add(&sheet, 1, longest, longest, 1);
  return sheet;
}

sheet_t nearly_full(uint64_t longest) {
  sheet_t sheet = empty(2);
  add(&sheet, 1, 45, 45, 10);
  add(&sheet, 1, 8, 8, 1);
  add(&sheet, 2, 29, 29, 8);
  add(&sheet, 1, 56, 56, 21);
  add(&sheet, 2, longest, longest, 1880);
  return sheet;
}

sheet_t nearly_saturated(uint64_t rows, uint64_t longest) {
  sheet_t sheet = empty(1);
  add(&sheet, 1, 17, 17, 16);
  add(&sheet, 1, 155, 155, 9);
  while (sheet.count < rows) add(&sheet, 1, longest, longest, 14);
  return sheet;
}

sheet_t two_taken(void) {
  static const row_t ROWS[] = {{1, 11, 11, 11},
                               {1, 569404, 569404, 485038},
                               {1, 77, 77, 77},
                               {1, 820445, 820445, 30},
                               {1, 926885, 926885, 19},
                               {1, 956055, 956055, 18},
                               {1, 582430, 582430, 13},
                               {1, 761385, 761385, 87821},
                               {1, 612115, 612115, 70},
                               {1, 377271, 377271, 59},
                               {1, 102711, 102711, 83779},
                               {1, 80, 80, 47},
                               {1, 856823, 856823, 395838},
                               {1, 902570, 902570, 23028},
                               {1, 224505, 224505, 70},
                               {1, 720074, 720074, 252938},
                               {1, 117, 117, 12},
                               {1, 949535, 949535, 141521},
                               {2, 88, 88, 86},
                               {1, 728153, 728153, 693066},
                               {1, 848340, 848340, 19779},
                               {1, 538555, 538555, 460649},
                               {1, 856823, 856823, 473952},
                               {1, 569404, 569404, 485038},
                               {1, 37952, 37952, 37952},
                               {1, 140409, 140409, 12},
                               {1, 848339, 848339, 19779},
                               {1, 224505, 224505, 70}};
  sheet_t sheet = empty(3);
  for (size_t k = 0; k < sizeof ROWS / sizeof ROWS[0]; k++) sheet.rows[sheet.count++] = ROWS[k];
  return sheet;
}

sheet_t long_beside_always(uint64_t rows, uint64_t longest) {
  sheet_t sheet = empty(3);
  add(&sheet, 2, longest, longest, longest - longest / 1000);
  add(&sheet, 1, 1, 1, 1);
  while (sheet.count < rows) add(&sheet, 1, longest, longest, 1);
  return sheet;
}

/* Rows of random separations, with budgets raised at random while their shares stay below one processor; what is left of it. */
static double fill(uint64_t *seed, uint64_t count, uint64_t about, row_t *rows) {
  double taken = 0;
  for (uint64_t i = 0; i < count; i++) {
    uint64_t separation = about / 2 + 1 + roll(seed, about);
    rows[i] = (row_t){1, separation, separation, 1};
    taken += 1.0 / separation;
  }
  for (int turn = 0; turn < 200 && taken < 1; turn++) {
    row_t *row = &rows[roll(seed, count)];
    if (row->budget == row->separation || taken + 1.0 / row->separation >= 1) continue;
    taken += 1.0 / row->separation;
    row->budget++;
  }
  return 1 - taken;
}

sheet_t brim(uint64_t *seed, uint64_t count, uint64_t about, uint64_t rows, uint64_t longest) {
  sheet_t sheet = empty(MOST_PROCESSORS);
  double least = 1;
  row_t filled[MOST_ROWS];
  sheet.count = count;
  for (int turn = 0; turn < 20000; turn++) {
    double left = fill(seed, count, about, filled);
    if (left < 1e-12 || left >= least) continue;
    least = left;
    for (uint64_t i = 0; i < count; i++) sheet.rows[i] = filled[i];
  }
  while (sheet.count < rows) add(&sheet, MOST_PROCESSORS, longest, longest, 1);
  return sheet;
}
