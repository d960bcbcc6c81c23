/* How long a verdict takes by the library that this is linked with: a name and the nanoseconds of CPU, best of so many trials, for each kind of sheet. */
#include "../library/giachimu.h"
#include "sheets.h"

int printf(const char *format, ...);
struct clock_reading {
  long seconds, nanoseconds;
};
int clock_gettime(int clock, struct clock_reading *reading);

enum { SHEETS = 64, TRIALS = 15 };

static written_t batch[SHEETS];

/* The CPU time of this thread, in nanoseconds. */
static double now(void) {
  struct clock_reading reading;
  clock_gettime(3, &reading);
  return reading.seconds * 1e9 + reading.nanoseconds;
}

/* The best time of a verdict on the first sheets of the batch. */
static void measure(const char *name, size_t sheets, int times) {
  double best = 0;
  for (int trial = 0; trial < TRIALS; trial++) {
    uint8_t text[2048];
    size_t length, place;
    double start = now();
    for (int turn = 0; turn < times; turn++)
      for (size_t i = 0; i < sheets; i++) giachimu_verdict(batch[i].bytes, batch[i].count, text, sizeof text, &length, &place);
    double took = (now() - start) / (times * (double)sheets);
    if (trial == 0 || took < best) best = took;
  }
  printf("%s|%.1f\n", name, best);
}

static void many(const char *name, uint64_t rows, uint64_t longest, uint64_t load, int times) {
  uint64_t seed = 20261115;
  for (size_t i = 0; i < SHEETS; i++) {
    sheet_t sheet = ordinary(&seed, rows, longest, load);
    write_sheet(&sheet, &batch[i]);
  }
  measure(name, SHEETS, times);
}

static void one(const char *name, sheet_t sheet, int times) {
  write_sheet(&sheet, &batch[0]);
  measure(name, 1, times);
}

int main(void) {
  many("ordinary, 1 row, T to 1,000", 1, 1000, 40, 400);
  many("ordinary, 2 rows, T to 1,000", 2, 1000, 40, 300);
  many("ordinary, 4 rows, T to 1,000", 4, 1000, 40, 200);
  many("ordinary, 8 rows, T to 1,000", 8, 1000, 40, 60);
  many("ordinary, 12 rows, T to 1,000", 12, 1000, 40, 20);
  many("ordinary, 32 rows, T to 1,000", 32, 1000, 40, 5);
  many("ordinary, 12 rows, T to 1,000,000", 12, 1000000, 40, 20);
  many("ordinary, 32 rows, T to 1,000,000, load 30", 32, 1000000, 30, 5);
  many("loaded, 12 rows, T to 1,000", 12, 1000, 90, 60);
  one("hard: five rows close to full", nearly_full(1000000), 30);
  one("hard: climb 1, nearly saturated", nearly_saturated(32, 1000000), 1);
  one("hard: climb 2, two of three processors taken", two_taken(), 1);
  return 0;
}
