/* The proved library, and plain C by two compilers, on the same inputs in one run: of each line of each table, how often a second each side does it. */
#include "sides.h"

int printf(const char *format, ...);
int dprintf(int file, const char *format, ...);
int memcmp(const void *a, const void *b, size_t count);
void *memcpy(void *to, const void *from, size_t count);
void exit(int status);
struct clock_reading {
  long seconds, nanoseconds;
};
int clock_gettime(int clock, struct clock_reading *reading);

/* The most trials of a line; how long a trial is at least; and how long a line may take until it has no further trial. */
enum { TRIALS = 16 };
static const double TRIAL_SECONDS = 0.002, LINE_SECONDS = 1;

/* The inputs. */
static written_t batch[BATCH];
const written_t *sheets = batch;
size_t sheet_count;
sheet_t running;
uint64_t list[2 + 4 * MOST_ROWS], releases[SLOTS * MOST_ROWS];
uint8_t scenario[SCENARIO_ROOM];
size_t scenario_length;
static unwritten_t pile[BATCH];
const unwritten_t *unwritten = pile;
size_t unwritten_count;
uint8_t letters[LETTERS];

/* The sides, the proved one first; one that is left out is NULL. */
enum { SIDES = 3 };
static const side_t *const side[SIDES] = {&proved, &plain_by_gcc, &plain_by_clang};

/* -- measuring -- */

/* The CPU time of this thread, in seconds. */
static double now(void) {
  struct clock_reading reading;
  clock_gettime(3, &reading);
  return reading.seconds + reading.nanoseconds * 1e-9;
}

/* The seconds of one call, by a trial of so many. */
static double trial(job_t *job, uint64_t calls) {
  double start = now();
  for (uint64_t i = 0; i < calls; i++) job();
  return (now() - start) / calls;
}

/* The first trial that is long enough, and how many calls that is. */
static double first_trial(job_t *job, uint64_t *calls) {
  for (*calls = 1;; *calls *= 2) {
    double each = trial(job, *calls);
    if (each * *calls >= TRIAL_SECONDS) return each;
  }
}

/* One line of a table: the sides by turns, and the best trial of each as a rate, or 0 where a side is left out; the job is so many verdicts, slots or sheets. */
static void measure(const char *table, const char *name, int job, double units) {
  uint64_t calls[SIDES];
  double best[SIDES], start = now();
  for (int i = 0; i < SIDES; i++)
    if (side[i]) best[i] = first_trial(side[i]->jobs[job], &calls[i]);
  for (int k = 1; k < TRIALS && now() - start < LINE_SECONDS; k++)
    for (int i = 0; i < SIDES; i++) {
      if (!side[i]) continue;
      double each = trial(side[i]->jobs[job], calls[i]);
      if (each < best[i]) best[i] = each;
    }
  printf("%s\t%s", table, name);
  for (int i = 0; i < SIDES; i++) printf("\t%f", side[i] ? units / best[i] : 0);
  printf("\n");
}

static void differ(const char *name, const char *what) {
  dprintf(2, "the sides differ: %s: %s\n", name, what);
  exit(1);
}

/* -- verdicts -- */

/* Every sheet by itself: all sides write the same text. */
static void same_verdicts(const char *name, int job) {
  size_t count = sheet_count;
  sheet_count = 1;
  for (sheets = batch; sheets < batch + count; sheets++)
    for (int i = 0; i < SIDES; i++) {
      if (!side[i]) continue;
      side[i]->jobs[job]();
      if (*side[i]->length != *proved.length || memcmp(side[i]->text, proved.text, *proved.length) != 0) differ(name, "a verdict");
    }
  sheets = batch;
  sheet_count = count;
}

static void verdicts(const char *table, const char *name, int job) {
  same_verdicts(name, job);
  measure(table, name, job, sheet_count);
}

static void fill(uint64_t rows, uint64_t longest, uint64_t load) {
  uint64_t seed = 20261115;
  for (sheet_count = 0; sheet_count < BATCH; sheet_count++) {
    sheet_t sheet = ordinary(&seed, rows, longest, load);
    write_sheet(&sheet, &batch[sheet_count]);
  }
}

static void one(sheet_t sheet) {
  write_sheet(&sheet, &batch[0]);
  sheet_count = 1;
}

/* Ordinary and hard sheets. */
static void against(const char *table, int job) {
  fill(1, 1000, 40), verdicts(table, "ordinary, 1 row, T to 1,000", job);
  fill(2, 1000, 40), verdicts(table, "ordinary, 2 rows, T to 1,000", job);
  fill(4, 1000, 40), verdicts(table, "ordinary, 4 rows, T to 1,000", job);
  fill(8, 1000, 40), verdicts(table, "ordinary, 8 rows, T to 1,000", job);
  fill(12, 1000, 40), verdicts(table, "ordinary, 12 rows, T to 1,000", job);
  fill(32, 1000, 40), verdicts(table, "ordinary, 32 rows, T to 1,000", job);
  fill(12, 1000000, 40), verdicts(table, "ordinary, 12 rows, T to 1,000,000", job);
  fill(12, 1000, 90), verdicts(table, "loaded, 12 rows, T to 1,000", job);
  one(long_above_short(32, 1000000)), verdicts(table, "hard: a long wide row above 31 short ones", job);
  one(equal_wide(32, 1000000)), verdicts(table, "hard: 32 wide rows", job);
  one(saturated(1000000)), verdicts(table, "hard: saturated", job);
  one(nearly_full(1000000)), verdicts(table, "hard: five rows close to full", job);
  one(nearly_saturated(32, 1000000)), verdicts(table, "hard: climb 1, nearly saturated", job);
  one(two_taken()), verdicts(table, "hard: climb 2, two of three processors taken", job);
  one(long_beside_always(32, 1000000)), verdicts(table, "hard: climb 3, a long wide row beside one that always runs", job);
  uint64_t seed = 77;
  brim(&seed, 3, 10, 32, 1000000);
  one(brim(&seed, 5, 10, 32, 1000000)), verdicts(table, "hard: brim, five rows about 10 slots", job);
}

/* Sheets of 16 rows, with longer and longer separations. */
static void growth(const char *table, int job) {
  fill(16, 100, 40), verdicts(table, "T to 100", job);
  fill(16, 1000, 40), verdicts(table, "T to 1,000", job);
  fill(16, 10000, 40), verdicts(table, "T to 10,000", job);
  fill(16, 100000, 40), verdicts(table, "T to 100,000", job);
  fill(16, 1000000, 40), verdicts(table, "T to 1,000,000", job);
}

/* -- slots -- */

/* Every row releases its whole budget as soon as it may. */
static void release_at_once(void) {
  for (size_t slot = 0; slot < SLOTS; slot++)
    for (size_t k = 0; k < running.count; k++) releases[slot * running.count + k] = slot % running.rows[k].separation == 0 ? running.rows[k].budget : 0;
}

/* All sides do every slot, and come to the same codes and the same state. */
static void same_slots(const char *name, int job) {
  for (int i = 0; i < SIDES; i++) {
    if (!side[i]) continue;
    side[i]->jobs[job]();
    if (*side[i]->done != SLOTS) differ(name, "slots done");
    if (memcmp(side[i]->codes, proved.codes, SLOTS * running.count) != 0) differ(name, "codes");
    if (memcmp(side[i]->state, proved.state, MOST_ROWS * sizeof(record_t)) != 0) differ(name, "a state");
  }
}

static void slots(const char *name, uint64_t rows, int job) {
  uint64_t seed = 20261115;
  running = ordinary(&seed, rows, 100, 70);
  list_sheet(&running, list);
  release_at_once();
  same_slots(name, job);
  measure("Slots", name, job, SLOTS);
}

/* -- scenarios -- */

/* One row in so many releases a part of its budget. */
static void release_some(uint64_t often) {
  uint64_t seed = 20261116;
  for (size_t i = 0; i < SLOTS * running.count; i++) releases[i] = roll(&seed, often) == 0 ? 1 + roll(&seed, running.rows[i % running.count].budget) : 0;
}

/* All sides write the same bytes, which are kept, and read the releases back. */
static void same_scenarios(const char *name) {
  proved.jobs[WRITE_SCENARIO]();
  scenario_length = *proved.length;
  memcpy(scenario, proved.bytes, scenario_length);
  for (int i = 0; i < SIDES; i++) {
    if (!side[i]) continue;
    side[i]->jobs[WRITE_SCENARIO]();
    if (*side[i]->length != scenario_length || memcmp(side[i]->bytes, scenario, scenario_length) != 0) differ(name, "a scenario");
    side[i]->jobs[READ_SCENARIO]();
    if (*side[i]->done != SLOTS || memcmp(side[i]->entries, releases, SLOTS * running.count * sizeof *releases) != 0) differ(name, "releases");
  }
}

static void scenarios(const char *name, uint64_t rows, uint64_t often, int job) {
  uint64_t seed = 20261115;
  running = ordinary(&seed, rows, 100000, 70);
  list_sheet(&running, list);
  release_some(often);
  same_scenarios(name);
  measure("Slots of a scenario", name, job, SLOTS);
}

/* -- sheets written -- */

/* One sheet more to write, with labels of so many letters at least, taken from the letters anywhere. */
static void pile_up(sheet_t sheet, uint64_t shortest, uint64_t *seed) {
  unwritten_t *last = &pile[unwritten_count++];
  last->sheet = sheet;
  list_sheet(&sheet, last->list);
  for (size_t k = 0; k < sheet.count; k++) {
    uint64_t length = shortest + roll(seed, LONGEST_LABEL - shortest + 1);
    last->labels[k] = (part_t){roll(seed, LETTERS - length + 1), length};
  }
}

/* Every sheet by itself: all sides write it, as the same bytes. */
static void same_sheets(const char *name) {
  size_t count = unwritten_count;
  unwritten_count = 1;
  for (unwritten = pile; unwritten < pile + count; unwritten++)
    for (int i = 0; i < SIDES; i++) {
      if (!side[i]) continue;
      side[i]->jobs[WRITE_SHEETS]();
      if (*side[i]->length == 0) differ(name, "a sheet refused");
      if (*side[i]->length != *proved.length || memcmp(side[i]->bytes, proved.bytes, *proved.length) != 0) differ(name, "a sheet");
    }
  unwritten = pile;
  unwritten_count = count;
}

static void written(const char *name) {
  same_sheets(name);
  measure("A sheet written", name, WRITE_SHEETS, unwritten_count);
}

static void ordinary_written(const char *name, uint64_t rows, uint64_t longest) {
  uint64_t seed = 20261115;
  for (unwritten_count = 0; unwritten_count < BATCH;) pile_up(ordinary(&seed, rows, longest, 40), 1, &seed);
  written(name);
}

static void largest_written(const char *name) {
  uint64_t seed = 20261115;
  unwritten_count = 0;
  pile_up(largest(MOST_ROWS, MOST_SEPARATION), LONGEST_LABEL, &seed);
  written(name);
}

static void sheets_written(void) {
  for (size_t i = 0; i < LETTERS; i++) letters[i] = 0x21 + i;
  ordinary_written("1 row, T to 1,000", 1, 1000);
  ordinary_written("12 rows, T to 1,000", 12, 1000);
  ordinary_written("12 rows, T to 1,000,000", 12, 1000000);
  largest_written("32 longest rows");
}

int main(void) {
  against("Verdicts, against the same search in C", VERDICTS);
  slots("a run, 2 rows", 2, RUN);
  slots("one by one, 2 rows", 2, ONE_BY_ONE);
  slots("a run, 8 rows", 8, RUN);
  slots("one by one, 8 rows", 8, ONE_BY_ONE);
  slots("a run, 32 rows", 32, RUN);
  slots("one by one, 32 rows", 32, ONE_BY_ONE);
  scenarios("read, 2 rows, each row released", 2, 1, READ_SCENARIO);
  scenarios("read, 2 rows, one in 20", 2, 20, READ_SCENARIO);
  scenarios("read, 8 rows, one in 4", 8, 4, READ_SCENARIO);
  scenarios("read, 32 rows, each row released", 32, 1, READ_SCENARIO);
  scenarios("read, 32 rows, one in 20", 32, 20, READ_SCENARIO);
  scenarios("written, 2 rows, each row released", 2, 1, WRITE_SCENARIO);
  scenarios("written, 2 rows, one in 20", 2, 20, WRITE_SCENARIO);
  scenarios("written, 8 rows, one in 4", 8, 4, WRITE_SCENARIO);
  scenarios("written, 32 rows, each row released", 32, 1, WRITE_SCENARIO);
  scenarios("written, 32 rows, one in 20", 32, 20, WRITE_SCENARIO);
  sheets_written();
  against("Verdicts, against the paper's iteration in C", PAPER_VERDICTS);
  growth("Growth with T, against the paper's iteration in C (16 rows, loaded to 40 in a hundred)", PAPER_VERDICTS);
  return 0;
}
