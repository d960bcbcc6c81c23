/* The C side, compiled with plain.c by each compiler; SIDE is its name. */
#include "sides.h"

static char text[1094];
static uint8_t codes[SLOTS * MOST_ROWS];
static record_t state[MOST_ROWS];
static uint64_t done, entries[SLOTS * MOST_ROWS];
static uint8_t bytes[SCENARIO_ROOM];
static size_t length;

static void verdicts_by(search_t *search) {
  for (size_t i = 0; i < sheet_count; i++) length = plain_verdict(sheets[i].bytes, sheets[i].count, search, text);
}

static void verdicts(void) { verdicts_by(skipping_bound); }

static void paper_verdicts(void) { verdicts_by(paper_bound); }

static void fresh(void) {
  for (size_t k = 0; k < MOST_ROWS; k++) state[k] = (record_t){0, k < running.count ? running.rows[k].separation : 0};
}

static void run(void) {
  fresh();
  plain_run(&running, state, releases, SLOTS * running.count, codes, &done);
}

static void one_by_one(void) {
  uint64_t one;
  size_t n = running.count;
  fresh();
  for (done = 0; done < SLOTS; done++)
    if (plain_run(&running, state, releases + done * n, n, codes + done * n, &one).number != 0) return;
}

static void read_scenario(void) { plain_read_scenario(&running, scenario, scenario_length, entries, SLOTS * MOST_ROWS, &done); }

static void write_scenario(void) { plain_write_scenario(&running, releases, SLOTS * running.count, bytes, SCENARIO_ROOM, &length); }

static void write_sheets(void) {
  for (size_t i = 0; i < unwritten_count; i++) {
    length = 0;
    plain_write_sheet(&unwritten[i].sheet, letters, LETTERS, unwritten[i].labels, bytes, SHEET_BYTES, &length);
  }
}

const side_t SIDE = {{verdicts, paper_verdicts, run, one_by_one, read_scenario, write_scenario, write_sheets}, text, codes, state, entries, bytes, &length, &done};
