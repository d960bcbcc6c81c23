/* The proved library's side: it has one search only. */
#include "../library/giachimu.h"
#include "sides.h"

static uint8_t text[GIACHIMU_TEXT_LENGTH], codes[SLOTS * MOST_ROWS], bytes[SCENARIO_ROOM];
static uint64_t state[GIACHIMU_PAIRS_LENGTH], entries[SLOTS * MOST_ROWS], done;
static size_t length, place;

static void verdicts(void) {
  for (size_t i = 0; i < sheet_count; i++) giachimu_verdict(sheets[i].bytes, sheets[i].count, text, sizeof text, &length, &place);
}

static void run(void) {
  giachimu_fresh(list, GIACHIMU_SHEET_LENGTH, state, GIACHIMU_PAIRS_LENGTH, &place);
  giachimu_run(list, GIACHIMU_SHEET_LENGTH, state, GIACHIMU_PAIRS_LENGTH, releases, SLOTS * running.count, codes, sizeof codes, &done, &place);
}

static void one_by_one(void) {
  size_t n = running.count;
  giachimu_fresh(list, GIACHIMU_SHEET_LENGTH, state, GIACHIMU_PAIRS_LENGTH, &place);
  for (done = 0; done < SLOTS; done++)
    if (giachimu_slot(list, GIACHIMU_SHEET_LENGTH, state, GIACHIMU_PAIRS_LENGTH, releases + done * n, n, codes + done * n, n, &place) != 0) return;
}

static void read_scenario(void) {
  giachimu_read_scenario(list, GIACHIMU_SHEET_LENGTH, scenario, scenario_length, entries, SLOTS * MOST_ROWS, &done, &place);
}

static void write_scenario(void) {
  giachimu_write_scenario(list, GIACHIMU_SHEET_LENGTH, releases, SLOTS * running.count, bytes, SCENARIO_ROOM, &length, &place);
}

static void write_sheets(void) {
  for (size_t i = 0; i < unwritten_count; i++) {
    length = 0;
    const unwritten_t *one = &unwritten[i];
    giachimu_write(one->list, GIACHIMU_SHEET_LENGTH, letters, LETTERS, &one->labels[0].start, GIACHIMU_PAIRS_LENGTH, bytes, SHEET_BYTES, &length, &place);
  }
}

const side_t proved = {{verdicts, verdicts, run, one_by_one, read_scenario, write_scenario, write_sheets}, text, codes, state, entries, bytes, &length, &done};
