/* A sheet of two programs on two processors, from its bytes to a run of slots: what a dashboard, or a box's firmware, calls. */
#include "../giachimu.h"

int printf(const char *format, ...);
int memcmp(const void *a, const void *b, size_t count);
void *memcpy(void *to, const void *from, size_t count);

static const uint8_t SHEET[] = {0x47, 0x53, 0x48, 0x01, 2, 2, 4, 'r', 'o', 'l', 'l', 2, 2, 2, 1, 4, 't', 'r', 'i', 'm', 1, 4, 4, 2};

static const char *const WORDS[] = {[GIACHIMU_UNREACHED] = "unreached", [GIACHIMU_BOUND] = "bound", [GIACHIMU_NONE] = "none"};

static void show_verdict(const uint8_t *bytes, size_t count) {
  uint8_t text[GIACHIMU_TEXT_LENGTH];
  size_t length = 0, place;
  giachimu_verdict(bytes, count, text, sizeof text, &length, &place);
  printf("%.*s", (int)length, (const char *)text);
}

static void show_bounds(const uint64_t *sheet) {
  uint64_t results[GIACHIMU_PAIRS_LENGTH], holds;
  size_t place;
  if (giachimu_bounds(sheet, GIACHIMU_SHEET_LENGTH, results, GIACHIMU_PAIRS_LENGTH, &holds, &place) != GIACHIMU_ACCEPTED) return;
  for (uint64_t row = 0; row < sheet[1]; row++) {
    size_t start, length;
    giachimu_label(SHEET, sizeof SHEET, row, &start, &length, &place);
    printf("%.*s: %s %llu\n", (int)length, (const char *)SHEET + start, WORDS[results[2 * row]], (unsigned long long)results[2 * row + 1]);
  }
}

static void show_run(const uint64_t *sheet) {
  static const uint64_t RELEASES[] = {1, 2, 0, 0, 1, 0, 0, 0, 1, 2, 0, 1};
  uint64_t state[GIACHIMU_PAIRS_LENGTH], done, job;
  uint8_t codes[12] = {0};
  int64_t margin;
  size_t place;
  giachimu_fresh(sheet, GIACHIMU_SHEET_LENGTH, state, GIACHIMU_PAIRS_LENGTH, &place);
  uint64_t number = giachimu_run(sheet, GIACHIMU_SHEET_LENGTH, state, GIACHIMU_PAIRS_LENGTH, RELEASES, 12, codes, sizeof codes, &done, &place);
  printf("%llu slots done, refusal %llu at %zu\n", (unsigned long long)done, (unsigned long long)number, place);
  for (uint64_t slot = 0; slot < done; slot++) printf("slot %llu: %d %d\n", (unsigned long long)slot, codes[2 * slot], codes[2 * slot + 1]);
  number = giachimu_margin(sheet, GIACHIMU_SHEET_LENGTH, state, GIACHIMU_PAIRS_LENGTH, 1, &job, &margin, &place);
  if (number == GIACHIMU_ACCEPTED && job == 1) printf("trim has a margin of %lld\n", (long long)margin);
  number = giachimu_margin(sheet, GIACHIMU_SHEET_LENGTH, state, GIACHIMU_PAIRS_LENGTH, 2, &job, &margin, &place);
  printf("row 2: refusal %llu\n", (unsigned long long)number);
  static const uint64_t NONE[] = {0, 0};
  giachimu_slot(sheet, GIACHIMU_SHEET_LENGTH, state, GIACHIMU_PAIRS_LENGTH, NONE, 2, codes, sizeof codes, &place);
  printf("one slot more: %d %d\n", codes[0], codes[1]);
}

static void show_further(const uint64_t *sheet) {
  static const uint64_t RELEASES[] = {1, 2, 0, 0, 1, 0, 0, 0, 1, 2, 0, 1};
  uint64_t state[GIACHIMU_PAIRS_LENGTH], worked[GIACHIMU_SHEET_LENGTH], value = 0, done;
  uint8_t codes[12];
  size_t after = 0, place;
  giachimu_number(SHEET, sizeof SHEET, 4, &value, &after, &place);
  printf("the number at 4 is %llu, and the next is at %zu\n", (unsigned long long)value, after);
  uint64_t number = giachimu_number_up_to(SHEET, sizeof SHEET, 4, 1, &value, &after, &place);
  printf("a most of 1: refusal %llu at %zu\n", (unsigned long long)number, place);
  giachimu_fixed(3, worked, GIACHIMU_SHEET_LENGTH, &place);
  bool same = true;
  for (size_t i = 0; i < GIACHIMU_SHEET_LENGTH; i++) same = same && worked[i] == sheet[i];
  printf("legal: %d, sheet D: %d\n", giachimu_legal(sheet, GIACHIMU_SHEET_LENGTH), same);
  number = giachimu_box(sheet, GIACHIMU_SHEET_LENGTH, state, GIACHIMU_PAIRS_LENGTH, RELEASES, 12, codes, sizeof codes, &done, &place);
  printf("the box: %llu slots done, refusal %llu at %zu\n", (unsigned long long)done, (unsigned long long)number, place);
}

static void show_bytes(const char *what, const uint8_t *bytes, size_t count) {
  printf("a %s of %zu bytes:", what, count);
  for (size_t i = 0; i < count; i++) printf(" %02x", bytes[i]);
  printf("\n");
}

static void show_scenario(const uint64_t *sheet) {
  static const uint64_t RELEASES[] = {1, 2, 0, 0, 1, 0};
  uint8_t bytes[GIACHIMU_SCENARIO_LENGTH(2, 3)];
  uint64_t releases[6] = {0}, slots = 0;
  size_t length = 0, place;
  giachimu_write_scenario(sheet, GIACHIMU_SHEET_LENGTH, RELEASES, 6, bytes, sizeof bytes, &length, &place);
  show_bytes("scenario", bytes, length);
  giachimu_read_scenario(sheet, GIACHIMU_SHEET_LENGTH, bytes, length, releases, 6, &slots, &place);
  printf("%llu slots:", (unsigned long long)slots);
  for (size_t i = 0; i < 6; i++) printf(" %llu", (unsigned long long)releases[i]);
  bytes[8] = 7;
  uint64_t number = giachimu_read_scenario(sheet, GIACHIMU_SHEET_LENGTH, bytes, length, releases, 6, &slots, &place);
  printf("\na slot count of 7: refusal %llu at %zu\n", (unsigned long long)number, place);
}

/* Writes a sheet whose labels lie in some bytes; how many bytes it has, or 0 and the refusal is shown. */
static size_t write_sheet(const uint64_t *sheet, const uint8_t *bytes, size_t count, const uint64_t *labels, uint8_t *written) {
  size_t length = 0, place;
  uint64_t number = giachimu_write(sheet, GIACHIMU_SHEET_LENGTH, bytes, count, labels, GIACHIMU_PAIRS_LENGTH, written, GIACHIMU_SHEET_BYTES, &length, &place);
  if (number != GIACHIMU_ACCEPTED) printf("refusal %llu at %zu\n", (unsigned long long)number, place);
  return length;
}

/* A correction from end to end: the separation of row 1, then its label, for which there is room behind the sheet's own bytes. */
static void show_correction(void) {
  uint64_t sheet[GIACHIMU_SHEET_LENGTH], labels[GIACHIMU_PAIRS_LENGTH];
  uint8_t bytes[GIACHIMU_SHEET_BYTES + GIACHIMU_LABEL_BYTES], again[GIACHIMU_SHEET_BYTES];
  size_t place;
  giachimu_read(SHEET, sizeof SHEET, sheet, GIACHIMU_SHEET_LENGTH, &place);
  giachimu_labels(SHEET, sizeof SHEET, labels, GIACHIMU_PAIRS_LENGTH, &place);
  sheet[2 + 4 * 1 + 1] = 200;
  size_t length = write_sheet(sheet, SHEET, sizeof SHEET, labels, bytes);
  show_bytes("sheet", bytes, length);
  giachimu_read(bytes, length, sheet, GIACHIMU_SHEET_LENGTH, &place);
  giachimu_labels(bytes, length, labels, GIACHIMU_PAIRS_LENGTH, &place);
  bool same = write_sheet(sheet, bytes, length, labels, again) == length && memcmp(again, bytes, length) == 0;
  printf("written as it was read, the very bytes: %d\n", same);
  memcpy(bytes + length, "heel", 4);
  labels[2 * 1] = length;
  labels[2 * 1 + 1] = 4;
  show_verdict(again, write_sheet(sheet, bytes, length + 4, labels, again));
  bytes[length] = ' ';
  printf("a label with a blank: ");
  write_sheet(sheet, bytes, length + 4, labels, again);
}

int main(void) {
  uint64_t sheet[GIACHIMU_SHEET_LENGTH];
  size_t place;
  show_verdict(SHEET, sizeof SHEET);
  printf("green: %d\n", giachimu_green(SHEET, sizeof SHEET));
  show_verdict(SHEET, sizeof SHEET - 1);
  if (giachimu_read(SHEET, sizeof SHEET, sheet, GIACHIMU_SHEET_LENGTH, &place) != GIACHIMU_ACCEPTED) return 1;
  show_bounds(sheet);
  show_run(sheet);
  show_further(sheet);
  show_scenario(sheet);
  show_correction();
  return 0;
}
