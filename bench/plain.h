/* The same jobs in plain C, to compare with: rows and records in arrays of structs, changed in place. */
#ifndef PLAIN_H
#define PLAIN_H

#include <stdbool.h>
#include <stddef.h>
#include <stdint.h>

/* Two of the limits may be raised, to count what the searches would do. */
#ifndef MOST_ROWS
#define MOST_ROWS 32
#endif
#ifndef MOST_SEPARATION
#define MOST_SEPARATION 1000000
#endif

enum { MOST_PROCESSORS = 64, LONGEST_LABEL = 16 };

typedef struct {
  uint64_t threads, separation, deadline, budget;
} row_t;

typedef struct {
  const uint8_t *start;
  size_t length;
} label_t;

/* Where a label lies in some bytes. */
typedef struct {
  uint64_t start, length;
} part_t;

typedef struct {
  uint64_t processors, count;
  row_t rows[MOST_ROWS];
  label_t labels[MOST_ROWS];
} sheet_t;

typedef struct {
  uint64_t remaining, since;
} record_t;

typedef struct {
  unsigned number;
  size_t place;
} refusal_t;

/* Bytes that are read from left to right, and what they are refused by. */
typedef struct {
  const uint8_t *bytes;
  size_t count, at;
  refusal_t refusal;
} reader_t;

static inline bool refuse(reader_t *reader, unsigned number, size_t place) {
  reader->refusal = (refusal_t){number, place};
  return false;
}

/* How many bytes a number of at most three groups has. */
static inline size_t number_length(uint64_t value) { return value < 128 ? 1 : value < 16384 ? 2 : 3; }

/* Writes a number in groups of seven bits; the place after it. */
static inline uint8_t *write_number(uint8_t *to, uint64_t value) {
  for (; value >= 128; value /= 128) *to++ = (uint8_t)(128 + value % 128);
  *to++ = (uint8_t)value;
  return to;
}

/* The bound of row k by the bounds above, or 0 for none. */
typedef uint64_t search_t(const sheet_t *sheet, const uint64_t *bounds, size_t k);

/* The paper's own iteration; the search that skips; every length one after another. */
search_t paper_bound, skipping_bound, walking_bound;

/* How many lengths the searches have tried, how many stretches of them, and how many rows above they have looked at for all that they do. */
extern uint64_t lengths_tried, stretches_tried, rows_looked_at;

refusal_t plain_read(const uint8_t *bytes, size_t count, sheet_t *sheet);
bool plain_bounds(const sheet_t *sheet, search_t *search, uint64_t *bounds);
size_t plain_verdict(const uint8_t *bytes, size_t count, search_t *search, char *text);
bool legal_sheet(const sheet_t *sheet);
refusal_t plain_slot(const sheet_t *sheet, record_t *state, const uint64_t *releases, uint8_t *codes);
refusal_t plain_run(const sheet_t *sheet, record_t *state, const uint64_t *releases, size_t count, uint8_t *codes, uint64_t *done);
refusal_t plain_read_scenario(const sheet_t *sheet, const uint8_t *bytes, size_t count, uint64_t *releases, size_t room, uint64_t *slots);
refusal_t plain_write_scenario(const sheet_t *sheet, const uint64_t *releases, size_t count, uint8_t *bytes, size_t room, size_t *length);
refusal_t plain_write_sheet(const sheet_t *sheet, const uint8_t *lent, size_t count, const part_t *labels, uint8_t *bytes, size_t room, size_t *length);

#endif
