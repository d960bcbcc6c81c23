#include "plain.h"

uint64_t lengths_tried, stretches_tried, rows_looked_at;

static uint64_t smaller(uint64_t a, uint64_t b) { return a < b ? a : b; }

/* -- the reader -- */

static bool read_number(reader_t *reader, uint64_t most, unsigned zero, unsigned over, uint64_t *value) {
  size_t start = reader->at;
  *value = 0;
  for (unsigned group = 0; group < 3; group++) {
    if (reader->at == reader->count) return refuse(reader, 2, reader->count);
    uint8_t byte = reader->bytes[reader->at++];
    *value |= (uint64_t)(byte & 127) << (7 * group);
    if (byte < 128) {
      if (group > 0 && byte == 0) return refuse(reader, 3, start);
      if (*value == 0) return refuse(reader, zero, start);
      if (*value > most) return refuse(reader, over, start);
      return true;
    }
  }
  return refuse(reader, 3, start);
}

static bool read_label(reader_t *reader, label_t *label) {
  uint64_t length;
  if (!read_number(reader, LONGEST_LABEL, 6, 6, &length)) return false;
  if (reader->count - reader->at < length) return refuse(reader, 2, reader->count);
  *label = (label_t){reader->bytes + reader->at, length};
  for (size_t i = 0; i < length; i++, reader->at++)
    if (reader->bytes[reader->at] < 0x21 || reader->bytes[reader->at] > 0x7e) return refuse(reader, 6, reader->at);
  return true;
}

static bool read_row(reader_t *reader, uint64_t processors, row_t *row) {
  return read_number(reader, processors, 7, 8, &row->threads) && read_number(reader, MOST_SEPARATION, 7, 8, &row->separation) &&
         read_number(reader, row->separation, 7, 8, &row->deadline) && read_number(reader, row->deadline, 7, 8, &row->budget);
}

refusal_t plain_read(const uint8_t *bytes, size_t count, sheet_t *sheet) {
  reader_t reader = {bytes, count, 4, {0, 0}};
  if (count < 4 || bytes[0] != 0x47 || bytes[1] != 0x53 || bytes[2] != 0x48 || bytes[3] != 0x01) return (refusal_t){1, 0};
  if (!read_number(&reader, MOST_PROCESSORS, 4, 4, &sheet->processors)) return reader.refusal;
  if (!read_number(&reader, MOST_ROWS, 5, 5, &sheet->count)) return reader.refusal;
  for (size_t k = 0; k < sheet->count; k++)
    if (!read_label(&reader, &sheet->labels[k]) || !read_row(&reader, sheet->processors, &sheet->rows[k])) return reader.refusal;
  if (reader.at < count) refuse(&reader, 9, reader.at);
  return reader.refusal;
}

/* -- the bound -- */

static uint64_t work(const row_t *row, uint64_t span) {
  uint64_t jobs = span / row->separation;
  return jobs * row->budget + smaller(row->budget, span - jobs * row->separation);
}

/* The first rows above, which are added: the sum of their amounts, the threads of those that keep pace with the length and for how many slots they do, and how many rows they are. */
typedef struct {
  uint64_t sum, width, stay;
  size_t rows;
} added_t;

static void add_next(const sheet_t *sheet, const uint64_t *bounds, uint64_t length, uint64_t window, uint64_t q, added_t *added) {
  const row_t *row = &sheet->rows[added->rows];
  uint64_t span = length + bounds[added->rows] - row->budget, jobs = span / row->separation, ran = span - jobs * row->separation;
  uint64_t done = jobs * row->budget + smaller(row->budget, ran), capped = smaller(row->threads, q);
  uint64_t keeps = (ran < row->budget ? row->budget - ran : 0) + (done > window ? done - window : 0);
  added->sum += smaller(done, window) * capped;
  if (keeps > 0) {
    added->width += capped;
    added->stay = smaller(added->stay, keeps);
  }
  added->rows++;
}

/* The test of a length: rows above are added from the top until their sum reaches the room. */
static added_t test(const sheet_t *sheet, const uint64_t *bounds, size_t k, uint64_t length, uint64_t window, uint64_t q) {
  added_t added = {0, 0, MOST_SEPARATION, 0};
  lengths_tried++;
  while (added.rows < k) {
    add_next(sheet, bounds, length, window, q, &added);
    if (added.sum >= q * window) break;
  }
  rows_looked_at += added.rows;
  return added;
}

uint64_t walking_bound(const sheet_t *sheet, const uint64_t *bounds, size_t k) {
  const row_t *row = &sheet->rows[k];
  uint64_t q = sheet->processors - row->threads + 1;
  for (uint64_t length = row->budget; length <= row->deadline; length++) {
    uint64_t window = length - row->budget + 1;
    if (test(sheet, bounds, k, length, window, q).sum < q * window) return length;
  }
  return 0;
}

static uint64_t sum_above(const sheet_t *sheet, const uint64_t *bounds, size_t k, uint64_t length, uint64_t q) {
  uint64_t window = length - sheet->rows[k].budget + 1, sum = 0;
  lengths_tried++;
  rows_looked_at += k;
  for (size_t i = 0; i < k; i++) {
    const row_t *row = &sheet->rows[i];
    sum += smaller(work(row, length + bounds[i] - row->budget), window) * smaller(row->threads, q);
  }
  return sum;
}

uint64_t paper_bound(const sheet_t *sheet, const uint64_t *bounds, size_t k) {
  const row_t *row = &sheet->rows[k];
  uint64_t q = sheet->processors - row->threads + 1;
  uint64_t length = row->budget;
  while (length <= row->deadline) {
    uint64_t next = row->budget + sum_above(sheet, bounds, k, length, q) / q;
    if (next <= length) return length;
    length = next;
  }
  return 0;
}

/* A row's share of so many slots, in 256ths and at most the window. */
static uint64_t share(const row_t *row, uint64_t span, uint64_t window) { return smaller(256 * (span * row->budget) / row->separation, 256 * window); }

/* Amounts are whole: 256ths that come to more than all but one of the room fill it. */
static bool reaches(uint64_t sum, uint64_t room) { return 256 * room < sum + 256; }

/* No length up to the deadline passes where the shares of the rows above leave no room in it. */
static bool no_room(const sheet_t *sheet, const uint64_t *bounds, size_t k, uint64_t q) {
  uint64_t length = sheet->rows[k].deadline, window = length - sheet->rows[k].budget + 1, sum = 0;
  rows_looked_at += k;
  for (size_t i = 0; i < k; i++) {
    const row_t *row = &sheet->rows[i];
    sum += share(row, length + bounds[i] - row->budget, window) * smaller(row->threads, q);
  }
  return reaches(sum, q * window);
}

/* All lengths of a stretch fail where its two ends do, by amounts that grow evenly between them: a row's own while its separation lasts, or by its share if what that loses can be spared, or level. */
static bool all_fail(const sheet_t *sheet, const uint64_t *bounds, size_t k, uint64_t from, uint64_t to, uint64_t q, uint64_t spare) {
  uint64_t early = from - sheet->rows[k].budget + 1, late = to - sheet->rows[k].budget + 1, now = 0, then = 0;
  stretches_tried++;
  rows_looked_at += k;
  for (size_t i = 0; i < k; i++) {
    const row_t *row = &sheet->rows[i];
    uint64_t start = from + bounds[i] - row->budget, end = to + bounds[i] - row->budget, capped = smaller(row->threads, q), done = work(row, start);
    uint64_t first = 256 * smaller(done, early) * capped, last;
    if (start % row->separation + (to - from) <= row->separation) last = 256 * smaller(work(row, end), late) * capped;
    else {
      uint64_t shared = share(row, start, early) * capped;
      if (first - shared <= spare) {
        spare -= first - shared;
        first = shared;
        last = share(row, end, late) * capped;
      } else last = 256 * smaller(done, late) * capped;
    }
    now += first;
    then += last;
  }
  return reaches(now, q * early) && reaches(then, q * late);
}

/* The rows that the length after one that fails is planned by: those that the test added where they keep pace by themselves for as long as the window again, else all. */
static void plan_by(const sheet_t *sheet, const uint64_t *bounds, size_t k, uint64_t length, uint64_t window, uint64_t q, added_t *added) {
  if (added->width >= q && added->stay >= window) return;
  rows_looked_at += k - added->rows;
  while (added->rows < k) add_next(sheet, bounds, length, window, q, added);
}

/* The length after one that fails by so much: the rows that keep pace carry it on. */
static uint64_t next_length(uint64_t length, uint64_t q, uint64_t over, const added_t *added) {
  uint64_t level = over / q, steep = added->width < q ? smaller(added->stay, over / (q - added->width)) : added->stay;
  return length + (level > steep ? level : steep) + 1;
}

/* The length to begin with: the budget, or later where the bound of a row above that is no wider carries over. */
static uint64_t first_length(const sheet_t *sheet, const uint64_t *bounds, size_t k) {
  const row_t *row = &sheet->rows[k];
  uint64_t first = row->budget;
  rows_looked_at += k;
  for (size_t j = 0; j < k; j++) {
    const row_t *above = &sheet->rows[j];
    uint64_t later = first;
    if (row->threads < above->threads) continue;
    if (above->budget <= row->budget) later = bounds[j] - above->budget + row->budget;
    else if (sheet->processors < above->threads + row->threads) later = bounds[j];
    if (first < later) first = later;
  }
  return first;
}

uint64_t skipping_bound(const sheet_t *sheet, const uint64_t *bounds, size_t k) {
  const row_t *row = &sheet->rows[k];
  uint64_t q = sheet->processors - row->threads + 1, length = first_length(sheet, bounds, k), guess = 0;
  for (unsigned tried = 1; length <= row->deadline; tried++) {
    uint64_t window = length - row->budget + 1;
    added_t added = test(sheet, bounds, k, length, window, q);
    if (added.sum < q * window) return length;
    plan_by(sheet, bounds, k, length, window, q, &added);
    uint64_t over = added.sum - q * window, next = next_length(length, q, over, &added);
    if (tried == 5 && no_room(sheet, bounds, k, q)) return 0;
    if (tried > 8 && next <= row->deadline) {
      uint64_t twice = 2 * (next - length), reach = smaller(guess < twice ? twice : guess, row->deadline - length);
      if (all_fail(sheet, bounds, k, length, length + reach, q, 256 * over + 255)) {
        next = length + reach + 1;
        guess = 2 * reach;
      } else guess = reach / 2;
    }
    length = next;
  }
  return 0;
}

/* The bounds from the top; those after the first none are 0 too. */
bool plain_bounds(const sheet_t *sheet, search_t *search, uint64_t *bounds) {
  bool holds = true;
  for (size_t k = 0; k < sheet->count; k++) {
    bounds[k] = holds ? search(sheet, bounds, k) : 0;
    holds = bounds[k] != 0;
  }
  return holds;
}

/* -- the verdict's text -- */

static char *put(char *to, const char *text) {
  while (*text) *to++ = *text++;
  return to;
}

static char *put_number(char *to, uint64_t value) {
  char digits[20];
  size_t count = 0;
  do digits[count++] = '0' + value % 10;
  while ((value /= 10) != 0);
  while (count > 0) *to++ = digits[--count];
  return to;
}

size_t plain_verdict(const uint8_t *bytes, size_t count, search_t *search, char *text) {
  sheet_t sheet;
  char *to = text;
  refusal_t refusal = plain_read(bytes, count, &sheet);
  if (refusal.number != 0) {
    to = put_number(put(to, "NO VERDICT "), refusal.number);
    to = put(put_number(put(to, " "), refusal.place), "\n");
    return to - text;
  }
  uint64_t bounds[MOST_ROWS];
  bool holds = plain_bounds(&sheet, search, bounds), reached = true;
  for (size_t k = 0; k < sheet.count; k++) {
    to = put(put_number(to, k), " ");
    for (size_t i = 0; i < sheet.labels[k].length; i++) *to++ = sheet.labels[k].start[i];
    if (bounds[k] != 0) {
      to = put(put_number(put(to, " bound "), bounds[k]), "\n");
    } else {
      to = put(to, reached ? " none -\n" : " unreached -\n");
      reached = false;
    }
  }
  return put(to, holds ? "HOLDS\n" : "FAILS\n") - text;
}

/* -- the machine -- */

refusal_t plain_slot(const sheet_t *sheet, record_t *state, const uint64_t *releases, uint8_t *codes) {
  for (size_t k = 0; k < sheet->count; k++) {
    if (releases[k] == 0) continue;
    if (releases[k] > sheet->rows[k].budget) return (refusal_t){12, k};
    if (state[k].since < sheet->rows[k].separation) return (refusal_t){13, k};
  }
  uint64_t free = sheet->processors;
  for (size_t k = 0; k < sheet->count; k++) {
    const row_t *row = &sheet->rows[k];
    record_t *record = &state[k];
    if (releases[k] != 0) *record = (record_t){releases[k], 0};
    bool job = record->remaining != 0, runs = job && row->threads <= free;
    if (runs) {
      free -= row->threads;
      record->remaining--;
    }
    if (record->since < row->separation) record->since++;
    codes[k] = !job ? 0 : record->remaining == 0 ? 3 : record->since == row->deadline ? 4 : runs ? 2 : 1;
    if (codes[k] == 4) record->remaining = 0;
  }
  return (refusal_t){0, 0};
}

bool legal_sheet(const sheet_t *sheet) {
  if (sheet->processors < 1 || sheet->processors > MOST_PROCESSORS || sheet->count < 1 || sheet->count > MOST_ROWS) return false;
  for (size_t k = 0; k < sheet->count; k++) {
    const row_t *row = &sheet->rows[k];
    if (row->threads < 1 || row->threads > sheet->processors || row->separation < 1 || row->separation > MOST_SEPARATION || row->deadline < 1 ||
        row->deadline > row->separation || row->budget < 1 || row->budget > row->deadline)
      return false;
  }
  return true;
}

static bool legal_state(const sheet_t *sheet, const record_t *state) {
  for (size_t k = 0; k < MOST_ROWS; k++) {
    const row_t *row = &sheet->rows[k];
    const record_t *record = &state[k];
    if (k >= sheet->count) {
      if (record->remaining != 0 || record->since != 0) return false;
    } else if (record->since < 1 || record->since > row->separation || record->remaining > row->budget ||
               (record->remaining > 0 && record->since >= row->deadline)) {
      return false;
    }
  }
  return true;
}

refusal_t plain_run(const sheet_t *sheet, record_t *state, const uint64_t *releases, size_t count, uint8_t *codes, uint64_t *done) {
  *done = 0;
  if (!legal_sheet(sheet)) return (refusal_t){10, 0};
  if (!legal_state(sheet, state)) return (refusal_t){16, 0};
  if (count % sheet->count != 0) return (refusal_t){11, 0};
  for (size_t at = 0; at < count; at += sheet->count, ++*done) {
    refusal_t refusal = plain_slot(sheet, state, releases + at, codes + at);
    if (refusal.number != 0) return refusal;
  }
  return (refusal_t){0, 0};
}
