/* A scenario in plain C: read in two passes, one that checks and counts and one that fills, and written after its bytes are counted. */
#include "plain.h"

void *memset(void *to, int byte, size_t count);
int memcmp(const void *a, const void *b, size_t count);
void *memcpy(void *to, const void *from, size_t count);

static const uint8_t MARK[4] = {0x47, 0x53, 0x43, 0x01};

static bool read_number(reader_t *reader, uint64_t *value) {
  size_t first = reader->at;
  uint64_t sum = 0;
  for (unsigned shift = 0; shift < 21; shift += 7) {
    if (reader->at == reader->count) return refuse(reader, 2, reader->count);
    uint8_t byte = reader->bytes[reader->at++];
    sum |= (uint64_t)(byte & 0x7f) << shift;
    if (byte < 0x80) {
      *value = sum;
      return byte != 0 || shift == 0 || refuse(reader, 3, first);
    }
  }
  return refuse(reader, 3, first);
}

/* One slot, into entries or, where there are none, only past it. */
static bool read_slot(reader_t *reader, const sheet_t *sheet, uint64_t *entries) {
  uint64_t releases, row, count, least = 0;
  if (!read_number(reader, &releases)) return false;
  if (entries) memset(entries, 0, sheet->count * sizeof *entries);
  for (; releases > 0; releases--) {
    size_t first = reader->at;
    if (!read_number(reader, &row)) return false;
    if (row >= sheet->count) return refuse(reader, 14, first);
    if (row < least) return refuse(reader, 20, first);
    first = reader->at;
    if (!read_number(reader, &count)) return false;
    if (count == 0 || count > sheet->rows[row].budget) return refuse(reader, 12, first);
    if (entries) entries[row] = count;
    least = row + 1;
  }
  return true;
}

refusal_t plain_read_scenario(const sheet_t *sheet, const uint8_t *bytes, size_t count, uint64_t *releases, size_t room, uint64_t *slots) {
  reader_t reader = {bytes, count, sizeof MARK, {0, 0}};
  uint64_t found = 0;
  if (!legal_sheet(sheet)) return (refusal_t){10, 0};
  if (count < sizeof MARK || memcmp(bytes, MARK, sizeof MARK) != 0) return (refusal_t){1, 0};
  for (; reader.at < count; found++)
    if (!read_slot(&reader, sheet, NULL)) return reader.refusal;
  if (room / sheet->count < found) return (refusal_t){15, 0};
  reader.at = sizeof MARK;
  for (uint64_t slot = 0; slot < found; slot++) read_slot(&reader, sheet, releases + slot * sheet->count);
  *slots = found;
  return reader.refusal;
}

static uint64_t count_releases(const uint64_t *entries, size_t n) {
  uint64_t count = 0;
  for (size_t row = 0; row < n; row++) count += entries[row] != 0;
  return count;
}

static size_t slot_length(const uint64_t *entries, size_t n) {
  size_t length = number_length(count_releases(entries, n));
  for (size_t row = 0; row < n; row++)
    if (entries[row] != 0) length += number_length(row) + number_length(entries[row]);
  return length;
}

static uint8_t *put_slot(uint8_t *to, const uint64_t *entries, size_t n) {
  to = write_number(to, count_releases(entries, n));
  for (size_t row = 0; row < n; row++)
    if (entries[row] != 0) to = write_number(write_number(to, row), entries[row]);
  return to;
}

refusal_t plain_write_scenario(const sheet_t *sheet, const uint64_t *releases, size_t count, uint8_t *bytes, size_t room, size_t *length) {
  size_t n = sheet->count, needed = sizeof MARK;
  if (!legal_sheet(sheet)) return (refusal_t){10, 0};
  if (count % n != 0) return (refusal_t){11, 0};
  for (size_t at = 0; at < count; at += n)
    for (size_t row = 0; row < n; row++)
      if (releases[at + row] > sheet->rows[row].budget) return (refusal_t){12, row};
  for (size_t at = 0; at < count; at += n) needed += slot_length(releases + at, n);
  if (needed > room) return (refusal_t){15, 0};
  memcpy(bytes, MARK, sizeof MARK);
  uint8_t *to = bytes + sizeof MARK;
  for (size_t at = 0; at < count; at += n) to = put_slot(to, releases + at, n);
  *length = needed;
  return (refusal_t){0, 0};
}
