/* A sheet written in plain C: its numbers and its labels are checked, its bytes counted, and then written. */
#include "plain.h"

void *memcpy(void *to, const void *from, size_t count);

static const uint8_t MARK[4] = {0x47, 0x53, 0x48, 0x01};

static bool legal_label(part_t label, const uint8_t *lent, size_t count) {
  if (label.length < 1 || label.length > LONGEST_LABEL || label.start > count || label.length > count - label.start) return false;
  for (size_t i = 0; i < label.length; i++)
    if (lent[label.start + i] < 0x21 || lent[label.start + i] > 0x7e) return false;
  return true;
}

static size_t row_length(const row_t *row, size_t label) {
  return number_length(label) + label + number_length(row->threads) + number_length(row->separation) + number_length(row->deadline) + number_length(row->budget);
}

static uint8_t *put_row(uint8_t *to, const row_t *row, const uint8_t *label, size_t length) {
  to = write_number(to, length);
  memcpy(to, label, length);
  to = write_number(write_number(to + length, row->threads), row->separation);
  return write_number(write_number(to, row->deadline), row->budget);
}

refusal_t plain_write_sheet(const sheet_t *sheet, const uint8_t *lent, size_t count, const part_t *labels, uint8_t *bytes, size_t room, size_t *length) {
  if (!legal_sheet(sheet)) return (refusal_t){10, 0};
  for (size_t k = 0; k < sheet->count; k++)
    if (!legal_label(labels[k], lent, count)) return (refusal_t){6, k};
  size_t needed = sizeof MARK + number_length(sheet->processors) + number_length(sheet->count);
  for (size_t k = 0; k < sheet->count; k++) needed += row_length(&sheet->rows[k], labels[k].length);
  if (needed > room) return (refusal_t){15, 0};
  memcpy(bytes, MARK, sizeof MARK);
  uint8_t *to = write_number(write_number(bytes + sizeof MARK, sheet->processors), sheet->count);
  for (size_t k = 0; k < sheet->count; k++) to = put_row(to, &sheet->rows[k], lent + labels[k].start, labels[k].length);
  *length = needed;
  return (refusal_t){0, 0};
}
