/* Reads a sheet from standard input by the library, and writes it again to standard output: its very bytes, or REFUSED with the number and the place. */
#include "../library/giachimu.h"

int printf(const char *format, ...);
long read(int file, void *to, size_t count);
long write(int file, const void *from, size_t count);

/* As many bytes as there are and have room. */
static size_t read_all(uint8_t *bytes, size_t room) {
  size_t count = 0;
  for (long more = 1; more > 0 && count < room; count += more > 0 ? (size_t)more : 0) more = read(0, bytes + count, room - count);
  return count;
}

int main(void) {
  uint8_t bytes[GIACHIMU_SHEET_BYTES + 1], written[GIACHIMU_SHEET_BYTES];
  uint64_t sheet[GIACHIMU_SHEET_LENGTH], labels[GIACHIMU_PAIRS_LENGTH];
  size_t count = read_all(bytes, sizeof bytes), length = 0, place;
  uint64_t number = giachimu_read(bytes, count, sheet, GIACHIMU_SHEET_LENGTH, &place);
  if (number == GIACHIMU_ACCEPTED) number = giachimu_labels(bytes, count, labels, GIACHIMU_PAIRS_LENGTH, &place);
  if (number == GIACHIMU_ACCEPTED)
    number = giachimu_write(sheet, GIACHIMU_SHEET_LENGTH, bytes, count, labels, GIACHIMU_PAIRS_LENGTH, written, sizeof written, &length, &place);
  if (number != GIACHIMU_ACCEPTED) return printf("REFUSED %llu %zu\n", (unsigned long long)number, place) < 0;
  return write(1, written, length) != (long)length;
}
