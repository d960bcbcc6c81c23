/* The wire of the comparison. Answers are kept until no further case has come, so that few calls of the system serve many cases. */
#include "wire.h"

/* No header of the system is needed, so that any compiler for x86-64 will do. */
long read(int file, void *to, size_t count);
long write(int file, const void *from, size_t count);
_Noreturn void exit(int status);
void *memcpy(void *to, const void *from, size_t count);

enum { IN = 0, OUT = 1, ERR = 2, HEAD = 2, WORD = 8, BUFFER = 1 << 16 };

/* What stands on either side of a list: a number that any list may have, so that it shows where it is read, too. */
enum { GUARD = 3 };

static uint8_t input[BUFFER], output[BUFFER];
static size_t input_at, input_end, output_end;

/* The case and how much of it is taken; where its answer begins in the output, behind the answers to the cases before it. */
static uint8_t question[ROOM];
static size_t question_at, question_end, answer_from;

static void write_all(int file, const uint8_t *bytes, size_t count) {
  while (count > 0) {
    long wrote = write(file, bytes, count);
    if (wrote <= 0) exit(3);
    bytes += wrote;
    count -= (size_t)wrote;
  }
}

_Noreturn void stop(const char *what) {
  size_t length = 0;
  write_all(OUT, output, answer_from);
  while (what[length] != 0) length++;
  write_all(ERR, (const uint8_t *)"probe: ", 7);
  write_all(ERR, (const uint8_t *)what, length);
  write_all(ERR, (const uint8_t *)"\n", 1);
  exit(1);
}

/* Writes the answers so far. */
static void write_answers(void) {
  write_all(OUT, output, output_end);
  output_end = answer_from = 0;
}

/* The next byte of the input, or -1 at its end; the answers so far are written before it is waited for. */
static int next_byte(void) {
  if (input_at == input_end) {
    write_answers();
    long got = read(IN, input, BUFFER);
    if (got < 0) stop("the cases cannot be read");
    input_at = 0;
    input_end = (size_t)got;
    if (got == 0) return -1;
  }
  return input[input_at++];
}

bool next_case(void) {
  int low = next_byte();
  if (low < 0) return false;
  int high = next_byte();
  if (high < 0) stop("the last case has no whole length");
  size_t length = (size_t)low + 256 * (size_t)high;
  if (length > ROOM) stop("a case is too long");
  for (size_t i = 0; i < length; i++) {
    int byte = next_byte();
    if (byte < 0) stop("the last case is cut off");
    question[i] = (uint8_t)byte;
  }
  question_at = 0;
  question_end = length;
  if (output_end + HEAD + ROOM > BUFFER) write_answers();
  output_end += HEAD;
  return true;
}

size_t left(void) { return question_end - question_at; }

static const uint8_t *take(size_t count) {
  if (count > left()) stop("a case ends before its last part");
  const uint8_t *from = question + question_at;
  question_at += count;
  return from;
}

uint64_t take_word(void) {
  const uint8_t *from = take(WORD);
  uint64_t value = 0;
  for (int i = WORD; i-- > 0;) value = value << 8 | from[i];
  return value;
}

void take_list(list_t *list) {
  uint64_t count = take_word();
  if (count > LONGEST_LIST) stop("a list is too long");
  for (uint64_t i = 0; i < count; i++) list->numbers[1 + i] = take_word();
  list->numbers[0] = list->numbers[1 + count] = GUARD;
  list->count = count;
  list->at = count == 0 ? NULL : list->numbers + 1;
}

const uint8_t *take_rest(size_t *count) {
  *count = left();
  return *count == 0 ? NULL : take(*count);
}

void take_places(size_t *before, size_t *lent_count) {
  *before = take_word();
  *lent_count = take_word();
}

void take_room(room_t *room, size_t count, size_t before, size_t lent_count) {
  memcpy(room->bytes, take(count), count);
  room->count = count;
  if (before > count || lent_count > count - before) stop("a buffer lies outside its bytes");
  room->lent = lent_count == 0 ? NULL : room->bytes + before;
  room->lent_count = lent_count;
}

void take_counted(room_t *room) {
  size_t before, lent_count;
  take_places(&before, &lent_count);
  size_t count = take_word();
  take_room(room, count, before, lent_count);
}

void put_byte(uint8_t byte) {
  if (output_end == answer_from + HEAD + ROOM) stop("an answer is too long");
  output[output_end++] = byte;
}

void put_bytes(const uint8_t *bytes, size_t count) {
  for (size_t i = 0; i < count; i++) put_byte(bytes[i]);
}

void put_word(uint64_t value) {
  for (int i = 0; i < WORD; i++) put_byte((uint8_t)(value >> 8 * i));
}

void put_list(const list_t *list) {
  if (list->numbers[0] != GUARD || list->numbers[1 + list->count] != GUARD) stop("a list is written outside");
  for (size_t i = 0; i < list->count; i++) put_word(list->numbers[1 + i]);
}

void send_answer(void) {
  size_t length = output_end - answer_from - HEAD;
  output[answer_from] = (uint8_t)length;
  output[answer_from + 1] = (uint8_t)(length >> 8);
  answer_from = output_end;
}
