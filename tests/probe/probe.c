/* Answers a batch of cases, from standard input to standard output, by the library for other programs; what is lent for a number holds 7 before the call. */
#include "../../library/giachimu.h"
#include "wire.h"

/* What every call but two tells first: the number of a refusal, and its place. */
static void put_told(uint64_t number, size_t place) {
  put_word(number);
  put_word(place);
}

static list_t sheet, list, releases;
static room_t room, source;

/* Kinds 1 and 2: a place, a most for the second, and bytes; the number at that place. */
static void answer_number(bool limited) {
  size_t at = take_word(), count, after = 7, place = 7;
  uint64_t most = limited ? take_word() : 0, value = 7;
  const uint8_t *bytes = take_rest(&count);
  uint64_t number = limited ? giachimu_number_up_to(bytes, count, at, most, &value, &after, &place) : giachimu_number(bytes, count, at, &value, &after, &place);
  put_told(number, place);
  put_word(value);
  put_word(after);
}

/* A reading of a sheet's bytes into a list: the sheet, or where its labels lie. */
typedef uint64_t read_t(const uint8_t *bytes, size_t bytes_length, uint64_t *list, size_t list_length, size_t *place);

/* Kinds 3 and 19: a list and bytes; what is read, in the list. */
static void answer_read(read_t *read_into) {
  size_t count, place = 7;
  take_list(&list);
  const uint8_t *bytes = take_rest(&count);
  uint64_t number = read_into(bytes, count, list.at, list.count, &place);
  put_told(number, place);
  put_list(&list);
}

/* Kind 4: a row number and bytes; where the label lies, and its bytes. */
static void answer_label(void) {
  size_t row = take_word(), count, start = 7, length = 7, place = 7;
  const uint8_t *bytes = take_rest(&count);
  uint64_t number = giachimu_label(bytes, count, row, &start, &length, &place);
  put_told(number, place);
  put_word(start);
  put_word(length);
  if (number != 0) return;
  if (start > count || length > count - start) stop("a label lies outside its bytes");
  put_bytes(bytes + start, length);
}

/* Kind 5: a sheet's list and a list; the bounds in it. */
static void answer_bounds(void) {
  uint64_t holds = 7;
  size_t place = 7;
  take_list(&sheet);
  take_list(&list);
  uint64_t number = giachimu_bounds(sheet.at, sheet.count, list.at, list.count, &holds, &place);
  put_told(number, place);
  put_word(holds);
  put_list(&list);
}

/* Kind 6: a sheet's list and a list; the fresh state in it. */
static void answer_fresh(void) {
  size_t place = 7;
  take_list(&sheet);
  take_list(&list);
  uint64_t number = giachimu_fresh(sheet.at, sheet.count, list.at, list.count, &place);
  put_told(number, place);
  put_list(&list);
}

/* All the bytes that are left, and the buffer that lies in them. */
static void take_buffer(void) {
  size_t before, lent_count;
  take_places(&before, &lent_count);
  take_room(&room, left(), before, lent_count);
}

/* The releases of a step, and all the bytes that its code buffer lies in. */
static void take_step(void) {
  take_list(&releases);
  take_buffer();
}

/* Kind 7: a sheet's and a state's list, and a step; the list and the bytes after one slot. */
static void answer_slot(void) {
  size_t place = 7;
  take_list(&sheet);
  take_list(&list);
  take_step();
  uint64_t number = giachimu_slot(sheet.at, sheet.count, list.at, list.count, releases.at, releases.count, room.lent, room.lent_count, &place);
  put_told(number, place);
  put_list(&list);
  put_bytes(room.bytes, room.count);
}

/* A run from the state of a list, or from the fresh state by the box's own loop. */
typedef uint64_t run_t(const uint64_t *sheet, size_t sheet_length, uint64_t *state, size_t state_length, const uint64_t *releases, size_t releases_length,
                       uint8_t *codes, size_t codes_length, uint64_t *done, size_t *place);

/* Kinds 8 and 14: the same; the slots done, and the list and the bytes after them. */
static void answer_run(run_t *run) {
  uint64_t done = 7;
  size_t place = 7;
  take_list(&sheet);
  take_list(&list);
  take_step();
  uint64_t number = run(sheet.at, sheet.count, list.at, list.count, releases.at, releases.count, room.lent, room.lent_count, &done, &place);
  put_told(number, place);
  put_word(done);
  put_list(&list);
  put_bytes(room.bytes, room.count);
}

/* Kind 9: a sheet's and a state's list, and a row number; its margin. */
static void answer_margin(void) {
  uint64_t job = 7;
  int64_t margin = 7;
  size_t place = 7;
  take_list(&sheet);
  take_list(&list);
  size_t row = take_word();
  uint64_t number = giachimu_margin(sheet.at, sheet.count, list.at, list.count, row, &job, &margin, &place);
  put_told(number, place);
  put_word(job);
  put_word((uint64_t)margin);
}

/* Kind 10: where the buffer lies in its bytes, how many these are, the bytes, and a sheet's bytes; the verdict's text. */
static void answer_verdict(void) {
  size_t count, length = 7, place = 7;
  take_counted(&room);
  const uint8_t *bytes = take_rest(&count);
  uint64_t number = giachimu_verdict(bytes, count, room.lent, room.lent_count, &length, &place);
  put_told(number, place);
  put_word(length);
  put_bytes(room.bytes, room.count);
}

/* Kind 11: bytes; whether no job is ever late. */
static void answer_green(void) {
  size_t count;
  const uint8_t *bytes = take_rest(&count);
  put_word(giachimu_green(bytes, count));
}

/* Kind 12: bytes; what reading them with each byte after them tells, a byte for its number and one for its place. */
static void answer_sweep(void) {
  static uint8_t longer[ROOM + 1];
  uint64_t numbers[GIACHIMU_SHEET_LENGTH];
  size_t count;
  const uint8_t *bytes = take_rest(&count);
  for (size_t i = 0; i < count; i++) longer[i] = bytes[i];
  for (unsigned last = 0; last < 256; last++) {
    size_t place = 7;
    longer[count] = (uint8_t)last;
    uint64_t number = giachimu_read(longer, count + 1, numbers, GIACHIMU_SHEET_LENGTH, &place);
    put_byte((uint8_t)number);
    put_byte((uint8_t)place);
  }
}

/* Kind 13: a sheet's list; whether it is legal. */
static void answer_legal(void) {
  take_list(&sheet);
  put_word(giachimu_legal(sheet.at, sheet.count));
}

/* Kind 15: a number and a list; the worked sheet with that number in the list. */
static void answer_fixed(void) {
  size_t place = 7;
  size_t which = take_word();
  take_list(&list);
  uint64_t number = giachimu_fixed(which, list.at, list.count, &place);
  put_told(number, place);
  put_list(&list);
}

/* Kind 16: a sheet's list, a list and bytes; the slots of the scenario, and the list. */
static void answer_read_scenario(void) {
  uint64_t slots = 7;
  size_t count, place = 7;
  take_list(&sheet);
  take_list(&list);
  const uint8_t *bytes = take_rest(&count);
  uint64_t number = giachimu_read_scenario(sheet.at, sheet.count, bytes, count, list.at, list.count, &slots, &place);
  put_told(number, place);
  put_word(slots);
  put_list(&list);
}

/* Kind 17: a sheet's list, and a step whose buffer is for the scenario; its length, and the bytes. */
static void answer_write_scenario(void) {
  size_t length = 7, place = 7;
  take_list(&sheet);
  take_step();
  uint64_t number = giachimu_write_scenario(sheet.at, sheet.count, releases.at, releases.count, room.lent, room.lent_count, &length, &place);
  put_told(number, place);
  put_word(length);
  put_bytes(room.bytes, room.count);
}

/* Kind 18: a sheet's list and bytes; what reading them with each byte after them as a scenario tells, a byte each for the number, the place, the slots and all entries. */
static void answer_scenario_sweep(void) {
  static uint8_t longer[ROOM + 1];
  size_t count;
  take_list(&sheet);
  const uint8_t *bytes = take_rest(&count);
  for (size_t i = 0; i < count; i++) longer[i] = bytes[i];
  for (unsigned last = 0; last < 256; last++) {
    uint64_t entries[8] = {7, 7, 7, 7, 7, 7, 7, 7}, slots = 7;
    size_t place = 7;
    uint8_t fold = 0;
    longer[count] = (uint8_t)last;
    uint64_t number = giachimu_read_scenario(sheet.at, sheet.count, longer, count + 1, entries, 8, &slots, &place);
    for (size_t i = 0; i < 8; i++) fold = (uint8_t)(fold * 31 + (uint8_t)entries[i]);
    put_byte((uint8_t)number);
    put_byte((uint8_t)place);
    put_byte((uint8_t)slots);
    put_byte(fold);
  }
}

/* Kind 20: a sheet's list, where its labels lie, the bytes that they lie in (as kind 10 has its buffer), and a buffer; the length, and all of these after the call. */
static void answer_write(void) {
  size_t length = 7, place = 7;
  take_list(&sheet);
  take_list(&list);
  take_counted(&source);
  take_buffer();
  uint64_t number = giachimu_write(sheet.at, sheet.count, source.lent, source.lent_count, list.at, list.count, room.lent, room.lent_count, &length, &place);
  put_told(number, place);
  put_word(length);
  put_list(&sheet);
  put_list(&list);
  put_bytes(source.bytes, source.count);
  put_bytes(room.bytes, room.count);
}

/* One case by its kind. */
static void answer(uint64_t kind) {
  switch (kind) {
    case 1: answer_number(false); break;
    case 2: answer_number(true); break;
    case 3: answer_read(giachimu_read); break;
    case 4: answer_label(); break;
    case 5: answer_bounds(); break;
    case 6: answer_fresh(); break;
    case 7: answer_slot(); break;
    case 8: answer_run(giachimu_run); break;
    case 9: answer_margin(); break;
    case 10: answer_verdict(); break;
    case 11: answer_green(); break;
    case 12: answer_sweep(); break;
    case 13: answer_legal(); break;
    case 14: answer_run(giachimu_box); break;
    case 15: answer_fixed(); break;
    case 16: answer_read_scenario(); break;
    case 17: answer_write_scenario(); break;
    case 18: answer_scenario_sweep(); break;
    case 19: answer_read(giachimu_labels); break;
    case 20: answer_write(); break;
    default: stop("a case of no kind");
  }
}

int main(void) {
  while (next_case()) {
    answer(take_word());
    send_answer();
  }
  return 0;
}
