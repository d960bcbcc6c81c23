/* The wire of the comparison: each case and each answer stands behind its length, two bytes, and holds numbers of eight bytes and then plain bytes; the lowest byte is first. */
#ifndef WIRE_H
#define WIRE_H

#include <stdbool.h>
#include <stddef.h>
#include <stdint.h>

/* The most bytes of a case and of an answer, and the most numbers of a list. */
enum { ROOM = 16384, LONGEST_LIST = 1024 };

/* A list of a case, or one that is lent, between two numbers that are guards; the pointer of an empty one is NULL. */
typedef struct {
  uint64_t numbers[1 + LONGEST_LIST + 1];
  uint64_t *at;
  size_t count;
} list_t;

/* A buffer lent out of the middle of some bytes, so that those before and after it are guards; the pointer of an empty one is NULL. */
typedef struct {
  uint8_t bytes[ROOM];
  size_t count;
  uint8_t *lent;
  size_t lent_count;
} room_t;

/* Reads the next case; whether there is one. */
bool next_case(void);

/* The next parts of the case; what it does not have stops the program. */
uint64_t take_word(void);
void take_list(list_t *list);
const uint8_t *take_rest(size_t *count);
void take_places(size_t *before, size_t *lent_count);
void take_room(room_t *room, size_t count, size_t before, size_t lent_count);
void take_counted(room_t *room);
size_t left(void);

/* The next parts of the answer; a list that was written outside stops the program. */
void put_byte(uint8_t byte);
void put_bytes(const uint8_t *bytes, size_t count);
void put_word(uint64_t value);
void put_list(const list_t *list);

/* Ends the answer. */
void send_answer(void);

/* Writes the answers before this case, says on standard error what is wrong, and stops. */
_Noreturn void stop(const char *what);

#endif
