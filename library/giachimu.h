/* Giachimu for other programs: the functions of libexports.a, x86-64 code.
 *
 * Every function takes any numbers and any lists whatever; none faults, and none runs for ever. A list is a pointer and a length; where the length is
 * 0 the pointer may be NULL. A list that is written may not overlap any other, and *place and the other numbers that are written may not lie in a
 * list: the promises are for lists that are apart.
 *
 * Every function but giachimu_green and giachimu_legal answers the number of a refusal, or 0 where it is accepted, and writes the refusal's place, or 0.
 * Beside a refusal nothing else is written, save by giachimu_run and giachimu_box, which say how many slots they did before the refused one.
 *
 * A sheet's list: processors m, rows n, and then of each row threads, separation, deadline, budget.
 * A list of labels: of each row where its label starts in some bytes, and how many bytes it has.
 * A state's list: of each row remaining, since.
 * A list of results: of each row a word, and the bound or 0.
 * A release list: of each slot an entry for each row, for how many slots it is released, or 0 for no release.
 */
#ifndef GIACHIMU_H
#define GIACHIMU_H

#include <stdbool.h>
#include <stddef.h>
#include <stdint.h>

#ifdef __cplusplus
extern "C" {
#endif

/* What a call answers: accepted, or the number of its refusal. */
enum giachimu_refusal {
  GIACHIMU_ACCEPTED = 0,
  GIACHIMU_NO_SHEET = 1,           /* under four bytes, or the mark differs */
  GIACHIMU_CUT_OFF = 2,            /* the sheet ends inside a field, or the scenario inside a slot */
  GIACHIMU_BAD_NUMBER = 3,         /* a number is too long, or not written in the shortest form */
  GIACHIMU_BAD_PROCESSORS = 4,     /* processors out of range */
  GIACHIMU_BAD_ROWS = 5,           /* rows out of range */
  GIACHIMU_BAD_LABEL = 6,          /* a label's length or byte out of range (where a sheet is written: or it lies outside its bytes; the place is the row) */
  GIACHIMU_BLANK = 7,              /* threads, separation, deadline or budget is 0 */
  GIACHIMU_TOO_LARGE = 8,          /* one of these is too large */
  GIACHIMU_BYTES_AFTER = 9,        /* bytes after the last row */
  GIACHIMU_SHEET_NOT_LEGAL = 10,   /* the sheet's list is out of range, or has fewer rows than n */
  GIACHIMU_NOT_WHOLE_SLOTS = 11,   /* the release list is not n entries (a run: no multiple of n) */
  GIACHIMU_OVER_BUDGET = 12,       /* a release is over the budget; the place is the row (in a scenario's bytes: a slot count of 0 too, and its place) */
  GIACHIMU_TOO_SOON = 13,          /* a release is too soon; the place is the row */
  GIACHIMU_NO_SUCH_ROW = 14,       /* the row number is n or more (in a scenario's bytes: its place) */
  GIACHIMU_NO_ROOM = 15,           /* a list that is written is too short */
  GIACHIMU_STATE_NOT_LEGAL = 16,   /* the state's list is not legal for the sheet, has fewer records than n, or is not zero past them */
  GIACHIMU_ROW_OUT_OF_ORDER = 20   /* a scenario's row is not above the one before it in its slot */
};

/* What a row did in a slot. */
enum giachimu_code { GIACHIMU_NO_JOB = 0, GIACHIMU_WAITED = 1, GIACHIMU_RAN = 2, GIACHIMU_FINISHED = 3, GIACHIMU_MISSED = 4 };

/* The word of a row's result. */
enum giachimu_word { GIACHIMU_UNREACHED = 0, GIACHIMU_BOUND = 1, GIACHIMU_NONE = 2 };

/* The most rows of a sheet; the lengths of the lists of such a sheet (states, results and labels are pairs), and of the longest verdict. */
#define GIACHIMU_MOST_ROWS 32
#define GIACHIMU_SHEET_LENGTH (4 * GIACHIMU_MOST_ROWS + 2)
#define GIACHIMU_PAIRS_LENGTH (2 * GIACHIMU_MOST_ROWS)
#define GIACHIMU_TEXT_LENGTH 1084

/* The bytes of the longest sheet, and of the longest label. */
#define GIACHIMU_SHEET_BYTES 870
#define GIACHIMU_LABEL_BYTES 16

/* The bytes of the longest scenario of so many slots of a sheet with so many rows. */
#define GIACHIMU_SCENARIO_LENGTH(rows, slots) (4 + (slots) * (1 + 4 * (rows)))

/* Whether the bytes are a sheet whose every row has a bound: then no job is ever late. */
bool giachimu_green(const uint8_t *bytes, size_t bytes_length);

/* The text of the verdict at the start of `text`, and how many bytes it has. Refusal: 15. */
uint64_t giachimu_verdict(const uint8_t *bytes, size_t bytes_length, uint8_t *text, size_t text_length, size_t *length, size_t *place);

/* Reads a sheet's bytes into a sheet's list; places past its last row are made 0. Refusals: 1 to 9, 15. */
uint64_t giachimu_read(const uint8_t *bytes, size_t bytes_length, uint64_t *sheet, size_t sheet_length, size_t *place);

/* Where the label of a row starts in the bytes, and how many bytes it has. Refusals: 1 to 9, 14. */
uint64_t giachimu_label(const uint8_t *bytes, size_t bytes_length, size_t row, size_t *start, size_t *length, size_t *place);

/* Where the labels of all rows lie in a sheet's bytes, as a list of labels; places past the last row are made 0. Refusals: 1 to 9, 15. */
uint64_t giachimu_labels(const uint8_t *bytes, size_t bytes_length, uint64_t *labels, size_t labels_length, size_t *place);

/* Writes a sheet's list, with labels that lie in `bytes`, as a sheet's bytes, and how many these are; `written` past them is left as it was. Refusals: 10, then 6 with
 * the first row whose label is at fault as its place, then 15. */
uint64_t giachimu_write(const uint64_t *sheet, size_t sheet_length, const uint8_t *bytes, size_t bytes_length, const uint64_t *labels, size_t labels_length,
                        uint8_t *written, size_t written_length, size_t *length, size_t *place);

/* The results of a sheet's rows, and 1 in `holds` where every row has a bound, else 0; places past the last row are made 0. Refusals: 10, 15. */
uint64_t giachimu_bounds(const uint64_t *sheet, size_t sheet_length, uint64_t *results, size_t results_length, uint64_t *holds, size_t *place);

/* The fresh state of a sheet; places past its last row are made 0. Refusals: 10, 15. */
uint64_t giachimu_fresh(const uint64_t *sheet, size_t sheet_length, uint64_t *state, size_t state_length, size_t *place);

/* One slot: a release for each row (0 is none), and a code for each row. Refusals: 10, 16, 11, 15, 12, 13. */
uint64_t giachimu_slot(const uint64_t *sheet, size_t sheet_length, uint64_t *state, size_t state_length, const uint64_t *releases, size_t releases_length,
                       uint8_t *codes, size_t codes_length, size_t *place);

/* Slots one after another, n releases to each, to the first that is refused; `done` is how many were done. Refusals as for one slot. */
uint64_t giachimu_run(const uint64_t *sheet, size_t sheet_length, uint64_t *state, size_t state_length, const uint64_t *releases, size_t releases_length,
                      uint8_t *codes, size_t codes_length, uint64_t *done, size_t *place);

/* Slots one after another from the fresh state, by the box's own loop; the state after them is written, places past its last row are made 0. Refusals: 10, 15, 11, 15,
 * then as a run; by the first two nothing is done. */
uint64_t giachimu_box(const uint64_t *sheet, size_t sheet_length, uint64_t *state, size_t state_length, const uint64_t *releases, size_t releases_length,
                      uint8_t *codes, size_t codes_length, uint64_t *done, size_t *place);

/* The margin of a row: 1 in `job` and its margin where the row has a job; 0 in `job`, and no margin is written, where it has none. Refusals: 10, 16, 14. */
uint64_t giachimu_margin(const uint64_t *sheet, size_t sheet_length, const uint64_t *state, size_t state_length, size_t row, uint64_t *job, int64_t *margin,
                         size_t *place);

/* Reads a scenario's bytes into a release list for a sheet, and how many slots there are; places past them are left as they were. Refusals: 10, then by place 1, 2, 3,
 * 14, 20, 12, then 15. */
uint64_t giachimu_read_scenario(const uint64_t *sheet, size_t sheet_length, const uint8_t *bytes, size_t bytes_length, uint64_t *releases,
                                size_t releases_length, uint64_t *slots, size_t *place);

/* Writes a release list for a sheet as a scenario's bytes, and how many bytes these are; bytes past them are left as they were. Refusals: 10, 11, 12, 15. */
uint64_t giachimu_write_scenario(const uint64_t *sheet, size_t sheet_length, const uint64_t *releases, size_t releases_length, uint8_t *bytes,
                                 size_t bytes_length, size_t *length, size_t *place);

/* Whether a sheet's list is in the ranges: where it is not, the other functions refuse it by 10. */
bool giachimu_legal(const uint64_t *sheet, size_t sheet_length);

/* The worked sheets A to F, by 0 to 5, as a sheet's list; any other number is the sheet of zeros, which no function takes. Refusal: 15. */
uint64_t giachimu_fixed(size_t number, uint64_t *sheet, size_t sheet_length, size_t *place);

/* The number in groups of seven bits at a place of some bytes, and the place after it. Refusals: 2, 3. */
uint64_t giachimu_number(const uint8_t *bytes, size_t bytes_length, size_t at, uint64_t *value, size_t *after, size_t *place);

/* The same for a number from 1 to `most`. Refusals: 2, 3, 7, 8. */
uint64_t giachimu_number_up_to(const uint8_t *bytes, size_t bytes_length, size_t at, uint64_t most, uint64_t *value, size_t *after, size_t *place);

#ifdef __cplusplus
}
#endif

#endif
