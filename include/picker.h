/* The path picker, for C (C99) and C++, on x86-64. `./install PREFIX` puts this header, libpicker.a and picker.pc, for
 * pkg-config, under a folder. The library needs nothing but memcpy and memset of the C library.
 *
 * docs/REFERENCE.md says what charts, rows, nodes, marks and refusals are; examples/covered.c is a whole program.
 *
 * A caller owes, as nothing else can see to it:
 * - Each pointer is good for the length given with it, and aligned as its type is. Lengths count entries of that
 *   type, not bytes. A pointer with length 0 may be NULL: nothing goes
 *   through it.
 * - What a call writes overlaps nothing else that it is lent. What it only reads (pointers to const) may overlap:
 *   the old chart's table may be the new one's.
 * - No other thread writes what a call was lent, or reads what it writes, before it returns. There is no state
 *   between calls: calls on different memory may run at once, and several may read the same tables.
 * - Stack: measured, 3,040 bytes for picker_build, 3,728 for picker_read, 1,120 for picker_check, below 1,024 for
 *   each of the others (docs/API.md, "Memory"). Nothing is taken from a heap.
 * Everything else the functions test themselves, and refuse. A refusal writes to nothing that was lent.
 *
 * A chart is a count of places, the number of its alarm, and a table of rows with six entries each: from, to, op, a,
 * b, c. THE LENGTH OF A TABLE COUNTS ENTRIES, SIX FOR EACH ROW; picker_read_rows_len has it of the answer of
 * picker_read. The count of rows in its place is refused (21) only where six does not divide it; else it makes a chart
 * of a sixth of the rows, which nothing can notice. An op is a code of docs/REFERENCE.md, section 1. Entries have no
 * sign: -5 as the constant of a signed comparison, codes 24 to 29, stands as (uint32_t)-5, which is 4294967291. */
#ifndef PICKER_H
#define PICKER_H

#include <stddef.h>
#include <stdint.h>

#ifdef __cplusplus
extern "C" {
#endif

#define PICKER_VERSION "0.2.0"
/* Goes up with each change of a signature, and not with a call more. */
#define PICKER_INTERFACE 2

/* Limits of a chart. */
#define PICKER_PLACES_MAX 64
#define PICKER_ROWS_MAX 128
#define PICKER_VARIABLES 64

/* Lengths, in entries. */
#define PICKER_ROW_LEN 6        /* of a row */
#define PICKER_TABLE_LEN 768    /* of the table of picker_read: PICKER_ROWS_MAX rows */
#define PICKER_TEXT_LEN 8643    /* of the bytes of picker_write, or more: the longest text that it writes */
#define PICKER_PART_LEN 12      /* of the rows of picker_lookup: two rows */
#define PICKER_MARKS_LEN 4160   /* one for each node */
#define PICKER_TARGETS_LEN 8192 /* two for each pair */
#define PICKER_SETS_LEN 4096    /* one for each pair */
#define PICKER_WAITING_LEN 4096 /* one for each pair */

/* Charts, as picker_lookup takes them and picker_chart gives them. */
#define PICKER_OLD 0 /* or the sole one */
#define PICKER_NEW 1

/* Editions of the detector, as picker_build and picker_check take them: by which rules the old chart keeps up with the
 * new one. Two rules of the second are others than in the first (docs/REFERENCE.md, section 9): where both charts write
 * the same variable otherwise, both move; and where the new alarm is met without the old one, the old one is looked for
 * behind the old assignments that follow. It can keep fewer places, and now and then more. A covered run says the same
 * in both. A RECORD DOES NOT TELL ITS EDITION, AND HAS TO BE CHECKED BY THE ONE THAT BUILT IT: the other may refuse it
 * (PICKER_BAD_RECORD). One that either passes can be relied upon, whichever built it. */
#define PICKER_FIRST_EDITION 1
#define PICKER_SECOND_EDITION 2

/* Marks. */
#define PICKER_ABSENT 0
#define PICKER_OPEN 1
#define PICKER_KEPT 2
#define PICKER_COVERED 3
#define PICKER_BEYOND 4

/* Nodes: the pair of old place p and new place q is 64 * p + q, the kept new place q is 4,096 + q. */
#define PICKER_PAIRS 4096      /* how many pairs there are */
#define PICKER_NODES 4160      /* how many nodes */
#define PICKER_START_PAIR 0    /* the start, places 0 and 0 */
#define PICKER_START_KEPT 4096 /* the start where nothing is covered, kept place 0 */
#define PICKER_NO_NODE 65535   /* the target of a row that has none: see picker_target_index */

/* Refusals. Of a text, position: an offset in it. */
#define PICKER_NO_BYTES 11   /* the text has no bytes; position 0 */
#define PICKER_BAD_BYTE 12   /* a byte that doesn't fit, or the end within a record */
#define PICKER_BAD_NUMBER 13 /* leading zero, above 4294967295, or a spare field that isn't 0: at its first digit */
#define PICKER_BAD_COUNT 14  /* records are missing (at the text's length), or bytes follow the last (at the first) */
/* Of a chart, position: a row from 0, or 0 for 1 to 3. */
#define PICKER_EMPTY_CHART 1 /* no places, or no rows */
#define PICKER_TOO_MANY 2    /* above 64 places or 128 rows; a text's row count: at its first digit */
#define PICKER_BAD_ALARM 3   /* the alarm is not below the count of places */
#define PICKER_BAD_PLACE 4   /* a place is not below the count of places */
#define PICKER_BAD_ORDER 5   /* "from" is below the previous row's */
#define PICKER_BAD_CODE 6    /* unknown op */
#define PICKER_BAD_OPERAND 7 /* a variable above 63, or an unused operand that isn't 0 */
#define PICKER_CONFLICT 8    /* beside an earlier row of its place: not two assumptions of which always one holds */
/* Of a call; chart 0. */
#define PICKER_BAD_LENGTH 21 /* a wrong length, a table that isn't whole rows, or another edition; position 0. First */
#define PICKER_BAD_SHAPE 31  /* a start, mark or target that no record has; position 0 */
#define PICKER_BAD_RECORD 32 /* a rule fails: follow no run in it. Position: an index in targets, or PICKER_AT_START */
#define PICKER_AT_START 8192

/* ---- Calls. Each returns one number, which the functions below take apart. */

/* The chart of a text, its rows at the front of the table; entries past them stay. picker_read_places, _alarm,
 * _rows, _rows_len. */
uint64_t picker_read(const uint8_t *text, size_t text_len,   /* any length */
                     uint32_t *table, size_t table_len);     /* PICKER_TABLE_LEN */

/* The text of a chart, at the front of the bytes; those past it stay. picker_write_bytes. */
uint64_t picker_write(uint32_t places, uint32_t alarm,
                      const uint32_t *rows, size_t rows_len, /* rows_len: entries, six for each row */
                      uint8_t *bytes, size_t bytes_len);     /* PICKER_TEXT_LEN or more */

/* Judges one chart: the first refusal that is due for it, PICKER_BAD_LENGTH or 1 to 8, with chart 0.
 * picker_judge_faultless. Nothing is written. */
uint64_t picker_judge(uint32_t places, uint32_t alarm,
                      const uint32_t *rows, size_t rows_len); /* rows_len: entries, six for each row */

/* The rows that leave a place of the chart named, at the front of rows; entries past them stay. picker_lookup_rows.
 * There are none where the chart named is faulty, by its length too (picker_judge says whether), where there is no
 * such chart or place, or where no row leaves the place. */
uint64_t picker_lookup(uint32_t old_places, uint32_t old_alarm,
                       const uint32_t *old_rows, size_t old_rows_len, /* old_rows_len: entries, six for each row */
                       uint32_t new_places, uint32_t new_alarm,
                       const uint32_t *new_rows, size_t new_rows_len, /* new_rows_len: entries, six for each row */
                       uint32_t chart, uint32_t place,                /* PICKER_OLD or PICKER_NEW; a place of it */
                       uint32_t *rows, size_t rows_len);              /* PICKER_PART_LEN: entries */

/* Builds the condition of two charts. picker_build_start, _open, _kept, _covered. What the four held before has no
 * effect; waiting is all 0 afterwards. With the start, marks, targets and sets are a record that picker_check
 * passes for the same edition and charts. The target of a new row that never holds (an assumption that no values meet,
 * v0 < 0) is PICKER_NO_NODE, and nothing is explored behind it. */
uint64_t picker_build(uint32_t edition,                              /* PICKER_FIRST_EDITION or _SECOND_EDITION */
                      uint32_t old_places, uint32_t old_alarm,
                      const uint32_t *old_rows, size_t old_rows_len, /* old_rows_len: entries, six for each row */
                      uint32_t new_places, uint32_t new_alarm,
                      const uint32_t *new_rows, size_t new_rows_len, /* new_rows_len: entries, six for each row */
                      uint8_t *marks, size_t marks_len,              /* PICKER_MARKS_LEN */
                      uint16_t *targets, size_t targets_len,         /* PICKER_TARGETS_LEN: picker_target_index */
                      uint64_t *sets, size_t sets_len,               /* PICKER_SETS_LEN: bit i for variable i */
                      uint8_t *waiting, size_t waiting_len);         /* PICKER_WAITING_LEN */

/* Checks a record, whoever made it, by the rules of an edition. picker_check_passed. Nothing is written. Targets of new
 * rows that never hold are below PICKER_NODES or PICKER_NO_NODE, as all are (PICKER_BAD_SHAPE); else they are not
 * looked at. */
uint64_t picker_check(uint32_t edition,                              /* that of picker_build */
                      uint32_t old_places, uint32_t old_alarm,
                      const uint32_t *old_rows, size_t old_rows_len, /* old_rows_len: entries, six for each row */
                      uint32_t new_places, uint32_t new_alarm,
                      const uint32_t *new_rows, size_t new_rows_len, /* new_rows_len: entries, six for each row */
                      uint32_t start,                                /* PICKER_START_PAIR or PICKER_START_KEPT */
                      const uint8_t *marks, size_t marks_len,        /* PICKER_MARKS_LEN */
                      const uint16_t *targets, size_t targets_len,   /* PICKER_TARGETS_LEN */
                      const uint64_t *sets, size_t sets_len);        /* PICKER_SETS_LEN */

/* ---- Answers. A refusal is number * 2^56 + chart * 2^48 + position; a success is below 2^56, a + b * 2^14 + c *
 * 2^28 + d * 2^42. */

static inline int picker_refused(uint64_t answer) { return answer >> 56 != 0; }

/* Of a refusal; of a success each is 0. */
static inline uint32_t picker_number(uint64_t answer) { return (uint32_t)(answer >> 56); }
static inline uint32_t picker_chart(uint64_t answer)
{
    return picker_refused(answer) ? (uint32_t)(answer >> 48) & 0xff : 0;
}
static inline uint32_t picker_position(uint64_t answer) { return picker_refused(answer) ? (uint32_t)answer : 0; }

/* The numbers a, b, c, d of a success, which 0 to 3; 0 for any other which, and of a refusal. The named ones below
 * say the same. */
static inline uint32_t picker_value(uint64_t answer, int which)
{
    return picker_refused(answer) || which < 0 || which > 3 ? 0 : (uint32_t)(answer >> (14 * which)) & 0x3fff;
}

/* Of picker_read; of a refusal each is 0, so that whoever goes on is refused again. */
static inline uint32_t picker_read_places(uint64_t answer) { return picker_value(answer, 0); }
static inline uint32_t picker_read_alarm(uint64_t answer) { return picker_value(answer, 1); }
static inline uint32_t picker_read_rows(uint64_t answer) { return picker_value(answer, 2); }
/* The length of the chart's table, in entries: what every call wants with its rows. */
static inline size_t picker_read_rows_len(uint64_t answer) { return (size_t)PICKER_ROW_LEN * picker_read_rows(answer); }

/* Of picker_write: how long the text is. Of a refusal 0. */
static inline size_t picker_write_bytes(uint64_t answer) { return picker_value(answer, 0); }

/* Of picker_judge. */
static inline int picker_judge_faultless(uint64_t answer) { return answer == 0; }

/* Of picker_lookup: how many rows were copied, 0 to 2. Of a refusal 0. */
static inline uint32_t picker_lookup_rows(uint64_t answer) { return picker_value(answer, 0); }

/* Of picker_build: the start, and how many nodes have the mark. Of a refusal PICKER_NO_NODE, and 0. */
static inline uint32_t picker_build_start(uint64_t answer)
{
    return picker_refused(answer) ? PICKER_NO_NODE : picker_value(answer, 0);
}
static inline uint32_t picker_build_open(uint64_t answer) { return picker_value(answer, 1); }
static inline uint32_t picker_build_kept(uint64_t answer) { return picker_value(answer, 2); }
static inline uint32_t picker_build_covered(uint64_t answer) { return picker_value(answer, 3); }

/* Of picker_check. */
static inline int picker_check_passed(uint64_t answer) { return answer == 0; }

/* ---- Nodes. */

/* Of places below PICKER_PLACES_MAX. */
static inline uint32_t picker_pair(uint32_t old_place, uint32_t new_place) { return 64 * old_place + new_place; }
static inline uint32_t picker_kept(uint32_t new_place) { return PICKER_PAIRS + new_place; }

static inline int picker_is_pair(uint32_t node) { return node < PICKER_PAIRS; }
/* Of a pair. */
static inline uint32_t picker_old_place(uint32_t pair) { return pair / 64; }
/* Of any node. */
static inline uint32_t picker_new_place(uint32_t node) { return node % 64; }
/* Where in targets a pair's target stands for the first row (0) or the second (1) of its new place. Whoever reads a
 * record, to follow a run or otherwise, takes PICKER_NO_NODE there if the row never holds, whatever stands in it. A
 * record of picker_build has that there; one that picker_check passed may have any node, which makes no difference to
 * a run: none takes such a row. */
static inline size_t picker_target_index(uint32_t pair, uint32_t which) { return 2 * (size_t)pair + which; }

#ifdef __cplusplus
}
#endif

#endif
