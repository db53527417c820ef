/* covered OLD.csv NEW.csv [ROW ..]: says of a list of rows of the new chart, counted from 0, whether it is covered by
 * the old chart. Ends with 0 if it is, 1 if it has to be walked again, 2 if nothing can be said.
 *
 *     ./install PREFIX && export PKG_CONFIG_PATH=PREFIX/lib/pkgconfig
 *     cc examples/covered.c $(pkg-config --cflags --libs picker) -o covered
 *     ./covered samples/old.csv samples/new.csv 0 1
 *
 * A record says something only if picker_check passes it, for these two charts and as it stands now: then no run that
 * it covers shows a new fault. A mark 3 in any other record means nothing. So this program follows one record alone,
 * in memory of its own: the one that it has just built and checked. For runs either would do. What picker_build makes
 * always passes, which is proved; a record from elsewhere has to be checked, each time that it or a chart was out of
 * hand.
 *
 * Whoever reads a record takes PICKER_NO_NODE for the target of a row that never holds (v0 < 0). This program does not
 * test for such rows, and need not: in a record that was built these targets are PICKER_NO_NODE. In one that was only
 * checked they may be any node. For a run even so the answer would be the same, as no run takes such a row; for a list
 * that no values let through it might be "covered" where it is "walk again". */
#include <stdio.h>
#include <stdlib.h>

#include "picker.h"

/* Enough of a file: no faultless chart is longer, and a longer text is refused by what stands in these bytes. */
#define FILE_LEN 16384

/* A record says nothing of its edition: it is checked by the one that built it. */
#define EDITION PICKER_FIRST_EDITION

struct chart {
    uint32_t places;
    uint32_t alarm;
    uint32_t rows[PICKER_TABLE_LEN];
    size_t rows_len;
};

struct record {
    uint32_t start;
    uint8_t marks[PICKER_MARKS_LEN];
    uint16_t targets[PICKER_TARGETS_LEN];
    uint64_t sets[PICKER_SETS_LEN];
};

enum verdict { COVERED = 0, WALK_AGAIN = 1, UNKNOWN = 2 };

static struct chart charts[2];
static struct record record;

/* The refusal in an answer, if there is one, on standard error. */
static int complained(const char *what, uint64_t answer)
{
    if (!picker_refused(answer)) {
        return 0;
    }
    fprintf(stderr, "%s: refused: %u at %u (docs/REFERENCE.md has the numbers)\n", what,
            (unsigned)picker_number(answer), (unsigned)picker_position(answer));
    return 1;
}

/* The chart of a file. If reading fails it counts as one without bytes: a part never passes for the whole. */
static int read_chart(const char *name, struct chart *chart)
{
    static uint8_t text[FILE_LEN];
    size_t len = 0;
    FILE *file = fopen(name, "rb");
    if (file != NULL) {
        len = fread(text, 1, FILE_LEN, file);
        len = ferror(file) ? 0 : len;
        fclose(file);
    }
    uint64_t answer = picker_read(text, len, chart->rows, PICKER_TABLE_LEN);
    chart->places = picker_read_places(answer);
    chart->alarm = picker_read_alarm(answer);
    chart->rows_len = picker_read_rows_len(answer);
    return !complained(name, answer);
}

/* The record of two charts, built and checked. */
static int build(const struct chart *o, const struct chart *n, struct record *r)
{
    static uint8_t waiting[PICKER_WAITING_LEN];
    uint64_t answer = picker_build(EDITION, o->places, o->alarm, o->rows, o->rows_len, n->places, n->alarm, n->rows,
                                   n->rows_len, r->marks, PICKER_MARKS_LEN, r->targets, PICKER_TARGETS_LEN, r->sets,
                                   PICKER_SETS_LEN, waiting, PICKER_WAITING_LEN);
    if (complained("build", answer)) {
        return 0;
    }
    r->start = picker_build_start(answer);
    answer = picker_check(EDITION, o->places, o->alarm, o->rows, o->rows_len, n->places, n->alarm, n->rows, n->rows_len,
                          r->start, r->marks, PICKER_MARKS_LEN, r->targets, PICKER_TARGETS_LEN, r->sets,
                          PICKER_SETS_LEN);
    return !complained("check", answer) && picker_check_passed(answer);
}

/* The node to which a row of the new chart leads, or PICKER_NO_NODE where following ends. The target is read as it
 * stands: the record was built here, and has PICKER_NO_NODE for rows that never hold. */
static uint32_t next(const struct record *r, const struct chart *n, uint32_t node, size_t row)
{
    const uint32_t *at = n->rows + PICKER_ROW_LEN * row;
    /* It is the second row of its place if the row before it leaves the same one. */
    uint32_t which = row > 0 && at[0] == at[-PICKER_ROW_LEN];
    if (!picker_is_pair(node) || r->marks[node] != PICKER_OPEN) {
        return PICKER_NO_NODE;
    }
    return r->targets[picker_target_index(node, which)];
}

/* Follows rows through the record that was just built. Each has to leave the place that those before it led to.
 * Whether its assumption holds is not looked at: a covered list is covered from all values that let it through. */
static enum verdict follow(const struct record *r, const struct chart *n, const size_t *rows, size_t count)
{
    uint32_t node = r->start, place = 0;
    enum verdict verdict = WALK_AGAIN;
    for (size_t i = 0; i < count; i++) {
        if (rows[i] >= n->rows_len / PICKER_ROW_LEN || n->rows[PICKER_ROW_LEN * rows[i]] != place) {
            return UNKNOWN;
        }
        place = n->rows[PICKER_ROW_LEN * rows[i] + 1];
        node = next(r, n, node, rows[i]);
        if (picker_is_pair(node) && r->marks[node] == PICKER_COVERED) {
            verdict = COVERED;
        }
    }
    return verdict;
}

/* The row numbers in words, or none if one isn't a number. */
static size_t *numbers(char **words, size_t count)
{
    size_t *rows = (size_t *)calloc(count + 1, sizeof *rows);
    for (size_t i = 0; rows != NULL && i < count; i++) {
        char *end;
        rows[i] = strtoul(words[i], &end, 10);
        if (words[i][0] < '0' || words[i][0] > '9' || *end != '\0') {
            free(rows);
            rows = NULL;
        }
    }
    return rows;
}

int main(int argc, char **argv)
{
    static const char *const words[] = {"covered", "walk again", "these rows do not follow each other from place 0"};
    if (argc < 3) {
        fprintf(stderr, "usage: %s OLD.csv NEW.csv [ROW ..]\n", argv[0]);
        return UNKNOWN;
    }
    if (!read_chart(argv[1], &charts[0]) || !read_chart(argv[2], &charts[1])) {
        return UNKNOWN;
    }
    if (!build(&charts[0], &charts[1], &record)) {
        return UNKNOWN;
    }
    size_t count = (size_t)argc - 3;
    size_t *rows = numbers(argv + 3, count);
    if (rows == NULL) {
        fprintf(stderr, "rows are numbers from 0\n");
        return UNKNOWN;
    }
    enum verdict verdict = follow(&record, &charts[1], rows, count);
    free(rows);
    /* What isn't printed was not said. */
    return (int)(puts(words[verdict]) < 0 || fflush(stdout) != 0 ? UNKNOWN : verdict);
}
