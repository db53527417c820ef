/* session OLD.csv NEW.csv: the header in use, in C and in C++. Reads the sample charts, builds, checks, and compares
 * with the worked session, in both editions; then what the header says of refusals, editions, lengths, NULL, overlap
 * and answers at their edges. */
#include <stdio.h>
#include <string.h>

#include "picker.h"

static int failures;

static void is(const char *what, uint64_t seen, uint64_t expected)
{
    if (seen != expected) {
        printf("%s: %llu, not %llu\n", what, (unsigned long long)seen, (unsigned long long)expected);
        failures++;
    }
}

static void is_refused(const char *what, uint64_t answer, uint32_t number, uint32_t chart, uint32_t position)
{
    is(what, (uint64_t)picker_refused(answer), 1);
    is(what, picker_number(answer), number);
    is(what, picker_chart(answer), chart);
    is(what, picker_position(answer), position);
}

/* Old, new. */
static uint8_t texts[2][PICKER_TEXT_LEN];
static size_t text_lens[2];
static uint32_t tables[2][PICKER_TABLE_LEN];
static uint32_t places[2], alarms[2];
static size_t lens[2];

static uint8_t marks[PICKER_MARKS_LEN];
static uint16_t targets[PICKER_TARGETS_LEN];
static uint64_t sets[PICKER_SETS_LEN];
static uint8_t waiting[PICKER_WAITING_LEN];

/* A chart, a record and the waiting bytes, as calls take them. */
#define CHART(i) places[i], alarms[i], tables[i], lens[i]
#define RECORD marks, PICKER_MARKS_LEN, targets, PICKER_TARGETS_LEN, sets, PICKER_SETS_LEN
#define WAITING waiting, PICKER_WAITING_LEN

static void paint(void)
{
    memset(marks, 0xA5, sizeof marks);
    memset(targets, 0xA5, sizeof targets);
    memset(sets, 0xA5, sizeof sets);
    memset(waiting, 0xA5, sizeof waiting);
}

static int painted(void)
{
    size_t i, others = 0;
    for (i = 0; i < PICKER_MARKS_LEN; i++) others += marks[i] != 0xA5;
    for (i = 0; i < PICKER_TARGETS_LEN; i++) others += targets[i] != 0xA5A5;
    for (i = 0; i < PICKER_SETS_LEN; i++) others += sets[i] != 0xA5A5A5A5A5A5A5A5u;
    for (i = 0; i < PICKER_WAITING_LEN; i++) others += waiting[i] != 0xA5;
    return others == 0;
}

static uint32_t edition = PICKER_FIRST_EDITION;

static uint64_t build(int o, int n) { return picker_build(edition, CHART(o), CHART(n), RECORD, WAITING); }

static uint64_t check(int o, int n, uint32_t start) { return picker_check(edition, CHART(o), CHART(n), start, RECORD); }

/* The transitions of the record, in the program's order, against those expected. */
static void transitions(int n, const uint32_t (*expected)[4], size_t count)
{
    size_t seen = 0;
    for (uint32_t pair = 0; pair < PICKER_PAIRS; pair++) {
        for (uint32_t which = 0; which < 2; which++) {
            uint32_t to = targets[picker_target_index(pair, which)];
            if (marks[pair] != PICKER_OPEN || to == PICKER_NO_NODE) continue;
            uint32_t row = which;
            while (tables[n][PICKER_ROW_LEN * (row - which)] != picker_new_place(pair)) row++;
            if (seen < count) {
                is("from", pair, expected[seen][0]);
                is("row", row, expected[seen][1]);
                is("to", to, expected[seen][2]);
                is("mark", marks[to], expected[seen][3]);
            }
            seen++;
        }
    }
    is("transitions", seen, count);
}

/* The worked session: the sample charts. */
static void session(void)
{
    static const uint32_t expected[][4] = {
        {0, 0, 1, PICKER_OPEN},    {1, 1, 130, PICKER_COVERED}, {1, 2, 195, PICKER_OPEN},
        {195, 3, 4101, PICKER_KEPT}, {195, 4, 4100, PICKER_KEPT},
    };
    paint();
    uint64_t answer = build(0, 1);
    is("refused", (uint64_t)picker_refused(answer), 0);
    is("start", picker_build_start(answer), PICKER_START_PAIR);
    is("open", picker_build_open(answer), 3);
    is("kept", picker_build_kept(answer), 2);
    is("covered", picker_build_covered(answer), 1);
    transitions(1, expected, sizeof expected / sizeof *expected);
    is("pair", picker_pair(3, 3), 195);
    is("kept node", picker_kept(5), 4101);
    is("places of a pair", picker_old_place(130) * 100 + picker_new_place(130), 202);
    is("place of a kept node", picker_new_place(4101), 5);
    is("which is a pair", (uint64_t)(picker_is_pair(4095) && !picker_is_pair(4096)), 1);
    is("passes", (uint64_t)picker_check_passed(check(0, 1, PICKER_START_PAIR)), 1);
    is("set of (0, 1)", sets[1], 2);
}

/* Records that are no good. */
static void spoiled(void)
{
    is_refused("start 1", check(0, 1, 1), PICKER_BAD_SHAPE, 0, 0);
    is_refused("no start", check(0, 1, PICKER_NO_NODE), PICKER_BAD_SHAPE, 0, 0);
    is_refused("kept start", check(0, 1, PICKER_START_KEPT), PICKER_BAD_RECORD, 0, PICKER_AT_START);
    targets[picker_target_index(1, 1)] = 130;
    uint64_t answer = check(0, 1, PICKER_START_PAIR);
    is_refused("another target", answer, PICKER_BAD_RECORD, 0, 3);
    is("passed", (uint64_t)picker_check_passed(answer), 0);
}

/* The worked session in edition 2: both charts move by their first rows. Each edition passes its own record alone. */
static void second_edition(void)
{
    static const uint32_t expected[][4] = {
        {0, 0, 65, PICKER_OPEN},   {65, 1, 130, PICKER_COVERED}, {65, 2, 195, PICKER_OPEN},
        {195, 3, 4101, PICKER_KEPT}, {195, 4, 4100, PICKER_KEPT},
    };
    build(0, 1);
    edition = PICKER_SECOND_EDITION;
    is_refused("record of edition 1", check(0, 1, PICKER_START_PAIR), PICKER_BAD_RECORD, 0, 0);
    paint();
    uint64_t answer = build(0, 1);
    is("start", picker_build_start(answer), PICKER_START_PAIR);
    is("open and kept", picker_build_open(answer) * 10 + picker_build_kept(answer), 32);
    is("covered", picker_build_covered(answer), 1);
    transitions(1, expected, sizeof expected / sizeof *expected);
    is("set of (1, 1)", sets[65], 2);
    is("passes", (uint64_t)picker_check_passed(check(0, 1, PICKER_START_PAIR)), 1);
    edition = PICKER_FIRST_EDITION;
    is_refused("record of edition 2", check(0, 1, PICKER_START_PAIR), PICKER_BAD_RECORD, 0, 0);
}

/* Other editions are refused before a chart's fault, and a refused build leaves what was lent. */
static void other_editions(void)
{
    static const uint32_t others[] = {0, 3, 257, 65538, UINT32_MAX};
    for (size_t i = 0; i < sizeof others / sizeof *others; i++) {
        edition = others[i];
        for (int faulty = 0; faulty < 2; faulty++) {
            tables[1][PICKER_ROW_LEN * 2 + 2] = faulty ? 38 : 21;
            paint();
            is_refused("build of no edition", build(0, 1), PICKER_BAD_LENGTH, 0, 0);
            is("painted", (uint64_t)painted(), 1);
            is_refused("check of no edition", check(0, 1, PICKER_START_PAIR), PICKER_BAD_LENGTH, 0, 0);
        }
        tables[1][PICKER_ROW_LEN * 2 + 2] = 21;
    }
    edition = PICKER_FIRST_EDITION;
}

/* The same table as old and new: what is only read may overlap. */
static void same_chart(void)
{
    static const uint32_t expected[][4] = {{0, 0, 65, PICKER_COVERED}};
    paint();
    uint64_t answer = build(0, 0);
    is("start", picker_build_start(answer), PICKER_START_PAIR);
    is("open", picker_build_open(answer), 1);
    is("kept", picker_build_kept(answer), 0);
    is("covered", picker_build_covered(answer), 1);
    transitions(0, expected, 1);
    is("passes", (uint64_t)picker_check_passed(check(0, 0, PICKER_START_PAIR)), 1);
}

/* The new start an alarm. */
static void kept_start(void)
{
    alarms[1] = 0;
    uint64_t answer = build(0, 1);
    is("start", picker_build_start(answer), PICKER_START_KEPT);
    is("kept", picker_build_kept(answer), 1);
    is("mark", marks[PICKER_START_KEPT], PICKER_KEPT);
    alarms[1] = 5;
}

/* Texts written back, and rows looked up. */
static void text_and_rows(void)
{
    static uint8_t bytes[PICKER_TEXT_LEN + 1];
    uint32_t rows[PICKER_PART_LEN] = {7, 7, 7, 7, 7, 7, 7, 7, 7, 7, 7, 7};
    bytes[text_lens[0]] = 0xA5;
    uint64_t answer = picker_write(CHART(0), bytes, sizeof bytes);
    is("bytes", picker_write_bytes(answer), text_lens[0]);
    is("text", (uint64_t)memcmp(bytes, texts[0], text_lens[0]), 0);
    is("byte after", bytes[text_lens[0]], 0xA5);
    answer = picker_lookup(CHART(0), CHART(1), PICKER_NEW, 0, rows, PICKER_PART_LEN);
    is("rows", picker_lookup_rows(answer), 1);
    is("constant of the new row", rows[5], 6);
    is("entry after", rows[6], 7);
}

/* What tells a lookup's empty part from a faulty chart. */
static void judged(void)
{
    uint32_t rows[PICKER_PART_LEN];
    is("faultless", (uint64_t)picker_judge_faultless(picker_judge(CHART(1))), 1);
    is("rows of the alarm", picker_lookup(CHART(0), CHART(1), PICKER_NEW, 5, rows, PICKER_PART_LEN), 0);
    tables[1][PICKER_ROW_LEN * 4 + 3] = PICKER_VARIABLES;
    uint64_t answer = picker_judge(CHART(1));
    is_refused("variable 64", answer, PICKER_BAD_OPERAND, 0, 4);
    is("faulty", (uint64_t)picker_judge_faultless(answer), 0);
    is("rows of a faulty chart", picker_lookup(CHART(0), CHART(1), PICKER_NEW, 0, rows, PICKER_PART_LEN), 0);
    tables[1][PICKER_ROW_LEN * 4 + 3] = 1;
    is_refused("29 of 30 entries", picker_judge(6, 5, tables[1], 29), PICKER_BAD_LENGTH, 0, 0);
    is_refused("alarm 6", picker_judge(6, 6, tables[1], lens[1]), PICKER_BAD_ALARM, 0, 0);
    is_refused("rows of judge", picker_judge(6, 5, NULL, 0), PICKER_EMPTY_CHART, 0, 0);
}

/* Refusals of each call leave what was lent, and their answers read as nothing. */
static void refusals(void)
{
    uint32_t table[PICKER_TABLE_LEN] = {7};
    size_t cut = text_lens[0] - strlen("3,4,19,1,0,50\r\n");
    paint();
    uint64_t answer = picker_read(texts[0], cut, table, PICKER_TABLE_LEN);
    is_refused("a record missing", answer, PICKER_BAD_COUNT, 0, (uint32_t)cut);
    is("table", table[0], 7);
    is("length of a refusal", picker_read_rows_len(answer), 0);
    is("places of a refusal", picker_read_places(answer), 0);
    is("alarm and rows of a refusal", picker_read_alarm(answer) + picker_read_rows(answer), 0);
    answer = picker_read(texts[0], text_lens[0], table, PICKER_TABLE_LEN - 1);
    is_refused("short table", answer, PICKER_BAD_LENGTH, 0, 0);
    answer = picker_write(CHART(0), marks, PICKER_MARKS_LEN);
    is_refused("short bytes", answer, PICKER_BAD_LENGTH, 0, 0);
    is("bytes of a refusal", picker_write_bytes(answer), 0);
    lens[1] /= PICKER_ROW_LEN;
    is_refused("5 for 30 entries", build(0, 1), PICKER_BAD_LENGTH, 0, 0);
    lens[1] *= PICKER_ROW_LEN;
    tables[1][PICKER_ROW_LEN * 2 + 2] = 38;
    answer = build(0, 1);
    is_refused("code 38", answer, PICKER_BAD_CODE, PICKER_NEW, 2);
    is("start of a refusal", picker_build_start(answer), PICKER_NO_NODE);
    is("open and kept of a refusal", picker_build_open(answer) + picker_build_kept(answer), 0);
    is("covered of a refusal", picker_build_covered(answer), 0);
    tables[1][PICKER_ROW_LEN * 2 + 2] = 21;
    is("painted", (uint64_t)painted(), 1);
}

/* NULL with length 0, for each pointer of each call. */
#define NONE 6, 5, NULL, 0
static void nulls(void)
{
    uint32_t table[PICKER_TABLE_LEN], rows[PICKER_PART_LEN];
    uint64_t answer;
    is_refused("text", picker_read(NULL, 0, table, PICKER_TABLE_LEN), PICKER_NO_BYTES, 0, 0);
    is_refused("table", picker_read(texts[0], text_lens[0], NULL, 0), PICKER_BAD_LENGTH, 0, 0);
    is_refused("text and table", picker_read(NULL, 0, NULL, 0), PICKER_BAD_LENGTH, 0, 0);
    is_refused("rows of write", picker_write(NONE, texts[1], PICKER_TEXT_LEN), PICKER_EMPTY_CHART, 0, 0);
    is_refused("bytes", picker_write(CHART(0), NULL, 0), PICKER_BAD_LENGTH, 0, 0);
    for (uint32_t chart = 0; chart < 3; chart++) {
        is("no tables", picker_lookup(NONE, NONE, chart, 0, rows, PICKER_PART_LEN), 0);
    }
    is("no old table", picker_lookup_rows(picker_lookup(NONE, CHART(1), PICKER_NEW, 1, rows, PICKER_PART_LEN)), 2);
    is_refused("part", picker_lookup(CHART(0), CHART(1), PICKER_OLD, 0, NULL, 0), PICKER_BAD_LENGTH, 0, 0);
    answer = picker_build(edition, CHART(0), CHART(1), NULL, 0, NULL, 0, NULL, 0, NULL, 0);
    is_refused("buffers", answer, PICKER_BAD_LENGTH, 0, 0);
    answer = picker_check(edition, CHART(0), CHART(1), 0, NULL, 0, NULL, 0, NULL, 0);
    is_refused("record", answer, PICKER_BAD_LENGTH, 0, 0);
    is_refused("old rows", picker_build(edition, NONE, CHART(1), RECORD, WAITING), PICKER_EMPTY_CHART, PICKER_OLD, 0);
    is_refused("new rows", picker_check(edition, CHART(0), NONE, 0, RECORD), PICKER_EMPTY_CHART, PICKER_NEW, 0);
}

/* Answers taken apart at their edges. */
static void answers(void)
{
    uint64_t all = ((uint64_t)1 << 56) - 1;
    for (int which = -70; which < 80; which++) {
        is("value", picker_value(all, which), which >= 0 && which < 4 ? 0x3fff : 0);
        is("value of a refusal", picker_value(all + 1, which), 0);
    }
    is("number of a success", picker_number(all), 0);
    is("chart of a success", picker_chart(all), 0);
    is("position of a success", picker_position(all), 0);
    is("lengths", PICKER_ROW_LEN * PICKER_ROWS_MAX, PICKER_TABLE_LEN);
    is("nodes", PICKER_PAIRS + PICKER_PLACES_MAX, PICKER_NODES);
    is("last target", picker_target_index(PICKER_PAIRS - 1, 1), PICKER_TARGETS_LEN - 1);
    is("interface", PICKER_INTERFACE, 2);
}

int main(int argc, char **argv)
{
    for (int i = 0; i < 2; i++) {
        FILE *file = argc == 3 ? fopen(argv[i + 1], "rb") : NULL;
        if (file == NULL) {
            printf("usage: session OLD.csv NEW.csv\n");
            return 2;
        }
        text_lens[i] = fread(texts[i], 1, PICKER_TEXT_LEN, file);
        fclose(file);
        uint64_t answer = picker_read(texts[i], text_lens[i], tables[i], PICKER_TABLE_LEN);
        places[i] = picker_read_places(answer);
        alarms[i] = picker_read_alarm(answer);
        lens[i] = picker_read_rows_len(answer);
        is("places, alarm, rows", places[i] * 100 + alarms[i] * 10 + picker_read_rows(answer), 655);
        is("entries", lens[i], 30);
    }
    session();
    spoiled();
    second_edition();
    other_editions();
    same_chart();
    kept_start();
    text_and_rows();
    judged();
    refusals();
    nulls();
    answers();
    printf("picker.h %s: %s\n", PICKER_VERSION, failures == 0 ? "as it says" : "FAILED");
    return failures != 0;
}
