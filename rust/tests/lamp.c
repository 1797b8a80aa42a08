/*
 * The lamp through the entry points, as C and as C++: layouts, reading, evolutions, marks, plan, run,
 * the plan shortened, readings; and the lamp with a setting that is never used, with other allowed
 * starts, without rest conditions, and with conditions that do not read.
 */

#include <assert.h>
#include <string.h>

#include "check.h"

#define WORD sizeof(size_t)
static_assert(sizeof(mundrefol_answer) == 2 * WORD, "answer");
static_assert(offsetof(mundrefol_answer, place) == WORD, "answer.place");
static_assert(sizeof(mundrefol_frame) == 3 * WORD + 64, "frame");
static_assert(offsetof(mundrefol_frame, states) == WORD, "frame.states");
static_assert(offsetof(mundrefol_frame, initial) == 2 * WORD, "frame.initial");
static_assert(offsetof(mundrefol_frame, never) == 3 * WORD, "frame.never");
static_assert(offsetof(mundrefol_frame, starts) == 3 * WORD + 32, "frame.starts");
static_assert(sizeof(mundrefol_contents) == 5 * WORD + sizeof(mundrefol_frame), "contents");
static_assert(offsetof(mundrefol_contents, place) == WORD, "contents.place");
static_assert(offsetof(mundrefol_contents, character) == 2 * WORD, "contents.character");
static_assert(offsetof(mundrefol_contents, outputs) == 3 * WORD, "contents.outputs");
static_assert(offsetof(mundrefol_contents, evolutions) == 4 * WORD, "contents.evolutions");
static_assert(offsetof(mundrefol_contents, frame) == 5 * WORD, "contents.frame");
static_assert(sizeof(mundrefol_evolution) == 6, "evolution");
static_assert(offsetof(mundrefol_evolution, target) == 1, "evolution.target");
static_assert(offsetof(mundrefol_evolution, at) == 2, "evolution.at");
static_assert(offsetof(mundrefol_evolution, length) == 4, "evolution.length");

static const uint8_t lamp[47] = {
    'S', 'E', 'Q', '1', 4,
    1, 25, 0, 4, 0, 2, 29, 0, 6, 0, 3, 35, 0, 6, 0, 4, 41, 0, 6, 0,
    1, 1, 2, 0,
    0, 0, 2, 1, 0, 1,
    0, 1, 1, 1, 0, 2,
    '!', 'a', 'a', 'a', '!', 'a',
};

/* The lamp with the setting at which a is on ruled out. */
static const uint8_t never_on[53] = {
    'S', 'E', 'Q', '1', 5,
    1, 30, 0, 4, 0, 2, 34, 0, 6, 0, 3, 40, 0, 6, 0, 4, 46, 0, 6, 0, 5, 52, 0, 1, 0,
    1, 1, 2, 0,
    0, 0, 2, 1, 0, 1,
    0, 1, 1, 1, 0, 2,
    '!', 'a', 'a', 'a', '!', 'a',
    'a',
};

/* The lamp without rest conditions. */
static const uint8_t no_rests[44] = {
    'S', 'E', 'Q', '2', 4,
    1, 25, 0, 4, 0, 2, 29, 0, 6, 0, 3, 35, 0, 6, 0, 4, 41, 0, 3, 0,
    1, 1, 2, 0,
    0, 0, 0, 1, 0, 0,
    0, 1, 1, 1, 0, 2,
    'a', '!', 'a',
};

/* Where the kind and the condition of the fifth body stand in that file. */
enum { KIND = 25, CONDITION = 52 };

static int is_set(const uint64_t set[4], uint64_t first)
{
    return set[0] == first && set[1] == 0 && set[2] == 0 && set[3] == 0;
}

static int has_sets(mundrefol_frame frame, uint64_t never, uint64_t starts)
{
    return is_set(frame.never, never) && is_set(frame.starts, starts);
}

static mundrefol_frame check_read(uint8_t table[5], uint16_t words[3], mundrefol_evolution records[3])
{
    mundrefol_contents contents = mundrefol_read(lamp, sizeof lamp, table, 5, words, 3, records, 3);
    mundrefol_frame frame = contents.frame;
    CHECK(contents.number == 0 && contents.place == 0 && contents.character == 0);
    CHECK(contents.outputs == 1 && contents.evolutions == 2);
    CHECK(frame.inputs == 1 && frame.states == 2 && frame.initial == 0 && has_sets(frame, 0, 1));
    CHECK(memcmp(table, "\0\1\0\1\x63", 5) == 0);
    CHECK(words[0] == 0 && words[1] == 1 && words[2] == 99);
    CHECK(records[0].source == 0 && records[0].target == 1 && records[0].at == 44 && records[0].length == 1);
    CHECK(records[1].source == 1 && records[1].target == 0 && records[1].at == 45 && records[1].length == 2);
    CHECK(records[2].source == 99 && records[2].at == 99);
    show("table", table, 4);
    contents = mundrefol_read(lamp, sizeof lamp - 1, table, 5, words, 3, records, 3);
    CHECK(contents.number == 1 && contents.place == 0 && contents.character == 0);
    CHECK(contents.outputs == 0 && contents.evolutions == 0);
    CHECK(contents.frame.inputs == 0 && contents.frame.states == 0 && contents.frame.initial == 0);
    CHECK(has_sets(contents.frame, 0, 0));
    contents = mundrefol_read(lamp, sizeof lamp, table, 3, words, 3, records, 3);
    CHECK(contents.number == 3 && contents.place == 4 && contents.character == 0);
    return frame;
}

/* Reads the lamp, its fifth body of this kind, with another character at a place of the file. */
static mundrefol_contents read_with(uint8_t kind, size_t at, uint8_t with)
{
    uint8_t file[sizeof never_on], table[4];
    uint16_t words[2];
    mundrefol_evolution records[2];
    memcpy(file, never_on, sizeof file);
    file[KIND] = kind;
    file[at] = with;
    return mundrefol_read(file, sizeof file, table, 4, words, 2, records, 2);
}

/* Reads the lamp, with kind 5 or 6, with another character at a place of the file: the condition of a record does not read. */
static void check_unread(size_t at, uint8_t with, size_t record, size_t character)
{
    for (uint8_t kind = 5; kind <= 6; kind++) {
        mundrefol_contents contents = read_with(kind, at, with);
        CHECK(contents.number == 5 && contents.place == record && contents.character == character);
        CHECK(contents.outputs == 0 && contents.evolutions == 0 && contents.frame.states == 0);
        CHECK(has_sets(contents.frame, 0, 0));
    }
}

static void check_evolutions(const mundrefol_evolution *records)
{
    CHECK(!mundrefol_evolution_holds(records, 2, 0, lamp, sizeof lamp, 1, 0));
    CHECK(mundrefol_evolution_holds(records, 2, 0, lamp, sizeof lamp, 1, 1));
    CHECK(mundrefol_evolution_holds(records, 2, 1, lamp, sizeof lamp, 1, 0));
    CHECK(!mundrefol_evolution_holds(records, 2, 1, lamp, sizeof lamp, 1, 1));
    CHECK(!mundrefol_evolution_holds(records, 2, 2, lamp, sizeof lamp, 1, 1));
    CHECK(!mundrefol_evolution_holds(records, 2, 1, lamp, sizeof lamp - 1, 1, 0));
}

static void check_runs(mundrefol_frame frame, const uint8_t *table)
{
    uint16_t ranks[5] = {99, 99, 99, 99, 99};
    uint8_t plan[13], run[4];
    memset(plan, 99, sizeof plan);
    memset(run, 99, sizeof run);
    mundrefol_answer answer = mundrefol_mark(frame, table, 4, ranks, 5);
    CHECK(answer.number == 0 && answer.place == 0);
    CHECK(ranks[0] == 0 && ranks[1] == 1 && ranks[2] == 2 && ranks[3] == 1 && ranks[4] == 99);
    answer = mundrefol_plan(frame, table, 4, ranks, 5, plan, 11);
    CHECK(answer.number == 16 && answer.place == 12 && plan[0] == 99);
    answer = mundrefol_plan(frame, table, 4, ranks, 5, plan, 13);
    CHECK(answer.number == 0 && answer.place == 12);
    CHECK(memcmp(plan, "\1\0\0\2\0\0\1\3\0\0\1\0\x63", 13) == 0);
    show("plan", plan, 12);
    answer = mundrefol_run_to(frame, table, 4, ranks, 5, 2, run, 4);
    CHECK(answer.number == 0 && answer.place == 3 && memcmp(run, "\0\1\0\x63", 4) == 0);
    show("run", run, 3);
    answer = mundrefol_run_to(frame, table, 4, ranks, 5, 4, run, 4);
    CHECK(answer.number == 14 && answer.place == 0);
    frame.initial = 2;
    answer = mundrefol_mark(frame, table, 4, ranks, 5);
    CHECK(answer.number == 2 && answer.place == 0);
}

static void check_shorten(mundrefol_frame frame, const uint8_t *table)
{
    uint8_t plan[13] = {1, 0, 0, 2, 0, 0, 1, 3, 0, 0, 1, 0, 99};
    mundrefol_answer answer = mundrefol_shorten(frame, table, 4, plan, 12);
    CHECK(answer.number == 0 && answer.place == 5);
    CHECK(memcmp(plan, "\3\0\0\1\0\0\1\3\0\0\1\0\x63", 13) == 0);
    answer = mundrefol_shorten(frame, table, 4, plan, 0);
    CHECK(answer.number == 0 && answer.place == 0);
    answer = mundrefol_shorten(frame, table, 4, plan, 12);
    CHECK(answer.number == 19 && answer.place == 5);
    answer = mundrefol_shorten(frame, table, 3, plan, 12);
    CHECK(answer.number == 3 && answer.place == 4);
    frame.never[0] = 2;
    answer = mundrefol_shorten(frame, table, 4, plan, 5);
    CHECK(answer.number == 19 && answer.place == 0);
    CHECK(memcmp(plan, "\3\0\0\1\0\0\1\3\0\0\1\0\x63", 13) == 0);
}

static void check_readings(mundrefol_frame frame, const uint8_t *table, const uint16_t *words)
{
    const uint8_t run[3] = {0, 1, 0};
    uint16_t readings[6] = {99, 99, 99, 99, 99, 99};
    const uint16_t right[6] = {0, 1, 1, 0, 0, 99};
    mundrefol_answer answer = mundrefol_expected(frame, table, 4, words, 2, run, 3, readings, 6);
    CHECK(answer.number == 0 && answer.place == 5);
    CHECK(memcmp(readings, right, sizeof right) == 0);
    answer = mundrefol_expected(frame, table, 4, words, 2, run + 1, 2, readings, 6);
    CHECK(answer.number == 17 && answer.place == 0);
    printf("readings %d %d %d %d %d\n", readings[0], readings[1], readings[2], readings[3], readings[4]);
}

static void check_never(uint8_t *table, uint16_t *words, mundrefol_evolution *records)
{
    const uint8_t run[2] = {0, 1};
    uint16_t ranks[4], readings[3] = {99, 99, 99};
    uint8_t plan[4] = {99, 99, 99, 99};
    mundrefol_contents contents = mundrefol_read(never_on, sizeof never_on, table, 4, words, 2, records, 2);
    mundrefol_frame frame = contents.frame;
    CHECK(contents.number == 0 && contents.place == 0 && contents.outputs == 1 && contents.evolutions == 2);
    CHECK(frame.inputs == 1 && frame.states == 2 && frame.initial == 0 && has_sets(frame, 2, 1));
    CHECK(memcmp(table, "\0\1\0\1", 4) == 0 && words[1] == 1 && records[1].at == 50);
    for (int beyond = 0; beyond < 2; beyond++) {
        mundrefol_answer answer = mundrefol_mark(frame, table, 4, ranks, 4);
        CHECK(answer.number == 0 && ranks[0] == 0 && ranks[1] == 65535 && ranks[2] == 65535 && ranks[3] == 65535);
        answer = mundrefol_plan(frame, table, 4, ranks, 4, plan, 4);
        CHECK(answer.number == 0 && answer.place == 3 && memcmp(plan, "\1\0\0\x63", 4) == 0);
        answer = mundrefol_run_to(frame, table, 4, ranks, 4, 1, plan, 4);
        CHECK(answer.number == 15 && answer.place == 0);
        answer = mundrefol_expected(frame, table, 4, words, 2, run, 2, readings, 3);
        CHECK(answer.number == 17 && answer.place == 1 && readings[0] == 99);
        answer = mundrefol_expected(frame, table, 4, words, 2, run, 1, readings, 3);
        CHECK(answer.number == 0 && answer.place == 1 && readings[0] == 0 && readings[1] == 99);
        readings[0] = 99;
        frame.never[0] |= 4;
        frame.never[3] = UINT64_MAX;
    }
    show("never", plan, 3);
    frame.never[0] = 1;
    CHECK(mundrefol_mark(frame, table, 4, ranks, 4).number == 13);
    CHECK(mundrefol_plan(frame, table, 4, ranks, 4, plan, 4).number == 13);
    CHECK(mundrefol_expected(frame, table, 4, words, 2, run, 2, readings, 3).number == 17);
}

static void check_starts(mundrefol_frame frame, const uint8_t *table, const uint16_t *words)
{
    const uint8_t run[1] = {0};
    uint8_t plan[12] = {0};
    uint16_t ranks[4], readings[1];
    mundrefol_contents contents = read_with(6, CONDITION, '1');
    CHECK(contents.number == 0 && has_sets(contents.frame, 0, 3));
    contents = read_with(6, CONDITION, 'a');
    CHECK(contents.number == 13 && contents.place == 0 && has_sets(contents.frame, 0, 0));
    CHECK(read_with(7, CONDITION, '1').number == 1);
    for (uint64_t starts = 0; starts < 8; starts++) {
        size_t allowed = starts % 2;
        frame.starts[0] = starts;
        frame.starts[3] = UINT64_MAX;
        CHECK(mundrefol_mark(frame, table, 4, ranks, 4).number == (allowed ? 0 : 13));
        CHECK(mundrefol_plan(frame, table, 4, ranks, 4, plan, 12).number == (allowed ? 0 : 13));
        mundrefol_answer answer = mundrefol_expected(frame, table, 4, words, 2, run, 1, readings, 1);
        CHECK(answer.number == (allowed ? 0 : 17) && answer.place == allowed);
        answer = mundrefol_shorten(frame, table, 4, plan, 12);
        CHECK(answer.number == (allowed ? 0 : 19) && answer.place == (allowed ? 5 : 0));
    }
    show("starts", plan, 5);
}

/* Reads the lamp without rest conditions, with another byte at a place of the file. */
static void check_without_rests(size_t at, uint8_t with, size_t number)
{
    uint8_t file[sizeof no_rests], table[4] = {99, 99, 99, 99};
    uint16_t words[2];
    mundrefol_evolution records[2];
    memcpy(file, no_rests, sizeof file);
    file[at] = with;
    mundrefol_contents contents = mundrefol_read(file, sizeof file, table, 4, words, 2, records, 2);
    CHECK(contents.number == number && contents.place == 0);
    if (number != 0)
        return;
    CHECK(contents.outputs == 1 && contents.evolutions == 2 && has_sets(contents.frame, 0, 1));
    CHECK(words[0] == 0 && words[1] == 1 && records[0].at == 41 && records[1].at == 42 && records[1].length == 2);
    show("without", table, 4);
}

int main(void)
{
    uint8_t table[5] = {99, 99, 99, 99, 99};
    uint16_t words[3] = {99, 99, 99};
    mundrefol_evolution records[3] = {{99, 99, 99, 99}, {99, 99, 99, 99}, {99, 99, 99, 99}};
    mundrefol_frame frame = check_read(table, words, records);
    check_evolutions(records);
    check_unread(46, 'a', 0, 2);
    check_unread(47, '!', 0, 3);
    check_unread(49, 'b', 2, 1);
    check_unread(CONDITION, ' ', 4, 1);
    check_runs(frame, table);
    check_shorten(frame, table);
    check_readings(frame, table, words);
    check_never(table, words, records);
    check_starts(frame, table, words);
    check_without_rests(3, '2', 0);
    check_without_rests(3, '1', 5);
    check_without_rests(3, '3', 1);
    check_without_rests(34, 1, 2);
    return 0;
}
