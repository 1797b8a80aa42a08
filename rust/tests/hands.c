/*
 * A press with a button for each hand through the entry points of runs that may change several inputs, as C
 * and as C++: it closes (1) when both are pressed at once, opens (3) when both are let go at once, and a hand
 * alone stops it (2).
 */

#include <string.h>

#include "check.h"

enum { COUPLES = 16, LIST = 51 };

static const uint8_t hands[COUPLES] = {0, 2, 2, 1, 3, 2, 2, 1, 0, 2, 2, 2, 3, 2, 2, 1};

static const mundrefol_frame frame = {2, 4, 0, {0, 0, 0, 0}, {1, 0, 0, 0}};

/* The ranks of single changes, then one beyond; the couples without one are those of the list. */
static void check_ranks(const uint16_t ranks[COUPLES + 1])
{
    const uint16_t none = 65535;
    const uint16_t right[COUPLES + 1] = {0, 1, 1, none, none, none, none, none, 2, 1, 1, 2, none, none, none, none, 99};
    CHECK(memcmp(ranks, right, sizeof right) == 0);
}

static void clear(uint16_t ranks[COUPLES + 1])
{
    for (int i = 0; i <= COUPLES; i++)
        ranks[i] = 99;
}

static void check_run(void)
{
    uint16_t ranks[COUPLES + 1];
    uint8_t run[5] = {99, 99, 99, 99, 99};
    clear(ranks);
    mundrefol_answer answer = mundrefol_multi_run_to(frame, hands, COUPLES, ranks, COUPLES - 1, 15, run, 5);
    CHECK(answer.number == 3 && answer.place == COUPLES && ranks[0] == 99);
    answer = mundrefol_multi_run_to(frame, hands, COUPLES, ranks, COUPLES + 1, 15, run, 3);
    CHECK(answer.number == 16 && answer.place == 4 && run[0] == 99);
    check_ranks(ranks);
    clear(ranks);
    answer = mundrefol_multi_run_to(frame, hands, COUPLES, ranks, COUPLES + 1, 15, run, 5);
    CHECK(answer.number == 0 && answer.place == 4 && memcmp(run, "\0\3\0\3\x63", 5) == 0);
    check_ranks(ranks);
    show("run", run, 4);
    answer = mundrefol_run_to(frame, hands, COUPLES, ranks, COUPLES + 1, 15, run, 5);
    CHECK(answer.number == 15 && answer.place == 0);
    answer = mundrefol_multi_run_to(frame, hands, COUPLES, ranks, COUPLES + 1, 11, run, 5);
    CHECK(answer.number == 0 && answer.place == 3 && memcmp(run, "\0\1\3\3\x63", 5) == 0);
    answer = mundrefol_multi_run_to(frame, hands, COUPLES, ranks, COUPLES + 1, COUPLES, run, 5);
    CHECK(answer.number == 14 && answer.place == 0);
    mundrefol_frame never_both = frame;
    never_both.never[0] = 8;
    answer = mundrefol_multi_run_to(never_both, hands, COUPLES, ranks, COUPLES + 1, 15, run, 5);
    CHECK(answer.number == 20 && answer.place == 0 && run[0] == 0 && run[4] == 99);
}

static void check_list(void)
{
    uint16_t ranks[COUPLES + 1];
    uint8_t list[LIST + 1];
    memset(list, 99, sizeof list);
    clear(ranks);
    mundrefol_answer answer = mundrefol_multi_list(frame, hands, COUPLES, ranks, COUPLES + 1, list, LIST - 1);
    CHECK(answer.number == 16 && answer.place == LIST && list[0] == 99);
    check_ranks(ranks);
    answer = mundrefol_multi_list(frame, hands, COUPLES, ranks, COUPLES + 1, list, sizeof list);
    CHECK(answer.number == 0 && answer.place == LIST && list[LIST] == 99);
    check_ranks(ranks);
    for (size_t at = 0; at < LIST; at += 4 + list[at + 2])
        show("multi", list + at, 4 + list[at + 2]);
    mundrefol_frame other = frame;
    other.never[0] = 8;
    answer = mundrefol_multi_list(other, hands, COUPLES, ranks, COUPLES + 1, list, 0);
    CHECK(answer.number == 0 && answer.place == 0 && list[0] == 1);
    other.starts[0] = 8;
    answer = mundrefol_multi_list(other, hands, COUPLES, ranks, COUPLES + 1, list, sizeof list);
    CHECK(answer.number == 13 && answer.place == 0 && ranks[0] == 65535 && ranks[COUPLES] == 99);
}

static void check_readings(void)
{
    const uint8_t run[4] = {0, 3, 0, 0};
    const uint16_t words[4] = {0, 1, 2, 3}, right[6] = {0, 1, 1, 3, 3, 99};
    uint16_t readings[7] = {99, 99, 99, 99, 99, 99, 99};
    mundrefol_answer answer = mundrefol_multi_expected(frame, hands, COUPLES, words, 4, run, 4, readings, 7);
    CHECK(answer.number == 17 && answer.place == 3 && readings[0] == 99);
    answer = mundrefol_expected(frame, hands, COUPLES, words, 4, run, 3, readings, 7);
    CHECK(answer.number == 17 && answer.place == 1 && readings[0] == 99);
    answer = mundrefol_multi_expected(frame, hands, COUPLES, words, 4, run, 3, readings, 4);
    CHECK(answer.number == 3 && answer.place == 5 && readings[0] == 99);
    answer = mundrefol_multi_expected(frame, hands, COUPLES, words, 4, run, 3, readings, 7);
    CHECK(answer.number == 0 && answer.place == 5 && memcmp(readings, right, sizeof right) == 0);
    printf("readings %d %d %d %d %d\n", readings[0], readings[1], readings[2], readings[3], readings[4]);
}

int main(void)
{
    check_run();
    check_list();
    check_readings();
    return 0;
}
