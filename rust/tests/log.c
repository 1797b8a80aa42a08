/*
 * The bench log through its entry point, as C and as C++: layouts, 33 differences and the counts that they
 * leave, and logs that are refused.
 */

#include <assert.h>
#include <string.h>

#include "check.h"

static_assert(sizeof(mundrefol_entry) == 10, "entry");
static_assert(offsetof(mundrefol_entry, change) == 2, "entry.change");
static_assert(offsetof(mundrefol_entry, second) == 4, "entry.second");
static_assert(offsetof(mundrefol_entry, expected) == 6, "entry.expected");
static_assert(offsetof(mundrefol_entry, seen) == 8, "entry.seen");
static_assert(sizeof(mundrefol_log) == 396, "log");
static_assert(offsetof(mundrefol_log, differing) == 4, "log.differing");
static_assert(offsetof(mundrefol_log, kept) == 8, "log.kept");
static_assert(offsetof(mundrefol_log, entries) == 12, "log.entries");
static_assert(offsetof(mundrefol_log, outputs) == 332, "log.outputs");
static_assert(sizeof(mundrefol_noted) == 3 * sizeof(size_t), "noted");
static_assert(offsetof(mundrefol_noted, kind) == 2 * sizeof(size_t), "noted.kind");

static bool same_entry(mundrefol_entry a, mundrefol_entry b)
{
    return a.run == b.run && a.change == b.change && a.second == b.second && a.expected == b.expected && a.seen == b.seen;
}

/* A log is refused, and left as it was. */
static void check_refused(mundrefol_log log)
{
    const mundrefol_log before = log;
    mundrefol_noted noted = mundrefol_update(&log, 3, 0, false, 1, 2);
    CHECK(noted.number == 18 && noted.place == 0 && noted.kind == 3);
    CHECK(log.readings == before.readings && log.differing == before.differing && log.kept == before.kept);
    for (int i = 0; i < 32; i++)
        CHECK(same_entry(log.entries[i], before.entries[i]));
    CHECK(memcmp(log.outputs, before.outputs, sizeof log.outputs) == 0);
}

/* Logs of 33 differences, and of 32, each not sound in one way. */
static void check_unsound(mundrefol_log log, mundrefol_log last)
{
    mundrefol_log kept = log, equal = log, above = log, below = log;
    kept.kept = 31;
    check_refused(kept);
    equal.entries[31].seen = equal.entries[31].expected;
    check_refused(equal);
    above.outputs[15] = 34;
    check_refused(above);
    memset(below.outputs, 0, sizeof below.outputs);
    check_refused(below);
    last.outputs[15] = 31;
    check_refused(last);
}

/* An equal reading, then 33 differences, each in outputs 0, 3 and 15; last is the log before the last of them. */
int main(void)
{
    mundrefol_log log, last;
    memset(&log, 0, sizeof log);
    mundrefol_noted noted = mundrefol_update(&log, 3, 0, false, 0, 0);
    CHECK(noted.number == 0 && noted.place == 0 && noted.kind == 0);
    for (uint16_t change = 1; change <= 33; change++) {
        last = log;
        noted = mundrefol_update(&log, 3, change, true, 0x8005, 0x000c);
        CHECK(noted.number == 0 && noted.kind == (change <= 32 ? 1u : 2u));
    }
    printf("log %u %u %u\n", (unsigned)log.readings, (unsigned)log.differing, (unsigned)log.kept);
    const mundrefol_entry entry = {3, 32, true, 0x8005, 0x000c};
    CHECK(same_entry(log.entries[31], entry));
    uint8_t counts[16];
    for (int output = 0; output < 16; output++)
        counts[output] = (uint8_t)log.outputs[output];
    show("outputs", counts, 16);
    check_unsound(log, last);
    return 0;
}
