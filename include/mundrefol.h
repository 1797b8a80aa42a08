/*
 * The sheet maker's entry points for C and C++.
 *
 * Words used below. A setting is a number below 2^inputs; input a weighs 1, b 2, and so on to h.
 * The couple (state, setting) has the number state * 2^inputs + setting. A table gives each couple
 * its move: the state that follows. A couple is at rest if its move is its own state. Settings may be
 * ruled out: no run uses them. A run is a start, one of the allowed starts that is not ruled out and at
 * which the initial state rests, then settings not ruled out that each differ from the one before in
 * exactly one input. It visits the couple of its start and, at each change, that of the state and the
 * new setting, then the one it moves to. A couple that some run visits is marked. A run that may change
 * several inputs is the same, but its settings differ from the one before in at least one input; a
 * change of two or more is a multiple change. A file begins SEQ1, where a state rests at the settings at
 * which its rest condition holds, or SEQ2, where it has none and rests wherever none of its evolutions
 * holds. A file's records are its states, then its evolutions, then the condition of kind 5 if it has
 * one, at which a setting is ruled out, then that of kind 6 if it has one, at which a setting is an
 * allowed start; they are numbered from 0. A buffer's needed part is what the answer uses of it.
 *
 * Every function takes any numbers and any contents. A pointer is never null, whatever its length,
 * and valid for the number of elements that its length names; a buffer that is written does not
 * overlap any other argument. Elements beyond the needed part of a buffer never change.
 *
 * Each answer carries a number and a place; number 0 is success. The refusals:
 *
 *   No.  when                                                      place
 *    1   file too long or too short, or its mark or contents       0
 *        wrong (bodies of kinds 1 to 4, then kind 5 or not, then kind 6 or not)
 *    2   a size outside its range, or sizes that do not agree      0
 *        (kinds 5 and 6 have at most 255 bytes each, a state's
 *        text in SEQ2 none)
 *    3   a table, word, record, rank or reading buffer too short   needed elements of the first such
 *    4   output bit beyond the outputs; state not below states     record, or couple
 *    5   condition does not read                                   record (kinds 5 and 6: after the last
 *                                                                  evolution), and beside it the character
 *    6   evolution to its own source                               record
 *    7   same source and target as an earlier evolution            record
 *    8   two rules hold (in SEQ2: two evolutions)                  couple
 *    9   no rule holds (not in SEQ2)                               couple
 *   10   transient: the move's own couple is not at rest           couple
 *   11   output word of an earlier state                           state
 *   12   state never reached                                       state
 *   13   no start: the initial state rests at no allowed           0
 *        start that is not ruled out
 *   14   asked couple not below states * 2^inputs                  0
 *   15   asked couple not marked                                   0
 *   16   run, plan or list buffer short                            bytes needed
 *   17   not a run (a setting ruled out is a fault, and so is      index of the first fault, 0 if empty
 *        a start that is not allowed; where several inputs may
 *        change, a setting twice is a fault, any other change none)
 *   18   log not sound (its struct below says when it is),         0
 *        or its readings at 4294967295
 *   19   plan bytes that do not split into runs, or a run          byte where that run starts
 *        that 17 refuses
 *   20   asked couple visited by no run, several inputs            0
 *        changing at once or not
 *
 * They are checked in this order, 20 in the place of 15, each over the whole input before the next; the
 * place is the smallest that fits.
 */
#ifndef MUNDREFOL_H
#define MUNDREFOL_H

#include <stdbool.h>
#include <stddef.h>
#include <stdint.h>

#ifdef __cplusplus
extern "C" {
#endif

/* The answer of a table job: its number, and its place. */
typedef struct { size_t number, place; } mundrefol_answer;

/*
 * What a table job is told beside the table: the numbers of inputs and states, the initial state, the
 * settings that are ruled out, and the allowed starts. Setting v is ruled out if bit v % 64 of
 * never[v / 64] is 1, and an allowed start if that bit of starts[v / 64] is; with no bit of starts set
 * there is no start. Reading leaves the bits at and beyond 2^inputs zero; the table jobs give them no
 * meaning.
 */
typedef struct { size_t inputs, states, initial; uint64_t never[4]; uint64_t starts[4]; } mundrefol_frame;

/*
 * The answer of reading a file: number and place; the character, zero except with 5; outputs, evolutions
 * and frame of the file, all zero on refusal. The character is the smallest number of leading
 * characters that no text behind them, however long, makes a condition that reads at these inputs; if
 * the condition only stops too early, its length + 1. Without kind 5 no setting is ruled out. Without
 * kind 6 setting 0 is the only allowed start: power-up with all contacts open. The allowed starts are
 * all those that kind 6 says, ruled out or not, whether the initial state rests there or not. The frame
 * goes to the table jobs as it is.
 */
typedef struct { size_t number, place, character, outputs, evolutions; mundrefol_frame frame; } mundrefol_contents;

/* An evolution of the file: source and target state, place in the file and length of its condition. */
typedef struct { uint8_t source, target; uint16_t at; uint8_t length; } mundrefol_evolution;

/*
 * A difference kept in the log: run, change, whether it was the second reading after the change, and the
 * expected and the seen word. A word holds output j, counted from 0, in its bit of weight 2^j.
 */
typedef struct { uint16_t run, change; bool second; uint16_t expected, seen; } mundrefol_entry;

/*
 * The bench log: readings, differing readings, entries kept, the first 32 differences, and for each of
 * the 16 outputs the number of readings in which it differed, kept or not, whatever outputs the file has.
 * A fresh log is all zero.
 * A log is sound if kept is the smaller of 32 and differing, differing is at most readings, the two words of
 * each kept entry differ, no output's count is above differing, the sum of the 16 counts is not below it,
 * and, with fewer than 33 differences, each count is the number of kept entries that differ in its output.
 * The kept entries are the first ones; those beyond them are not looked at.
 */
typedef struct { uint32_t readings, differing, kept; mundrefol_entry entries[32]; uint32_t outputs[16]; } mundrefol_log;

/* The answer of an update: number and place, and the kind: 0 equal, 1 stored, 2 full, 3 refused. */
typedef struct { size_t number, place, kind; } mundrefol_noted;

/*
 * Reads a specification file. On success the place is 0, the table holds the move of each of the
 * states * 2^inputs couples, ruled out or not, words the output word of each state, records each
 * evolution.
 * Refused by 1 to 13. After 1 to 3 nothing changes; after 4 to 13 the needed table bytes are 255,
 * the needed words 65535 and the needed records zero.
 */
mundrefol_contents mundrefol_read(const uint8_t *file, size_t file_len, uint8_t *table, size_t table_len,
                                  uint16_t *words, size_t words_len, mundrefol_evolution *records, size_t records_len);

/*
 * Whether the condition of an evolution holds at a setting. The records are those that reading the
 * file handed on, the evolution is counted among them from 0. A letter is one of a to h and stands
 * for an input below inputs, which is on if its bit of the setting is 1.
 * False beyond the records, where the text is not within the file, and where it does not read.
 */
bool mundrefol_evolution_holds(const mundrefol_evolution *records, size_t records_len, size_t evolution,
                               const uint8_t *file, size_t file_len, size_t inputs, size_t setting);

/*
 * Marks the couples of a table that runs visit. On success the place is 0 and ranks holds for each
 * couple the fewest changes of any run that visits it, 65535 if none does.
 * Refused by 2, 3, 4, 10, 13. After 2 or 3 nothing changes; after 4, 10 or 13 the needed ranks are 65535.
 */
mundrefol_answer mundrefol_mark(mundrefol_frame frame, const uint8_t *table, size_t table_len, uint16_t *ranks, size_t ranks_len);

/*
 * Writes the run to a couple, one byte a setting: as many changes as the couple's rank, and among
 * those runs the one with the smallest resting couples before each change, compared from the last
 * change back to the start. On success the place is the number of settings, rank + 1.
 * Refused as marking is, then by 14, 15, 16. Ranks are left as marking leaves them; after a refusal
 * the run buffer is unchanged.
 */
mundrefol_answer mundrefol_run_to(mundrefol_frame frame, const uint8_t *table, size_t table_len, uint16_t *ranks, size_t ranks_len,
                                  size_t couple, uint8_t *run, size_t run_len);

/*
 * Writes the plan: through the marked couples in rising number, the run to each one that no earlier
 * run of the plan visits. A run is stored as its number of settings in two bytes, low byte first,
 * then one byte a setting. On success the place is the number of bytes written.
 * Refused as marking is, then by 16 with the bytes that the whole plan needs. Ranks are left as
 * marking leaves them; after a refusal the plan buffer is unchanged.
 */
mundrefol_answer mundrefol_plan(mundrefol_frame frame, const uint8_t *table, size_t table_len, uint16_t *ranks, size_t ranks_len,
                                uint8_t *plan, size_t plan_len);

/*
 * Writes the run to a couple that may change several inputs, one byte a setting: with the fewest multiple
 * changes, among those with the fewest changes, and among those the one with the smallest resting couples
 * before each change, compared from the last change back to the start. For a marked couple it is the run
 * that mundrefol_run_to writes, with no multiple change. On success the place is the number of settings.
 * Refused as marking is, then by 14, 20, 16 with the settings of that run. Ranks are left as marking
 * leaves them, single changes alone; after a refusal the run buffer is unchanged.
 */
mundrefol_answer mundrefol_multi_run_to(mundrefol_frame frame, const uint8_t *table, size_t table_len, uint16_t *ranks, size_t ranks_len,
                                        size_t couple, uint8_t *run, size_t run_len);

/*
 * Writes the list, which is apart from the plan: through the couples that are not marked in rising number,
 * the run that mundrefol_multi_run_to writes to each one that such a run visits and that no earlier run
 * of the list does; the plan visits none of them. A run is stored as its number of multiple changes in
 * two bytes, low byte first, then as in a plan. On success the place is the number of bytes written, 0
 * if there is no such couple.
 * Refused as marking is, then by 16 with the bytes that the whole list needs. Ranks are left as marking
 * leaves them, single changes alone; after a refusal the list buffer is unchanged.
 */
mundrefol_answer mundrefol_multi_list(mundrefol_frame frame, const uint8_t *table, size_t table_len, uint16_t *ranks, size_t ranks_len,
                                      uint8_t *list, size_t list_len);

/*
 * Shortens a plan, which is all of the plan_len bytes: from the first run to the last, takes out each
 * one whose couples are all visited by other runs still in. Those left move down in order; together
 * they visit the same couples, and none of them can be spared. On success the place is the number of
 * their bytes, and the bytes past it keep their values. An empty plan is no refusal, place 0.
 * Refused by 2, 3 (the table alone), 4, 10, 19; nothing changes after a refusal. A run of no settings
 * is refused by 19, and so is every run of a table without a start.
 */
mundrefol_answer mundrefol_shorten(mundrefol_frame frame, const uint8_t *table, size_t table_len, uint8_t *plan, size_t plan_len);

/*
 * Writes the readings expected on a run, one byte a setting: after the start one reading, after each
 * change one after the first move and one after the second. On success the place is the number of
 * readings, 2 * run_len - 1; so many readings are needed also where 17 refuses, an empty run needs none.
 * Refused by 2 (also a run of over 65535 settings), 3, 4, 10, 17; nothing changes after a refusal.
 */
mundrefol_answer mundrefol_expected(mundrefol_frame frame, const uint8_t *table, size_t table_len, const uint16_t *words, size_t words_len,
                                    const uint8_t *run, size_t run_len, uint16_t *readings, size_t readings_len);

/*
 * Writes the readings expected on a run that may change several inputs, as mundrefol_expected does; 17
 * refuses a change of no input, but none of several.
 * Refused by 2 (also a run of over 65535 settings), 3, 4, 10, 17; nothing changes after a refusal.
 */
mundrefol_answer mundrefol_multi_expected(mundrefol_frame frame, const uint8_t *table, size_t table_len,
                                          const uint16_t *words, size_t words_len, const uint8_t *run, size_t run_len,
                                          uint16_t *readings, size_t readings_len);

/*
 * Notes one reading in the log: compares the expected with the seen word. Equal counts a reading;
 * stored counts a differing one too, each output in which its words differ, and keeps the reading as given;
 * full counts the same and keeps no entry. Nothing else of the log changes.
 * Refused by 18; the log is then unchanged, the kind 3.
 */
mundrefol_noted mundrefol_update(mundrefol_log *log, uint16_t run, uint16_t change, bool second, uint16_t expected, uint16_t seen);

#ifdef __cplusplus
}
#endif

#endif
