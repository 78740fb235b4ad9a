/*
 * The planner's calls for C: link libcapi.a, which `tools/build` writes to target/staticlib.
 *
 * Every call takes arbitrary bytes and buffers of any length, and refuses what does not serve.
 * A buffer is a pointer and the number of its elements. The pointer is not null, also where the
 * number is 0, and is aligned for its elements. A buffer that is written overlaps no other buffer
 * and not `out`. The calls keep nothing between them, allocate nothing, and use up to about 500 KiB
 * of the stack.
 *
 * The answer of a call is written to `out`, all of its eighteen numbers at every call; a number
 * that the call does not have, and every number but the first three beside a refusal, is 0:
 *
 *    0  number: 0 for done, any other for a refusal (docs/FORMAT.md lists them)
 *    1  file: 1 where the place is an offset in the second file handed in, else 0
 *    2  place of the refusal: an offset in a file or in a text; of 21 the number of elements that
 *       the buffer needs; of 22 and 23 a step
 *    3  rounds of the marking
 *    4  cost of the plan
 *    5  steps of the plan
 *    6  action marks written
 *    7  fact marks written
 *    8  bytes of the reduced file written
 *    9  bytes of the origin file written
 *   10  entries of the table written
 *   11  bytes of the plan file written
 *   12  bytes of the page written
 *   13  bytes of the task file written
 *   14  turns of level 5, else 0
 *   15  reserved: elements of a list written
 *   16  reserved: 1 where the goal holds, else 0
 *   17  reserved: entries
 *
 * A buffer holds its result from its first element on; what lies behind the result is untouched.
 * A refusal leaves every buffer as it was, but for the results of the stages before it: the marks
 * stand where the reduced or the origin file finds no room (21); the marks and both files where
 * there are too many states (25) or the table finds no room (21); and the table beside them where
 * there is no plan (24) or the plan file finds no room (21).
 */
#ifndef SHORTEST_H
#define SHORTEST_H

#include <stddef.h>
#include <stdint.h>

#ifdef __cplusplus
extern "C" {
#endif

/* The places of `out`, and how many they are. No call has a number behind SHORTEST_TURNS
   yet. */
enum {
    SHORTEST_NUMBER,
    SHORTEST_FILE,
    SHORTEST_PLACE,
    SHORTEST_ROUNDS,
    SHORTEST_COST,
    SHORTEST_STEPS,
    SHORTEST_ACTIONS,
    SHORTEST_FACTS,
    SHORTEST_REDUCED,
    SHORTEST_ORIGIN,
    SHORTEST_TABLE,
    SHORTEST_PLAN,
    SHORTEST_PAGE,
    SHORTEST_TASK,
    SHORTEST_TURNS,
    SHORTEST_LIST,
    SHORTEST_GOAL,
    SHORTEST_ENTRIES,
    SHORTEST_NUMBERS
};

/* As many elements as any result has. */
enum {
    SHORTEST_MOST_ACTIONS = 512,
    SHORTEST_MOST_FACTS = 2048,
    SHORTEST_MOST_REDUCED = 65536,
    SHORTEST_MOST_ORIGIN = 5520,
    SHORTEST_MOST_ENTRIES = 4096,
    SHORTEST_MOST_PLAN = 8206,
    SHORTEST_MOST_PAGE = 135201,
    SHORTEST_MOST_TASK = 65536
};

/* An entry of the table: the least cost to the goal from a state, then the fewest steps at that
   cost; UINT64_MAX and UINT16_MAX where the goal cannot be reached. */
struct shortest_entry {
    uint64_t minutes;
    uint16_t steps;
};

/* Whether a file is a task file. */
void shortest_check_task(const uint8_t *file, size_t file_length, uint64_t out[SHORTEST_NUMBERS]);

/* Whether a file is an origin file. */
void shortest_check_origin(const uint8_t *file, size_t file_length, uint64_t out[SHORTEST_NUMBERS]);

/* Whether a plan file holds a plan of the task of a task file; its cost and steps. */
void shortest_check_plan(const uint8_t *task, size_t task_length,
                         const uint8_t *plan, size_t plan_length, uint64_t out[SHORTEST_NUMBERS]);

/* Marks the task of a task file at a level, 1 to 4. The action marks need an element an action and
   hold 1 for a kept action, else 0. The fact marks need an element a fact, by variable and then
   value, and hold 2 for a relevant fact that is linked, 1 for any other relevant fact, else 0. */
void shortest_mark(const uint8_t *task, size_t task_length, uint32_t level,
                   uint8_t *actions, size_t actions_length,
                   uint8_t *facts, size_t facts_length, uint64_t out[SHORTEST_NUMBERS]);

/* Marks as shortest_mark does, and reduces the task at a level, 1 to 5: `reduced` holds the file of
   the reduced task and `origin` the file of its origins, both under the signer, which is not 0. The
   reduced file is no longer than the task file. Level 5 takes turns, each of which reduces at level
   4 and then strikes the actions that are not reached, until one leaves the task as it found it: a
   fact is reached if it is a start fact or the effect of a reached action, and an action if all its
   conditions are. Its marks and rounds are the first turn's; its origins are those of the last, in
   the numbers of the task file. */
void shortest_reduce(const uint8_t *task, size_t task_length, uint32_t level, uint32_t signer,
                     uint8_t *actions, size_t actions_length,
                     uint8_t *facts, size_t facts_length,
                     uint8_t *reduced, size_t reduced_length,
                     uint8_t *origin, size_t origin_length, uint64_t out[SHORTEST_NUMBERS]);

/* Plans: reduces at a level, 4 or 5, as shortest_reduce does, fills the table with an entry for each
   state of the reduced task, by its number, and writes to `plan` the plan file of the first of the
   cheapest plans of fewest steps, in the action numbers of the task file, under the signer. Any
   other level is refused with 8. A plan is the same at both levels; level 5 may leave fewer states
   to search. */
void shortest_plan(const uint8_t *task, size_t task_length, uint32_t level, uint32_t signer,
                   uint8_t *actions, size_t actions_length,
                   uint8_t *facts, size_t facts_length,
                   uint8_t *reduced, size_t reduced_length,
                   uint8_t *origin, size_t origin_length,
                   struct shortest_entry *table, size_t table_length,
                   uint8_t *plan, size_t plan_length, uint64_t out[SHORTEST_NUMBERS]);

/* Lays out the plan of a plan file as text, where shortest_check_plan accepts it, with its cost and
   steps, and refuses as that call does where it does not. Each step is a line of 32 characters and
   a line feed: its number from 1 in 4 columns, two blanks, the number of its action in 5, its
   minutes in 9, and the sum of the minutes so far in 12, all flush right. The last line is SIGNED
   and the signer of the plan file, flush right in 26 columns. The page needs 33 elements a line. */
void shortest_sheet(const uint8_t *task, size_t task_length,
                    const uint8_t *plan, size_t plan_length,
                    uint8_t *page, size_t page_length, uint64_t out[SHORTEST_NUMBERS]);

/* Writes to `file` the task file, under the signer, of the task that a text of the Fast Downward
   translator states (format version 3, docs/FORMAT.md). The file is shorter than the text. Beside 7
   for a signer 0 and 21, the refusals and their places in the text are:
     4   a count, size or cost outside its limits, at the number; a text of over 65,536 bytes, at 0
     5   a variable or value out of range, at the number
     31  not of the format, at the first byte with which no text of the format goes on, or at the
         text's length where it ends early
     32  an axiom, a layer other than -1 or a conditional effect, at the number
     33  a variable given twice in the goal or in one operator, at its second number */
void shortest_translate(const uint8_t *text, size_t text_length, uint32_t signer,
                        uint8_t *file, size_t file_length, uint64_t out[SHORTEST_NUMBERS]);

#ifdef __cplusplus
}
#endif

#endif
