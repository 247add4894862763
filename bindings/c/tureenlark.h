/* Tureenlark from C: the calls of the planner over byte buffers. Link with libtureenlark.a; docs/LIBRARY.md has the layouts.
 *
 * Every call takes buffers of any length and any contents, and answers one number:
 *   below TUREENLARK_REFUSED   the result, as each call says;
 *   TUREENLARK_REFUSED + n     refused, n being document 01's number (1 to 11), as in the text frame 7F n.
 * A buffer is a pointer and then a length. The pointer must point to that many bytes, and must not be null even where the length is 0.
 * A buffer that is not const must overlap no other. Only the bytes that a call names change.
 *
 * Records are bytes: a plan 400, a history 9, an instruction 3, a schedule 8, a table 128, steps 32. Any call with a buffer that is shorter
 * than its record is refused with 10 before anything else is looked at, and no byte changes, save a schedule's eight and a table's 128
 * where only the plan is short: they are zero then. Bytes behind a record are neither read nor changed.
 * A tree that is handed in has just its nodes' bytes: its length is three times the number of nodes, not that of the buffer it stands in.
 */
#ifndef TUREENLARK_H
#define TUREENLARK_H

#include <stddef.h>
#include <stdint.h>

#ifdef __cplusplus
extern "C" {
#endif

#define TUREENLARK_REFUSED ((size_t)0x7F00)

/* lengths of records, and buffers that are long enough for every result */
#define TUREENLARK_PLAN_BYTES 400
#define TUREENLARK_HISTORY_BYTES 9
#define TUREENLARK_INSTRUCTION_BYTES 3
#define TUREENLARK_SCHEDULE_BYTES 8
#define TUREENLARK_TABLE_BYTES 128
#define TUREENLARK_STEPS_BYTES 32
#define TUREENLARK_TREE_BYTES 573
#define TUREENLARK_PLAN_TEXT_BYTES 1025
#define TUREENLARK_TREE_TEXT_BYTES 1724

/* document 01's numbers of refusals */
enum tureenlark_refusal {
    TUREENLARK_PLAN_TEXT = 1,   /* the author of a plan: its text, */
    TUREENLARK_HEAD = 2,        /* its head, */
    TUREENLARK_LETTERS = 3,     /* its letters, */
    TUREENLARK_CONSTRAINTS = 4, /* its constraints */
    TUREENLARK_TREE_TEXT = 5,   /* the maker of a tree: its text, */
    TUREENLARK_SHAPE = 6,       /* its length, its shape or the horizon, */
    TUREENLARK_BROKEN = 7,      /* a constraint that is broken on some path */
    TUREENLARK_MASK = 8,        /* the crew: a history or a mask, */
    TUREENLARK_AFTER_DONE = 9,  /* a report after done */
    TUREENLARK_BUFFER = 10,     /* the calling program: a buffer is too short */
    TUREENLARK_HOPELESS = 11    /* the author of a plan: no crew can be sure to keep it */
};

/* 1 where the record is a well-formed plan; or refused with 2, 3, 4. */
size_t tureenlark_judge_plan(const uint8_t *plan, size_t plan_length);

/* 1, and the first 400 bytes of `plan` are the record that the text says; or refused with 1, 2, 3, 4, and they are zero. Where `plan` has
 * fewer, no byte changes. */
size_t tureenlark_read_plan(const uint8_t *text, size_t text_length, uint8_t *plan, size_t plan_length);

/* The length of the plan's text, which is put at the front of `text`; or refused with 2, 3, 4, 10 (fewer bytes than the text has), and no
 * byte changes. */
size_t tureenlark_write_plan(const uint8_t *plan, size_t plan_length, uint8_t *text, size_t text_length);

/* The number of nodes of the tree that the text says, three bytes each, put at the front of `tree`; or refused with 10 (fewer than 573
 * bytes), 5, and no byte changes. */
size_t tureenlark_read_tree(const uint8_t *text, size_t text_length, uint8_t *tree, size_t tree_length);

/* The length of the tree's text, which is put at the front of `text`; or refused with 6 (a length that no tree has), 10 (fewer bytes than
 * the text has), and no byte changes. No shape is judged. */
size_t tureenlark_write_tree(const uint8_t *tree, size_t tree_length, uint8_t *text, size_t text_length);

/* 1 where the bytes are a tree whose every path keeps the plan; or refused with 2, 3, 4, 6, 7. */
size_t tureenlark_check_tree(const uint8_t *plan, size_t plan_length, const uint8_t *tree, size_t tree_length);

/* The number of nodes of the tree of first moves, which is put into `tree`, zeros behind it up to byte 573; or refused with 10 (fewer than
 * 573 bytes), 2, 3, 4, and no byte changes; or refused with 11, and the first 573 bytes are zero. */
size_t tureenlark_search(const uint8_t *plan, size_t plan_length, uint8_t *tree, size_t tree_length);

/* 1, and the first three bytes of `instruction` are the slot, the points and the choices that the crew is told at the history; 0 where it
 * is done; or refused with 2, 3, 4, 6, 7, 8, 9. With 0 and with a refusal no byte changes. */
size_t tureenlark_show(const uint8_t *plan, size_t plan_length, const uint8_t *tree, size_t tree_length,
                       const uint8_t *history, size_t history_length, uint8_t *instruction, size_t instruction_length);

/* 1, and `history` is one report longer; or refused with 2, 3, 4, 6, 7, 8, 9, and no byte changes. A new history is nine zeros. */
size_t tureenlark_report(const uint8_t *plan, size_t plan_length, const uint8_t *tree, size_t tree_length,
                         uint8_t *history, size_t history_length, uint8_t mask);

/* The calls of a list, two bytes each, one after the other from this history on: 0 and any byte shows, any other byte and a mask reports
 * that mask; an odd last byte is no call. The number of accepted reports; `history` holds the history that is left, and the first 32 bytes
 * of `steps`, four for each accepted report, hold the slot, points and choices told and the mask, zeros behind them. A call of the list
 * that is refused, for the plan, the tree, the history or the mask, changes nothing and the list goes on; nothing but a short record is
 * refused as a whole. */
size_t tureenlark_follow(const uint8_t *plan, size_t plan_length, const uint8_t *tree, size_t tree_length,
                         uint8_t *history, size_t history_length, const uint8_t *calls, size_t calls_length,
                         uint8_t *steps, size_t steps_length);

/* 1, and the first eight bytes of `schedule` are the least slots where the letters of `values` are true and the others false; 0 where
 * there is no schedule; or refused with 2, 3, 4, 8. With 0 and with every refusal, 10 for a short plan too, the eight bytes are zero; where
 * `schedule` has fewer, no byte changes. */
size_t tureenlark_least_schedule(const uint8_t *plan, size_t plan_length, uint8_t values, uint8_t *schedule,
                                 size_t schedule_length);

/* 1, and the first 128 bytes of `table` are the differences where the letters of `values` are true and the others false: row X, column Y,
 * two bytes from 16 X + 2 Y on (high byte, then low byte, two's complement), is the largest value that time of Y minus time of X takes in
 * any schedule within the horizon; rows and columns of unused points are zero. X is forced strictly before Y exactly where row Y, column X
 * is at most -1. 0 where there is no schedule; or refused with 2, 3, 4, 8. With 0 and with every refusal, 10 for a short plan too, the 128
 * bytes are zero; where `table` has fewer, no byte changes. */
size_t tureenlark_differences(const uint8_t *plan, size_t plan_length, uint8_t values, uint8_t *table, size_t table_length);

/* 1 where every setting of all letters has a schedule, 0 where one has none; or refused with 2, 3, 4. */
size_t tureenlark_screen(const uint8_t *plan, size_t plan_length);

/* The length of what the program prints for this input, a tree text or one 7F frame, which is put at the front of `text`; or refused with
 * 10, and no byte changes. */
size_t tureenlark_answer(const uint8_t *input, size_t input_length, uint8_t *text, size_t text_length);

#ifdef __cplusplus
}
#endif

#endif
