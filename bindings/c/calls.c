/* Every call once, with what it answers and which bytes it changes. The plan is document 01's K4: condition 0 at point 0; if it is true,
 * point 1 comes at most 1 slot after point 0, if false, at least 2 after. Prints the number of checks, or the first that fails. */
#include <stdio.h>
#include <string.h>

#include "tureenlark.h"

#define PLAN_TEXT "0102020102\n02000000\n03000100010101\n030100FFFE0100\n"
#define TREE_TEXT "0403\n05000100\n05020200\n05010200\n"

/* a text's bytes and their number, without the zero behind them */
#define TEXT(s) (const uint8_t *)(s), sizeof(s) - 1
/* an array and its length, as a call takes them */
#define BUFFER(a) (a), sizeof(a)

static int checks;

#define CHECK(fact)                                                 \
    do {                                                            \
        checks++;                                                   \
        if (!(fact)) {                                              \
            printf("line %d does not hold: %s\n", __LINE__, #fact); \
            return 1;                                               \
        }                                                           \
    } while (0)

static const uint8_t k4_tree[9] = {0, 1, 0, 2, 2, 0, 1, 2, 0};

static size_t refused(enum tureenlark_refusal number)
{
    return TUREENLARK_REFUSED + (size_t)number;
}

static int begins(const uint8_t *bytes, const char *text)
{
    return memcmp(bytes, text, strlen(text)) == 0;
}

/* whether the bytes from `from` up to `end` are all `byte` */
static int all(const uint8_t *bytes, size_t from, size_t end, uint8_t byte)
{
    for (; from < end; from++)
        if (bytes[from] != byte)
            return 0;
    return 1;
}

/* The 400 bytes of K4; read_plan below makes the same. */
static void k4(uint8_t *plan)
{
    static const uint8_t head[4] = {2, 2, 1, 2};                                       /* horizon, points, letters, constraints */
    static const uint8_t constraints[12] = {0, 1, 0, 1, 1, 1, 1, 0, 0xFF, 0xFE, 1, 0}; /* from, to, bound, need, true */

    memset(plan, 0, TUREENLARK_PLAN_BYTES);
    memcpy(plan, head, sizeof head);
    memcpy(plan + 16, constraints, sizeof constraints); /* behind six letters; letter 0 is point 0, a condition: two zeros */
}

static int judge_plan(void)
{
    uint8_t plan[TUREENLARK_PLAN_BYTES];

    k4(plan);
    CHECK(tureenlark_judge_plan(BUFFER(plan)) == 1);
    CHECK(tureenlark_judge_plan(plan, 399) == refused(TUREENLARK_BUFFER));
    plan[399] = 1; /* in an entry that is not used */
    CHECK(tureenlark_judge_plan(BUFFER(plan)) == refused(TUREENLARK_CONSTRAINTS));
    plan[4] = 2; /* letter 0 at a point that the plan lacks: letters come before constraints */
    CHECK(tureenlark_judge_plan(BUFFER(plan)) == refused(TUREENLARK_LETTERS));
    plan[0] = 64;
    CHECK(tureenlark_judge_plan(BUFFER(plan)) == refused(TUREENLARK_HEAD));
    return 0;
}

static int read_plan(void)
{
    uint8_t plan[TUREENLARK_PLAN_BYTES + 1], expected[TUREENLARK_PLAN_BYTES];

    k4(expected);
    memset(plan, 0xEE, sizeof plan);
    CHECK(tureenlark_read_plan(TEXT(PLAN_TEXT), plan, 399) == refused(TUREENLARK_BUFFER));
    CHECK(all(plan, 0, sizeof plan, 0xEE));
    CHECK(tureenlark_read_plan(TEXT(PLAN_TEXT), BUFFER(plan)) == 1);
    CHECK(memcmp(plan, expected, sizeof expected) == 0);
    CHECK(tureenlark_read_plan(TEXT(PLAN_TEXT "\n"), BUFFER(plan)) == refused(TUREENLARK_PLAN_TEXT));
    CHECK(all(plan, 0, TUREENLARK_PLAN_BYTES, 0));
    CHECK(plan[TUREENLARK_PLAN_BYTES] == 0xEE);
    return 0;
}

static int write_plan(void)
{
    uint8_t plan[TUREENLARK_PLAN_BYTES], text[TUREENLARK_PLAN_TEXT_BYTES];

    k4(plan);
    memset(text, '.', sizeof text);
    CHECK(tureenlark_write_plan(BUFFER(plan), text, 49) == refused(TUREENLARK_BUFFER));
    CHECK(all(text, 0, sizeof text, '.'));
    CHECK(tureenlark_write_plan(BUFFER(plan), BUFFER(text)) == 50);
    CHECK(begins(text, PLAN_TEXT));
    CHECK(all(text, 50, sizeof text, '.'));
    return 0;
}

static int read_tree(void)
{
    uint8_t tree[TUREENLARK_TREE_BYTES];

    memset(tree, 0xEE, sizeof tree);
    CHECK(tureenlark_read_tree(TEXT(TREE_TEXT), tree, 572) == refused(TUREENLARK_BUFFER));
    CHECK(tureenlark_read_tree(TEXT("0400\n"), BUFFER(tree)) == refused(TUREENLARK_TREE_TEXT));
    CHECK(all(tree, 0, sizeof tree, 0xEE));
    CHECK(tureenlark_read_tree(TEXT(TREE_TEXT), BUFFER(tree)) == 3);
    CHECK(memcmp(tree, k4_tree, sizeof k4_tree) == 0);
    CHECK(all(tree, sizeof k4_tree, sizeof tree, 0xEE));
    return 0;
}

static int write_tree(void)
{
    uint8_t text[TUREENLARK_TREE_TEXT_BYTES];

    memset(text, '.', sizeof text);
    CHECK(tureenlark_write_tree(k4_tree, 8, BUFFER(text)) == refused(TUREENLARK_SHAPE));
    CHECK(tureenlark_write_tree(BUFFER(k4_tree), text, 31) == refused(TUREENLARK_BUFFER));
    CHECK(all(text, 0, sizeof text, '.'));
    CHECK(tureenlark_write_tree(BUFFER(k4_tree), BUFFER(text)) == 32);
    CHECK(begins(text, TREE_TEXT));
    CHECK(all(text, 32, sizeof text, '.'));
    return 0;
}

static int check_tree(void)
{
    static const uint8_t exchanged[9] = {0, 1, 0, 1, 2, 0, 2, 2, 0};
    static const uint8_t same_slot[9] = {0, 1, 0, 0, 2, 0, 1, 2, 0};
    uint8_t plan[TUREENLARK_PLAN_BYTES];

    k4(plan);
    CHECK(tureenlark_check_tree(BUFFER(plan), BUFFER(k4_tree)) == 1);
    CHECK(tureenlark_check_tree(BUFFER(plan), BUFFER(exchanged)) == refused(TUREENLARK_BROKEN));
    CHECK(tureenlark_check_tree(BUFFER(plan), BUFFER(same_slot)) == refused(TUREENLARK_SHAPE));
    return 0;
}

static int search(void)
{
    uint8_t plan[TUREENLARK_PLAN_BYTES], tree[TUREENLARK_TREE_BYTES + 1];

    k4(plan);
    memset(tree, 0xEE, sizeof tree);
    CHECK(tureenlark_search(BUFFER(plan), tree, 572) == refused(TUREENLARK_BUFFER));
    CHECK(all(tree, 0, sizeof tree, 0xEE));
    CHECK(tureenlark_search(BUFFER(plan), BUFFER(tree)) == 3);
    CHECK(memcmp(tree, k4_tree, sizeof k4_tree) == 0);
    CHECK(all(tree, sizeof k4_tree, TUREENLARK_TREE_BYTES, 0));
    plan[0] = 1; /* the horizon: too little time if the condition is false */
    CHECK(tureenlark_search(BUFFER(plan), BUFFER(tree)) == refused(TUREENLARK_HOPELESS));
    CHECK(all(tree, 0, TUREENLARK_TREE_BYTES, 0));
    CHECK(tree[TUREENLARK_TREE_BYTES] == 0xEE);
    return 0;
}

static int show(void)
{
    static const uint8_t root[3] = {0, 1, 0}, if_true[3] = {1, 2, 0};
    uint8_t plan[TUREENLARK_PLAN_BYTES], told[TUREENLARK_INSTRUCTION_BYTES];
    uint8_t history[TUREENLARK_HISTORY_BYTES] = {0};

    k4(plan);
    CHECK(tureenlark_show(BUFFER(plan), BUFFER(k4_tree), BUFFER(history), BUFFER(told)) == 1);
    CHECK(memcmp(told, root, sizeof root) == 0);
    history[0] = 1;
    history[1] = 1;
    CHECK(tureenlark_show(BUFFER(plan), BUFFER(k4_tree), BUFFER(history), BUFFER(told)) == 1);
    CHECK(memcmp(told, if_true, sizeof if_true) == 0);
    history[0] = 2;
    CHECK(tureenlark_show(BUFFER(plan), BUFFER(k4_tree), BUFFER(history), BUFFER(told)) == 0);
    history[8] = 1; /* behind the count */
    CHECK(tureenlark_show(BUFFER(plan), BUFFER(k4_tree), BUFFER(history), BUFFER(told)) == refused(TUREENLARK_MASK));
    CHECK(memcmp(told, if_true, sizeof if_true) == 0);
    return 0;
}

static int report(void)
{
    uint8_t plan[TUREENLARK_PLAN_BYTES];
    uint8_t history[TUREENLARK_HISTORY_BYTES] = {0};

    k4(plan);
    CHECK(tureenlark_report(BUFFER(plan), BUFFER(k4_tree), BUFFER(history), 2) == refused(TUREENLARK_MASK));
    CHECK(all(history, 0, sizeof history, 0));
    CHECK(tureenlark_report(BUFFER(plan), BUFFER(k4_tree), BUFFER(history), 1) == 1);
    CHECK(history[0] == 1 && history[1] == 1 && all(history, 2, sizeof history, 0));
    CHECK(tureenlark_report(BUFFER(plan), BUFFER(k4_tree), BUFFER(history), 0) == 1);
    CHECK(tureenlark_report(BUFFER(plan), BUFFER(k4_tree), BUFFER(history), 0) == refused(TUREENLARK_AFTER_DONE));
    CHECK(history[0] == 2 && history[1] == 1 && all(history, 2, sizeof history, 0));
    return 0;
}

static int follow(void)
{
    /* a showing, a report that is refused, two that are accepted, one after done, and half a call */
    static const uint8_t calls[11] = {0, 0, 1, 2, 1, 1, 1, 0, 1, 0, 1};
    static const uint8_t followed[8] = {0, 1, 0, 1, 1, 2, 0, 0};
    uint8_t plan[TUREENLARK_PLAN_BYTES], steps[TUREENLARK_STEPS_BYTES];
    uint8_t history[TUREENLARK_HISTORY_BYTES] = {0};

    k4(plan);
    memset(steps, 0xEE, sizeof steps);
    CHECK(tureenlark_follow(BUFFER(plan), BUFFER(k4_tree), BUFFER(history), BUFFER(calls), BUFFER(steps)) == 2);
    CHECK(history[0] == 2 && history[1] == 1 && all(history, 2, sizeof history, 0));
    CHECK(memcmp(steps, followed, sizeof followed) == 0);
    CHECK(all(steps, sizeof followed, sizeof steps, 0));
    return 0;
}

static int least_schedule(void)
{
    static const uint8_t if_false[8] = {0, 2};
    uint8_t plan[TUREENLARK_PLAN_BYTES], schedule[TUREENLARK_SCHEDULE_BYTES];

    k4(plan);
    memset(schedule, 0xEE, sizeof schedule);
    CHECK(tureenlark_least_schedule(BUFFER(plan), 0, BUFFER(schedule)) == 1);
    CHECK(memcmp(schedule, if_false, sizeof if_false) == 0);
    CHECK(tureenlark_least_schedule(BUFFER(plan), 2, BUFFER(schedule)) == refused(TUREENLARK_MASK));
    CHECK(all(schedule, 0, sizeof schedule, 0));
    plan[0] = 1; /* the horizon */
    memset(schedule, 0xEE, sizeof schedule);
    CHECK(tureenlark_least_schedule(BUFFER(plan), 0, BUFFER(schedule)) == 0);
    CHECK(all(schedule, 0, sizeof schedule, 0));
    memset(schedule, 0xEE, sizeof schedule);
    CHECK(tureenlark_least_schedule(BUFFER(plan), 0, schedule, 7) == refused(TUREENLARK_BUFFER)); /* there is no place */
    CHECK(all(schedule, 0, sizeof schedule, 0xEE));
    CHECK(tureenlark_least_schedule(plan, 399, 0, BUFFER(schedule)) == refused(TUREENLARK_BUFFER)); /* there is one */
    CHECK(all(schedule, 0, sizeof schedule, 0));
    return 0;
}

static int differences(void)
{
    /* eight rows of 16 bytes: 0, 2 and -2, 0; then 0, 1 and 2, 0 */
    static const uint8_t if_false[TUREENLARK_TABLE_BYTES] = {0, 0, 0, 2, [16] = 0xFF, 0xFE, 0, 0};
    static const uint8_t if_true[TUREENLARK_TABLE_BYTES] = {0, 0, 0, 1, [16] = 0, 2, 0, 0};
    uint8_t plan[TUREENLARK_PLAN_BYTES], table[TUREENLARK_TABLE_BYTES + 1];

    k4(plan);
    memset(table, 0xEE, sizeof table);
    CHECK(tureenlark_differences(BUFFER(plan), 0, BUFFER(table)) == 1);
    CHECK(memcmp(table, if_false, sizeof if_false) == 0); /* row 1, column 0 is at most -1: point 0 is forced before point 1 */
    CHECK(tureenlark_differences(BUFFER(plan), 1, BUFFER(table)) == 1);
    CHECK(memcmp(table, if_true, sizeof if_true) == 0); /* neither is forced */
    CHECK(tureenlark_differences(BUFFER(plan), 2, BUFFER(table)) == refused(TUREENLARK_MASK));
    CHECK(all(table, 0, TUREENLARK_TABLE_BYTES, 0));
    plan[0] = 1; /* the horizon */
    memset(table, 0xEE, TUREENLARK_TABLE_BYTES);
    CHECK(tureenlark_differences(BUFFER(plan), 0, BUFFER(table)) == 0);
    CHECK(all(table, 0, TUREENLARK_TABLE_BYTES, 0));
    memset(table, 0xEE, TUREENLARK_TABLE_BYTES);
    CHECK(tureenlark_differences(BUFFER(plan), 0, table, 127) == refused(TUREENLARK_BUFFER)); /* there is no place */
    CHECK(all(table, 0, TUREENLARK_TABLE_BYTES, 0xEE));
    CHECK(tureenlark_differences(plan, 399, 0, BUFFER(table)) == refused(TUREENLARK_BUFFER)); /* there is one */
    CHECK(all(table, 0, TUREENLARK_TABLE_BYTES, 0));
    CHECK(table[TUREENLARK_TABLE_BYTES] == 0xEE);
    return 0;
}

static int screen(void)
{
    uint8_t plan[TUREENLARK_PLAN_BYTES];

    k4(plan);
    CHECK(tureenlark_screen(BUFFER(plan)) == 1);
    plan[0] = 1; /* the horizon */
    CHECK(tureenlark_screen(BUFFER(plan)) == 0);
    plan[1] = 9; /* points */
    CHECK(tureenlark_screen(BUFFER(plan)) == refused(TUREENLARK_HEAD));
    return 0;
}

static int answer(void)
{
    uint8_t text[TUREENLARK_TREE_TEXT_BYTES];

    memset(text, '.', sizeof text);
    CHECK(tureenlark_answer(TEXT(PLAN_TEXT), text, 31) == refused(TUREENLARK_BUFFER));
    CHECK(all(text, 0, sizeof text, '.'));
    CHECK(tureenlark_answer(TEXT(PLAN_TEXT), BUFFER(text)) == 32);
    CHECK(begins(text, TREE_TEXT));
    CHECK(all(text, 32, sizeof text, '.'));
    CHECK(tureenlark_answer(TEXT(""), BUFFER(text)) == 5);
    CHECK(begins(text, "7F01\n"));
    return 0;
}

int main(void)
{
    int failed = judge_plan() || read_plan() || write_plan() || read_tree() || write_tree() || check_tree() || search() || show()
        || report() || follow() || least_schedule() || differences() || screen() || answer();

    if (failed)
        return 1;
    printf("%d checks\n", checks);
    return 0;
}
