/* A crew's run over a plan: reads the plan's text from standard input, prints the tree's text, then walks the run that the arguments say.
 * Each argument is one report, a mask as a decimal or, behind 0x, a hexadecimal number. At each history the instruction is printed, or
 * `done`. A refusal ends the program with `refused: N` and status 1; arguments that are no masks end it with status 2.
 *
 *     cc -std=c99 -I bindings/c bindings/c/example.c crates/tureenlark/out/libtureenlark.a -o example
 *     ./example 1 0 0 0 < examples/register.plan
 */
#include <stdio.h>
#include <stdlib.h>
#include <string.h>

#include "tureenlark.h"

/* The answer, where it is a result. */
static size_t accepted(size_t answer)
{
    if (answer >= TUREENLARK_REFUSED) {
        printf("refused: %lu\n", (unsigned long)(answer - TUREENLARK_REFUSED));
        exit(1);
    }
    return answer;
}

/* The digits are looked at first: strtoul alone would take signs, spaces and octal numbers. */
static uint8_t mask_in(const char *word)
{
    int hexadecimal = word[0] == '0' && (word[1] == 'x' || word[1] == 'X');
    const char *digits = hexadecimal ? word + 2 : word;
    size_t count = strspn(digits, hexadecimal ? "0123456789ABCDEFabcdef" : "0123456789");
    unsigned long mask = strtoul(digits, NULL, hexadecimal ? 16 : 10);

    if (count == 0 || digits[count] != '\0' || mask > 255) {
        fprintf(stderr, "no mask: %s\n", word);
        exit(2);
    }
    return (uint8_t)mask;
}

int main(int argc, char **argv)
{
    uint8_t plan_text[TUREENLARK_PLAN_TEXT_BYTES + 1]; /* one more, so that a longer text is refused and not cut */
    uint8_t plan[TUREENLARK_PLAN_BYTES];
    uint8_t tree[TUREENLARK_TREE_BYTES];
    uint8_t tree_text[TUREENLARK_TREE_TEXT_BYTES];
    uint8_t history[TUREENLARK_HISTORY_BYTES] = {0};
    uint8_t told[TUREENLARK_INSTRUCTION_BYTES];
    size_t length, tree_length;
    int next = 1;

    length = fread(plan_text, 1, sizeof plan_text, stdin);
    accepted(tureenlark_read_plan(plan_text, length, plan, sizeof plan));

    tree_length = 3 * accepted(tureenlark_search(plan, sizeof plan, tree, sizeof tree));
    length = accepted(tureenlark_write_tree(tree, tree_length, tree_text, sizeof tree_text));
    fwrite(tree_text, 1, length, stdout);

    for (;;) {
        if (accepted(tureenlark_show(plan, sizeof plan, tree, tree_length, history, sizeof history, told, sizeof told)))
            printf("slot %d: points %02X, choices %02X\n", told[0], told[1], told[2]);
        else
            printf("done\n");
        if (next >= argc)
            return 0;
        accepted(tureenlark_report(plan, sizeof plan, tree, tree_length, history, sizeof history, mask_in(argv[next++])));
    }
}
