/* Calls each function of the header once or twice, and prints what it answers. */
#include "cishmolaq.h"
#include <stdio.h>
#include <string.h>

static const char *const good =
    "class run\nfield cycles\nfield clusters\nmethod shot\nset cycles + cycles 1\nend\nmethod plot\nreply clusters\nend\n"
    "method tally\nadd clusters arg\nend\nobject run1 run 7\n";
static const char *const bad = "class run\nclass run\n";

_Static_assert(CISHMOLAQ_STATE_WORDS == STATE_WORDS && CISHMOLAQ_MOST_VALUES == MOST_VALUES, "the layout's sizes");
_Static_assert(CISHMOLAQ_LONGEST_TEXT == LONGEST_TEXT && CISHMOLAQ_LONGEST_IMAGE == LONGEST_IMAGE, "the text's and the image's");
_Static_assert(CISHMOLAQ_LONGEST_TABLES == LONGEST_TABLES, "the lines'");

#define TEXT(s) (const uint8_t *)(s), strlen(s)
#define LENT TEXT(good), state, CISHMOLAQ_STATE_WORDS, values, 2

static uint32_t state[CISHMOLAQ_STATE_WORDS];

/* Two slots on one object: a send that waits and is withdrawn, one that waits until the other slot is aborted, and its message. */
static void machine(void) {
    uint32_t values[2] = {7, 0};
    uint32_t detail = 99;
    size_t line = 99;
    uint32_t number = cishmolaq_start(TEXT(good), values, 1, state, CISHMOLAQ_STATE_WORDS, &line);
    printf("start %u %zu\n", number, line);
    number = cishmolaq_start(TEXT(good), values, 2, state, CISHMOLAQ_STATE_WORDS, &line);
    printf("start %u %zu\n", number, line);
    number = cishmolaq_send(LENT, 8, CISHMOLAQ_OBJECT, 0, 0, 1, &detail);
    printf("send %u %u\n", number, detail);
    number = cishmolaq_send(LENT, 3, CISHMOLAQ_OBJECT, 0, 0, 1, &detail);
    printf("send %u %u\n", number, detail);
    number = cishmolaq_send(LENT, 5, CISHMOLAQ_DOMAIN, 0, 0, 1, &detail);
    printf("send %u %u\n", number, detail);
    number = cishmolaq_step(LENT, 5, &detail);
    printf("step %u %u: %u %u\n", number, detail, values[0], values[1]);
    number = cishmolaq_send(LENT, 5, 3, 0, 0, 1, &detail);
    printf("send %u %u\n", number, detail);
    for (int twice = 0; twice < 2; twice++) {
        number = cishmolaq_abort(LENT, 5, &detail);
        printf("abort %u %u: %u %u\n", number, detail, values[0], values[1]);
    }
    number = cishmolaq_send(LENT, 5, 3, 0, 0, 1, &detail);
    printf("send %u %u\n", number, detail);
    number = cishmolaq_send(LENT, 5, CISHMOLAQ_CLASS, 0, 0, 1, &detail);
    printf("send %u %u\n", number, detail);
    do {
        number = cishmolaq_step(LENT, 3, &detail);
        printf("step %u %u: %u %u\n", number, detail, values[0], values[1]);
    } while (number == 1);
    number = cishmolaq_commit(LENT, 5, &detail);
    printf("commit %u %u\n", number, detail);
    number = cishmolaq_abort(LENT, 3, &detail);
    printf("abort %u %u: %u %u\n", number, detail, values[0], values[1]);
    number = cishmolaq_commit(LENT, 5, &detail);
    printf("commit %u %u\n", number, detail);
    do {
        number = cishmolaq_step(LENT, 5, &detail);
        printf("step %u %u: %u %u\n", number, detail, values[0], values[1]);
    } while (number == 1);
    number = cishmolaq_commit(LENT, 5, &detail);
    printf("commit %u %u\n", number, detail);
}

/* Two slots add to one field side by side, a third that reads it waits for both; one is aborted, and the other's addition stays. A send
 * of the other to all lanes would wait behind the third: a circle. When it has committed the third starts. */
static void tallies(void) {
    uint32_t values[2] = {7, 1};
    uint32_t detail = 99;
    size_t line = 99;
    cishmolaq_start(TEXT(good), values, 2, state, CISHMOLAQ_STATE_WORDS, &line);
    for (uint32_t slot = 0; slot < 2; slot++) {
        uint32_t number = cishmolaq_send(LENT, slot, CISHMOLAQ_OBJECT, 0, 2, slot == 0 ? UINT32_MAX : 10, &detail);
        printf("send %u %u\n", number, detail);
    }
    for (uint32_t slot = 0; slot < 2; slot++) {
        uint32_t number = cishmolaq_step(LENT, slot, &detail);
        printf("step %u %u: %u %u\n", number, detail, values[0], values[1]);
    }
    uint32_t number = cishmolaq_send(LENT, 2, CISHMOLAQ_OBJECT, 0, 1, 0, &detail);
    printf("send %u %u\n", number, detail);
    number = cishmolaq_abort(LENT, 0, &detail);
    printf("abort %u %u: %u %u\n", number, detail, values[0], values[1]);
    number = cishmolaq_step(LENT, 2, &detail);
    printf("step %u %u: %u %u\n", number, detail, values[0], values[1]);
    number = cishmolaq_step(LENT, 1, &detail);
    printf("step %u %u: %u %u\n", number, detail, values[0], values[1]);
    number = cishmolaq_send(LENT, 1, CISHMOLAQ_CLASS, 0, 2, 1, &detail);
    printf("send %u %u\n", number, detail);
    number = cishmolaq_commit(LENT, 1, &detail);
    printf("commit %u %u\n", number, detail);
    number = cishmolaq_step(LENT, 2, &detail);
    printf("step %u %u: %u %u\n", number, detail, values[0], values[1]);
}

int main(void) {
    uint8_t image[CISHMOLAQ_LONGEST_IMAGE];
    uint8_t lines[CISHMOLAQ_LONGEST_TABLES];
    uint32_t values[2] = {1, 1};
    size_t detail = 99;
    uint32_t number = cishmolaq_check(TEXT(good), &detail);
    printf("check %u %zu\n", number, detail);
    number = cishmolaq_check(TEXT(bad), &detail);
    printf("check %u %zu\n", number, detail);
    number = cishmolaq_compile(TEXT(good), image, sizeof image, &detail);
    printf("compile %u %zu %u\n", number, detail, image[0]);
    number = cishmolaq_compile(TEXT(good), image, 3, &detail);
    printf("compile %u %zu\n", number, detail);
    size_t place = cishmolaq_statement(TEXT(good), 1, &detail);
    printf("statement %zu %zu %.*s\n", place, detail, (int)detail, good + place);
    number = cishmolaq_statement_fault(TEXT(good), 3, &detail);
    printf("statement_fault %u %zu\n", number, detail);
    number = cishmolaq_starting_values(TEXT(good), values, 2, &detail);
    printf("starting_values %u %zu: %u %u\n", number, detail, values[0], values[1]);
    number = cishmolaq_starting_values(TEXT(good), values, 1, &detail);
    printf("starting_values %u %zu\n", number, detail);
    number = cishmolaq_print_tables(TEXT(good), lines, sizeof lines, &detail);
    printf("tables %u %zu\n%.*s", number, detail, (int)detail, (const char *)lines);
    number = cishmolaq_print_tables(TEXT(bad), lines, 12, &detail);
    printf("tables %u %zu\n", number, detail);
    machine();
    tallies();
    return 0;
}
