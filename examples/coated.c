/* Builds the table of coated 4 for the wanted stack +1 +2 +3 +4 in one call, and shows a plan from it: the stack after each turn, and the price.
 * Then the same for a frame that cannot lift three panes: the plan is longer, and from some stacks there is none.
 *   tools/archive
 *   cc -std=c99 -Iinclude examples/coated.c target/staticlib/libhokrund.a -o target/coated
 *   target/coated | cmp - examples/coated.out */
#include "hokrund.h"
#include <stdio.h>
#include <stdlib.h>

enum { KIND = HOKRUND_COATED, PANES = 4, S = 64, C = 16 };
/* N is no enum constant: that of coated 10 does not fit an int. */
#define N HOKRUND_STACKS(KIND, PANES)
#define G HOKRUND_SEGMENT_COUNT(N, S)

static uint8_t table[HOKRUND_TABLE_BYTES(N)];
static uint32_t logs[HOKRUND_LOG_WORDS(G, C)];
static uint8_t changed[HOKRUND_CHANGED_BYTES(S)];

static void accepted(uint8_t refusal)
{
    if (refusal != HOKRUND_ACCEPTED) {
        printf("refused %d\n", refusal);
        exit(1);
    }
}

/* The panes from the top, plus for coat up and minus for coat down. */
static void show(HokrundStack stack)
{
    for (int p = 0; p < PANES; p++)
        printf(" %+d", stack.places[p]);
    printf("\n");
}

/* Fills the table for the frame that lifts these sizes. Where some stack needs exactly 255 turns, it ends in a job that close refuses. */
static HokrundJob build(HokrundStack wanted, uint32_t groups)
{
    HokrundAnswer built = hokrund_build_table(KIND, PANES, wanted, groups, S, C, table, sizeof table, logs, HOKRUND_LOG_WORDS(G, C), changed,
                                              sizeof changed);
    accepted(built.refusal);
    if (built.job.phase != HOKRUND_FINISHED)
        accepted(hokrund_close(built.job, HOKRUND_FORWARD).refusal);
    return built.job;
}

/* The plan from the frame's own table. A stack without a road is refused. */
static void plan(HokrundStack wanted, HokrundStack stack, uint32_t groups)
{
    /* Thousandths of a penny for sizes 1 to 3, and for size 4. */
    HokrundTariff tariff = {2, {{1, 3, 1250}, {4, 4, 1400}}};
    uint8_t turns[HOKRUND_TURN_LIST];
    HokrundPriced priced = hokrund_price(KIND, PANES, wanted, stack, groups, table, sizeof table, turns, sizeof turns, tariff);
    printf("given:");
    show(stack);
    if (priced.refusal == HOKRUND_REFUSED_NO_ROAD) {
        printf("refused %d\n", priced.refusal);
        return;
    }
    accepted(priced.refusal);
    for (uint32_t t = 0; t < priced.turns; t++) {
        HokrundStacked turned = hokrund_turn(KIND, PANES, stack, turns[t]);
        accepted(turned.refusal);
        stack = turned.stack;
        printf("turn %d:", turns[t]);
        show(stack);
    }
    printf("price: %u\n", (unsigned)priced.pennies);
}

int main(void)
{
    HokrundStack wanted = {{1, 2, 3, 4}}, coats_down = {{-1, -2, -3, -4}}, exchanged = {{1, 3, 2, 4}};
    uint32_t every = HOKRUND_ALL_GROUPS(KIND, PANES), not_three = every & ~(1u << 2);
    if (hokrund_version() != HOKRUND_VERSION) {
        printf("the archive is of another version\n");
        return 1;
    }
    HokrundJob job = build(wanted, every);
    for (int d = 0; d <= job.level; d++)
        printf("level %d: %lu\n", d, (unsigned long)job.counts[d]);
    plan(wanted, coats_down, every);

    job = build(wanted, not_three);
    printf("without size 3, deepest level: %d\n", job.level);
    plan(wanted, coats_down, not_three);
    plan(wanted, exchanged, not_three);
    return 0;
}
