/* Builds the table of plain 3 for the wanted stack 1 2 3 call by call, in two segments of S = 4, its late levels reverse, and plans document 01's
 * frames from it.
 *   tools/archive
 *   cc -std=c99 -Iinclude examples/plan3.c target/staticlib/libhokrund.a -o target/plan3
 *   target/plan3 | cmp - examples/plan3.out */
#include "hokrund.h"
#include <stdio.h>
#include <stdlib.h>

enum { KIND = HOKRUND_PLAIN, PANES = 3, S = 4, C = 16 };
/* N is no enum constant: that of coated 10 does not fit an int. */
#define N HOKRUND_STACKS(KIND, PANES)
#define G HOKRUND_SEGMENT_COUNT(N, S)
/* The frame lifts every size that is a turn. */
#define GROUPS HOKRUND_ALL_GROUPS(KIND, PANES)

/* The segments stand in the table itself. */
static uint8_t table[HOKRUND_TABLE_BYTES(N)];
static uint32_t logs[HOKRUND_LOG_WORDS(G, C)];
static uint8_t changed[HOKRUND_CHANGED_BYTES(S)];

/* Two arguments each, a pointer and its length: segment j, the whole log area, and the changed list of segment b. */
#define SEGMENT(j) table + HOKRUND_SEGMENT_START(S, j), HOKRUND_SEGMENT_BYTES(HOKRUND_SEGMENT_STACKS(N, S, j))
#define LOGS logs, HOKRUND_LOG_WORDS(G, C)
#define CHANGED(b) changed, HOKRUND_CHANGED_BYTES(HOKRUND_SEGMENT_STACKS(N, S, b))

static HokrundJob next(uint8_t refusal, HokrundJob job)
{
    if (refusal != HOKRUND_ACCEPTED) {
        printf("refused %d\n", refusal);
        exit(1);
    }
    return job;
}

static HokrundJob next_of(HokrundAnswer answer)
{
    return next(answer.refusal, answer.job);
}

static HokrundJob go_forward(HokrundJob job)
{
    for (uint32_t j = 0; j < G; j++) {
        while (job.passed[j] < HOKRUND_SEGMENT_STACKS(N, S, j)) {
            HokrundExpanded e = hokrund_expand(job, j, SEGMENT(j), LOGS);
            job = next(e.refusal, e.job);
            if (e.waits)
                job = next_of(hokrund_settle(job, e.on, SEGMENT(e.on), LOGS));
        }
    }
    for (uint32_t j = 0; j < G; j++)
        job = next_of(hokrund_settle(job, j, SEGMENT(j), LOGS));
    return job;
}

static HokrundJob go_reverse(HokrundJob job)
{
    for (uint32_t b = 0; b < G; b++) {
        job = next_of(hokrund_load(job, b, SEGMENT(b), CHANGED(b)));
        for (uint32_t j = 0; j < G; j++)
            job = next_of(hokrund_sweep(job, j, SEGMENT(j), CHANGED(b)));
    }
    return job;
}

static void build(HokrundStack wanted)
{
    HokrundJob job = next_of(hokrund_begin(KIND, PANES, wanted, GROUPS, S, C));
    for (uint32_t j = 0; j < G; j++)
        job = next_of(hokrund_blank(job, j, SEGMENT(j)));
    job = next_of(hokrund_close(job, HOKRUND_FORWARD));
    while (job.phase != HOKRUND_FINISHED) {
        job = job.way == HOKRUND_REVERSE ? go_reverse(job) : go_forward(job);
        /* Few stacks are unseen after level 2. */
        job = next_of(hokrund_close(job, job.level < 2 ? HOKRUND_FORWARD : HOKRUND_REVERSE));
    }
}

int main(void)
{
    HokrundStack wanted = {{1, 2, 3}}, given[] = {{{3, 1, 2}}, {{1, 3, 2}}, {{1, 2, 3}}, {{1, 1, 3}}};
    if (hokrund_version() != HOKRUND_VERSION) {
        printf("the archive is of another version\n");
        return 1;
    }
    build(wanted);
    for (int i = 0; i < 4; i++) {
        uint8_t turns[HOKRUND_TURN_LIST];
        HokrundPlanned p = hokrund_plan(KIND, PANES, wanted, given[i], GROUPS, table, sizeof table, turns, sizeof turns);
        printf("%d %d %d:", given[i].places[0], given[i].places[1], given[i].places[2]);
        for (uint32_t t = 0; t < p.turns; t++)
            printf(" %d", turns[t]);
        printf(p.refusal != HOKRUND_ACCEPTED ? " refused %d\n" : "\n", p.refusal);
    }
    return 0;
}
