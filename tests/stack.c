/* How much of the call stack each call needs, with its arguments and its answer: it is run on a stack of its own, filled with one byte before, and
 * the lowest byte that has changed says how deep it went. The header's number bounds all of them. C99, with POSIX threads. */
#define _POSIX_C_SOURCE 200809L
#include "hokrund.h"
#include <pthread.h>
#include <stdio.h>
#include <string.h>

#define KIND HOKRUND_PLAIN
#define PANES 6
#define N HOKRUND_STACKS(KIND, PANES)
#define S 240
#define C 256
#define G HOKRUND_SEGMENT_COUNT(N, S)
#define GROUPS HOKRUND_ALL_GROUPS(KIND, PANES)
#define BYTES HOKRUND_SEGMENT_BYTES(S)
#define WORDS HOKRUND_LOG_WORDS(G, C)
#define LIST_BYTES HOKRUND_CHANGED_BYTES(S)

#define STACK_BYTES (1 << 20)
#define PAINT 0xa5

static const HokrundStack wanted = {{1, 2, 3, 4, 5, 6}}, given = {{5, 3, 1, 6, 2, 4}};
static const HokrundTariff tariff = {1, {{1, PANES, 1000}}};
static uint8_t table[HOKRUND_TABLE_BYTES(N)];
static uint32_t logs[WORDS];
static uint8_t changed[LIST_BYTES], list[HOKRUND_TURN_LIST];
static HokrundAnswer answer;
static HokrundExpanded expanded;
static HokrundJob job;
static uint8_t refusal;

static void none(void) { refusal = 0; }
static void version(void) { refusal = hokrund_version() != HOKRUND_VERSION; }
static void index_of_stack(void) { refusal = hokrund_index_of_stack(KIND, PANES, given).refusal; }
static void stack_at_index(void) { refusal = hokrund_stack_at_index(KIND, PANES, N - 1).refusal; }
static void turn(void) { refusal = hokrund_turn(KIND, PANES, given, 4).refusal; }
static void begin(void) { answer = hokrund_begin(KIND, PANES, wanted, GROUPS, S, C); }
static void blank(void) { answer = hokrund_blank(job, 0, table, BYTES); }
static void expand(void) { expanded = hokrund_expand(job, 0, table, BYTES, logs, WORDS); }
static void settle(void) { answer = hokrund_settle(job, 1, table + BYTES, BYTES, logs, WORDS); }
static void look(void) { refusal = hokrund_look(job, 1, logs, WORDS).refusal; }
static void load(void) { answer = hokrund_load(job, 0, table, BYTES, changed, LIST_BYTES); }
static void sweep(void) { answer = hokrund_sweep(job, 1, table + BYTES, BYTES, changed, LIST_BYTES); }
static void close_phase(void) { answer = hokrund_close(job, HOKRUND_REVERSE); }
static void build(void)
{
    answer = hokrund_build_table(KIND, PANES, wanted, GROUPS, S, C, table, sizeof table, logs, WORDS, changed, LIST_BYTES);
}
static void read_entry(void) { refusal = hokrund_read_entry(KIND, PANES, table, sizeof table, N - 1).refusal; }
static void plan(void) { refusal = hokrund_plan(KIND, PANES, wanted, given, GROUPS, table, sizeof table, list, sizeof list).refusal; }
static void price(void)
{
    refusal = hokrund_price(KIND, PANES, wanted, given, GROUPS, table, sizeof table, list, sizeof list, tariff).refusal;
}

static uint8_t stack[STACK_BYTES] __attribute__((aligned(64)));
static void (*called)(void);
static uint8_t *volatile top;
static int differences = 0;

static void *on_its_stack(void *unused)
{
    uint8_t here = 0;
    top = &here;
    called();
    return unused;
}

/* The bytes below a frame of the thread that the call has changed. */
static size_t depth(const char *what, void (*call)(void))
{
    pthread_t thread;
    pthread_attr_t attributes;
    uint8_t *lowest = stack;
    called = call;
    memset(stack, PAINT, sizeof stack);
    if (pthread_attr_init(&attributes) || pthread_attr_setstack(&attributes, stack, sizeof stack)
        || pthread_create(&thread, &attributes, on_its_stack, 0) || pthread_join(thread, 0)) {
        printf("%s: no thread\n", what);
        differences++;
        return 0;
    }
    while (*lowest == PAINT)
        lowest++;
    return (size_t)(top - lowest);
}

/* A call that does its work, and needs no more than it may: half of the header's number, but for build; one that is given or answers a job needs more
 * than none does. */
static void measured(const char *what, void (*call)(void), uint8_t *found, size_t least)
{
    const size_t most = call == build ? HOKRUND_STACK_BYTES : HOKRUND_STACK_BYTES / 2;
    size_t needed;
    call();
    needed = depth(what, call);
    if (*found != HOKRUND_ACCEPTED || needed > most || needed < least) {
        printf("%s: refused %d, %lu bytes of stack\n", what, *found, (unsigned long)needed);
        differences++;
    }
}

int main(void)
{
    const size_t nothing = depth("nothing", none), by_job = nothing + sizeof(HokrundJob);
    measured("version", version, &refusal, nothing);
    measured("index of a stack", index_of_stack, &refusal, nothing);
    measured("stack at an index", stack_at_index, &refusal, nothing);
    measured("turn", turn, &refusal, nothing);
    measured("begin", begin, &answer.refusal, by_job);
    job = answer.job;
    measured("blank", blank, &answer.refusal, by_job);
    for (uint32_t j = 0; j < G; j++)
        job = hokrund_blank(job, j, table + HOKRUND_SEGMENT_START(S, j), BYTES).job;
    measured("close", close_phase, &answer.refusal, by_job);
    job = hokrund_close(job, HOKRUND_FORWARD).job;
    measured("expand", expand, &expanded.refusal, by_job);
    job = expanded.job;
    measured("settle", settle, &answer.refusal, by_job);
    measured("look", look, &refusal, by_job);
    job.way = HOKRUND_REVERSE;
    measured("load", load, &answer.refusal, by_job);
    job = answer.job;
    measured("sweep", sweep, &answer.refusal, by_job);
    measured("build", build, &answer.refusal, by_job);
    measured("read an entry", read_entry, &refusal, nothing);
    measured("plan", plan, &refusal, nothing);
    measured("price", price, &refusal, nothing);
    return differences != 0;
}
