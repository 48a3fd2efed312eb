/* What the header says of the library beside its declarations, met by calls: every refusal by its name, the limits of a coherent job, of a set
 * of sizes, of a plan and of a tariff, the order of the stacks, where an entry stands, levels by either way, and jobs as bytes. C99 and C++98. */
#include "hokrund.h"
#include <stdio.h>
#include <stdlib.h>
#include <string.h>

#define KIND HOKRUND_PLAIN
#define PANES 3
#define S 4
#define C 16
#define N HOKRUND_STACKS(KIND, PANES)
#define G HOKRUND_SEGMENT_COUNT(N, S)
#define WORDS HOKRUND_LOG_WORDS(G, C)
#define LIST_BYTES HOKRUND_CHANGED_BYTES(HOKRUND_SEGMENT_STACKS(N, S, 0))
#define GROUPS HOKRUND_ALL_GROUPS(KIND, PANES)
/* A set of one size. */
#define SIZE(k) ((uint32_t)1 << ((k) - 1))

static const HokrundStack wanted = {{1, 2, 3}}, other = {{3, 1, 2}}, none = {{1, 1, 3}};
static uint8_t table[HOKRUND_TABLE_BYTES(N)];
static uint32_t logs[WORDS];
static uint8_t changed[LIST_BYTES];
static int differences = 0;

static void same(const char *what, unsigned long found, unsigned long expected)
{
    if (found != expected) {
        printf("%s: %lu instead of %lu\n", what, found, expected);
        differences++;
    }
}

static HokrundJob begun(void)
{
    return hokrund_begin(KIND, PANES, wanted, GROUPS, S, C).job;
}

static HokrundAnswer build(uint32_t groups, size_t length, size_t words, size_t bytes)
{
    return hokrund_build_table(KIND, PANES, wanted, groups, S, C, table, length, logs, words, changed, bytes);
}

static HokrundJob in_phase(uint8_t phase, uint8_t level)
{
    HokrundJob job = begun();
    job.phase = phase;
    job.level = level;
    return job;
}

/* A job in a level, all of its stacks passed. */
static HokrundJob passed_at(uint8_t level)
{
    HokrundJob job = in_phase(HOKRUND_LEVEL, level);
    job.passed[0] = HOKRUND_SEGMENT_STACKS(N, S, 0);
    job.passed[1] = HOKRUND_SEGMENT_STACKS(N, S, 1);
    return job;
}

/* A job in a reverse level, with nothing loaded. */
static HokrundJob reverse_at(uint8_t level)
{
    HokrundJob job = in_phase(HOKRUND_LEVEL, level);
    job.way = HOKRUND_REVERSE;
    return job;
}

/* Every segment is swept against every segment. */
static HokrundJob swept(HokrundJob job)
{
    for (uint32_t b = 0; b < G; b++)
        job.swept[b] = ((uint64_t)1 << G) - 1;
    return job;
}

static void stack_refusals(void)
{
    same("KIND", hokrund_index_of_stack(2, PANES, wanted).refusal, HOKRUND_REFUSED_KIND);
    same("PANES", hokrund_index_of_stack(HOKRUND_COATED, 11, wanted).refusal, HOKRUND_REFUSED_PANES);
    same("STACK", hokrund_index_of_stack(KIND, PANES, none).refusal, HOKRUND_REFUSED_STACK);
    same("INDEX", hokrund_stack_at_index(KIND, PANES, N).refusal, HOKRUND_REFUSED_INDEX_OR_TURN);
    same("TURN", hokrund_turn(KIND, PANES, wanted, 1).refusal, HOKRUND_REFUSED_INDEX_OR_TURN);
    same("accepted", hokrund_turn(KIND, PANES, wanted, 2).refusal, HOKRUND_ACCEPTED);
}

static void job_refusals(void)
{
    HokrundJob job = begun(), last = passed_at(255), waits = passed_at(1), reverse = reverse_at(1);
    HokrundJob loaded = hokrund_load(reverse, 0, table, 1, changed, LIST_BYTES).job;
    last.counts[255] = 1;
    waits.waiting[1] = 1;
    logs[C] = 2;
    same("GROUPS", hokrund_begin(KIND, PANES, wanted, SIZE(1), S, C).refusal, HOKRUND_REFUSED_GROUPS);
    same("SIZE", hokrund_begin(KIND, PANES, wanted, GROUPS, 6, C).refusal, HOKRUND_REFUSED_SIZE);
    same("ROOM", hokrund_begin(KIND, PANES, wanted, GROUPS, S, 15).refusal, HOKRUND_REFUSED_ROOM);
    same("PHASE", hokrund_expand(job, 0, table, 1, logs, WORDS).refusal, HOKRUND_REFUSED_PHASE);
    same("SEGMENT", hokrund_blank(job, G, table, 1).refusal, HOKRUND_REFUSED_SEGMENT);
    same("LENGTH", hokrund_blank(job, 0, table, 2).refusal, HOKRUND_REFUSED_LENGTH);
    same("PASSED", hokrund_blank(hokrund_blank(job, 0, table, 1).job, 0, table, 1).refusal, HOKRUND_REFUSED_PASSED);
    same("OFFSET", hokrund_settle(waits, 1, table + 1, 1, logs, WORDS).refusal, HOKRUND_REFUSED_OFFSET);
    same("NOT_READY", hokrund_close(waits, HOKRUND_FORWARD).refusal, HOKRUND_REFUSED_NOT_READY);
    same("LAST_LEVEL", hokrund_close(last, HOKRUND_FORWARD).refusal, HOKRUND_REFUSED_LAST_LEVEL);
    same("PHASE, expand", hokrund_expand(reverse, 0, table, 1, logs, WORDS).refusal, HOKRUND_REFUSED_PHASE);
    same("PHASE, settle", hokrund_settle(reverse, 0, table, 1, logs, WORDS).refusal, HOKRUND_REFUSED_PHASE);
    same("PHASE, load", hokrund_load(passed_at(1), 0, table, 1, changed, LIST_BYTES).refusal, HOKRUND_REFUSED_PHASE);
    same("PHASE, sweep", hokrund_sweep(passed_at(1), 0, table, 1, changed, LIST_BYTES).refusal, HOKRUND_REFUSED_PHASE);
    same("SEGMENT, load", hokrund_load(reverse, G, table, 1, changed, LIST_BYTES).refusal, HOKRUND_REFUSED_SEGMENT);
    same("LENGTH, load", hokrund_load(reverse, 0, table, 1, changed, LIST_BYTES - 1).refusal, HOKRUND_REFUSED_LENGTH);
    same("NOT_LOADED", hokrund_sweep(reverse, 0, table, 1, changed, LIST_BYTES).refusal, HOKRUND_REFUSED_NOT_LOADED);
    same("LENGTH, sweep", hokrund_sweep(loaded, 0, table, 1, changed, LIST_BYTES - 1).refusal, HOKRUND_REFUSED_LENGTH);
    loaded = hokrund_sweep(loaded, 1, table + 1, 1, changed, LIST_BYTES).job;
    same("PASSED, sweep", hokrund_sweep(loaded, 1, table + 1, 1, changed, LIST_BYTES).refusal, HOKRUND_REFUSED_PASSED);
    same("NOT_READY, reverse", hokrund_close(loaded, HOKRUND_FORWARD).refusal, HOKRUND_REFUSED_NOT_READY);
}

/* Each limit of a coherent job: there, and one past it. Look is refused in no phase. */
static void limit(const char *what, HokrundJob at, HokrundJob past)
{
    same(what, hokrund_look(at, 0, logs, WORDS).refusal, HOKRUND_ACCEPTED);
    same(what, hokrund_look(past, 0, logs, WORDS).refusal, HOKRUND_REFUSED_INCOHERENT);
}

static void coherence(void)
{
    HokrundJob at = begun(), past = begun();
    limit("level of Blanking", in_phase(HOKRUND_BLANKING, 0), in_phase(HOKRUND_BLANKING, 1));
    limit("first level", in_phase(HOKRUND_LEVEL, 1), in_phase(HOKRUND_LEVEL, 0));
    same("last level", hokrund_look(in_phase(HOKRUND_LEVEL, 255), 0, logs, WORDS).refusal, HOKRUND_ACCEPTED);
    limit("deepest", in_phase(HOKRUND_FINISHED, 254), in_phase(HOKRUND_FINISHED, 255));
    limit("phase", in_phase(HOKRUND_FINISHED, 0), in_phase(HOKRUND_FINISHED + 1, 0));
    past.room = 15;
    limit("what begin accepts", at, past);
    past = at;
    at.groups = SIZE(3);
    past.groups = SIZE(3) | SIZE(1);
    limit("sizes", at, past);
    past.groups = 0;
    limit("no size", at, past);
    at.groups = past.groups = GROUPS;
    at.passed[1] = HOKRUND_SEGMENT_STACKS(N, S, 1);
    past.passed[1] = HOKRUND_SEGMENT_STACKS(N, S, 1) + 1;
    limit("passed", at, past);
    past.passed[1] = 0;
    past.passed[G] = 1;
    limit("passed past the last segment", at, past);
    past = at;
    at.waiting[1] = C;
    past.waiting[1] = C + 1;
    limit("waiting", at, past);
    past.waiting[1] = 0;
    past.waiting[G] = 1;
    limit("waiting past the last segment", at, past);
    past = at;
    at.way = HOKRUND_REVERSE;
    past.way = HOKRUND_REVERSE + 1;
    limit("way", at, past);
    past = at;
    at.loaded = G - 1;
    past.loaded = G;
    limit("loaded", at, past);
    at.loaded = HOKRUND_NO_SEGMENT;
    past.loaded = HOKRUND_NO_SEGMENT + 1;
    limit("nothing loaded", at, past);
    past = at;
    at.swept[G - 1] = (uint64_t)1 << (G - 1);
    past.swept[G - 1] = (uint64_t)1 << G;
    limit("swept", at, past);
    past = at;
    past.swept[G] = 1;
    limit("swept past the last segment", at, past);
    past = at;
    at.counts[255] = (uint64_t)1 << 60;
    past.counts[255] = ((uint64_t)1 << 60) + 1;
    limit("count", at, past);
}

/* Level 254 makes way, and level 255 finishes, if it brought nothing. */
static void last_levels(void)
{
    HokrundJob job = passed_at(254);
    job.counts[254] = 1;
    job = hokrund_close(job, HOKRUND_FORWARD).job;
    same("phase after level 254", job.phase, HOKRUND_LEVEL);
    same("level after level 254", job.level, 255);
    job = hokrund_close(passed_at(255), HOKRUND_FORWARD).job;
    same("phase after level 255", job.phase, HOKRUND_FINISHED);
    same("deepest after level 255", job.level, 254);
}

/* The way that close is told, from any level, by any number; a finished job keeps it too, and nothing is loaded or swept then. */
static void closed(HokrundJob job, uint8_t phase)
{
    static const uint8_t told[] = {HOKRUND_FORWARD, HOKRUND_REVERSE, 2, 255};
    for (int i = 0; i < 4; i++) {
        HokrundAnswer a = hokrund_close(job, told[i]);
        same("closed", a.refusal, HOKRUND_ACCEPTED);
        same("closed, phase", a.job.phase, phase);
        same("closed, way", a.job.way, told[i] == HOKRUND_FORWARD ? HOKRUND_FORWARD : HOKRUND_REVERSE);
        same("closed, loaded", a.job.loaded, HOKRUND_NO_SEGMENT);
        for (uint32_t b = 0; b < HOKRUND_SEGMENTS; b++)
            same("closed, swept", a.job.swept[b], 0);
    }
}

static void ways(void)
{
    HokrundJob blanked = passed_at(1), forward = passed_at(1), reverse = swept(reverse_at(1));
    blanked.phase = HOKRUND_BLANKING;
    blanked.level = 0;
    closed(blanked, HOKRUND_LEVEL);
    closed(forward, HOKRUND_FINISHED);
    closed(swept(forward), HOKRUND_FINISHED);
    reverse.loaded = 1;
    closed(reverse, HOKRUND_FINISHED);
    reverse.counts[1] = 1;
    closed(reverse, HOKRUND_LEVEL);
    reverse.swept[1] = 1;
    same("a pair is left", hokrund_close(reverse, HOKRUND_REVERSE).refusal, HOKRUND_REFUSED_NOT_READY);
}

/* Level 1 reverse: the wanted stack is the first of segment 0, and a child of the third there and of the second of segment 1. */
static void reverse_level(void)
{
    HokrundJob job = reverse_at(1);
    table[0] = 0xfc;
    table[1] = 0xff;
    changed[0] = 0xff;
    job = hokrund_load(job, 0, table, 1, changed, LIST_BYTES).job;
    same("loaded", job.loaded, 0);
    same("changed list", changed[0], 0x01);
    job = hokrund_sweep(job, 0, table, 1, changed, LIST_BYTES).job;
    job = hokrund_sweep(job, 1, table + 1, 1, changed, LIST_BYTES).job;
    same("swept segment 0", table[0], 0xdc);
    same("swept segment 1", table[1], 0xf7);
    same("swept", job.swept[0], 3);
    same("count of a reverse level", job.counts[1], 2);
    changed[0] = 0xff;
    job = hokrund_load(job, 1, table + 1, 1, changed, LIST_BYTES).job;
    same("changed list of segment 1", changed[0], 0);
    changed[0] = 0xfc;
    job = hokrund_sweep(job, 0, table, 1, changed, LIST_BYTES).job;
    same("swept by spare bits", table[0], 0xdc);
    same("counted by spare bits", job.counts[1], 2);
}

/* A whole build with every level reverse leaves what build_table leaves. */
static void reverse_build(void)
{
    HokrundAnswer built = build(GROUPS, sizeof table, WORDS, LIST_BYTES);
    const uint8_t right[] = {table[0], table[1]};
    HokrundJob job = begun();
    for (uint32_t j = 0; j < G; j++)
        job = hokrund_blank(job, j, table + j, 1).job;
    job = hokrund_close(job, HOKRUND_REVERSE).job;
    while (job.phase == HOKRUND_LEVEL) {
        for (uint32_t b = 0; b < G; b++) {
            job = hokrund_load(job, b, table + b, 1, changed, LIST_BYTES).job;
            for (uint32_t j = 0; j < G; j++)
                job = hokrund_sweep(job, j, table + j, 1, changed, LIST_BYTES).job;
        }
        HokrundAnswer a = hokrund_close(job, HOKRUND_REVERSE);
        same("reverse, closed", a.refusal, HOKRUND_ACCEPTED);
        if (a.refusal != HOKRUND_ACCEPTED)
            return;
        job = a.job;
    }
    same("reverse, deepest", job.level, built.job.level);
    for (int d = 0; d < HOKRUND_LEVELS; d++)
        same("reverse, count", job.counts[d], built.job.counts[d]);
    for (size_t i = 0; i < sizeof table; i++)
        same("reverse, entries", table[i], right[i]);
}

/* Level 255 where it brings stacks. The wanted stack's entry is 2, that of level 254; turn 2 leads to stack 2 and turn 3 to stack 5. */
static void level_255(uint32_t groups, uint8_t first, unsigned long brought)
{
    HokrundJob job = in_phase(HOKRUND_LEVEL, 255);
    job.groups = groups;
    table[0] = 0xfe;
    table[1] = 0xff;
    for (uint32_t j = 0; j < G; j++)
        job = hokrund_expand(job, j, table + j, 1, logs, WORDS).job;
    job = hokrund_settle(job, 1, table + 1, 1, logs, WORDS).job;
    same("marked at level 255", table[0], first);
    same("settled at level 255", table[1], 0xf3);
    same("count of level 255", job.counts[255], brought);
    same("closed at level 255", hokrund_close(job, HOKRUND_FORWARD).refusal, HOKRUND_REFUSED_LAST_LEVEL);
    same("expanded at level 255", hokrund_expand(job, 0, table, 1, logs, WORDS).refusal, HOKRUND_REFUSED_PASSED);
}

/* Each call on a job, by its place in the header, over the same bytes. */
static HokrundAnswer called(int call, HokrundJob job)
{
    HokrundAnswer answer = {0, job};
    HokrundExpanded e;
    table[0] = 0xfc;
    table[1] = 0xff;
    memset(logs, 0, sizeof logs);
    changed[0] = 1;
    switch (call) {
    case 0:
        return hokrund_blank(job, 0, table, 1);
    case 1:
        e = hokrund_expand(job, 0, table, 1, logs, WORDS);
        answer.refusal = e.refusal;
        answer.job = e.job;
        return answer;
    case 2:
        return hokrund_settle(job, 0, table, 1, logs, WORDS);
    case 3:
        return hokrund_close(job, HOKRUND_REVERSE);
    case 4:
        return hokrund_load(job, 1, table + 1, 1, changed, LIST_BYTES);
    case 5:
        return hokrund_sweep(job, 0, table, 1, changed, LIST_BYTES);
    default:
        answer.refusal = hokrund_look(job, 0, logs, WORDS).refusal;
        return answer;
    }
}

/* What is reserved in a job that is given changes no byte of the one that is answered, and is 0 there: where the call is accepted or refused, and
 * where the job is not coherent or no phase at all. */
static void reserved(void)
{
    HokrundJob jobs[] = {begun(), in_phase(HOKRUND_LEVEL, 1), passed_at(1), reverse_at(1), swept(reverse_at(1)), reverse_at(2), begun(), begun()};
    bool met[6][2] = {{false, false}};
    jobs[5].loaded = 0;
    jobs[6].room = 15;
    jobs[7].phase = HOKRUND_FINISHED + 1;
    for (size_t i = 0; i < sizeof jobs / sizeof jobs[0]; i++)
        for (int call = 0; call < 7; call++) {
            HokrundJob marked = jobs[i];
            marked.reserved[0] = 1;
            marked.reserved[1] = 255;
            HokrundAnswer right = called(call, jobs[i]), answer = called(call, marked);
            same("reserved, refusal", answer.refusal, right.refusal);
            if (call == 6)
                continue;
            same("reserved, job", memcmp(&answer.job, &right.job, sizeof answer.job) == 0, true);
            same("reserved, as given", answer.refusal == 0 || memcmp(&answer.job, &jobs[i], sizeof answer.job) == 0, true);
            same("reserved", answer.job.reserved[0] + answer.job.reserved[1], 0);
            met[call][answer.refusal != 0] = true;
        }
    for (int call = 0; call < 6; call++)
        same("reserved, accepted and refused", met[call][0] && met[call][1], true);
    same("reserved, begin", begun().reserved[0] + begun().reserved[1], 0);
}

/* Every size by itself and beside the others: begin takes those that are turns. */
static void sets(uint8_t kind, uint8_t n)
{
    HokrundStack ordered = {{0}};
    uint32_t all = HOKRUND_ALL_GROUPS(kind, n), largest = 67108864;
    for (int p = 0; p < n; p++)
        ordered.places[p] = (int8_t)(p + 1);
    for (uint8_t k = 1; k <= 32; k++) {
        bool turns = hokrund_turn(kind, n, ordered, k).refusal == HOKRUND_ACCEPTED;
        uint8_t refusal = turns ? HOKRUND_ACCEPTED : HOKRUND_REFUSED_GROUPS;
        same("one size", hokrund_begin(kind, n, ordered, SIZE(k), largest, C).refusal, refusal);
        same("one more size", hokrund_begin(kind, n, ordered, all | SIZE(k), largest, C).refusal, refusal);
    }
    same("every size", hokrund_begin(kind, n, ordered, all, largest, C).job.groups, all);
    same("every size", hokrund_begin(kind, n, ordered, all, largest, C).refusal, HOKRUND_ACCEPTED);
    same("no size", hokrund_begin(kind, n, ordered, 0, largest, C).refusal, all == 0 ? HOKRUND_ACCEPTED : HOKRUND_REFUSED_GROUPS);
}

/* Whether b comes after a: by the panes, and then by the coats, up before down. */
static bool comes_after(HokrundStack a, HokrundStack b)
{
    for (int p = 0; p < HOKRUND_PLACES; p++)
        if (abs(a.places[p]) != abs(b.places[p]))
            return abs(a.places[p]) < abs(b.places[p]);
    for (int p = 0; p < HOKRUND_PLACES; p++)
        if (a.places[p] != b.places[p])
            return a.places[p] > 0;
    return false;
}

static void order(uint8_t kind, uint8_t n)
{
    for (uint32_t i = 1; i < HOKRUND_STACKS(kind, n); i++)
        same("order", comes_after(hokrund_stack_at_index(kind, n, i - 1).stack, hokrund_stack_at_index(kind, n, i).stack), true);
}

/* Level 1: Passed names no segment, and an empty log is settled. */
static void level(void)
{
    HokrundJob job = hokrund_blank(hokrund_blank(begun(), 0, table, 1).job, 1, table + 1, 1).job;
    job = hokrund_close(job, HOKRUND_FORWARD).job;
    HokrundExpanded e = hokrund_expand(job, 0, table, 1, logs, WORDS);
    same("expanded", e.refusal, HOKRUND_ACCEPTED);
    same("waits", e.waits, false);
    same("on", e.on, 0);
    same("settled", hokrund_settle(job, 1, table + 1, 1, logs, WORDS).refusal, HOKRUND_ACCEPTED);
}

static HokrundPlanned plan(HokrundStack given, uint32_t groups, size_t length, size_t slots)
{
    static uint8_t list[HOKRUND_TURN_LIST];
    return hokrund_plan(KIND, PANES, wanted, given, groups, table, length, list, slots);
}

/* A whole table; then tables in which few stacks are seen. */
static void tables(void)
{
    const size_t slots = HOKRUND_TURN_LIST;
    HokrundAnswer built = build(GROUPS, sizeof table, WORDS, LIST_BYTES);
    same("built", built.refusal, HOKRUND_ACCEPTED);
    same("phase", built.job.phase, HOKRUND_FINISHED);
    same("deepest", built.job.level, 3);
    for (uint32_t i = 0; i < N; i++)
        same("entry", (unsigned long)((table[i / 4] >> (2 * (i % 4))) & 3), hokrund_read_entry(KIND, PANES, table, sizeof table, i).entry);
    same("spare entries", table[1] >> 4, 15);
    same("planned", plan(other, GROUPS, sizeof table, slots).turns, 2);
    same("another set", plan(other, SIZE(3), sizeof table, slots).refusal, HOKRUND_REFUSED_NO_PLAN);
    same("table", build(GROUPS, 1, WORDS, LIST_BYTES).refusal, HOKRUND_REFUSED_LENGTH);
    same("log", build(GROUPS, sizeof table, C, LIST_BYTES).refusal, HOKRUND_REFUSED_LENGTH);
    same("changed list", build(GROUPS, sizeof table, WORDS, LIST_BYTES - 1).refusal, HOKRUND_REFUSED_LENGTH);
    same("refused, loaded", build(GROUPS, 1, WORDS, LIST_BYTES).job.loaded, HOKRUND_NO_SEGMENT);
    same("list", plan(other, GROUPS, sizeof table, slots - 1).refusal, HOKRUND_REFUSED_LENGTH);
    table[0] = table[1] = 255;
    same("unseen", hokrund_read_entry(KIND, PANES, table, sizeof table, 0).entry, HOKRUND_UNSEEN);
    same("NO_ROAD", plan(other, GROUPS, sizeof table, slots).refusal, HOKRUND_REFUSED_NO_ROAD);
    table[1] = 0xfd;
    same("NO_PLAN", plan(other, GROUPS, sizeof table, slots).refusal, HOKRUND_REFUSED_NO_PLAN);
}

/* Where several refusals apply: 21 comes after every 3 and before the rest, 20 after every 10 and before 15 and a tariff's, 22 after 9 and before
 * 10, 11 after every 10. No stack is seen. */
static void first_refusals(void)
{
    HokrundJob reverse = reverse_at(1), loaded = swept(reverse);
    HokrundTariff tariff = {HOKRUND_LINES + 1, {{0, 0, 0}}};
    uint8_t list[HOKRUND_TURN_LIST];
    table[0] = table[1] = 255;
    same("3, 21", hokrund_begin(KIND, PANES, none, 0, S, C).refusal, HOKRUND_REFUSED_STACK);
    same("21, 5", hokrund_begin(KIND, PANES, wanted, 0, 6, C).refusal, HOKRUND_REFUSED_GROUPS);
    same("21, 6", hokrund_begin(KIND, PANES, wanted, 0, S, 15).refusal, HOKRUND_REFUSED_GROUPS);
    same("21, 10, build", build(0, 1, C, 0).refusal, HOKRUND_REFUSED_GROUPS);
    same("3, 21, plan", plan(none, 0, sizeof table, sizeof list).refusal, HOKRUND_REFUSED_STACK);
    same("21, 10, table", plan(other, 0, 1, sizeof list).refusal, HOKRUND_REFUSED_GROUPS);
    same("21, 10, list", plan(other, 0, sizeof table, sizeof list - 1).refusal, HOKRUND_REFUSED_GROUPS);
    same("10, 20, table", plan(other, GROUPS, 1, sizeof list).refusal, HOKRUND_REFUSED_LENGTH);
    same("10, 20, list", plan(other, GROUPS, sizeof table, sizeof list - 1).refusal, HOKRUND_REFUSED_LENGTH);
    same("20, 15", plan(wanted, GROUPS, sizeof table, sizeof list).refusal, HOKRUND_REFUSED_NO_ROAD);
    loaded.loaded = 0;
    same("9, 22", hokrund_sweep(reverse, G, table, 1, changed, LIST_BYTES).refusal, HOKRUND_REFUSED_SEGMENT);
    same("22, 10", hokrund_sweep(reverse, 0, table, 2, changed, 0).refusal, HOKRUND_REFUSED_NOT_LOADED);
    same("10, 11", hokrund_sweep(loaded, 0, table, 2, changed, LIST_BYTES).refusal, HOKRUND_REFUSED_LENGTH);
    same("10, 11, list", hokrund_sweep(loaded, 0, table, 1, changed, 0).refusal, HOKRUND_REFUSED_LENGTH);
    same("20, 17", hokrund_price(KIND, PANES, wanted, other, GROUPS, table, sizeof table, list, sizeof list, tariff).refusal,
         HOKRUND_REFUSED_NO_ROAD);
}

/* A frame for size 3 alone: 1 2 3 and 3 2 1, stacks 0 and 5, have a road, and the other four none. */
static void one_size(void)
{
    const size_t slots = HOKRUND_TURN_LIST;
    HokrundStack reversed = {{3, 2, 1}};
    HokrundAnswer built = build(SIZE(3), sizeof table, WORDS, LIST_BYTES);
    same("one size, built", built.refusal, HOKRUND_ACCEPTED);
    same("one size, phase", built.job.phase, HOKRUND_FINISHED);
    same("one size, deepest", built.job.level, 1);
    same("one size, groups", built.job.groups, SIZE(3));
    for (int d = 0; d < HOKRUND_LEVELS; d++)
        same("one size, count", built.job.counts[d], d < 2);
    same("one size, first segment", table[0], 0xfc);
    same("one size, second segment", table[1], 0xf7);
    same("one size, planned", plan(reversed, SIZE(3), sizeof table, slots).turns, 1);
    same("one size, no road", plan(other, SIZE(3), sizeof table, slots).refusal, HOKRUND_REFUSED_NO_ROAD);
}

/* A frame of plain 9 for sizes 4, 5 and 9, each of which makes an even number of exchanges. */
#define NINE HOKRUND_STACKS(HOKRUND_PLAIN, 9)
#define EVEN (SIZE(4) | SIZE(5) | SIZE(9))
#define NINE_SIZE 40000
#define NINE_ROOM 256
#define NINE_WORDS HOKRUND_LOG_WORDS(HOKRUND_SEGMENT_COUNT(NINE, NINE_SIZE), NINE_ROOM)
#define NINE_LIST HOKRUND_CHANGED_BYTES(NINE_SIZE)

static const HokrundStack nine = {{1, 2, 3, 4, 5, 6, 7, 8, 9}};
static uint8_t nine_table[HOKRUND_TABLE_BYTES(NINE)];

static HokrundPlanned nine_plan(HokrundStack given, uint8_t *list)
{
    return hokrund_plan(HOKRUND_PLAIN, 9, nine, given, EVEN, nine_table, sizeof nine_table, list, HOKRUND_TURN_LIST);
}

static bool is_even(HokrundStack stack)
{
    int exchanges = 0;
    for (int p = 0; p < 9; p++)
        for (int q = p + 1; q < 9; q++)
            exchanges += stack.places[p] > stack.places[q];
    return exchanges % 2 == 0;
}

/* The even orders have a road and the odd ones none. Counts and plan are those of a search over the orders themselves, which takes the largest
 * turn that leads one nearer. */
static void even_orders(void)
{
    static const unsigned long counts[] = {1, 3, 6, 12, 21, 33, 51, 78, 118, 180, 276, 423, 648, 990, 1489, 2255, 3370, 4951, 6972, 9573,
                                           12865, 16290, 19734, 22035, 21490, 19349, 16320, 11542, 6525, 2758, 939, 102, 26, 12, 3};
    static const char turns[] = "9595959545945459545959459545945959";
    static uint32_t nine_logs[NINE_WORDS];
    static uint8_t nine_list[NINE_LIST];
    HokrundStack far = {{8, 6, 9, 7, 5, 2, 4, 1, 3}}, odd = {{2, 1, 3, 4, 5, 6, 7, 8, 9}};
    uint8_t list[HOKRUND_TURN_LIST];
    HokrundAnswer built = hokrund_build_table(HOKRUND_PLAIN, 9, nine, EVEN, NINE_SIZE, NINE_ROOM, nine_table, sizeof nine_table, nine_logs,
                                              NINE_WORDS, nine_list, NINE_LIST);
    same("even, built", built.refusal, HOKRUND_ACCEPTED);
    same("even, phase", built.job.phase, HOKRUND_FINISHED);
    same("even, deepest", built.job.level, 34);
    for (int d = 0; d < HOKRUND_LEVELS; d++)
        same("even, count", built.job.counts[d], d <= 34 ? counts[d] : 0);
    for (uint32_t i = 0; i < NINE; i++) {
        bool seen = hokrund_read_entry(HOKRUND_PLAIN, 9, nine_table, sizeof nine_table, i).entry != HOKRUND_UNSEEN;
        same("even, seen", seen, is_even(hokrund_stack_at_index(HOKRUND_PLAIN, 9, i).stack));
    }
    same("even, turns", nine_plan(far, list).turns, 34);
    for (int t = 0; t < 34; t++)
        same("even, turn", list[t], (unsigned long)(turns[t] - '0'));
    same("even, odd", nine_plan(odd, list).refusal, HOKRUND_REFUSED_NO_ROAD);
}

/* A table that no build makes: along a road of 255 turns the entries rise by one modulo 3, and one turn of the set leads back along it. Plan
 * goes 254 of them, and refuses 255. */
static void longest_plan(void)
{
    static const char road[] = "495954954549459545";
    HokrundTariff tariff = {1, {{1, 9, HOKRUND_MOST_PRICE}}};
    HokrundStack stack = nine;
    uint8_t list[HOKRUND_TURN_LIST];
    for (size_t i = 0; i < sizeof nine_table; i++)
        nine_table[i] = 255;
    for (int t = 0; t <= 255; t++) {
        uint32_t i = hokrund_index_of_stack(HOKRUND_PLAIN, 9, stack).index;
        nine_table[i / 4] = (uint8_t)(nine_table[i / 4] ^ ((t % 3 ^ HOKRUND_UNSEEN) << (2 * (i % 4))));
        HokrundPlanned planned = nine_plan(stack, list);
        same("road, refusal", planned.refusal, t <= 254 ? HOKRUND_ACCEPTED : HOKRUND_REFUSED_NO_PLAN);
        same("road, turns", planned.turns, t <= 254 ? (unsigned long)t : 0);
        for (int u = 0; u < (int)planned.turns; u++)
            same("road, turn", list[u], (unsigned long)(road[(t - 1 - u) % 18] - '0'));
        HokrundPriced priced = hokrund_price(HOKRUND_PLAIN, 9, nine, stack, EVEN, nine_table, sizeof nine_table, list, sizeof list, tariff);
        same("road, pennies", priced.pennies, t <= 254 ? (unsigned long)t * 1000 : 0);
        stack = hokrund_turn(HOKRUND_PLAIN, 9, stack, (uint8_t)(road[t % 18] - '0')).stack;
    }
}

/* The price of the plan 3, 2. Where it is refused, nothing stands beside the refusal and the list is as it was. */
static uint32_t pennies(const char *what, HokrundTariff tariff, uint8_t refusal)
{
    uint8_t list[HOKRUND_TURN_LIST] = {7, 7, 7};
    HokrundPriced priced = hokrund_price(KIND, PANES, wanted, other, GROUPS, table, sizeof table, list, sizeof list, tariff);
    bool accepted = refusal == HOKRUND_ACCEPTED;
    same(what, priced.refusal, refusal);
    same(what, priced.turns, accepted ? 2 : 0);
    same(what, list[0], accepted ? 3 : 7);
    same(what, list[1], accepted ? 2 : 7);
    same(what, list[2], 7);
    return priced.pennies;
}

/* One line in every place, of which so many count. */
static void line(const char *what, uint32_t count, uint8_t first, uint8_t last, uint32_t price, uint8_t refusal)
{
    HokrundTariff tariff;
    tariff.count = count;
    for (int i = 0; i < HOKRUND_LINES; i++) {
        tariff.lines[i].first = first;
        tariff.lines[i].last = last;
        tariff.lines[i].price = price;
    }
    same(what, pennies(what, tariff, refusal), refusal == HOKRUND_ACCEPTED ? 2 * price / 1000 : 0);
}

/* The header's tariff, over a whole table; each limit of a tariff, there and past it. */
static void prices(void)
{
    HokrundTariff tariff = {2, {{1, 2, 1250}, {3, 3, 1250}}};
    build(GROUPS, sizeof table, WORDS, LIST_BYTES);
    same("price", pennies("priced", tariff, HOKRUND_ACCEPTED), 3);
    line("one line", 1, 1, PANES, HOKRUND_MOST_PRICE, HOKRUND_ACCEPTED);
    line("LINE, price", 1, 1, PANES, HOKRUND_MOST_PRICE + 1, HOKRUND_REFUSED_LINE);
    line("LINE, start", 1, 0, PANES, 0, HOKRUND_REFUSED_LINE);
    line("LINE, end", 1, 1, PANES + 1, 0, HOKRUND_REFUSED_LINE);
    line("LINE, end before start", 1, 2, 1, 0, HOKRUND_REFUSED_LINE);
    line("LINE, count", HOKRUND_LINES + 1, 1, PANES, 0, HOKRUND_REFUSED_LINE);
    line("TWO_LINES", HOKRUND_LINES, 1, PANES, 0, HOKRUND_REFUSED_TWO_LINES);
    line("NO_LINE", HOKRUND_LINES, 2, PANES, 0, HOKRUND_REFUSED_NO_LINE);
    line("no line", 0, 1, PANES, 0, HOKRUND_REFUSED_NO_LINE);
}

int main(void)
{
    same("version", hokrund_version(), HOKRUND_VERSION);
    stack_refusals();
    job_refusals();
    coherence();
    last_levels();
    ways();
    reserved();
    reverse_level();
    reverse_build();
    level_255(GROUPS, 0xce, 2);
    level_255(SIZE(3), 0xfe, 1);
    for (uint8_t n = 1; n <= 12; n++)
        sets(HOKRUND_PLAIN, n);
    for (uint8_t n = 1; n <= 10; n++)
        sets(HOKRUND_COATED, n);
    order(HOKRUND_PLAIN, 4);
    order(HOKRUND_COATED, 3);
    level();
    tables();
    first_refusals();
    one_size();
    even_orders();
    longest_plan();
    prices();
    return differences != 0;
}
