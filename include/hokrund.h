/* hokrund: numbers stacks of panes, builds the two-bit table of a breadth-first search in segments, plans turns from it, and prices a plan.
 *
 * Who owns what. The caller owns everything. The library allocates nothing, keeps no state between calls and no pointer after a call; calls on
 * different jobs and buffers may run at the same time. A job is a plain value: copy, move, compare or save it as you like, and go on from the
 * job that the last call returned. Buffers are lent for one call. Each is a pointer and then its length, in elements. The pointer is never
 * null, not even beside a length of 0, and aligned as its elements are: log areas to 4 bytes, all others anywhere. The elements may be read,
 * and where the pointer is not const written, for that length; and two buffers of one call do not overlap where one of them is written. That
 * is the caller's part, and nothing checks it.
 *
 * What a call answers. Every other argument may have any value: the call does its work, or gives the first refusal that applies, in the
 * order stated, as refusal. That number is HOKRUND_ACCEPTED where the call did its work. A refusal changes nothing: what is lent stays as
 * it was, and the job comes back as it was given, its reserved bytes 0. Every other number of a refused answer is 0, but for one of begin's job.
 *
 * A build, by hokrund_build_table alone, or call by call: begin; blank each segment; close; then for each level expand each segment, settle
 * a segment for which expand waits and expand on, settle every segment, and close, until the phase is HOKRUND_FINISHED or, by a set that is
 * not full, close says 14. A level that close was told to be reverse goes the other way: for each segment load it, and sweep every segment
 * against it; then close. That is quicker where few stacks are unseen. A level leaves the same entries and the same count by either way, in
 * whatever order its segments or pairs come, if each sweep is given the changed list as the last load that was not refused left it.
 * examples/coated.c builds by the one call, examples/plan3.c call by call. The segments in order are the table that read_entry, plan and price
 * take.
 *
 * Saving. Between two calls a build may be saved: the job, the segments, the log area and, in a reverse level, the changed list (or load once
 * more instead). Go on only from a job together with all of these as they were when that job was returned. A call that did not return leaves
 * what it was lent to be written in no promised state, and what it has marked is counted in no job: going on over such a segment or log from
 * an older job may give wrong counts and a wrong table. So where segments are written in place, in a file or in shared memory, keep
 * those of the last save apart, and after a call that was cut short go back to them all. A saved job is good for one HOKRUND_VERSION: save
 * that number with it. As bytes, copy it back into a HokrundJob, which is aligned to 8.
 *
 * The archive is target/staticlib/libhokrund.a. tools/archive proves the library and makes it; the gate, .ci/run, leaves there the one that
 * it has tested. x86-64, with the System V calling convention of Linux: structs travel by value, and those over 16 bytes, as the job
 * and its answers, in memory. C99 or later, or C++98 or later. */
#ifndef HOKRUND_H
#define HOKRUND_H

#include <stddef.h>
#include <stdint.h>
#ifndef __cplusplus
#include <stdbool.h>
#endif

#ifdef __cplusplus
extern "C" {
#endif

/* Rises with every change of a function, of what it does, of a struct or of a number that is declared here; interface.txt has a line for each. */
#define HOKRUND_VERSION 6

/* Kinds: plain panes 1 to n, with n from 1 to 12; coated panes, minus for coat down, with n from 1 to 10. */
#define HOKRUND_PLAIN 0
#define HOKRUND_COATED 1

/* Phases of a job: its number, which carries the level in Level and the deepest level in Finished. */
#define HOKRUND_BLANKING 0
#define HOKRUND_LEVEL 1
#define HOKRUND_FINISHED 2

/* Ways of a level: from the stacks of the level before to their unseen children, or from the unseen stacks to a child of the level before. */
#define HOKRUND_FORWARD 0
#define HOKRUND_REVERSE 1

/* In a job, for the loaded segment: none is loaded. */
#define HOKRUND_NO_SEGMENT 64

/* An entry of the table that no level has reached. In a finished table: no turns of the set lead from that stack to the wanted one. */
#define HOKRUND_UNSEEN 3

/* What the structs hold, the fewest bytes of the turn list of plan and price, and the most thousandths of a penny that a line may ask. */
#define HOKRUND_PLACES 12
#define HOKRUND_SEGMENTS 64
#define HOKRUND_LEVELS 256
#define HOKRUND_LINES 12
#define HOKRUND_TURN_LIST 254
#define HOKRUND_MOST_PRICE 1000000

/* The most bytes of the call stack that a call needs, with its arguments and its answer, as measured. That is build_table; any other needs less than
 * half of it. */
#define HOKRUND_STACK_BYTES 49152

/* Refusals. 16 is none of a call: by it the report's program refuses a line that is no frame. */
#define HOKRUND_ACCEPTED 0              /* no refusal */
#define HOKRUND_REFUSED_KIND 1          /* the kind is none */
#define HOKRUND_REFUSED_PANES 2         /* n is outside its kind's range */
#define HOKRUND_REFUSED_STACK 3         /* the twelve places are no stack of that kind and n */
#define HOKRUND_REFUSED_INDEX_OR_TURN 4 /* the index is N or more; k is no turn of that kind and n */
#define HOKRUND_REFUSED_SIZE 5          /* S is no multiple of 4 from 4 to 67108864, or G would be above 64 */
#define HOKRUND_REFUSED_ROOM 6          /* C is not from 16 to 1048576 */
#define HOKRUND_REFUSED_INCOHERENT 7    /* the job is not coherent: see HokrundJob */
#define HOKRUND_REFUSED_PHASE 8         /* the job is in another phase, or its level goes the other way */
#define HOKRUND_REFUSED_SEGMENT 9       /* j or b is G or more */
#define HOKRUND_REFUSED_LENGTH 10       /* a buffer has a wrong length */
#define HOKRUND_REFUSED_PASSED 11       /* all stacks of the segment are passed; the pair of segments has been swept */
#define HOKRUND_REFUSED_OFFSET 12       /* an offset that waits in the log is m or more */
#define HOKRUND_REFUSED_NOT_READY 13    /* a segment has stacks not passed or entries waiting; in a reverse level, a pair is not swept */
#define HOKRUND_REFUSED_LAST_LEVEL 14   /* level 255 brought stacks; in a build, some stack needs exactly 255 turns */
#define HOKRUND_REFUSED_NO_PLAN 15      /* the table leads from the given stack nowhere, or not in 254 turns */
#define HOKRUND_REFUSED_LINE 17         /* over 12 lines, or a line starts at 0, ends before it starts or above n, or has too high a price */
#define HOKRUND_REFUSED_NO_LINE 18      /* a size from 1 to n has no line */
#define HOKRUND_REFUSED_TWO_LINES 19    /* a size from 1 to n has two lines */
#define HOKRUND_REFUSED_NO_ROAD 20      /* the given stack's entry is 3 */
#define HOKRUND_REFUSED_GROUPS 21       /* the set names a size that is no turn, or is empty although n has turns */
#define HOKRUND_REFUSED_NOT_LOADED 22   /* no segment is loaded in this level */

/* The macros below compute in 64 bits, but for the sets, which have 32, whatever integers they are given, and are constant where their arguments
 * are. They evaluate an argument more than once. */

/* N, the stacks of a kind and n: n! if plain, n! x 2^n if coated, and 0 where there is no such kind or n. */
#define HOKRUND_STACKS(kind, n)                                                                                       \
    ((kind) == HOKRUND_PLAIN && (n) != 0 ? HOKRUND_FACTORIAL(n)                                                       \
     : (kind) == HOKRUND_COATED && (n) != 0 && (n) < 11 ? HOKRUND_FACTORIAL(n) << ((n) & 15) : (uint64_t)0)

/* n! for n from 0 to 12, and 0 for any other n. */
#define HOKRUND_FACTORIAL(n)                                                                                          \
    ((uint64_t)((n) == 0 || (n) == 1 ? 1 : (n) == 2 ? 2 : (n) == 3 ? 6 : (n) == 4 ? 24 : (n) == 5 ? 120               \
     : (n) == 6 ? 720 : (n) == 7 ? 5040 : (n) == 8 ? 40320 : (n) == 9 ? 362880 : (n) == 10 ? 3628800                  \
     : (n) == 11 ? 39916800 : (n) == 12 ? 479001600 : 0))

/* A set of group sizes, which are those that the frame lifts: size k is the bit of weight 2^(k-1). The full set of a kind and n, which names
 * every turn, is empty for plain 1; 0 where there is no such kind or n. A set for a frame that lifts 2 and 4 only: (1u << 1) | (1u << 3). */
#define HOKRUND_ALL_GROUPS(kind, n)                                                                                   \
    (HOKRUND_STACKS(kind, n) == 0 ? (uint32_t)0                                                                       \
     : (((uint32_t)1 << ((n) & 15)) - 1) & ((kind) == HOKRUND_PLAIN ? ~(uint32_t)1 : ~(uint32_t)0))

/* G, the segments of N stacks by S; 0 where S is 0. m, the stacks of segment j: those with index from j x S to just below the lesser of
 * (j + 1) x S and N; 0 from segment G up. */
#define HOKRUND_SEGMENT_COUNT(N, S)                                                                                   \
    ((S) == 0 ? (uint64_t)0 : ((uint64_t)(N) + (uint64_t)(S) - 1) / ((S) == 0 ? (uint64_t)1 : (uint64_t)(S)))
#define HOKRUND_SEGMENT_STACKS(N, S, j)                                                                               \
    ((uint64_t)(j) >= HOKRUND_SEGMENT_COUNT(N, S) ? (uint64_t)0                                                       \
     : (uint64_t)(j) + 1 == HOKRUND_SEGMENT_COUNT(N, S) ? (uint64_t)(N) - (uint64_t)(j) * (uint64_t)(S)               \
     : (uint64_t)(S))

/* The sizes of what is lent: the bytes of a segment of m stacks, of its changed list, and of the table of all N; the numbers of the log area of
 * G logs of C. Where segment j starts in the table: every segment before it is full, and S is a multiple of 4. */
#define HOKRUND_SEGMENT_BYTES(m) (((size_t)(m) + 3) / 4)
#define HOKRUND_CHANGED_BYTES(m) (((size_t)(m) + 7) / 8)
#define HOKRUND_TABLE_BYTES(N) HOKRUND_SEGMENT_BYTES(N)
#define HOKRUND_LOG_WORDS(G, C) ((size_t)(G) * (size_t)(C))
#define HOKRUND_SEGMENT_START(S, j) ((size_t)(j) * ((size_t)(S) / 4))

/* A stack, top first; the places from n on are 0. */
typedef struct HokrundStack {
    int8_t places[HOKRUND_PLACES];
} HokrundStack;

/* A build. It is coherent when
 *   begin would accept kind, n, wanted, groups, size and room;
 *   phase is HOKRUND_BLANKING and level 0, HOKRUND_LEVEL and level 1 to 255, or HOKRUND_FINISHED and level 0 to 254;
 *   way is HOKRUND_FORWARD or HOKRUND_REVERSE, and loaded is HOKRUND_NO_SEGMENT or below G;
 *   passed is at most m of its segment and waiting at most C, and both are 0 from segment G up;
 *   swept names no segment of G or above, and is 0 from segment G up;
 *   each count is at most 2^60.
 * The job of an accepted begin is coherent, and so is every job that the calls after it give. Every byte belongs to a field, so that equal jobs
 * are equal as bytes. */
typedef struct HokrundJob {
    uint8_t kind;
    uint8_t n;
    uint8_t phase;
    uint8_t level;
    uint8_t way;                        /* as the last close was told, HOKRUND_FORWARD or HOKRUND_REVERSE; begin's is forward */
    uint8_t loaded;                     /* the segment that was loaded last in this level, or HOKRUND_NO_SEGMENT */
    HokrundStack wanted;
    uint8_t reserved[2];                /* 0 in every job that a call gives; in one that it is given, not looked at */
    uint32_t groups;                    /* the set of group sizes that the frame lifts */
    uint32_t size;                      /* S, the stacks of a segment */
    uint32_t room;                      /* C, the places of a log */
    uint32_t passed[HOKRUND_SEGMENTS];  /* of each segment, the stacks passed in this phase */
    uint32_t waiting[HOKRUND_SEGMENTS]; /* of each segment, the entries that wait in its log */
    uint64_t swept[HOKRUND_SEGMENTS];   /* of each segment, those swept against it in this level; segment j is the bit of weight 2^j */
    uint64_t counts[HOKRUND_LEVELS];    /* of each level, the stacks at exactly that many turns of the set */
} HokrundJob;

typedef struct HokrundIndexed {
    uint8_t refusal;
    uint32_t index;
} HokrundIndexed;

typedef struct HokrundStacked {
    uint8_t refusal;
    HokrundStack stack;
} HokrundStacked;

typedef struct HokrundAnswer {
    uint8_t refusal;
    HokrundJob job;
} HokrundAnswer;

/* Passed where waits is false, and on is then 0; else Waiting, for segment on. */
typedef struct HokrundExpanded {
    uint8_t refusal;
    bool waits;
    uint32_t on;
    HokrundJob job;
} HokrundExpanded;

/* The entries that wait are log[start] to log[start + length - 1], in the log area that was lent. */
typedef struct HokrundLook {
    uint8_t refusal;
    size_t start;
    size_t length;
} HokrundLook;

typedef struct HokrundEntry {
    uint8_t refusal;
    uint8_t entry;
} HokrundEntry;

typedef struct HokrundPlanned {
    uint8_t refusal;
    uint32_t turns;
} HokrundPlanned;

/* A line of a tariff: each turn that lifts a group of first to last panes costs price, in thousandths of a penny. */
typedef struct HokrundLine {
    uint8_t first;
    uint8_t last;
    uint32_t price;
} HokrundLine;

/* A tariff: its first count lines, in any order. What stands in the other places does not matter.
 *   HokrundTariff tariff = {2, {{1, 2, 1250}, {3, 3, 1250}}}; */
typedef struct HokrundTariff {
    uint32_t count;
    HokrundLine lines[HOKRUND_LINES];
} HokrundTariff;

typedef struct HokrundPriced {
    uint8_t refusal;
    uint32_t turns;
    uint32_t pennies;
} HokrundPriced;

/* The HOKRUND_VERSION of the archive. Another one behind this header links all the same, and then goes wrong without a word: a program's first
 * call sees that hokrund_version() == HOKRUND_VERSION. */
uint32_t hokrund_version(void);

/* Index of a stack: its place from 0 in the order of all N. The order is lexicographic, from the top: plain 1 2 3, 1 3 2, 2 1 3, 2 3 1,
 * 3 1 2, 3 2 1 are 0 to 5. Coated stacks are ordered by their panes without the coats first, and then by the coats, as bits of which the
 * top pane's is the highest, 1 for coat down: +2 -1 is 5.
 * Refused 1, 2, 3. */
HokrundIndexed hokrund_index_of_stack(uint8_t kind, uint8_t n, HokrundStack stack);

/* Stack at an index.
 * Refused 1, 2, 4. */
HokrundStacked hokrund_stack_at_index(uint8_t kind, uint8_t n, uint32_t index);

/* Turn: the order of the top k panes is reversed, and each changes sign if coated. k is 2 to n if plain, 1 to n if coated.
 * Refused 1, 2, 3, 4. */
HokrundStacked hokrund_turn(uint8_t kind, uint8_t n, HokrundStack stack, uint8_t k);

/* Begin: a job in Blanking, forward, with nothing passed, waiting, loaded, swept or counted. Beside a refusal stands one in which
 * loaded is HOKRUND_NO_SEGMENT and all else 0, which every call refuses 7.
 * Only the turns that groups names make children; HOKRUND_ALL_GROUPS(kind, n) names them all.
 * Refused 1, 2, 3 for wanted, 21, 5, 6. */
HokrundAnswer hokrund_begin(uint8_t kind, uint8_t n, HokrundStack wanted, uint32_t groups, uint32_t size, uint32_t room);

/* In the calls on a job length must be HOKRUND_SEGMENT_BYTES(m) of segment j or b, words HOKRUND_LOG_WORDS(G, C), of the whole log area, and
 * bytes HOKRUND_CHANGED_BYTES(m) of the segment that load is given or that is loaded.
 * A segment has an entry for each of its stacks, the fewest turns modulo 3 or HOKRUND_UNSEEN: that of stack i is in byte i / 4, at the two
 * bits of weight 2 x 4^(i mod 4) and 4^(i mod 4), or (segment[i / 4] >> (2 * (i % 4))) & 3. Spare entries of the last byte are 3.
 * A changed list has a bit for each of a segment's stacks: that of stack i is (list[i / 8] >> (i % 8)) & 1. */

/* Blank: all entries of segment j become 3, and that of the wanted stack, if here, 0; its stacks are passed.
 * Refused 7, 8 when not Blanking, 9, 10, 11. */
HokrundAnswer hokrund_blank(HokrundJob job, uint32_t j, uint8_t *segment, size_t length);

/* Expand: from the first stack not passed, the children of each stack of the level before are marked, if in this segment and unseen, or
 * appended to their segment's log. It stops before a stack whose children outnumber the free places of a log, and waits for the lowest
 * such segment: settle that one and expand again. Only the job, this segment and the ends of the other segments' logs change.
 * Refused 7, 8 when not in a forward level, 9, 10 for the segment, 10 for the log area, 11. */
HokrundExpanded hokrund_expand(HokrundJob job, uint32_t j, uint8_t *segment, size_t length, uint32_t *log, size_t words);

/* Settle: in log order, each unseen entry that segment j's log names is marked; the log is then empty. An empty log is accepted.
 * Refused 7, 8 when not in a forward level, 9, 10 for the segment, 10 for the log area, 12. */
HokrundAnswer hokrund_settle(HokrundJob job, uint32_t j, uint8_t *segment, size_t length, const uint32_t *log, size_t words);

/* Look: where the entries stand that wait in segment j's log, for display. In any phase and way.
 * Refused 7, 9, 10. */
HokrundLook hokrund_look(HokrundJob job, uint32_t j, const uint32_t *log, size_t words);

/* Close: Blanking becomes Level 1; a level that brought nothing new ends the search, any other is followed by the next. The next level goes the
 * way that is told, HOKRUND_FORWARD or, by any other number, HOKRUND_REVERSE. The job keeps it, a finished one too; nothing is passed, loaded
 * or swept then.
 * Refused 7, 8 when Finished, 13, 14 when level 255 brought stacks: where some stack needs exactly 255 turns, and only then, a build ends
 * there, and no call carries it on. By the full set no stack needs more than 30. In a reverse level 13 asks only that every segment is swept
 * against every segment; elsewhere, that all stacks are passed and no entry waits. */
HokrundAnswer hokrund_close(HokrundJob job, uint8_t way);

/* Load: in list the bit of each stack of segment b whose entry is (level - 1) mod 3 is set, and all others, spare ones too, are cleared. Segment
 * b is then the loaded one. It may be loaded again, also when every segment is swept against it.
 * Refused 7, 8 when not in a reverse level, 9, 10 for the segment, 10 for the list. */
HokrundAnswer hokrund_load(HokrundJob job, uint32_t b, const uint8_t *segment, size_t length, uint8_t *list, size_t bytes);

/* Sweep: each unseen stack of segment j that has a child in the loaded segment with its bit set in list is marked; segment j is then swept
 * against the loaded one. The spare bits of list play no part.
 * Refused 7, 8 when not in a reverse level, 9, 22, 10 for the segment, 10 for the list, 11 when it has been swept against the loaded one. */
HokrundAnswer hokrund_sweep(HokrundJob job, uint32_t j, uint8_t *segment, size_t length, const uint8_t *list, size_t bytes);

/* Build the whole table: a build from begin to its end, in a table of HOKRUND_TABLE_BYTES(N) bytes, a log area of HOKRUND_LOG_WORDS(G, C)
 * numbers and a changed list of HOKRUND_CHANGED_BYTES(m) bytes for the m of segment 0, the largest, that hold anything. A level after the first
 * is reverse where the unseen stacks, times G, are no more than those of the level before. The job is the last one: HOKRUND_FINISHED, with the
 * deepest level and the counts; or, where some stack needs exactly 255 turns, HOKRUND_LEVEL at level 255, of which close says 14, and the table
 * is not finished, though refusal is 0; beside a refusal, that of a refused begin. It returns when the build has ended; by the calls above a
 * build can be stopped after any of them, saved and gone on with.
 * Refused 1, 2, 3 for wanted, 21, 5, 6, 10 for the table, 10 for the log area, 10 for the list. */
HokrundAnswer hokrund_build_table(uint8_t kind, uint8_t n, HokrundStack wanted, uint32_t groups, uint32_t size, uint32_t room,
                                  uint8_t *table, size_t length, uint32_t *log, size_t words, uint8_t *list, size_t bytes);

/* Read an entry of the table.
 * Refused 1, 2, 10 when length is not HOKRUND_TABLE_BYTES(N), 4. */
HokrundEntry hokrund_read_entry(uint8_t kind, uint8_t n, const uint8_t *table, size_t length, uint32_t index);

/* Plan: turns of the set that take the given stack to the wanted one come to the front of list, and turns is how many; the rest of list
 * stays. Where several turns of the set lead one nearer by the table, the largest is taken. From the table of a finished build for the same
 * wanted stack and set no list of turns of the set is shorter, no stack is refused 15, and a stack is refused 20 where no list of turns of the
 * set arrives; by the full set there is no such stack. From any other table of that length an accepted plan still arrives by turns of the set,
 * but need not be the shortest.
 * Refused 1, 2, 3 for wanted, 3 for given, 21, 10 when length is not HOKRUND_TABLE_BYTES(N), 10 when slots is under HOKRUND_TURN_LIST, 20,
 * 15: the wanted stack's entry is not 0, no turn of the set leads nearer, or 254 do not suffice. */
HokrundPlanned hokrund_plan(uint8_t kind, uint8_t n, HokrundStack wanted, HokrundStack given, uint32_t groups, const uint8_t *table,
                            size_t length, uint8_t *list, size_t slots);

/* Price: what plan does, and what the turns of its plan cost by the tariff: the sum of their prices, rounded once to the penny, halves up. The
 * lines must cover each size from 1 to n once; those that are no turns of the set too. Refused for its tariff it leaves list as it was.
 * Refused as plan, then 17, 18, 19: each looks at every line or size before the next is tried. */
HokrundPriced hokrund_price(uint8_t kind, uint8_t n, HokrundStack wanted, HokrundStack given, uint32_t groups, const uint8_t *table,
                            size_t length, uint8_t *list, size_t slots, HokrundTariff tariff);

/* The layout that the library was compiled for: array types that may not be declared else, as C99 and C++98 have no other assertion. */
#define HOKRUND_ASSERT_SIZE(type, bytes) typedef char hokrund_size_of_##type[sizeof(type) == (bytes) ? 1 : -1]
#define HOKRUND_ASSERT_FIELD(type, field, offset) \
    typedef char hokrund_place_of_##type##_##field[offsetof(type, field) == (offset) ? 1 : -1]
HOKRUND_ASSERT_SIZE(size_t, 8);
HOKRUND_ASSERT_SIZE(bool, 1);
HOKRUND_ASSERT_SIZE(HokrundStack, 12);
HOKRUND_ASSERT_FIELD(HokrundJob, kind, 0);
HOKRUND_ASSERT_FIELD(HokrundJob, n, 1);
HOKRUND_ASSERT_FIELD(HokrundJob, phase, 2);
HOKRUND_ASSERT_FIELD(HokrundJob, level, 3);
HOKRUND_ASSERT_FIELD(HokrundJob, way, 4);
HOKRUND_ASSERT_FIELD(HokrundJob, loaded, 5);
HOKRUND_ASSERT_FIELD(HokrundJob, wanted, 6);
HOKRUND_ASSERT_FIELD(HokrundJob, reserved, 18);
HOKRUND_ASSERT_FIELD(HokrundJob, groups, 20);
HOKRUND_ASSERT_FIELD(HokrundJob, size, 24);
HOKRUND_ASSERT_FIELD(HokrundJob, room, 28);
HOKRUND_ASSERT_FIELD(HokrundJob, passed, 32);
HOKRUND_ASSERT_FIELD(HokrundJob, waiting, 288);
HOKRUND_ASSERT_FIELD(HokrundJob, swept, 544);
HOKRUND_ASSERT_FIELD(HokrundJob, counts, 1056);
HOKRUND_ASSERT_SIZE(HokrundJob, 3104);
HOKRUND_ASSERT_FIELD(HokrundIndexed, index, 4);
HOKRUND_ASSERT_SIZE(HokrundIndexed, 8);
HOKRUND_ASSERT_FIELD(HokrundStacked, stack, 1);
HOKRUND_ASSERT_SIZE(HokrundStacked, 13);
HOKRUND_ASSERT_FIELD(HokrundAnswer, job, 8);
HOKRUND_ASSERT_SIZE(HokrundAnswer, 3112);
HOKRUND_ASSERT_FIELD(HokrundExpanded, waits, 1);
HOKRUND_ASSERT_FIELD(HokrundExpanded, on, 4);
HOKRUND_ASSERT_FIELD(HokrundExpanded, job, 8);
HOKRUND_ASSERT_SIZE(HokrundExpanded, 3112);
HOKRUND_ASSERT_FIELD(HokrundLook, start, 8);
HOKRUND_ASSERT_FIELD(HokrundLook, length, 16);
HOKRUND_ASSERT_SIZE(HokrundLook, 24);
HOKRUND_ASSERT_FIELD(HokrundEntry, entry, 1);
HOKRUND_ASSERT_SIZE(HokrundEntry, 2);
HOKRUND_ASSERT_FIELD(HokrundPlanned, turns, 4);
HOKRUND_ASSERT_SIZE(HokrundPlanned, 8);
HOKRUND_ASSERT_FIELD(HokrundLine, last, 1);
HOKRUND_ASSERT_FIELD(HokrundLine, price, 4);
HOKRUND_ASSERT_SIZE(HokrundLine, 8);
HOKRUND_ASSERT_FIELD(HokrundTariff, lines, 4);
HOKRUND_ASSERT_SIZE(HokrundTariff, 100);
HOKRUND_ASSERT_FIELD(HokrundPriced, turns, 4);
HOKRUND_ASSERT_FIELD(HokrundPriced, pennies, 8);
HOKRUND_ASSERT_SIZE(HokrundPriced, 12);
#undef HOKRUND_ASSERT_SIZE
#undef HOKRUND_ASSERT_FIELD

#ifdef __cplusplus
}
#endif

#endif
