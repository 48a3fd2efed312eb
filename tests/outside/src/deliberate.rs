// Calls made on purpose, none by the chance of a seed: each limit of the papers from both sides, each refusal of each operation, any two
// refusals at once where there is a set, a way or a changed list, answers in which no two numbers can be mistaken for each other, and bytes past
// the first mebibyte.

use std::rc::Rc;

use crate::build::{ordered, Fields};
use crate::call::{Answered, Call};
use crate::cases::walked;
use crate::paper::{self, Limits, Paper, COATED, PAPER, PLAIN};
use crate::rng::Rng;
use crate::system::*;

// A limit, the calls that try it from both sides, and wrong limits that those calls must catch.
pub struct Limit {
    pub name: &'static str,
    pub calls: fn() -> Vec<Call>,
    pub moved: &'static [fn(&mut Limits)],
}

// Not among the moved, as they cannot be told apart: an S of at least 3, 2 or 1, as none of these is a multiple of 4 (and with one of at
// least 0 there is no G); 19 for size 0 or n + 1, as 17 lets no line by that has it; a set of size 0, which has no bit; a level of 256 and its
// count, which no job holds.
pub const LIMITS: &[Limit] = &[
    Limit {
        name: "panes of a plain stack",
        calls: || panes(PLAIN, 12),
        moved: &[
            |limits| limits.least_panes = 0,
            |limits| limits.least_panes = 2,
            |limits| limits.most_panes[0] = 11,
            |limits| limits.most_panes[0] = 13,
        ],
    },
    Limit {
        name: "panes of a coated stack",
        calls: || panes(COATED, 10),
        moved: &[|limits| limits.most_panes[1] = 9, |limits| limits.most_panes[1] = 11],
    },
    Limit {
        name: "turns",
        calls: turns,
        moved: &[
            |limits| limits.first_turn[0] = 1,
            |limits| limits.first_turn[0] = 3,
            |limits| limits.first_turn[1] = 0,
            |limits| limits.first_turn[1] = 2,
            |limits| limits.turn_past_n = -1,
            |limits| limits.turn_past_n = 1,
        ],
    },
    Limit {
        name: "sizes of a set",
        calls: sets,
        moved: &[
            |limits| limits.first_group[0] = 1,
            |limits| limits.first_group[0] = 3,
            |limits| limits.first_group[1] = 2,
            |limits| limits.group_past_n = -1,
            |limits| limits.group_past_n = 1,
            |limits| limits.least_groups[0] = 1,
            |limits| limits.least_groups[1] = 0,
            |limits| limits.least_groups[1] = 2,
        ],
    },
    Limit {
        name: "N of an index",
        calls: indices,
        moved: &[|limits| limits.index_past_stacks = -1, |limits| limits.index_past_stacks = 1],
    },
    Limit {
        name: "S",
        calls: sizes,
        moved: &[
            |limits| limits.least_size = 8,
            |limits| limits.size_step = 2,
            |limits| limits.size_step = 8,
            |limits| limits.most_size -= 4,
            |limits| limits.most_size += 4,
        ],
    },
    Limit {
        name: "G",
        calls: segment_counts,
        moved: &[|limits| limits.most_segments = 63, |limits| limits.most_segments = 65],
    },
    Limit {
        name: "C",
        calls: rooms,
        moved: &[
            |limits| limits.least_room -= 1,
            |limits| limits.least_room += 1,
            |limits| limits.most_room -= 1,
            |limits| limits.most_room += 1,
        ],
    },
    Limit {
        name: "phase numbers",
        calls: phase_numbers,
        moved: &[|limits| limits.phases = 4, |limits| limits.most_blanking_level = 1],
    },
    Limit {
        name: "levels",
        calls: levels,
        moved: &[
            |limits| limits.first_level = 0,
            |limits| limits.first_level = 2,
            |limits| limits.last_level = 31,
            |limits| limits.last_level = 254,
        ],
    },
    Limit {
        name: "the deepest level",
        calls: || calls_on([0, 30, 31, 32, 253, 254, 255].map(|deepest| small_job(Phase::Finished(deepest)))),
        moved: &[
            |limits| limits.most_deepest = 30,
            |limits| limits.most_deepest = 253,
            |limits| limits.most_deepest = 255,
        ],
    },
    Limit {
        name: "ways",
        calls: || calls_on((0..=255).map(|way| Job { way, ..small_job(Phase::Level(1)) })),
        moved: &[|limits| limits.ways = 1, |limits| limits.ways = 3],
    },
    Limit {
        name: "the loaded segment",
        calls: || calls_on([0, 1, 2, 3, 63, 64, 65, 128, 255].map(|loaded| Job { loaded, ..reverse(1) })),
        moved: &[
            |limits| limits.loaded_past_g = -1,
            |limits| limits.loaded_past_g = 1,
            |limits| limits.last_no_segment = 63,
            |limits| limits.last_no_segment = 65,
        ],
    },
    Limit {
        name: "swept pairs",
        calls: || {
            let pairs = [(0, 0), (0, 1), (1, 0), (1, 1), (0, 2), (1, 2), (0, 63), (2, 0), (2, 2), (63, 0), (63, 63)];
            calls_on(pairs.map(|(b, j)| with_pair(reverse(1), b, j)))
        },
        moved: &[
            |limits| limits.swept_past_g[0] = -1,
            |limits| limits.swept_past_g[0] = 1,
            |limits| limits.swept_past_g[1] = -1,
            |limits| limits.swept_past_g[1] = 1,
        ],
    },
    Limit {
        name: "pairs that a reverse level asks for",
        calls: pairs_asked,
        moved: &[
            |limits| limits.asked_past_g[0] = -1,
            |limits| limits.asked_past_g[0] = 1,
            |limits| limits.asked_past_g[1] = -1,
            |limits| limits.asked_past_g[1] = 1,
        ],
    },
    Limit {
        name: "the level that must bring nothing",
        calls: last_levels,
        moved: &[|limits| limits.level_of_14 = 31, |limits| limits.level_of_14 = 254],
    },
    Limit {
        name: "counts",
        calls: counts,
        moved: &[
            |limits| limits.most_count -= 1,
            |limits| limits.most_count += 1,
            |limits| limits.counts = 32,
            |limits| limits.counts = 255,
        ],
    },
    Limit {
        name: "stacks passed",
        calls: || calls_on([(0, 4), (0, 5), (1, 2), (1, 3)].map(|(j, passed)| with_passed(j, passed))),
        moved: &[|limits| limits.passed_past_m = -1, |limits| limits.passed_past_m = 1],
    },
    Limit {
        name: "entries waiting",
        calls: || calls_on([(0, 16), (0, 17), (1, 16), (1, 17)].map(|(j, waiting)| with_waiting(j, waiting))),
        moved: &[|limits| limits.waiting_past_c = -1, |limits| limits.waiting_past_c = 1],
    },
    Limit {
        name: "segments from G up",
        calls: || {
            let jobs =
                [with_passed(2, 0), with_passed(2, 1), with_passed(63, 1), with_waiting(2, 1), with_waiting(63, 1)];
            calls_on(jobs)
        },
        moved: &[|limits| limits.most_passed_beyond = 1, |limits| limits.most_waiting_beyond = 1],
    },
    Limit {
        name: "the segment's number",
        calls: segment_numbers,
        moved: &[|limits| limits.segment_past_g = -1, |limits| limits.segment_past_g = 1],
    },
    Limit {
        name: "waiting offsets",
        calls: || [1, 2, 3, u32::MAX].map(settle_of_offset).into(),
        moved: &[|limits| limits.offset_past_m = -1, |limits| limits.offset_past_m = 1],
    },
    Limit {
        name: "free places of a log",
        calls: || (13..=16).map(expand_into).collect(),
        moved: &[|limits| limits.falling_past_free = -1, |limits| limits.falling_past_free = 1],
    },
    Limit {
        name: "the turn list",
        calls: || with_prices([0, 30, 31, 253, 254, 255].map(|len| plan3(&TABLE3, [1, 3, 2], len))),
        moved: &[|limits| limits.least_list = 30, |limits| limits.least_list = 253, |limits| limits.least_list = 255],
    },
    Limit {
        name: "turns of a plan",
        calls: long_plans,
        moved: &[|limits| limits.most_turns = 30, |limits| limits.most_turns = 253, |limits| limits.most_turns = 255],
    },
    Limit {
        name: "lines of a tariff",
        calls: line_counts,
        moved: &[|limits| limits.most_lines = 11, |limits| limits.most_lines = 13],
    },
    Limit {
        name: "a line's first size",
        calls: || prices3(&[&[(0, 3, 1)], &[(1, 3, 1)], &[(3, 3, 1), (0, 2, 1)], &[(3, 3, 1), (1, 2, 1)]]),
        moved: &[|limits| limits.least_first = 0, |limits| limits.least_first = 2],
    },
    Limit {
        name: "a line's last size after its first",
        calls: || {
            prices3(&[
                &[(1, 1, 1), (2, 3, 1)],
                &[(1, 2, 1), (3, 3, 1)],
                &[(1, 3, 1), (1, 0, 1)],
                &[(1, 3, 1), (2, 1, 1)],
                &[(1, 3, 1), (3, 2, 1)],
                &[(3, 1, 1)],
            ])
        },
        moved: &[|limits| limits.last_past_first = -1, |limits| limits.last_past_first = 1],
    },
    Limit {
        name: "a line's last size up to n",
        calls: || prices3(&[&[(1, 3, 1)], &[(1, 4, 1)], &[(1, 255, 1)], &[(3, 4, 1), (1, 2, 1)]]),
        moved: &[|limits| limits.last_past_n = -1, |limits| limits.last_past_n = 1],
    },
    Limit {
        name: "a line's price",
        calls: line_prices,
        moved: &[|limits| limits.most_price -= 1, |limits| limits.most_price += 1],
    },
    Limit {
        name: "sizes that have no line",
        calls: || {
            let of_3 = prices3(&[&[(1, 3, 1)], &[(2, 3, 1)], &[(1, 1, 1), (3, 3, 1)], &[(1, 2, 1)], &[]]);
            let of_1 = [PLAIN, COATED].into_iter().flat_map(|kind| [price1(kind, &[(1, 1, 1)]), price1(kind, &[])]);
            of_3.into_iter().chain(of_1).collect()
        },
        moved: &[
            |limits| limits.first_size[0] = 0,
            |limits| limits.first_size[0] = 2,
            |limits| limits.size_past_n[0] = -1,
            |limits| limits.size_past_n[0] = 1,
            |limits| limits.least_lines_of_size = 0,
            |limits| limits.least_lines_of_size = 2,
        ],
    },
    Limit {
        name: "sizes that have two lines",
        calls: || {
            prices3(&[
                &[(1, 3, 1)],
                &[(1, 3, 1), (1, 1, 2)],
                &[(1, 2, 1), (2, 3, 2)],
                &[(1, 3, 1), (3, 3, 2)],
                &[(2, 2, 1), (1, 3, 2), (2, 2, 1)],
            ])
        },
        moved: &[
            |limits| limits.first_size[1] = 2,
            |limits| limits.size_past_n[1] = -1,
            |limits| limits.most_lines_of_size = 0,
            |limits| limits.most_lines_of_size = 2,
        ],
    },
];

impl Limit {
    // The paper with each wrong limit.
    pub fn wrong(&self) -> impl Iterator<Item = Paper> {
        self.moved.iter().map(|moved| {
            let mut paper = PAPER;
            moved(&mut paper.limits);
            paper
        })
    }
}

// ---- What the calls are made of

// Sets of plain 3.
const TURN_2: Groups = 0b010;
const TURN_3: Groups = 0b100;
const BOTH: Groups = TURN_2 | TURN_3;

// Two segments, of 4 and of 2 stacks, so that the last byte has spare entries.
pub const SMALL: Fields =
    Fields { kind: PLAIN, n: 3, wanted: [1, 2, 3, 0, 0, 0, 0, 0, 0, 0, 0, 0], groups: BOTH, size: 4, room: 16 };
const SMALL_LOGS: usize = 32;

// Two segments, of 20 and of 4 stacks, whose changed lists have three bytes and one.
const UNEVEN: Fields = Fields { n: 4, wanted: [1, 2, 3, 4, 0, 0, 0, 0, 0, 0, 0, 0], groups: 0b1110, size: 20, ..SMALL };

// Two full segments, and no two fields alike.
const TELLING: Fields =
    Fields { kind: COATED, n: 2, wanted: [2, -1, 0, 0, 0, 0, 0, 0, 0, 0, 0, 0], groups: 0b11, size: 4, room: 20 };
const TELLING_LOGS: usize = 40;

// The table of plain 3 for the ordered stack, by document 01.
const TABLE3: [u8; 2] = [0x90, 0xf6];

// The bytes of the shortest turn list that is taken.
const LIST: usize = 254;

fn stack3(panes: [i8; 3]) -> Stack {
    let mut stack = NO_STACK;
    stack[..3].copy_from_slice(&panes);
    stack
}

// Every turn of a kind and n for the ordered stack, in as few segments as there can be.
fn whole(kind: u8, n: u8) -> Fields {
    Fields { kind, n, wanted: ordered(n), groups: paper::full_set(kind, n), size: 67_108_864, room: 16 }
}

fn small_job(phase: Phase) -> Job {
    SMALL.job(phase)
}

fn with_passed(j: usize, passed: u32) -> Job {
    let mut job = small_job(Phase::Level(1));
    job.passed[j] = passed;
    job
}

fn with_waiting(j: usize, waiting: u32) -> Job {
    let mut job = small_job(Phase::Level(1));
    job.waiting[j] = waiting;
    job
}

fn with_count(level: usize, count: u64, phase: Phase) -> Job {
    let mut job = small_job(phase);
    job.counts[level] = count;
    job
}

// All stacks passed.
fn ready(mut job: Job) -> Job {
    job.passed[..2].copy_from_slice(&[4, 2]);
    job
}

// A small job in a reverse level, with segment 0 loaded.
fn reverse(d: u8) -> Job {
    Job { way: REVERSE, loaded: 0, ..small_job(Phase::Level(d)) }
}

// One pair more or less swept.
fn with_pair(mut job: Job, b: usize, j: u32) -> Job {
    job.swept[b] ^= 1 << j;
    job
}

// All pairs swept.
fn swept(mut job: Job, segments: usize) -> Job {
    job.swept[..segments].fill(paper::segments_below(segments as u64));
    job
}

// 64 segments, as many as there can be.
fn many() -> Fields {
    Fields { size: 632, ..whole(PLAIN, 8) }
}

fn look(job: Job, j: u32) -> Call {
    let measures = PAPER.measures(job.kind, job.n, &job.wanted, job.groups, job.size, job.room);
    Call::Look { job, j, logs: vec![0; measures.map_or(SMALL_LOGS, |measures| measures.log_numbers())] }
}

// The seven calls on each of some small jobs. Look comes first: it needs nothing of a phase, so it shows a wrong limit before anything else.
fn calls_on(jobs: impl IntoIterator<Item = Job>) -> Vec<Call> {
    let jobs: Vec<Job> = jobs.into_iter().collect();
    let others = jobs.iter().flat_map(|&job| {
        let (segment, logs, list) = (vec![0xff], vec![0; SMALL_LOGS], vec![0xff]);
        [
            Call::Blank { job, j: 0, segment: segment.clone() },
            Call::Expand { job, j: 0, segment: segment.clone(), logs: logs.clone() },
            Call::Settle { job, j: 0, segment: segment.clone(), logs },
            Call::Close { job, way: FORWARD },
            Call::Load { job, b: 0, segment: segment.clone(), list: list.clone() },
            Call::Sweep { job, j: 0, segment, list },
        ]
    });
    jobs.iter().map(|&job| look(job, 0)).chain(others).collect()
}

fn begin(fields: &Fields) -> Call {
    Call::Begin { fields: *fields }
}

fn build(fields: &Fields, bytes: usize, words: usize, list_bytes: usize) -> Call {
    Call::Build { fields: *fields, table: vec![0x5a; bytes], logs: vec![7; words], list: vec![0xa7; list_bytes] }
}

fn plan3(table: &[u8], given: [i8; 3], list: usize) -> Call {
    let (table, list) = (Rc::new(table.to_vec()), vec![0xee; list]);
    Call::Plan { kind: PLAIN, n: 3, wanted: ordered(3), given: stack3(given), groups: BOTH, table, list }
}

fn plan3_by(groups: Groups, table: &[u8], given: [i8; 3]) -> Call {
    let (table, list) = (Rc::new(table.to_vec()), vec![0xee; LIST]);
    Call::Plan { kind: PLAIN, n: 3, wanted: ordered(3), given: stack3(given), groups, table, list }
}

// A line's first size, last size and price.
type Triple = (u8, u8, u32);

// Prices of the plan 3, 2, 3.
fn prices3(tariffs: &[&[Triple]]) -> Vec<Call> {
    let plan = plan3(&TABLE3, [1, 3, 2], LIST);
    tariffs.iter().map(|lines| plan.priced(Tariff::of(lines))).collect()
}

// Each call of Plan, and after it one of Price by document 02's tariff.
fn with_prices(plans: impl IntoIterator<Item = Call>) -> Vec<Call> {
    let tariff = Tariff::of(&[(1, 2, 1_250), (3, 3, 1_250)]);
    plans.into_iter().flat_map(|plan| [plan.clone(), plan.priced(tariff)]).collect()
}

// The price of one pane's plan: with its coat down it takes turn 1, plain it has no turn.
fn price1(kind: u8, lines: &[Triple]) -> Call {
    let (pane, entries) = if kind == COATED { (-1, 0xf4) } else { (1, 0xfc) };
    let mut given = NO_STACK;
    given[0] = pane;
    let (table, list, tariff) = (Rc::new(vec![entries]), vec![0xee; LIST], Tariff::of(lines));
    Call::Price { kind, n: 1, wanted: ordered(1), given, groups: paper::full_set(kind, 1), table, list, tariff }
}

// ---- The limits

// n at both ends and past them. Read comes first: of all calls it alone needs no place for one pane too many.
fn panes(kind: u8, most: u8) -> Vec<Call> {
    let read = |n| Call::ReadEntry { kind, n, table: Rc::default(), index: 0 };
    let mut calls: Vec<Call> = [0, most + 1, 255].map(read).into();
    for n in [1, most, 0, most + 1] {
        let stack = ordered(n.min(12));
        let right = (1..=most).contains(&n);
        let stacks = if right { paper::count_of_stacks(kind, n) } else { 0 };
        let index = stacks.saturating_sub(1) as u32;
        // Zeros are not touched until they are read, so the largest table costs nothing.
        let table = Rc::new(vec![0; paper::bytes_of(stacks)]);
        let fields = Fields { wanted: stack, ..whole(kind, n) };
        calls.push(Call::Index { kind, n, stack });
        calls.push(Call::StackAt { kind, n, index });
        calls.push(Call::Turn { kind, n, stack, k: n });
        calls.push(begin(&fields));
        calls.push(Call::ReadEntry { kind, n, table: table.clone(), index });
        let groups = fields.groups;
        let plan = Call::Plan { kind, n, wanted: stack, given: stack, groups, table, list: vec![0xee; LIST] };
        calls.push(plan.priced(Tariff::of(&[(1, n, 1)])));
        calls.push(plan);
        calls.push(build(&fields, 0, 0, 0));
    }
    calls
}

fn turns() -> Vec<Call> {
    let plain = [0, 1, 2, 3, 4, 255].map(|k| Call::Turn { kind: PLAIN, n: 3, stack: ordered(3), k });
    let coated = [0, 1, 2, 3, 255].map(|k| Call::Turn { kind: COATED, n: 2, stack: ordered(2), k });
    plain.into_iter().chain(coated).collect()
}

// Right sets, the sizes next to them, no size, and every bit alone and beside every turn. Begin comes first: no wrong limit makes it turn by what
// is no turn.
fn sets() -> Vec<Call> {
    let tried: [(u8, u8, &[Groups]); 8] = [
        (PLAIN, 3, &[0b110, 0b010, 0b100, 0b111, 0b001, 0b101, 0b1110, 0b1000, 0]),
        (COATED, 2, &[0b11, 0b01, 0b10, 0b111, 0b100, 0b110, 0]),
        (PLAIN, 1, &[0, 1, 2, 0b11]),
        (COATED, 1, &[1, 0, 2, 0b11]),
        (PLAIN, 2, &[0b10, 0b01, 0b11, 0b100, 0]),
        (PLAIN, 4, &[0b1110, 0b1010, 0b1000, 0b11110, 0b1111]),
        (PLAIN, 12, &[0xffe, 0x800, 0x002, 0xfff, 0x1ffe, 0x1000]),
        (COATED, 10, &[0x3ff, 0x200, 0x001, 0x7ff, 0x400]),
    ];
    let mut fields: Vec<Fields> = Vec::new();
    for (kind, n, sets) in tried {
        let right = whole(kind, n);
        fields.extend(sets.iter().map(|&groups| Fields { groups, ..right }));
        let alone = (0..32).map(|bit| 1 << bit);
        let beside = (0..32).map(|bit| right.groups | 1 << bit);
        fields.extend(alone.chain(beside).chain([u32::MAX]).map(|groups| Fields { groups, ..right }));
    }
    let begun = fields.iter().map(begin);
    let looked = fields.iter().map(|fields| look(fields.job(Phase::Blanking), 0));
    let jobs = [Phase::Blanking, Phase::Level(1)].into_iter().flat_map(|phase| {
        let sets = [BOTH, TURN_2, TURN_3, 0, 1, BOTH | 1, BOTH | 0b1000, BOTH | 1 << 31];
        sets.map(|groups| Job { groups, ..small_job(phase) })
    });
    let others = fields.iter().flat_map(|fields| {
        let Fields { kind, n, wanted, groups, .. } = *fields;
        let bytes = paper::bytes_of(paper::count_of_stacks(kind, n));
        // The tables of the largest n are of a wrong length, which costs nothing.
        let bytes = if bytes > 1 << 20 { 0 } else { bytes };
        let table = Rc::new(vec![0xfc; bytes]);
        let plan = Call::Plan { kind, n, wanted, given: wanted, groups, table, list: vec![0xee; LIST] };
        let built = build(fields, bytes, fields.room as usize, bytes.div_ceil(2));
        [plan.clone(), plan.priced(Tariff::of(&[(1, n, 1)])), built]
    });
    begun.chain(looked).chain(calls_on(jobs)).chain(others).collect()
}

// Read comes first: the spare entry past the last stack can be read by mistake.
fn indices() -> Vec<Call> {
    let read = |index| Call::ReadEntry { kind: PLAIN, n: 3, table: Rc::new(TABLE3.into()), index };
    let mut calls: Vec<Call> = [0, 5, 6, 7, 8, u32::MAX].map(read).into();
    for (kind, n) in [(PLAIN, 3), (COATED, 2), (PLAIN, 12), (COATED, 10)] {
        let stacks = paper::count_of_stacks(kind, n) as u32;
        calls.extend([stacks - 1, stacks, u32::MAX].map(|index| Call::StackAt { kind, n, index }));
    }
    calls
}

fn sizes() -> Vec<Call> {
    let small = [0, 2, 4, 6, 8, 12, 67_108_860, 67_108_864, 67_108_868].map(|size| Fields { size, ..SMALL });
    let large = [67_108_860, 67_108_864, 67_108_868].map(|size| Fields { size, ..whole(PLAIN, 12) });
    let begun = small.iter().chain(&large).map(begin);
    let looked = small.iter().chain(&large).map(|fields| look(fields.job(Phase::Blanking), 0));
    let built = small.iter().map(|fields| build(fields, 2, fields.measures().map_or(16, |m| m.log_numbers()), 1));
    begun.chain(looked).chain(built).collect()
}

// Plain 8 has 64 segments by S 632 and 65 by S 628.
fn segment_counts() -> Vec<Call> {
    let fields = [632, 628].map(|size| Fields { size, ..whole(PLAIN, 8) });
    let looked = fields.iter().map(|fields| look(fields.job(Phase::Blanking), 63));
    fields.iter().map(begin).chain(looked).chain(fields.iter().map(|fields| build(fields, 0, 0, 0))).collect()
}

fn rooms() -> Vec<Call> {
    let fields = [15, 16, 17, 1_048_575, 1_048_576, 1_048_577].map(|room| Fields { size: 8, room, ..SMALL });
    let looked = fields.iter().map(|fields| look(fields.job(Phase::Blanking), 0));
    let built = fields.iter().map(|fields| build(fields, 2, fields.room as usize, 1));
    fields.iter().map(begin).chain(looked).chain(built).collect()
}

// The phases, then every number that is none and every level that Blanking has not: they come back with the job as they were.
fn phase_numbers() -> Vec<Call> {
    let phases = [Phase::Blanking, Phase::Level(1), Phase::Finished(1)];
    let numbers = (3..=255).map(|number| Phase::NoPhase(number, 255 - number));
    let levels = (1..=255).map(|level| Phase::NoPhase(0, level));
    calls_on(phases.into_iter().chain(numbers).chain(levels).map(small_job))
}

// Levels at both ends and past them.
fn levels() -> Vec<Call> {
    calls_on([0, 1, 2, 30, 31, 32, 33, 253, 254, 255].map(|d| small_job(Phase::Level(d))))
}

// Close with and without new stacks; a count that is not that of the level plays no part.
fn last_levels() -> Vec<Call> {
    let way = FORWARD;
    let brought = |d: u8, count| Call::Close { job: ready(with_count(d as usize, count, Phase::Level(d))), way };
    let beside = |d: u8, level: usize| Call::Close { job: ready(with_count(level, 1, Phase::Level(d))), way };
    let levels = [1, 29, 30, 31, 32, 127, 128, 253, 254, 255];
    let counts = levels.iter().flat_map(|&d| [0, 1, 1 << 60].map(|count| brought(d, count)));
    let beside = [beside(31, 32), beside(254, 255), beside(255, 254), beside(255, 31), beside(255, 0)];
    counts.chain(beside).collect()
}

// The limit of a count, at each level.
fn counts() -> Vec<Call> {
    let limit = 1 << 60;
    let level_2 = |level, count| with_count(level, count, Phase::Level(2));
    let jobs = (0..256).flat_map(|level| [limit, limit + 1].map(|count| level_2(level, count)));
    calls_on(jobs.chain([31, 255].into_iter().flat_map(|level| [level_2(level, limit - 1), level_2(level, u64::MAX)])))
}

// The last segment and the one past it, of two segments and of 64, for each call that names one.
fn segment_numbers() -> Vec<Call> {
    let (level, blanking) = (small_job(Phase::Level(1)), small_job(Phase::Blanking));
    let looked = [1, 2, 3, 257, 65_537, u32::MAX].map(|j| look(level, j));
    let of_many = [63, 64, 65].map(|j| look(many().job(Phase::Level(1)), j));
    let others = [1, 2, 257, u32::MAX].into_iter().flat_map(|j| {
        let (segment, logs, list) = (vec![0xff], vec![0; SMALL_LOGS], vec![0xff]);
        [
            Call::Blank { job: blanking, j, segment: segment.clone() },
            Call::Expand { job: level, j, segment: segment.clone(), logs: logs.clone() },
            Call::Settle { job: level, j, segment: segment.clone(), logs },
            Call::Load { job: reverse(1), b: j, segment: segment.clone(), list: list.clone() },
            Call::Sweep { job: reverse(1), j, segment, list },
        ]
    });
    looked.into_iter().chain(of_many).chain(others).collect()
}

// Close of a reverse level with all pairs swept, and with one of them missing, of one, two and 64 segments; passed and waiting are not asked.
fn pairs_asked() -> Vec<Call> {
    let of = |job: Job, segments: usize, last: u32| {
        let all = swept(job, segments);
        let waits = Job { passed: with_passed(0, 1).passed, waiting: with_waiting(1, 3).waiting, ..all };
        let short = [(0, 0), (0, last), (last, 0), (last, last)].map(|(b, j)| with_pair(all, b as usize, j));
        [all, waits].into_iter().chain(short)
    };
    let [one, of_many] = [whole(PLAIN, 3), many()].map(|fields| Job { way: REVERSE, ..fields.job(Phase::Level(1)) });
    let jobs = of(reverse(1), 2, 1).chain(of(of_many, 64, 63)).chain([one, swept(one, 1)]);
    jobs.map(|job| Call::Close { job, way: REVERSE }).collect()
}

// One offset waits for the segment of two stacks.
fn settle_of_offset(offset: u32) -> Call {
    let mut logs = vec![0; SMALL_LOGS];
    logs[16] = offset;
    Call::Settle { job: with_waiting(1, 1), j: 1, segment: vec![0xff], logs }
}

// Stack 3 1 2 of segment 1 has two children, both in segment 0, where so many entries wait.
fn expand_into(waiting: u32) -> Call {
    Call::Expand { job: with_waiting(0, waiting), j: 1, segment: vec![0xfc], logs: vec![9; SMALL_LOGS] }
}

// Stacks on a road that Plan follows turn by turn, so many turns from the wanted one, by the full set and by three sizes; and the highest price
// that there is. The lists have room for a turn too many, and then for none.
fn long_plans() -> Vec<Call> {
    let full = whole(PLAIN, 9);
    let limited = Fields { groups: paper::set_of([2, 7, 9]), ..full };
    let tariff = Tariff::of(&[(1, 9, 1_000_000)]);
    let mut calls = Vec::new();
    for fields in [full, limited] {
        let plans = (0..).map(|seed| long_plans_of(&fields, seed)).find(|plans| followed(plans));
        for plan in plans.expect("some road has no shorter way") {
            calls.extend([plan.priced(tariff), plan]);
        }
    }
    calls
}

const LONG: [usize; 5] = [30, 31, 253, 254, 255];

fn long_plans_of(fields: &Fields, seed: u64) -> Vec<Call> {
    let Fields { kind, n, wanted, groups, .. } = *fields;
    let mut table = vec![0xff; paper::bytes_of(paper::count_of_stacks(kind, n))];
    let road = walked(&mut Rng::new(seed), fields, 255, true, &mut table);
    let table = Rc::new(table);
    let plan = |turns: usize, list| {
        let given = road.get(turns).copied().unwrap_or(wanted);
        Call::Plan { kind, n, wanted, given, groups, table: table.clone(), list: vec![0xee; list] }
    };
    LONG.iter().flat_map(|&turns| [plan(turns, LIST + 6), plan(turns, LIST)]).collect()
}

// Each list that is long enough has all turns of its road.
fn followed(plans: &[Call]) -> bool {
    let longer = Paper { limits: Limits { most_turns: 255, ..PAPER.limits } };
    let all = |(place, turns): (usize, &usize)| {
        let planned = Planned { refusal: 0, turns: *turns as u32 };
        plans[2 * place].run(&longer).answer == Answered::Planned(planned)
    };
    LONG.iter().enumerate().all(all)
}

// Twelve lines, a size each, and one line fewer or more counted. Only plain 12 can have them; the plan is turn 12.
fn line_counts() -> Vec<Call> {
    let (kind, n, wanted) = (PLAIN, 12, ordered(12));
    let given = paper::turned(kind, &wanted, 12);
    // Zeros are not touched until they are read, so the largest table costs nothing.
    let mut table = vec![0; paper::bytes_of(paper::count_of_stacks(kind, n))];
    paper::set_entry(&mut table, u64::from(paper::index(kind, n, &given)), 1);
    let groups = paper::full_set(kind, n);
    let plan = Call::Plan { kind, n, wanted, given, groups, table: Rc::new(table), list: vec![0xee; LIST] };
    let lines: Vec<Triple> = (1..=12).rev().map(|size| (size, size, 1_000 * u32::from(size))).collect();
    [11, 12, 13, 256, 268, u32::MAX].map(|count| plan.priced(Tariff { count, ..Tariff::of(&lines) })).into()
}

// Both lines of a tariff, each at the limit and past it.
fn line_prices() -> Vec<Call> {
    let prices = [0, 1, 999_999, 1_000_000, 1_000_001, 1_000_002, 1 << 31, u32::MAX];
    prices.iter().flat_map(|&of| prices3(&[&[(1, 2, of), (3, 3, 0)], &[(1, 2, 0), (3, 3, of)]])).collect()
}

// ---- Every refusal, and answers that tell

// What each operation does, and each of its refusals.
pub fn operations() -> Vec<Call> {
    [
        stack_calls(),
        begin_and_build(),
        blank_calls(),
        expand_calls(),
        settle_calls(),
        look_calls(),
        close_calls(),
        load_calls(),
        sweep_calls(),
        read_calls(),
        plan_calls(),
        price_calls(),
    ]
    .concat()
}

fn stack_calls() -> Vec<Call> {
    let (kind, n, stack) = (TELLING.kind, TELLING.n, TELLING.wanted);
    vec![
        Call::Index { kind, n, stack },
        Call::Index { kind: 2, n, stack },
        Call::Index { kind, n: 0, stack },
        Call::Index { kind: PLAIN, n, stack },
        Call::StackAt { kind, n, index: 5 },
        Call::StackAt { kind: 2, n, index: 5 },
        Call::StackAt { kind, n: 0, index: 5 },
        Call::StackAt { kind, n, index: 8 },
        Call::Turn { kind, n, stack, k: 1 },
        Call::Turn { kind, n, stack, k: 2 },
        Call::Turn { kind: 2, n, stack, k: 1 },
        Call::Turn { kind, n: 0, stack, k: 1 },
        Call::Turn { kind: PLAIN, n, stack, k: 2 },
        Call::Turn { kind, n, stack, k: 3 },
    ]
}

fn begin_and_build() -> Vec<Call> {
    let wrong = [
        Fields { kind: 2, ..TELLING },
        Fields { n: 0, ..TELLING },
        Fields { kind: PLAIN, ..TELLING },
        Fields { groups: 0, ..TELLING },
        Fields { size: 6, ..TELLING },
        Fields { room: 15, ..TELLING },
    ];
    let sets = [0b01, 0b10].map(|groups| Fields { groups, ..TELLING });
    // Right lengths, and one too few or too many of each, or exchanged.
    let lengths = [
        (2, 40, 1),
        (1, 40, 1),
        (3, 40, 1),
        (2, 39, 1),
        (2, 41, 1),
        (2, 40, 0),
        (2, 40, 2),
        (40, 2, 1),
        (1, 40, 2),
        (2, 1, 40),
        (0, 0, 0),
    ];
    let begun = wrong.iter().chain([&TELLING, &SMALL]).chain(&sets).map(begin);
    let built = lengths.iter().map(|(bytes, words, listed)| build(&TELLING, *bytes, *words, *listed));
    let by_sets = wrong.iter().chain(&sets).map(|fields| build(fields, 2, TELLING_LOGS, 1));
    // The list is that of the largest segment; plain 1 has no turn, and its last level brings nothing.
    let uneven = [1, 3, 4].map(|listed| build(&UNEVEN, 6, SMALL_LOGS, listed));
    let one = [PLAIN, COATED].map(|kind| build(&whole(kind, 1), 1, 16, 1));
    begun.chain(by_sets).chain(built).chain(uneven).chain(one).collect()
}

fn blank_calls() -> Vec<Call> {
    let blanking = small_job(Phase::Blanking);
    let (segment, job) = (vec![0x5a], blanking);
    vec![
        Call::Blank { job, j: 0, segment: segment.clone() },
        Call::Blank { job, j: 1, segment: segment.clone() },
        Call::Blank { job: TELLING.job(Phase::Blanking), j: 1, segment: segment.clone() },
        Call::Blank { job: NO_JOB, j: 0, segment: segment.clone() },
        Call::Blank { job: small_job(Phase::Level(1)), j: 0, segment: segment.clone() },
        Call::Blank { job, j: 2, segment },
        // The way plays no part in Blanking, nor what is loaded or swept.
        Call::Blank { job: with_pair(Job { way: REVERSE, loaded: 1, ..job }, 0, 1), j: 0, segment: vec![0x5a] },
        Call::Blank { job, j: 0, segment: vec![] },
        Call::Blank { job, j: 0, segment: vec![1, 2] },
        Call::Blank { job: ready(blanking), j: 0, segment: vec![0x5a] },
    ]
}

// A job of Level 4 with something in every field.
fn telling_job() -> Job {
    let mut job = TELLING.job(Phase::Level(4));
    job.loaded = 1;
    job.passed[..2].copy_from_slice(&[1, 2]);
    job.waiting[..2].copy_from_slice(&[3, 18]);
    job.swept[..2].copy_from_slice(&[0b10, 0b01]);
    job.counts[..5].copy_from_slice(&[1, 2, 3, 4, 5]);
    job
}

// The same, reverse: pairs 0, 0 and 1, 1 are left.
fn telling_reverse(loaded: u8) -> Job {
    Job { way: REVERSE, loaded, ..telling_job() }
}

// The first three offsets of each log are of the segment.
fn telling_logs() -> Vec<u32> {
    (0..TELLING_LOGS as u32).map(|word| if word % 20 < 3 { word % 20 } else { 100 + word }).collect()
}

fn expand_calls() -> Vec<Call> {
    let expand = |job, j, bytes: &[u8], words: usize| {
        let logs = (0..words as u32).collect();
        Call::Expand { job, j, segment: bytes.to_vec(), logs }
    };
    let (job, small) = (telling_job(), small_job(Phase::Level(1)));
    let by = |groups, job| Job { groups, ..job };
    vec![
        // Entries 0 are those of level 3; the child of one waits for a place.
        expand(job, 0, &[0xc3], TELLING_LOGS),
        expand(job, 0, &[0x00], TELLING_LOGS),
        expand(job, 1, &[0x0f], TELLING_LOGS),
        expand(small, 0, &[0xfc], SMALL_LOGS),
        // By a set of one size there is a child fewer; where it would wait, none waits.
        expand(by(0b01, job), 0, &[0xc3], TELLING_LOGS),
        expand(by(0b10, job), 0, &[0xc3], TELLING_LOGS),
        expand(by(0b01, job), 0, &[0x00], TELLING_LOGS),
        expand(by(0b10, job), 0, &[0x00], TELLING_LOGS),
        expand(by(TURN_2, small), 0, &[0xfc], SMALL_LOGS),
        expand(by(TURN_3, small), 0, &[0xfc], SMALL_LOGS),
        expand(by(TURN_2, with_waiting(0, 16)), 1, &[0xfc], SMALL_LOGS),
        expand(by(TURN_3, with_waiting(0, 15)), 1, &[0xfc], SMALL_LOGS),
        // Labels and counts of the last levels.
        expand(small_job(Phase::Level(253)), 0, &[0xfc], SMALL_LOGS),
        expand(small_job(Phase::Level(254)), 0, &[0xfd], SMALL_LOGS),
        expand(small_job(Phase::Level(255)), 0, &[0xfe], SMALL_LOGS),
        expand(NO_JOB, 0, &[0xfc], SMALL_LOGS),
        expand(small_job(Phase::Blanking), 0, &[0xfc], SMALL_LOGS),
        expand(reverse(1), 0, &[0xfc], SMALL_LOGS),
        expand(Job { way: REVERSE, ..job }, 0, &[0xc3], TELLING_LOGS),
        expand(small, 2, &[0xfc], SMALL_LOGS),
        expand(small, 0, &[0xfc, 0xff], SMALL_LOGS),
        expand(small, 0, &[], SMALL_LOGS),
        expand(small, 0, &[0xfc], SMALL_LOGS - 1),
        expand(small, 0, &[0xfc], SMALL_LOGS + 1),
        expand(ready(small), 0, &[0xfc], SMALL_LOGS),
    ]
}

fn settle_calls() -> Vec<Call> {
    let settle = |job, j, bytes: &[u8], logs| Call::Settle { job, j, segment: bytes.to_vec(), logs };
    let (job, small) = (telling_job(), small_job(Phase::Level(1)));
    vec![
        settle(job, 0, &[0xff], telling_logs()),
        settle(job, 1, &[0xff], telling_logs()),
        settle(Job { phase: Phase::Level(254), ..job }, 0, &[0xff], telling_logs()),
        settle(Job { phase: Phase::Level(255), ..job }, 0, &[0xff], telling_logs()),
        settle(Job { groups: 0b10, ..job }, 0, &[0xff], telling_logs()),
        settle(small, 0, &[0xfc], vec![0; SMALL_LOGS]),
        settle(NO_JOB, 0, &[0xfc], vec![0; SMALL_LOGS]),
        settle(small_job(Phase::Blanking), 0, &[0xfc], vec![0; SMALL_LOGS]),
        settle(reverse(1), 0, &[0xfc], vec![0; SMALL_LOGS]),
        settle(Job { way: REVERSE, ..job }, 0, &[0xff], telling_logs()),
        settle(small, 2, &[0xfc], vec![0; SMALL_LOGS]),
        settle(small, 0, &[0xfc, 0xff], vec![0; SMALL_LOGS]),
        settle(small, 0, &[], vec![0; SMALL_LOGS]),
        settle(small, 0, &[0xfc], vec![0; SMALL_LOGS - 1]),
        settle(small, 0, &[0xfc], vec![0; SMALL_LOGS + 1]),
    ]
}

fn look_calls() -> Vec<Call> {
    let job = telling_job();
    let phases = [Phase::Blanking, Phase::Finished(7)].map(|phase| look(Job { phase, ..job }, 1));
    let short = Call::Look { job, j: 0, logs: vec![0; TELLING_LOGS - 1] };
    let long = Call::Look { job, j: 0, logs: vec![0; TELLING_LOGS + 1] };
    let others = [look(telling_reverse(0), 1), look(job, 0), look(job, 1), look(NO_JOB, 0), look(job, 2), short, long];
    phases.into_iter().chain(others).collect()
}

fn close_calls() -> Vec<Call> {
    let level = |d, count| ready(with_count(d as usize, count, Phase::Level(d)));
    let one_waits = |phase| Job { waiting: with_waiting(1, 1).waiting, ..ready(small_job(phase)) };
    // All pairs swept, with stacks not passed and entries waiting, which only a forward level or Blanking asks.
    let reversed = |job: Job| Job { way: REVERSE, loaded: 1, ..swept(job, 2) };
    let unready = |phase| Job { phase, counts: level(3, 5).counts, ..with_waiting(1, 1) };
    let jobs = [
        ready(small_job(Phase::Blanking)),
        level(3, 5),
        level(3, 0),
        NO_JOB,
        ready(small_job(Phase::Finished(3))),
        with_passed(0, 4),
        with_passed(1, 2),
        one_waits(Phase::Level(2)),
        one_waits(Phase::Blanking),
        Job { groups: TURN_3, ..level(3, 5) },
        level(255, 1),
        // Of a reverse level, with pairs left and without.
        reversed(unready(Phase::Level(3))),
        reversed(unready(Phase::Level(2))),
        reversed(level(255, 1)),
        with_pair(reversed(level(3, 5)), 1, 0),
        with_pair(reversed(level(3, 5)), 0, 1),
        // Blanking or Finished with a way, a loaded segment and pairs; a forward level that was swept.
        reversed(ready(small_job(Phase::Blanking))),
        reversed(unready(Phase::Blanking)),
        Job { swept: [0; 64], ..reversed(ready(small_job(Phase::Blanking))) },
        reversed(ready(small_job(Phase::Finished(3)))),
        Job { way: FORWARD, ..reversed(unready(Phase::Level(3))) },
        Job { way: FORWARD, ..reversed(level(3, 5)) },
        Job { way: FORWARD, swept: [0; 64], ..reversed(level(3, 0)) },
    ];
    jobs.iter().flat_map(|&job| [FORWARD, REVERSE, 2, 64, 255].map(|way| Call::Close { job, way })).collect()
}

// Segments of several lengths at several levels; the list holds other bits before.
fn load_calls() -> Vec<Call> {
    let load = |job, b, bytes: &[u8], list: &[u8]| Call::Load { job, b, segment: bytes.to_vec(), list: list.to_vec() };
    let in_reverse = |fields: Fields, d| Job { way: REVERSE, ..fields.job(Phase::Level(d)) };
    let twelve = Fields { size: 12, ..UNEVEN };
    // Entries 3, 2, 1, 0.
    let levels = [1, 2, 3, 4, 31, 32, 253, 254, 255];
    let by_level = levels.into_iter().flat_map(|d| [0x00, 0xff].map(|was| load(reverse(d), 0, &[0x1b], &[was])));
    let others = [
        load(telling_reverse(0), 1, &[0xc3], &[0x5a]),
        load(telling_reverse(1), 1, &[0x3c], &[0x5a]),
        load(telling_reverse(NO_SEGMENT), 0, &[0x03], &[0x5a]),
        load(swept(telling_reverse(1), 2), 0, &[0x30], &[0x5a]),
        // Spare entries of the level, whose bits stay 0.
        load(reverse(1), 1, &[0x00], &[0xff]),
        load(in_reverse(twelve, 1), 1, &[0x00; 3], &[0xff; 2]),
        load(in_reverse(UNEVEN, 1), 0, &[0x00; 5], &[0xff; 3]),
        load(in_reverse(UNEVEN, 1), 1, &[0x00], &[0xff]),
        load(in_reverse(whole(PLAIN, 1), 1), 0, &[0x00], &[0xff]),
        load(in_reverse(whole(PLAIN, 4), 2), 0, &[0x24, 0xe4, 0x55, 0xaa, 0x00, 0xff], &[0x5a; 3]),
        load(in_reverse(many(), 1), 63, &[0x24; 126], &[0x5a; 63]),
        load(NO_JOB, 0, &[0x1b], &[0x5a]),
        load(Job { way: FORWARD, ..reverse(1) }, 0, &[0x1b], &[0x5a]),
        load(Job { phase: Phase::Blanking, ..reverse(1) }, 0, &[0x1b], &[0x5a]),
        load(Job { phase: Phase::Finished(3), ..reverse(1) }, 0, &[0x1b], &[0x5a]),
        load(reverse(1), 2, &[0x1b], &[0x5a]),
        load(reverse(1), 0, &[], &[0x5a]),
        load(reverse(1), 0, &[0x1b, 0xff], &[0x5a]),
        load(reverse(1), 0, &[0x1b], &[]),
        load(reverse(1), 0, &[0x1b], &[0x5a, 0x5a]),
        // The list of the other segment, and one as long as the segment.
        load(in_reverse(UNEVEN, 1), 0, &[0x00; 5], &[0xff]),
        load(in_reverse(UNEVEN, 1), 1, &[0x00], &[0xff; 3]),
        load(in_reverse(UNEVEN, 1), 0, &[0x00; 5], &[0xff; 5]),
    ];
    by_level.chain(others).collect()
}

fn sweep_calls() -> Vec<Call> {
    let sweep =
        |job, j, bytes: &[u8], list: &[u8]| Call::Sweep { job, j, segment: bytes.to_vec(), list: list.to_vec() };
    let unswept = |loaded| Job { swept: [0; 64], ..telling_reverse(loaded) };
    let in_reverse = |fields: Fields, loaded| Job { way: REVERSE, loaded, ..fields.job(Phase::Level(1)) };
    // Each bit alone, the spare ones too: a stack of coated 2 has a child in its own segment and one in the other.
    let pairs = [(0, 0), (0, 1), (1, 0), (1, 1)];
    let bits = pairs.into_iter().flat_map(|(loaded, j)| (0..8).map(move |bit| (loaded, j, 1 << bit)));
    let by_bit = bits.map(|(loaded, j, list)| sweep(unswept(loaded), j, &[0xff], &[list]));
    // Labels and counts of the levels; seen stacks stay.
    let levels = [1, 2, 3, 31, 32, 253, 254, 255];
    let by_level = levels.into_iter().flat_map(|d| [0xff, 0x1b, 0x00].map(|was| sweep(reverse(d), 0, &[was], &[0xff])));
    let by = |groups, job| Job { groups, ..job };
    let others = [
        sweep(telling_reverse(0), 0, &[0xf3], &[0x05]),
        sweep(telling_reverse(1), 1, &[0x3f], &[0x0a]),
        sweep(telling_reverse(1), 0, &[0xff], &[0xff]),
        sweep(telling_reverse(0), 1, &[0xff], &[0xff]),
        sweep(by(0b01, unswept(0)), 0, &[0xff], &[0x06]),
        sweep(by(0b10, unswept(0)), 0, &[0xff], &[0x06]),
        sweep(by(0b01, unswept(0)), 1, &[0xff], &[0x06]),
        sweep(by(0b10, unswept(0)), 1, &[0xff], &[0x06]),
        // Spare entries stay 3, whatever bits are set; plain 1 has no turn.
        sweep(reverse(1), 1, &[0xff], &[0xff]),
        sweep(Job { loaded: 1, ..reverse(1) }, 1, &[0xff], &[0xff]),
        sweep(Job { loaded: 1, ..reverse(1) }, 0, &[0xff], &[0xfc]),
        sweep(in_reverse(whole(PLAIN, 1), 0), 0, &[0xff], &[0xff]),
        sweep(in_reverse(whole(COATED, 1), 0), 0, &[0xfc], &[0x01]),
        sweep(in_reverse(whole(PLAIN, 4), 0), 0, &[0xff; 6], &[0x01, 0x00, 0x81]),
        // Stacks of the last segment against the first, and the other way round, by lists of the loaded one's length; and of the other's.
        sweep(in_reverse(UNEVEN, 0), 1, &[0xff], &[0x01, 0x80, 0x10]),
        sweep(in_reverse(UNEVEN, 1), 0, &[0xff; 5], &[0x06]),
        sweep(in_reverse(UNEVEN, 0), 1, &[0xff], &[0x06]),
        sweep(in_reverse(UNEVEN, 1), 0, &[0xff; 5], &[0x01, 0x80, 0x10]),
        sweep(in_reverse(many(), 63), 63, &[0xff; 126], &[0x24; 63]),
        sweep(in_reverse(many(), 63), 0, &[0xff; 158], &[0x42; 63]),
        sweep(in_reverse(many(), 0), 63, &[0xff; 126], &[0x18; 79]),
        sweep(with_pair(in_reverse(many(), 63), 63, 63), 63, &[0xff; 126], &[0x24; 63]),
        sweep(NO_JOB, 0, &[0xff], &[0xff]),
        sweep(Job { way: FORWARD, ..reverse(1) }, 0, &[0xff], &[0xff]),
        sweep(Job { phase: Phase::Blanking, ..reverse(1) }, 0, &[0xff], &[0xff]),
        sweep(Job { phase: Phase::Finished(3), ..reverse(1) }, 0, &[0xff], &[0xff]),
        sweep(reverse(1), 2, &[0xff], &[0xff]),
        sweep(Job { loaded: NO_SEGMENT, ..reverse(1) }, 0, &[0xff], &[0xff]),
        sweep(reverse(1), 0, &[], &[0xff]),
        sweep(reverse(1), 0, &[0xff, 0xff], &[0xff]),
        sweep(reverse(1), 0, &[0xff], &[]),
        sweep(reverse(1), 0, &[0xff], &[0xff, 0xff]),
        sweep(with_pair(reverse(1), 0, 0), 0, &[0xff], &[0xff]),
    ];
    by_bit.chain(by_level).chain(others).collect()
}

fn read_calls() -> Vec<Call> {
    let read = |kind, n, table: &[u8], index| Call::ReadEntry { kind, n, table: Rc::new(table.to_vec()), index };
    let mut calls: Vec<Call> = (0..6).map(|index| read(PLAIN, 3, &TABLE3, index)).collect();
    calls.extend([
        read(COATED, 2, &TABLE3, 6),
        read(2, 3, &TABLE3, 1),
        read(PLAIN, 0, &TABLE3, 1),
        read(PLAIN, 3, &TABLE3[..1], 1),
        read(PLAIN, 3, &[0x90, 0xf6, 0xff], 1),
        read(PLAIN, 3, &TABLE3, 6),
    ]);
    calls
}

fn plan_calls() -> Vec<Call> {
    let plan = |kind, n, wanted: [i8; 3], given: [i8; 3]| {
        let (wanted, given) = (stack3(wanted), stack3(given));
        Call::Plan { kind, n, wanted, given, groups: BOTH, table: Rc::new(TABLE3.into()), list: vec![0xee; LIST] }
    };
    vec![
        plan(PLAIN, 3, [1, 2, 3], [1, 2, 3]),
        plan(PLAIN, 3, [1, 2, 3], [3, 1, 2]),
        plan(PLAIN, 3, [1, 2, 3], [1, 3, 2]),
        plan(2, 3, [1, 2, 3], [3, 1, 2]),
        plan(PLAIN, 0, [1, 2, 3], [3, 1, 2]),
        plan(PLAIN, 3, [1, 1, 3], [3, 1, 2]),
        plan(PLAIN, 3, [1, 2, 3], [1, 1, 3]),
        // 10 for the table and for the list.
        plan3(&TABLE3[..1], [3, 1, 2], LIST),
        plan3(&[0x90, 0xf6, 0xff], [3, 1, 2], LIST),
        plan3(&TABLE3, [3, 1, 2], LIST - 1),
        // 20: the given stack is unseen, for another stack and for the wanted one.
        plan3(&[0x90, 0xff], [3, 1, 2], LIST),
        plan3(&[0x93, 0xf6], [1, 2, 3], LIST),
        // 15: the wanted entry is not 0, for another stack, also when unseen, and for itself; no turn leads nearer.
        plan3(&[0x91, 0xf6], [3, 1, 2], LIST),
        plan3(&[0x93, 0xf6], [3, 1, 2], LIST),
        plan3(&[0x91, 0xf6], [1, 2, 3], LIST),
        plan3(&[0xfc, 0xf6], [3, 1, 2], LIST),
        // 21: no size, and one that is no turn.
        plan3_by(0, &TABLE3, [3, 1, 2]),
        plan3_by(BOTH | 1, &TABLE3, [3, 1, 2]),
        // By turn 2 and by turn 3 alone, from their own tables; a stack without a road.
        plan3_by(TURN_2, &[0xdc, 0xff], [2, 1, 3]),
        plan3_by(TURN_2, &[0xdc, 0xff], [3, 2, 1]),
        plan3_by(TURN_3, &[0xfc, 0xf7], [3, 2, 1]),
        // From the table of both turns: no turn of the set leads nearer, at once and after a turn.
        plan3_by(TURN_2, &TABLE3, [3, 1, 2]),
        plan3_by(TURN_3, &TABLE3, [3, 1, 2]),
        // Turn 2, which is smaller, leads to an entry that is nearer too.
        plan3_by(TURN_3, &[0x3c, 0xf7], [3, 2, 1]),
        plan3_by(BOTH, &[0x3c, 0xf7], [3, 2, 1]),
    ]
}

// Every call of Plan, by a right tariff and by each wrong one: Plan's refusals come first. Then tariffs of the plan 2, 3, 2.
fn price_calls() -> Vec<Call> {
    let tariffs: [&[Triple]; 4] = [
        &[(1, 2, 1_250), (3, 3, 1_250)],
        &[(1, 2, 1_250), (3, 3, 1_000_001)],
        &[(1, 2, 1_250)],
        &[(1, 2, 1_250), (2, 3, 1_250)],
    ];
    let plans = plan_calls();
    let of_plans = tariffs.iter().flat_map(|lines| plans.iter().map(|plan| plan.priced(Tariff::of(lines))));
    let telling = prices3(&[
        // Sums of 6,499, 6,500, 6,501 and 7,500.
        &[(3, 3, 4_299), (1, 2, 1_100)],
        &[(3, 3, 4_300), (1, 2, 1_100)],
        &[(3, 3, 4_301), (1, 2, 1_100)],
        &[(1, 1, 9_000), (2, 2, 1_600), (3, 3, 4_300)],
        // Size 1 has two lines and another none, with a wrong line after them and without.
        &[(1, 1, 1), (1, 1, 1), (3, 4, 1)],
        &[(1, 1, 1), (1, 1, 1), (3, 3, 1)],
    ]);
    // Past the count stand lines that would be seen.
    let mut tariff = Tariff { lines: [Line { first: 1, last: 3, price: 7 }; 12], count: 2 };
    tariff.lines[..2].copy_from_slice(&Tariff::of(&[(3, 3, 4_300), (1, 2, 1_100)]).lines[..2]);
    let counted = [0, 1, 2, 3, 12, 13].map(|count| plan3(&TABLE3, [1, 3, 2], LIST).priced(Tariff { count, ..tariff }));
    let of_1 = [PLAIN, COATED].map(|kind| price1(kind, &[(1, 1, 2_500)]));
    // A tariff is of sizes 1 to n, whatever the set: the turn that is lifted has its line, another size none, or two.
    let of_set: [&[Triple]; 4] =
        [&[(1, 3, 2_500)], &[(2, 2, 2_500)], &[(1, 2, 2_500)], &[(1, 1, 0), (2, 3, 2_500), (3, 3, 0)]];
    let of_set = of_set.map(|lines| plan3_by(TURN_2, &[0xdc, 0xff], [2, 1, 3]).priced(Tariff::of(lines)));
    of_plans.chain(telling).chain(counted).chain(of_1).chain(of_set).collect()
}

// ---- Two refusals at once

// What brings a refusal about.
type Cause<A> = (u8, fn(&mut A));

// By the operation's order of refusals, each cause alone and any two at once, and the refusal of the first of them.
fn in_order<A: Clone>(right: &A, causes: &[Cause<A>], call: fn(&A) -> Call) -> Vec<(Call, u8)> {
    let mut calls = vec![(call(right), 0)];
    for (place, (refusal, first)) in causes.iter().enumerate() {
        let mut alone = right.clone();
        first(&mut alone);
        calls.push((call(&alone), *refusal));
        for (_, second) in &causes[place + 1..] {
            let mut both = right.clone();
            // A table or a list that gets a wrong length gets it last.
            second(&mut both);
            first(&mut both);
            calls.push((call(&both), *refusal));
        }
    }
    calls
}

// Begin's fields, and the lengths of the table, the log area and the changed list beside them.
const BUILDING: [Cause<(Fields, usize, usize, usize)>; 9] = [
    (1, |(fields, ..)| fields.kind = 2),
    (2, |(fields, ..)| fields.n = 11),
    (3, |(fields, ..)| fields.wanted[1] = 2),
    (21, |(fields, ..)| fields.groups = 0b110),
    (5, |(fields, ..)| fields.size = 6),
    (6, |(fields, ..)| fields.room = 15),
    (10, |(_, bytes, ..)| *bytes = 1),
    (10, |(_, _, words, _)| *words = 41),
    (10, |(.., listed)| *listed = 2),
];

// Plan's arguments and Price's.
#[derive(Clone)]
struct Planning {
    kind: u8,
    n: u8,
    wanted: [i8; 3],
    given: [i8; 3],
    groups: Groups,
    table: Vec<u8>,
    list: usize,
    tariff: Tariff,
}

impl Planning {
    fn plan(&self) -> Call {
        let Planning { kind, n, groups, .. } = *self;
        let (wanted, given) = (stack3(self.wanted), stack3(self.given));
        Call::Plan { kind, n, wanted, given, groups, table: Rc::new(self.table.clone()), list: vec![0xee; self.list] }
    }

    fn price(&self) -> Call {
        self.plan().priced(self.tariff)
    }
}

// Price has all of them, Plan those up to 15. The given stack 3 1 2 has its entry in the second byte, the wanted one in the first.
const PLANNING: [Cause<Planning>; 12] = [
    (1, |of| of.kind = 255),
    (2, |of| of.n = 0),
    (3, |of| of.wanted = [1, 1, 3]),
    (3, |of| of.given = [3, 1, 4]),
    (21, |of| of.groups = 0b001),
    (10, |of| of.table.truncate(1)),
    (10, |of| of.list = LIST - 1),
    (20, |of| of.table[1] = 0xff),
    (15, |of| of.table[0] = 0x91),
    (17, |of| of.tariff.lines[0].price = 1_000_001),
    (18, |of| of.tariff.count = 2),
    (19, |of| of.tariff.lines[1].first = 1),
];

// Other causes of the same refusals.
const OTHER_PLANNING: [Cause<Planning>; 5] = [
    (3, |of| of.given = [0, 1, 2]),
    (21, |of| of.groups = 0),
    (10, |of| of.table.push(0xff)),
    (20, |of| of.table[1] = 0xff),
    (15, |of| of.table[0] = 0xfc),
];

// At level 255.
const CLOSING: [Cause<Job>; 4] = [
    (7, |job| job.groups = 0),
    (8, |job| job.phase = Phase::Finished(254)),
    (13, |job| job.waiting[1] = 1),
    (14, |job| job.counts[255] = 1),
];

// The same, reverse.
const CLOSING_REVERSE: [Cause<Job>; 4] = [CLOSING[0], CLOSING[1], (13, |job| job.swept[1] = 0b01), CLOSING[3]];

// Arguments of Load and Sweep, where j stands for Load's b too.
#[derive(Clone)]
struct Sweeping {
    job: Job,
    j: u32,
    segment: Vec<u8>,
    list: Vec<u8>,
}

impl Sweeping {
    fn load(&self) -> Call {
        let Sweeping { job, j: b, segment, list } = self.clone();
        Call::Load { job, b, segment, list }
    }

    fn sweep(&self) -> Call {
        let Sweeping { job, j, segment, list } = self.clone();
        Call::Sweep { job, j, segment, list }
    }
}

// Segment 1 is loaded, and segment 0 named.
const SWEEPING: [Cause<Sweeping>; 7] = [
    (7, |of| of.job.way = 2),
    (8, |of| of.job.phase = Phase::Finished(3)),
    (9, |of| of.j = 2),
    (22, |of| of.job.loaded = NO_SEGMENT),
    (10, |of| of.segment.push(0xff)),
    (10, |of| of.list.push(0)),
    (11, |of| of.job.swept[1] = 0b01),
];

// Other causes of the same refusals.
const OTHER_SWEEPING: [Cause<Sweeping>; 7] = [
    (7, |of| of.job.swept[2] = 1),
    (8, |of| of.job.way = FORWARD),
    (9, |of| of.j = u32::MAX),
    (22, |of| of.job.loaded = NO_SEGMENT),
    (10, |of| of.segment.clear()),
    (10, |of| of.list.clear()),
    (11, |of| of.job.swept[1] = 0b11),
];

// Those that Load has.
fn of_load([incoherent, phase, segment, _, length, list_length, _]: [Cause<Sweeping>; 7]) -> [Cause<Sweeping>; 5] {
    [incoherent, phase, segment, length, list_length]
}

// Each call with the refusal that the papers' order gives.
pub fn orders() -> Vec<(Call, u8)> {
    let right = (TELLING, 2, TELLING_LOGS, 1);
    let sweeping = Sweeping { job: Job { loaded: 1, ..reverse(1) }, j: 0, segment: vec![0xff], list: vec![0xff] };
    let planning = Planning {
        kind: PLAIN,
        n: 3,
        wanted: [1, 2, 3],
        given: [3, 1, 2],
        groups: BOTH,
        table: TABLE3.into(),
        list: LIST,
        tariff: Tariff::of(&[(1, 1, 1_250), (2, 2, 1_250), (3, 3, 1_250)]),
    };
    [
        in_order(&right, &BUILDING[..6], |(fields, ..)| begin(fields)),
        in_order(&right, &BUILDING, |(fields, bytes, words, listed)| build(fields, *bytes, *words, *listed)),
        in_order(&planning, &PLANNING[..9], Planning::plan),
        in_order(&planning, &PLANNING, Planning::price),
        in_order(&planning, &OTHER_PLANNING, Planning::plan),
        in_order(&planning, &OTHER_PLANNING, Planning::price),
        in_order(&ready(small_job(Phase::Level(255))), &CLOSING, |&job| Call::Close { job, way: REVERSE }),
        in_order(&swept(reverse(255), 2), &CLOSING_REVERSE, |&job| Call::Close { job, way: REVERSE }),
        in_order(&sweeping, &of_load(SWEEPING), Sweeping::load),
        in_order(&sweeping, &of_load(OTHER_SWEEPING), Sweeping::load),
        in_order(&sweeping, &SWEEPING, Sweeping::sweep),
        in_order(&sweeping, &OTHER_SWEEPING, Sweeping::sweep),
    ]
    .concat()
}

// ---- Past the first mebibyte

// Plain 11 as one segment of 9,979,200 bytes, its wanted stack the last one.
pub fn beyond_a_mebibyte() -> Vec<Call> {
    let wanted = std::array::from_fn(|place| 11 - place as i8);
    let fields = Fields { wanted, size: 39_916_800, ..whole(PLAIN, 11) };
    let Fields { kind, n, groups, size, .. } = fields;
    let bytes = paper::bytes_of(u64::from(size));
    let level = |passed: u32, waiting: u32| {
        let mut job = fields.job(Phase::Level(1));
        (job.passed[0], job.waiting[0]) = (passed, waiting);
        job
    };
    let edge = 4 << 20;
    let mut offsets = vec![0, edge - 1, edge, edge + 5, size / 2, size - 1];
    offsets.resize(16, 0);
    // The last forty stacks are to be expanded; small turns stay near the end, large ones lead far away.
    let mut segment = vec![0xff; bytes];
    segment[bytes - 10..].fill(0);
    let mut table = vec![0xff; bytes];
    let road = walked(&mut Rng::new(1), &fields, 12, true, &mut table);
    let table = Rc::new(table);
    let entries =
        road.iter().map(|stack| Call::ReadEntry { kind, n, table: table.clone(), index: paper::index(kind, n, stack) });
    let plans = [road[12], road[5]].map(|given| Call::Plan {
        kind,
        n,
        wanted,
        given,
        groups,
        table: table.clone(),
        list: vec![0xee; LIST],
    });
    let prices = plans.each_ref().map(|plan| plan.priced(Tariff::of(&[(1, 5, 1_100), (6, 11, 4_300)])));
    let job = fields.job(Phase::Blanking);
    // In the reverse level the last forty stacks are loaded, or swept by a list whose far bits are set.
    let reverse = Job { way: REVERSE, loaded: 0, ..level(0, 0) };
    let list_bytes = paper::list_bytes_of(u64::from(size));
    let mut unseen = vec![0x55; bytes];
    unseen[bytes - 10..].fill(0xff);
    let mut far_bits = vec![0; list_bytes];
    far_bits[1 << 20..].fill(0xff);
    [
        Call::Blank { job, j: 0, segment: vec![0x24; bytes] },
        Call::Settle { job: level(0, 6), j: 0, segment: vec![0xff; bytes], logs: offsets.clone() },
        Call::Load { job: reverse, b: 0, segment: segment.clone(), list: vec![0x5a; list_bytes] },
        Call::Sweep { job: reverse, j: 0, segment: unseen, list: far_bits },
        Call::Expand { job: level(size - 40, 0), j: 0, segment, logs: offsets },
    ]
    .into_iter()
    .chain(entries)
    .chain(plans)
    .chain(prices)
    .collect()
}

// All of them, the largest last.
pub fn calls() -> Vec<Call> {
    let orders = orders().into_iter().map(|(call, _)| call);
    let limits = LIMITS.iter().rev().flat_map(|limit| (limit.calls)());
    operations().into_iter().chain(orders).chain(limits).chain(beyond_a_mebibyte()).collect()
}
