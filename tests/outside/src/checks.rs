// What any one system is held to: the papers' examples, the numbering, whole builds against the plain search by every set, by either way and to
// the last level, prices against a bill, published diameters. Each check says what it did, or what was wrong.

use crate::bill;
use crate::build::{ordered, size_for, Build, Fields, Manner, Order, Refused, Ways, FORWARD_RISING};
use crate::cases::{right_groups, right_stack, right_tariff};
use crate::paper::{self, Measures, COATED, PLAIN};
use crate::rng::Rng;
use crate::search;
use crate::system::*;

pub type Checked = Result<String, String>;

// The bytes of the shortest turn list that Plan takes.
pub const LIST: usize = 254;

pub fn equal<T: PartialEq + std::fmt::Debug>(what: &str, got: T, right: T) -> Result<(), String> {
    if got == right {
        Ok(())
    } else {
        Err(format!("{what}: got {got:?} and not {right:?}"))
    }
}

pub fn stack(panes: &[i8]) -> Stack {
    let mut stack = NO_STACK;
    stack[..panes.len()].copy_from_slice(panes);
    stack
}

fn refused((refusal, call): Refused) -> String {
    format!("{call} refused {refusal}")
}

pub fn finished(system: &dyn System, fields: &Fields, manner: Manner, rng: &mut Rng) -> Result<Build, String> {
    let mut build =
        Build::begin(system, fields, rng).map_err(|refusal| format!("Begin refused {refusal}: {fields:?}"))?;
    build.finish(system, manner, rng).map_err(|wrong| format!("{}: {fields:?} {manner:?}", refused(wrong)))?;
    Ok(build)
}

// Fields with every turn.
pub fn full(kind: u8, n: u8, wanted: Stack, size: u32, room: u32) -> Fields {
    Fields { kind, n, wanted, groups: paper::full_set(kind, n), size, room }
}

// ---- The papers' examples

// All of document 01's "At the edges", the report's counts and plans, document 02's price, and what it says of sets, for one and for three panes.
pub fn examples(system: &dyn System) -> Checked {
    let mut rng = Rng::new(1);
    let mut examples = 0;
    let mut check = |result: Result<(), String>| {
        examples += 1;
        result
    };
    let index = |kind, panes: &[i8]| {
        let answer = system.index_of_stack(kind, panes.len() as u8, stack(panes));
        (answer.refusal, answer.index)
    };
    let at = |kind, n, index| {
        let answer = system.stack_at_index(kind, n, index);
        (answer.refusal, answer.stack)
    };
    let turn = |kind, panes: &[i8], k| {
        let answer = system.turn(kind, panes.len() as u8, stack(panes), k);
        (answer.refusal, answer.stack)
    };

    for (place, panes) in [[1, 2, 3], [1, 3, 2], [2, 1, 3], [2, 3, 1], [3, 1, 2], [3, 2, 1]].iter().enumerate() {
        check(equal("index of a plain stack of 3", index(PLAIN, panes), (0, place as u32)))?;
    }
    check(equal("plain index 5", at(PLAIN, 3, 5), (0, stack(&[3, 2, 1]))))?;
    check(equal("plain index 6", at(PLAIN, 3, 6), (4, NO_STACK)))?;
    check(equal("index of +2 -1", index(COATED, &[2, -1]), (0, 5)))?;
    check(equal("index of -1 -2", index(COATED, &[-1, -2]), (0, 3)))?;
    check(equal("turn 2 of +1 +2", turn(COATED, &[1, 2], 2), (0, stack(&[-2, -1]))))?;
    check(equal("plain turn 1", turn(PLAIN, &[1, 2], 1), (4, NO_STACK)))?;
    check(equal("plain 1 has no turn", (0..=255).all(|k| turn(PLAIN, &[1], k).0 == 4), true))?;

    let tables: [(u8, u8, u32, &[u8]); 5] = [
        (PLAIN, 1, 4, &[0xfc]),
        (COATED, 1, 4, &[0xf4]),
        (PLAIN, 3, 4, &[0x90, 0xf6]),
        (PLAIN, 3, 8, &[0x90, 0xf6]),
        (PLAIN, 3, 67_108_864, &[0x90, 0xf6]),
    ];
    for (kind, n, size, right) in tables {
        let fields = full(kind, n, ordered(n), size, 16);
        let build = finished(system, &fields, FORWARD_RISING, &mut rng)?;
        check(equal(&format!("table of {fields:?}"), build.table(), right.to_vec()))?;
    }
    let counts: [(u8, u8, &[u64]); 4] = [
        (COATED, 2, &[1, 2, 2, 2, 1]),
        (PLAIN, 4, &[1, 3, 6, 11, 3]),
        (PLAIN, 5, &[1, 4, 12, 35, 48, 20]),
        (PLAIN, 3, &[1, 2, 2, 1]),
    ];
    for (kind, n, right) in counts {
        let fields = full(kind, n, ordered(n), 4, 16);
        let build = finished(system, &fields, FORWARD_RISING, &mut rng)?;
        let levels = build.deepest().map_or(0, |deepest| deepest as usize + 1);
        check(equal(&format!("counts of {fields:?}"), build.job.counts[..levels].to_vec(), right.to_vec()))?;
        check(equal(&format!("later counts of {fields:?}"), build.job.counts[levels..].iter().sum(), 0))?;
    }

    let refusal_of_n = |kind, n: u8| {
        let wanted = ordered(n.min(12));
        let begin = full(kind, n, wanted, 67_108_864, 16).begin(system).refusal;
        [system.index_of_stack(kind, n, wanted).refusal, system.stack_at_index(kind, n, 0).refusal, begin]
    };
    check(equal("plain 12", refusal_of_n(PLAIN, 12), [0; 3]))?;
    check(equal("plain 13", refusal_of_n(PLAIN, 13), [2; 3]))?;
    check(equal("coated 10", refusal_of_n(COATED, 10), [0; 3]))?;
    check(equal("coated 11", refusal_of_n(COATED, 11), [2; 3]))?;
    let begin = |n, size, room| full(PLAIN, n, ordered(n), size, room).begin(system).refusal;
    check(equal("S 4", begin(3, 4, 16), 0))?;
    check(equal("S 6", begin(3, 6, 16), 5))?;
    check(equal("plain 6 with S 12", begin(6, 12, 16), 0))?;
    check(equal("plain 6 with S 8", begin(6, 8, 16), 5))?;
    check(equal("C 15", begin(3, 4, 15), 6))?;
    check(equal("C 16", begin(3, 4, 16), 0))?;
    check(equal("the largest C", begin(3, 4, 1_048_576), 0))?;
    check(equal("a larger C", begin(3, 4, 1_048_577), 6))?;
    check(equal("a larger S", begin(3, 67_108_868, 16), 5))?;
    // Sixty segments: the job names segment 59 and no segment 60.
    let sixty = full(PLAIN, 6, ordered(6), 12, 16).begin(system).job;
    check(equal("segment 59 of plain 6 with S 12", system.blank(&sixty, 59, &mut [0; 3]).refusal, 0))?;
    check(equal("segment 60 of plain 6 with S 12", system.blank(&sixty, 60, &mut [0; 3]).refusal, 9))?;

    // The report's input: plain 3, wanted 1 2 3, S 4, C 16.
    let fields = full(PLAIN, 3, ordered(3), 4, 16);
    let build = finished(system, &fields, FORWARD_RISING, &mut rng)?;
    check(equal("deepest of the report's build", build.deepest(), Some(3)))?;
    let table = build.table();
    let plan = |groups, table: &[u8], panes: &[i8]| {
        let mut list = [0xee; LIST];
        let answer = system.plan(PLAIN, 3, fields.wanted, stack(panes), groups, table, &mut list);
        let (turns, rest) = list.split_at(answer.turns as usize);
        (answer.refusal, turns.to_vec(), rest.iter().all(|&byte| byte == 0xee))
    };
    check(equal("plan of 3 1 2", plan(fields.groups, &table, &[3, 1, 2]), (0, vec![3, 2], true)))?;
    check(equal("plan of 1 3 2", plan(fields.groups, &table, &[1, 3, 2]), (0, vec![3, 2, 3], true)))?;
    check(equal("plan of 1 2 3", plan(fields.groups, &table, &[1, 2, 3]), (0, vec![], true)))?;
    check(equal("plan of 1 1 3", plan(fields.groups, &table, &[1, 1, 3]), (3, vec![], true)))?;

    // 1,250 for sizes 1 to 2 and for size 3.
    let tariff = Tariff::of(&[(1, 2, 1_250), (3, 3, 1_250)]);
    let mut list = [0xee; LIST];
    let priced = system.price(PLAIN, 3, fields.wanted, stack(&[3, 1, 2]), fields.groups, &table, &mut list, &tariff);
    check(equal("price of the plan 3, 2", priced, Priced { refusal: 0, turns: 2, pennies: 3 }))?;
    check(equal("the priced plan", &list[..3], &[3, 2, 0xee]))?;

    // Plain 1 has no turn: its only set is the empty one. Coated 1 has turn 1 alone.
    let begin = |kind, n, groups| Fields { groups, ..full(kind, n, ordered(n), 4, 16) }.begin(system).refusal;
    for (kind, n, groups, right) in [
        (PLAIN, 1, 0, 0),
        (PLAIN, 1, 1, 21),
        (COATED, 1, 0, 21),
        (COATED, 1, 1, 0),
        (COATED, 1, 2, 21),
        (PLAIN, 3, 0, 21),
        (PLAIN, 3, 0b001, 21),
        (PLAIN, 3, 0b010, 0),
        (PLAIN, 3, 0b1100, 21),
    ] {
        check(equal(&format!("begin of kind {kind}, n {n} and set {groups:#b}"), begin(kind, n, groups), right))?;
    }
    // Plain 3 by turn 2 alone: two stacks have a road.
    let short = Fields { groups: 0b010, ..fields };
    let build = finished(system, &short, FORWARD_RISING, &mut rng)?;
    let table = build.table();
    check(equal("table by turn 2", &table[..], &[0xdc, 0xff]))?;
    check(equal("deepest by turn 2", (build.deepest(), build.job.counts[..3].to_vec()), (Some(1), vec![1, 1, 0])))?;
    check(equal("plan of 2 1 3 by turn 2", plan(0b010, &table, &[2, 1, 3]), (0, vec![2], true)))?;
    check(equal("plan of 3 2 1 by turn 2", plan(0b010, &table, &[3, 2, 1]), (20, vec![], true)))?;
    // An entry of 3 is 20 for the wanted stack itself.
    check(equal("plan of 1 2 3 unseen", plan(0b010, &[0xff, 0xff], &[1, 2, 3]), (20, vec![], true)))?;

    // Level 1 of plain 3, reverse. The wanted stack is the first of segment 0, and a child of the third there and of the second of segment 1.
    let mut build = Build::begin(system, &fields, &mut rng).map_err(|refusal| refused((refusal, "Begin")))?;
    build.blank_all(system, Manner { order: Order::Rising, ways: Ways::Reverse }, &mut rng).map_err(refused)?;
    check(equal("a reverse level", (build.job.phase, build.job.way), (Phase::Level(1), REVERSE)))?;
    for (b, right) in [(1, [0b00]), (0, [0b01])] {
        build.load(system, b).map_err(refused)?;
        check(equal(&format!("list of segment {b}"), (build.list_of(b), build.job.loaded), (&right[..], b as u8)))?;
    }
    for (j, right, count) in [(1, 0xf7, 1), (0, 0xdc, 2)] {
        build.sweep(system, j).map_err(refused)?;
        check(equal(
            &format!("swept segment {j}"),
            (&build.segments[j as usize], build.job.counts[1]),
            (&vec![right], count),
        ))?;
    }
    check(equal("pairs swept", build.job.swept[..3].to_vec(), vec![0b11, 0, 0]))?;
    check(equal(
        "Close before the pairs of segment 1",
        build.close(system, Ways::Forward, &mut rng),
        Err((13, "Close")),
    ))?;
    Ok(format!("{examples} examples of documents 01 and 02"))
}

// ---- The numbering

// The next order in lexicographic order, found without any index.
fn next_order(panes: &mut [i8]) -> bool {
    let Some(step) = panes.windows(2).rposition(|pair| pair[0] < pair[1]) else { return false };
    let above = panes.iter().rposition(|&pane| pane > panes[step]).expect("the next place is larger");
    panes.swap(step, above);
    panes[step + 1..].reverse();
    true
}

// Every stack of plain 1 to 8 and coated 1 to 6 in order: index, its inverse, and each turn undone and seen by the plain search's own flip.
pub fn numbering(system: &dyn System) -> Checked {
    let (mut stacks, mut turns) = (0, 0);
    for (kind, most) in [(PLAIN, 8), (COATED, 6)] {
        for n in 1..=most {
            let mut order = ordered(n);
            let mut place = 0;
            loop {
                for coats in 0..if kind == COATED { 1 << n } else { 1u32 } {
                    let mut panes = order;
                    (0..n as usize)
                        .filter(|p| coats >> (n as usize - 1 - p) & 1 == 1)
                        .for_each(|p| panes[p] = -panes[p]);
                    equal("index", system.index_of_stack(kind, n, panes), Indexed { refusal: 0, index: place })?;
                    equal("stack", system.stack_at_index(kind, n, place), Stacked { refusal: 0, stack: panes })?;
                    for k in paper::turns(kind, n) {
                        let mut flipped = panes;
                        search::flip(kind == COATED, &mut flipped, k as usize);
                        equal("turn", system.turn(kind, n, panes, k), Stacked { refusal: 0, stack: flipped })?;
                        equal("turn back", system.turn(kind, n, flipped, k), Stacked { refusal: 0, stack: panes })?;
                        turns += 1;
                    }
                    stacks += 1;
                    place += 1;
                }
                if !next_order(&mut order[..n as usize]) {
                    break;
                }
            }
            equal("count of stacks", u64::from(place), paper::count_of_stacks(kind, n))?;
            equal("index past the last", system.stack_at_index(kind, n, place).refusal, 4)?;
        }
    }
    Ok(format!("{stacks} stacks in lexicographic order, {turns} turns there and back"))
}

// ---- Whole builds

const ANY_MANNER: Manner = Manner { order: Order::Shuffled, ways: Ways::Mixed };
const MANNERS: [Manner; 4] = [
    FORWARD_RISING,
    Manner { order: Order::Falling, ways: Ways::Forward },
    Manner { order: Order::Falling, ways: Ways::Reverse },
    ANY_MANNER,
];

// Plain 1 to 7 and coated 1 to 5, several wanted stacks, S, C, orders and ways: entry by entry and count by count against
// the plain search, then the plan of every stack and its price; and Build the whole table, once for each S and C.
pub fn builds(system: &dyn System, seed: u64) -> Checked {
    let mut rng = Rng::new(seed);
    let (mut builds, mut tables, mut entries, mut plans) = (0, 0, 0, 0);
    for (kind, most) in [(PLAIN, 7), (COATED, 5)] {
        for n in 1..=most {
            let stacks = paper::count_of_stacks(kind, n);
            let reversed = std::array::from_fn(|p| if p < n as usize { n as i8 - p as i8 } else { 0 });
            for wanted in [ordered(n), reversed, right_stack(&mut rng, kind, n), right_stack(&mut rng, kind, n)] {
                let distances = full(kind, n, wanted, 4, 16).distances();
                equal("sum of counts", distances.counts.iter().sum(), stacks)?;
                for (size, room) in [
                    (size_for(stacks, 64), 16),
                    (size_for(stacks, 64), 37),
                    (size_for(stacks, 7), 16),
                    (size_for(stacks, 2), 1000),
                    (size_for(stacks, 1), 16),
                    (67_108_864, 16),
                ] {
                    let fields = full(kind, n, wanted, size, room);
                    let whole = whole(system, &fields, &mut rng)?;
                    whole.agrees_with(&distances).map_err(|wrong| format!("{wrong}: {fields:?} as a whole"))?;
                    tables += 1;
                    // Reverse levels take long where many stacks are tried for many segments: one C must do there, and what `reverse` builds.
                    let is_short = stacks * whole.measures.segments < 100_000;
                    let is_tried = |manner: &Manner| match manner.ways {
                        Ways::Forward => true,
                        Ways::Alternating | Ways::Mixed => is_short || room == 16,
                        Ways::Reverse => is_short,
                    };
                    for manner in MANNERS.into_iter().filter(is_tried) {
                        let build = finished(system, &fields, manner, &mut rng)?;
                        build.agrees_with(&distances).map_err(|wrong| format!("{wrong}: {fields:?} {manner:?}"))?;
                        builds += 1;
                        entries += stacks;
                        if manner == ANY_MANNER && room == 16 {
                            plans += plans_of(system, &build, &distances, 1, &mut rng)?;
                        }
                    }
                }
            }
        }
    }
    let made = format!("{builds} builds and {tables} whole tables against the plain search");
    Ok(format!("{made}, {entries} entries, {plans} plans, each with its price"))
}

// The table that Build the whole table makes, in buffers that hold anything.
fn whole(system: &dyn System, fields: &Fields, rng: &mut Rng) -> Result<Build, String> {
    let measures = fields.measures().map_err(|refusal| format!("refused {refusal}: {fields:?}"))?;
    let (mut table, mut logs) = (rng.bytes(paper::bytes_of(measures.stacks)), rng.words(measures.log_numbers()));
    let mut list = rng.bytes(measures.list_bytes_of(0));
    let answer = fields.build_table(system, &mut table, &mut logs, &mut list);
    equal(&format!("refusal of {fields:?}"), answer.refusal, 0)?;
    Ok(Build { job: answer.job, measures, segments: vec![table], logs, list })
}

// The plan of every stack, or of one in so many.
pub fn plans_of(
    system: &dyn System,
    build: &Build,
    distances: &search::Distances,
    step: usize,
    rng: &mut Rng,
) -> Result<u64, String> {
    let table = build.table();
    let mut plans = 0;
    for (index, &fewest) in distances.turns.iter().enumerate().step_by(step) {
        let Job { kind, n, wanted, groups, .. } = build.job;
        let given = paper::stack_at(kind, n, index as u32);
        let tariff = right_tariff(rng, n);
        plan_is_right(system, &build.job, given, &table, fewest, &tariff)
            .map_err(|wrong| format!("{wrong}: {given:?} to {wanted:?} by {groups:#b} and {tariff:?}"))?;
        plans += 1;
    }
    Ok(plans)
}

// A plan has the fewest turns, all of the set, and arrives; without a road it is refused 20. Price leaves the same list, and its pennies are the
// bill's.
fn plan_is_right(
    system: &dyn System,
    job: &Job,
    given: Stack,
    table: &[u8],
    fewest: Option<u8>,
    tariff: &Tariff,
) -> Result<(), String> {
    let Job { kind, n, wanted, groups, .. } = *job;
    let (mut list, mut priced_list) = ([0xee; LIST], [0xee; LIST]);
    let right = Planned { refusal: if fewest.is_some() { 0 } else { 20 }, turns: fewest.map_or(0, u32::from) };
    equal("plan", system.plan(kind, n, wanted, given, groups, table, &mut list), right)?;
    let (plan, rest) = list.split_at(right.turns as usize);
    let is_of_set = |k: &u8| (1..=n).contains(k) && groups & 1 << (k - 1) != 0;
    equal("turns of the set", plan.iter().all(is_of_set), true)?;
    equal("the rest of the list as it was", rest.iter().all(|&byte| byte == 0xee), true)?;
    let mut at = given;
    plan.iter().for_each(|&k| search::flip(kind == COATED, &mut at[..n as usize], k as usize));
    equal("arrival", at == wanted, fewest.is_some())?;
    let priced = system.price(kind, n, wanted, given, groups, table, &mut priced_list, tariff);
    equal("price", (priced.refusal, priced.turns), (right.refusal, right.turns))?;
    equal("list of the price", priced_list == list, true)?;
    equal("pennies of the bill", bill::is_rounded(priced.pennies, bill::sum(tariff, plan)), true)
}

// ---- Limited sets

// Every set that a kind and n can have; plain 1 has the empty one alone.
fn sets(kind: u8, n: u8) -> Vec<Groups> {
    let smallest = if kind == PLAIN { 2 } else { 1 };
    let all = (0..1_u32 << n).filter(|groups| kind == COATED || groups & 1 == 0);
    all.filter(|&groups| groups != 0 || n < smallest).collect()
}

// Whole builds by every set of plain 1 to 5 and coated 1 to 4, call by call and as a whole, with the plan of every stack.
pub fn limited(system: &dyn System, seed: u64) -> Checked {
    let mut rng = Rng::new(seed);
    let (mut limits, mut builds, mut plans, mut without) = (0, 0, 0, 0);
    for (kind, most) in [(PLAIN, 5), (COATED, 4)] {
        for n in 1..=most {
            let stacks = paper::count_of_stacks(kind, n);
            for groups in sets(kind, n) {
                limits += 1;
                for (wanted, segments, room) in [(ordered(n), 64, 16), (right_stack(&mut rng, kind, n), 5, 20)] {
                    let fields = Fields { kind, n, wanted, groups, size: size_for(stacks, segments), room };
                    let distances = fields.distances();
                    let whole = whole(system, &fields, &mut rng)?;
                    whole.agrees_with(&distances).map_err(|wrong| format!("{wrong}: {fields:?} as a whole"))?;
                    let build = finished(system, &fields, ANY_MANNER, &mut rng)?;
                    build.agrees_with(&distances).map_err(|wrong| format!("{wrong}: {fields:?}"))?;
                    builds += 2;
                    plans += plans_of(system, &build, &distances, 1, &mut rng)?;
                    without += distances.turns.iter().filter(|turns| turns.is_none()).count();
                }
            }
        }
    }
    Ok(format!("{limits} sets, {builds} builds against the plain search, {plans} plans, {without} of them refused 20"))
}

// A frame: the kind and n of its stacks, and the sizes that it lifts.
pub type Frame = (u8, u8, &'static [u8]);

// Frames whose builds go past level 31; the first has no road from half of its stacks. No set of plain 1 to 9 goes deeper than the second, and none
// of coated 1 to 7 deeper than the third: one that needs 255 turns is too large to be built here, so that `late` meets the last level.
pub const DEEP: &[Frame] = &[(PLAIN, 9, &[4, 5, 9]), (PLAIN, 9, &[2, 7, 9]), (COATED, 7, &[2, 5, 7])];

// A whole build by each frame, with the plan of one stack in 17.
pub fn deep(system: &dyn System, frames: &[Frame]) -> Checked {
    let mut rng = Rng::new(1);
    let mut plans = 0;
    let mut levels = Vec::new();
    for &(kind, n, sizes) in frames {
        let stacks = paper::count_of_stacks(kind, n);
        let groups = paper::set_of(sizes.iter().copied());
        let fields =
            Fields { kind, n, wanted: right_stack(&mut rng, kind, n), groups, size: size_for(stacks, 9), room: 4096 };
        let distances = fields.distances();
        let build = whole(system, &fields, &mut rng)?;
        build.agrees_with(&distances).map_err(|wrong| format!("{wrong}: {fields:?}"))?;
        equal("past level 31", distances.deepest() > 31, true)?;
        plans += plans_of(system, &build, &distances, 17, &mut rng)?;
        levels.push(distances.deepest().to_string());
    }
    Ok(format!("whole builds to levels {}, {plans} plans", levels.join(", ")))
}

// ---- Reverse levels

// Builds with every level reverse, from one segment to 64, also with last bytes that are not full, by every turn and by a limited set.
pub fn reverse(system: &dyn System, seed: u64) -> Checked {
    let mut rng = Rng::new(seed);
    let (mut builds, mut pairs) = (0, 0);
    for (kind, n, size) in [
        (PLAIN, 1, 4),
        (COATED, 1, 4),
        (PLAIN, 2, 4),
        (PLAIN, 3, 4),
        (PLAIN, 4, 24),
        (PLAIN, 4, 20),
        (COATED, 3, 20),
        (PLAIN, 5, 4),
        (COATED, 5, 60),
    ] {
        for groups in [paper::full_set(kind, n), right_groups(&mut rng, kind, n)] {
            let fields = Fields { groups, ..full(kind, n, right_stack(&mut rng, kind, n), size, 16) };
            pairs += reverse_build(system, &fields, &mut rng).map_err(|wrong| format!("{wrong}: {fields:?}"))?;
            builds += 1;
        }
    }
    Ok(format!("{builds} builds with every level reverse against the plain search, {pairs} pairs swept, each once"))
}

// How many pairs it sweeps: in each level the first after a Load, each once, and none of them too few for Close.
fn reverse_build(system: &dyn System, fields: &Fields, rng: &mut Rng) -> Result<u64, String> {
    let manner = Manner { order: Order::Shuffled, ways: Ways::Reverse };
    let mut build = Build::begin(system, fields, rng).map_err(|refusal| refused((refusal, "Begin")))?;
    build.blank_all(system, manner, rng).map_err(refused)?;
    let mut pairs = 0;
    while build.deepest().is_none() {
        equal("Sweep with nothing loaded", build.sweep(system, 0), Err((22, "Sweep")))?;
        for (b, j) in build.pairs(manner.order, rng) {
            equal("Close before the last pair", build.close(system, manner.ways, rng), Err((13, "Close")))?;
            build.load_once(system, b).map_err(refused)?;
            build.sweep(system, j).map_err(refused)?;
            equal("Sweep of a swept pair", build.sweep(system, j), Err((11, "Sweep")))?;
            pairs += 1;
        }
        build.close(system, manner.ways, rng).map_err(refused)?;
        equal("way", build.job.way, REVERSE)?;
    }
    build.agrees_with(&fields.distances())?;
    Ok(pairs)
}

// ---- The last level

// Builds whose levels all come later: Level 1 of a blanked build becomes a level that leaves the same remainder by 3. Counts and entries are then
// those of the plain search, as far as there are levels; past them Close is refused 14, and no call carries on.
pub fn late(system: &dyn System) -> Checked {
    let mut rng = Rng::new(1);
    let (mut builds, mut refused) = (0, 0);
    for (kind, most) in [(PLAIN, 4), (COATED, 3)] {
        for (n, first) in (1..=most).flat_map(|n| [(n, 31), (n, 244), (n, 250), (n, 253)]) {
            for groups in sets(kind, n) {
                let stacks = paper::count_of_stacks(kind, n);
                let wanted = right_stack(&mut rng, kind, n);
                let fields = Fields { kind, n, wanted, groups, size: size_for(stacks, 3), room: 16 };
                refused += u64::from(
                    late_build(system, &fields, first, &mut rng)
                        .map_err(|wrong| format!("{wrong}: {fields:?} from level {first}"))?,
                );
                builds += 1;
            }
        }
    }
    Ok(format!("{builds} builds from level 31, 244, 250 or 253 on, {refused} of them refused 14"))
}

// Whether it is refused 14.
fn late_build(system: &dyn System, fields: &Fields, first: u8, rng: &mut Rng) -> Result<bool, String> {
    let mut build = Build::begin(system, fields, rng).map_err(|refusal| refused((refusal, "Begin")))?;
    build.blank_all(system, ANY_MANNER, rng).map_err(refused)?;
    equal("phase", build.job.phase, Phase::Level(1))?;
    build.job.phase = Phase::Level(first);
    let ended = loop {
        match build.level(system, ANY_MANNER, rng) {
            Ok(()) if build.deepest().is_some() => break false,
            Ok(()) => {}
            Err((14, "Close")) => break true,
            Err(other) => return Err(refused(other)),
        }
    };

    let distances = fields.distances();
    let shift = first as usize - 1;
    let reached = |turns: usize| shift + turns < 256;
    let mut counts = [0; 256];
    distances.counts.iter().enumerate().filter(|(turns, _)| reached(*turns)).for_each(|(turns, &count)| {
        counts[if turns == 0 { 0 } else { shift + turns }] = count;
    });
    equal("counts", build.job.counts, counts)?;
    let entry = |turns: &Option<u8>| turns.filter(|&turns| reached(turns as usize)).map_or(3, |turns| turns % 3);
    let table = build.table();
    let entries: Vec<u8> = (0..distances.turns.len()).map(|i| paper::entry_at(&table, i as u64)).collect();
    equal("entries", entries, distances.turns.iter().map(entry).collect())?;

    let last = shift + distances.deepest();
    equal("refused 14", ended, last >= 255)?;
    if !ended {
        equal("phase", build.job.phase, Phase::Finished(last as u8))?;
        return Ok(false);
    }
    equal("phase", build.job.phase, Phase::Level(255))?;
    let Measures { segments, .. } = build.measures;
    let reverse = build.job.way == REVERSE;
    for j in 0..segments as u32 {
        let (mut segment, mut logs) = (build.segments[j as usize].clone(), build.logs.clone());
        let refusals = [
            system.blank(&build.job, j, &mut segment).refusal,
            system.expand(&build.job, j, &mut segment, &mut logs).refusal,
            system.close(&build.job, FORWARD).refusal,
            system.close(&build.job, REVERSE).refusal,
        ];
        equal("refusals of Blank, Expand and Close", refusals, [8, if reverse { 8 } else { 11 }, 14, 14])?;
        // Forward there is nothing to settle, reverse no pair to sweep, whatever is loaded.
        let settled = system.settle(&build.job, j, &mut segment, &logs);
        equal("settled", settled, Answer { refusal: if reverse { 8 } else { 0 }, job: build.job })?;
        equal("segment", &segment, &build.segments[j as usize])?;
        let loaded = build.load(system, j);
        equal("loaded", loaded, if reverse { Ok(()) } else { Err((8, "Load")) })?;
        let swept = build.sweep(system, j);
        equal("swept", swept, Err((if reverse { 11 } else { 8 }, "Sweep")))?;
    }
    Ok(true)
}

// ---- Diameters

// Source document 000, Table 1: the diameter for each n, plain and coated.
pub const PUBLISHED: [[u8; 12]; 2] =
    [[0, 1, 3, 4, 5, 7, 8, 9, 10, 11, 13, 14], [1, 4, 6, 8, 10, 12, 14, 15, 17, 18, 19, 21]];

// Whole builds up to these n have the published diameter as deepest level, and counts that add to N.
pub fn diameters(system: &dyn System, plain_to: u8, coated_to: u8) -> Checked {
    let mut rng = Rng::new(1);
    for (kind, most) in [(PLAIN, plain_to), (COATED, coated_to)] {
        for n in 1..=most {
            let stacks = paper::count_of_stacks(kind, n);
            let fields = full(kind, n, ordered(n), size_for(stacks, 12), 4096);
            let build = finished(system, &fields, FORWARD_RISING, &mut rng)?;
            equal(&format!("diameter of {fields:?}"), build.deepest(), Some(PUBLISHED[kind as usize][n as usize - 1]))?;
            equal(&format!("sum of counts of {fields:?}"), build.job.counts.iter().sum(), stacks)?;
        }
    }
    Ok(format!("published diameters of plain 1 to {plain_to} and coated 1 to {coated_to}"))
}
