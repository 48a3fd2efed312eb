// Whole builds with their deepest levels and their stacks that have a road written out: in several orders of the segments, by either way and by
// both in turn. Those against the plain search are compared entry by entry, count by count and plan by plan too.

use crate::build::{ordered, Fields, Manner, Order, Ways};
use crate::checks::{equal, finished, full, plans_of, Checked};
use crate::paper::{self, COATED, PLAIN};
use crate::rng::Rng;
use crate::system::*;

use Order::{Falling, OddFirst, Rising};
use Ways::{Alternating, Forward, Reverse};

type Held = Result<(), String>;

// The build, where it has this deepest level and so many stacks with a road; then the plans from one stack in so many.
fn against_search(
    system: &dyn System,
    fields: &Fields,
    manner: Manner,
    (deepest, roads): (u8, u64),
    step: usize,
    rng: &mut Rng,
) -> Held {
    let wrong = |wrong: String| format!("{wrong}: {fields:?} {manner:?}");
    let build = finished(system, fields, manner, rng)?;
    let measured = (build.deepest(), build.job.counts.iter().sum());
    equal("deepest level and roads", measured, (Some(deepest), roads)).map_err(wrong)?;
    let distances = fields.distances();
    build.agrees_with(&distances).map_err(wrong)?;
    plans_of(system, &build, &distances, step, rng).map(drop).map_err(wrong)
}

// By every turn: kind, n, the set, the wanted stack's index, S and the order, then the deepest level and the roads.
const FULL: [(u8, u8, Groups, u32, u32, Order, u8, u64); 10] = [
    (PLAIN, 1, 0, 0, 4, Rising, 0, 1),
    (PLAIN, 6, 62, 0, 12, Rising, 7, 720),
    (PLAIN, 6, 62, 433, 720, Falling, 7, 720),
    (PLAIN, 7, 126, 0, 80, Falling, 8, 5040),
    (PLAIN, 7, 126, 4321, 1000, OddFirst, 8, 5040),
    (COATED, 1, 1, 1, 4, Rising, 1, 2),
    (COATED, 4, 15, 0, 8, Rising, 8, 384),
    (COATED, 4, 15, 383, 100, Falling, 8, 384),
    (COATED, 5, 31, 0, 60, OddFirst, 10, 3840),
    (COATED, 5, 31, 2024, 1280, Falling, 10, 3840),
];

// Every set of plain 4 and of coated 3, to every wanted stack.
const EACH: [(u8, u8, Groups, u8, u64); 14] = [
    (PLAIN, 4, 0b0010, 1, 2),
    (PLAIN, 4, 0b0100, 1, 2),
    (PLAIN, 4, 0b0110, 3, 6),
    (PLAIN, 4, 0b1000, 1, 2),
    (PLAIN, 4, 0b1010, 4, 8),
    (PLAIN, 4, 0b1100, 4, 8),
    (PLAIN, 4, 0b1110, 4, 24),
    (COATED, 3, 0b001, 1, 2),
    (COATED, 3, 0b010, 1, 2),
    (COATED, 3, 0b011, 4, 8),
    (COATED, 3, 0b100, 1, 2),
    (COATED, 3, 0b101, 4, 8),
    (COATED, 3, 0b110, 6, 12),
    (COATED, 3, 0b111, 6, 48),
];

// Sets whose deepest level is above 31, with C 1,024. By the second, half of the stacks have no road. The last one is of both ways, in one segment,
// as a reverse level tries each unseen stack once for each.
const DEEP: [(u8, u8, Groups, u32, u32, Manner, u8, u64); 4] = [
    (PLAIN, 9, 322, 0, 30_240, Manner { order: Falling, ways: Forward }, 42, 362_880),
    (PLAIN, 9, 280, 100_000, 60_480, Manner { order: OddFirst, ways: Forward }, 34, 181_440),
    (COATED, 7, 82, 300_000, 64_512, Manner { order: Rising, ways: Forward }, 55, 645_120),
    (PLAIN, 9, 322, 0, 362_880, Manner { order: Rising, ways: Alternating }, 42, 362_880),
];

pub fn builds(system: &dyn System) -> Checked {
    let mut rng = Rng::new(1);
    let mut held = 0;
    for ways in [Forward, Reverse, Alternating] {
        for (kind, n, groups, wanted, size, order, deepest, roads) in FULL {
            let fields = Fields { kind, n, wanted: paper::stack_at(kind, n, wanted), groups, size, room: 16 };
            against_search(system, &fields, Manner { order, ways }, (deepest, roads), 1, &mut rng)?;
            held += 1;
        }
        for (kind, n, groups, deepest, roads) in EACH {
            for wanted in 0..paper::count_of_stacks(kind, n) as u32 {
                for (size, order) in [(4, OddFirst), (20, Falling), (48, Rising)] {
                    let fields = Fields { kind, n, wanted: paper::stack_at(kind, n, wanted), groups, size, room: 16 };
                    against_search(system, &fields, Manner { order, ways }, (deepest, roads), 1, &mut rng)?;
                    held += 1;
                }
            }
        }
    }
    for (kind, n, groups, wanted, size, manner, deepest, roads) in DEEP {
        let fields = Fields { kind, n, wanted: paper::stack_at(kind, n, wanted), groups, size, room: 1024 };
        against_search(system, &fields, manner, (deepest, roads), 31, &mut rng)?;
        held += 1;
    }
    Ok(format!("{held} builds with their deepest levels and roads as numbers, against the plain search"))
}

// Source document 000, Table 1: kind, n, S, C and the order, then the segments, the deepest level and the stacks.
const FORWARD_ROWS: [(u8, u8, u32, u32, Order, u64, u8, u64); 24] = [
    (PLAIN, 1, 4, 16, Rising, 1, 0, 1),
    (PLAIN, 2, 4, 16, Falling, 1, 1, 2),
    (PLAIN, 3, 4, 16, Rising, 2, 3, 6),
    (PLAIN, 4, 4, 16, Falling, 6, 4, 24),
    (PLAIN, 5, 4, 17, OddFirst, 30, 5, 120),
    (PLAIN, 6, 12, 16, Rising, 60, 7, 720),
    (PLAIN, 6, 12, 16, Falling, 60, 7, 720),
    (PLAIN, 7, 80, 16, Falling, 63, 8, 5040),
    (PLAIN, 7, 5040, 16, Rising, 1, 8, 5040),
    (PLAIN, 8, 640, 16, Rising, 63, 9, 40_320),
    (PLAIN, 8, 640, 1024, Falling, 63, 9, 40_320),
    (PLAIN, 8, 640, 100, OddFirst, 63, 9, 40_320),
    (PLAIN, 8, 13_440, 16, Falling, 3, 9, 40_320),
    (PLAIN, 8, 67_108_864, 65_536, Rising, 1, 9, 40_320),
    (COATED, 1, 4, 16, Rising, 1, 1, 2),
    (COATED, 2, 4, 16, Falling, 2, 4, 8),
    (COATED, 3, 4, 16, Rising, 12, 6, 48),
    (COATED, 4, 8, 16, Falling, 48, 8, 384),
    (COATED, 5, 64, 16, OddFirst, 60, 10, 3840),
    (COATED, 5, 1000, 4096, Rising, 4, 10, 3840),
    (COATED, 6, 720, 16, Rising, 64, 12, 46_080),
    (COATED, 6, 720, 16, Falling, 64, 12, 46_080),
    (COATED, 6, 15_360, 20_000, Falling, 3, 12, 46_080),
    (COATED, 6, 46_080, 16, Rising, 1, 12, 46_080),
];

// The same from the other side, and by both ways in turn, with C 16.
const OTHER_ROWS: [(u8, u8, u32, Manner, u64, u8, u64); 14] = [
    (PLAIN, 1, 4, Manner { order: Rising, ways: Reverse }, 1, 0, 1),
    (PLAIN, 3, 4, Manner { order: Rising, ways: Reverse }, 2, 3, 6),
    (PLAIN, 6, 12, Manner { order: OddFirst, ways: Reverse }, 60, 7, 720),
    (PLAIN, 8, 13_440, Manner { order: Falling, ways: Reverse }, 3, 9, 40_320),
    (COATED, 2, 4, Manner { order: Falling, ways: Reverse }, 2, 4, 8),
    (COATED, 4, 8, Manner { order: Rising, ways: Reverse }, 48, 8, 384),
    (COATED, 6, 46_080, Manner { order: Rising, ways: Reverse }, 1, 12, 46_080),
    (PLAIN, 2, 4, Manner { order: Rising, ways: Alternating }, 1, 1, 2),
    (PLAIN, 7, 80, Manner { order: Falling, ways: Alternating }, 63, 8, 5040),
    (PLAIN, 8, 67_108_864, Manner { order: Rising, ways: Alternating }, 1, 9, 40_320),
    (COATED, 3, 4, Manner { order: OddFirst, ways: Alternating }, 12, 6, 48),
    (COATED, 5, 1000, Manner { order: Falling, ways: Alternating }, 4, 10, 3840),
    (COATED, 5, 60, Manner { order: Rising, ways: Alternating }, 64, 10, 3840),
    (COATED, 6, 15_360, Manner { order: Rising, ways: Alternating }, 3, 12, 46_080),
];

// Counts, tables and deepest levels of builds of document 01 and of small sets by each way, and the published diameters by these rows.
pub fn rows(system: &dyn System) -> Checked {
    let mut rng = Rng::new(1);
    let mut held = 0;
    let forward = FORWARD_ROWS.map(|(kind, n, size, room, order, segments, deepest, stacks)| {
        (kind, n, size, room, Manner { order, ways: Forward }, segments, deepest, stacks)
    });
    let others = OTHER_ROWS.map(|(kind, n, size, manner, segments, deepest, stacks)| {
        (kind, n, size, 16, manner, segments, deepest, stacks)
    });
    for (kind, n, size, room, manner, segments, deepest, stacks) in forward.into_iter().chain(others) {
        let fields = full(kind, n, ordered(n), size, room);
        let build = finished(system, &fields, manner, &mut rng)?;
        let measured = (build.segments.len() as u64, build.deepest(), build.job.counts.iter().sum());
        equal(&format!("{fields:?} {manner:?}"), measured, (segments, Some(deepest), stacks))?;
        held += 1;
    }
    for (kind, n, groups, ways, counts) in COUNTS {
        let fields = Fields { groups, ..full(kind, n, ordered(n), 4, 16) };
        let build = finished(system, &fields, Manner { order: Rising, ways }, &mut rng)?;
        let levels = build.deepest().map_or(0, usize::from) + 1;
        equal(&format!("counts of {fields:?} {ways:?}"), &build.job.counts[..levels], counts)?;
        held += 1;
    }
    for (groups, ways, table) in TABLES {
        let fields = Fields { groups, ..full(PLAIN, 3, ordered(3), 4, 16) };
        let build = finished(system, &fields, Manner { order: Rising, ways }, &mut rng)?;
        equal(&format!("table of {fields:?} {ways:?}"), build.table(), table.to_vec())?;
        held += 1;
    }
    Ok(format!("{held} builds with their counts, tables or deepest levels as numbers"))
}

// A set without the largest groups has the counts of fewer panes.
const COUNTS: [(u8, u8, Groups, Ways, &[u64]); 8] = [
    (PLAIN, 4, 14, Forward, &[1, 3, 6, 11, 3]),
    (PLAIN, 5, 30, Forward, &[1, 4, 12, 35, 48, 20]),
    (PLAIN, 4, 6, Forward, &[1, 2, 2, 1]),
    (PLAIN, 5, 14, Forward, &[1, 3, 6, 11, 3]),
    (COATED, 3, 3, Forward, &[1, 2, 2, 2, 1]),
    (PLAIN, 4, 14, Reverse, &[1, 3, 6, 11, 3]),
    (PLAIN, 5, 30, Alternating, &[1, 4, 12, 35, 48, 20]),
    (COATED, 3, 3, Reverse, &[1, 2, 2, 2, 1]),
];

// Of plain 3 in two segments.
const TABLES: [(Groups, Ways, [u8; 2]); 7] = [
    (2, Forward, [0xdc, 0xff]),
    (4, Forward, [0xfc, 0xf7]),
    (6, Forward, [0x90, 0xf6]),
    (2, Reverse, [0xdc, 0xff]),
    (4, Alternating, [0xfc, 0xf7]),
    (6, Reverse, [0x90, 0xf6]),
    (6, Alternating, [0x90, 0xf6]),
];
