// Limits, refusals and what calls leave, with the papers' numbers written out: no model is asked, which could err alike. A row is a call, and the
// last numbers of a row are what is due.

use std::fmt::Debug;

use crate::build::{ordered, Fields};
use crate::checks::{equal, stack, Checked, LIST};
use crate::deliberate::SMALL;
use crate::paper::{COATED, PLAIN};
use crate::search;
use crate::system::*;

type Held = Result<(), String>;

struct Rows<'a> {
    system: &'a dyn System,
    held: u64,
}

// Every row, by one system.
pub fn rows(system: &dyn System) -> Checked {
    let mut rows = Rows { system, held: 0 };
    for of in [
        numbering,
        turns,
        begins,
        sets,
        begin_orders,
        coherence,
        swept_of_many,
        closes_at,
        last_forward,
        last_reverse,
        blanks,
        expands,
        settles,
        looks,
        closes,
        loads,
        load_orders,
        sweeps,
        sweep_orders,
        sweeps_by_bits,
        reverse_closes,
        other_calls,
        reads,
        plans,
        spoilt_plans,
        plan_orders,
        prices,
        plan_before_price,
        longest_plans,
    ] {
        of(&mut rows)?;
    }
    Ok(format!("{} rows with the papers' numbers", rows.held))
}

impl Rows<'_> {
    fn row<T: PartialEq + Debug>(&mut self, what: impl Debug, got: T, due: T) -> Held {
        self.held += 1;
        equal(&format!("{what:?}"), got, due)
    }

    fn begun(&self, fields: &Fields) -> Job {
        fields.begin(self.system).job
    }

    // The job of two segments, of 4 stacks and of 2, whose logs have 16 places, in a phase.
    fn small(&self, phase: Phase) -> Job {
        Job { phase, ..self.begun(&SMALL) }
    }

    // What Look at segment 0 of a small job answers: the number, and how much it shows.
    fn looked(&mut self, what: impl Debug, job: Job, due: (u8, usize)) -> Held {
        let looked = self.system.look(&job, 0, &[0; 32]);
        self.row(what, (looked.number, looked.len), due)
    }
}

// ---- Stacks, turns and indices

fn numbering(rows: &mut Rows) -> Held {
    let system = rows.system;
    for (kind, n, refusal) in [
        (PLAIN, 0, 2),
        (PLAIN, 1, 0),
        (PLAIN, 12, 0),
        (PLAIN, 13, 2),
        (COATED, 0, 2),
        (COATED, 10, 0),
        (COATED, 11, 2),
        (2, 3, 1),
    ] {
        let wanted = ordered(n);
        rows.row(("index of the ordered stack", kind, n), system.index_of_stack(kind, n, wanted).refusal, refusal)?;
    }
    let with_last = [1, 2, 3, 0, 0, 0, 0, 0, 0, 0, 0, 4];
    for (given, refusal) in [(stack(&[1, 1, 3]), 3), (stack(&[1, 2, 4]), 3), (stack(&[1, -2, 3]), 3), (with_last, 3)] {
        rows.row(("index", given), system.index_of_stack(PLAIN, 3, given).refusal, refusal)?;
    }
    for (kind, n, index, refusal) in [
        (PLAIN, 3, 5, 0),
        (PLAIN, 3, 6, 4),
        (PLAIN, 12, 479_001_599, 0),
        (PLAIN, 12, 479_001_600, 4),
        (COATED, 10, 3_715_891_199, 0),
        (COATED, 10, 3_715_891_200, 4),
    ] {
        rows.row(("stack at", kind, n, index), system.stack_at_index(kind, n, index).refusal, refusal)?;
    }
    Ok(())
}

fn turns(rows: &mut Rows) -> Held {
    for (kind, k, refusal) in
        [(PLAIN, 1, 4), (PLAIN, 2, 0), (PLAIN, 3, 0), (PLAIN, 4, 4), (COATED, 0, 4), (COATED, 1, 0), (COATED, 4, 4)]
    {
        rows.row(("turn of three", kind, k), rows.system.turn(kind, 3, ordered(3), k).refusal, refusal)?;
    }
    Ok(())
}

// ---- Begin

// S, C and the number of segments: the last one is refused only for the empty part, 10, and the one past it 9.
fn begins(rows: &mut Rows) -> Held {
    for (n, groups, size, room, refusal, segments) in [
        (3, 6, 0, 16, 5, 0),
        (3, 6, 4, 16, 0, 2),
        (3, 6, 6, 16, 5, 0),
        (12, 4094, 67_108_864, 16, 0, 8),
        (12, 4094, 67_108_868, 16, 5, 0),
        (6, 62, 12, 16, 0, 60),
        (6, 62, 8, 16, 5, 0),
        (8, 254, 632, 16, 0, 64),
        (8, 254, 628, 16, 5, 0),
        (3, 6, 4, 15, 6, 0),
        (3, 6, 4, 1_048_576, 0, 2),
        (3, 6, 4, 1_048_577, 6, 0),
    ] {
        let begun = rows.system.begin(PLAIN, n, ordered(n), groups, size, room);
        rows.row(("begin", n, size, room), begun.refusal, refusal)?;
        for j in 0..100 {
            let named = if j < segments { 10 } else { 9 };
            let due = if refusal == 0 { named } else { 7 };
            equal(&format!("segment {j} of {n} by {size}"), rows.system.blank(&begun.job, j, &mut []).refusal, due)?;
        }
    }
    Ok(())
}

// A set is named by its number: size k is 2^(k-1).
fn sets(rows: &mut Rows) -> Held {
    let tried: [(u8, u8, &[(Groups, u8)]); 5] = [
        (PLAIN, 1, &[(0, 0), (1, 21), (2, 21)]),
        (
            PLAIN,
            3,
            &[(0, 21), (1, 21), (2, 0), (4, 0), (6, 0), (7, 21), (8, 21), (2_147_483_648, 21), (2_147_483_654, 21)],
        ),
        (COATED, 1, &[(0, 21), (1, 0), (2, 21)]),
        (PLAIN, 12, &[(2048, 0), (4094, 0), (4096, 21)]),
        (COATED, 10, &[(1, 0), (1023, 0), (1024, 21), (4_294_967_295, 21)]),
    ];
    for (kind, n, sets) in tried {
        for &(groups, refusal) in sets {
            let begun = rows.system.begin(kind, n, ordered(n), groups, 67_108_864, 16);
            rows.row(("begin by a set", kind, n, groups), begun.refusal, refusal)?;
        }
    }
    // Every set of sizes up to 13: those from the first one to the last by this step are taken.
    for (kind, n, first, last, step) in [
        (PLAIN, 1, 0, 0, 1),
        (PLAIN, 4, 2, 14, 2),
        (PLAIN, 12, 2, 4094, 2),
        (COATED, 1, 1, 1, 1),
        (COATED, 3, 1, 7, 1),
        (COATED, 10, 1, 1023, 1),
    ] {
        let taken = (first..=last).step_by(step).collect::<Vec<Groups>>();
        let begin = |groups| rows.system.begin(kind, n, ordered(n), groups, 67_108_864, 16).refusal;
        let refusals = (0..8192).map(begin).collect::<Vec<u8>>();
        let due = (0..8192).map(|groups| if taken.contains(&groups) { 0 } else { 21 }).collect();
        rows.row(("begin by every set", kind, n), refusals, due)?;
    }
    Ok(())
}

// Several faults: the first one refuses.
fn begin_orders(rows: &mut Rows) -> Held {
    let (right, twice) = (stack(&[1, 2, 3]), stack(&[1, 1, 3]));
    for (kind, n, wanted, groups, size, room, refusal) in [
        (2, 0, twice, 0, 6, 15, 1),
        (PLAIN, 0, twice, 0, 6, 15, 2),
        (PLAIN, 3, twice, 0, 6, 15, 3),
        (PLAIN, 3, right, 0, 6, 15, 21),
        (PLAIN, 3, right, 6, 6, 15, 5),
        (PLAIN, 3, right, 6, 4, 15, 6),
    ] {
        let begun = rows.system.begin(kind, n, wanted, groups, size, room);
        rows.row(("begin", kind, n, wanted, groups, size, room), begun.refusal, refusal)?;
    }
    Ok(())
}

// ---- Coherence, asked by Look, which takes any phase

fn coherence(rows: &mut Rows) -> Held {
    let begun = rows.small(Phase::Blanking);
    for (groups, refusal) in [(0, 7), (1, 7), (2, 0), (4, 0), (7, 7), (8, 7), (2_147_483_648, 7)] {
        rows.looked(("groups", groups), Job { groups, ..begun }, (refusal, 0))?;
    }
    for (d, refusal) in [(0, 7), (1, 0), (254, 0), (255, 0)] {
        rows.looked(("level", d), Job { phase: Phase::Level(d), ..begun }, (refusal, 0))?;
    }
    for (deepest, refusal) in [(0, 0), (254, 0), (255, 7)] {
        rows.looked(("deepest", deepest), Job { phase: Phase::Finished(deepest), ..begun }, (refusal, 0))?;
    }
    for (loaded, refusal) in [(0, 0), (1, 0), (2, 7), (63, 7), (64, 0), (65, 7), (255, 7)] {
        rows.looked(("loaded", loaded), Job { loaded, ..begun }, (refusal, 0))?;
    }
    for (j, passed, refusal) in [(0, 4, 0), (0, 5, 7), (1, 2, 0), (1, 3, 7), (2, 1, 7), (63, 1, 7)] {
        rows.looked(("passed", j, passed), with_passed(begun, &[(j, passed)]), (refusal, 0))?;
    }
    for (j, waiting, refusal, shown) in [(0, 16, 0, 16), (0, 17, 7, 0), (2, 1, 7, 0), (63, 1, 7, 0)] {
        rows.looked(("waiting", j, waiting), with_waiting(begun, j, waiting), (refusal, shown))?;
    }
    let most = 1_152_921_504_606_846_976;
    for (d, count, refusal) in [(0, most, 0), (0, most + 1, 7), (255, most, 0), (255, most + 1, 7)] {
        rows.looked(("count", d, count), with_count(begun, d, count), (refusal, 0))?;
    }
    for (b, pairs, refusal) in
        [(0, 3, 0), (0, 4, 7), (0, 9_223_372_036_854_775_808, 7), (1, 3, 0), (1, 4, 7), (2, 1, 7), (63, 1, 7)]
    {
        rows.looked(("swept", b, pairs), with_swept(begun, &[(b, pairs)]), (refusal, 0))?;
    }
    Ok(())
}

// Plain 8 in 63 segments and in 64: as many pairs of the first one as there are segments.
fn swept_of_many(rows: &mut Rows) -> Held {
    for (size, words, pairs, refusal) in [
        (640, 1008, 9_223_372_036_854_775_807, 0),
        (640, 1008, 9_223_372_036_854_775_808, 7),
        (632, 1024, 18_446_744_073_709_551_615, 0),
    ] {
        let begun = rows.begun(&Fields { n: 8, wanted: ordered(8), groups: 254, size, ..SMALL });
        let looked = rows.system.look(&with_swept(begun, &[(0, pairs)]), 0, &vec![0; words]);
        rows.row(("swept", size, pairs), (looked.number, looked.len), (refusal, 0))?;
    }
    Ok(())
}

fn with_passed(mut job: Job, passed: &[(usize, u32)]) -> Job {
    passed.iter().for_each(|&(j, stacks)| job.passed[j] = stacks);
    job
}

fn with_waiting(mut job: Job, j: usize, entries: u32) -> Job {
    job.waiting[j] = entries;
    job
}

fn with_count(mut job: Job, d: usize, stacks: u64) -> Job {
    job.counts[d] = stacks;
    job
}

fn with_swept(mut job: Job, pairs: &[(usize, u64)]) -> Job {
    pairs.iter().for_each(|&(b, swept)| job.swept[b] = swept);
    job
}

// ---- The last level

// Close at a level with all stacks passed, and the phase that follows.
fn closes_at(rows: &mut Rows) -> Held {
    for (d, count, refusal, phase) in [
        (1, 0, 0, Phase::Finished(0)),
        (1, 1, 0, Phase::Level(2)),
        (254, 0, 0, Phase::Finished(253)),
        (254, 1, 0, Phase::Level(255)),
        (255, 0, 0, Phase::Finished(254)),
        (255, 1, 14, Phase::Level(255)),
    ] {
        let job = with_passed(with_count(rows.small(Phase::Level(d)), d as usize, count), &[(0, 4), (1, 2)]);
        let closed = rows.system.close(&job, FORWARD);
        rows.row(("close at level", d, count), (closed.refusal, closed.job.phase), (refusal, phase))?;
    }
    Ok(())
}

// 1 2 3 is marked 2, as after 254 turns, and no other stack is seen: the refusal, the count of level 255 and the byte that each call leaves.
fn last_forward(rows: &mut Rows) -> Held {
    let (system, mut first, mut second, mut logs) = (rows.system, [0xfe], [0xff], [0; 32]);
    let some = system.expand(&rows.small(Phase::Level(255)), 0, &mut first, &mut logs);
    rows.row("level 255, expand segment 0", (some.refusal, some.job.counts[255], first), (0, 1, [0xce]))?;
    let settled = system.settle(&some.job, 1, &mut second, &logs);
    rows.row("level 255, settle segment 1", (settled.refusal, settled.job.counts[255], second), (0, 2, [0xf3]))?;
    let all = system.expand(&settled.job, 1, &mut second, &mut logs);
    rows.row("level 255, expand segment 1", (all.refusal, all.job.counts[255], second), (0, 2, [0xf3]))?;
    let closed = system.close(&all.job, FORWARD);
    rows.row("level 255, close", (closed.refusal, closed.job.counts[255]), (14, 2))
}

// The same by Load and Sweep: of each loaded segment its list, then what Sweep leaves of both segments, then Close.
fn last_reverse(rows: &mut Rows) -> Held {
    let (system, mut segments, mut list) = (rows.system, [[0xfe], [0xff]], [0xff]);
    let mut job = Job { way: REVERSE, ..rows.small(Phase::Level(255)) };
    for (b, listed, before, swept, refusal) in
        [(0, [0x01], 0, [(1, [0xce]), (2, [0xf3])], 13), (1, [0x00], 2, [(2, [0xce]), (2, [0xf3])], 14)]
    {
        let loaded = system.load(&job, b, &segments[b as usize], &mut list);
        rows.row(("level 255, load", b), (loaded.refusal, loaded.job.counts[255], list), (0, before, listed))?;
        job = loaded.job;
        for (j, (count, byte)) in swept.into_iter().enumerate() {
            let marked = system.sweep(&job, j as u32, &mut segments[j], &list);
            rows.row(
                ("level 255, sweep", b, j),
                (marked.refusal, marked.job.counts[255], segments[j]),
                (0, count, byte),
            )?;
            job = marked.job;
        }
        let closed = system.close(&job, REVERSE);
        rows.row(("level 255, close after", b), (closed.refusal, closed.job.counts[255]), (refusal, 2))?;
    }
    Ok(())
}

// ---- Calls of plain 3 in two segments of one byte, refused beside accepted

fn blanks(rows: &mut Rows) -> Held {
    let system = rows.system;
    let (begun, level) = (rows.small(Phase::Blanking), rows.small(Phase::Level(1)));
    let once = system.blank(&begun, 0, &mut [0xff]).job;
    let no_group = Job { groups: 0, ..begun };
    for (what, job, j, bytes, refusal) in [
        ("blank", begun, 0, 1, 0),
        ("blank again", once, 0, 1, 11),
        ("blank segment 2", begun, 2, 1, 9),
        ("blank two bytes", begun, 0, 2, 10),
        ("blank in level 1", level, 0, 1, 8),
        ("blank by no group", no_group, 0, 1, 7),
    ] {
        rows.row(what, system.blank(&job, j, &mut vec![0xff; bytes]).refusal, refusal)?;
    }
    Ok(())
}

fn expands(rows: &mut Rows) -> Held {
    let system = rows.system;
    let (begun, level) = (rows.small(Phase::Blanking), rows.small(Phase::Level(1)));
    let once = system.expand(&level, 0, &mut [0xff], &mut [0; 32]).job;
    let no_group = Job { groups: 0, ..level };
    for (what, job, j, bytes, words, refusal) in [
        ("expand", level, 0, 1, 32, 0),
        ("expand again", once, 0, 1, 32, 11),
        ("expand segment 2", level, 2, 1, 32, 9),
        ("expand no byte", level, 0, 0, 32, 10),
        ("expand a log of 31", level, 0, 1, 31, 10),
        ("expand in blanking", begun, 0, 1, 32, 8),
        ("expand by no group", no_group, 0, 1, 32, 7),
    ] {
        rows.row(what, system.expand(&job, j, &mut vec![0xff; bytes], &mut vec![0; words]).refusal, refusal)?;
    }
    Ok(())
}

fn settles(rows: &mut Rows) -> Held {
    let system = rows.system;
    let (begun, level) = (rows.small(Phase::Blanking), rows.small(Phase::Level(1)));
    // Segment 1 has two stacks and one offset waiting.
    for (offset, refusal) in [(1, 0), (2, 12)] {
        let mut logs = [0; 32];
        logs[16] = offset;
        let settled = system.settle(&with_waiting(level, 1, 1), 1, &mut [0xff], &logs);
        rows.row(("settle offset", offset), settled.refusal, refusal)?;
    }
    for (what, job, j, words, refusal) in [
        ("settle segment 2", level, 2, 32, 9),
        ("settle a log of 33", level, 0, 33, 10),
        ("settle in blanking", begun, 0, 32, 8),
        ("settle by no group", Job { groups: 0, ..level }, 0, 32, 7),
    ] {
        rows.row(what, system.settle(&job, j, &mut [0xff], &vec![0; words]).refusal, refusal)?;
    }
    Ok(())
}

fn looks(rows: &mut Rows) -> Held {
    let level = rows.small(Phase::Level(1));
    for (what, j, words, refusal) in [("look", 1, 32, 0), ("look segment 2", 2, 32, 9), ("look a log of 31", 1, 31, 10)]
    {
        let looked = rows.system.look(&level, j, &vec![0; words]);
        rows.row(what, (looked.number, looked.len), (refusal, 0))?;
    }
    Ok(())
}

fn closes(rows: &mut Rows) -> Held {
    let level = rows.small(Phase::Level(1));
    let (some, all) = (with_passed(level, &[(0, 4)]), with_passed(level, &[(0, 4), (1, 2)]));
    for (what, job, refusal) in [
        ("close", all, 0),
        ("close, segment 1 not passed", some, 13),
        ("close, an entry waiting", with_waiting(all, 1, 1), 13),
        ("close when finished", Job { phase: Phase::Finished(3), ..all }, 8),
        ("close by no group", Job { groups: 0, ..level }, 7),
    ] {
        rows.row(what, rows.system.close(&job, FORWARD).refusal, refusal)?;
    }
    Ok(())
}

// ---- A reverse level of plain 4, in segments of 16 stacks and of 8: they have 4 bytes and 2, their changed lists 2 and 1

impl Rows<'_> {
    fn of_four(&self, phase: Phase, way: u8) -> Job {
        let fields = Fields { n: 4, wanted: ordered(4), groups: 14, size: 16, ..SMALL };
        Job { phase, way, ..self.begun(&fields) }
    }

    // Level 1, reverse, nothing loaded, with these pairs swept of segment 0 and of segment 1.
    fn with_pairs(&self, first: u64, second: u64) -> Job {
        with_swept(self.of_four(Phase::Level(1), REVERSE), &[(0, first), (1, second)])
    }

    fn load(&mut self, what: &str, job: Job, b: u32, bytes: usize, listed: usize, refusal: u8) -> Held {
        let loaded = self.system.load(&job, b, &vec![0xff; bytes], &mut vec![0; listed]);
        self.row(what, loaded.refusal, refusal)
    }

    fn sweep(&mut self, what: &str, job: Job, j: u32, bytes: usize, listed: usize, refusal: u8) -> Held {
        let swept = self.system.sweep(&job, j, &mut vec![0xff; bytes], &vec![0; listed]);
        self.row(what, swept.refusal, refusal)
    }

    fn close(&mut self, what: &str, job: Job, way: u8, due: (u8, Phase, u8, u64)) -> Held {
        let closed = self.system.close(&job, way);
        let Job { phase, way, loaded, swept, .. } = closed.job;
        self.row(what, (closed.refusal, phase, way, loaded, swept[0]), (due.0, due.1, due.2, 64, due.3))
    }
}

fn loads(rows: &mut Rows) -> Held {
    let level = rows.with_pairs(0, 0);
    let loaded = rows.system.load(&level, 0, &[0xff; 4], &mut [0; 2]).job;
    rows.load("load", level, 0, 4, 2, 0)?;
    rows.load("load again", loaded, 0, 4, 2, 0)?;
    rows.load("load another", loaded, 1, 2, 1, 0)?;
    rows.load("load a segment swept whole", rows.with_pairs(3, 0), 0, 4, 2, 0)?;
    rows.load("load segment 2", level, 2, 4, 2, 9)?;
    rows.load("load three bytes", level, 0, 3, 2, 10)?;
    rows.load("load a list of 1", level, 0, 4, 1, 10)?;
    rows.load("load segment 1, a list of 2", level, 1, 2, 2, 10)?;
    rows.load("load in blanking, way reverse", rows.of_four(Phase::Blanking, REVERSE), 0, 4, 2, 8)?;
    rows.load("load in a forward level", rows.of_four(Phase::Level(1), FORWARD), 0, 4, 2, 8)?;
    rows.load("load when finished, way reverse", rows.of_four(Phase::Finished(4), REVERSE), 0, 4, 2, 8)
}

// Several faults: the first one refuses.
fn load_orders(rows: &mut Rows) -> Held {
    let (level, forward) = (rows.with_pairs(0, 0), rows.of_four(Phase::Level(1), FORWARD));
    rows.load("load, all wrong", Job { groups: 0, ..forward }, 2, 3, 1, 7)?;
    rows.load("load, all wrong but the job", forward, 2, 3, 1, 8)?;
    rows.load("load, all wrong from the segment on", level, 2, 3, 1, 9)?;
    rows.load("load, both lengths wrong", level, 0, 3, 1, 10)
}

fn sweeps(rows: &mut Rows) -> Held {
    let level = rows.with_pairs(0, 0);
    let loaded = |job: Job, loaded| Job { loaded, ..job };
    let job = loaded(level, 0);
    let once = rows.system.sweep(&job, 0, &mut [0xff; 4], &[0; 2]).job;
    rows.sweep("sweep", job, 0, 4, 2, 0)?;
    rows.sweep("sweep again", once, 0, 4, 2, 11)?;
    rows.sweep("sweep another", once, 1, 2, 2, 0)?;
    rows.sweep("sweep segment 2", job, 2, 4, 2, 9)?;
    rows.sweep("sweep, nothing loaded", level, 0, 4, 2, 22)?;
    rows.sweep("sweep three bytes", job, 0, 3, 2, 10)?;
    rows.sweep("sweep a list of 1", job, 0, 4, 1, 10)?;
    rows.sweep("sweep segment 1, a list of 1", job, 1, 2, 1, 10)?;
    rows.sweep("sweep against segment 1, a list of 1", loaded(once, 1), 0, 4, 1, 0)?;
    rows.sweep("sweep in blanking, way reverse", loaded(rows.of_four(Phase::Blanking, REVERSE), 0), 0, 4, 2, 8)?;
    rows.sweep("sweep in a forward level", loaded(rows.of_four(Phase::Level(1), FORWARD), 0), 0, 4, 2, 8)?;
    rows.sweep("sweep when finished, way reverse", loaded(rows.of_four(Phase::Finished(4), REVERSE), 0), 0, 4, 2, 8)
}

fn sweep_orders(rows: &mut Rows) -> Held {
    let (level, forward) = (rows.with_pairs(0, 0), rows.of_four(Phase::Level(1), FORWARD));
    let done = Job { loaded: 0, ..rows.with_pairs(1, 0) };
    rows.sweep("sweep, all wrong", Job { groups: 0, ..forward }, 2, 3, 1, 7)?;
    rows.sweep("sweep, all wrong but the job", forward, 2, 3, 1, 8)?;
    rows.sweep("sweep, all wrong from the segment on", level, 2, 3, 1, 9)?;
    rows.sweep("sweep, all wrong from the loaded segment on", level, 0, 3, 1, 22)?;
    rows.sweep("sweep, all wrong from the length on", done, 0, 3, 1, 10)?;
    rows.sweep("sweep, all wrong from the list on", done, 0, 4, 1, 10)?;
    rows.sweep("sweep, the pair swept", done, 0, 4, 2, 11)
}

// Plain 3 in level 1: segment 1 is loaded, which has two stacks, and segment 0 is swept, all unseen. The count of level 1, and the byte.
fn sweeps_by_bits(rows: &mut Rows) -> Held {
    let job = Job { way: REVERSE, loaded: 1, ..rows.small(Phase::Level(1)) };
    for (bits, count, byte) in [(0x00, 0, 0xff), (0x01, 2, 0xd7), (0x02, 2, 0x7d), (0xfc, 0, 0xff), (0xff, 4, 0x55)] {
        let mut segment = [0xff];
        let swept = rows.system.sweep(&job, 0, &mut segment, &[bits]);
        rows.row(("sweep by bits", bits), (swept.refusal, swept.job.counts[1], segment), (0, count, [byte]))?;
    }
    Ok(())
}

// The refusal, and what Close leaves: the phase, the way, no loaded segment and the first segment's pairs.
fn reverse_closes(rows: &mut Rows) -> Held {
    let passed = |job| with_passed(job, &[(0, 16), (1, 8)]);
    let whole = Job { loaded: 1, ..rows.with_pairs(3, 3) };
    let found = with_count(whole, 1, 3);
    let (one, two, end) = (Phase::Level(1), Phase::Level(2), Phase::Finished(0));
    rows.close("close, told forward", found, FORWARD, (0, two, FORWARD, 0))?;
    rows.close("close, told reverse", found, REVERSE, (0, two, REVERSE, 0))?;
    rows.close("close, nothing found, told forward", whole, FORWARD, (0, end, FORWARD, 0))?;
    rows.close("close, nothing found, told reverse", whole, REVERSE, (0, end, REVERSE, 0))?;
    rows.close("close, entries waiting", with_waiting(found, 1, 1), FORWARD, (0, two, FORWARD, 0))?;
    rows.close("close, pair 0 1 not swept", passed(rows.with_pairs(1, 3)), FORWARD, (13, one, REVERSE, 1))?;
    rows.close("close, pair 1 0 not swept", passed(rows.with_pairs(3, 2)), FORWARD, (13, one, REVERSE, 3))?;
    rows.close("close, no pair swept", passed(rows.with_pairs(0, 0)), FORWARD, (13, one, REVERSE, 0))?;
    let blanking = rows.of_four(Phase::Blanking, REVERSE);
    rows.close("close in blanking, way reverse", passed(blanking), REVERSE, (0, one, REVERSE, 0))?;
    rows.close("close in blanking, not passed", blanking, REVERSE, (13, Phase::Blanking, REVERSE, 0))?;
    let forward = Job { way: FORWARD, ..rows.with_pairs(3, 3) };
    rows.close("close in a forward level, each pair swept", forward, REVERSE, (13, one, FORWARD, 3))?;
    let finished = rows.of_four(Phase::Finished(4), REVERSE);
    rows.close("close when finished, way reverse", finished, FORWARD, (8, Phase::Finished(4), REVERSE, 0))
}

fn other_calls(rows: &mut Rows) -> Held {
    let (system, level) = (rows.system, rows.with_pairs(0, 0));
    let blanking = rows.of_four(Phase::Blanking, REVERSE);
    rows.row("blank in blanking, way reverse", system.blank(&blanking, 0, &mut [0xff; 4]).refusal, 0)?;
    rows.row("expand in a reverse level", system.expand(&level, 0, &mut [0xff; 4], &mut [0; 32]).refusal, 8)?;
    rows.row("settle in a reverse level", system.settle(&level, 0, &mut [0xff; 4], &[0; 32]).refusal, 8)?;
    let looked = system.look(&level, 0, &[0; 32]);
    rows.row("look in a reverse level", (looked.number, looked.len), (0, 0))
}

// ---- Read, Plan and Price over tables of plain 3

// By every turn, by turn 2 alone and by turn 3 alone.
const TABLE: [u8; 2] = [0x90, 0xf6];
const BY_TWO: [u8; 2] = [0xdc, 0xff];
const BY_THREE: [u8; 2] = [0xfc, 0xf7];

fn reads(rows: &mut Rows) -> Held {
    for (bytes, index, refusal, entry) in [(2, 5, 0, 1), (2, 6, 4, 0), (1, 0, 10, 0)] {
        let read = rows.system.read_entry(PLAIN, 3, &TABLE[..bytes], index);
        rows.row(("read", bytes, index), read, Entry { refusal, entry })?;
    }
    Ok(())
}

impl Rows<'_> {
    // A plan of three panes in a list of so many slots.
    fn plan(&mut self, given: [i8; 3], groups: Groups, table: &[u8], slots: usize, refusal: u8, turns: u32) -> Held {
        let mut list = vec![0; slots];
        let planned = self.system.plan(PLAIN, 3, ordered(3), stack(&given), groups, table, &mut list);
        self.row(("plan", given, groups, table, slots), planned, Planned { refusal, turns })
    }
}

fn plans(rows: &mut Rows) -> Held {
    for (slots, refusal, turns) in [(253, 10, 0), (254, 0, 2), (255, 0, 2)] {
        rows.plan([3, 1, 2], 6, &TABLE, slots, refusal, turns)?;
    }
    rows.plan([3, 1, 2], 6, &[0xff; 3], LIST, 10, 0)?;
    for (given, by_two, by_three) in [
        ([1, 2, 3], (0, 0), (0, 0)),
        ([2, 1, 3], (0, 1), (20, 0)),
        ([3, 1, 2], (20, 0), (20, 0)),
        ([3, 2, 1], (20, 0), (0, 1)),
    ] {
        rows.plan(given, 2, &BY_TWO, LIST, by_two.0, by_two.1)?;
        rows.plan(given, 4, &BY_THREE, LIST, by_three.0, by_three.1)?;
    }
    for groups in [0, 1, 7, 8, 2_147_483_648] {
        rows.plan([3, 1, 2], groups, &TABLE, LIST, 21, 0)?;
    }
    Ok(())
}

// No entry seen; each entry 1; the entries of 1 2 3 and 3 1 2 alone; each entry 0.
fn spoilt_plans(rows: &mut Rows) -> Held {
    for (table, given, refusal) in [
        ([0xff, 0xff], [3, 1, 2], 20),
        ([0xff, 0xff], [1, 2, 3], 20),
        ([0x55, 0x55], [3, 1, 2], 15),
        ([0x55, 0x55], [1, 2, 3], 15),
        ([0xfc, 0xfe], [3, 1, 2], 15),
        ([0x00, 0x00], [3, 1, 2], 15),
        ([0x00, 0x00], [1, 2, 3], 0),
    ] {
        rows.plan(given, 6, &table, LIST, refusal, 0)?;
    }
    Ok(())
}

// Several faults: the first one refuses.
fn plan_orders(rows: &mut Rows) -> Held {
    rows.plan([1, 1, 3], 0, &[0xff; 3], LIST - 1, 3, 0)?;
    rows.plan([3, 1, 2], 0, &[0xff; 3], LIST - 1, 21, 0)?;
    rows.plan([3, 1, 2], 6, &[0xff; 3], LIST - 1, 10, 0)?;
    rows.plan([3, 1, 2], 6, &[0xff; 2], LIST - 1, 10, 0)
}

// A line's first size, last size and price.
type Triple = (u8, u8, u32);

impl Rows<'_> {
    // The price of 3 1 2, whose plan is 3, 2: the first line at the front, the other in every place past it, and so many of them counted.
    fn price(
        &mut self,
        one: Triple,
        other: Triple,
        count: u32,
        groups: Groups,
        table: &[u8],
        slots: usize,
        due: [u32; 3],
    ) -> Held {
        let lines = [one, other, other, other, other, other, other, other, other, other, other, other];
        let tariff = Tariff { count, ..Tariff::of(&lines) };
        let mut list = vec![0; slots];
        let priced = self.system.price(PLAIN, 3, ordered(3), stack(&[3, 1, 2]), groups, table, &mut list, &tariff);
        let [refusal, turns, pennies] = due;
        self.row(("price", one, other, count), priced, Priced { refusal: refusal as u8, turns, pennies })
    }
}

fn prices(rows: &mut Rows) -> Held {
    // Document 02's price, the lines in either order.
    for (one, other) in [((1, 2, 1250), (3, 3, 1250)), ((3, 3, 1250), (1, 2, 1250))] {
        rows.price(one, other, 2, 6, &TABLE, LIST, [0, 2, 3])?;
    }
    for (price, due) in [
        (249, [0, 2, 0]),
        (250, [0, 2, 1]),
        (1_000_000, [0, 2, 2000]),
        (1_000_001, [17, 0, 0]),
        (4_294_967_295, [17, 0, 0]),
    ] {
        rows.price((1, 3, price), (1, 3, price), 1, 6, &TABLE, LIST, due)?;
    }
    for (count, refusal) in [(0, 18), (12, 19), (13, 17)] {
        rows.price((1, 3, 1250), (1, 3, 1250), count, 6, &TABLE, LIST, [refusal, 0, 0])?;
    }
    for (first, last, refusal) in [(0, 3, 17), (1, 4, 17), (1, 255, 17), (2, 3, 18)] {
        rows.price((first, last, 1), (first, last, 1), 1, 6, &TABLE, LIST, [refusal, 0, 0])?;
    }
    for (one, other, refusal) in [
        ((1, 3, 1250), (3, 2, 1250), 17),
        ((1, 1, 1250), (3, 3, 1250), 18),
        ((1, 3, 1250), (1, 1, 1250), 19),
        ((1, 2, 1250), (1, 1, 1250), 18),
    ] {
        rows.price(one, other, 2, 6, &TABLE, LIST, [refusal, 0, 0])?;
    }
    Ok(())
}

// Plan's refusals come before the tariff's: here there are 13 lines, of size 0.
fn plan_before_price(rows: &mut Rows) -> Held {
    let none = (0, 0, 0);
    rows.price(none, none, 13, 0, &TABLE, LIST, [21, 0, 0])?;
    rows.price(none, none, 13, 6, &TABLE, LIST - 1, [10, 0, 0])?;
    rows.price(none, none, 13, 6, &[0xff; 2], LIST, [20, 0, 0])?;
    rows.price(none, none, 13, 6, &[0x55; 2], LIST, [15, 0, 0])
}

// ---- The longest plan

// A road of plain 7 by turns 2, 6 and 7, from 1 2 3 4 5 6 7 on: no stack of it has another of them for a neighbour but the one before and the one
// after, so that Plan goes the whole road. Its table, which marks nothing else, and the stack at its end.
fn road(turns: usize) -> (Vec<u8>, Stack) {
    let sizes = [2, 6, 7];
    let turned = |stack: &Stack, k| {
        let mut after = *stack;
        search::flip(false, &mut after, k);
        after
    };
    let place = |stack: &Stack| search::rank(false, &stack[..7]);
    let mut on_road = vec![None; 5040];
    let mut at = ordered(7);
    on_road[place(&at)] = Some(0);
    for done in 1..=turns {
        let is_free = |stack: &Stack| {
            let neighbours = sizes.iter().filter(|&&k| on_road[place(&turned(stack, k))].is_some());
            on_road[place(stack)].is_none() && neighbours.count() == 1
        };
        at = sizes.iter().map(|&k| turned(&at, k)).find(is_free).expect("the road goes on");
        on_road[place(&at)] = Some(done % 3);
    }
    let entry = |place: &Option<usize>| place.unwrap_or(3) as u8;
    let table = on_road.chunks(4).map(|four| four.iter().rev().fold(0, |byte, place| byte * 4 + entry(place)));
    (table.collect(), at)
}

fn longest_plans(rows: &mut Rows) -> Held {
    let system = rows.system;
    let tariff = Tariff::of(&[(1, 7, 1_000_000)]);
    for (length, refusal, turns, pennies) in [(253, 0, 253, 253_000), (254, 0, 254, 254_000), (255, 15, 0, 0)] {
        let (table, given) = road(length);
        let planned = system.plan(PLAIN, 7, ordered(7), given, 98, &table, &mut [0; LIST]);
        rows.row(("plan along a road", length), planned, Planned { refusal, turns })?;
        let priced = system.price(PLAIN, 7, ordered(7), given, 98, &table, &mut [0; LIST], &tariff);
        rows.row(("price along a road", length), priced, Priced { refusal, turns, pennies })?;
    }
    Ok(())
}
