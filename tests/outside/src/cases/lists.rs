// Whole random call lists to the end of a build, by any mixture of ways, against the plain search, and plans and prices from the finished table.

use std::rc::Rc;

use super::arguments::*;
use super::tables::plan_is_shortest;
use super::Check;
use crate::build::{any_way, Build};
use crate::call::{Call, Outcome};
use crate::paper::PAPER;
use crate::rng::Rng;
use crate::system::*;

// A call that carries the build on, or would but for a full log or a list that is not swept to its end; Finished, any call.
pub fn useful_call(rng: &mut Rng, build: &Build) -> Call {
    let work = match (build.job.phase, build.job.way) {
        (Phase::Finished(_), _) => None,
        (Phase::Level(_), REVERSE) => pair_call(rng, build),
        _ => pass_call(rng, build),
    };
    work.unwrap_or_else(|| Call::Close { job: build.job, way: next_way(rng, build) })
}

// Passes stacks of a segment or settles one, as long as there is something to do.
fn pass_call(rng: &mut Rng, build: &Build) -> Option<Call> {
    let job = build.job;
    let (to_pass, to_settle): (Vec<u32>, Vec<u32>) = (build.open().collect(), build.pending().collect());
    let work = (to_pass.len() + to_settle.len()) as u64;
    if work == 0 {
        return None;
    }
    let chosen = rng.below(work) as usize;
    let settles = chosen >= to_pass.len();
    let j = if settles { to_settle[chosen - to_pass.len()] } else { to_pass[chosen] };
    let segment = build.segments[j as usize].clone();
    Some(match job.phase {
        Phase::Blanking => Call::Blank { job, j, segment },
        _ if settles => Call::Settle { job, j, segment, logs: build.logs.clone() },
        _ => Call::Expand { job, j, segment, logs: build.logs.clone() },
    })
}

// Sweeps a pair of the loaded segment; with none left, and now and then before that, loads a segment with pairs left.
fn pair_call(rng: &mut Rng, build: &Build) -> Option<Call> {
    let job = build.job;
    let (unswept, due): (Vec<u32>, Vec<u32>) = (build.unswept().collect(), build.due().collect());
    if due.is_empty() {
        return None;
    }
    let loads = unswept.is_empty() || rng.chance(5);
    let j = rng.pick(if loads { &due } else { &unswept });
    let segment = build.segments[j as usize].clone();
    Some(if loads {
        Call::Load { job, b: j, segment, list: build.list_of(j).to_vec() }
    } else {
        Call::Sweep { job, j, segment, list: build.list_of(u32::from(job.loaded)).to_vec() }
    })
}

// Either way; where there are many segments, and so many more pairs, seldom reverse.
fn next_way(rng: &mut Rng, build: &Build) -> u8 {
    any_way(rng, if build.measures.segments > 16 { 8 } else { 50 })
}

// Any call of the list, the job as it stands; j and lengths are wrong now and then.
fn any_call(rng: &mut Rng, build: &Build) -> Call {
    let job = build.job;
    let j = any_j(rng, build.measures.segments);
    let mut segment = build.segments[j as usize % build.segments.len()].clone();
    let mut logs = build.logs.clone();
    if rng.chance(5) {
        wrong_length(rng, &mut segment);
    }
    if rng.chance(5) {
        wrong_length(rng, &mut logs);
    }
    let operation = rng.below(7);
    let mut list = build.list_of(if operation == 5 { j } else { u32::from(job.loaded) }).to_vec();
    if rng.chance(5) {
        wrong_length(rng, &mut list);
    }
    match operation {
        0 => Call::Blank { job, j, segment },
        1 => Call::Expand { job, j, segment, logs },
        2 => Call::Settle { job, j, segment, logs },
        3 => Call::Look { job, j, logs },
        4 => Call::Close { job, way: next_way(rng, build) },
        5 => Call::Load { job, b: j, segment, list },
        _ => Call::Sweep { job, j, segment, list },
    }
}

// Leaves job, segment, log area and changed list as the call left them. A refused call changes nothing.
pub fn take(build: &mut Build, call: &Call, outcome: Outcome) {
    if outcome.answer.refusal() != 0 {
        return;
    }
    if let Some(job) = outcome.answer.job() {
        build.job = *job;
    }
    match call {
        Call::Blank { j, .. } | Call::Settle { j, .. } | Call::Sweep { j, .. } => {
            build.segments[*j as usize] = outcome.segment
        }
        Call::Load { .. } => build.list[..outcome.list.len()].copy_from_slice(&outcome.list),
        Call::Expand { j, .. } => {
            build.segments[*j as usize] = outcome.segment;
            build.logs = outcome.logs;
        }
        _ => {}
    }
}

// No list of these sizes needs more calls.
const MOST_CALLS: u64 = 1_000_000;

pub fn case(rng: &mut Rng, check: &mut Check) -> Result<(), String> {
    let most = rng.pick(&[6, 48, 120, 120, 120, 384, 384, 720, 720, 5040]);
    let fields = right_fields(rng, most);
    let begun = check(Call::Begin { fields })?;
    let mut build = Build::begin(&PAPER, &fields, rng).expect("right fields are accepted");
    build.job = *begun.answer.job().expect("Begin answers a job");

    let useful = rng.pick(&[50, 80, 95]);
    let mut calls = 0;
    while build.deepest().is_none() {
        calls += 1;
        if calls > MOST_CALLS {
            return Err(format!("the list does not end: {fields:?}"));
        }
        let call = if rng.chance(useful) { useful_call(rng, &build) } else { any_call(rng, &build) };
        let outcome = check(call.clone())?;
        take(&mut build, &call, outcome);
    }
    for _ in 0..3 {
        let call = any_call(rng, &build);
        let outcome = check(call.clone())?;
        take(&mut build, &call, outcome);
    }

    let distances = fields.distances();
    build.agrees_with(&distances).map_err(|wrong| format!("{wrong}: {fields:?}"))?;
    let table = Rc::new(build.table());
    for _ in 0..10 {
        let given = right_stack(rng, fields.kind, fields.n);
        plan_is_shortest(rng, check, &fields, given, &table, &distances)?;
    }
    Ok(())
}
