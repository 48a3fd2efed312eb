// Single calls on jobs: from a real build, forged but coherent, damaged in one field, and wild.

use super::arguments::*;
use super::lists::{take, useful_call};
use super::Check;
use crate::build::{any_way, Build};
use crate::call::Call;
use crate::paper::{self, PAPER};
use crate::rng::Rng;
use crate::system::*;

pub fn case(rng: &mut Rng, check: &mut Check) -> Result<(), String> {
    let build = if rng.chance(35) { played(rng) } else { forged(rng) };
    for _ in 0..12 {
        check(call_on(rng, &build))?;
    }
    Ok(())
}

// A build somewhere between its begin and its end.
fn played(rng: &mut Rng) -> Build {
    let most = rng.pick(&[6, 48, 120, 120, 384, 720]);
    let fields = right_fields(rng, most);
    let mut build = Build::begin(&PAPER, &fields, rng).expect("right fields are accepted");
    let steps = rng.below(300);
    for _ in 0..steps {
        let call = useful_call(rng, &build);
        let outcome = call.run(&PAPER);
        take(&mut build, &call, outcome);
    }
    build
}

// A coherent job that no build need reach, with buffers of the right lengths.
fn forged(rng: &mut Rng) -> Build {
    let most = rng.pick(&[6, 48, 120, 720, 5040]);
    let fields = right_fields(rng, most);
    let measures = fields.measures().expect("right fields are accepted");
    let phase = match rng.below(10) {
        0 => Phase::Blanking,
        1 => Phase::Finished(rng.pick(&[0, 1, 30, 31, 32, 253, 254])),
        2 | 3 => Phase::Level(rng.pick(&[1, 2, 30, 31, 32, 253, 254, 255, 255, 255])),
        4 | 5 => Phase::Level(rng.between(1, 31) as u8),
        _ => Phase::Level(rng.between(1, 255) as u8),
    };
    let (room, mut job) = (fields.room, fields.job(phase));
    job.way = rng.pick(&[FORWARD, REVERSE]);
    job.loaded = if rng.chance(80) { rng.below(measures.segments) as u8 } else { NO_SEGMENT };
    let all = paper::segments_below(measures.segments);
    let swept_style = rng.below(4);
    for swept in &mut job.swept[..measures.segments as usize] {
        *swept = match swept_style {
            0 => 0,
            1 => all,
            2 => all & rng.word(),
            _ => all & rng.word() & rng.word(),
        };
    }

    let passed_style = rng.below(4);
    let waiting_style = rng.below(4);
    for j in 0..measures.segments as usize {
        let stacks = measures.stacks_of(j as u64);
        job.passed[j] = match passed_style {
            0 => stacks,
            1 => 0,
            2 => stacks.saturating_sub(rng.below(3)),
            _ => rng.between(0, stacks),
        } as u32;
        job.waiting[j] = match waiting_style {
            0 => 0,
            1 => room,
            2 => room - rng.below(10) as u32,
            _ => rng.between(0, u64::from(room)) as u32,
        };
    }
    if rng.chance(20) {
        // Ready to close, or one thing short of it, mostly at a level that is known to come close.
        if rng.chance(60) {
            job.phase = Phase::Level(rng.pick(&[1, 30, 31, 31, 32, 253, 254, 254, 255, 255]));
        }
        let short = rng.below(5);
        let one = rng.below(measures.segments);
        for j in 0..measures.segments {
            job.passed[j as usize] = measures.stacks_of(j) as u32 - u32::from(short == 0 && j == one);
            job.waiting[j as usize] = u32::from(short == 1 && j == one);
            job.swept[j as usize] = all;
        }
        if short == 2 {
            job.swept[one as usize] ^= 1 << rng.below(measures.segments);
        }
    }
    let counts_style = rng.below(4);
    for count in &mut job.counts {
        *count = match counts_style {
            0 => 0,
            1 => 1 << 60,
            2 => rng.below(1 << 60),
            _ => rng.below(3),
        };
    }

    let nearer = match job.phase {
        Phase::Level(d) => (d - 1) % 3,
        _ => 0,
    };
    let segments = (0..measures.segments).map(|j| entries(rng, measures.bytes_of(j), nearer)).collect();
    let mut logs = rng.words(measures.log_numbers());
    let sound_logs = rng.chance(75);
    for j in 0..measures.segments {
        let stacks = measures.stacks_of(j);
        let waiting = job.waiting[j as usize] as usize;
        let stretch = &mut logs[measures.log_start(j)..][..room as usize];
        stretch[..waiting].iter_mut().for_each(|number| *number = rng.below(stacks) as u32);
        if !sound_logs && waiting > 0 {
            let wrong = rng.pick(&[stacks as u32, stacks as u32 + 1, u32::MAX]);
            stretch[rng.below(waiting as u64) as usize] = wrong;
        }
    }
    let list = any_list(rng, measures.list_bytes_of(0));
    Build { job, measures, segments, logs, list }
}

// Entry bytes: random, mostly unseen, or all to be expanded.
fn entries(rng: &mut Rng, len: usize, nearer: u8) -> Vec<u8> {
    let style = rng.below(4);
    (0..len)
        .map(|_| match style {
            0 => rng.word() as u8,
            1 => nearer * 0x55,
            2 => 0xff,
            _ => (rng.word() | rng.word()) as u8,
        })
        .collect()
}

// A call on a build's job, with each argument hostile now and then.
fn call_on(rng: &mut Rng, build: &Build) -> Call {
    let mut job = build.job;
    if rng.chance(22) {
        damage(rng, &mut job, build);
    } else if rng.chance(3) {
        job = wild(rng);
    }
    let j = any_j(rng, build.measures.segments);
    let mut segment = build.segments[j as usize % build.segments.len()].clone();
    let mut logs = build.logs.clone();
    if rng.chance(6) {
        wrong_length(rng, &mut segment);
    }
    if rng.chance(6) {
        wrong_length(rng, &mut logs);
    }
    let fitting = match (build.job.phase, build.job.way) {
        (Phase::Blanking, _) => [0, 0, 3, 4],
        (Phase::Level(_), FORWARD) => [1, 1, 2, 4],
        (Phase::Level(_), _) => [4, 5, 6, 6],
        (Phase::Finished(_) | Phase::NoPhase(..), _) => [0, 1, 3, 4],
    };
    let operation = if rng.chance(65) { rng.pick(&fitting) } else { rng.below(7) };
    let whose = if operation == 5 { j } else { u32::from(job.loaded) };
    let mut list = build.list_of(if rng.chance(8) { any_j(rng, build.measures.segments) } else { whose }).to_vec();
    if rng.chance(50) {
        list = any_list(rng, list.len());
    }
    if rng.chance(6) {
        wrong_length(rng, &mut list);
    }
    match operation {
        0 => Call::Blank { job, j, segment },
        1 => Call::Expand { job, j, segment, logs },
        2 => Call::Settle { job, j, segment, logs },
        3 => Call::Look { job, j, logs },
        4 => Call::Close { job, way: any_way(rng, 50) },
        5 => Call::Load { job, b: j, segment, list },
        _ => Call::Sweep { job, j, segment, list },
    }
}

// Changes one field; the job may stay coherent.
fn damage(rng: &mut Rng, job: &mut Job, build: &Build) {
    let segments = build.measures.segments;
    let here = rng.below(segments) as usize;
    let beyond = rng.between(segments.min(63), 63) as usize;
    match rng.below(24) {
        0 => job.kind = rng.pick(&[0, 1, 2, 255]),
        1 => job.n = rng.pick(&[0, job.n.wrapping_sub(1), job.n + 1, 11, 13, 255]),
        2 => job.wanted = damaged_stack(rng, job.kind, job.n),
        3 => job.size = wrong_size(rng, build.measures.stacks),
        4 => job.size = right_size(rng, build.measures.stacks),
        5 => job.room = wrong_room(rng),
        6 => job.room = job.room.wrapping_add(rng.pick(&[1, u32::MAX])),
        7 => job.phase = Phase::Level(rng.pick(&[0, 0, 1, 30, 31, 32, 253, 254, 255])),
        8 => job.phase = Phase::Finished(rng.pick(&[0, 30, 31, 32, 253, 254, 255, 255])),
        9 => job.phase = Phase::Blanking,
        10 => job.passed[here] = build.measures.stacks_of(here as u64) as u32 + rng.pick(&[0, 1, 4]),
        11 => job.passed[beyond] = rng.pick(&[0, 1, u32::MAX]),
        12 => job.waiting[here] = job.room.wrapping_add(rng.pick(&[0, 1])),
        13 => job.waiting[beyond] = rng.pick(&[0, 1, u32::MAX]),
        14 => job.counts[any_level(rng)] = rng.pick(&[0, 1 << 60, (1 << 60) + 1, 1 << 61, u64::MAX]),
        15 => job.phase = no_phase(rng),
        16 => job.groups = damaged_groups(rng, job.kind, job.n),
        17 => job.groups = right_groups(rng, job.kind & 1, job.n.clamp(1, 12)),
        18 => job.way = rng.pick(&[FORWARD, REVERSE, 2, 3, 64, 128, 255]),
        19 => job.loaded = rng.pick(&[0, here as u8, segments as u8, segments as u8 + 1, 63, 64, 65, 128, 255]),
        20 => job.swept[here] ^= 1 << here,
        21 => job.swept[here] |= 1 << rng.between(segments.min(63), 63),
        22 => job.swept[beyond] = rng.pick(&[0, 1, 1 << here, 1 << 63, u64::MAX]),
        _ => job.wanted = right_stack(rng, job.kind, job.n.clamp(1, 12)),
    }
}

// A level whose count is looked at: those that are known to come close, and the others.
fn any_level(rng: &mut Rng) -> usize {
    let close = [0, 30, 31, 32, 253, 254, 255];
    if rng.chance(50) {
        rng.pick(&close)
    } else {
        rng.below(256) as usize
    }
}

// A phase number and a level of C's mirror that are no phase.
fn no_phase(rng: &mut Rng) -> Phase {
    let level = rng.pick(&[1, 2, 30, 31, 32, 254, 255]);
    match rng.pick(&[0, 3, 4, 128, 255]) {
        0 => Phase::NoPhase(0, level),
        number => Phase::NoPhase(number, rng.pick(&[0, level])),
    }
}

// A job of nothing but random numbers.
fn wild(rng: &mut Rng) -> Job {
    let small = rng.chance(50);
    let mut number = |most: u64| if small { rng.between(0, most) } else { rng.word() };
    Job {
        kind: number(2) as u8,
        n: number(13) as u8,
        wanted: std::array::from_fn(|_| number(12) as i8),
        groups: number(4095) as u32,
        size: number(64) as u32,
        room: number(64) as u32,
        phase: match number(2) % 3 {
            0 => Phase::Blanking,
            1 => Phase::Level(number(255) as u8),
            _ => Phase::Finished(number(255) as u8),
        },
        way: number(2) as u8,
        loaded: number(65) as u8,
        passed: std::array::from_fn(|_| number(4) as u32),
        waiting: std::array::from_fn(|_| number(4) as u32),
        swept: std::array::from_fn(|_| number(4)),
        counts: std::array::from_fn(|_| number(1 << 60)),
    }
}
