// Large n: high indices, long segments and tables, each with little to walk.

use std::rc::Rc;

use super::arguments::*;
use super::tables::{road, table_calls};
use super::Check;
use crate::build::{any_way, Fields};
use crate::call::Call;
use crate::paper::{self, COATED, PLAIN};
use crate::rng::Rng;
use crate::system::*;

pub fn case(rng: &mut Rng, check: &mut Check) -> Result<(), String> {
    let (kind, n) =
        rng.pick(&[(PLAIN, 9), (PLAIN, 10), (PLAIN, 11), (PLAIN, 12), (COATED, 8), (COATED, 9), (COATED, 10)]);
    let stacks = paper::count_of_stacks(kind, n);
    if rng.chance(30) {
        return swept_end(rng, check, kind, n);
    }
    let size = right_size(rng, stacks);
    let segments = paper::count_of_segments(stacks, size);
    let room = rng.pick(&[16, 17, 1000, if segments <= 2 { 1_048_576 } else { 4096 }]);
    let fields = Fields { kind, n, wanted: right_stack(rng, kind, n), groups: right_groups(rng, kind, n), size, room };
    if rng.chance(30) {
        // Zeros are not touched until they are read, so the largest table costs nothing.
        let fill = if stacks > 1 << 30 { 0 } else { rng.pick(&[0xff, 0xff, 0]) };
        let (table, end) = road(rng, &fields, vec![fill; paper::bytes_of(stacks)]);
        return table_calls(rng, check, &fields, Rc::new(table), Some(end), 8);
    }
    let measures = fields.measures().expect("right fields are accepted");
    let phase = if rng.chance(20) { Phase::Blanking } else { Phase::Level(rng.between(1, 255) as u8) };
    let mut job = fields.job(phase);

    // The last stacks of a segment, mostly of the last one; entries before them are left unseen.
    let j = if rng.chance(60) { segments - 1 } else { rng.below(segments) };
    let in_segment = measures.stacks_of(j);
    let mut segment = vec![0xff; measures.bytes_of(j)];
    let tail = segment.len() - segment.len().min(100);
    segment[tail..].iter_mut().for_each(|byte| *byte = rng.word() as u8);
    job.passed[j as usize] = (in_segment - rng.below(in_segment.min(400))) as u32;
    let mut logs = rng.words(measures.log_numbers());
    for t in 0..segments as usize {
        job.waiting[t] = room - rng.below(u64::from(room.min(60))) as u32;
    }
    let waiting = job.waiting[j as usize] as usize;
    let sound = rng.chance(80);
    for number in &mut logs[measures.log_start(j)..][..waiting] {
        *number = rng.between(0, if sound { in_segment - 1 } else { in_segment }) as u32;
    }
    let j = j as u32;
    match phase {
        Phase::Blanking => check(Call::Blank { job, j, segment })?,
        _ => {
            check(Call::Settle { job, j, segment: segment.clone(), logs: logs.clone() })?;
            check(Call::Expand { job, j, segment, logs })?
        }
    };
    check(Call::Close { job, way: any_way(rng, 50) })?;
    Ok(())
}

// Sweep walks a whole segment: here the last one, which has few stacks, against any, by a list with high offsets; and Load of the last one.
fn swept_end(rng: &mut Rng, check: &mut Check, kind: u8, n: u8) -> Result<(), String> {
    let stacks = paper::count_of_stacks(kind, n);
    let before = rng.between(stacks / 67_108_864 + 1, 63);
    let size = ((stacks - rng.between(1, 400)) / before / 4 * 4) as u32;
    let fields =
        Fields { kind, n, wanted: right_stack(rng, kind, n), groups: right_groups(rng, kind, n), size, room: 16 };
    let measures = fields.measures().expect("right fields are accepted");
    let mut job = fields.job(Phase::Level(rng.between(1, 255) as u8));
    let (j, b) = (measures.segments - 1, rng.below(measures.segments));
    (job.way, job.loaded) = (REVERSE, b as u8);
    let segment: Vec<u8> = (0..measures.bytes_of(j)).map(|_| (rng.word() | rng.word()) as u8).collect();
    let list = any_list(rng, measures.list_bytes_of(b));
    check(Call::Sweep { job, j: j as u32, segment: segment.clone(), list })?;
    let list = any_list(rng, measures.list_bytes_of(j));
    check(Call::Load { job, b: j as u32, segment, list })?;
    Ok(())
}
