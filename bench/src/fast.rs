// Method (b): the paper's method in plain efficient Rust, with the operations and answers of documents 01 and 02.
// A stack is unranked once when it is expanded or swept; each child is turned and ranked.

use outside::system::*;

const FACTORIAL: [u32; 13] = {
    let mut factorial = [1; 13];
    let mut n = 1;
    while n < 13 {
        factorial[n] = factorial[n - 1] * n as u32;
        n += 1;
    }
    factorial
};
const UNSEEN: u8 = 3;
const SEGMENTS: usize = 64;
const LAST_LEVEL: u8 = 255;
pub const MOST_TURNS: usize = 254;
const MOST_CHILDREN: usize = 12;
const MOST_COUNT: u64 = 1 << 60;

// ---- Numbering and turning

// The index of a right stack: factors by the ones in the set of panes met, summed by Horner's rule.
#[inline]
pub fn rank<const COATED: bool>(n: usize, stack: &Stack) -> u32 {
    let (mut met, mut order, mut coats) = (0u32, 0u32, 0u32);
    for (place, &pane) in stack[..n.min(12)].iter().enumerate() {
        let smaller = if COATED { u32::from(pane.unsigned_abs()) } else { pane as u32 } - 1;
        let factor = smaller - (met & ((1 << smaller) - 1)).count_ones();
        order = order * (n - place) as u32 + factor;
        met |= 1 << smaller;
        if COATED {
            coats = coats << 1 | u32::from(pane < 0);
        }
    }
    if COATED {
        order << n | coats
    } else {
        order
    }
}

// The stack at an index below N. The panes left stand in rising order, four bits each.
#[inline]
pub fn unrank<const COATED: bool>(n: usize, index: u32) -> Stack {
    let n = n.min(12);
    let mut order = if COATED { index >> n } else { index };
    let mut left: u64 = 0xcba9_8765_4321;
    let mut stack = NO_STACK;
    for (place, here) in stack[..n].iter_mut().enumerate() {
        let weight = n - 1 - place;
        let factor = order / FACTORIAL[weight];
        order -= factor * FACTORIAL[weight];
        let shift = 4 * factor;
        let pane = (left >> shift & 15) as i8;
        let below = (1 << shift) - 1;
        left = left & below | left >> 4 & !below;
        *here = if COATED && index >> weight & 1 == 1 { -pane } else { pane };
    }
    stack
}

// The stack after turn k.
#[inline]
pub fn flip<const COATED: bool>(stack: &Stack, k: usize) -> Stack {
    let mut after = *stack;
    let top = &mut after[..k.min(12)];
    top.reverse();
    if COATED {
        top.iter_mut().for_each(|pane| *pane = -*pane);
    }
    after
}

// ---- Shapes

// The refusal of a kind and n, 0 for none.
fn refusal_of_kind(kind: u8, n: u8) -> u8 {
    match kind {
        0 if (1..=12).contains(&n) => 0,
        1 if (1..=10).contains(&n) => 0,
        0 | 1 => 2,
        _ => 1,
    }
}

// The count of stacks of a right kind and n.
pub fn stacks_of(kind: u8, n: u8) -> u32 {
    FACTORIAL[n as usize] << (kind * n)
}

fn is_stack(kind: u8, n: u8, stack: &Stack) -> bool {
    let (used, unused) = stack.split_at(n as usize);
    let (least, most) = (if kind == 0 { 1 } else { -(n as i8) }, n as i8);
    let mut met = 0u32;
    for &pane in used {
        if pane == 0 || pane < least || pane > most {
            return false;
        }
        met |= 1 << pane.unsigned_abs();
    }
    met.count_ones() == u32::from(n) && unused.iter().all(|&place| place == 0)
}

fn first_turn(kind: u8) -> u8 {
    2 - kind
}

// The set of every turn.
pub fn all_groups(kind: u8, n: u8) -> Groups {
    (1 << n) - (1 << (first_turn(kind) - 1))
}

fn is_set(kind: u8, n: u8, groups: Groups) -> bool {
    let turns = all_groups(kind, n);
    groups & !turns == 0 && (groups != 0 || turns == 0)
}

// The sizes of a right set, rising, and how many.
#[inline]
fn sizes_of(groups: Groups) -> ([usize; MOST_CHILDREN], usize) {
    let (mut sizes, mut count) = ([0; MOST_CHILDREN], 0);
    for k in (1..=MOST_CHILDREN).filter(|k| groups >> (k - 1) & 1 == 1) {
        sizes[count] = k;
        count += 1;
    }
    (sizes, count)
}

// What the fields of Begin measure.
#[derive(Clone, Copy)]
struct Shape {
    stacks: u32,
    segments: u32,
    size: u32,
    room: u32,
}

impl Shape {
    fn stacks_of(&self, j: u32) -> u32 {
        (self.stacks - j * self.size).min(self.size)
    }

    fn bytes_of(&self, j: u32) -> usize {
        self.stacks_of(j).div_ceil(4) as usize
    }

    fn list_bytes_of(&self, b: u32) -> usize {
        self.stacks_of(b).div_ceil(8) as usize
    }

    fn log_numbers(&self) -> usize {
        self.segments as usize * self.room as usize
    }

    // All segments, each as its bit.
    fn all(&self) -> u64 {
        u64::MAX >> (SEGMENTS as u32 - self.segments)
    }
}

fn shape(kind: u8, n: u8, wanted: &Stack, groups: Groups, size: u32, room: u32) -> Result<Shape, u8> {
    match refusal_of_kind(kind, n) {
        0 => {}
        refusal => return Err(refusal),
    }
    if !is_stack(kind, n, wanted) {
        return Err(3);
    }
    if !is_set(kind, n, groups) {
        return Err(21);
    }
    let stacks = stacks_of(kind, n);
    if !size.is_multiple_of(4) || !(4..=67_108_864).contains(&size) || stacks.div_ceil(size) > SEGMENTS as u32 {
        return Err(5);
    }
    if !(16..=1_048_576).contains(&room) {
        return Err(6);
    }
    Ok(Shape { stacks, segments: stacks.div_ceil(size), size, room })
}

// The shape of a coherent job.
fn coherent(job: &Job) -> Result<Shape, u8> {
    let shape = shape(job.kind, job.n, &job.wanted, job.groups, job.size, job.room).map_err(|_| 7)?;
    let phase = match job.phase {
        Phase::Blanking => true,
        Phase::Level(d) => (1..=LAST_LEVEL).contains(&d),
        Phase::Finished(deepest) => deepest < LAST_LEVEL,
        Phase::NoPhase(..) => false,
    };
    let (inside, beyond) = (0..shape.segments, shape.segments as usize..SEGMENTS);
    let fits = |j: u32| {
        let place = j as usize;
        job.passed[place] <= shape.stacks_of(j)
            && job.waiting[place] <= shape.room
            && job.swept[place] & !shape.all() == 0
    };
    let right = phase
        && matches!(job.way, FORWARD | REVERSE)
        && (job.loaded == NO_SEGMENT || u32::from(job.loaded) < shape.segments)
        && inside.into_iter().all(fits)
        && job.passed[beyond.clone()].iter().chain(&job.waiting[beyond.clone()]).all(|&number| number == 0)
        && job.swept[beyond].iter().all(|&row| row == 0)
        && job.counts.iter().all(|&count| count <= MOST_COUNT);
    if right {
        Ok(shape)
    } else {
        Err(7)
    }
}

// The shape and level of a job in a level of this way that has a segment j.
fn levelled(job: &Job, way: u8, j: u32) -> Result<(Shape, u8), u8> {
    let shape = coherent(job)?;
    match job.phase {
        Phase::Level(d) if job.way == way && j < shape.segments => Ok((shape, d)),
        Phase::Level(_) if job.way == way => Err(9),
        _ => Err(8),
    }
}

// Goes on where all lengths are right.
fn fitting(lengths: &[(usize, usize)]) -> Result<(), u8> {
    if lengths.iter().all(|(length, right)| length == right) {
        Ok(())
    } else {
        Err(10)
    }
}

// ---- Entries

#[inline]
fn entry_at(entries: &[u8], i: u32) -> u8 {
    entries[(i / 4) as usize] >> (2 * (i % 4)) & 3
}

// Gives an unseen entry the label, and says how many were marked.
#[inline]
fn mark(segment: &mut [u8], i: u32, label: u8) -> u64 {
    let byte = &mut segment[(i / 4) as usize];
    let shift = 2 * (i % 4);
    let unseen = *byte >> shift & 3 == UNSEEN;
    if unseen {
        *byte ^= (label ^ UNSEEN) << shift;
    }
    u64::from(unseen)
}

// The first stack from i on with this entry, or the end.
#[inline]
fn next_with(segment: &[u8], mut i: u32, end: u32, entry: u8) -> u32 {
    while i < end {
        let differing = segment[(i / 4) as usize] ^ (entry * 0x55);
        if i.is_multiple_of(4) && (differing | differing >> 1) & 0x55 == 0x55 {
            i += 4;
        } else if differing >> (2 * (i % 4)) & 3 == 0 {
            return i;
        } else {
            i += 1;
        }
    }
    end
}

// ---- Expand and Plan, over the kind

// Expands from the first stack not passed; the segment waited on.
fn expand<const COATED: bool>(
    job: &mut Job,
    shape: Shape,
    d: u8,
    j: u32,
    segment: &mut [u8],
    logs: &mut [u32],
) -> Option<u32> {
    let n = job.n as usize;
    let (sizes, children) = sizes_of(job.groups);
    let (nearer, label) = ((d - 1) % 3, d % 3);
    let stacks = shape.stacks_of(j);
    let mut marked = 0;
    let mut i = job.passed[j as usize];
    let on = loop {
        i = next_with(segment, i, stacks, nearer);
        if i == stacks {
            break None;
        }
        let stack = unrank::<COATED>(n, j * shape.size + i);
        let mut places = [(0, 0); MOST_CHILDREN];
        let places = &mut places[..children];
        let mut tight = false;
        for (place, k) in places.iter_mut().zip(sizes) {
            let child = rank::<COATED>(n, &flip::<COATED>(&stack, k));
            let t = child / shape.size;
            *place = (t, child - t * shape.size);
            tight |= shape.room - job.waiting[t as usize] < MOST_CHILDREN as u32;
        }
        if tight {
            if let Some(full) = full_log(job, shape, j, places) {
                break Some(full);
            }
        }
        for &mut (t, offset) in places {
            if t == j {
                marked += mark(segment, offset, label);
            } else {
                let waiting = &mut job.waiting[t as usize];
                logs[t as usize * shape.room as usize + *waiting as usize] = offset;
                *waiting += 1;
            }
        }
        i += 1;
    };
    job.passed[j as usize] = i;
    job.counts[d as usize] += marked;
    on
}

// Marks each unseen stack with a child in segment b whose bit is set; how many.
fn sweep<const COATED: bool>(job: &Job, shape: Shape, d: u8, j: u32, segment: &mut [u8], list: &[u8]) -> u64 {
    let n = job.n as usize;
    let (sizes, children) = sizes_of(job.groups);
    let (start, stacks) = (u32::from(job.loaded) * shape.size, shape.stacks_of(u32::from(job.loaded)));
    let end = shape.stacks_of(j);
    let mut marked = 0;
    let mut i = next_with(segment, 0, end, UNSEEN);
    while i < end {
        let stack = unrank::<COATED>(n, j * shape.size + i);
        let is_set = |&k: &usize| {
            let offset = rank::<COATED>(n, &flip::<COATED>(&stack, k)).wrapping_sub(start);
            offset < stacks && list[(offset / 8) as usize] >> (offset % 8) & 1 == 1
        };
        if sizes[..children].iter().any(is_set) {
            marked += mark(segment, i, d % 3);
        }
        i = next_with(segment, i + 1, end, UNSEEN);
    }
    marked
}

// The lowest other segment whose free log places these children outnumber.
fn full_log(job: &Job, shape: Shape, j: u32, places: &[(u32, u32)]) -> Option<u32> {
    let falling = |t: u32| places.iter().filter(|(other, _)| *other == t).count() as u32;
    let full = |t: &u32| *t != j && falling(*t) > shape.room - job.waiting[*t as usize];
    places.iter().map(|(t, _)| *t).filter(full).min()
}

// The turns of a plan over a table of the right length, and how many.
fn plan<const COATED: bool>(
    n: usize,
    wanted: &Stack,
    given: &Stack,
    groups: Groups,
    table: &[u8],
    turns: &mut [u8; MOST_TURNS],
) -> Result<usize, u8> {
    let goal = rank::<COATED>(n, wanted);
    let mut at = rank::<COATED>(n, given);
    let mut entry = entry_at(table, at);
    if entry == UNSEEN {
        return Err(20);
    }
    if entry_at(table, goal) != 0 {
        return Err(15);
    }
    let (sizes, count) = sizes_of(groups);
    let mut stack = *given;
    let mut len = 0;
    while at != goal {
        let nearer = (entry + 2) % 3;
        let leads = |&k: &usize| {
            let child = flip::<COATED>(&stack, k);
            let index = rank::<COATED>(n, &child);
            (entry_at(table, index) == nearer).then_some((k, child, index))
        };
        let next = sizes[..count].iter().rev().find_map(leads);
        let (Some((k, child, index)), true) = (next, len < MOST_TURNS) else { return Err(15) };
        turns[len] = k as u8;
        len += 1;
        (stack, at, entry) = (child, index, nearer);
    }
    Ok(len)
}

// ---- The operations

pub struct Fast;

impl Fast {
    fn try_blank(job: &Job, j: u32, segment: &mut [u8]) -> Result<Job, u8> {
        let shape = coherent(job)?;
        if job.phase != Phase::Blanking {
            return Err(8);
        }
        if j >= shape.segments {
            return Err(9);
        }
        if segment.len() != shape.bytes_of(j) {
            return Err(10);
        }
        let mut after = *job;
        let passed = &mut after.passed[j as usize];
        if *passed == shape.stacks_of(j) {
            return Err(11);
        }
        *passed = shape.stacks_of(j);
        segment.fill(0xff);
        let wanted = ranked(job.kind, job.n, &job.wanted);
        if wanted / shape.size == j {
            mark(segment, wanted % shape.size, 0);
        }
        Ok(after)
    }

    fn try_expand(job: &Job, j: u32, segment: &mut [u8], logs: &mut [u32]) -> Result<(Job, Option<u32>), u8> {
        let (shape, d) = levelled(job, FORWARD, j)?;
        fitting(&[(segment.len(), shape.bytes_of(j)), (logs.len(), shape.log_numbers())])?;
        if job.passed[j as usize] == shape.stacks_of(j) {
            return Err(11);
        }
        let mut after = *job;
        let expand = if job.kind == 0 { expand::<false> } else { expand::<true> };
        let on = expand(&mut after, shape, d, j, segment, logs);
        Ok((after, on))
    }

    fn try_settle(job: &Job, j: u32, segment: &mut [u8], logs: &[u32]) -> Result<Job, u8> {
        let (shape, d) = levelled(job, FORWARD, j)?;
        fitting(&[(segment.len(), shape.bytes_of(j)), (logs.len(), shape.log_numbers())])?;
        let start = j as usize * shape.room as usize;
        let waiting = &logs[start..start + job.waiting[j as usize] as usize];
        let stacks = shape.stacks_of(j);
        if waiting.iter().any(|&offset| offset >= stacks) {
            return Err(12);
        }
        let mut after = *job;
        after.counts[d as usize] += waiting.iter().map(|&offset| mark(segment, offset, d % 3)).sum::<u64>();
        after.waiting[j as usize] = 0;
        Ok(after)
    }

    fn try_close(job: &Job, way: u8) -> Result<Job, u8> {
        let shape = coherent(job)?;
        if let Phase::Finished(_) = job.phase {
            return Err(8);
        }
        let passed = |j: u32| job.passed[j as usize] == shape.stacks_of(j) && job.waiting[j as usize] == 0;
        let swept = |b: u32| job.swept[b as usize] == shape.all();
        let ready = match job.phase {
            Phase::Level(_) if job.way == REVERSE => (0..shape.segments).all(swept),
            _ => (0..shape.segments).all(passed),
        };
        if !ready {
            return Err(13);
        }
        let way = if way == FORWARD { FORWARD } else { REVERSE };
        let (passed, swept) = ([0; SEGMENTS], [0; SEGMENTS]);
        let mut after = Job { way, loaded: NO_SEGMENT, passed, swept, ..*job };
        match job.phase {
            Phase::Level(d) if job.counts[d as usize] == 0 => after.phase = Phase::Finished(d - 1),
            Phase::Level(LAST_LEVEL) => return Err(14),
            Phase::Level(d) => after.phase = Phase::Level(d + 1),
            _ => {
                after.phase = Phase::Level(1);
                after.counts[0] = 1;
            }
        }
        Ok(after)
    }

    fn try_load(job: &Job, b: u32, segment: &[u8], list: &mut [u8]) -> Result<Job, u8> {
        let (shape, d) = levelled(job, REVERSE, b)?;
        fitting(&[(segment.len(), shape.bytes_of(b)), (list.len(), shape.list_bytes_of(b))])?;
        let (nearer, stacks) = ((d - 1) % 3, shape.stacks_of(b));
        list.fill(0);
        let mut i = next_with(segment, 0, stacks, nearer);
        while i < stacks {
            list[(i / 8) as usize] |= 1 << (i % 8);
            i = next_with(segment, i + 1, stacks, nearer);
        }
        Ok(Job { loaded: b as u8, ..*job })
    }

    fn try_sweep(job: &Job, j: u32, segment: &mut [u8], list: &[u8]) -> Result<Job, u8> {
        let (shape, d) = levelled(job, REVERSE, j)?;
        if job.loaded == NO_SEGMENT {
            return Err(22);
        }
        let right = shape.list_bytes_of(u32::from(job.loaded));
        fitting(&[(segment.len(), shape.bytes_of(j)), (list.len(), right)])?;
        let mut after = *job;
        let row = &mut after.swept[job.loaded as usize];
        if *row >> j & 1 == 1 {
            return Err(11);
        }
        *row |= 1 << j;
        let sweep = if job.kind == 0 { sweep::<false> } else { sweep::<true> };
        after.counts[d as usize] += sweep(job, shape, d, j, segment, list);
        Ok(after)
    }
}

fn ranked(kind: u8, n: u8, stack: &Stack) -> u32 {
    if kind == 0 {
        rank::<false>(n as usize, stack)
    } else {
        rank::<true>(n as usize, stack)
    }
}

fn answer(outcome: Result<Job, u8>, job: &Job) -> Answer {
    match outcome {
        Ok(job) => Answer { refusal: 0, job },
        Err(refusal) => Answer { refusal, job: *job },
    }
}

impl System for Fast {
    fn index_of_stack(&self, kind: u8, n: u8, stack: Stack) -> Indexed {
        match refusal_of_kind(kind, n) {
            0 if is_stack(kind, n, &stack) => Indexed { refusal: 0, index: ranked(kind, n, &stack) },
            0 => Indexed { refusal: 3, index: 0 },
            refusal => Indexed { refusal, index: 0 },
        }
    }

    fn stack_at_index(&self, kind: u8, n: u8, index: u32) -> Stacked {
        let stack = match refusal_of_kind(kind, n) {
            0 if index >= stacks_of(kind, n) => return Stacked { refusal: 4, stack: NO_STACK },
            0 if kind == 0 => unrank::<false>(n as usize, index),
            0 => unrank::<true>(n as usize, index),
            refusal => return Stacked { refusal, stack: NO_STACK },
        };
        Stacked { refusal: 0, stack }
    }

    fn turn(&self, kind: u8, n: u8, stack: Stack, k: u8) -> Stacked {
        let refusal = match refusal_of_kind(kind, n) {
            0 if !is_stack(kind, n, &stack) => 3,
            0 if k < first_turn(kind) || k > n => 4,
            refusal => refusal,
        };
        let stack = match (refusal, kind) {
            (0, 0) => flip::<false>(&stack, k as usize),
            (0, _) => flip::<true>(&stack, k as usize),
            _ => NO_STACK,
        };
        Stacked { refusal, stack }
    }

    fn begin(&self, kind: u8, n: u8, wanted: Stack, groups: Groups, size: u32, room: u32) -> Answer {
        let begun = shape(kind, n, &wanted, groups, size, room);
        answer(begun.map(|_| Job { kind, n, wanted, groups, size, room, ..NO_JOB }), &NO_JOB)
    }

    fn blank(&self, job: &Job, j: u32, segment: &mut [u8]) -> Answer {
        answer(Fast::try_blank(job, j, segment), job)
    }

    fn expand(&self, job: &Job, j: u32, segment: &mut [u8], logs: &mut [u32]) -> Expanded {
        match Fast::try_expand(job, j, segment, logs) {
            Ok((job, Some(on))) => Expanded { refusal: 0, waits: true, on, job },
            Ok((job, None)) => Expanded { refusal: 0, waits: false, on: 0, job },
            Err(refusal) => Expanded { refusal, waits: false, on: 0, job: *job },
        }
    }

    fn settle(&self, job: &Job, j: u32, segment: &mut [u8], logs: &[u32]) -> Answer {
        answer(Fast::try_settle(job, j, segment, logs), job)
    }

    fn look(&self, job: &Job, j: u32, logs: &[u32]) -> Looked {
        let refused = |number| Looked { start: 0, len: 0, number };
        match coherent(job) {
            Err(number) => refused(number),
            Ok(shape) if j >= shape.segments => refused(9),
            Ok(shape) if logs.len() != shape.log_numbers() => refused(10),
            Ok(shape) => {
                Looked { start: j as usize * shape.room as usize, len: job.waiting[j as usize] as usize, number: 0 }
            }
        }
    }

    fn close(&self, job: &Job, way: u8) -> Answer {
        answer(Fast::try_close(job, way), job)
    }

    fn load(&self, job: &Job, b: u32, segment: &[u8], list: &mut [u8]) -> Answer {
        answer(Fast::try_load(job, b, segment, list), job)
    }

    fn sweep(&self, job: &Job, j: u32, segment: &mut [u8], list: &[u8]) -> Answer {
        answer(Fast::try_sweep(job, j, segment, list), job)
    }

    fn read_entry(&self, kind: u8, n: u8, table: &[u8], index: u32) -> Entry {
        let refusal = match refusal_of_kind(kind, n) {
            0 if table.len() != stacks_of(kind, n).div_ceil(4) as usize => 10,
            0 if index >= stacks_of(kind, n) => 4,
            refusal => refusal,
        };
        Entry { refusal, entry: if refusal == 0 { entry_at(table, index) } else { 0 } }
    }

    fn plan(
        &self,
        kind: u8,
        n: u8,
        wanted: Stack,
        given: Stack,
        groups: Groups,
        table: &[u8],
        list: &mut [u8],
    ) -> Planned {
        let refusal = match refusal_of_kind(kind, n) {
            0 if !is_stack(kind, n, &wanted) || !is_stack(kind, n, &given) => 3,
            0 if !is_set(kind, n, groups) => 21,
            0 if table.len() != stacks_of(kind, n).div_ceil(4) as usize || list.len() < MOST_TURNS => 10,
            refusal => refusal,
        };
        if refusal != 0 {
            return Planned { refusal, turns: 0 };
        }
        let plan = if kind == 0 { plan::<false> } else { plan::<true> };
        let mut turns = [0; MOST_TURNS];
        match plan(n as usize, &wanted, &given, groups, table, &mut turns) {
            Ok(len) => {
                list[..len].copy_from_slice(&turns[..len]);
                Planned { refusal: 0, turns: len as u32 }
            }
            Err(refusal) => Planned { refusal, turns: 0 },
        }
    }
}
