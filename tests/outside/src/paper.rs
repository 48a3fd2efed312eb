// The operations of documents 01 and 02, written from the papers alone: clear rather than fast, total on any arguments.

use crate::system::*;

pub const PLAIN: u8 = 0;
pub const COATED: u8 = 1;
pub const UNSEEN: u8 = 3;

// The papers' limits, so that the tests can move each one. A `past` is how far a limit lies past n, N, G, m, C, the free places of a log or a
// line's first size.
#[derive(Clone, Copy)]
pub struct Limits {
    pub least_panes: u8,
    // Of a kind: plain, coated.
    pub most_panes: [u8; 2],
    pub first_turn: [u8; 2],
    pub turn_past_n: i8,
    // Of a set: its sizes, and how many of them, where n has no turn and where it has some.
    pub first_group: [u8; 2],
    pub group_past_n: i8,
    pub least_groups: [u32; 2],
    pub index_past_stacks: i64,
    pub size_step: u32,
    pub least_size: u32,
    pub most_size: u32,
    pub most_segments: u64,
    pub least_room: u32,
    pub most_room: u32,
    pub phases: u8,
    pub most_blanking_level: u8,
    pub first_level: u8,
    pub last_level: u8,
    pub most_deepest: u8,
    pub ways: u8,
    // A loaded segment, and the numbers from NO_SEGMENT on that mean none.
    pub loaded_past_g: i64,
    pub last_no_segment: u8,
    // Of the pairs: those that may be swept, and those that 13 asks for in a reverse level, by b and by j.
    pub swept_past_g: [i64; 2],
    pub asked_past_g: [i64; 2],
    // The level that 14 is about.
    pub level_of_14: u8,
    pub counts: usize,
    pub most_count: u64,
    pub passed_past_m: i64,
    pub waiting_past_c: i64,
    // From segment G up.
    pub most_passed_beyond: u64,
    pub most_waiting_beyond: u64,
    pub segment_past_g: i64,
    pub offset_past_m: i64,
    pub falling_past_free: i64,
    pub most_turns: usize,
    pub least_list: usize,
    // Of a tariff and of each line in it.
    pub most_lines: u32,
    pub least_first: u8,
    pub last_past_first: i8,
    pub last_past_n: i8,
    pub most_price: u32,
    // The sizes that 18 and 19 look at, and the lines that each may have.
    pub first_size: [u8; 2],
    pub size_past_n: [i8; 2],
    pub least_lines_of_size: usize,
    pub most_lines_of_size: usize,
}

const LIMITS: Limits = Limits {
    least_panes: 1,
    most_panes: [12, 10],
    first_turn: [2, 1],
    turn_past_n: 0,
    first_group: [2, 1],
    group_past_n: 0,
    least_groups: [0, 1],
    index_past_stacks: 0,
    size_step: 4,
    least_size: 4,
    most_size: 67_108_864,
    most_segments: 64,
    least_room: 16,
    most_room: 1_048_576,
    phases: 3,
    most_blanking_level: 0,
    first_level: 1,
    last_level: 255,
    most_deepest: 254,
    ways: 2,
    loaded_past_g: 0,
    last_no_segment: NO_SEGMENT,
    swept_past_g: [0, 0],
    asked_past_g: [0, 0],
    level_of_14: 255,
    counts: 256,
    most_count: 1 << 60,
    passed_past_m: 0,
    waiting_past_c: 0,
    most_passed_beyond: 0,
    most_waiting_beyond: 0,
    segment_past_g: 0,
    offset_past_m: 0,
    falling_past_free: 0,
    most_turns: 254,
    least_list: 254,
    most_lines: 12,
    least_first: 1,
    last_past_first: 0,
    last_past_n: 0,
    most_price: 1_000_000,
    first_size: [1, 1],
    size_past_n: [0, 0],
    least_lines_of_size: 1,
    most_lines_of_size: 1,
};

// The papers as a system.
#[derive(Clone, Copy)]
pub struct Paper {
    pub limits: Limits,
}

pub const PAPER: Paper = Paper { limits: LIMITS };

// Goes on, or gives the refusal's number when the condition holds.
fn refuse(number: u8, when: bool) -> Result<(), u8> {
    if when {
        Err(number)
    } else {
        Ok(())
    }
}

// ---- Stacks and turns

// Panes 1 to n each once, no coat down if plain, unused places zero.
pub fn is_stack(kind: u8, n: u8, stack: &Stack) -> bool {
    let (used, unused) = stack.split_at(n as usize);
    let each_once = (1..=n).all(|pane| used.iter().filter(|place| place.unsigned_abs() == pane).count() == 1);
    let coats_up = used.iter().all(|&place| place > 0);
    each_once && (kind == COATED || coats_up) && unused.iter().all(|&place| place == 0)
}

// The turns of a kind and n, rising.
pub fn turns(kind: u8, n: u8) -> impl Iterator<Item = u8> {
    LIMITS.first_turn[kind as usize]..=n
}

// The sizes of a set, rising.
pub fn sizes_of(groups: Groups) -> impl Iterator<Item = u8> {
    (1..=32).filter(move |size| groups >> (size - 1) & 1 == 1)
}

// The set of these sizes.
pub fn set_of(sizes: impl IntoIterator<Item = u8>) -> Groups {
    sizes.into_iter().fold(0, |groups, size| groups | 1 << (size - 1))
}

// The set of every turn of a kind and n.
pub fn full_set(kind: u8, n: u8) -> Groups {
    set_of(turns(kind, n))
}

// The stack after turn k.
pub fn turned(kind: u8, stack: &Stack, k: u8) -> Stack {
    let mut after = *stack;
    for place in 0..k as usize {
        let pane = stack[k as usize - 1 - place];
        after[place] = if kind == COATED { -pane } else { pane };
    }
    after
}

// ---- Index

fn factorial(n: u64) -> u64 {
    (1..=n).product()
}

// N, the count of stacks.
pub fn count_of_stacks(kind: u8, n: u8) -> u64 {
    let orders = factorial(u64::from(n));
    if kind == PLAIN {
        orders
    } else {
        orders << n
    }
}

// The index of a right stack.
pub fn index(kind: u8, n: u8, stack: &Stack) -> u32 {
    let used = &stack[..n as usize];
    let mut order = 0;
    let mut coats = 0;
    for (place, &pane) in used.iter().enumerate() {
        let pane_number = u64::from(pane.unsigned_abs());
        let smaller_met = used[..place].iter().filter(|met| u64::from(met.unsigned_abs()) < pane_number).count() as u64;
        let weight = n as usize - 1 - place;
        order += (pane_number - 1 - smaller_met) * factorial(weight as u64);
        if pane < 0 {
            coats += 1 << weight;
        }
    }
    let whole: u64 = if kind == PLAIN { order } else { (order << n) + coats };
    whole as u32
}

// The stack at an index below N.
pub fn stack_at(kind: u8, n: u8, index: u32) -> Stack {
    let signs = if kind == PLAIN { 0 } else { u32::from(n) };
    let mut order = u64::from(index) >> signs;
    let coats = index & ((1 << signs) - 1);
    let mut left: Vec<i8> = (1..=n as i8).collect();
    let mut stack = NO_STACK;
    for (place, pane_here) in stack[..n as usize].iter_mut().enumerate() {
        let weight = n as usize - 1 - place;
        let pane = left.remove((order / factorial(weight as u64)) as usize);
        order %= factorial(weight as u64);
        let down = kind == COATED && coats >> weight & 1 == 1;
        *pane_here = if down { -pane } else { pane };
    }
    stack
}

// ---- Segments and entries

// G, the number of segments.
pub fn count_of_segments(stacks: u64, size: u32) -> u64 {
    stacks.div_ceil(u64::from(size))
}

// m, the stacks of segment j, which is below G.
pub fn stacks_of_segment(stacks: u64, size: u32, j: u64) -> u64 {
    let size = u64::from(size);
    ((j + 1) * size).min(stacks) - j * size
}

// The bytes that hold so many entries.
pub fn bytes_of(stacks: u64) -> usize {
    stacks.div_ceil(4) as usize
}

pub fn entry_at(entries: &[u8], i: u64) -> u8 {
    entries[(i / 4) as usize] >> (2 * (i % 4)) & 3
}

pub fn set_entry(entries: &mut [u8], i: u64, value: u8) {
    let byte = &mut entries[(i / 4) as usize];
    let shift = 2 * (i % 4);
    *byte = *byte & !(3 << shift) | value << shift;
}

// Gives an unseen entry the label of level d, one more in count d; a seen one stays.
pub fn mark(segment: &mut [u8], i: u64, d: u8, counts: &mut [u64; 256]) {
    if entry_at(segment, i) == UNSEEN {
        set_entry(segment, i, d % 3);
        counts[d as usize] += 1;
    }
}

// ---- The changed list

// The bytes that hold so many bits.
pub fn list_bytes_of(stacks: u64) -> usize {
    stacks.div_ceil(8) as usize
}

pub fn bit_at(list: &[u8], i: u64) -> bool {
    list[(i / 8) as usize] >> (i % 8) & 1 == 1
}

pub fn set_bit(list: &mut [u8], i: u64) {
    list[(i / 8) as usize] |= 1 << (i % 8);
}

// ---- The job

// The entry of the stacks that a level starts from, (d - 1) mod 3, also where a moved limit lets d be 0.
pub fn before(d: u8) -> u8 {
    ((u16::from(d) + 2) % 3) as u8
}

// All segments below so many, each as its bit.
pub fn segments_below(segments: u64) -> u64 {
    (0..segments.min(64)).map(|j| 1 << j).sum()
}

// Whether segment j has been swept against segment b.
pub fn is_swept(job: &Job, b: u64, j: u64) -> bool {
    job.swept[b as usize] >> j & 1 == 1
}

// The measures of a job that Begin would accept.
#[derive(Clone, Copy)]
pub struct Measures {
    pub stacks: u64,
    pub segments: u64,
    pub size: u32,
    pub room: u64,
}

impl Measures {
    pub fn stacks_of(&self, j: u64) -> u64 {
        stacks_of_segment(self.stacks, self.size, j)
    }

    pub fn bytes_of(&self, j: u64) -> usize {
        bytes_of(self.stacks_of(j))
    }

    pub fn list_bytes_of(&self, b: u64) -> usize {
        list_bytes_of(self.stacks_of(b))
    }

    pub fn log_numbers(&self) -> usize {
        (self.segments * self.room) as usize
    }

    pub fn log_start(&self, j: u64) -> usize {
        (j * self.room) as usize
    }
}

impl Paper {
    pub fn right_kind_and_n(&self, kind: u8, n: u8) -> Result<(), u8> {
        refuse(1, kind != PLAIN && kind != COATED)?;
        refuse(2, n < self.limits.least_panes || n > self.limits.most_panes[kind as usize])
    }

    // Refuses a set that names a size that is no turn, and the empty one where n has turns.
    pub fn right_groups(&self, kind: u8, n: u8, groups: Groups) -> Result<(), u8> {
        let limits = &self.limits;
        let last = n.saturating_add_signed(limits.group_past_n);
        refuse(21, !sizes_of(groups).all(|size| limits.first_group[kind as usize] <= size && size <= last))?;
        let has_turns = turns(kind, n).next().is_some();
        refuse(21, groups.count_ones() < limits.least_groups[usize::from(has_turns)])
    }

    // The refusals of Begin, and what its fields measure.
    pub fn measures(
        &self,
        kind: u8,
        n: u8,
        wanted: &Stack,
        groups: Groups,
        size: u32,
        room: u32,
    ) -> Result<Measures, u8> {
        let limits = &self.limits;
        self.right_kind_and_n(kind, n)?;
        refuse(3, !is_stack(kind, n, wanted))?;
        self.right_groups(kind, n, groups)?;
        let stacks = count_of_stacks(kind, n);
        let right_size = (limits.least_size..=limits.most_size).contains(&size);
        refuse(5, !size.is_multiple_of(limits.size_step) || !right_size)?;
        let segments = count_of_segments(stacks, size);
        refuse(5, segments > limits.most_segments)?;
        refuse(6, !(limits.least_room..=limits.most_room).contains(&room))?;
        Ok(Measures { stacks, segments, size, room: u64::from(room) })
    }

    fn right_phase(&self, phase: Phase) -> bool {
        let limits = &self.limits;
        match phase.numbers() {
            (0, level) => level <= limits.most_blanking_level,
            (1, d) => (limits.first_level..=limits.last_level).contains(&d),
            (2, deepest) => deepest <= limits.most_deepest,
            (number, _) => number < limits.phases,
        }
    }

    // The measures of a coherent job; 7 for any other.
    pub fn coherent(&self, job: &Job) -> Result<Measures, u8> {
        let limits = &self.limits;
        let measures = self.measures(job.kind, job.n, &job.wanted, job.groups, job.size, job.room).map_err(|_| 7)?;
        refuse(7, !self.right_phase(job.phase) || job.way >= limits.ways)?;
        let none = (NO_SEGMENT..=limits.last_no_segment).contains(&job.loaded);
        refuse(7, !none && u64::from(job.loaded) >= past(measures.segments, limits.loaded_past_g))?;
        let [ends_b, ends_j] = limits.swept_past_g.map(|far| past(measures.segments, far));
        let below = segments_below(ends_j);
        refuse(7, (0..).zip(&job.swept).any(|(b, swept)| swept & !(if b < ends_b { below } else { 0 }) != 0))?;
        for (j, (&passed, &waiting)) in (0..).zip(job.passed.iter().zip(&job.waiting)) {
            let (most_passed, most_waiting) = if j < measures.segments {
                (past(measures.stacks_of(j), limits.passed_past_m), past(measures.room, limits.waiting_past_c))
            } else {
                (limits.most_passed_beyond, limits.most_waiting_beyond)
            };
            refuse(7, u64::from(passed) > most_passed || u64::from(waiting) > most_waiting)?;
        }
        refuse(7, job.counts[..limits.counts].iter().any(|&count| count > limits.most_count))?;
        Ok(measures)
    }

    // Refuses a segment number of G or more.
    fn right_segment(&self, j: u32, measures: &Measures) -> Result<(), u8> {
        refuse(9, u64::from(j) >= past(measures.segments, self.limits.segment_past_g))
    }

    // Refuses an index of N or more.
    fn right_index(&self, index: u32, stacks: u64) -> Result<(), u8> {
        refuse(4, u64::from(index) >= past(stacks, self.limits.index_past_stacks))
    }
}

// A limit so far past a number.
fn past(number: u64, far: i64) -> u64 {
    number.saturating_add_signed(far)
}

// The level of a job that goes this way; 8 for any other.
fn level_of(job: &Job, way: u8) -> Result<u8, u8> {
    match job.phase {
        Phase::Level(d) if job.way == way => Ok(d),
        _ => Err(8),
    }
}

// ---- The tariff

pub fn covers(line: &Line, size: u8) -> bool {
    (line.first..=line.last).contains(&size)
}

// The sum over some turns of the price of the line that covers each, in thousandths of a penny.
pub fn thousandths(turns: &[u8], lines: &[Line]) -> u64 {
    // Only a moved limit leaves a turn without a line.
    let price = |k: &u8| lines.iter().find(|line| covers(line, *k)).map_or(0, |line| u64::from(line.price));
    turns.iter().map(price).sum()
}

// Rounded to the penny, halves up.
pub fn pennies(thousandths: u64) -> u32 {
    ((thousandths + 500) / 1000) as u32
}

impl Paper {
    pub fn right_line(&self, n: u8, line: &Line) -> bool {
        let limits = &self.limits;
        line.first >= limits.least_first
            && line.last >= line.first.saturating_add_signed(limits.last_past_first)
            && line.last <= n.saturating_add_signed(limits.last_past_n)
            && line.price <= limits.most_price
    }

    // The lines of a tariff for n panes, right and covering each size once.
    pub fn right_lines<'a>(&self, n: u8, tariff: &'a Tariff) -> Result<&'a [Line], u8> {
        let limits = &self.limits;
        refuse(17, tariff.count > limits.most_lines)?;
        // A moved limit may count more lines than there are places.
        let lines = &tariff.lines[..tariff.count.min(12) as usize];
        refuse(17, !lines.iter().all(|line| self.right_line(n, line)))?;
        let sizes = |of: usize| limits.first_size[of]..=n.saturating_add_signed(limits.size_past_n[of]);
        let lines_of = |size| lines.iter().filter(|line| covers(line, size)).count();
        refuse(18, sizes(0).any(|size| lines_of(size) < limits.least_lines_of_size))?;
        refuse(19, sizes(1).any(|size| lines_of(size) > limits.most_lines_of_size))?;
        Ok(lines)
    }
}

// ---- Operations, each with its refusals in order

impl Paper {
    fn try_index(&self, kind: u8, n: u8, stack: &Stack) -> Result<u32, u8> {
        self.right_kind_and_n(kind, n)?;
        refuse(3, !is_stack(kind, n, stack))?;
        Ok(index(kind, n, stack))
    }

    fn try_stack(&self, kind: u8, n: u8, index: u32) -> Result<Stack, u8> {
        self.right_kind_and_n(kind, n)?;
        self.right_index(index, count_of_stacks(kind, n))?;
        Ok(stack_at(kind, n, index))
    }

    fn try_turn(&self, kind: u8, n: u8, stack: &Stack, k: u8) -> Result<Stack, u8> {
        self.right_kind_and_n(kind, n)?;
        refuse(3, !is_stack(kind, n, stack))?;
        let last = n.saturating_add_signed(self.limits.turn_past_n);
        refuse(4, k < self.limits.first_turn[kind as usize] || k > last)?;
        Ok(turned(kind, stack, k))
    }

    fn try_begin(&self, kind: u8, n: u8, wanted: Stack, groups: Groups, size: u32, room: u32) -> Result<Job, u8> {
        self.measures(kind, n, &wanted, groups, size, room)?;
        Ok(Job { kind, n, wanted, groups, size, room, ..NO_JOB })
    }

    fn try_blank(&self, job: &Job, j: u32, segment: &mut [u8]) -> Result<Job, u8> {
        let measures = self.coherent(job)?;
        refuse(8, job.phase != Phase::Blanking)?;
        let here = u64::from(j);
        self.right_segment(j, &measures)?;
        refuse(10, segment.len() != measures.bytes_of(here))?;
        let stacks = measures.stacks_of(here);
        refuse(11, u64::from(job.passed[j as usize]) == stacks)?;

        segment.fill(0xff);
        let wanted = u64::from(index(job.kind, job.n, &job.wanted));
        if wanted / u64::from(job.size) == here {
            set_entry(segment, wanted % u64::from(job.size), 0);
        }
        let mut after = *job;
        after.passed[j as usize] = stacks as u32;
        Ok(after)
    }

    // The job after the call, and the segment waited on.
    fn try_expand(&self, job: &Job, j: u32, segment: &mut [u8], logs: &mut [u32]) -> Result<(Job, Option<u32>), u8> {
        let measures = self.coherent(job)?;
        let d = level_of(job, FORWARD)?;
        let here = u64::from(j);
        self.right_segment(j, &measures)?;
        refuse(10, segment.len() != measures.bytes_of(here))?;
        refuse(10, logs.len() != measures.log_numbers())?;
        let stacks = measures.stacks_of(here);
        refuse(11, u64::from(job.passed[j as usize]) == stacks)?;

        let mut after = *job;
        for i in u64::from(job.passed[j as usize])..stacks {
            if entry_at(segment, i) == before(d) {
                let children = children(job, here * u64::from(job.size) + i);
                let full = (0..measures.segments).find(|&t| {
                    let falling = children.iter().filter(|child| child.segment == t).count() as u64;
                    let free = measures.room - u64::from(after.waiting[t as usize]);
                    t != here && falling > past(free, self.limits.falling_past_free)
                });
                if let Some(t) = full {
                    return Ok((after, Some(t as u32)));
                }
                for child in children {
                    if child.segment == here {
                        mark(segment, child.offset, d, &mut after.counts);
                    } else {
                        let waiting = &mut after.waiting[child.segment as usize];
                        logs[measures.log_start(child.segment) + *waiting as usize] = child.offset as u32;
                        *waiting += 1;
                    }
                }
            }
            after.passed[j as usize] += 1;
        }
        Ok((after, None))
    }

    fn try_settle(&self, job: &Job, j: u32, segment: &mut [u8], logs: &[u32]) -> Result<Job, u8> {
        let measures = self.coherent(job)?;
        let d = level_of(job, FORWARD)?;
        let here = u64::from(j);
        self.right_segment(j, &measures)?;
        refuse(10, segment.len() != measures.bytes_of(here))?;
        refuse(10, logs.len() != measures.log_numbers())?;
        let waiting = &logs[measures.log_start(here)..][..job.waiting[j as usize] as usize];
        let end = past(measures.stacks_of(here), self.limits.offset_past_m);
        refuse(12, waiting.iter().any(|&offset| u64::from(offset) >= end))?;

        let mut after = *job;
        for &offset in waiting {
            mark(segment, u64::from(offset), d, &mut after.counts);
        }
        after.waiting[j as usize] = 0;
        Ok(after)
    }

    // Start and length of the waiting part.
    fn try_look(&self, job: &Job, j: u32, logs: &[u32]) -> Result<(usize, usize), u8> {
        let measures = self.coherent(job)?;
        self.right_segment(j, &measures)?;
        refuse(10, logs.len() != measures.log_numbers())?;
        Ok((measures.log_start(u64::from(j)), job.waiting[j as usize] as usize))
    }

    fn try_close(&self, job: &Job, way: u8) -> Result<Job, u8> {
        let measures = self.coherent(job)?;
        refuse(8, matches!(job.phase, Phase::Finished(_)))?;
        if level_of(job, REVERSE).is_ok() {
            let [ends_b, ends_j] = self.limits.asked_past_g.map(|far| past(measures.segments, far));
            let below = segments_below(ends_j);
            refuse(13, (0..ends_b).any(|b| below & !job.swept[b as usize] != 0))?;
        } else {
            let all_passed = |j: u64| u64::from(job.passed[j as usize]) == measures.stacks_of(j);
            refuse(13, (0..measures.segments).any(|j| !all_passed(j) || job.waiting[j as usize] != 0))?;
        }
        let last = self.limits.level_of_14;
        refuse(14, job.phase == Phase::Level(last) && job.counts[last as usize] != 0)?;

        let way = if way == FORWARD { FORWARD } else { REVERSE };
        let mut after = Job { way, loaded: NO_SEGMENT, passed: [0; 64], swept: [0; 64], ..*job };
        after.phase = match job.phase {
            Phase::Level(d) if job.counts[d as usize] == 0 => Phase::Finished(d - 1),
            Phase::Level(d) => Phase::Level(d + 1),
            _ => {
                after.counts[0] = 1;
                Phase::Level(1)
            }
        };
        Ok(after)
    }

    fn try_load(&self, job: &Job, b: u32, segment: &[u8], list: &mut [u8]) -> Result<Job, u8> {
        let measures = self.coherent(job)?;
        let d = level_of(job, REVERSE)?;
        let here = u64::from(b);
        self.right_segment(b, &measures)?;
        refuse(10, segment.len() != measures.bytes_of(here))?;
        refuse(10, list.len() != measures.list_bytes_of(here))?;

        list.fill(0);
        (0..measures.stacks_of(here)).filter(|&i| entry_at(segment, i) == before(d)).for_each(|i| set_bit(list, i));
        Ok(Job { loaded: b as u8, ..*job })
    }

    fn try_sweep(&self, job: &Job, j: u32, segment: &mut [u8], list: &[u8]) -> Result<Job, u8> {
        let measures = self.coherent(job)?;
        let d = level_of(job, REVERSE)?;
        let here = u64::from(j);
        self.right_segment(j, &measures)?;
        refuse(22, job.loaded == NO_SEGMENT)?;
        let b = u64::from(job.loaded);
        refuse(10, segment.len() != measures.bytes_of(here))?;
        refuse(10, list.len() != measures.list_bytes_of(b))?;
        refuse(11, is_swept(job, b, here))?;

        let mut after = *job;
        for i in 0..measures.stacks_of(here) {
            let is_changed = |child: &Child| child.segment == b && bit_at(list, child.offset);
            let has_changed_child = || children(job, here * u64::from(job.size) + i).iter().any(is_changed);
            if entry_at(segment, i) == UNSEEN && has_changed_child() {
                mark(segment, i, d, &mut after.counts);
            }
        }
        after.swept[b as usize] |= 1 << j;
        Ok(after)
    }

    fn try_read_entry(&self, kind: u8, n: u8, table: &[u8], index: u32) -> Result<u8, u8> {
        self.right_kind_and_n(kind, n)?;
        let stacks = count_of_stacks(kind, n);
        refuse(10, table.len() != bytes_of(stacks))?;
        self.right_index(index, stacks)?;
        Ok(entry_at(table, u64::from(index)))
    }

    #[allow(clippy::too_many_arguments)]
    fn try_plan(
        &self,
        kind: u8,
        n: u8,
        wanted: &Stack,
        given: &Stack,
        groups: Groups,
        table: &[u8],
        list: &mut [u8],
    ) -> Result<u32, u8> {
        self.right_kind_and_n(kind, n)?;
        refuse(3, !is_stack(kind, n, wanted))?;
        refuse(3, !is_stack(kind, n, given))?;
        self.right_groups(kind, n, groups)?;
        refuse(10, table.len() != bytes_of(count_of_stacks(kind, n)))?;
        refuse(10, list.len() < self.limits.least_list)?;
        let entry_of = |stack: &Stack| entry_at(table, u64::from(index(kind, n, stack)));
        refuse(20, entry_of(given) == UNSEEN)?;
        refuse(15, entry_of(wanted) != 0)?;

        let mut at = *given;
        let mut plan = Vec::new();
        while at != *wanted {
            refuse(15, plan.len() == self.limits.most_turns)?;
            let nearer = (entry_of(&at) + 2) % 3;
            let k = sizes_of(groups).filter(|&k| entry_of(&turned(kind, &at, k)) == nearer).max().ok_or(15)?;
            plan.push(k);
            at = turned(kind, &at, k);
        }
        list[..plan.len()].copy_from_slice(&plan);
        Ok(plan.len() as u32)
    }

    // The pennies of a plan.
    fn try_price(&self, n: u8, plan: &[u8], tariff: &Tariff) -> Result<u32, u8> {
        let lines = self.right_lines(n, tariff)?;
        Ok(pennies(thousandths(plan, lines)))
    }

    // Price, with the plan of any system's Plan: its refusals come first.
    #[allow(clippy::too_many_arguments)]
    pub fn price_by<S: System + ?Sized>(
        &self,
        system: &S,
        kind: u8,
        n: u8,
        wanted: Stack,
        given: Stack,
        groups: Groups,
        table: &[u8],
        list: &mut [u8],
        tariff: &Tariff,
    ) -> Priced {
        let mut planned_list = list.to_vec();
        let Planned { refusal, turns } = system.plan(kind, n, wanted, given, groups, table, &mut planned_list);
        let plan = &planned_list[..turns as usize];
        match refuse(refusal, refusal != 0).and_then(|()| self.try_price(n, plan, tariff)) {
            Ok(pennies) => {
                list.copy_from_slice(&planned_list);
                Priced { refusal: 0, turns, pennies }
            }
            Err(refusal) => Priced { refusal, turns: 0, pennies: 0 },
        }
    }
}

// Where a child falls.
pub struct Child {
    pub segment: u64,
    pub offset: u64,
}

// The children of the stack at an index by the turns of the job's set, rising.
pub fn children(job: &Job, parent: u64) -> Vec<Child> {
    let stack = stack_at(job.kind, job.n, parent as u32);
    sizes_of(job.groups)
        .map(|k| {
            let child = u64::from(index(job.kind, job.n, &turned(job.kind, &stack, k)));
            Child { segment: child / u64::from(job.size), offset: child % u64::from(job.size) }
        })
        .collect()
}

fn answer(outcome: Result<Job, u8>, job: &Job) -> Answer {
    match outcome {
        Ok(job) => Answer { refusal: 0, job },
        Err(refusal) => Answer { refusal, job: *job },
    }
}

fn stacked(outcome: Result<Stack, u8>) -> Stacked {
    match outcome {
        Ok(stack) => Stacked { refusal: 0, stack },
        Err(refusal) => Stacked { refusal, stack: NO_STACK },
    }
}

impl System for Paper {
    fn index_of_stack(&self, kind: u8, n: u8, stack: Stack) -> Indexed {
        match self.try_index(kind, n, &stack) {
            Ok(index) => Indexed { refusal: 0, index },
            Err(refusal) => Indexed { refusal, index: 0 },
        }
    }

    fn stack_at_index(&self, kind: u8, n: u8, index: u32) -> Stacked {
        stacked(self.try_stack(kind, n, index))
    }

    fn turn(&self, kind: u8, n: u8, stack: Stack, k: u8) -> Stacked {
        stacked(self.try_turn(kind, n, &stack, k))
    }

    fn begin(&self, kind: u8, n: u8, wanted: Stack, groups: Groups, size: u32, room: u32) -> Answer {
        answer(self.try_begin(kind, n, wanted, groups, size, room), &NO_JOB)
    }

    fn blank(&self, job: &Job, j: u32, segment: &mut [u8]) -> Answer {
        answer(self.try_blank(job, j, segment), job)
    }

    fn expand(&self, job: &Job, j: u32, segment: &mut [u8], logs: &mut [u32]) -> Expanded {
        match self.try_expand(job, j, segment, logs) {
            Ok((job, on)) => Expanded { refusal: 0, waits: on.is_some(), on: on.unwrap_or(0), job },
            Err(refusal) => Expanded { refusal, waits: false, on: 0, job: *job },
        }
    }

    fn settle(&self, job: &Job, j: u32, segment: &mut [u8], logs: &[u32]) -> Answer {
        answer(self.try_settle(job, j, segment, logs), job)
    }

    fn look(&self, job: &Job, j: u32, logs: &[u32]) -> Looked {
        match self.try_look(job, j, logs) {
            Ok((start, len)) => Looked { start, len, number: 0 },
            Err(number) => Looked { start: 0, len: 0, number },
        }
    }

    fn close(&self, job: &Job, way: u8) -> Answer {
        answer(self.try_close(job, way), job)
    }

    fn load(&self, job: &Job, b: u32, segment: &[u8], list: &mut [u8]) -> Answer {
        answer(self.try_load(job, b, segment, list), job)
    }

    fn sweep(&self, job: &Job, j: u32, segment: &mut [u8], list: &[u8]) -> Answer {
        answer(self.try_sweep(job, j, segment, list), job)
    }

    fn read_entry(&self, kind: u8, n: u8, table: &[u8], index: u32) -> Entry {
        match self.try_read_entry(kind, n, table, index) {
            Ok(entry) => Entry { refusal: 0, entry },
            Err(refusal) => Entry { refusal, entry: 0 },
        }
    }

    fn plan(
        &self,
        kind: u8,
        n: u8,
        wanted: Stack,
        given: Stack,
        groups: Groups,
        table: &[u8],
        list: &mut [u8],
    ) -> Planned {
        match self.try_plan(kind, n, &wanted, &given, groups, table, list) {
            Ok(turns) => Planned { refusal: 0, turns },
            Err(refusal) => Planned { refusal, turns: 0 },
        }
    }

    fn price(
        &self,
        kind: u8,
        n: u8,
        wanted: Stack,
        given: Stack,
        groups: Groups,
        table: &[u8],
        list: &mut [u8],
        tariff: &Tariff,
    ) -> Priced {
        self.price_by(self, kind, n, wanted, given, groups, table, list, tariff)
    }
}
