// One call with all its arguments, what a system made of it, and both in print.

use std::fmt;
use std::rc::Rc;

use crate::build::Fields;
use crate::paper;
use crate::system::*;

// Tables are shared, as some are large.
type Table = Rc<Vec<u8>>;

#[derive(Clone)]
pub enum Call {
    Index { kind: u8, n: u8, stack: Stack },
    StackAt { kind: u8, n: u8, index: u32 },
    Turn { kind: u8, n: u8, stack: Stack, k: u8 },
    Begin { fields: Fields },
    Blank { job: Job, j: u32, segment: Vec<u8> },
    Expand { job: Job, j: u32, segment: Vec<u8>, logs: Vec<u32> },
    Settle { job: Job, j: u32, segment: Vec<u8>, logs: Vec<u32> },
    Look { job: Job, j: u32, logs: Vec<u32> },
    Close { job: Job, way: u8 },
    Load { job: Job, b: u32, segment: Vec<u8>, list: Vec<u8> },
    Sweep { job: Job, j: u32, segment: Vec<u8>, list: Vec<u8> },
    ReadEntry { kind: u8, n: u8, table: Table, index: u32 },
    Plan { kind: u8, n: u8, wanted: Stack, given: Stack, groups: Groups, table: Table, list: Vec<u8> },
    Price { kind: u8, n: u8, wanted: Stack, given: Stack, groups: Groups, table: Table, list: Vec<u8>, tariff: Tariff },
    Build { fields: Fields, table: Vec<u8>, logs: Vec<u32>, list: Vec<u8> },
}

pub const OPERATIONS: [&str; 15] = [
    "Index", "Stack at", "Turn", "Begin", "Blank", "Expand", "Settle", "Look", "Close", "Load", "Sweep", "Read",
    "Plan", "Price", "Build",
];

#[derive(Clone, PartialEq, Eq, Debug)]
pub enum Answered {
    Indexed(Indexed),
    Stacked(Stacked),
    Answer(Answer),
    Expanded(Expanded),
    Looked(Looked),
    Entry(Entry),
    Planned(Planned),
    Priced(Priced),
}

impl Answered {
    pub fn refusal(&self) -> u8 {
        match self {
            Answered::Indexed(answer) => answer.refusal,
            Answered::Stacked(answer) => answer.refusal,
            Answered::Answer(answer) => answer.refusal,
            Answered::Expanded(answer) => answer.refusal,
            Answered::Looked(answer) => answer.number,
            Answered::Entry(answer) => answer.refusal,
            Answered::Planned(answer) => answer.refusal,
            Answered::Priced(answer) => answer.refusal,
        }
    }

    pub fn job(&self) -> Option<&Job> {
        match self {
            Answered::Answer(answer) => Some(&answer.job),
            Answered::Expanded(answer) => Some(&answer.job),
            _ => None,
        }
    }
}

// The answer, and the final contents of everything lent: segment holds Build's table too, list the turn list or the changed list. Buffers that
// the call was not lent are empty.
#[derive(Clone, PartialEq, Eq)]
pub struct Outcome {
    pub answer: Answered,
    pub segment: Vec<u8>,
    pub logs: Vec<u32>,
    pub list: Vec<u8>,
    // Nothing was written beside a buffer, or into one lent for reading.
    pub kept_off: bool,
}

// What answers calls: any system, or one with a fault between it and its caller.
pub trait Answers {
    fn outcome(&self, call: &Call) -> Outcome;
}

impl<S: System + ?Sized> Answers for S {
    fn outcome(&self, call: &Call) -> Outcome {
        call.run(self)
    }
}

// A copy of a buffer between guards of a fixed pattern.
struct Lent<T> {
    cells: Vec<T>,
    guard: T,
}

const GUARDS: usize = 16;

impl<T: Copy + PartialEq> Lent<T> {
    fn new(contents: &[T], guard: T) -> Lent<T> {
        let mut cells = Vec::with_capacity(contents.len() + 2 * GUARDS);
        cells.resize(GUARDS, guard);
        cells.extend_from_slice(contents);
        cells.resize(contents.len() + 2 * GUARDS, guard);
        Lent { cells, guard }
    }

    fn slice(&mut self) -> &mut [T] {
        let end = self.cells.len() - GUARDS;
        &mut self.cells[GUARDS..end]
    }

    fn contents(mut self, kept_off: &mut bool) -> Vec<T> {
        let end = self.cells.len() - GUARDS;
        *kept_off &= self.cells[..GUARDS].iter().chain(&self.cells[end..]).all(|cell| *cell == self.guard);
        self.cells.truncate(end);
        self.cells.drain(..GUARDS);
        self.cells
    }
}

// A table above this length is lent as it is and not looked at again; that of plain 11 is copied still.
const COPIED: usize = 1 << 24;

impl Call {
    // The place of the operation in OPERATIONS.
    pub fn operation(&self) -> usize {
        match self {
            Call::Index { .. } => 0,
            Call::StackAt { .. } => 1,
            Call::Turn { .. } => 2,
            Call::Begin { .. } => 3,
            Call::Blank { .. } => 4,
            Call::Expand { .. } => 5,
            Call::Settle { .. } => 6,
            Call::Look { .. } => 7,
            Call::Close { .. } => 8,
            Call::Load { .. } => 9,
            Call::Sweep { .. } => 10,
            Call::ReadEntry { .. } => 11,
            Call::Plan { .. } => 12,
            Call::Price { .. } => 13,
            Call::Build { .. } => 14,
        }
    }

    // Plan's call as one of Price.
    pub fn priced(&self, tariff: Tariff) -> Call {
        match self.clone() {
            Call::Plan { kind, n, wanted, given, groups, table, list } => {
                Call::Price { kind, n, wanted, given, groups, table, list, tariff }
            }
            _ => unreachable!("only plans are priced"),
        }
    }

    // Whether the call's set is not that of every turn; for an accepted call, so that its kind and n are right.
    pub fn is_limited(&self) -> bool {
        let (kind, n, groups) = match self {
            Call::Begin { fields } | Call::Build { fields, .. } => (fields.kind, fields.n, fields.groups),
            Call::Plan { kind, n, groups, .. } | Call::Price { kind, n, groups, .. } => (*kind, *n, *groups),
            _ => match self.job() {
                Some(job) => (job.kind, job.n, job.groups),
                None => return false,
            },
        };
        groups != paper::full_set(kind, n)
    }

    pub fn job(&self) -> Option<&Job> {
        match self {
            Call::Blank { job, .. } | Call::Expand { job, .. } | Call::Settle { job, .. } => Some(job),
            Call::Look { job, .. } | Call::Close { job, .. } => Some(job),
            Call::Load { job, .. } | Call::Sweep { job, .. } => Some(job),
            _ => None,
        }
    }

    // The segment (or Build's table), log area and turn or changed list as lent.
    pub fn lent(&self) -> (&[u8], &[u32], &[u8]) {
        match self {
            Call::Blank { segment, .. } => (segment, &[], &[]),
            Call::Expand { segment, logs, .. } | Call::Settle { segment, logs, .. } => (segment, logs, &[]),
            Call::Look { logs, .. } => (&[], logs, &[]),
            Call::Load { segment, list, .. } | Call::Sweep { segment, list, .. } => (segment, &[], list),
            Call::Build { table, logs, list, .. } => (table, logs, list),
            Call::Plan { list, .. } | Call::Price { list, .. } => (&[], &[], list),
            _ => (&[], &[], &[]),
        }
    }

    // Runs the call on copies of its buffers.
    pub fn run<S: System + ?Sized>(&self, system: &S) -> Outcome {
        let (segment, logs, list) = self.lent();
        let (mut segment, mut logs, mut list) =
            (Lent::new(segment, 0xa5), Lent::new(logs, 0xa5a5_a5a5), Lent::new(list, 0xa5));
        let mut kept_off = true;
        let answer = match self {
            Call::Index { kind, n, stack } => Answered::Indexed(system.index_of_stack(*kind, *n, *stack)),
            Call::StackAt { kind, n, index } => Answered::Stacked(system.stack_at_index(*kind, *n, *index)),
            Call::Turn { kind, n, stack, k } => Answered::Stacked(system.turn(*kind, *n, *stack, *k)),
            Call::Begin { fields } => Answered::Answer(fields.begin(system)),
            Call::Blank { job, j, .. } => Answered::Answer(system.blank(job, *j, segment.slice())),
            Call::Expand { job, j, .. } => Answered::Expanded(system.expand(job, *j, segment.slice(), logs.slice())),
            Call::Settle { job, j, .. } => Answered::Answer(system.settle(job, *j, segment.slice(), logs.slice())),
            Call::Look { job, j, .. } => Answered::Looked(system.look(job, *j, logs.slice())),
            Call::Close { job, way } => Answered::Answer(system.close(job, *way)),
            Call::Load { job, b, .. } => Answered::Answer(system.load(job, *b, segment.slice(), list.slice())),
            Call::Sweep { job, j, .. } => Answered::Answer(system.sweep(job, *j, segment.slice(), list.slice())),
            Call::ReadEntry { kind, n, table, index } => {
                Answered::Entry(reading(table, &mut kept_off, |table| system.read_entry(*kind, *n, table, *index)))
            }
            Call::Plan { kind, n, wanted, given, groups, table, .. } => {
                let list = list.slice();
                Answered::Planned(reading(table, &mut kept_off, |table| {
                    system.plan(*kind, *n, *wanted, *given, *groups, table, list)
                }))
            }
            Call::Price { kind, n, wanted, given, groups, table, tariff, .. } => {
                let list = list.slice();
                Answered::Priced(reading(table, &mut kept_off, |table| {
                    system.price(*kind, *n, *wanted, *given, *groups, table, list, tariff)
                }))
            }
            Call::Build { fields, .. } => {
                Answered::Answer(fields.build_table(system, segment.slice(), logs.slice(), list.slice()))
            }
        };
        let segment = segment.contents(&mut kept_off);
        let logs = logs.contents(&mut kept_off);
        let list = list.contents(&mut kept_off);
        kept_off &= match self {
            Call::Settle { logs: lent, .. } | Call::Look { logs: lent, .. } => logs == *lent,
            Call::Load { segment: lent, .. } => segment == *lent,
            Call::Sweep { list: lent, .. } => list == *lent,
            _ => true,
        };
        Outcome { answer, segment, logs, list, kept_off }
    }
}

// Lends a copy of a table for reading, and sees that it stays as it was.
fn reading<R>(table: &[u8], kept_off: &mut bool, call: impl FnOnce(&[u8]) -> R) -> R {
    if table.len() > COPIED {
        return call(table);
    }
    let mut copy = Lent::new(table, 0xa5);
    let answer = call(copy.slice());
    *kept_off &= copy.contents(kept_off) == table;
    answer
}

// ---- In print

// At most so many runs of a buffer are printed.
const PRINTED: usize = 4096;

// A buffer in hexadecimal, runs of equal items as item*times.
struct Runs<'a, T>(&'a [T]);

impl<T: PartialEq + fmt::LowerHex> fmt::Display for Runs<'_, T> {
    fn fmt(&self, f: &mut fmt::Formatter) -> fmt::Result {
        write!(f, "{} [", self.0.len())?;
        for (place, run) in self.0.chunk_by(|a, b| a == b).enumerate() {
            if place == PRINTED {
                write!(f, " ..")?;
                break;
            }
            let times = if run.len() > 1 { format!("*{}", run.len()) } else { String::new() };
            write!(f, "{}{:x}{}", if place > 0 { " " } else { "" }, run[0], times)?;
        }
        write!(f, "]")
    }
}

struct Shown<'a>(&'a Job);

impl fmt::Display for Shown<'_> {
    fn fmt(&self, f: &mut fmt::Formatter) -> fmt::Result {
        let Job { kind, n, wanted, groups, size, room, phase, way, loaded, passed, waiting, swept, counts } = self.0;
        write!(f, "kind {kind} n {n} wanted {wanted:?} groups {groups:#b} size {size} room {room} phase {phase:?}")?;
        write!(f, " way {way} loaded {loaded}\n    passed  {}\n    waiting {}", Runs(passed), Runs(waiting))?;
        write!(f, "\n    swept   {}\n    counts  {}", Runs(swept), Runs(counts))
    }
}

struct Lines<'a>(&'a Tariff);

impl fmt::Display for Lines<'_> {
    fn fmt(&self, f: &mut fmt::Formatter) -> fmt::Result {
        write!(f, "{} of [", self.0.count)?;
        for (place, Line { first, last, price }) in self.0.lines.iter().enumerate() {
            write!(f, "{}{first} to {last}: {price}", if place > 0 { ", " } else { "" })?;
        }
        write!(f, "]")
    }
}

impl fmt::Display for Call {
    fn fmt(&self, f: &mut fmt::Formatter) -> fmt::Result {
        write!(f, "{}", OPERATIONS[self.operation()])?;
        match self {
            Call::Index { kind, n, stack } => write!(f, " kind {kind} n {n} stack {stack:?}"),
            Call::StackAt { kind, n, index } => write!(f, " kind {kind} n {n} index {index}"),
            Call::Turn { kind, n, stack, k } => write!(f, " kind {kind} n {n} stack {stack:?} k {k}"),
            Call::Begin { fields } => write!(f, " {fields:?}"),
            Call::Blank { job, j, segment } => write!(f, " j {j}\n    {}\n    segment {}", Shown(job), Runs(segment)),
            Call::Expand { job, j, segment, logs } | Call::Settle { job, j, segment, logs } => {
                write!(f, " j {j}\n    {}\n    segment {}\n    logs    {}", Shown(job), Runs(segment), Runs(logs))
            }
            Call::Look { job, j, logs } => write!(f, " j {j}\n    {}\n    logs    {}", Shown(job), Runs(logs)),
            Call::Close { job, way } => write!(f, " way {way}\n    {}", Shown(job)),
            Call::Load { job, b: j, segment, list } | Call::Sweep { job, j, segment, list } => {
                write!(f, " of {j}\n    {}\n    segment {}\n    list    {}", Shown(job), Runs(segment), Runs(list))
            }
            Call::ReadEntry { kind, n, table, index } => {
                write!(f, " kind {kind} n {n} index {index}\n    table   {}", Runs(table))
            }
            Call::Plan { kind, n, wanted, given, groups, table, list }
            | Call::Price { kind, n, wanted, given, groups, table, list, .. } => {
                write!(f, " kind {kind} n {n} wanted {wanted:?} given {given:?} groups {groups:#b}")?;
                write!(f, "\n    table   {}\n    list    {}", Runs(table), Runs(list))?;
                match self {
                    Call::Price { tariff, .. } => write!(f, "\n    tariff  {}", Lines(tariff)),
                    _ => Ok(()),
                }
            }
            Call::Build { fields, table, logs, list } => {
                write!(f, " {fields:?}\n    table   {}", Runs(table))?;
                write!(f, "\n    logs    {}\n    list    {}", Runs(logs), Runs(list))
            }
        }
    }
}

impl fmt::Display for Outcome {
    fn fmt(&self, f: &mut fmt::Formatter) -> fmt::Result {
        match &self.answer {
            Answered::Answer(answer) => write!(f, "refusal {}\n    {}", answer.refusal, Shown(&answer.job))?,
            Answered::Expanded(Expanded { refusal, waits, on, job }) => {
                write!(f, "refusal {refusal} waits {waits} on {on}\n    {}", Shown(job))?
            }
            other => write!(f, "{other:?}")?,
        }
        if !self.segment.is_empty() {
            write!(f, "\n    segment {}", Runs(&self.segment))?;
        }
        if !self.logs.is_empty() {
            write!(f, "\n    logs    {}", Runs(&self.logs))?;
        }
        if !self.list.is_empty() {
            write!(f, "\n    list    {}", Runs(&self.list))?;
        }
        if !self.kept_off {
            write!(f, "\n    wrote where it must not")?;
        }
        Ok(())
    }
}
