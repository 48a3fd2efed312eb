// The job, the tariff and the answers as types, and the trait that each implementation of the papers' operations fills.

use crate::build::{self, Fields};
use crate::paper::PAPER;

// A stack travels as twelve signed places, top first, unused places zero.
pub type Stack = [i8; 12];

pub const NO_STACK: Stack = [0; 12];

// A set of group sizes: size k is the bit of weight 2^(k-1), and any bits may come.
pub type Groups = u32;

// The ways of a level, and the number for no loaded segment. Close takes any other way than forward for reverse.
pub const FORWARD: u8 = 0;
pub const REVERSE: u8 = 1;
pub const NO_SEGMENT: u8 = 64;

#[derive(Clone, Copy, PartialEq, Eq, Debug)]
pub enum Phase {
    Blanking,
    Level(u8),
    Finished(u8),
    // A phase number and a level that are no phase: only C's mirror of the job can hold them.
    NoPhase(u8, u8),
}

impl Phase {
    // The phase number and the level of C's mirror.
    pub fn numbers(self) -> (u8, u8) {
        match self {
            Phase::Blanking => (0, 0),
            Phase::Level(d) => (1, d),
            Phase::Finished(deepest) => (2, deepest),
            Phase::NoPhase(number, level) => (number, level),
        }
    }

    pub fn of_numbers(number: u8, level: u8) -> Phase {
        match (number, level) {
            (0, 0) => Phase::Blanking,
            (1, d) => Phase::Level(d),
            (2, deepest) => Phase::Finished(deepest),
            _ => Phase::NoPhase(number, level),
        }
    }
}

// A build: groups are the sizes that the frame lifts, size is document 01's S, room its C. In swept[b] each segment j that is swept against b is
// the bit of weight 2^j.
#[derive(Clone, Copy, PartialEq, Eq, Debug)]
pub struct Job {
    pub kind: u8,
    pub n: u8,
    pub wanted: Stack,
    pub groups: Groups,
    pub size: u32,
    pub room: u32,
    pub phase: Phase,
    // As C's mirror holds it: any number may come.
    pub way: u8,
    pub loaded: u8,
    pub passed: [u32; 64],
    pub waiting: [u32; 64],
    pub swept: [u64; 64],
    pub counts: [u64; 256],
}

// What stands beside a refusal of Begin and of Build the whole table.
pub const NO_JOB: Job = Job {
    kind: 0,
    n: 0,
    wanted: NO_STACK,
    groups: 0,
    size: 0,
    room: 0,
    phase: Phase::Blanking,
    way: FORWARD,
    loaded: NO_SEGMENT,
    passed: [0; 64],
    waiting: [0; 64],
    swept: [0; 64],
    counts: [0; 256],
};

// A line of a tariff: a turn of a group of first to last panes costs price, in thousandths of a penny.
#[derive(Clone, Copy, PartialEq, Eq, Debug)]
pub struct Line {
    pub first: u8,
    pub last: u8,
    pub price: u32,
}

pub const NO_LINE: Line = Line { first: 0, last: 0, price: 0 };

// Document 02's tariff is the first count lines; what stands in the other places does not matter.
#[derive(Clone, Copy, PartialEq, Eq, Debug)]
pub struct Tariff {
    pub count: u32,
    pub lines: [Line; 12],
}

impl Tariff {
    // The first size, the last one and the price of each line. Lines past the twelfth are counted only; NO_LINE fills the other places.
    pub fn of(lines: &[(u8, u8, u32)]) -> Tariff {
        let mut tariff = Tariff { count: lines.len() as u32, lines: [NO_LINE; 12] };
        for (place, &(first, last, price)) in tariff.lines.iter_mut().zip(lines) {
            *place = Line { first, last, price };
        }
        tariff
    }
}

// In each answer, refusal is the refusal's number, and 0 where the call did its work.
// What stands beside a refusal: index 0, NO_STACK, the job as given (NO_JOB from Begin and Build), false and 0, entry 0, no turns, no pennies.
#[derive(Clone, Copy, PartialEq, Eq, Debug)]
pub struct Indexed {
    pub refusal: u8,
    pub index: u32,
}

#[derive(Clone, Copy, PartialEq, Eq, Debug)]
pub struct Stacked {
    pub refusal: u8,
    pub stack: Stack,
}

#[derive(Clone, Copy, PartialEq, Eq, Debug)]
pub struct Answer {
    pub refusal: u8,
    pub job: Job,
}

// Passed where waits is false (on is 0 then), else Waiting with segment on.
#[derive(Clone, Copy, PartialEq, Eq, Debug)]
pub struct Expanded {
    pub refusal: u8,
    pub waits: bool,
    pub on: u32,
    pub job: Job,
}

// The part of the log area handed back, as its start and length, and the lent number. Refused: start 0, length 0.
#[derive(Clone, Copy, PartialEq, Eq, Debug)]
pub struct Looked {
    pub start: usize,
    pub len: usize,
    pub number: u8,
}

#[derive(Clone, Copy, PartialEq, Eq, Debug)]
pub struct Entry {
    pub refusal: u8,
    pub entry: u8,
}

#[derive(Clone, Copy, PartialEq, Eq, Debug)]
pub struct Planned {
    pub refusal: u8,
    pub turns: u32,
}

#[derive(Clone, Copy, PartialEq, Eq, Debug)]
pub struct Priced {
    pub refusal: u8,
    pub turns: u32,
    pub pennies: u32,
}

// The operations of documents 01 and 02. Every argument may hold any value.
pub trait System {
    fn index_of_stack(&self, kind: u8, n: u8, stack: Stack) -> Indexed;
    fn stack_at_index(&self, kind: u8, n: u8, index: u32) -> Stacked;
    fn turn(&self, kind: u8, n: u8, stack: Stack, k: u8) -> Stacked;
    fn begin(&self, kind: u8, n: u8, wanted: Stack, groups: Groups, size: u32, room: u32) -> Answer;
    fn blank(&self, job: &Job, j: u32, segment: &mut [u8]) -> Answer;
    fn expand(&self, job: &Job, j: u32, segment: &mut [u8], logs: &mut [u32]) -> Expanded;
    fn settle(&self, job: &Job, j: u32, segment: &mut [u8], logs: &[u32]) -> Answer;
    fn look(&self, job: &Job, j: u32, logs: &[u32]) -> Looked;
    fn close(&self, job: &Job, way: u8) -> Answer;
    fn load(&self, job: &Job, b: u32, segment: &[u8], list: &mut [u8]) -> Answer;
    fn sweep(&self, job: &Job, j: u32, segment: &mut [u8], list: &[u8]) -> Answer;
    fn read_entry(&self, kind: u8, n: u8, table: &[u8], index: u32) -> Entry;
    #[allow(clippy::too_many_arguments)]
    fn plan(
        &self,
        kind: u8,
        n: u8,
        wanted: Stack,
        given: Stack,
        groups: Groups,
        table: &[u8],
        list: &mut [u8],
    ) -> Planned;

    // Price. Unless a system has a call for it, the paper prices the plan that the system makes.
    #[allow(clippy::too_many_arguments)]
    fn price(
        &self,
        kind: u8,
        n: u8,
        wanted: Stack,
        given: Stack,
        groups: Groups,
        table: &[u8],
        list: &mut [u8],
        tariff: &Tariff,
    ) -> Priced {
        PAPER.price_by(self, kind, n, wanted, given, groups, table, list, tariff)
    }

    // Build the whole table. Unless a system has a call for it, it makes its own calls, in the order that Build::drive has.
    #[allow(clippy::too_many_arguments)]
    fn build_table(
        &self,
        kind: u8,
        n: u8,
        wanted: Stack,
        groups: Groups,
        size: u32,
        room: u32,
        table: &mut [u8],
        logs: &mut [u32],
        list: &mut [u8],
    ) -> Answer {
        let fields = Fields { kind, n, wanted, groups, size, room };
        build::whole_table(self, &fields, build::chosen_way, table, logs, list)
    }
}
