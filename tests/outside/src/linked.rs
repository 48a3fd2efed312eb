// The proved library as a system, through its C boundary: include/hokrund.h once more, as Rust declares it.
#![allow(unsafe_code)]

use std::mem::{offset_of, size_of};

use crate::system::*;

#[derive(Clone, Copy)]
#[repr(C)]
struct CStack {
    places: Stack,
}

#[derive(Clone, Copy)]
#[repr(C)]
struct CJob {
    kind: u8,
    n: u8,
    phase: u8,
    level: u8,
    way: u8,
    loaded: u8,
    wanted: CStack,
    reserved: [u8; 2],
    groups: u32,
    size: u32,
    room: u32,
    passed: [u32; 64],
    waiting: [u32; 64],
    swept: [u64; 64],
    counts: [u64; 256],
}

#[repr(C)]
struct CIndexed {
    refusal: u8,
    index: u32,
}

#[repr(C)]
struct CStacked {
    refusal: u8,
    stack: CStack,
}

#[repr(C)]
struct CAnswer {
    refusal: u8,
    job: CJob,
}

#[repr(C)]
struct CExpanded {
    refusal: u8,
    // C's bool, as a byte: whatever the library puts there may be read.
    waits: u8,
    on: u32,
    job: CJob,
}

#[repr(C)]
struct CLook {
    refusal: u8,
    start: usize,
    length: usize,
}

#[repr(C)]
struct CEntry {
    refusal: u8,
    entry: u8,
}

#[repr(C)]
struct CPlanned {
    refusal: u8,
    turns: u32,
}

#[derive(Clone, Copy)]
#[repr(C)]
struct CLine {
    first: u8,
    last: u8,
    price: u32,
}

#[repr(C)]
struct CTariff {
    count: u32,
    lines: [CLine; 12],
}

#[repr(C)]
struct CPriced {
    refusal: u8,
    turns: u32,
    pennies: u32,
}

// The bytes of the job as it crosses the boundary.
pub const JOB_BYTES: usize = size_of::<CJob>();

// The layout that include/hokrund.h asserts on its side.
const _: () = {
    assert!(JOB_BYTES == 3104 && offset_of!(CJob, way) == 4 && offset_of!(CJob, loaded) == 5);
    assert!(offset_of!(CJob, wanted) == 6 && offset_of!(CJob, reserved) == 18 && offset_of!(CJob, groups) == 20);
    assert!(offset_of!(CJob, size) == 24 && offset_of!(CJob, room) == 28);
    assert!(offset_of!(CJob, passed) == 32 && offset_of!(CJob, waiting) == 288);
    assert!(offset_of!(CJob, swept) == 544 && offset_of!(CJob, counts) == 1056);
    assert!(size_of::<CIndexed>() == 8 && size_of::<CStacked>() == 13);
    assert!(size_of::<CAnswer>() == 3112 && offset_of!(CAnswer, job) == 8);
    assert!(size_of::<CExpanded>() == 3112 && offset_of!(CExpanded, on) == 4 && offset_of!(CExpanded, job) == 8);
    assert!(size_of::<CLook>() == 24 && size_of::<CEntry>() == 2 && size_of::<CPlanned>() == 8);
    assert!(size_of::<CLine>() == 8 && offset_of!(CLine, last) == 1 && offset_of!(CLine, price) == 4);
    assert!(size_of::<CTariff>() == 100 && offset_of!(CTariff, lines) == 4);
    assert!(size_of::<CPriced>() == 12 && offset_of!(CPriced, turns) == 4 && offset_of!(CPriced, pennies) == 8);
};

// Where each field of each struct stands.
pub fn places() -> [(&'static str, Vec<usize>); 11] {
    macro_rules! places {
        ($of:ty: $($field:ident)*) => { vec![$(offset_of!($of, $field)),*] };
    }
    [
        (
            "HokrundJob",
            places!(CJob: kind n phase level way loaded wanted reserved groups size room passed waiting swept counts),
        ),
        ("HokrundIndexed", places!(CIndexed: refusal index)),
        ("HokrundStacked", places!(CStacked: refusal stack)),
        ("HokrundAnswer", places!(CAnswer: refusal job)),
        ("HokrundExpanded", places!(CExpanded: refusal waits on job)),
        ("HokrundLook", places!(CLook: refusal start length)),
        ("HokrundEntry", places!(CEntry: refusal entry)),
        ("HokrundPlanned", places!(CPlanned: refusal turns)),
        ("HokrundLine", places!(CLine: first last price)),
        ("HokrundTariff", places!(CTariff: count lines)),
        ("HokrundPriced", places!(CPriced: refusal turns pennies)),
    ]
}

extern "C" {
    fn hokrund_version() -> u32;
    fn hokrund_index_of_stack(kind: u8, n: u8, stack: CStack) -> CIndexed;
    fn hokrund_stack_at_index(kind: u8, n: u8, index: u32) -> CStacked;
    fn hokrund_turn(kind: u8, n: u8, stack: CStack, k: u8) -> CStacked;
    fn hokrund_begin(kind: u8, n: u8, wanted: CStack, groups: u32, size: u32, room: u32) -> CAnswer;
    fn hokrund_blank(job: CJob, j: u32, segment: *mut u8, length: usize) -> CAnswer;
    fn hokrund_expand(job: CJob, j: u32, segment: *mut u8, length: usize, log: *mut u32, words: usize) -> CExpanded;
    fn hokrund_settle(job: CJob, j: u32, segment: *mut u8, length: usize, log: *const u32, words: usize) -> CAnswer;
    fn hokrund_look(job: CJob, j: u32, log: *const u32, words: usize) -> CLook;
    fn hokrund_close(job: CJob, way: u8) -> CAnswer;
    fn hokrund_load(job: CJob, b: u32, segment: *const u8, length: usize, list: *mut u8, bytes: usize) -> CAnswer;
    fn hokrund_sweep(job: CJob, j: u32, segment: *mut u8, length: usize, list: *const u8, bytes: usize) -> CAnswer;
    fn hokrund_read_entry(kind: u8, n: u8, table: *const u8, length: usize, index: u32) -> CEntry;
    #[allow(clippy::too_many_arguments)]
    fn hokrund_plan(
        kind: u8,
        n: u8,
        wanted: CStack,
        given: CStack,
        groups: u32,
        table: *const u8,
        length: usize,
        list: *mut u8,
        slots: usize,
    ) -> CPlanned;
    #[allow(clippy::too_many_arguments)]
    fn hokrund_price(
        kind: u8,
        n: u8,
        wanted: CStack,
        given: CStack,
        groups: u32,
        table: *const u8,
        length: usize,
        list: *mut u8,
        slots: usize,
        tariff: CTariff,
    ) -> CPriced;
    #[allow(clippy::too_many_arguments)]
    fn hokrund_build_table(
        kind: u8,
        n: u8,
        wanted: CStack,
        groups: u32,
        size: u32,
        room: u32,
        table: *mut u8,
        length: usize,
        log: *mut u32,
        words: usize,
        list: *mut u8,
        bytes: usize,
    ) -> CAnswer;
}

// The number that the library answers for its interface.
pub fn version() -> u32 {
    unsafe { hokrund_version() }
}

fn mirror(job: &Job, reserved: [u8; 2]) -> CJob {
    let (phase, level) = job.phase.numbers();
    CJob {
        kind: job.kind,
        n: job.n,
        phase,
        level,
        way: job.way,
        loaded: job.loaded,
        wanted: CStack { places: job.wanted },
        reserved,
        groups: job.groups,
        size: job.size,
        room: job.room,
        passed: job.passed,
        waiting: job.waiting,
        swept: job.swept,
        counts: job.counts,
    }
}

fn job(mirror: CJob) -> Job {
    Job {
        kind: mirror.kind,
        n: mirror.n,
        wanted: mirror.wanted.places,
        groups: mirror.groups,
        size: mirror.size,
        room: mirror.room,
        phase: Phase::of_numbers(mirror.phase, mirror.level),
        way: mirror.way,
        loaded: mirror.loaded,
        passed: mirror.passed,
        waiting: mirror.waiting,
        swept: mirror.swept,
        counts: mirror.counts,
    }
}

fn tariff(tariff: &Tariff) -> CTariff {
    let line = |Line { first, last, price }| CLine { first, last, price };
    CTariff { count: tariff.count, lines: tariff.lines.map(line) }
}

// Reserved bytes that are not 0 make an answer one that no operation gives.
fn refusal_of(refusal: u8, job: &CJob) -> u8 {
    if job.reserved == [0; 2] {
        refusal
    } else {
        u8::MAX
    }
}

fn answer(a: CAnswer) -> Answer {
    Answer { refusal: refusal_of(a.refusal, &a.job), job: job(a.job) }
}

fn expanded(e: CExpanded) -> Expanded {
    // So does a byte that is no bool.
    let refusal = if e.waits > 1 { u8::MAX } else { refusal_of(e.refusal, &e.job) };
    Expanded { refusal, waits: e.waits == 1, on: e.on, job: job(e.job) }
}

// What either sort of answer is taken for whose job has these reserved bytes, though its own refusal is 0.
pub fn taken_for(reserved: [u8; 2]) -> [u8; 2] {
    let job = mirror(&NO_JOB, reserved);
    let expanded = expanded(CExpanded { refusal: 0, waits: 0, on: 0, job });
    [answer(CAnswer { refusal: 0, job }).refusal, expanded.refusal]
}

fn stacked(s: CStacked) -> Stacked {
    Stacked { refusal: s.refusal, stack: s.stack.places }
}

// The library, which is given jobs with these reserved bytes.
pub struct Library {
    pub reserved: [u8; 2],
}

pub const LIBRARY: Library = Library { reserved: [0; 2] };

impl Library {
    fn mirror(&self, job: &Job) -> CJob {
        mirror(job, self.reserved)
    }
}

// Each slice is lent as its pointer and length, which is all that the library asks of its caller.
impl System for Library {
    fn index_of_stack(&self, kind: u8, n: u8, stack: Stack) -> Indexed {
        let r = unsafe { hokrund_index_of_stack(kind, n, CStack { places: stack }) };
        Indexed { refusal: r.refusal, index: r.index }
    }

    fn stack_at_index(&self, kind: u8, n: u8, index: u32) -> Stacked {
        stacked(unsafe { hokrund_stack_at_index(kind, n, index) })
    }

    fn turn(&self, kind: u8, n: u8, stack: Stack, k: u8) -> Stacked {
        stacked(unsafe { hokrund_turn(kind, n, CStack { places: stack }, k) })
    }

    fn begin(&self, kind: u8, n: u8, wanted: Stack, groups: Groups, size: u32, room: u32) -> Answer {
        answer(unsafe { hokrund_begin(kind, n, CStack { places: wanted }, groups, size, room) })
    }

    fn blank(&self, job: &Job, j: u32, segment: &mut [u8]) -> Answer {
        answer(unsafe { hokrund_blank(self.mirror(job), j, segment.as_mut_ptr(), segment.len()) })
    }

    fn expand(&self, job: &Job, j: u32, segment: &mut [u8], logs: &mut [u32]) -> Expanded {
        expanded(unsafe {
            hokrund_expand(self.mirror(job), j, segment.as_mut_ptr(), segment.len(), logs.as_mut_ptr(), logs.len())
        })
    }

    fn settle(&self, job: &Job, j: u32, segment: &mut [u8], logs: &[u32]) -> Answer {
        answer(unsafe {
            hokrund_settle(self.mirror(job), j, segment.as_mut_ptr(), segment.len(), logs.as_ptr(), logs.len())
        })
    }

    fn look(&self, job: &Job, j: u32, logs: &[u32]) -> Looked {
        let r = unsafe { hokrund_look(self.mirror(job), j, logs.as_ptr(), logs.len()) };
        Looked { start: r.start, len: r.length, number: r.refusal }
    }

    fn close(&self, job: &Job, way: u8) -> Answer {
        answer(unsafe { hokrund_close(self.mirror(job), way) })
    }

    fn load(&self, job: &Job, b: u32, segment: &[u8], list: &mut [u8]) -> Answer {
        answer(unsafe {
            hokrund_load(self.mirror(job), b, segment.as_ptr(), segment.len(), list.as_mut_ptr(), list.len())
        })
    }

    fn sweep(&self, job: &Job, j: u32, segment: &mut [u8], list: &[u8]) -> Answer {
        answer(unsafe {
            hokrund_sweep(self.mirror(job), j, segment.as_mut_ptr(), segment.len(), list.as_ptr(), list.len())
        })
    }

    fn read_entry(&self, kind: u8, n: u8, table: &[u8], index: u32) -> Entry {
        let r = unsafe { hokrund_read_entry(kind, n, table.as_ptr(), table.len(), index) };
        Entry { refusal: r.refusal, entry: r.entry }
    }

    fn plan(
        &self,
        kind: u8,
        n: u8,
        wanted: Stack,
        given: Stack,
        groups: Groups,
        table: &[u8],
        list: &mut [u8],
    ) -> Planned {
        let (wanted, given) = (CStack { places: wanted }, CStack { places: given });
        let (length, slots) = (table.len(), list.len());
        let r =
            unsafe { hokrund_plan(kind, n, wanted, given, groups, table.as_ptr(), length, list.as_mut_ptr(), slots) };
        Planned { refusal: r.refusal, turns: r.turns }
    }

    fn price(
        &self,
        kind: u8,
        n: u8,
        wanted: Stack,
        given: Stack,
        groups: Groups,
        table: &[u8],
        list: &mut [u8],
        tariff: &Tariff,
    ) -> Priced {
        let (wanted, given, tariff) = (CStack { places: wanted }, CStack { places: given }, self::tariff(tariff));
        let (length, slots) = (table.len(), list.len());
        let (table, list) = (table.as_ptr(), list.as_mut_ptr());
        let r = unsafe { hokrund_price(kind, n, wanted, given, groups, table, length, list, slots, tariff) };
        Priced { refusal: r.refusal, turns: r.turns, pennies: r.pennies }
    }

    fn build_table(
        &self,
        kind: u8,
        n: u8,
        wanted: Stack,
        groups: Groups,
        size: u32,
        room: u32,
        table: &mut [u8],
        logs: &mut [u32],
        list: &mut [u8],
    ) -> Answer {
        let wanted = CStack { places: wanted };
        let (length, words, bytes) = (table.len(), logs.len(), list.len());
        let (table, logs, list) = (table.as_mut_ptr(), logs.as_mut_ptr(), list.as_mut_ptr());
        answer(unsafe {
            hokrund_build_table(kind, n, wanted, groups, size, room, table, length, logs, words, list, bytes)
        })
    }
}
