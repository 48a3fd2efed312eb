// One whole build by each method: what it takes, what it gives, and how many children it generates.

use std::fmt;
use std::time::Instant;

use outside::build::{chosen_way, ordered, size_for, Build, Fields, FORWARD_RISING};
use outside::linked::{JOB_BYTES, LIBRARY};
use outside::rng::Rng;
use outside::system::*;

use crate::fast::{all_groups, stacks_of, Fast};
use crate::queue;

#[derive(Clone, Copy, PartialEq, Debug)]
pub enum Method {
    // (a): the proved library.
    Library,
    // (b): the paper's method in plain Rust.
    Fast,
    // (c): one byte a stack with a queue.
    Queue,
}

pub const METHODS: [Method; 3] = [Method::Library, Method::Fast, Method::Queue];

impl Method {
    pub fn name(self) -> &'static str {
        match self {
            Method::Library => "(a) proved library",
            Method::Fast => "(b) two bits, plain Rust",
            Method::Queue => "(c) byte and queue",
        }
    }

    // The word that names it on the command line.
    pub fn word(self) -> String {
        format!("{self:?}").to_lowercase()
    }

    // The operations of document 01 by this method.
    pub fn system(self) -> Option<Box<dyn System>> {
        match self {
            Method::Library => Some(Box::new(LIBRARY)),
            Method::Fast => Some(Box::new(Fast)),
            Method::Queue => None,
        }
    }
}

// A kind and n to build for the ordered stack by every turn, with about so many segments and so much room in each log.
#[derive(Clone, Copy, PartialEq, Debug)]
pub struct Subject {
    pub kind: u8,
    pub n: u8,
    pub segments: u64,
    pub room: u32,
}

impl fmt::Display for Subject {
    fn fmt(&self, f: &mut fmt::Formatter) -> fmt::Result {
        write!(f, "{} {}", if self.kind == 0 { "plain" } else { "coated" }, self.n)
    }
}

impl Subject {
    pub fn fields(&self) -> Fields {
        let size = size_for(self.stacks(), self.segments).min(67_108_864);
        let groups = all_groups(self.kind, self.n);
        Fields { kind: self.kind, n: self.n, wanted: ordered(self.n), groups, size, room: self.room }
    }

    pub fn stacks(&self) -> u64 {
        u64::from(stacks_of(self.kind, self.n))
    }

    fn turns(&self) -> u64 {
        u64::from(self.n) - u64::from(self.kind == 0)
    }

    // The children that a method generates. The two-bit methods expand at level d the stacks of d-1, d-4, d-7 and so
    // on; a stack before which Expand stops is counted once.
    pub fn children(&self, method: Method, counts: &[u64; 256]) -> u64 {
        let expanded = match method {
            Method::Queue => self.stacks(),
            _ => {
                let last = counts.iter().rposition(|&count| count > 0).unwrap_or(0) + 1;
                (1..=last).flat_map(|d| (0..d).rev().step_by(3)).map(|depth| counts[depth]).sum()
            }
        };
        expanded * self.turns()
    }

    // The bytes of memory that a method is lent: table, log area and job, or a byte a stack and the queue.
    pub fn bytes(&self, method: Method) -> u64 {
        match method {
            Method::Queue => self.stacks() * 5,
            _ => {
                let measures = self.fields().measures().expect("the subject is right");
                let table: usize = (0..measures.segments).map(|j| measures.bytes_of(j)).sum();
                (table + 4 * measures.log_numbers() + JOB_BYTES) as u64
            }
        }
    }
}

// Who makes the calls of a whole build of the proved library, and the ways of its levels.
#[derive(Clone, Copy, PartialEq, Debug)]
pub enum Ways {
    // The same calls from outside: every level forward, or by the rule of Build the whole table.
    Forward,
    Chosen,
    // Build the whole table itself.
    Driver,
}

pub const WAYS: [Ways; 3] = [Ways::Forward, Ways::Chosen, Ways::Driver];

impl Ways {
    // The word that names them on the command line.
    pub fn word(self) -> String {
        format!("{self:?}").to_lowercase()
    }
}

// What a build lends, ready before the clock starts.
pub enum Lent {
    TwoBits { system: Box<dyn System>, build: Box<Build> },
    Queue { turns: Vec<u8>, queue: Vec<u32> },
}

// Seconds by the clock, and on the processor; where the system does not tell these, the clock's again.
#[derive(Clone, Copy)]
pub struct Took {
    pub wall: f64,
    pub processor: f64,
}

// Runs something and takes its time.
pub fn timed<R>(run: impl FnOnce() -> R) -> (R, Took) {
    let (start, before) = (Instant::now(), on_processor());
    let result = run();
    let wall = start.elapsed().as_secs_f64();
    let processor = on_processor().zip(before).map_or(wall, |(after, before)| after - before);
    (result, Took { wall, processor })
}

// The seconds that this thread has had on a processor, by the count of Linux, which moves in steps of milliseconds.
fn on_processor() -> Option<f64> {
    let line = std::fs::read_to_string("/proc/thread-self/schedstat").ok()?;
    Some(line.split(' ').next()?.parse::<f64>().ok()? / 1e9)
}

// What a build gave.
pub struct Built {
    pub took: Took,
    pub counts: [u64; 256],
    // The two-bit table, or the turns of each stack.
    pub cells: Vec<u8>,
}

impl Subject {
    // Allocates what a method is lent; touched means that its pages are there.
    pub fn lend(&self, method: Method, touched: bool) -> Lent {
        let fill = u8::from(touched);
        let Some(system) = method.system() else {
            let stacks = self.stacks() as usize;
            return Lent::Queue { turns: vec![fill; stacks], queue: vec![u32::from(fill); stacks] };
        };
        let fields = self.fields();
        let measures = fields.measures().expect("the subject is right");
        let job = fields.begin(system.as_ref()).job;
        let segments = (0..measures.segments).map(|j| vec![fill; measures.bytes_of(j)]).collect();
        let (logs, list) = (vec![u32::from(fill); measures.log_numbers()], vec![fill; measures.list_bytes_of(0)]);
        Lent::TwoBits { system, build: Box::new(Build { job, measures, segments, logs, list }) }
    }

    // Runs a whole build of the proved library.
    pub fn drive(&self, ways: Ways) -> Built {
        let Lent::TwoBits { system, mut build } = self.lend(Method::Library, false) else { unreachable!() };
        let way = match ways {
            Ways::Forward => |_: &Build| FORWARD,
            Ways::Chosen => chosen_way,
            Ways::Driver => {
                let (fields, mut cells) = (self.fields(), build.table());
                let Build { logs, list, .. } = build.as_mut();
                let (answer, took) = timed(|| fields.build_table(system.as_ref(), &mut cells, logs, list));
                return Built { took, counts: answer.job.counts, cells };
            }
        };
        let (finished, took) = timed(|| build.drive(system.as_ref(), way));
        finished.expect("no call of a build in order is refused");
        Built { took, counts: build.job.counts, cells: build.table() }
    }

    // Runs the build; the time is that of the calls alone.
    pub fn build(&self, lent: Lent) -> Built {
        match lent {
            Lent::TwoBits { system, mut build } => {
                let (finished, took) = timed(|| build.finish(system.as_ref(), FORWARD_RISING, &mut Rng::new(1)));
                finished.expect("no call of a build in order is refused");
                Built { took, counts: build.job.counts, cells: build.table() }
            }
            Lent::Queue { mut turns, mut queue } => {
                let search = if self.kind == 0 { queue::search::<false> } else { queue::search::<true> };
                let wanted = ordered(self.n);
                let (counts, took) = timed(|| search(self.n as usize, &wanted, &mut turns, &mut queue));
                Built { took, counts, cells: turns }
            }
        }
    }
}
