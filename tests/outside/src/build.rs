// A build with everything that its calls are lent, and drivers that bring it to its end.

use crate::paper::{self, Measures, COATED, PAPER, UNSEEN};
use crate::rng::Rng;
use crate::search::{self, Distances};
use crate::system::*;

// The changed list has room for that of any segment; that of the loaded one stands at its front.
#[derive(Clone)]
pub struct Build {
    pub job: Job,
    pub measures: Measures,
    pub segments: Vec<Vec<u8>>,
    pub logs: Vec<u32>,
    pub list: Vec<u8>,
}

// A refused call of a driver: the number and the call.
pub type Refused = (u8, &'static str);

// A call that a driver makes, and the segment that it names.
enum Step {
    Blank(u32),
    Expand(u32),
    Settle(u32),
    Load(u32),
    Sweep(u32),
    Close,
}

// The order in which a driver takes the segments of a level, or its pairs of segments.
#[derive(Clone, Copy, PartialEq, Debug)]
pub enum Order {
    Rising,
    Falling,
    OddFirst,
    Shuffled,
}

// The way that a driver tells each Close: alternating, the other one than it closes; mixed, any number, so that either way comes by chance.
#[derive(Clone, Copy, PartialEq, Debug)]
pub enum Ways {
    Forward,
    Reverse,
    Alternating,
    Mixed,
}

// How a driver goes.
#[derive(Clone, Copy, PartialEq, Debug)]
pub struct Manner {
    pub order: Order,
    pub ways: Ways,
}

pub const FORWARD_RISING: Manner = Manner { order: Order::Rising, ways: Ways::Forward };

impl Build {
    // Begins; segments, log area and changed list hold anything. Refused, the number.
    pub fn begin<S: System + ?Sized>(system: &S, fields: &Fields, rng: &mut Rng) -> Result<Build, u8> {
        let begun = fields.begin(system);
        if begun.refusal != 0 {
            return Err(begun.refusal);
        }
        let measures = fields.measures()?;
        let segments = (0..measures.segments).map(|j| rng.bytes(measures.bytes_of(j))).collect();
        let (logs, list) = (rng.words(measures.log_numbers()), rng.bytes(measures.list_bytes_of(0)));
        Ok(Build { job: begun.job, measures, segments, logs, list })
    }

    pub fn deepest(&self) -> Option<u8> {
        match self.job.phase {
            Phase::Finished(deepest) => Some(deepest),
            _ => None,
        }
    }

    // The segments joined.
    pub fn table(&self) -> Vec<u8> {
        self.segments.concat()
    }

    // Deepest level, entries, spare entries and counts of a finished build against the plain search.
    pub fn agrees_with(&self, distances: &Distances) -> Result<(), String> {
        let deepest = self.deepest().ok_or("the build is not finished")?;
        if deepest as usize != distances.deepest() {
            return Err(format!("deepest is {deepest} and not {}", distances.deepest()));
        }
        let table = self.table();
        for i in 0..4 * table.len() as u64 {
            let right = distances.turns.get(i as usize).copied().flatten().map_or(UNSEEN, |turns| turns % 3);
            let entry = paper::entry_at(&table, i);
            if entry != right {
                return Err(format!("entry {i} is {entry} and not {right}"));
            }
        }
        for (level, count) in self.job.counts.iter().enumerate() {
            let right = distances.counts.get(level).copied().unwrap_or(0);
            if *count != right {
                return Err(format!("count {level} is {count} and not {right}"));
            }
        }
        let Job { loaded, passed, waiting, swept, .. } = self.job;
        if (loaded, passed, waiting, swept) != (NO_SEGMENT, [0; 64], [0; 64], [0; 64]) {
            return Err("something is loaded, passed, waiting or swept at the end".to_string());
        }
        Ok(())
    }

    // Brings a begun build to its end. A refusal is an error here: the number and the call.
    pub fn finish<S: System + ?Sized>(&mut self, system: &S, manner: Manner, rng: &mut Rng) -> Result<u8, Refused> {
        self.blank_all(system, manner, rng)?;
        loop {
            if let Some(deepest) = self.deepest() {
                return Ok(deepest);
            }
            self.level(system, manner, rng)?;
        }
    }

    // Blanks every segment and closes.
    pub fn blank_all<S: System + ?Sized>(&mut self, system: &S, manner: Manner, rng: &mut Rng) -> Result<(), Refused> {
        for j in self.in_order(manner.order, rng) {
            self.blank(system, j)?;
        }
        self.close(system, manner.ways, rng)
    }

    // Goes through a level by its way and closes.
    pub fn level<S: System + ?Sized>(&mut self, system: &S, manner: Manner, rng: &mut Rng) -> Result<(), Refused> {
        if self.job.way == REVERSE {
            self.sweep_all(system, manner.order, rng)?;
        } else {
            self.expand_all(system, manner.order, rng)?;
        }
        self.close(system, manner.ways, rng)
    }

    // Expands and settles every segment.
    fn expand_all<S: System + ?Sized>(&mut self, system: &S, order: Order, rng: &mut Rng) -> Result<(), Refused> {
        let segments = self.in_order(order, rng);
        for &j in &segments {
            while let Some(on) = self.expand(system, j)? {
                self.settle(system, on)?;
            }
        }
        for j in segments {
            if self.job.waiting[j as usize] > 0 {
                self.settle(system, j)?;
            }
        }
        Ok(())
    }

    // Sweeps every segment against every segment. Shuffled, what is loaded changes from pair to pair.
    fn sweep_all<S: System + ?Sized>(&mut self, system: &S, order: Order, rng: &mut Rng) -> Result<(), Refused> {
        for (b, j) in self.pairs(order, rng) {
            self.load_once(system, b)?;
            self.sweep(system, j)?;
        }
        Ok(())
    }

    // Every b and j in some order.
    pub fn pairs(&self, order: Order, rng: &mut Rng) -> Vec<(u32, u32)> {
        let segments = self.in_order(order, rng);
        let mut pairs: Vec<(u32, u32)> = segments.iter().flat_map(|&b| segments.iter().map(move |&j| (b, j))).collect();
        if order == Order::Shuffled {
            rng.shuffle(&mut pairs);
        }
        pairs
    }

    // Brings a begun build to its end by the calls that Build the whole table makes, but for the way that each Close is told.
    pub fn drive<S: System + ?Sized>(&mut self, system: &S, way: impl Fn(&Build) -> u8) -> Result<u8, Refused> {
        loop {
            if let Some(deepest) = self.deepest() {
                return Ok(deepest);
            }
            match self.next_step() {
                Step::Blank(j) => self.blank(system, j)?,
                Step::Expand(j) => self.expand(system, j).map(drop)?,
                Step::Settle(j) => self.settle(system, j)?,
                Step::Load(b) => self.load(system, b)?,
                Step::Sweep(j) => self.sweep(system, j)?,
                Step::Close => self.accept(system.close(&self.job, way(self)), "Close")?,
            }
        }
    }

    // In Blanking the first open segment is blanked. Forward, the first pending one is settled, else the first open one expanded. Reverse, the
    // first one not swept against the loaded one is swept, else the first one with pairs left loaded. With nothing left it closes.
    fn next_step(&self) -> Step {
        let forward = || self.pending().next().map(Step::Settle).or_else(|| self.open().next().map(Step::Expand));
        let reverse = || self.unswept().next().map(Step::Sweep).or_else(|| self.due().next().map(Step::Load));
        let step = match (self.job.phase, self.job.way) {
            (Phase::Blanking, _) => self.open().next().map(Step::Blank),
            (_, REVERSE) => reverse(),
            _ => forward(),
        };
        step.unwrap_or(Step::Close)
    }

    fn segments_that<'a>(&'a self, fits: impl Fn(u64) -> bool + 'a) -> impl Iterator<Item = u32> + 'a {
        (0..self.measures.segments).filter(move |&j| fits(j)).map(|j| j as u32)
    }

    // Segments with stacks not passed.
    pub fn open(&self) -> impl Iterator<Item = u32> + '_ {
        self.segments_that(|j| u64::from(self.job.passed[j as usize]) < self.measures.stacks_of(j))
    }

    // Segments with entries waiting.
    pub fn pending(&self) -> impl Iterator<Item = u32> + '_ {
        self.segments_that(|j| self.job.waiting[j as usize] > 0)
    }

    // Segments not swept against the loaded one.
    pub fn unswept(&self) -> impl Iterator<Item = u32> + '_ {
        let loaded = self.job.loaded;
        self.segments_that(move |j| loaded != NO_SEGMENT && !paper::is_swept(&self.job, u64::from(loaded), j))
    }

    // Segments with pairs left.
    pub fn due(&self) -> impl Iterator<Item = u32> + '_ {
        let all = paper::segments_below(self.measures.segments);
        self.segments_that(move |b| self.job.swept[b as usize] != all)
    }

    fn in_order(&self, order: Order, rng: &mut Rng) -> Vec<u32> {
        let mut segments: Vec<u32> = (0..self.segments.len() as u32).collect();
        match order {
            Order::Rising => {}
            Order::Falling => segments.reverse(),
            Order::OddFirst => segments.sort_by_key(|j| j % 2 == 0),
            Order::Shuffled => rng.shuffle(&mut segments),
        }
        segments
    }

    // The stacks that no level has reached, and those of the level that closes, which in Blanking is level 0.
    pub fn unseen_and_closing(&self) -> (u64, u64) {
        let (_, level) = self.job.phase.numbers();
        (self.measures.stacks.saturating_sub(self.job.counts.iter().sum()), self.job.counts[level as usize])
    }

    fn blank<S: System + ?Sized>(&mut self, system: &S, j: u32) -> Result<(), Refused> {
        let blanked = system.blank(&self.job, j, &mut self.segments[j as usize]);
        self.accept(blanked, "Blank")
    }

    // The segment waited on.
    fn expand<S: System + ?Sized>(&mut self, system: &S, j: u32) -> Result<Option<u32>, Refused> {
        let expanded = system.expand(&self.job, j, &mut self.segments[j as usize], &mut self.logs);
        self.accept(Answer { refusal: expanded.refusal, job: expanded.job }, "Expand")?;
        Ok(expanded.waits.then_some(expanded.on))
    }

    fn settle<S: System + ?Sized>(&mut self, system: &S, j: u32) -> Result<(), Refused> {
        let settled = system.settle(&self.job, j, &mut self.segments[j as usize], &self.logs);
        self.accept(settled, "Settle")
    }

    // Loads a segment that is not the loaded one.
    pub fn load_once<S: System + ?Sized>(&mut self, system: &S, b: u32) -> Result<(), Refused> {
        if u32::from(self.job.loaded) == b {
            return Ok(());
        }
        self.load(system, b)
    }

    pub fn load<S: System + ?Sized>(&mut self, system: &S, b: u32) -> Result<(), Refused> {
        let bytes = self.list_of(b).len();
        let loaded = system.load(&self.job, b, &self.segments[b as usize], &mut self.list[..bytes]);
        self.accept(loaded, "Load")
    }

    pub fn sweep<S: System + ?Sized>(&mut self, system: &S, j: u32) -> Result<(), Refused> {
        let bytes = self.list_of(u32::from(self.job.loaded)).len();
        let swept = system.sweep(&self.job, j, &mut self.segments[j as usize], &self.list[..bytes]);
        self.accept(swept, "Sweep")
    }

    // The front of the changed list, as long as that of a segment; all of it where there is no such segment.
    pub fn list_of(&self, b: u32) -> &[u8] {
        let b = u64::from(b);
        let bytes = if b < self.measures.segments { self.measures.list_bytes_of(b) } else { self.list.len() };
        &self.list[..bytes]
    }

    pub fn close<S: System + ?Sized>(&mut self, system: &S, ways: Ways, rng: &mut Rng) -> Result<(), Refused> {
        let way = match ways {
            Ways::Forward => FORWARD,
            Ways::Reverse => REVERSE,
            Ways::Alternating if self.job.way == REVERSE => FORWARD,
            Ways::Alternating => REVERSE,
            Ways::Mixed => any_way(rng, 50),
        };
        self.accept(system.close(&self.job, way), "Close")
    }

    fn accept(&mut self, answer: Answer, call: &'static str) -> Result<(), Refused> {
        self.job = answer.job;
        match answer.refusal {
            0 => Ok(()),
            refusal => Err((refusal, call)),
        }
    }
}

// A number for Close: one that means reverse in about so many of a hundred.
pub fn any_way(rng: &mut Rng, reverse: u64) -> u8 {
    if rng.chance(reverse) {
        rng.pick(&[REVERSE, REVERSE, 2, 64, 128, 255])
    } else {
        FORWARD
    }
}

// The way that Build the whole table tells Close: reverse where the unseen stacks, once for each segment, are no more than those of the level
// that closes.
pub fn chosen_way(build: &Build) -> u8 {
    let (unseen, closing) = build.unseen_and_closing();
    u8::from(unseen * build.measures.segments <= closing)
}

// Build the whole table by the system's own calls: Begin's refusals, then 10 for the table's length, for the log area's and for the changed
// list's, which is that of the largest segment. Where Close gives 14 the build has ended too, at that level.
pub fn whole_table<S: System + ?Sized>(
    system: &S,
    fields: &Fields,
    way: impl Fn(&Build) -> u8,
    table: &mut [u8],
    logs: &mut [u32],
    list: &mut [u8],
) -> Answer {
    let begun = fields.begin(system);
    let measures = match fields.measures() {
        Ok(measures) if begun.refusal == 0 => measures,
        _ => return begun,
    };
    let right = (paper::bytes_of(measures.stacks), measures.log_numbers(), measures.list_bytes_of(0));
    if (table.len(), logs.len(), list.len()) != right {
        return Answer { refusal: 10, job: NO_JOB };
    }
    // As S is a multiple of 4, each segment but the last fills its bytes.
    let segments = table.chunks(fields.size as usize / 4).map(<[u8]>::to_vec).collect();
    let mut build = Build { job: begun.job, measures, segments, logs: logs.to_vec(), list: list.to_vec() };
    let refusal = match build.drive(system, way) {
        Ok(_) | Err((14, _)) => 0,
        Err((refusal, _)) => refusal,
    };
    table.copy_from_slice(&build.table());
    logs.copy_from_slice(&build.logs);
    list.copy_from_slice(&build.list);
    Answer { refusal, job: build.job }
}

// The six fields that Begin takes.
#[derive(Clone, Copy, Debug)]
pub struct Fields {
    pub kind: u8,
    pub n: u8,
    pub wanted: Stack,
    pub groups: Groups,
    pub size: u32,
    pub room: u32,
}

impl Fields {
    pub fn begin<S: System + ?Sized>(&self, system: &S) -> Answer {
        let Fields { kind, n, wanted, groups, size, room } = *self;
        system.begin(kind, n, wanted, groups, size, room)
    }

    pub fn build_table<S: System + ?Sized>(
        &self,
        system: &S,
        table: &mut [u8],
        logs: &mut [u32],
        list: &mut [u8],
    ) -> Answer {
        let Fields { kind, n, wanted, groups, size, room } = *self;
        system.build_table(kind, n, wanted, groups, size, room, table, logs, list)
    }

    pub fn measures(&self) -> Result<Measures, u8> {
        PAPER.measures(self.kind, self.n, &self.wanted, self.groups, self.size, self.room)
    }

    // A job of these fields in a phase, with nothing passed, waiting or counted.
    pub fn job(&self, phase: Phase) -> Job {
        let Fields { kind, n, wanted, groups, size, room } = *self;
        Job { kind, n, wanted, groups, size, room, phase, ..NO_JOB }
    }

    // The plain search for the wanted stack, by the turns of the set.
    pub fn distances(&self) -> Distances {
        search::search(self.kind == COATED, &self.wanted[..self.n as usize], self.groups)
    }
}

// The ordered stack of n panes, all coats up.
pub fn ordered(n: u8) -> Stack {
    std::array::from_fn(|place| if place < n as usize { place as i8 + 1 } else { 0 })
}

// The least S that cuts so many stacks into at most so many segments.
pub fn size_for(stacks: u64, segments: u64) -> u32 {
    (stacks.div_ceil(segments).div_ceil(4) * 4) as u32
}
