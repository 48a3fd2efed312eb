// Compares two systems call by call, and each answer with what the papers say of all calls.

use std::collections::BTreeMap;
use std::fmt;
use std::ops::{Range, RangeInclusive};

use crate::bill;
use crate::call::{Answered, Answers, Call, Outcome, OPERATIONS};
use crate::cases::{run_case, Family};
use crate::paper;
use crate::rng::Rng;
use crate::system::*;

// How often each operation gave each refusal (0: did its work), and what some answers were.
#[derive(Clone, Default)]
pub struct Tally {
    pub refusals: [[u64; LAST_REFUSAL + 1]; OPERATIONS.len()],
    pub waiting: u64,
    pub waiting_at_once: u64,
    pub finished: u64,
    pub finished_late: u64,
    // Of reverse levels: closed, finished, refused 13; of Sweeps: with stacks marked, with spare bits set in the list.
    pub reverse: u64,
    pub finished_reverse: u64,
    pub unswept: u64,
    pub marking: u64,
    pub spare_bits: u64,
    pub limited: [u64; OPERATIONS.len()],
    pub plans_by_turns: BTreeMap<u32, u64>,
    pub prices_by_turns: BTreeMap<u32, u64>,
    pub halves: u64,
    pub twelve_lines: u64,
}

const LAST_REFUSAL: usize = 22;

// The turns of the longest plan.
const MOST_TURNS: u32 = 254;

// The turns that are told apart in print.
const TURNS_IN_PRINT: [RangeInclusive<u32>; 5] = [0..=0, 1..=30, 31..=252, 253..=253, 254..=254];

fn with_turns(by_turns: &BTreeMap<u32, u64>, turns: &RangeInclusive<u32>) -> u64 {
    by_turns.range(turns.clone()).map(|(_, times)| times).sum()
}

// The refusals of each operation by the papers.
pub const LISTED: [&[u8]; OPERATIONS.len()] = [
    &[1, 2, 3],
    &[1, 2, 4],
    &[1, 2, 3, 4],
    &[1, 2, 3, 21, 5, 6],
    &[7, 8, 9, 10, 11],
    &[7, 8, 9, 10, 11],
    &[7, 8, 9, 10, 12],
    &[7, 9, 10],
    &[7, 8, 13, 14],
    &[7, 8, 9, 10],
    &[7, 8, 9, 22, 10, 11],
    &[1, 2, 10, 4],
    &[1, 2, 3, 21, 10, 20, 15],
    &[1, 2, 3, 21, 10, 20, 15, 17, 18, 19],
    &[1, 2, 3, 21, 5, 6, 10],
];

impl Tally {
    fn add(&mut self, call: &Call, outcome: &Outcome) {
        let refusal = outcome.answer.refusal();
        self.refusals[call.operation()][refusal as usize] += 1;
        if refusal == 0 {
            self.limited[call.operation()] += u64::from(call.is_limited());
        }
        match (&outcome.answer, call) {
            (Answered::Expanded(answer), Call::Expand { job, j, .. }) if answer.waits => {
                self.waiting += 1;
                self.waiting_at_once += u64::from(answer.job.passed[*j as usize] == job.passed[*j as usize]);
            }
            (Answered::Answer(answer), Call::Close { job, .. }) if matches!(refusal, 0 | 13) => {
                let finished = refusal == 0 && matches!(answer.job.phase, Phase::Finished(_));
                let reverse = job.way == REVERSE && matches!(job.phase, Phase::Level(_));
                self.finished += u64::from(finished);
                self.finished_late += u64::from(matches!(answer.job.phase, Phase::Finished(31..)));
                self.reverse += u64::from(reverse && refusal == 0);
                self.finished_reverse += u64::from(reverse && finished);
                self.unswept += u64::from(reverse && refusal == 13);
            }
            (Answered::Answer(_), Call::Sweep { job, segment, list, .. }) if refusal == 0 => {
                self.marking += u64::from(outcome.segment != *segment);
                self.spare_bits += u64::from(has_spare_bits(list, stacks_of(job, u32::from(job.loaded))));
            }
            (Answered::Planned(planned), _) if refusal == 0 => {
                *self.plans_by_turns.entry(planned.turns).or_default() += 1;
            }
            (Answered::Priced(priced), Call::Price { tariff, .. }) if matches!(refusal, 0 | 18 | 19) => {
                self.twelve_lines += u64::from(tariff.count == 12);
                if refusal == 0 {
                    let plan = &outcome.list[..priced.turns as usize];
                    *self.prices_by_turns.entry(priced.turns).or_default() += 1;
                    self.halves += u64::from(bill::sum(tariff, plan) % 1000 == 500);
                }
            }
            _ => {}
        }
    }

    pub fn calls(&self) -> u64 {
        self.refusals.iter().flatten().sum()
    }

    // The refusals (0: did its work) that the cases should have met and did not.
    pub fn refusals_unmet(&self) -> Vec<String> {
        let mut unmet = Vec::new();
        for (operation, listed) in LISTED.iter().enumerate() {
            for refusal in [&[0], *listed].concat() {
                if self.refusals[operation][refusal as usize] == 0 {
                    unmet.push(format!("{} never gave {refusal}", OPERATIONS[operation]));
                }
            }
        }
        unmet
    }

    // All that random cases should have met and did not.
    pub fn unmet(&self) -> Vec<String> {
        let mut unmet = self.refusals_unmet();
        let others = [
            (self.waiting > self.waiting_at_once, "Waiting after some stacks"),
            (self.waiting_at_once > 0, "Waiting with nothing passed"),
            (self.finished > 0, "a finishing Close"),
            (self.finished_late > 0, "a Close that finishes past level 31"),
            (self.reverse > self.finished_reverse, "a Close of a reverse level that makes way"),
            (self.finished_reverse > 0, "a Close of a reverse level that finishes"),
            (self.unswept > 0, "a Close of a reverse level that is refused 13"),
            (self.marking > 0, "a Sweep that marks"),
            (self.spare_bits > 0, "a Sweep by a list with spare bits set"),
            (self.plans_by_turns.contains_key(&0), "a plan of no turn"),
            (self.plans_by_turns.contains_key(&MOST_TURNS), "a plan of 254 turns"),
            (self.prices_by_turns.contains_key(&0), "a price of no turn"),
            (self.prices_by_turns.contains_key(&MOST_TURNS), "a price of 254 turns"),
            (self.halves > 0, "a sum that ends in half a penny"),
            (self.twelve_lines > 0, "a tariff of 12 right lines"),
        ];
        unmet.extend(others.iter().filter(|(met, _)| !met).map(|(_, what)| format!("no case had {what}")));
        let takes_set = |operation: &usize| LISTED[*operation].contains(&21) || LISTED[*operation].contains(&7);
        let never = (0..OPERATIONS.len()).filter(takes_set).filter(|&operation| self.limited[operation] == 0);
        unmet.extend(never.map(|operation| format!("{} never took a limited set", OPERATIONS[operation])));
        unmet
    }
}

impl fmt::Display for Tally {
    fn fmt(&self, f: &mut fmt::Formatter) -> fmt::Result {
        for (operation, refusals) in self.refusals.iter().enumerate() {
            let met: Vec<String> = refusals
                .iter()
                .enumerate()
                .filter(|(_, times)| **times > 0)
                .map(
                    |(refusal, times)| {
                        if refusal == 0 {
                            format!("accepted {times}")
                        } else {
                            format!("{refusal}: {times}")
                        }
                    },
                )
                .collect();
            writeln!(f, "  {:9} {}", OPERATIONS[operation], met.join(", "))?;
        }
        writeln!(
            f,
            "  Waiting {} (at once {}), builds finished {} (past level 31 {})",
            self.waiting, self.waiting_at_once, self.finished, self.finished_late
        )?;
        writeln!(
            f,
            "  reverse levels closed {} (finished {}), refused 13 {}; Sweeps that mark {}, with spare bits set {}",
            self.reverse, self.finished_reverse, self.unswept, self.marking, self.spare_bits
        )?;
        let limited = OPERATIONS.iter().zip(&self.limited).filter(|(_, times)| **times > 0);
        let limited: Vec<String> = limited.map(|(operation, times)| format!("{operation} {times}")).collect();
        writeln!(f, "  by limited sets: {}", limited.join(", "))?;
        let in_print = |by_turns| TURNS_IN_PRINT.map(|turns| with_turns(by_turns, &turns).to_string()).join(" ");
        writeln!(f, "  plans of 0, 1 to 30, 31 to 252, 253, 254 turns: {}", in_print(&self.plans_by_turns))?;
        writeln!(f, "  prices of 0, 1 to 30, 31 to 252, 253, 254 turns: {}", in_print(&self.prices_by_turns))?;
        write!(f, "  sums that end in half a penny {}, tariffs of 12 right lines {}", self.halves, self.twelve_lines)
    }
}

// Runs one call on both; what they agree on, or an error that prints the whole call.
pub fn compare_call<A: Answers + ?Sized, B: Answers + ?Sized>(
    first: &A,
    second: &B,
    call: &Call,
    tally: &mut Tally,
) -> Result<Outcome, String> {
    let (one, other) = (first.outcome(call), second.outcome(call));
    if one != other {
        return Err(format!("the answers differ\n  {call}\n  first:  {one}\n  second: {other}"));
    }
    laws(call, &one).map_err(|law| format!("{law}\n  {call}\n  gave: {one}"))?;
    tally.add(call, &one);
    Ok(one)
}

// Runs the cases of one family with these numbers; the first difference is an error that prints the whole call.
pub fn compare<A: Answers + ?Sized, B: Answers + ?Sized>(
    first: &A,
    second: &B,
    family: Family,
    seed: u64,
    numbers: Range<u64>,
    tally: &mut Tally,
) -> Result<(), String> {
    for number in numbers {
        let mut rng = Rng::of_case(seed, family as u64, number);
        let mut place = 0;
        let mut check = |call: Call| {
            place += 1;
            compare_call(first, second, &call, tally).map_err(|wrong| format!("call {place}: {wrong}"))
        };
        run_case(family, &mut rng, &mut check).map_err(|wrong| {
            format!("{wrong}\n  again: --family {} --seed {seed} --case {number}", format!("{family:?}").to_lowercase())
        })?;
    }
    Ok(())
}

fn law(holds: bool, words: &str) -> Result<(), String> {
    if holds {
        Ok(())
    } else {
        Err(words.to_string())
    }
}

// What the papers say of calls in general.
fn laws(call: &Call, outcome: &Outcome) -> Result<(), String> {
    law(outcome.kept_off, "a write outside of what was lent for writing")?;
    let refusal = outcome.answer.refusal();
    if refusal != 0 {
        law(LISTED[call.operation()].contains(&refusal), "a refusal that the operation does not have")?;
        let (segment, logs, list) = call.lent();
        let unchanged = outcome.segment == segment && outcome.logs == logs && outcome.list == list;
        law(unchanged, "a refusal that changed a buffer")?;
        let beside = match &outcome.answer {
            Answered::Indexed(answer) => answer.index == 0,
            Answered::Stacked(answer) => answer.stack == NO_STACK,
            Answered::Answer(answer) => answer.job == *call.job().unwrap_or(&NO_JOB),
            Answered::Expanded(answer) => Some(&answer.job) == call.job() && !answer.waits && answer.on == 0,
            Answered::Looked(answer) => answer.len == 0,
            Answered::Entry(answer) => answer.entry == 0,
            Answered::Planned(answer) => answer.turns == 0,
            Answered::Priced(answer) => answer.turns == 0 && answer.pennies == 0,
        };
        return law(beside, "a refusal that gave more than its number");
    }
    if let (Some(job), Some(after)) = (call.job(), outcome.answer.job()) {
        law(begun_by(job) == begun_by(after), "a job that is not of the same begin")?;
    }
    match (call, &outcome.answer) {
        (Call::Index { kind, n, stack }, Answered::Indexed(answer)) => {
            law(paper::stack_at(*kind, *n, answer.index) == *stack, "an index that does not lead back")
        }
        (Call::StackAt { kind, n, index }, Answered::Stacked(answer)) => {
            law(paper::index(*kind, *n, &answer.stack) == *index, "a stack that does not lead back")
        }
        (Call::Turn { kind, stack, k, .. }, Answered::Stacked(answer)) => {
            law(paper::turned(*kind, &answer.stack, *k) == *stack, "a turn that does not undo itself")
        }
        (Call::Plan { .. }, Answered::Planned(answer)) => plan_laws(call, &outcome.list, answer.turns),
        (Call::Price { n, tariff, .. }, Answered::Priced(answer)) => {
            plan_laws(call, &outcome.list, answer.turns)?;
            law(bill::covers_each_once(tariff, *n), "an accepted tariff that does not cover each size once")?;
            let sum = bill::sum(tariff, &outcome.list[..answer.turns as usize]);
            law(bill::is_rounded(answer.pennies, sum), "pennies that are not the sum, rounded once")
        }
        (Call::Close { .. }, Answered::Answer(Answer { job: after, .. })) => {
            law(after.way <= REVERSE, "a way that is none")?;
            law((after.loaded, after.swept) == (NO_SEGMENT, [0; 64]), "a Close that leaves a loaded segment or pairs")
        }
        (Call::Load { job, b, .. }, Answered::Answer(Answer { job: after, .. })) => {
            law(*after == Job { loaded: *b as u8, ..*job }, "a Load that changes more than the loaded segment")?;
            law(!has_spare_bits(&outcome.list, stacks_of(job, *b)), "a Load that sets spare bits")
        }
        (Call::Sweep { job, j, segment, .. }, Answered::Answer(Answer { job: after, .. })) => {
            let (_, d) = job.phase.numbers();
            let mut right = *job;
            right.counts[d as usize] = after.counts[d as usize];
            right.swept[job.loaded as usize] |= 1 << j;
            law(*after == right, "a Sweep that changes more than its count and its pair")?;
            let change = |i| (paper::entry_at(segment, i), paper::entry_at(&outcome.segment, i));
            let changes = (0..4 * segment.len() as u64).map(change).filter(|(was, is)| was != is);
            let marked: Vec<(u8, u8)> = changes.collect();
            law(marked.iter().all(|mark| *mark == (paper::UNSEEN, d % 3)), "a Sweep that marks otherwise")?;
            let counted = after.counts[d as usize] - job.counts[d as usize];
            law(counted == marked.len() as u64, "a Sweep that does not count what it marks")
        }
        (Call::Build { fields, .. }, Answered::Answer(answer)) => {
            law(has_ended(&answer.job), "a whole build that has not ended")?;
            let stacks = paper::count_of_stacks(fields.kind, fields.n);
            let seen = (0..stacks).filter(|&i| paper::entry_at(&outcome.segment, i) != paper::UNSEEN).count() as u64;
            let counted = answer.job.counts.iter().sum::<u64>();
            law(counted == seen, "counts of a whole build that do not add to the stacks seen")?;
            law(call.is_limited() || seen == stacks, "a whole build by every turn that has not seen all stacks")
        }
        _ => Ok(()),
    }
}

// m of a segment of a coherent job.
fn stacks_of(job: &Job, j: u32) -> u64 {
    paper::stacks_of_segment(paper::count_of_stacks(job.kind, job.n), job.size, u64::from(j))
}

// Whether a changed list for so many stacks has bits past the last one.
fn has_spare_bits(list: &[u8], stacks: u64) -> bool {
    (stacks..8 * list.len() as u64).any(|i| paper::bit_at(list, i))
}

// What Begin was given.
fn begun_by(job: &Job) -> (u8, u8, Stack, Groups, u32, u32) {
    (job.kind, job.n, job.wanted, job.groups, job.size, job.room)
}

// Finished, or at the last level with stacks that it brought, where no call carries on.
fn has_ended(job: &Job) -> bool {
    matches!(job.phase, Phase::Finished(_)) || job.phase == Phase::Level(255) && job.counts[255] != 0
}

// What holds of an accepted plan, priced or not.
fn plan_laws(call: &Call, after: &[u8], turns: u32) -> Result<(), String> {
    let (Call::Plan { kind, n, wanted, given, groups, list, .. }
    | Call::Price { kind, n, wanted, given, groups, list, .. }) = call
    else {
        unreachable!("only plans come here")
    };
    law(turns <= MOST_TURNS, "a plan of over 254 turns")?;
    let (plan, rest) = after.split_at(turns as usize);
    law(*rest == list[plan.len()..], "bytes past the plan that changed")?;
    let right_turns = plan.iter().all(|k| paper::turns(*kind, *n).any(|turn| turn == *k));
    law(right_turns, "a plan with a turn that is none")?;
    let of_set = plan.iter().all(|k| paper::sizes_of(*groups).any(|size| size == *k));
    law(of_set, "a plan with a turn that is not of the set")?;
    let end = plan.iter().fold(*given, |at, k| paper::turned(*kind, &at, *k));
    law(end == *wanted, "a plan that does not arrive")
}
