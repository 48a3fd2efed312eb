// Sees that the tests are not too tame: every planted fault must be caught, and the paper itself by none of them.

use crate::call::{Answered, Answers, Call};
use crate::cases::{Family, FAMILIES};
use crate::compare::{compare, compare_call, Tally};
use crate::deliberate::{self, LIMITS};
use crate::exchange;
use crate::faulty::{Fault, Faulty, FAR_FAULTS, FAULTS};
use crate::linked;
use crate::paper::PAPER;

type Caught = Result<String, String>;

// Each fault of the operations, by the cases of the families that a run compares.
pub fn by_families(seed: u64) -> Caught {
    let mut most = 0;
    for family in FAMILIES {
        compare(&PAPER, &Faulty(Fault::Nothing), family, seed, 0..family.cases(20_000), &mut Tally::default())?;
    }
    for &fault in FAULTS {
        let caught = (0..4_000).find(|&number| {
            let families = [Family::Stacks, Family::Calls, Family::Tables, Family::Whole];
            let differs = |family| {
                compare(&PAPER, &Faulty(fault), family, seed, number..number + 1, &mut Tally::default()).is_err()
            };
            families.into_iter().any(differs)
        });
        most = most.max(caught.ok_or(format!("{fault:?} was not caught"))? + 1);
    }
    Ok(format!("{} faults caught, the last one by case {most}", FAULTS.len()))
}

// The first difference from the paper in some calls.
fn difference<A: Answers + ?Sized>(other: &A, calls: &[Call]) -> Option<String> {
    calls.iter().find_map(|call| compare_call(&PAPER, other, call, &mut Tally::default()).err())
}

// Refused, or made to wait.
fn is_beyond(answer: &Answered) -> bool {
    answer.refusal() != 0 || matches!(answer, Answered::Expanded(expanded) if expanded.waits)
}

// Each limit is tried from both sides, and its wrong limits are caught by those calls alone.
pub fn limits() -> Caught {
    let mut wrong_limits = 0;
    for limit in LIMITS {
        let calls = (limit.calls)();
        let beyond = calls.iter().filter(|call| is_beyond(&call.run(&PAPER).answer)).count();
        if beyond == 0 || beyond == calls.len() {
            return Err(format!("{}: {beyond} of {} calls are beyond it", limit.name, calls.len()));
        }
        for (place, wrong) in limit.wrong().enumerate() {
            difference(&wrong, &calls).ok_or(format!("{}: wrong limit {place} was not caught", limit.name))?;
            wrong_limits += 1;
        }
    }
    Ok(format!("{} limits tried from both sides, {wrong_limits} wrong limits caught", LIMITS.len()))
}

// Each two refusals at once, where there is a set, a way or a changed list: the one that comes first in the papers is given.
pub fn orders() -> Caught {
    let orders = deliberate::orders();
    for (call, right) in &orders {
        match call.run(&PAPER).answer.refusal() {
            refusal if refusal == *right => {}
            refusal => return Err(format!("refused {refusal} and not {right}: {call}")),
        }
    }
    Ok(format!("{} calls with one or two refusals each, in the papers' order", orders.len()))
}

// Each exchange of two fields or two parameters.
pub fn exchanges() -> Caught {
    if exchange::places() != linked::places() {
        return Err("the exchanges have other places of fields than the linked structs".to_string());
    }
    let calls = deliberate::calls();
    if let Some(wrong) = difference(&exchange::NONE, &calls) {
        return Err(format!("with nothing exchanged: {wrong}"));
    }
    let exchanges = exchange::exchanges();
    for exchange in &exchanges {
        difference(exchange, &calls).ok_or(format!("{exchange} exchanged: not caught"))?;
    }
    Ok(format!("{} exchanges of two fields or two parameters caught", exchanges.len()))
}

// Reserved bytes that come back.
pub fn reserved() -> Caught {
    let bytes = (0..=255).flat_map(|byte| [[byte, 0], [0, byte], [byte, 255 - byte]]);
    let wrong = |bytes: &[u8; 2]| linked::taken_for(*bytes) != [if *bytes == [0, 0] { 0 } else { u8::MAX }; 2];
    match bytes.clone().find(wrong) {
        Some(bytes) => Err(format!("{bytes:?} in an answer: taken for {:?}", linked::taken_for(bytes))),
        None => Ok(format!("{} pairs of bytes in an answer caught", bytes.filter(|bytes| *bytes != [0, 0]).count())),
    }
}

// Each fault that shows past the first mebibyte of a segment or a table.
pub fn far() -> Caught {
    let calls = deliberate::beyond_a_mebibyte();
    for &fault in FAR_FAULTS {
        difference(&Faulty(fault), &calls).ok_or(format!("{fault:?} was not caught"))?;
    }
    Ok(format!("{} faults past the first mebibyte caught", FAR_FAULTS.len()))
}
