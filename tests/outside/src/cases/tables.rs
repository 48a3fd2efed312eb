// Read, Plan and Price on right tables, spoilt ones, random bytes, and tables with one long road.

use std::collections::HashSet;
use std::rc::Rc;

use super::arguments::*;
use super::tariffs::*;
use super::Check;
use crate::build::Fields;
use crate::call::{Answered, Call};
use crate::paper;
use crate::rng::Rng;
use crate::search::Distances;
use crate::system::*;

pub fn case(rng: &mut Rng, check: &mut Check) -> Result<(), String> {
    let most = rng.pick(&[2, 6, 48, 120, 720, 5040, 5040]);
    let fields = right_fields(rng, most);
    let Fields { kind, n, .. } = fields;
    let stacks = paper::count_of_stacks(kind, n);
    let len = paper::bytes_of(stacks);
    let mut given = None;
    let table = match rng.below(6) {
        0 | 1 => {
            let distances = fields.distances();
            let right = Rc::new(table_of(&distances));
            for _ in 0..10 {
                let given = right_stack(rng, kind, n);
                plan_is_shortest(rng, check, &fields, given, &right, &distances)?;
            }
            let mut table = right.to_vec();
            for _ in 0..rng.pick(&[0, 1, 2, 10, 50]) {
                let (i, value) = (rng.below(stacks), rng.below(4) as u8);
                paper::set_entry(&mut table, i, value);
            }
            table
        }
        2 => rng.bytes(len),
        3 => vec![rng.pick(&[0, 0x55, 0xaa, 0xff, 0x24]); len],
        _ => {
            let (table, end) = road(rng, &fields, vec![0xff; len]);
            given = Some(end);
            table
        }
    };
    table_calls(rng, check, &fields, Rc::new(table), given, 12)
}

// A plan over a finished table has the fewest turns, priced or not, and its price does not go by the order of the lines; a stack without a road
// is refused 20.
pub fn plan_is_shortest(
    rng: &mut Rng,
    check: &mut Check,
    fields: &Fields,
    given: Stack,
    table: &Rc<Vec<u8>>,
    distances: &Distances,
) -> Result<(), String> {
    let len = rng.between(254, 264) as usize;
    let Fields { kind, n, wanted, groups, .. } = *fields;
    let list = rng.bytes(len);
    let plan = Call::Plan { kind, n, wanted, given, groups, table: table.clone(), list };
    let planned = check(plan.clone())?;
    let tariff = right_tariff(rng, n);
    let (priced, again) = (check(plan.priced(tariff))?, check(plan.priced(rearranged(rng, &tariff)))?);
    let fewest = distances.of(&given[..n as usize]);
    let right = (fewest.map_or(20, |_| 0), fewest.map_or(0, u32::from));
    let shortest = |answer: &Answered| match *answer {
        Answered::Planned(Planned { refusal, turns }) => (refusal, turns) == right,
        Answered::Priced(Priced { refusal, turns, .. }) => (refusal, turns) == right,
        _ => false,
    };
    if shortest(&planned.answer) && shortest(&priced.answer) && priced.list == planned.list && again == priced {
        return Ok(());
    }
    Err(format!("{planned}, {priced}, again {again} for {fewest:?} turns: {fields:?} given {given:?} {tariff:?}"))
}

// The two-bit table of these distances.
fn table_of(distances: &Distances) -> Vec<u8> {
    let mut table = vec![0xff; distances.turns.len().div_ceil(4)];
    for (i, turns) in distances.turns.iter().enumerate() {
        if let Some(turns) = turns {
            paper::set_entry(&mut table, i as u64, turns % 3);
        }
    }
    table
}

// Marks a random road from the wanted stack in a table, up to 258 turns long, and gives its end.
pub fn road(rng: &mut Rng, fields: &Fields, mut table: Vec<u8>) -> (Vec<u8>, Stack) {
    let any = rng.below(250);
    let long = rng.pick(&[any, 30, 31, 253, 254, 254, 254, 254, 255, 255, 255, 256, 258]);
    let lone = rng.chance(75);
    let stacks = walked(rng, fields, long, lone, &mut table);
    (table, stacks[stacks.len() - 1])
}

// Marks a random road of so many turns of the set, or fewer where it finds no way on, and gives its stacks from the wanted one on. No turn of
// the set leads from a lone road back to it, but for those of the road itself.
pub fn walked(rng: &mut Rng, fields: &Fields, long: u64, lone: bool, table: &mut [u8]) -> Vec<Stack> {
    let Fields { kind, n, wanted, groups, .. } = *fields;
    let turns: Vec<u8> = paper::sizes_of(groups).collect();
    let mut road = vec![wanted];
    let mut met = HashSet::from([wanted]);
    paper::set_entry(table, u64::from(paper::index(kind, n, &wanted)), 0);
    for turn in 1..=long {
        let at = road[road.len() - 1];
        let beside = |next: &Stack| turns.iter().filter(|&&k| met.contains(&paper::turned(kind, next, k))).count();
        let fresh = (0..20).filter(|_| !turns.is_empty()).map(|_| paper::turned(kind, &at, rng.pick(&turns)));
        let goes_on = |next: &Stack| !met.contains(next) && (!lone || beside(next) == 1);
        let Some(next) = fresh.into_iter().find(goes_on) else { break };
        road.push(next);
        met.insert(next);
        paper::set_entry(table, u64::from(paper::index(kind, n, &next)), (turn % 3) as u8);
    }
    road
}

// Read, Plan and Price on one table, with each argument hostile now and then.
pub fn table_calls(
    rng: &mut Rng,
    check: &mut Check,
    fields: &Fields,
    table: Rc<Vec<u8>>,
    given: Option<Stack>,
    calls: u64,
) -> Result<(), String> {
    let stacks = paper::count_of_stacks(fields.kind, fields.n);
    for _ in 0..calls {
        let Fields { mut kind, mut n, mut wanted, mut groups, .. } = *fields;
        if rng.chance(6) {
            (kind, n) = any_kind_and_n(rng);
        }
        if rng.chance(6) {
            wanted = any_stack(rng, kind, n);
        }
        if rng.chance(6) {
            groups = right_groups(rng, kind & 1, n.clamp(1, 12));
        }
        if rng.chance(6) {
            groups = damaged_groups(rng, kind, n);
        }
        let table = if rng.chance(6) && table.len() < 1 << 20 {
            let mut other = table.to_vec();
            wrong_length(rng, &mut other);
            Rc::new(other)
        } else {
            table.clone()
        };
        if rng.chance(25) {
            let index = match rng.below(5) {
                0 => rng.pick(&[0, stacks as u32 - 1, stacks as u32, (stacks as u32).wrapping_add(1), u32::MAX]),
                _ => rng.below(stacks) as u32,
            };
            check(Call::ReadEntry { kind, n, table, index })?;
        } else {
            let given = match given {
                Some(end) if rng.chance(70) => end,
                _ if rng.chance(5) => wanted,
                _ => any_stack(rng, kind, n),
            };
            let len =
                if rng.chance(90) { rng.between(254, 257) } else { rng.pick(&[0, 1, 30, 31, 253, 253, 253, 300]) };
            let list = rng.bytes(len as usize);
            let plan = Call::Plan { kind, n, wanted, given, groups, table, list };
            if rng.chance(50) {
                check(plan)?;
            } else {
                check(plan.priced(any_tariff(rng, n)))?;
            }
        }
    }
    Ok(())
}
