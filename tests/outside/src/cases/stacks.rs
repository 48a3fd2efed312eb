// Index, Stack at, Turn and Begin on right, damaged and random arguments.

use super::arguments::*;
use super::Check;
use crate::build::Fields;
use crate::call::Call;
use crate::paper;
use crate::rng::Rng;

pub fn case(rng: &mut Rng, check: &mut Check) -> Result<(), String> {
    let (kind, n) = any_kind_and_n(rng);
    let stack = any_stack(rng, kind, n);
    check(Call::Index { kind, n, stack })?;

    let stacks = paper::count_of_stacks(kind & 1, n.clamp(1, 12)) as u32;
    let index = match rng.below(6) {
        0 => stacks.wrapping_sub(1),
        1 => stacks,
        2 => stacks.wrapping_add(1),
        3 => rng.word() as u32,
        4 => rng.pick(&[0, u32::MAX]),
        _ => rng.below(u64::from(stacks.max(1))) as u32,
    };
    check(Call::StackAt { kind, n, index })?;

    let k = if rng.chance(80) { rng.between(0, 13) as u8 } else { rng.word() as u8 };
    check(Call::Turn { kind, n, stack, k })?;

    let stacks = paper::count_of_stacks(kind & 1, n.clamp(1, if kind & 1 == 0 { 12 } else { 10 }));
    let size = if rng.chance(75) { right_size(rng, stacks) } else { wrong_size(rng, stacks) };
    let room = if rng.chance(75) { rng.pick(&[16, 17, 1000, 1_048_575, 1_048_576]) } else { wrong_room(rng) };
    let groups = any_groups(rng, kind, n);
    check(Call::Begin { fields: Fields { kind, n, wanted: stack, groups, size, room } })?;
    Ok(())
}
