// Single arguments, right and wrong: kinds and n, stacks, sets, sizes, rooms, segment numbers, changed lists, lengths.

use crate::build::{ordered, size_for, Fields};
use crate::paper::{self, COATED, PLAIN};
use crate::rng::Rng;
use crate::system::*;

pub fn right_kind_and_n(rng: &mut Rng) -> (u8, u8) {
    if rng.chance(50) {
        (PLAIN, rng.between(1, 12) as u8)
    } else {
        (COATED, rng.between(1, 10) as u8)
    }
}

// Right in most cases.
pub fn any_kind_and_n(rng: &mut Rng) -> (u8, u8) {
    let (mut kind, mut n) = right_kind_and_n(rng);
    if rng.chance(8) {
        kind = rng.pick(&[2, 3, 4, 127, 128, 254, 255]);
    }
    if rng.chance(8) {
        n = rng.pick(&[0, 0, 11, 12, 13, 14, 16, 128, 255]);
    }
    (kind, n)
}

// A kind and n with at most so many stacks, rather more than fewer.
pub fn small_kind_and_n(rng: &mut Rng, most: u64) -> (u8, u8) {
    let mut draws = [(0, 0); 3];
    for draw in &mut draws {
        *draw = loop {
            let (kind, n) = right_kind_and_n(rng);
            if paper::count_of_stacks(kind, n) <= most {
                break (kind, n);
            }
        };
    }
    draws.into_iter().max_by_key(|(kind, n)| paper::count_of_stacks(*kind, *n)).expect("three draws")
}

pub fn right_stack(rng: &mut Rng, kind: u8, n: u8) -> Stack {
    let mut stack = ordered(n);
    rng.shuffle(&mut stack[..n as usize]);
    if kind == COATED {
        stack.iter_mut().filter(|_| rng.chance(50)).for_each(|pane| *pane = -*pane);
    }
    stack
}

// A right stack with one thing changed; it may be right still.
pub fn damaged_stack(rng: &mut Rng, kind: u8, n: u8) -> Stack {
    let used = u64::from(n.clamp(1, 12));
    let mut stack = right_stack(rng, kind, used as u8);
    let place = rng.below(used) as usize;
    match rng.below(9) {
        0 => stack[place] = stack[rng.below(used) as usize],
        1 => stack[place] = 0,
        2 => stack[place] = used as i8 + 1,
        3 => stack[place] = -stack[place],
        4 => stack[place] = rng.pick(&[-128, -127, 127, 64, -64]),
        5 => stack[rng.below(12) as usize] = rng.word() as i8,
        6 => stack[11] = rng.pick(&[1, -1, 12, -128]),
        7 => stack = right_stack(rng, kind, (used as u8 % 12) + 1),
        _ => stack = std::array::from_fn(|_| rng.word() as i8),
    }
    stack
}

pub fn any_stack(rng: &mut Rng, kind: u8, n: u8) -> Stack {
    if rng.chance(80) && (1..=12).contains(&n) {
        right_stack(rng, kind, n)
    } else {
        damaged_stack(rng, kind, n)
    }
}

// So many sizes of a set, or all of it where it has no more.
fn some_of(rng: &mut Rng, groups: Groups, many: usize) -> Groups {
    let mut sizes: Vec<u8> = paper::sizes_of(groups).collect();
    rng.shuffle(&mut sizes);
    sizes.truncate(many);
    paper::set_of(sizes)
}

// A set that Begin accepts: the full one, one size short of it, a few sizes, any.
pub fn right_groups(rng: &mut Rng, kind: u8, n: u8) -> Groups {
    let full = paper::full_set(kind, n);
    let some = match rng.below(10) {
        0..=3 => full,
        4 => some_of(rng, full, (full.count_ones() as usize).saturating_sub(1)),
        5 => some_of(rng, full, 1),
        6 => some_of(rng, full, 2),
        7 | 8 => some_of(rng, full, 3),
        _ => full & rng.word() as u32,
    };
    if some == 0 {
        full
    } else {
        some
    }
}

// A set with something changed; it may be right still.
pub fn damaged_groups(rng: &mut Rng, kind: u8, n: u8) -> Groups {
    let (kind, n) = (kind & 1, n.clamp(1, 12));
    let right = right_groups(rng, kind, n);
    match rng.below(10) {
        0 | 1 => 0,
        2 | 3 => right | 1,
        4 => right | 1 << n,
        5 => right | 1 << rng.between(u64::from(n), 31),
        6 => right | 1 << 31,
        7 => rng.pick(&[right << 1, right >> 1, right << 8, right << 16]),
        8 => rng.pick(&[1, 1 << n, 1 << 31, u32::MAX]),
        _ => rng.word() as u32,
    }
}

pub fn any_groups(rng: &mut Rng, kind: u8, n: u8) -> Groups {
    if rng.chance(80) {
        right_groups(rng, kind & 1, n.clamp(1, 12))
    } else {
        damaged_groups(rng, kind, n)
    }
}

const MOST_SIZE: u32 = 67_108_864;

pub fn right_size(rng: &mut Rng, stacks: u64) -> u32 {
    let least = size_for(stacks, 64);
    let size = match rng.below(9) {
        0..=2 => least,
        3 => size_for(stacks, 2),
        4 => size_for(stacks, 1),
        5 => MOST_SIZE,
        6 => size_for(stacks, rng.between(1, 64)),
        // The last segment is often shorter than the others.
        _ => 4 * rng.between(u64::from(least / 4), stacks.div_ceil(4)) as u32,
    };
    size.clamp(least, MOST_SIZE)
}

pub fn wrong_size(rng: &mut Rng, stacks: u64) -> u32 {
    let least = size_for(stacks, 64);
    match rng.below(7) {
        0 => 0,
        1 => rng.pick(&[1, 2, 3, 6]),
        2 => least - 4,
        3 => least + rng.between(1, 3) as u32,
        4 => rng.pick(&[MOST_SIZE + 1, MOST_SIZE + 4, 1 << 31, u32::MAX - 3, u32::MAX]),
        _ => rng.word() as u32,
    }
}

pub fn wrong_room(rng: &mut Rng) -> u32 {
    rng.pick(&[0, 1, 14, 15, 1_048_577, 1 << 31, u32::MAX])
}

// Fields that Begin accepts, with at most so many stacks and a short log area.
pub fn right_fields(rng: &mut Rng, most: u64) -> Fields {
    let (kind, n) = small_kind_and_n(rng, most);
    let size = right_size(rng, paper::count_of_stacks(kind, n));
    let room = match rng.below(6) {
        0..=2 => 16,
        3 => 17,
        4 => rng.between(16, 40) as u32,
        _ => rng.between(16, 300) as u32,
    };
    Fields { kind, n, wanted: right_stack(rng, kind, n), groups: right_groups(rng, kind, n), size, room }
}

pub fn any_j(rng: &mut Rng, segments: u64) -> u32 {
    let right = rng.below(segments) as u32;
    if rng.chance(92) {
        return right;
    }
    rng.pick(&[segments as u32, segments as u32 + 1, 63, 64, 65, right + 256, right + 65_536, 1 << 31, u32::MAX])
}

// A changed list of so many bytes, which need not be that of any segment: spare bits may be set.
pub fn any_list(rng: &mut Rng, len: usize) -> Vec<u8> {
    let style = rng.below(6);
    let byte = |rng: &mut Rng| match style {
        0 => 0,
        1 => 0xff,
        2 => 1 << rng.below(8),
        3 => (rng.word() & rng.word() & rng.word()) as u8,
        _ => rng.word() as u8,
    };
    (0..len).map(|_| byte(rng)).collect()
}

// The length changed.
pub fn wrong_length<T: Clone + Default>(rng: &mut Rng, buffer: &mut Vec<T>) {
    let len = buffer.len();
    let other = match rng.below(6) {
        0 => 0,
        1 => len.saturating_sub(1),
        2 => len + 1,
        3 => len * 2,
        4 => len / 2,
        _ => rng.below(200) as usize,
    };
    buffer.resize(other, T::default());
}
