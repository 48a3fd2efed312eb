// Tariffs: right ones, ones with one thing changed, and nothing but random numbers.

use crate::rng::Rng;
use crate::system::*;

const MOST_PRICE: u32 = 1_000_000;

// By a tariff's style: sums that often end in half a penny, the ends of the range and what is next to them, anything.
fn right_price(rng: &mut Rng, style: u64) -> u32 {
    match style {
        0 => 250 * rng.between(0, 12) as u32,
        1 => 500 * rng.between(0, 2000) as u32,
        2 => rng.pick(&[0, 1, 499, 500, 501, MOST_PRICE - 1, MOST_PRICE]),
        3 => MOST_PRICE - rng.below(3) as u32,
        _ => rng.between(0, u64::from(MOST_PRICE)) as u32,
    }
}

// Sizes 1 to n cut into lines, in any order.
pub fn right_tariff(rng: &mut Rng, n: u8) -> Tariff {
    let cuts = rng.pick(&[0, 30, 60, 100]);
    let style = rng.below(5);
    let mut lines = Vec::new();
    let mut first = 1;
    for last in 1..=n {
        if last == n || rng.chance(cuts) {
            lines.push((first, last, right_price(rng, style)));
            first = last + 1;
        }
    }
    rearranged(rng, &Tariff::of(&lines))
}

// The same lines in another order, and anything past them: mostly what would be seen, a line of the tariff again or a wrong one.
pub fn rearranged(rng: &mut Rng, tariff: &Tariff) -> Tariff {
    let mut after = *tariff;
    let (lines, rest) = after.lines.split_at_mut(tariff.count as usize);
    rng.shuffle(lines);
    match rng.below(3) {
        0 => rest.iter_mut().for_each(|line| *line = rng.pick(lines)),
        1 => rest.iter_mut().for_each(|line| *line = wild_line(rng)),
        _ => rest.fill(NO_LINE),
    }
    after
}

// A right tariff with one thing changed; it may be right still.
fn damaged_tariff(rng: &mut Rng, n: u8) -> Tariff {
    let mut tariff = right_tariff(rng, n);
    let count = tariff.count as usize;
    let other = tariff.lines[rng.below(count as u64) as usize];
    let line = &mut tariff.lines[rng.below(count as u64) as usize];
    match rng.below(13) {
        0 => line.first = 0,
        1 => line.first -= 1,
        2 => line.first += 1,
        3 => line.last -= 1,
        4 => line.last += 1,
        5 => line.last = rng.pick(&[0, line.first - 1, n, n + 1, 255]),
        6 => line.price = rng.pick(&[MOST_PRICE, MOST_PRICE + 1, 1 << 31, u32::MAX]),
        7 => *line = other,
        8 => *line = wild_line(rng),
        9 => tariff.count = rng.pick(&[0, 12, 12, 13, 13, tariff.count + 256, u32::MAX]),
        10 => tariff.count -= 1,
        _ => tariff.count += 1,
    }
    tariff
}

fn wild_line(rng: &mut Rng) -> Line {
    Line { first: rng.word() as u8, last: rng.word() as u8, price: rng.word() as u32 }
}

// A tariff of nothing but random numbers.
fn wild_tariff(rng: &mut Rng, n: u8) -> Tariff {
    let small = rng.chance(70);
    let mut number = |most: u64| if small { rng.between(0, most) } else { rng.word() };
    let size = u64::from(n) + 1;
    let mut line = || Line { first: number(size) as u8, last: number(size) as u8, price: number(1_000_001) as u32 };
    let lines = std::array::from_fn(|_| line());
    Tariff { count: number(13) as u32, lines }
}

pub fn any_tariff(rng: &mut Rng, n: u8) -> Tariff {
    let n = n.clamp(1, 12);
    match rng.below(10) {
        0..=4 => right_tariff(rng, n),
        5..=8 => damaged_tariff(rng, n),
        _ => wild_tariff(rng, n),
    }
}
