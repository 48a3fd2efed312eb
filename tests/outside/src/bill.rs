// What a plan costs by a tariff, found line by line as on a bill; nothing of it is shared with paper.rs.

use crate::system::*;

fn lines(tariff: &Tariff) -> &[Line] {
    &tariff.lines[..tariff.count as usize]
}

// Whether the sizes of all lines are 1 to n, each once.
pub fn covers_each_once(tariff: &Tariff, n: u8) -> bool {
    let mut sizes: Vec<u8> = lines(tariff).iter().flat_map(|line| line.first..=line.last).collect();
    sizes.sort_unstable();
    sizes.into_iter().eq(1..=n)
}

// For each line its turns times its price; the sum in thousandths of a penny.
pub fn sum(tariff: &Tariff, plan: &[u8]) -> u64 {
    let item = |line: &Line| {
        let turns = plan.iter().filter(|&&k| line.first <= k && k <= line.last).count();
        turns as u64 * u64::from(line.price)
    };
    lines(tariff).iter().map(item).sum()
}

// Whether no other number of pennies is nearer to a sum; of two as near, the higher one.
pub fn is_rounded(pennies: u32, sum: u64) -> bool {
    let above = 1000 * i64::from(pennies) - sum as i64;
    -500 < above && above <= 500
}
