// Method (c): breadth-first search on one byte a stack with a queue of indices.

use outside::system::Stack;

use crate::fast::{flip, rank, unrank};

pub const UNKNOWN: u8 = u8::MAX;

// Fills the fewest turns of every stack; gives the counts by level. Both buffers have one place a stack.
pub fn search<const COATED: bool>(n: usize, wanted: &Stack, turns: &mut [u8], queue: &mut [u32]) -> [u64; 256] {
    turns.fill(UNKNOWN);
    let start = rank::<COATED>(n, wanted);
    let mut counts = [0; 256];
    counts[0] = 1;
    turns[start as usize] = 0;
    queue[0] = start;
    let (mut head, mut tail) = (0, 1);
    while head < tail {
        let index = queue[head];
        head += 1;
        let stack = unrank::<COATED>(n, index);
        let further = turns[index as usize] + 1;
        for k in if COATED { 1 } else { 2 }..=n {
            let child = rank::<COATED>(n, &flip::<COATED>(&stack, k));
            let known = &mut turns[child as usize];
            if *known == UNKNOWN {
                *known = further;
                counts[further as usize] += 1;
                queue[tail] = child;
                tail += 1;
            }
        }
    }
    counts
}
