// A plain breadth-first search on one byte a stack, none where there is no road, with a queue; nothing of it is shared with paper.rs.

use std::collections::VecDeque;

// The fewest turns of every stack that has a road, by index, and how many stacks there are at each number of turns.
pub struct Distances {
    pub coated: bool,
    pub turns: Vec<Option<u8>>,
    pub counts: Vec<u64>,
}

impl Distances {
    pub fn deepest(&self) -> usize {
        self.counts.len() - 1
    }

    pub fn of(&self, panes: &[i8]) -> Option<u8> {
        self.turns[rank(self.coated, panes)]
    }
}

// Place in lexicographic order by the smaller panes that come later, then a bit for each coat, top first.
pub fn rank(coated: bool, panes: &[i8]) -> usize {
    let mut order = 0;
    let mut radix = 1;
    for p in (0..panes.len()).rev() {
        let later_smaller = panes[p..].iter().filter(|pane| pane.abs() < panes[p].abs()).count();
        order += later_smaller * radix;
        radix *= panes.len() - p;
    }
    if !coated {
        return order;
    }
    panes.iter().fold(order, |bits, &pane| bits * 2 + usize::from(pane < 0))
}

// Reverses the top k panes; coated ones change sign.
pub fn flip(coated: bool, panes: &mut [i8], k: usize) {
    panes[..k].reverse();
    if coated {
        panes[..k].iter_mut().for_each(|pane| *pane = -*pane);
    }
}

// All distances to the wanted stack by turns of a set; bit 0 is size 1. A turn undoes itself, so distances from it are the same.
pub fn search(coated: bool, wanted: &[i8], groups: u32) -> Distances {
    let stacks: usize = (1..=wanted.len()).map(|pane| if coated { 2 * pane } else { pane }).product();
    let lifted: Vec<usize> = (0..32).filter(|bit| groups & 1 << bit != 0).map(|bit| bit + 1).collect();

    let mut turns = vec![None; stacks];
    let mut counts = vec![1];
    let mut queue = VecDeque::from([(wanted.to_vec(), 0_u8)]);
    turns[rank(coated, wanted)] = Some(0);
    while let Some((stack, away)) = queue.pop_front() {
        for &k in &lifted {
            let mut child = stack.clone();
            flip(coated, &mut child, k);
            let known = &mut turns[rank(coated, &child)];
            if known.is_none() {
                let further = away + 1;
                *known = Some(further);
                counts.resize(counts.len().max(further as usize + 1), 0);
                counts[further as usize] += 1;
                queue.push_back((child, further));
            }
        }
    }
    Distances { coated, turns, counts }
}
