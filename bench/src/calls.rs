// Single calls: Index, Stack at an index and Plan, in nanoseconds of processor time a call.

use std::hint::black_box;

use outside::build::ordered;
use outside::cases::right_stack;
use outside::paper;
use outside::rng::Rng;
use outside::system::*;

use crate::builds::{timed, Method, Subject};
use crate::fast::{all_groups, MOST_TURNS};

const STACKS: usize = 4096;

// One kind of call on many random stacks of a kind and n.
pub struct Calls {
    pub name: String,
    kind: u8,
    n: u8,
    stacks: Vec<Stack>,
    indices: Vec<u32>,
    what: What,
}

enum What {
    Index,
    StackAt,
    Plan { table: Vec<u8> },
}

impl Calls {
    fn new(name: &str, kind: u8, n: u8, what: What) -> Calls {
        let mut rng = Rng::new(7);
        let stacks: Vec<Stack> = (0..STACKS).map(|_| right_stack(&mut rng, kind, n)).collect();
        let indices = stacks.iter().map(|stack| paper::index(kind, n, stack)).collect();
        let name = format!("{name}, {} {n}", if kind == 0 { "plain" } else { "coated" });
        Calls { name, kind, n, stacks, indices, what }
    }

    // Index and its inverse at the largest n, plans from the finished tables of plain 9 and coated 7.
    pub fn all() -> Vec<Calls> {
        let mut all = Vec::new();
        for (kind, n) in [(0, 12), (1, 10)] {
            all.push(Calls::new("Index", kind, n, What::Index));
            all.push(Calls::new("Stack at an index", kind, n, What::StackAt));
        }
        for (kind, n) in [(0, 9), (1, 7)] {
            let subject = Subject { kind, n, segments: 1, room: 16 };
            let table = subject.build(subject.lend(Method::Fast, true)).cells;
            all.push(Calls::new("Plan", kind, n, What::Plan { table }));
        }
        all
    }

    // Nanoseconds a call, over enough calls for a good part of a second.
    pub fn nanoseconds(&self, system: &dyn System) -> f64 {
        let rounds = if matches!(self.what, What::Plan { .. }) { 100 } else { 2000 };
        let (wanted, groups) = (ordered(self.n), all_groups(self.kind, self.n));
        let mut list = [0; MOST_TURNS];
        let ((), took) = timed(|| {
            for _ in 0..rounds {
                for (stack, index) in self.stacks.iter().zip(&self.indices) {
                    match &self.what {
                        What::Index => {
                            black_box(system.index_of_stack(self.kind, self.n, black_box(*stack)));
                        }
                        What::StackAt => {
                            black_box(system.stack_at_index(self.kind, self.n, black_box(*index)));
                        }
                        What::Plan { table } => {
                            let given = black_box(*stack);
                            black_box(system.plan(self.kind, self.n, wanted, given, groups, table, &mut list));
                        }
                    }
                }
            }
        });
        took.processor * 1e9 / (rounds * STACKS) as f64
    }
}
