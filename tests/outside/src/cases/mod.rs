// The families of random and hostile cases. A case is a generator's run: its seed, family and number give it again.

use crate::call::{Call, Outcome};
use crate::rng::Rng;

mod arguments;
mod calls;
mod large;
mod lists;
mod stacks;
mod tables;
mod tariffs;
mod whole;

pub use arguments::{right_groups, right_stack};
pub use tables::walked;
pub use tariffs::right_tariff;

#[derive(Clone, Copy, PartialEq, Debug)]
pub enum Family {
    // Index, Stack at, Turn and Begin.
    Stacks,
    // Single calls on jobs of every sort.
    Calls,
    // Read, Plan and Price on right, spoilt and random tables.
    Tables,
    // Whole random call lists to the end of a build, then plans and prices.
    Lists,
    // Large n: high indices, long segments and tables.
    Large,
    // Build the whole table.
    Whole,
}

pub const FAMILIES: [Family; 6] =
    [Family::Stacks, Family::Calls, Family::Tables, Family::Lists, Family::Large, Family::Whole];

impl Family {
    // How many cases of the family make about so many calls.
    pub fn cases(self, calls: u64) -> u64 {
        match self {
            Family::Stacks => calls / 16,
            Family::Calls => calls / 36,
            Family::Tables => calls / 150,
            Family::Lists => calls / 1_300,
            Family::Large => calls / 4_000,
            Family::Whole => calls / 300,
        }
        .max(1)
    }
}

// Runs a call on both systems and gives what they agree on; an error ends the case.
pub type Check<'a> = dyn FnMut(Call) -> Result<Outcome, String> + 'a;

pub fn run_case(family: Family, rng: &mut Rng, check: &mut Check) -> Result<(), String> {
    match family {
        Family::Stacks => stacks::case(rng, check),
        Family::Calls => calls::case(rng, check),
        Family::Tables => tables::case(rng, check),
        Family::Lists => lists::case(rng, check),
        Family::Large => large::case(rng, check),
        Family::Whole => whole::case(rng, check),
    }
}
