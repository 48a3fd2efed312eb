// The parts of the outside tests, as a library that the benchmark uses too.
#![deny(unsafe_code)]

pub mod bill;
pub mod build;
pub mod call;
pub mod cases;
pub mod caught;
pub mod checks;
pub mod compare;
pub mod deliberate;
pub mod exchange;
pub mod faulty;
pub mod header;
pub mod linked;
pub mod literal;
pub mod measured;
pub mod ones;
pub mod paper;
pub mod pipe;
pub mod report;
pub mod report_faults;
pub mod rng;
pub mod search;
pub mod system;
