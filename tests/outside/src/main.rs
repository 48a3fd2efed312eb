// Runs every outside test and prints what was checked; exits with 1 where a check failed.
//
//   cargo run --release --offline --manifest-path tests/outside/Cargo.toml -- [options]
//   --seed S           the seed of all random cases (1)
//   --cases N          how many single calls are compared, about (600000)
//   --family F         one family only: stacks, calls, tables, lists, large, whole
//   --case K           one case of that family only, to run a failing one again

use std::process::ExitCode;
use std::time::Instant;

use outside::cases::{Family, FAMILIES};
use outside::checks::{self, Frame, DEEP};
use outside::compare::{compare, compare_call, Tally};
use outside::linked::{Library, LIBRARY};
use outside::paper::PAPER;
use outside::system::System;
use outside::{caught, deliberate, header, literal, measured, ones, pipe, report_faults};

// A system that is held to the checks, and how far its builds go.
struct Held {
    name: &'static str,
    system: &'static dyn System,
    plain_to: u8,
    coated_to: u8,
    frames: &'static [Frame],
}

// The library's builds reach further than the paper's, which stop where its seconds do.
const HELD: [Held; 2] = [
    Held { name: "paper", system: &PAPER, plain_to: 9, coated_to: 6, frames: DEEP.split_at(1).0 },
    Held { name: "library", system: &LIBRARY, plain_to: 10, coated_to: 8, frames: DEEP },
];

struct Options {
    seed: u64,
    cases: u64,
    family: Option<Family>,
    case: Option<u64>,
}

fn options() -> Result<Options, String> {
    let mut options = Options { seed: 1, cases: 600_000, family: None, case: None };
    let mut words = std::env::args().skip(1);
    while let Some(name) = words.next() {
        let value = words.next().ok_or(format!("{name} needs a value"))?;
        let number = || value.parse::<u64>().map_err(|_| format!("{name} needs a number"));
        match name.as_str() {
            "--seed" => options.seed = number()?,
            "--cases" => options.cases = number()?,
            "--case" => options.case = Some(number()?),
            "--family" => {
                let named = |family: &&Family| format!("{family:?}").to_lowercase() == value;
                options.family = Some(*FAMILIES.iter().find(named).ok_or(format!("no family {value}"))?);
            }
            _ => return Err(format!("no option {name}")),
        }
    }
    if options.case.is_some() && options.family.is_none() {
        return Err("--case needs --family".to_string());
    }
    Ok(options)
}

// Prints what a part of the tests did and how long it took; false where it failed.
fn report(part: &str, run: impl FnOnce() -> Result<String, String>) -> bool {
    let start = Instant::now();
    let outcome = run();
    let seconds = start.elapsed().as_secs_f64();
    match &outcome {
        Ok(done) => println!("ok      {part}: {done} ({seconds:.1} s)"),
        Err(wrong) => println!("FAILED  {part}: {wrong}"),
    }
    outcome.is_ok()
}

// Reserved bytes of the jobs that the library is given: none of them changes an answer.
const RESERVED: [[u8; 2]; 4] = [[0, 0], [1, 0], [0, 1], [255, 170]];

// The calls made on purpose; they meet every refusal of every operation.
fn on_purpose() -> Result<String, String> {
    let mut tally = Tally::default();
    for (call, reserved) in deliberate::calls().iter().flat_map(|call| RESERVED.map(|reserved| (call, reserved))) {
        compare_call(&PAPER, &Library { reserved }, call, &mut tally)?;
    }
    match tally.refusals_unmet() {
        unmet if unmet.is_empty() => Ok(format!("{} calls, every refusal of every operation met", tally.calls())),
        unmet => Err(unmet.join("; ")),
    }
}

// Compares in each family, and sees that every refusal of every operation was met.
fn comparison(options: &Options, other: &dyn System) -> bool {
    let mut tally = Tally::default();
    let mut fine = true;
    for family in FAMILIES {
        if options.family.is_some_and(|only| only != family) {
            continue;
        }
        let numbers = match options.case {
            Some(number) => number..number + 1,
            None => 0..family.cases(options.cases),
        };
        let before = tally.calls();
        fine &= report(&format!("compared {family:?}"), || {
            compare(&PAPER, other, family, options.seed, numbers.clone(), &mut tally)?;
            Ok(format!("{} cases, {} calls", numbers.end - numbers.start, tally.calls() - before))
        });
    }
    println!("{tally}");
    if fine && options.family.is_none() && options.cases >= 100_000 {
        fine &= report("coverage", || match tally.unmet() {
            unmet if unmet.is_empty() => Ok("every refusal of every operation was met".to_string()),
            unmet => Err(unmet.join("; ")),
        });
    }
    fine
}

fn main() -> ExitCode {
    let options = match options() {
        Ok(options) => options,
        Err(wrong) => {
            eprintln!("{wrong}");
            return ExitCode::FAILURE;
        }
    };
    let start = Instant::now();
    println!("outside tests, seed {}, about {} calls", options.seed, options.cases);
    let mut fine = true;
    if options.family.is_none() {
        fine &= report("header", header::compare);
        for Held { name, system, plain_to, coated_to, frames } in HELD {
            fine &= report(&format!("{name}, examples"), || checks::examples(system));
            fine &= report(&format!("{name}, numbers"), || literal::rows(system));
            fine &= report(&format!("{name}, measured builds"), || measured::rows(system));
            fine &= report(&format!("{name}, numbering"), || checks::numbering(system));
            fine &= report(&format!("{name}, builds"), || checks::builds(system, options.seed));
            fine &= report(&format!("{name}, limited sets"), || checks::limited(system, options.seed));
            fine &= report(&format!("{name}, reverse levels"), || checks::reverse(system, options.seed));
            fine &= report(&format!("{name}, deep builds"), || checks::deep(system, frames));
            fine &= report(&format!("{name}, last level"), || checks::late(system));
            fine &= report(&format!("{name}, diameters"), || checks::diameters(system, plain_to, coated_to));
        }
        fine &= report("library, builds of many orders", || measured::builds(&LIBRARY));
        fine &= report("comparison", || caught::by_families(options.seed));
        fine &= report("limits", caught::limits);
        fine &= report("orders", caught::orders);
        fine &= report("exchanges", caught::exchanges);
        fine &= report("far bytes", caught::far);
        fine &= report("reserved bytes", caught::reserved);
        fine &= report("on purpose", on_purpose);
        fine &= report("report", || outside::report::compare(options.seed, 400));
        fine &= report("report's faults", report_faults::caught);
        fine &= report("report by pipe", pipe::conversations);
        fine &= report("table of ones", ones::compare);
    }
    fine &= comparison(&options, &Library { reserved: [90, 165] });
    println!("{} in {:.1} s", if fine { "all passed" } else { "FAILED" }, start.elapsed().as_secs_f64());
    if fine {
        ExitCode::SUCCESS
    } else {
        ExitCode::FAILURE
    }
}
