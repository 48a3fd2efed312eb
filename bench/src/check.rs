// Before anything is measured: methods (b) and (c) give what documents 01 and 02 say.

use outside::build::{Build, Refused, FORWARD_RISING};
use outside::cases::{Family, FAMILIES};
use outside::checks;
use outside::compare::{compare, Tally};
use outside::paper::{self, PAPER};
use outside::rng::Rng;
use outside::system::Phase;

use crate::builds::{Built, Method, Subject};
use crate::fast::Fast;

// Holds (b) to the checks of the outside tests and compares it with the paper call by call.
pub fn check(seed: u64) -> Result<(), String> {
    println!("examples: {}", checks::examples(&Fast)?);
    println!("numbering: {}", checks::numbering(&Fast)?);
    println!("builds: {}", checks::builds(&Fast, seed)?);
    println!("limited sets: {}", checks::limited(&Fast, seed)?);
    println!("reverse levels: {}", checks::reverse(&Fast, seed)?);
    println!("deep builds: {}", checks::deep(&Fast, &checks::DEEP)?);
    println!("last level: {}", checks::late(&Fast)?);
    println!("diameters: {}", checks::diameters(&Fast, 10, 8)?);
    let mut tally = Tally::default();
    for family in FAMILIES {
        let cases = match family {
            Family::Stacks => 100_000,
            Family::Calls => 50_000,
            Family::Tables => 10_000,
            Family::Lists => 500,
            Family::Large => 200,
            Family::Whole => 200,
        };
        compare(&PAPER, &Fast, family, seed, 0..cases, &mut tally)?;
        println!("compared {family:?}: {cases} cases, seed {seed}");
    }
    println!("{} calls\n{tally}", tally.calls());
    for subject in [(0, 8), (1, 6)].map(|(kind, n)| Subject { kind, n, segments: 16, room: 1_048_576 }) {
        println!("{subject}: {} children, by the counts and by the entries", children_by_entries(&subject)?);
        let [fast, queue] = [Method::Fast, Method::Queue].map(|method| subject.build(subject.lend(method, true)));
        same(&subject, (Method::Fast, &fast), (Method::Queue, &queue))?;
    }
    Ok(())
}

// Two methods gave the same counts and the same entries.
pub fn same(subject: &Subject, one: (Method, &Built), other: (Method, &Built)) -> Result<(), String> {
    let differ = |what| Err(format!("{subject}: {what} of {} and {} differ", one.0.name(), other.0.name()));
    if one.1.counts != other.1.counts {
        return differ("the counts");
    }
    let entry = |(method, built): (Method, &Built), i: u64| match method {
        Method::Queue => built.cells[i as usize] % 3,
        _ => paper::entry_at(&built.cells, i),
    };
    if (0..subject.stacks()).any(|i| entry(one, i) != entry(other, i)) {
        return differ("the entries");
    }
    Ok(())
}

// The children of all stacks that carry the expanded entry, level by level; they must be those that the counts give.
fn children_by_entries(subject: &Subject) -> Result<u64, String> {
    let refused = |(refusal, call): Refused| format!("{subject}: {call} refused {refusal}");
    let mut rng = Rng::new(1);
    let mut build = Build::begin(&Fast, &subject.fields(), &mut rng).map_err(|refusal| refused((refusal, "Begin")))?;
    build.blank_all(&Fast, FORWARD_RISING, &mut rng).map_err(refused)?;
    let mut children = 0;
    while let Phase::Level(d) = build.job.phase {
        let table = build.table();
        let expanded = (0..subject.stacks()).filter(|&i| paper::entry_at(&table, i) == (d - 1) % 3).count();
        children += expanded as u64 * paper::turns(subject.kind, subject.n).count() as u64;
        build.level(&Fast, FORWARD_RISING, &mut rng).map_err(refused)?;
    }
    match subject.children(Method::Fast, &build.job.counts) {
        right if right == children => Ok(children),
        right => Err(format!("{subject}: {children} children by the entries, {right} by the counts")),
    }
}
