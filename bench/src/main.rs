// The benchmark's command line. It prints tables in Markdown.
//
//   bench/run [mode] [options]
//   tables             (the default) whole builds by wall time and by instructions, by either way of their levels, and single calls
//   check              methods (b) and (c) against the outside tests; prints what was checked
//   one METHOD BUILD   one build only, for a profiler; METHOD is library, fast, queue, forward or chosen (the calls of Build the whole table from
//                      outside, every level forward or by its rule), driver (Build the whole table itself) or none (set-up alone)
//   --builds LIST      the builds timed (plain9,plain10,plain11,coated7,coated8)
//   --counted LIST     the builds counted in instructions by valgrind (plain8,plain9,coated6,coated7); none for none
//   --segments G       about so many segments, which gives S (16)
//   --room C           the log room of each segment (1048576)
//   --runs R           interleaved runs (3)
//   --seed S           the seed of check (1)

use std::process::{Command, ExitCode};

use builds::{Built, Method, Subject, METHODS, WAYS};
use calls::Calls;

mod builds;
mod calls;
mod check;
mod fast;
mod queue;

struct Options {
    words: Vec<String>,
    builds: Vec<(u8, u8)>,
    counted: Vec<(u8, u8)>,
    segments: u64,
    room: u32,
    runs: usize,
    seed: u64,
}

// Kind and n of a word such as plain9.
fn build_of(word: &str) -> Result<(u8, u8), String> {
    let (kind, n, most) = match (word.strip_prefix("plain"), word.strip_prefix("coated")) {
        (Some(n), _) => (0, n, 12),
        (_, Some(n)) => (1, n, 10),
        _ => return Err(format!("{word} is no build")),
    };
    match n.parse() {
        Ok(n) if (1..=most).contains(&n) => Ok((kind, n)),
        _ => Err(format!("{word} has a wrong n")),
    }
}

fn builds_of(list: &str) -> Result<Vec<(u8, u8)>, String> {
    list.split(',').filter(|word| *word != "none").map(build_of).collect()
}

fn options() -> Result<Options, String> {
    let mut options = Options {
        words: Vec::new(),
        builds: builds_of("plain9,plain10,plain11,coated7,coated8")?,
        counted: builds_of("plain8,plain9,coated6,coated7")?,
        segments: 16,
        room: 1_048_576,
        runs: 3,
        seed: 1,
    };
    let mut words = std::env::args().skip(1);
    while let Some(word) = words.next() {
        if !word.starts_with("--") {
            options.words.push(word);
            continue;
        }
        let value = words.next().ok_or(format!("{word} needs a value"))?;
        let number = |least: u64, most: u64| match value.parse::<u64>() {
            Ok(number) if (least..=most).contains(&number) => Ok(number),
            _ => Err(format!("{word} needs a number from {least} to {most}")),
        };
        match word.as_str() {
            "--builds" => options.builds = builds_of(&value)?,
            "--counted" => options.counted = builds_of(&value)?,
            "--segments" => options.segments = number(1, 64)?,
            "--room" => options.room = number(16, 1_048_576)? as u32,
            "--runs" => options.runs = number(1, 1000)? as usize,
            "--seed" => options.seed = number(0, u64::MAX)?,
            _ => return Err(format!("no option {word}")),
        }
    }
    Ok(options)
}

impl Options {
    fn subject(&self, (kind, n): (u8, u8)) -> Subject {
        Subject { kind, n, segments: self.segments, room: self.room }
    }
}

// Best and median of some times.
fn best_and_median(mut times: Vec<f64>) -> (f64, f64) {
    times.sort_by(f64::total_cmp);
    (times[0], times[times.len() / 2])
}

// What (a) takes, divided by this.
fn ratio(library: f64, this: f64) -> String {
    format!("{:.2}", library / this)
}

// ---- Whole builds by wall time

fn timed(options: &Options) -> Result<(), String> {
    println!("### Whole builds, {} interleaved runs\n", options.runs);
    println!("Wall: seconds by the clock. Processor: seconds on a processor, which other load disturbs less.");
    println!("Bytes: table, log area and job of (a) and (b); a byte and four of queue for each stack of (c).\n");
    let columns = [
        "wall, best",
        "wall, median",
        "processor, best",
        "ns a child",
        "bytes",
        "(a) / this, wall",
        "(a) / this, processor",
    ];
    println!("| build | S | segments | C | method | children | {} |", columns.join(" | "));
    println!("|---|--:|--:|--:|---|--:|{}", "--:|".repeat(columns.len()));
    for build in &options.builds {
        let subject = options.subject(*build);
        let methods = METHODS;
        let mut walls: Vec<Vec<f64>> = vec![Vec::new(); methods.len()];
        let mut processors = walls.clone();
        let mut children = vec![0; methods.len()];
        for run in 0..options.runs {
            let mut first: Option<(Method, Built)> = None;
            for (place, &method) in methods.iter().enumerate() {
                let built = subject.build(subject.lend(method, true));
                walls[place].push(built.took.wall);
                processors[place].push(built.took.processor);
                children[place] = subject.children(method, &built.counts);
                match &first {
                    None => first = Some((method, built)),
                    Some((other, theirs)) if run == 0 => check::same(&subject, (*other, theirs), (method, &built))?,
                    _ => {}
                }
            }
        }
        let walls: Vec<(f64, f64)> = walls.into_iter().map(best_and_median).collect();
        let processors: Vec<f64> = processors.into_iter().map(|times| best_and_median(times).0).collect();
        let library = METHODS.iter().position(|method| *method == Method::Library).unwrap_or(0);
        let fields = subject.fields();
        let segments = subject.stacks().div_ceil(u64::from(fields.size));
        for (place, &method) in methods.iter().enumerate() {
            let ((best, median), processor) = (walls[place], processors[place]);
            let of_child = processor * 1e9 / children[place] as f64;
            let by_wall = ratio(walls[library].0, best);
            let by_processor = ratio(processors[library], processor);
            print!("| {subject} | {} | {segments} | {} |", fields.size, fields.room);
            print!(" {} | {} | {best:.4} | {median:.4} | {processor:.4} |", method.name(), children[place]);
            println!(" {of_child:.1} | {} | {by_wall} | {by_processor} |", subject.bytes(method));
        }
    }
    println!();
    Ok(())
}

// ---- Whole builds by instructions

// Instructions of one build run by this program under callgrind; none where valgrind cannot be run.
fn instructions(method: &str, subject: &Subject) -> Option<u64> {
    let this = std::env::current_exe().ok()?;
    let build = subject.to_string().replace(' ', "");
    let (segments, room) = (subject.segments.to_string(), subject.room.to_string());
    let output = Command::new("valgrind")
        .args(["--tool=callgrind", "--callgrind-out-file=/dev/null"])
        .arg(this)
        .args(["one", method, &build, "--segments", &segments, "--room", &room])
        .output()
        .ok()?;
    let words = String::from_utf8_lossy(&output.stderr).into_owned();
    let line = words.lines().find(|line| line.contains("Collected :"))?;
    line.rsplit(' ').next()?.parse().ok()
}

// The same without the set-up.
fn taken(method: &str, subject: &Subject) -> Result<u64, String> {
    let counts = instructions(method, subject).zip(instructions("none", subject));
    counts.map(|(whole, set_up)| whole.saturating_sub(set_up)).ok_or("valgrind did not run".to_string())
}

fn counted(options: &Options) -> Result<(), String> {
    println!("### Whole builds, instructions by valgrind, set-up taken off\n");
    println!("| build | method | children | instructions | a child | (a) / this |");
    println!("|---|---|--:|--:|--:|--:|");
    for build in &options.counted {
        let subject = options.subject(*build);
        let mut library = 0.0;
        for method in METHODS {
            let taken = taken(&method.word(), &subject)?;
            let children = subject.children(method, &subject.build(subject.lend(method, false)).counts);
            if method == Method::Library {
                library = taken as f64;
            }
            let per_child = taken as f64 / children as f64;
            let ratio = ratio(library, taken as f64);
            println!("| {subject} | {} | {children} | {taken} | {per_child:.1} | {ratio} |", method.name());
        }
    }
    println!();
    Ok(())
}

// Whole builds with every level forward beside those by the rule of Build the whole table: the same calls from outside, and its own loop.
fn by_either_way(options: &Options) -> Result<(), String> {
    println!("### Whole builds of (a) by either way of their levels, instructions by valgrind, set-up taken off\n");
    println!("| build | segments | forward only | ways chosen | Build the whole table | chosen / forward | whole table / forward |");
    println!("|---|--:|--:|--:|--:|--:|--:|");
    for (build, segments) in options.counted.iter().flat_map(|build| [1, 2, 4, 16].map(|segments| (build, segments))) {
        let subject = Subject { segments, ..options.subject(*build) };
        let built = WAYS.map(|ways| subject.drive(ways));
        for other in &built[1..] {
            check::same(&subject, (Method::Library, &built[0]), (Method::Library, other))?;
        }
        let [forward, chosen, driver] = WAYS.map(|ways| taken(&ways.word(), &subject));
        let (forward, chosen, driver) = (forward?, chosen?, driver?);
        let of_forward = |this: u64| this as f64 / forward as f64;
        print!("| {subject} | {segments} | {forward} | {chosen} | {driver} |");
        println!(" {:.3} | {:.3} |", of_forward(chosen), of_forward(driver));
    }
    println!();
    Ok(())
}

// ---- Single calls

fn called(options: &Options) {
    println!("### Single calls, processor time, best of {} interleaved runs\n", options.runs);
    println!("| call | method | ns a call | (a) / this |");
    println!("|---|---|--:|--:|");
    let systems: Vec<_> = METHODS.iter().filter_map(|method| Some((*method, method.system()?))).collect();
    for calls in Calls::all() {
        let mut times = vec![f64::INFINITY; systems.len()];
        for _ in 0..options.runs {
            for (time, (_, system)) in times.iter_mut().zip(&systems) {
                *time = time.min(calls.nanoseconds(system.as_ref()));
            }
        }
        let library = times[systems.iter().position(|(method, _)| *method == Method::Library).unwrap_or(0)];
        for (time, (method, _)) in times.iter().zip(&systems) {
            println!("| {} | {} | {time:.1} | {} |", calls.name, method.name(), ratio(library, *time));
        }
    }
    println!();
}

// ---- Modes

fn one(options: &Options, method: &str, build: &str) -> Result<(), String> {
    let subject = options.subject(build_of(build)?);
    if method == "none" {
        drop(subject.lend(Method::Fast, false));
        return Ok(());
    }
    if let Some(ways) = WAYS.into_iter().find(|ways| ways.word() == method) {
        let built = subject.drive(ways);
        println!("{subject}, {ways:?}: {} stacks", built.counts.iter().sum::<u64>());
        return Ok(());
    }
    let known = METHODS.into_iter().find(|known| known.word() == method).ok_or(format!("no method {method}"))?;
    let built = subject.build(subject.lend(known, false));
    println!("{subject} by {}: {} children", known.name(), subject.children(known, &built.counts));
    Ok(())
}

fn tables(options: &Options) -> Result<(), String> {
    let ones = if cfg!(target_feature = "popcnt") { "an instruction" } else { "computed" };
    println!("Children of (a) and (b) are more than of (c), as a two-bit entry is expanded again every third level.");
    println!("The count of ones is {ones} in this build of (b) and (c).\n");
    timed(options)?;
    if !options.counted.is_empty() {
        counted(options)?;
        by_either_way(options)?;
    }
    called(options);
    Ok(())
}

fn run() -> Result<(), String> {
    let options = options()?;
    let words: Vec<&str> = options.words.iter().map(String::as_str).collect();
    match words[..] {
        [] | ["tables"] => tables(&options),
        ["check"] => check::check(options.seed),
        ["one", method, build] => one(&options, method, build),
        _ => Err(format!("no mode {}", words.join(" "))),
    }
}

fn main() -> ExitCode {
    match run() {
        Ok(()) => ExitCode::SUCCESS,
        Err(wrong) => {
            eprintln!("{wrong}");
            ExitCode::FAILURE
        }
    }
}
