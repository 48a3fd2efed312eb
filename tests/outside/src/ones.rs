// The table of ones against document 02, F-7: what `print_ones` prints, what stands in the constant's source, and a table that is counted here
// bit by bit; and tables with one fault each, which must be caught.

use std::process::Command;

const PLACES: usize = 12;
const LINE_BYTES: usize = 16;

const PROGRAM: &str = concat!(env!("CARGO_MANIFEST_DIR"), "/../../target/bin/print_ones");
const CONSTANT: &str = concat!(env!("CARGO_MANIFEST_DIR"), "/../../crates/ones/src/constant.rt");

// How many of a set's bits are ones.
fn ones(set: usize) -> u8 {
    (0..PLACES).map(|place| (set / (1 << place) % 2) as u8).sum()
}

fn table() -> Vec<u8> {
    (0..1 << PLACES).map(ones).collect()
}

// Lines of so many bytes, in the report's hexadecimal.
fn text_of(table: &[u8], line_bytes: usize) -> String {
    let line = |bytes: &[u8]| bytes.iter().map(|byte| format!("{byte:02x}")).collect::<String>() + "\n";
    table.chunks(line_bytes).map(line).collect()
}

// The first line in which a text is not the table's.
fn held(what: &str, text: &str) -> Result<(), String> {
    let right = text_of(&table(), LINE_BYTES);
    if text == right {
        return Ok(());
    }
    let line = right.lines().zip(text.lines()).take_while(|(right, line)| right == line).count();
    let shown = text.lines().nth(line).unwrap_or("");
    Err(format!("{what}: line {line} is {shown:?}, {} characters of {}", text.len(), right.len()))
}

// The entries of the constant's source, each written as \xNN.
fn constant() -> Result<Vec<u8>, String> {
    let source = std::fs::read_to_string(CONSTANT).map_err(|error| format!("{CONSTANT}: {error}"))?;
    let entry = |escaped: &str| u8::from_str_radix(escaped.get(..2)?, 16).ok();
    let entries: Option<Vec<u8>> = source.split("\\x").skip(1).map(entry).collect();
    entries.ok_or(format!("{CONSTANT}: an entry is no byte"))
}

fn printed() -> Result<String, String> {
    let output = Command::new(PROGRAM).output().map_err(|error| format!("{PROGRAM}: {error}"))?;
    if !output.status.success() {
        return Err(format!("{PROGRAM} ended with {}", output.status));
    }
    String::from_utf8(output.stdout).map_err(|_| format!("{PROGRAM} printed what is no text"))
}

// A table with each entry that a fault gives.
fn faulty(entry: fn(usize) -> u8) -> String {
    text_of(&(0..1 << PLACES).map(entry).collect::<Vec<_>>(), LINE_BYTES)
}

fn faults() -> Vec<(&'static str, String)> {
    let right = text_of(&table(), LINE_BYTES);
    vec![
        ("the last entry is one less", faulty(|set| ones(set) - u8::from(set == 4095))),
        ("entry 0 is 1", faulty(|set| ones(set).max(1))),
        ("eleven bits are counted", faulty(|set| ones(set % 2048))),
        ("zeros are counted", faulty(|set| PLACES as u8 - ones(set))),
        ("the last clearing is left out", faulty(|set| ones(set).saturating_sub(1))),
        ("bits are counted, set or not", faulty(|set| (usize::BITS - set.leading_zeros()) as u8)),
        ("lines of 15", text_of(&table(), 15)),
        ("lines of 32", text_of(&table(), 32)),
        ("the last line has no end", right.trim_end().to_string()),
        ("a line is missing", right.lines().skip(1).map(|line| format!("{line}\n")).collect()),
        ("a line is there twice", right.lines().next().map_or(String::new(), |line| format!("{line}\n")) + &right),
        ("capital digits", right.to_uppercase()),
    ]
}

pub fn compare() -> Result<String, String> {
    held("print_ones", &printed()?)?;
    held("the constant", &text_of(&constant()?, LINE_BYTES))?;
    let faults = faults();
    match faults.iter().find(|(_, text)| held("", text).is_ok()) {
        Some((fault, _)) => Err(format!("not caught: {fault}")),
        None => Ok(format!("{} entries printed and in the source, {} faults caught", table().len(), faults.len())),
    }
}
