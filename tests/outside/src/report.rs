// The report program against document 01, "The report", and document 02, F-6, written from the papers: whole inputs, right, damaged and hostile.

use std::io::Write;
use std::process::{Command, Stdio};

use crate::build::{size_for, Fields};
use crate::cases::right_stack;
use crate::paper::{self, COATED, PAPER, PLAIN};
use crate::rng::Rng;
use crate::search::Distances;
use crate::system::*;

const ROOM: u32 = 16;

// The report's limits, so that the tests can move each one. That of a later frame's characters is not among them: a frame of more than n
// bytes is refused 16 as well.
#[derive(Clone, Copy)]
pub struct Limits {
    pub characters: usize,
    pub stacks: u64,
}

pub const LIMITS: Limits = Limits { characters: 64, stacks: 46_080 };

// ---- The report of an input

// The bytes of a frame of at most so many characters, or 16.
fn frame(line: &[u8], characters: usize) -> Result<Vec<u8>, u8> {
    let digit = |c: u8| match c {
        b'0'..=b'9' => Ok(c - b'0'),
        b'a'..=b'f' => Ok(c - b'a' + 10),
        _ => Err(16),
    };
    if line.len() > characters || line.len() % 2 == 1 {
        return Err(16);
    }
    line.chunks(2).map(|pair| Ok(digit(pair[0])? * 16 + digit(pair[1])?)).collect()
}

// The stack of some bytes, or 3.
fn stack_of(kind: u8, bytes: &[u8]) -> Result<Stack, u8> {
    let mut stack = NO_STACK;
    for (place, &byte) in stack.iter_mut().zip(bytes) {
        let pane = (byte & 0x7f) as i8;
        *place = if byte & 0x80 == 0 { pane } else { -pane };
    }
    if paper::is_stack(kind, bytes.len() as u8, &stack) {
        Ok(stack)
    } else {
        Err(3)
    }
}

struct Started {
    kind: u8,
    n: u8,
    wanted: Stack,
    distances: Distances,
}

fn first(line: &[u8], limits: &Limits) -> Result<Started, u8> {
    let bytes = frame(line, limits.characters)?;
    let &[kind, n, ref rest @ ..] = bytes.as_slice() else { return Err(16) };
    if let Err(refusal @ (1 | 2)) = PAPER.measures(kind, n, &NO_STACK, 0, 4, ROOM) {
        return Err(refusal);
    }
    if rest.len() != n as usize + 4 || paper::count_of_stacks(kind, n) > limits.stacks {
        return Err(16);
    }
    let (panes, size) = rest.split_at(n as usize);
    let wanted = stack_of(kind, panes)?;
    let size = size.iter().fold(0, |size, &byte| size << 8 | u32::from(byte));
    // The report uses every size.
    let fields = Fields { kind, n, wanted, groups: paper::full_set(kind, n), size, room: ROOM };
    fields.measures()?;
    Ok(Started { kind, n, wanted, distances: fields.distances() })
}

impl Started {
    // The largest turn that leads one nearer, until the wanted stack is reached.
    fn plan(&self, line: &[u8]) -> Result<Vec<u8>, u8> {
        let bytes = frame(line, LIMITS.characters)?;
        if bytes.len() != self.n as usize {
            return Err(16);
        }
        let mut stack = stack_of(self.kind, &bytes)?;
        let away = |stack: &Stack| self.distances.of(&stack[..self.n as usize]).expect("every stack has a road");
        let mut list = Vec::new();
        while stack != self.wanted {
            let nearer = |&k: &u8| away(&paper::turned(self.kind, &stack, k)) + 1 == away(&stack);
            let k = paper::turns(self.kind, self.n).filter(nearer).max().expect("some turn leads one nearer");
            stack = paper::turned(self.kind, &stack, k);
            list.push(k);
        }
        Ok(list)
    }

    // Document 02 says it twice: the sum of the counts, and the number of stacks that have an entry.
    fn total(&self) -> u32 {
        let sum: u64 = self.distances.counts.iter().sum();
        let seen = self.distances.turns.iter().flatten().count();
        assert_eq!(sum, seen as u64, "the counts are those of the stacks that have an entry");
        sum as u32
    }
}

fn hexadecimal(bytes: &[u8]) -> String {
    bytes.iter().map(|byte| format!("{byte:02x}")).collect::<String>() + "\n"
}

// All that is printed of an input.
pub fn report(input: &[u8]) -> String {
    report_within(input, &LIMITS)
}

pub fn report_within(input: &[u8], limits: &Limits) -> String {
    let mut lines: Vec<&[u8]> = input.split(|&c| c == b'\n').collect();
    lines.pop_if(|last| last.is_empty());
    let refused = |refusal| hexadecimal(&[0xee, refusal]);
    let Some((head, later)) = lines.split_first() else { return refused(16) };
    let started = match first(head, limits) {
        Ok(started) => started,
        Err(refusal) => return refused(refusal),
    };
    let numbered = |first: u8, number: u32| hexadecimal(&[&[first], &number.to_be_bytes()[..]].concat());
    let mut text = String::new();
    for (level, &count) in started.distances.counts.iter().enumerate() {
        text += &numbered(level as u8, count as u32);
    }
    text += &hexadecimal(&[0xff, started.distances.deepest() as u8]);
    text += &numbered(0xfe, started.total());
    for line in later {
        text += &match started.plan(line) {
            Ok(list) => hexadecimal(&[&[list.len() as u8], list.as_slice()].concat()),
            Err(refusal) => refused(refusal),
        };
    }
    text
}

// ---- Inputs

const EIGHT: &str = "0102030405060708";
const COATED_SIX: &str = "018203840586";

// What is known to come close, and what no one would send.
pub fn deliberate() -> Vec<Vec<u8>> {
    let right = "000301020300000004";
    let long = |length: usize| "a".repeat(length);
    let texts = [
        String::new(),
        "\n".into(),
        "\n\n".into(),
        "00".into(),
        "0001".into(),
        "000101".into(),
        "000d".into(),
        "02".into(),
        "0201".into(),
        "010b\n".into(),
        "00010100000004".into(),
        "00010100000004\n\n01".into(),
        "00010100000006\n".into(),
        "01018000000004".into(),
        "01018100000004\n01\n81\n80".into(),
        "00018100000004".into(),
        format!("0009{}00000004", "01".repeat(9)),
        format!("0007{}00000400", "01".repeat(7)),
        format!("{right}0\n"),
        format!("{right}00\n"),
        format!("{right}\r\n"),
        format!("{right}\n030102\n010302\n010203\n010103"),
        format!("{right}\n010203\r\n010203\n"),
        format!("{right}\n01020\n0102030\n0A0203\n 10203\n010203"),
        format!("{right}\n 010203\n01 02 03\n030201 \n010203"),
        format!("{right} \n030201\n"),
        format!("{right}\n830102\n030182\n030102\n"),
        format!("{right}\n{}\n{}\n{}\n010203\n", "0".repeat(64), "0".repeat(65), "0".repeat(66)),
        // A first frame's characters show in its kind and n alone: at most 64 of them are looked at.
        "02".repeat(31) + "0",
        "02".repeat(32),
        "02".repeat(32) + "0",
        "02".repeat(33),
        "000d".repeat(16),
        // N at its limit and past it.
        format!("0008{EIGHT}00000278\n{EIGHT}\n0807060504030201\n0801070206030504"),
        format!("0008{EIGHT}00000274\n{EIGHT}\n"),
        format!("0106{COATED_SIX}000002d0\n{COATED_SIX}\n818283848586\n060504030201\n"),
        format!("0009{EIGHT}0900001624\n{EIGHT}09\n"),
        format!("0107{COATED_SIX}0700002760\n{COATED_SIX}07\n"),
        // 3 before 5, and a length that is wrong before both.
        "000301010300000006".into(),
        "0003010103000006".into(),
        "00030101030000000004".into(),
        format!("{right}\n{}\n030201\n", long(1_000_000)),
        long(1_000_000),
        format!("{}\n{right}\n", long(65)),
        format!("{right}\n{}", "030201\n".repeat(20_000)),
        format!("{right}\n{}", "\n".repeat(70_000)),
    ];
    let mut inputs: Vec<Vec<u8>> = texts.into_iter().map(String::into_bytes).collect();
    inputs.push(vec![0xff, 0xfe, b'\n']);
    inputs.push([right.as_bytes(), b"\n\x00\x01\n\xff\xff\n030201"].concat());
    inputs
}

fn panes(kind: u8, n: u8, rng: &mut Rng) -> String {
    let stack = right_stack(rng, kind, n);
    stack[..n as usize].iter().map(|&pane| format!("{:02x}", pane.unsigned_abs() | (pane as u8 & 0x80))).collect()
}

fn damaged(mut line: String, rng: &mut Rng) -> String {
    let place = rng.below(line.len() as u64 + 1) as usize;
    match rng.below(5) {
        0 => line.insert_str(place, "00"),
        1 => line.truncate(place),
        2 => line = "0".repeat(rng.between(60, 70) as usize),
        _ if place < line.len() => {
            line.replace_range(place..=place, rng.pick(&["0", "1", "2", "8", "a", "f", "A", "g", " ", "\r", "\u{7f}"]));
        }
        _ => line.clear(),
    }
    line
}

fn random(rng: &mut Rng) -> Vec<u8> {
    let kind = rng.pick(&[PLAIN, COATED]);
    let n = rng.between(1, if kind == PLAIN { 7 } else { 5 }) as u8;
    let size = size_for(paper::count_of_stacks(kind, n), rng.pick(&[1, 2, 3, 16, 60, 64]));
    let mut lines = vec![format!("{kind:02x}{n:02x}{}{size:08x}", panes(kind, n, rng))];
    if rng.chance(25) {
        lines[0] = damaged(lines[0].clone(), rng);
    }
    for _ in 0..rng.below(12) {
        let line = panes(kind, n, rng);
        lines.push(if rng.chance(30) { damaged(line, rng) } else { line });
    }
    let mut text = lines.join("\n");
    if rng.chance(50) {
        text.push('\n');
    }
    text.into_bytes()
}

// ---- The program

// The report program, which tools/programs makes.
pub const PROGRAM: &str = concat!(env!("CARGO_MANIFEST_DIR"), "/../../target/bin/report");

// What the program prints. It ends well, whatever comes in.
fn run(input: &[u8]) -> Result<String, String> {
    let failed = |error| format!("{PROGRAM}: {error}");
    let mut child = Command::new(PROGRAM).stdin(Stdio::piped()).stdout(Stdio::piped()).spawn().map_err(failed)?;
    let mut stdin = child.stdin.take().expect("its input is piped");
    let given = input.to_vec();
    // A refused first frame ends the run before all is read, so a write that fails is no fault.
    let feeder = std::thread::spawn(move || drop(stdin.write_all(&given)));
    let output = child.wait_with_output().map_err(failed)?;
    feeder.join().expect("the feeder ends");
    if !output.status.success() {
        return Err(format!("{PROGRAM} ended with {}", output.status));
    }
    String::from_utf8(output.stdout).map_err(|_| format!("{PROGRAM} printed what is no text"))
}

// Compares the program with the paper on every input made on purpose and on some random ones.
pub fn compare(seed: u64, cases: u64) -> Result<String, String> {
    let inputs = deliberate().into_iter().chain((0..cases).map(|number| random(&mut Rng::of_case(seed, 99, number))));
    let mut compared = 0;
    for input in inputs {
        let (got, right) = (run(&input)?, report(&input));
        if got != right {
            let shown = String::from_utf8_lossy(&input[..input.len().min(300)]).into_owned();
            return Err(format!("input {compared} of {} bytes, {shown:?}: got {got:?} and not {right:?}", input.len()));
        }
        compared += 1;
    }
    Ok(format!("{compared} inputs, each with exit status 0"))
}
