// Faults of the C boundary: two fields of a struct, or two parameters of an export, in each other's place. Nothing but their order ties them
// to C, and no proof sees it, so the calls made on purpose must catch every exchange.
//
// Not here, as it cannot be told apart: the place of the job among the parameters. It is passed in memory, so that the numbers and buffers
// around it come in the same registers wherever it stands. Nor here, as no safe call is like them: a stack in the place of a number, which
// moves every register between the two, and a buffer in the place of either or behind the tariff, which makes a number an address: Plan and
// Price have no registers left for their set and buffers, so that these come in memory, as the tariff does.

use std::fmt;
use std::rc::Rc;

use crate::call::{Answered, Answers, Call, Outcome, OPERATIONS};
use crate::paper::PAPER;
use crate::system::*;

// A field's name, its bytes, and what its place is a multiple of.
type Field = (&'static str, usize, usize);

// A struct of include/hokrund.h; its fields in order.
struct Struct {
    name: &'static str,
    fields: &'static [Field],
}

const REFUSAL: Field = ("refusal", 1, 1);
const JOB_FIELD: Field = ("job", 3104, 8);

const JOB: Struct = Struct {
    name: "HokrundJob",
    fields: &[
        ("kind", 1, 1),
        ("n", 1, 1),
        ("phase", 1, 1),
        ("level", 1, 1),
        ("way", 1, 1),
        ("loaded", 1, 1),
        ("wanted", 12, 1),
        ("reserved", 2, 1),
        ("groups", 4, 4),
        ("size", 4, 4),
        ("room", 4, 4),
        ("passed", 256, 4),
        ("waiting", 256, 4),
        ("swept", 512, 8),
        ("counts", 2048, 8),
    ],
};
const INDEXED: Struct = Struct { name: "HokrundIndexed", fields: &[REFUSAL, ("index", 4, 4)] };
const STACKED: Struct = Struct { name: "HokrundStacked", fields: &[REFUSAL, ("stack", 12, 1)] };
const ANSWER: Struct = Struct { name: "HokrundAnswer", fields: &[REFUSAL, JOB_FIELD] };
const EXPANDED: Struct =
    Struct { name: "HokrundExpanded", fields: &[REFUSAL, ("waits", 1, 1), ("on", 4, 4), JOB_FIELD] };
const LOOK: Struct = Struct { name: "HokrundLook", fields: &[REFUSAL, ("start", 8, 8), ("length", 8, 8)] };
const ENTRY: Struct = Struct { name: "HokrundEntry", fields: &[REFUSAL, ("entry", 1, 1)] };
const PLANNED: Struct = Struct { name: "HokrundPlanned", fields: &[REFUSAL, ("turns", 4, 4)] };
const LINE: Struct = Struct { name: "HokrundLine", fields: &[("first", 1, 1), ("last", 1, 1), ("price", 4, 4)] };
const TARIFF: Struct = Struct { name: "HokrundTariff", fields: &[("count", 4, 4), ("lines", 96, 4)] };
const PRICED: Struct = Struct { name: "HokrundPriced", fields: &[REFUSAL, ("turns", 4, 4), ("pennies", 4, 4)] };

// Every struct of more than one field that crosses the boundary.
const STRUCTS: [&Struct; 11] =
    [&JOB, &INDEXED, &STACKED, &ANSWER, &EXPANDED, &LOOK, &ENTRY, &PLANNED, &LINE, &TARIFF, &PRICED];

// The parameters of each operation's export, in the sets within which two can stand in each other's place: numbers of any width, stacks,
// buffers with their lengths, and lengths alone. Operations with one parameter of each set have no line.
const PARAMETERS: [(&str, &[&str]); 24] = [
    ("Index", &["kind", "n"]),
    ("Stack at", &["kind", "n", "index"]),
    ("Turn", &["kind", "n", "k"]),
    ("Begin", &["kind", "n", "groups", "size", "room"]),
    ("Expand", &["segment", "log"]),
    ("Expand", &["length", "words"]),
    ("Settle", &["segment", "log"]),
    ("Settle", &["length", "words"]),
    ("Load", &["segment", "list"]),
    ("Load", &["length", "bytes"]),
    ("Sweep", &["segment", "list"]),
    ("Sweep", &["length", "bytes"]),
    ("Read", &["kind", "n", "index"]),
    ("Plan", &["kind", "n", "groups"]),
    ("Plan", &["wanted", "given"]),
    ("Plan", &["table", "list"]),
    ("Plan", &["length", "slots"]),
    ("Price", &["kind", "n", "groups"]),
    ("Price", &["wanted", "given"]),
    ("Price", &["table", "list"]),
    ("Price", &["length", "slots"]),
    ("Build", &["kind", "n", "groups", "size", "room"]),
    ("Build", &["table", "log", "list"]),
    ("Build", &["length", "words", "bytes"]),
];

// Where each field of each struct stands, in C's own order.
pub fn places() -> [(&'static str, Vec<usize>); 11] {
    STRUCTS.map(|of| (of.name, of.places(&of.right_order())))
}

// Two fields of a struct, or two parameters of an operation's export, by name.
#[derive(Clone, Copy, PartialEq)]
pub struct Exchange {
    of: &'static str,
    one: &'static str,
    other: &'static str,
}

impl fmt::Display for Exchange {
    fn fmt(&self, f: &mut fmt::Formatter) -> fmt::Result {
        write!(f, "{} and {} of {}", self.one, self.other, self.of)
    }
}

// Every exchange of two fields and of two parameters.
pub fn exchanges() -> Vec<Exchange> {
    let structs = STRUCTS.iter().map(|of| (of.name, of.fields.iter().map(|field| field.0).collect::<Vec<_>>()));
    let exports = PARAMETERS.iter().map(|(of, names)| (*of, names.to_vec()));
    let mut all = Vec::new();
    for (of, names) in structs.chain(exports) {
        for (place, one) in names.iter().enumerate() {
            all.extend(names[place + 1..].iter().map(|other| Exchange { of, one, other }));
        }
    }
    all
}

// ---- Fields

impl Struct {
    // The order of declaration that include/hokrund.h has, and the one with the exchange.
    fn right_order(&self) -> Vec<usize> {
        (0..self.fields.len()).collect()
    }

    fn wrong_order(&self, exchange: &Exchange) -> Vec<usize> {
        let place = |name| self.fields.iter().position(|field| field.0 == name).expect("a field of the struct");
        let mut order = self.right_order();
        if exchange.of == self.name {
            order.swap(place(exchange.one), place(exchange.other));
        }
        order
    }

    // Where each field stands, by C's rule, when they are declared in this order.
    fn places(&self, order: &[usize]) -> Vec<usize> {
        let mut places = vec![0; order.len()];
        let mut end = 0_usize;
        for &field in order {
            let (_, bytes, multiple) = self.fields[field];
            places[field] = end.next_multiple_of(multiple);
            end = places[field] + bytes;
        }
        places
    }

    // The bytes from one struct of an array to the next, by the same rule.
    fn stride(&self, order: &[usize]) -> usize {
        let ends = self.places(order).into_iter().zip(self.fields).map(|(place, field)| place + field.1);
        let multiple = self.fields.iter().map(|field| field.2).max().unwrap_or(1);
        ends.max().unwrap_or(0).next_multiple_of(multiple)
    }

    // The struct as one writes it who has declared it in this order; bytes between fields are 0.
    fn written(&self, values: &[Vec<u8>], order: &[usize]) -> Vec<u8> {
        let mut bytes = Vec::new();
        for (value, place) in values.iter().zip(self.places(order)) {
            bytes.resize(bytes.len().max(place + value.len()), 0);
            bytes[place..place + value.len()].copy_from_slice(value);
        }
        bytes
    }

    // Each field as one reads it who has declared them in this order; bytes past the end are 0.
    fn read(&self, bytes: &[u8], order: &[usize]) -> Vec<Vec<u8>> {
        let byte = |place: usize| bytes.get(place).copied().unwrap_or(0);
        let fields = self.fields.iter().zip(self.places(order));
        fields.map(|(field, place)| (place..place + field.1).map(byte).collect()).collect()
    }
}

fn number(bytes: &[u8]) -> u64 {
    bytes.iter().rev().fold(0, |number, &byte| number << 8 | u64::from(byte))
}

fn stack_of(bytes: &[u8]) -> Stack {
    std::array::from_fn(|place| bytes[place] as i8)
}

fn bytes_of_stack(stack: &Stack) -> Vec<u8> {
    stack.iter().map(|&pane| pane as u8).collect()
}

fn fields_of_job(job: &Job) -> Vec<Vec<u8>> {
    let (phase, level) = job.phase.numbers();
    let words = |numbers: &[u32]| numbers.iter().flat_map(|number| number.to_le_bytes()).collect();
    let long_words = |numbers: &[u64]| numbers.iter().flat_map(|number| number.to_le_bytes()).collect();
    vec![
        vec![job.kind],
        vec![job.n],
        vec![phase],
        vec![level],
        vec![job.way],
        vec![job.loaded],
        bytes_of_stack(&job.wanted),
        vec![0; 2],
        words(&[job.groups]),
        words(&[job.size]),
        words(&[job.room]),
        words(&job.passed),
        words(&job.waiting),
        long_words(&job.swept),
        long_words(&job.counts),
    ]
}

fn job_of_fields(fields: &[Vec<u8>]) -> Job {
    let words = |field: usize| std::array::from_fn(|j| number(&fields[field][4 * j..][..4]) as u32);
    Job {
        kind: fields[0][0],
        n: fields[1][0],
        phase: Phase::of_numbers(fields[2][0], fields[3][0]),
        way: fields[4][0],
        loaded: fields[5][0],
        wanted: stack_of(&fields[6]),
        // Field 7 is reserved, and plays no part.
        groups: number(&fields[8]) as u32,
        size: number(&fields[9]) as u32,
        room: number(&fields[10]) as u32,
        passed: words(11),
        waiting: words(12),
        swept: std::array::from_fn(|b| number(&fields[13][8 * b..][..8])),
        counts: std::array::from_fn(|level| number(&fields[14][8 * level..][..8])),
    }
}

fn job_read(bytes: &[u8]) -> Job {
    job_of_fields(&JOB.read(bytes, &JOB.right_order()))
}

// Each line fills its stride.
fn bytes_of_lines(lines: &[Line]) -> Vec<u8> {
    let fields = |line: &Line| [vec![line.first], vec![line.last], line.price.to_le_bytes().to_vec()];
    lines.iter().flat_map(|line| LINE.written(&fields(line), &LINE.right_order())).collect()
}

impl Exchange {
    // The fields of a struct that comes in: the caller writes it by the right order, the library reads it by the wrong one.
    fn taken(&self, of: &Struct, values: &[Vec<u8>]) -> Vec<Vec<u8>> {
        of.read(&of.written(values, &of.right_order()), &of.wrong_order(self))
    }

    fn job_in(&self, job: &Job) -> Job {
        job_of_fields(&self.taken(&JOB, &fields_of_job(job)))
    }

    // The lines in a tariff are structs too; by the wrong order they may be longer, and reach past its end.
    fn tariff_in(&self, tariff: &Tariff) -> Tariff {
        let fields = self.taken(&TARIFF, &[tariff.count.to_le_bytes().to_vec(), bytes_of_lines(&tariff.lines)]);
        let order = LINE.wrong_order(self);
        let line = |place: usize| {
            let bytes = fields[1].get(place * LINE.stride(&order)..).unwrap_or_default();
            let fields = LINE.read(bytes, &order);
            Line { first: fields[0][0], last: fields[1][0], price: number(&fields[2]) as u32 }
        };
        Tariff { count: number(&fields[0]) as u32, lines: std::array::from_fn(line) }
    }

    // A job that goes out, inside an answer: written by the wrong order, read by the right one.
    fn job_written(&self, job: &Job) -> Vec<u8> {
        let mut bytes = JOB.written(&fields_of_job(job), &JOB.wrong_order(self));
        bytes.resize(JOB_FIELD.1, 0);
        bytes
    }

    // An answer's fields, the same way.
    fn out(&self, of: &Struct, values: &[Vec<u8>]) -> Vec<Vec<u8>> {
        of.read(&of.written(values, &of.wrong_order(self)), &of.right_order())
    }

    // An answer that goes out.
    fn answer_out(&self, answer: &Answered) -> Answered {
        let word = |number: u32| number.to_le_bytes().to_vec();
        match answer {
            Answered::Indexed(Indexed { refusal, index }) => {
                let fields = self.out(&INDEXED, &[vec![*refusal], word(*index)]);
                Answered::Indexed(Indexed { refusal: fields[0][0], index: number(&fields[1]) as u32 })
            }
            Answered::Stacked(Stacked { refusal, stack }) => {
                let fields = self.out(&STACKED, &[vec![*refusal], bytes_of_stack(stack)]);
                Answered::Stacked(Stacked { refusal: fields[0][0], stack: stack_of(&fields[1]) })
            }
            Answered::Answer(Answer { refusal, job }) => {
                let fields = self.out(&ANSWER, &[vec![*refusal], self.job_written(job)]);
                Answered::Answer(Answer { refusal: fields[0][0], job: job_read(&fields[1]) })
            }
            Answered::Expanded(Expanded { refusal, waits, on, job }) => {
                let values = [vec![*refusal], vec![u8::from(*waits)], word(*on), self.job_written(job)];
                let fields = self.out(&EXPANDED, &values);
                let (waits, on) = (fields[1][0] != 0, number(&fields[2]) as u32);
                Answered::Expanded(Expanded { refusal: fields[0][0], waits, on, job: job_read(&fields[3]) })
            }
            Answered::Looked(Looked { start, len, number: refusal }) => {
                let values = [vec![*refusal], start.to_le_bytes().to_vec(), len.to_le_bytes().to_vec()];
                let fields = self.out(&LOOK, &values);
                let (start, len) = (number(&fields[1]) as usize, number(&fields[2]) as usize);
                Answered::Looked(Looked { start, len, number: fields[0][0] })
            }
            Answered::Entry(Entry { refusal, entry }) => {
                let fields = self.out(&ENTRY, &[vec![*refusal], vec![*entry]]);
                Answered::Entry(Entry { refusal: fields[0][0], entry: fields[1][0] })
            }
            Answered::Planned(Planned { refusal, turns }) => {
                let fields = self.out(&PLANNED, &[vec![*refusal], word(*turns)]);
                Answered::Planned(Planned { refusal: fields[0][0], turns: number(&fields[1]) as u32 })
            }
            Answered::Priced(Priced { refusal, turns, pennies }) => {
                let fields = self.out(&PRICED, &[vec![*refusal], word(*turns), word(*pennies)]);
                let (turns, pennies) = (number(&fields[1]) as u32, number(&fields[2]) as u32);
                Answered::Priced(Priced { refusal: fields[0][0], turns, pennies })
            }
        }
    }
}

// ---- Parameters

// A number among the parameters.
enum Number<'a> {
    Byte(&'a mut u8),
    Word(&'a mut u32),
}

impl Number<'_> {
    fn get(self) -> u32 {
        match self {
            Number::Byte(number) => u32::from(*number),
            Number::Word(number) => *number,
        }
    }

    // A narrower parameter takes the low byte, as a register is read.
    fn set(self, value: u32) {
        match self {
            Number::Byte(number) => *number = value as u8,
            Number::Word(number) => *number = value,
        }
    }
}

// The number of that name, where the call has one.
fn number_of<'a>(call: &'a mut Call, name: &str) -> Option<Number<'a>> {
    match call {
        Call::Index { kind, n, .. } => vec![("kind", Number::Byte(kind)), ("n", Number::Byte(n))],
        Call::Plan { kind, n, groups, .. } | Call::Price { kind, n, groups, .. } => {
            vec![("kind", Number::Byte(kind)), ("n", Number::Byte(n)), ("groups", Number::Word(groups))]
        }
        Call::StackAt { kind, n, index } | Call::ReadEntry { kind, n, index, .. } => {
            vec![("kind", Number::Byte(kind)), ("n", Number::Byte(n)), ("index", Number::Word(index))]
        }
        Call::Turn { kind, n, k, .. } => {
            vec![("kind", Number::Byte(kind)), ("n", Number::Byte(n)), ("k", Number::Byte(k))]
        }
        Call::Begin { fields } | Call::Build { fields, .. } => vec![
            ("kind", Number::Byte(&mut fields.kind)),
            ("n", Number::Byte(&mut fields.n)),
            ("groups", Number::Word(&mut fields.groups)),
            ("size", Number::Word(&mut fields.size)),
            ("room", Number::Word(&mut fields.room)),
        ],
        _ => Vec::new(),
    }
    .into_iter()
    .find(|(named, _)| *named == name)
    .map(|(_, number)| number)
}

// The contents with another length.
fn resized<T: Clone + Default>(contents: &[T], len: usize) -> Vec<T> {
    let mut other = contents.to_vec();
    other.resize(len, T::default());
    other
}

impl Exchange {
    // The call as the library takes it.
    fn call_in(&self, call: &Call) -> Call {
        let mut taken = call.clone();
        match &mut taken {
            Call::Blank { job, .. } | Call::Expand { job, .. } | Call::Settle { job, .. } => *job = self.job_in(job),
            Call::Look { job, .. } | Call::Close { job, .. } => *job = self.job_in(job),
            Call::Load { job, .. } | Call::Sweep { job, .. } => *job = self.job_in(job),
            Call::Price { tariff, .. } => *tariff = self.tariff_in(tariff),
            _ => {}
        }
        if self.of != OPERATIONS[call.operation()] {
            return taken;
        }
        match (self.one, self.other, &mut taken) {
            ("wanted", _, Call::Plan { wanted, given, .. } | Call::Price { wanted, given, .. }) => {
                std::mem::swap(wanted, given)
            }
            ("table", _, Call::Plan { table, list, .. } | Call::Price { table, list, .. }) => {
                let contents = table.to_vec();
                *table = Rc::new(std::mem::replace(list, contents));
            }
            ("length", _, Call::Plan { table, list, .. } | Call::Price { table, list, .. }) => {
                let (length, slots) = (table.len(), list.len());
                *table = Rc::new(resized(table, slots));
                list.resize(length, 0);
            }
            (_, "list", Call::Load { segment, list, .. } | Call::Sweep { segment, list, .. })
            | ("table", "list", Call::Build { table: segment, list, .. }) => std::mem::swap(segment, list),
            (_, "bytes", Call::Load { segment, list, .. } | Call::Sweep { segment, list, .. })
            | ("length", "bytes", Call::Build { table: segment, list, .. }) => {
                (*segment, *list) = (resized(segment, list.len()), resized(list, segment.len()));
            }
            // Numbers of another width are read there: what they are is anyone's guess, how many there are is not.
            (_, "log", Call::Expand { segment: bytes, logs, .. } | Call::Settle { segment: bytes, logs, .. })
            | (_, "log", Call::Build { table: bytes, logs, .. })
            | ("log", _, Call::Build { list: bytes, logs, .. }) => {
                (*bytes, *logs) = (vec![0; logs.len()], vec![0; bytes.len()]);
            }
            (_, "words", Call::Expand { segment: bytes, logs, .. } | Call::Settle { segment: bytes, logs, .. })
            | (_, "words", Call::Build { table: bytes, logs, .. })
            | ("words", _, Call::Build { list: bytes, logs, .. }) => {
                (*bytes, *logs) = (resized(bytes, logs.len()), resized(logs, bytes.len()));
            }
            _ => {
                let mut value = |name| number_of(&mut taken, name).map(Number::get);
                if let (Some(one), Some(other)) = (value(self.one), value(self.other)) {
                    number_of(&mut taken, self.one).expect("it was there").set(other);
                    number_of(&mut taken, self.other).expect("it was there").set(one);
                }
            }
        }
        taken
    }

    // What the caller then finds in what it lent: buffers that were exchanged as they were, the rest of a longer one too.
    fn lent_out(&self, call: &Call, outcome: &mut Outcome) {
        let (segment, logs, list) = call.lent();
        if self.of != OPERATIONS[call.operation()] {
            return;
        }
        match self.one {
            "segment" | "table" | "log" => {
                (outcome.segment, outcome.logs, outcome.list) = (segment.to_vec(), logs.to_vec(), list.to_vec());
            }
            "length" | "words" => {
                restore(&mut outcome.segment, segment);
                restore(&mut outcome.logs, logs);
                restore(&mut outcome.list, list);
            }
            _ => {}
        }
    }
}

// What was written, and past its end what was there before.
fn restore<T: Clone>(after: &mut Vec<T>, before: &[T]) {
    after.truncate(before.len());
    after.extend_from_slice(&before[after.len()..]);
}

impl Answers for Exchange {
    fn outcome(&self, call: &Call) -> Outcome {
        let mut outcome = self.call_in(call).run(&PAPER);
        outcome.answer = self.answer_out(&outcome.answer);
        self.lent_out(call, &mut outcome);
        outcome
    }
}

// No exchange at all, to see that only exchanges are caught.
pub const NONE: Exchange = Exchange { of: "", one: "", other: "" };
