// include/hokrund.h against the source that it declares: each function's result and parameters and each struct's fields, by name, type and order;
// the limits that both name; and the version, by a record of what was declared under each. And headers with one fault each, which must be caught.

use std::fmt;
use std::fs;

use crate::linked;

const ROOT: &str = concat!(env!("CARGO_MANIFEST_DIR"), "/../../");
const HEADER: &str = "include/hokrund.h";
const RECORD: &str = "include/interface.txt";

// What the library exports, and where the other structs and the limits that it names stand.
const EXPORTS: &str = "crates/hokrund_c/src";
const BELOW: [&str; 5] = [
    "crates/stacks/src/lib.rt",
    "crates/search/src/lib.rt",
    "crates/tariff/src/lib.rt",
    "crates/mirror/src/lib.rt",
    "crates/hokrund/src/version.rt",
];

// What stands around the declarations. Anything else might hide one of them from a compiler.
const AROUND: [&str; 6] = [
    "#ifndef HOKRUND_H",
    "#ifndef __cplusplus",
    "#ifdef __cplusplus",
    "#endif",
    "#include <",
    "#undef HOKRUND_ASSERT_",
];

// The numbers that the header and the source both name.
const NUMBERS: [(&str, &str); 7] = [
    ("HOKRUND_PLACES", "PLACES"),
    ("HOKRUND_SEGMENTS", "SEGMENT_LIMIT"),
    ("HOKRUND_NO_SEGMENT", "NO_SEGMENT"),
    ("HOKRUND_LEVELS", "COUNT_PLACES"),
    ("HOKRUND_LINES", "LINE_LIMIT"),
    ("HOKRUND_TURN_LIST", "PLAN_LIMIT"),
    ("HOKRUND_MOST_PRICE", "PRICE_LIMIT"),
];
const VERSION: (&str, &str) = ("HOKRUND_VERSION", "VERSION");

// A function or a struct: what it answers (a struct nothing), and its parameters or fields as C writes them, a space between any two words.
#[derive(Clone)]
struct Declared {
    name: String,
    answers: Option<String>,
    parts: Vec<String>,
}

// A named number, or of the header a macro, with its parameters and the text that it stands for.
#[derive(Clone)]
struct Named {
    name: String,
    text: String,
}

// What a header declares, or a source as a header would.
#[derive(Clone, Default)]
struct Interface {
    named: Vec<Named>,
    declared: Vec<Declared>,
}

impl Interface {
    fn text_of(&self, name: &str) -> Option<&str> {
        self.named.iter().find(|named| named.name == name).map(|named| named.text.as_str())
    }

    fn number(&self, name: &str) -> Result<u32, String> {
        self.text_of(name).and_then(|text| text.parse().ok()).ok_or(format!("{name} is no number"))
    }

    // What is answered and each part, with the number of each length that has a name.
    fn resolved(&self, of: &Declared) -> Vec<String> {
        let numbered = |part: &String| {
            let words = part.split(' ').map(|word| self.text_of(word).unwrap_or(word));
            words.collect::<Vec<_>>().join(" ")
        };
        of.answers.iter().chain(&of.parts).map(numbered).collect()
    }
}

// As C: what `header` reads.
impl fmt::Display for Interface {
    fn fmt(&self, f: &mut fmt::Formatter) -> fmt::Result {
        for Named { name, text } in &self.named {
            writeln!(f, "#define {name} {text}")?;
        }
        for Declared { name, answers, parts } in &self.declared {
            match answers {
                Some(answers) if parts.is_empty() => writeln!(f, "{answers} {name} ( void ) ;")?,
                Some(answers) => writeln!(f, "{answers} {name} ( {} ) ;", parts.join(" , "))?,
                None => writeln!(f, "typedef struct {name} {{ {} ; }} {name} ;", parts.join(" ; "))?,
            }
        }
        Ok(())
    }
}

// ---- Reading

// Names and numbers, and each other character but spaces by itself.
fn words(text: &str) -> Vec<&str> {
    let of_name = |c: char| c.is_ascii_alphanumeric() || c == '_';
    let mut words = Vec::new();
    let mut rest = text.trim_start();
    while let Some(first) = rest.chars().next() {
        let end = if of_name(first) { rest.find(|c| !of_name(c)).unwrap_or(rest.len()) } else { first.len_utf8() };
        words.push(&rest[..end]);
        rest = rest[end..].trim_start();
    }
    words
}

// The text with a space for each stretch from one mark to the next other one.
fn without(text: &str, from: &str, to: &str) -> String {
    let mut stretches = text.split(from);
    let first = stretches.next().unwrap_or_default().to_string();
    stretches.fold(first, |kept, stretch| kept + " " + stretch.split_once(to).map_or("", |(_, after)| after))
}

// The words up to the one that ends them, and those behind it.
fn until<'a, 'b>(words: &'a [&'b str], end: &str) -> Result<(&'a [&'b str], &'a [&'b str]), String> {
    let place = words.iter().position(|word| *word == end).ok_or(format!("no {end} after {}", words.join(" ")))?;
    Ok((&words[..place], &words[place + 1..]))
}

// The words between the marks.
fn split<'a, 'b>(words: &'a [&'b str], mark: &str) -> Vec<&'a [&'b str]> {
    words.split(|word| *word == mark).filter(|words| !words.is_empty()).collect()
}

// A header. The assertions of its layout are no part of what it declares.
fn header(text: &str) -> Result<Interface, String> {
    let text = without(text, "/*", "*/").replace("\\\n", " ");
    let (directives, lines): (Vec<&str>, Vec<&str>) = text.lines().partition(|line| line.starts_with('#'));
    let mut interface = Interface::default();
    for line in directives {
        let Some(line) = line.strip_prefix("#define ") else {
            if !AROUND.iter().any(|around| line.starts_with(around)) {
                return Err(format!("no line that is read here: {line}"));
            }
            continue;
        };
        let end = line.find(|c: char| c != '_' && !c.is_ascii_alphanumeric()).unwrap_or(line.len());
        let end = if line[end..].starts_with('(') { line.find(')').map_or(end, |at| at + 1) } else { end };
        let (name, text) = (line[..end].to_string(), words(&line[end..]).join(" "));
        if interface.text_of(&name).is_some() {
            return Err(format!("{name} is defined twice"));
        }
        if !name.starts_with("HOKRUND_ASSERT") && name != "HOKRUND_H" {
            interface.named.push(Named { name, text });
        }
    }
    let lines = lines.join("\n");
    let mut rest = &words(&lines)[..];
    while !rest.is_empty() {
        match rest {
            // This stands around all.
            ["extern", "\"", "C", "\"", "{", after @ ..] | ["}", after @ ..] => rest = after,
            ["HOKRUND_ASSERT_SIZE" | "HOKRUND_ASSERT_FIELD", ..] => rest = until(rest, ";")?.1,
            ["typedef", ..] => {
                let (head, after) = until(rest, "{")?;
                let (fields, after) = until(after, "}")?;
                let (tail, after) = until(after, ";")?;
                let ["typedef", "struct", name] = head else { return Err(format!("no struct: {}", head.join(" "))) };
                let parts = split(fields, ";").iter().map(|field| field.join(" ")).collect();
                interface.declared.push(Declared { name: name.to_string(), answers: None, parts });
                if tail != [*name] {
                    return Err(format!("{name} is also {}", tail.join(" ")));
                }
                rest = after;
            }
            _ => {
                let (declaration, after) = until(rest, ";")?;
                let [answers, name, "(", parameters @ .., ")"] = declaration else {
                    return Err(format!("no declaration: {}", declaration.join(" ")));
                };
                let parts: Vec<String> = split(parameters, ",").iter().map(|part| part.join(" ")).collect();
                let parts = if parts == ["void"] { Vec::new() } else { parts };
                interface.declared.push(Declared { name: name.to_string(), answers: Some(answers.to_string()), parts });
                rest = after;
            }
        }
    }
    Ok(interface)
}

fn c_type(of: &str) -> Result<String, String> {
    Ok(match of {
        "i8" => "int8_t".to_string(),
        "u8" | "u32" | "u64" => format!("uint{}_t", &of[1..]),
        "usize" => "size_t".to_string(),
        "bool" => "bool".to_string(),
        "Tariff" | "Line" => format!("Hokrund{of}"),
        _ if of.starts_with("Hokrund") => of.to_string(),
        _ => return Err(format!("{of} is no type for C")),
    })
}

// A slice is two parameters in C, and the source names only the first: a table or a segment has its length in bytes, a log area in words, a changed
// list in bytes, and the list of a plan in slots.
fn length_of(function: &str, slice: &str) -> Result<&'static str, String> {
    Ok(match (slice, function) {
        ("segment" | "table", _) => "length",
        ("log", _) => "words",
        ("list", "hokrund_plan" | "hokrund_price") => "slots",
        ("list", _) => "bytes",
        _ => return Err(format!("{function}: the length of {slice} has no name")),
    })
}

// A parameter or a field of the source, as C has it.
fn parts_of(of: &str, part: &[&str]) -> Result<Vec<String>, String> {
    let part = part.strip_prefix(&["pub"]).unwrap_or(part);
    let [name, ":", kind @ ..] = part else { return Err(format!("{of}: no part: {}", part.join(" "))) };
    let slice = |constant: &str, element: &str| {
        Ok(vec![format!("{constant}{} * {name}", c_type(element)?), format!("size_t {}", length_of(of, name)?)])
    };
    match kind {
        ["&", "[", element, "]"] => slice("const ", element),
        ["&", "mut", "[", element, "]"] => slice("", element),
        ["[", element, ";", length, "]"] => Ok(vec![format!("{} {name} [ {length} ]", c_type(element)?)]),
        [single] => Ok(vec![format!("{} {name}", c_type(single)?)]),
        _ => Err(format!("{of}: {name} is nothing for C: {}", kind.join(" "))),
    }
}

fn all_parts(of: &str, parts: &[&str]) -> Result<Vec<String>, String> {
    Ok(split(parts, ",").into_iter().map(|part| parts_of(of, part)).collect::<Result<Vec<_>, _>>()?.concat())
}

// The exports, the structs in C's layout and the constants of a source.
fn source(text: &str) -> Result<Interface, String> {
    let text = without(text, "//", "\n");
    let words = words(&text);
    let mut interface = Interface::default();
    for place in 0..words.len() {
        match &words[place..] {
            ["pub", "extern", "\"", "C", "\"", "fn", name, "(", rest @ ..] => {
                let (parameters, after) = until(rest, ")")?;
                let ["-", ">", answers, ..] = after else { return Err(format!("{name} answers nothing")) };
                interface.declared.push(Declared {
                    name: name.to_string(),
                    answers: Some(c_type(answers)?),
                    parts: all_parts(name, parameters)?,
                });
            }
            ["#", "[", "repr", "(", "C", ")", "]", "pub", "struct", name, "{", rest @ ..] => {
                let parts = all_parts(name, until(rest, "}")?.0)?;
                interface.declared.push(Declared { name: c_type(name)?, answers: None, parts });
            }
            ["pub", "const", name, ":", _, "=", number, ";", ..] => {
                interface.named.push(Named { name: name.to_string(), text: number.to_string() });
            }
            _ => {}
        }
    }
    Ok(interface)
}

fn read(path: &str) -> Result<String, String> {
    fs::read_to_string(ROOT.to_string() + path).map_err(|error| format!("{path}: {error}"))
}

fn sources() -> Result<Interface, String> {
    let mut text = BELOW.map(read).into_iter().collect::<Result<String, _>>()?;
    let folder = fs::read_dir(ROOT.to_string() + EXPORTS).map_err(|error| format!("{EXPORTS}: {error}"))?;
    for file in folder {
        let name = file.map_err(|error| format!("{EXPORTS}: {error}"))?.file_name();
        text += &read(&format!("{EXPORTS}/{}", name.to_string_lossy()))?;
    }
    source(&text)
}

// ---- Comparing

// The header declares what the source has, and nothing else.
fn held(header: &Interface, source: &Interface) -> Result<(), String> {
    for of in &header.declared {
        if header.declared.iter().filter(|other| other.name == of.name).count() > 1 {
            return Err(format!("{} is declared twice", of.name));
        }
        if !source.declared.iter().any(|right| right.name == of.name) {
            return Err(format!("{} is declared, and not in the source", of.name));
        }
    }
    for right in &source.declared {
        let found = header.declared.iter().find(|of| of.name == right.name);
        let of = found.ok_or(format!("{} is in the source, and not declared", right.name))?;
        let (in_header, in_source) = (header.resolved(of), source.resolved(right));
        for place in 0..in_header.len().max(in_source.len()) {
            let [one, other] = [&in_header, &in_source].map(|parts| parts.get(place).map_or("nothing", String::as_str));
            if one != other {
                return Err(format!("{}: `{one}` in the header is `{other}` in the source", of.name));
            }
        }
    }
    for (name, right) in NUMBERS.iter().chain([&VERSION]) {
        let (number, other) = (header.number(name)?, source.number(right)?);
        if number != other {
            return Err(format!("{name} is {number}, and {right} in the source {other}"));
        }
    }
    Ok(())
}

// A line of the record: a version and its fingerprint, which is FNV-1a of the line before and of all that is declared, in any order, but the version.
fn line(before: &str, version: u32, header: &Interface) -> String {
    let mut unversioned = header.clone();
    unversioned.named.retain(|named| named.name != VERSION.0);
    let text = unversioned.to_string();
    let mut lines: Vec<&str> = text.lines().collect();
    lines.sort_unstable();
    lines.insert(0, before);
    let bytes = lines.iter().flat_map(|line| line.bytes().chain([b'\n']));
    let print = bytes
        .fold(0xcbf2_9ce4_8422_2325_u64, |print, byte| (print ^ u64::from(byte)).wrapping_mul(0x0000_0100_0000_01b3));
    format!("{version} {print:016x}")
}

// The last line of the record is of this version and of what is declared now. A line holds the one before it, so that none can be edited alone.
fn recorded(header: &Interface, record: &str) -> Result<u32, String> {
    let version = header.number(VERSION.0)?;
    let lines: Vec<&str> = record.lines().filter(|line| !line.starts_with('#')).collect();
    let number = |line: &str| line.split(' ').next().and_then(|number| number.parse::<u32>().ok());
    if lines.windows(2).any(|two| number(two[0]).map(|n| n + 1) != number(two[1])) {
        return Err(format!("{RECORD}: the versions do not rise one by one"));
    }
    let (last, before) = lines.split_last().ok_or(format!("{RECORD} is empty"))?;
    let before = before.last().copied().unwrap_or_default();
    match number(last) {
        Some(number) if number + 1 == version => {
            Err(format!("version {version} is not recorded: add the line `{}` to {RECORD}", line(last, version, header)))
        }
        Some(number) if number == version && *last == line(before, version, header) => Ok(version),
        Some(number) if number == version => Err(format!(
            "what {HEADER} declares is not what was recorded as version {version}: raise {} there, {} in crate hokrund and its \
             definition, and add the line `{}` to {RECORD}",
            VERSION.0,
            VERSION.1,
            line(last, version + 1, header)
        )),
        _ => Err(format!("{} is {version}, and the last line of {RECORD} is `{last}`", VERSION.0)),
    }
}

// ---- Faults

// Each part in the places of others, with another type, name or length, with or without its const, or gone.
fn faulty_parts(of: &Declared) -> Vec<(String, Vec<String>)> {
    let mut faults = Vec::new();
    let mut add = |what: String, change: &dyn Fn(&mut Vec<String>)| {
        let mut parts = of.parts.clone();
        change(&mut parts);
        faults.push((what, parts));
    };
    for (one, part) in of.parts.iter().enumerate() {
        for other in one + 1..of.parts.len() {
            add(format!("`{part}` and `{}` exchanged", of.parts[other]), &|parts| parts.swap(one, other));
        }
        if one + 2 < of.parts.len() {
            add(format!("three rotated from `{part}` on"), &|parts| parts[one..one + 3].rotate_left(1));
        }
        let words: Vec<&str> = part.split(' ').collect();
        let place = usize::from(words[0] == "const");
        for other in ["int8_t", "uint8_t", "uint32_t", "uint64_t", "size_t", "bool", "HokrundStack", "HokrundJob"] {
            if words[place] != other {
                let changed = [&words[..place], &[other], &words[place + 1..]].concat().join(" ");
                add(format!("`{part}` as `{changed}`"), &|parts| parts[one] = changed.clone());
            }
        }
        let changed = match part.strip_prefix("const ") {
            Some(written) => written.to_string(),
            None => format!("const {part}"),
        };
        add(format!("`{part}` as `{changed}`"), &|parts| parts[one] = changed.clone());
        let name = place + 1 + usize::from(words[place + 1] == "*");
        let renamed = [&words[..name], &["other"], &words[name + 1..]].concat().join(" ");
        add(format!("`{part}` as `{renamed}`"), &|parts| parts[one] = renamed.clone());
        if words.contains(&"[") {
            let longer = part.replace(" ]", "0 ]");
            add(format!("`{part}` as `{longer}`"), &|parts| parts[one] = longer.clone());
        }
        if words.contains(&"*") {
            let pointed = part.replace("* ", "");
            add(format!("`{part}` as `{pointed}`"), &|parts| parts[one] = pointed.clone());
        }
        add(format!("no `{part}`"), &|parts| drop(parts.remove(one)));
        add(format!("`{part}` twice"), &|parts| parts.insert(one, part.clone()));
    }
    faults
}

// Headers with one fault each in what they declare.
fn faults(right: &Interface) -> Vec<(String, Interface)> {
    let mut faults = Vec::new();
    let mut add = |what: String, change: &dyn Fn(&mut Interface)| {
        let mut faulty = right.clone();
        change(&mut faulty);
        faults.push((what, faulty));
    };
    for (place, of) in right.declared.iter().enumerate() {
        for (what, parts) in faulty_parts(of) {
            add(format!("{}: {what}", of.name), &|faulty| faulty.declared[place].parts = parts.clone());
        }
        if of.answers.is_some() {
            let other =
                if of.answers.as_deref() == Some("HokrundAnswer") { "HokrundExpanded" } else { "HokrundAnswer" };
            add(format!("{} answers {other}", of.name), &|faulty| {
                faulty.declared[place].answers = Some(other.to_string())
            });
        }
        add(format!("{} under another name", of.name), &|faulty| faulty.declared[place].name += "_other");
        add(format!("no {}", of.name), &|faulty| drop(faulty.declared.remove(place)));
        add(format!("{} twice", of.name), &|faulty| faulty.declared.push(of.clone()));
    }
    for (name, _) in NUMBERS.iter().chain([&VERSION]) {
        let number = right.number(name).unwrap_or_default();
        for other in [number.wrapping_sub(1), number + 1] {
            add(format!("{name} as {other}"), &|faulty| {
                let named = faulty.named.iter_mut().find(|named| named.name == *name).expect("it was read");
                named.text = other.to_string();
            });
        }
    }
    faults
}

// Each fault in what is declared is refused by the source, and, but for the version's own, by the record as well; and so is any other number.
fn caught(right: &Interface, source: &Interface, record: &str) -> Result<usize, String> {
    let faults = faults(right);
    for (what, faulty) in &faults {
        let faulty = header(&faulty.to_string()).map_err(|wrong| format!("{what}: {wrong}"))?;
        if held(&faulty, source).is_ok() {
            return Err(format!("{what}: not refused by the source"));
        }
        if recorded(&faulty, record).is_ok() {
            return Err(format!("{what}: not refused by the record"));
        }
    }
    for place in 0..right.named.len() {
        let mut faulty = right.clone();
        faulty.named[place].text += "1";
        if recorded(&faulty, record).is_ok() {
            return Err(format!("{} as {}: not refused", faulty.named[place].name, faulty.named[place].text));
        }
    }
    Ok(faults.len() + right.named.len())
}

// Records with one fault each are refused: a line that is gone, there twice, or edited in any place, the first and the last one alike.
fn caught_records(right: &Interface, record: &str) -> Result<usize, String> {
    let lines: Vec<&str> = record.lines().filter(|line| !line.starts_with('#')).collect();
    let mut faults = Vec::new();
    for (place, line) in lines.iter().enumerate() {
        let with = |new: &[&str]| [&lines[..place], new, &lines[place + 1..]].concat().join("\n");
        // The first line has none before it, so that it can only be edited.
        if place > 0 {
            faults.push(with(&[]));
        }
        faults.push(with(&[line, line]));
        for (at, digit) in line.char_indices().filter(|(_, c)| *c != ' ') {
            let other = if digit == '0' { "1" } else { "0" };
            faults.push(with(&[&[&line[..at], other, &line[at + 1..]].concat()]));
        }
    }
    match faults.iter().find(|record| recorded(right, record).is_ok()) {
        Some(record) => Err(format!("not refused: {record:?}")),
        None => Ok(faults.len()),
    }
}

// Texts that hide a declaration, or that are read in no way, are refused.
fn caught_texts(text: &str) -> Result<usize, String> {
    let texts = [
        "#if 0\n#endif",
        "#ifdef OTHER\n#endif",
        "#undef HOKRUND_PLACES",
        "#define HOKRUND_PLACES 13",
        "#pragma pack(1)",
        "extern int other;",
        "typedef union Other { int other; } Other;",
        "typedef struct HokrundStack { int8_t places[12]; } OtherStack;",
    ];
    let faulty = |more: &&str| text.replace("\n/* The layout", &format!("\n{more}\n/* The layout"));
    match texts.iter().find(|more| !faulty(more).contains(**more) || header(&faulty(more)).is_ok()) {
        Some(more) => Err(format!("not refused: {more}")),
        None => Ok(texts.len()),
    }
}

// Words that are no part of what is declared leave its line as it is: comments, the layout of the text, and the order of the declarations.
fn same_line(text: &str, right: &Interface) -> Result<(), String> {
    let mut turned = right.clone();
    turned.declared.reverse();
    turned.named.reverse();
    let texts = [
        text.replace("/* ", "/* Another word. "),
        text.replace(", size_t", ",\n    size_t"),
        text.replace(" *segment", "* segment"),
        turned.to_string(),
    ];
    for other in texts {
        if line("", 0, &header(&other)?) != line("", 0, right) {
            return Err(format!("another line of the record by words alone, from {}", &other[..60]));
        }
    }
    Ok(())
}

pub fn compare() -> Result<String, String> {
    let (text, record, source) = (read(HEADER)?, read(RECORD)?, sources()?);
    let header = header(&text)?;
    held(&header, &source)?;
    let version = recorded(&header, &record)?;
    if linked::version() != version {
        return Err(format!("hokrund_version() is {} and {} {version}", linked::version(), VERSION.0));
    }
    same_line(&text, &header)?;
    let faults = caught(&header, &source, &record)? + caught_texts(&text)? + caught_records(&header, &record)?;
    let functions = header.declared.iter().filter(|of| of.answers.is_some()).count();
    let structs = header.declared.len() - functions;
    Ok(format!("{functions} functions and {structs} structs as in the source, version {version} as recorded, {faults} faults caught"))
}
