// Reports with one fault each, made from the right one by a change of what goes in or comes out: the inputs made on purpose must catch each.
//
// Not here, as they cannot be told apart: a limit of 65 characters, as 65 are no pairs; any limit of a later frame's characters from 16 up, as
// one of more than n bytes is refused 16 too; a limit of N from 46,081 to 362,879, as no N lies there; and a total that is taken from N, as every
// stack of a report has a road.

use crate::report::{deliberate, report, report_within, Limits, LIMITS};

type Faulty = fn(&[u8]) -> String;

const FAULTS: &[(&str, Faulty)] = &[
    // What goes in.
    ("capital digits are taken", |input| report(&input.to_ascii_lowercase())),
    ("an empty line is skipped", |input| {
        report(&with_lines(input, |_, line| (!line.is_empty()).then(|| line.to_vec())))
    }),
    ("an empty line ends the input", |input| {
        let mut open = true;
        report(&with_lines(input, |_, line| {
            open &= !line.is_empty();
            open.then(|| line.to_vec())
        }))
    }),
    ("a last line without its end is lost", |input| {
        report(&input[..input.iter().rposition(|&c| c == b'\n').map_or(0, |end| end + 1)])
    }),
    ("a last line end starts a line", |input| {
        report(&if input.ends_with(b"\n") { [input, b"\n"].concat() } else { input.to_vec() })
    }),
    ("a carriage return is dropped", |input| report(&without(input, b'\r'))),
    ("a space is dropped", |input| report(&without(input, b' '))),
    ("an overlong line goes on as the next one", |input| {
        report(&with_lines(input, |_, line| Some(line.chunks(64).collect::<Vec<_>>().join(&b'\n'))))
    }),
    ("an overlong line is cut", |input| {
        report(&with_lines(input, |_, line| Some(line[..line.len().min(64)].to_vec())))
    }),
    ("an odd last digit is dropped", |input| {
        report(&with_lines(input, |_, line| Some(line[..line.len() / 2 * 2].to_vec())))
    }),
    ("a later frame may have more bytes", |input| {
        let n = panes_of(input);
        report(&with_lines(input, |place, line| {
            Some(line[..if place > 0 { line.len().min(2 * n) } else { line.len() }].to_vec())
        }))
    }),
    ("a coat in a plain frame is taken off", |input| {
        let plain = input.starts_with(b"00");
        report(&with_lines(input, |place, line| {
            let bare = |(i, &c): (usize, &u8)| if plain && place > 0 && i % 2 == 0 && c == b'8' { b'0' } else { c };
            Some(line.iter().enumerate().map(bare).collect())
        }))
    }),
    ("S has its low byte first", |input| {
        report(&with_lines(input, |place, line| match line.split_last_chunk::<8>() {
            Some((front, size)) if place == 0 => {
                Some([front, &size[6..], &size[4..6], &size[2..4], &size[..2]].concat())
            }
            _ => Some(line.to_vec()),
        }))
    }),
    ("no input prints nothing", |input| if input.is_empty() { String::new() } else { report(input) }),
    ("a refused first frame goes on", |input| {
        let text = report(input);
        let later = input.iter().position(|&c| c == b'\n').map(|end| &input[end + 1..]);
        match later {
            Some(later) if text.starts_with("ee") && !later.is_empty() => text + &report(later),
            _ => text,
        }
    }),
    // Limits and the order of refusals.
    ("N to 46,079", |input| report_within(input, &Limits { stacks: 46_079, ..LIMITS })),
    ("N to 40,319", |input| report_within(input, &Limits { stacks: 40_319, ..LIMITS })),
    ("N to 362,880", |input| report_within(input, &Limits { stacks: 362_880, ..LIMITS })),
    ("63 characters", |input| report_within(input, &Limits { characters: 63, ..LIMITS })),
    ("66 characters", |input| report_within(input, &Limits { characters: 66, ..LIMITS })),
    ("1 and 2 come after the length", |input| {
        let text = report(input);
        let short = line_of(input).len() != 2 * (panes_of(input) + 6);
        if short && (text == "ee01\n" || text == "ee02\n") {
            "ee10\n".to_string()
        } else {
            text
        }
    }),
    ("3 comes before N", |input| {
        let text = report_within(input, &Limits { stacks: u64::MAX, ..LIMITS });
        if text == "ee03\n" {
            text
        } else {
            report(input)
        }
    }),
    ("5 comes before 3", |input| {
        let text = report(&in_order(input));
        if text == "ee05\n" {
            text
        } else {
            report(input)
        }
    }),
    // What comes out.
    ("the deepest level is one more", |input| {
        edited(input, |place, line| match line.strip_prefix("ff") {
            Some(deepest) if place == Place::Deepest => {
                let deepest = u8::from_str_radix(deepest, 16).expect("two digits");
                Some(format!("ff{:02x}", deepest + 1))
            }
            _ => Some(line.to_string()),
        })
    }),
    ("the deepest level is lost", |input| {
        edited(input, |place, line| (place != Place::Deepest).then(|| line.to_string()))
    }),
    ("level 0 is lost", |input| edited(input, |_, line| (line != "0000000001").then(|| line.to_string()))),
    ("the last level is lost", |input| {
        let text = report(input);
        let levels = text.lines().take_while(|line| !line.starts_with("ff")).count();
        let lines = text.lines().enumerate().filter(|(i, line)| i + 1 != levels || line.starts_with("ee"));
        lines.map(|(_, line)| format!("{line}\n")).collect()
    }),
    ("counts have their low byte first", |input| {
        edited(input, |place, line| {
            let pairs: Vec<&str> = (0..line.len() / 2).map(|i| &line[2 * i..][..2]).collect();
            Some(if place == Place::Level {
                [pairs[0], pairs[4], pairs[3], pairs[2], pairs[1]].concat()
            } else {
                line.to_string()
            })
        })
    }),
    ("levels are counted from 1", |input| {
        edited(input, |place, line| {
            let level = u8::from_str_radix(&line[..2], 16).expect("two digits");
            Some(if place == Place::Level { format!("{:02x}{}", level + 1, &line[2..]) } else { line.to_string() })
        })
    }),
    ("the total is lost", |input| edited(input, |place, line| (place != Place::Total).then(|| line.to_string()))),
    ("the total comes before the deepest level", |input| {
        let mut deepest = String::new();
        edited(input, |place, line| match place {
            Place::Deepest => {
                deepest = line.to_string();
                None
            }
            Place::Total => Some(format!("{line}\n{deepest}")),
            _ => Some(line.to_string()),
        })
    }),
    ("the total comes at the end", |input| {
        let mut total = String::new();
        edited(input, |place, line| {
            if place == Place::Total {
                total = format!("{line}\n");
            }
            (place != Place::Total).then(|| line.to_string())
        }) + &total
    }),
    ("the total leaves out the deepest level", |input| {
        with_total(input, |counts| format!("fe{:08x}", counts[..counts.len() - 1].iter().sum::<u32>()))
    }),
    ("the total leaves out level 0", |input| {
        with_total(input, |counts| format!("fe{:08x}", counts[1..].iter().sum::<u32>()))
    }),
    ("the total has three bytes", |input| with_total(input, |counts| format!("fe{:06x}", counts.iter().sum::<u32>()))),
    ("the total has its low byte first", |input| {
        with_total(input, |counts| format!("fe{:08x}", counts.iter().sum::<u32>().swap_bytes()))
    }),
    ("the total is decimal", |input| with_total(input, |counts| format!("fe{:08}", counts.iter().sum::<u32>()))),
    ("a plan has its turns backwards", |input| {
        edited(input, |place, line| {
            let turns: Vec<&str> = (1..line.len() / 2).rev().map(|i| &line[2 * i..][..2]).collect();
            Some(if place == Place::Plan { line[..2].to_string() + &turns.concat() } else { line.to_string() })
        })
    }),
    ("a plan has no number of turns", |input| {
        edited(input, |place, line| Some(line[if place == Place::Plan { 2 } else { 0 }..].to_string()))
    }),
    ("a plan of no turn is not printed", |input| {
        edited(input, |place, line| (place != Place::Plan || line != "00").then(|| line.to_string()))
    }),
    ("a refused later frame ends the run", |input| {
        let mut open = true;
        edited(input, |place, line| {
            let shown = open;
            open &= place != Place::Refused;
            shown.then(|| line.to_string())
        })
    }),
    ("a refused later frame prints nothing", |input| {
        edited(input, |place, line| (place != Place::Refused).then(|| line.to_string()))
    }),
    ("refusals are decimal", |input| {
        edited(input, |_, line| Some(if line == "ee10" { "ee16".to_string() } else { line.to_string() }))
    }),
];

// ---- What goes in

// The input with each line, by its place, as the change makes it; one that it makes none of is dropped with its end.
fn with_lines(input: &[u8], mut change: impl FnMut(usize, &[u8]) -> Option<Vec<u8>>) -> Vec<u8> {
    let lines = input.split_inclusive(|&c| c == b'\n').enumerate();
    lines
        .filter_map(|(place, line)| {
            let (line, end): (&[u8], &[u8]) = line.strip_suffix(b"\n").map_or((line, b""), |line| (line, b"\n"));
            change(place, line).map(|line| [&line, end].concat())
        })
        .collect::<Vec<_>>()
        .concat()
}

fn without(input: &[u8], dropped: u8) -> Vec<u8> {
    input.iter().copied().filter(|&c| c != dropped).collect()
}

// The first line.
fn line_of(input: &[u8]) -> &[u8] {
    input.split(|&c| c == b'\n').next().unwrap_or(input)
}

// The n that a first line names, or 0.
fn panes_of(input: &[u8]) -> usize {
    let digits = line_of(input).get(2..4).and_then(|digits| std::str::from_utf8(digits).ok());
    digits.and_then(|digits| usize::from_str_radix(digits, 16).ok()).unwrap_or(0)
}

// The input with the panes of its first line in order.
fn in_order(input: &[u8]) -> Vec<u8> {
    let n = panes_of(input);
    with_lines(input, |place, line| {
        let mut line = line.to_vec();
        if place == 0 && line.len() == 2 * (n + 6) {
            let panes: String = (1..=n).map(|pane| format!("{pane:02x}")).collect();
            line[4..4 + 2 * n].copy_from_slice(panes.as_bytes());
        }
        Some(line)
    })
}

// ---- What comes out

// What a line of the report is: a level, the deepest level, the total, a plan, a later frame's refusal, or the first frame's, which is the
// only line.
#[derive(Clone, Copy, PartialEq)]
enum Place {
    Level,
    Deepest,
    Total,
    Plan,
    Refused,
    RefusedFirst,
}

// The right report with each line as the change makes it.
fn edited(input: &[u8], mut change: impl FnMut(Place, &str) -> Option<String>) -> String {
    let mut later = false;
    let mut text = String::new();
    for line in report(input).lines() {
        let place = match (later, &line[..2]) {
            (false, "ee") => Place::RefusedFirst,
            (false, "ff") => Place::Deepest,
            (false, "fe") => Place::Total,
            (false, _) => Place::Level,
            (true, "ee") => Place::Refused,
            (true, _) => Place::Plan,
        };
        later |= place == Place::Total;
        text.extend(change(place, line).map(|line| line + "\n"));
    }
    text
}

// The right report with the total's line as it is made of the printed counts.
fn with_total(input: &[u8], line_of: impl Fn(&[u32]) -> String) -> String {
    let mut counts = Vec::new();
    edited(input, |place, line| {
        if place == Place::Level {
            counts.push(u32::from_str_radix(&line[2..], 16).expect("four bytes"));
        }
        Some(if place == Place::Total { line_of(&counts) } else { line.to_string() })
    })
}

// Each fault shows on some input made on purpose.
pub fn caught() -> Result<String, String> {
    let inputs: Vec<(Vec<u8>, String)> =
        deliberate().into_iter().map(|input| (input.clone(), report(&input))).collect();
    for (name, faulty) in FAULTS {
        if !inputs.iter().any(|(input, right)| faulty(input) != *right) {
            return Err(format!("{name}: not caught"));
        }
    }
    Ok(format!("{} faults caught by {} inputs", FAULTS.len(), inputs.len()))
}
