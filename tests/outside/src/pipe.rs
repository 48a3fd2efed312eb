// The report program and a controller that waits: one frame is written over a pipe, and its whole answer must come before the next one is.

use std::io::{BufRead, BufReader, Write};
use std::process::{Child, ChildStdin, Command, Stdio};
use std::sync::mpsc::{channel, Receiver, RecvTimeoutError};
use std::time::Duration;

use crate::report::{report, PROGRAM};

// An answer takes far less, also on a busy machine.
const PATIENCE: Duration = Duration::from_secs(10);

// A program that answers at the end only must be caught; it gets less, but enough for all its answers.
const LITTLE_PATIENCE: Duration = Duration::from_secs(2);

struct Conversation {
    child: Child,
    input: Option<ChildStdin>,
    lines: Receiver<String>,
    patience: Duration,
    written: Vec<u8>,
    // Lines of the report that have come.
    answered: usize,
}

impl Conversation {
    fn start(command: &mut Command, patience: Duration) -> Result<Conversation, String> {
        let started = command.stdin(Stdio::piped()).stdout(Stdio::piped()).spawn();
        let mut child = started.map_err(|error| format!("the program does not start: {error}"))?;
        let input = child.stdin.take();
        let output = BufReader::new(child.stdout.take().expect("its output is piped"));
        let (tell, lines) = channel();
        // It ends with the program's output, or when no one listens any more.
        std::thread::spawn(move || output.lines().map_while(Result::ok).try_for_each(|line| tell.send(line)));
        Ok(Conversation { child, input, lines, patience, written: Vec::new(), answered: 0 })
    }

    fn write(&mut self, part: &str) -> Result<(), String> {
        self.written.extend_from_slice(part.as_bytes());
        let input = self.input.as_mut().expect("the input is open");
        input.write_all(part.as_bytes()).and_then(|()| input.flush()).map_err(|error| format!("{part:?}: {error}"))
    }

    // All that is to be printed of what was written is printed.
    fn hear(&mut self) -> Result<(), String> {
        let shown = String::from_utf8_lossy(&self.written).into_owned();
        for right in report(&self.written).lines().skip(self.answered) {
            match self.lines.recv_timeout(self.patience) {
                Ok(line) if line == right => self.answered += 1,
                Ok(line) => return Err(format!("after {shown:?}: got {line:?} and not {right:?}")),
                Err(RecvTimeoutError::Timeout) => {
                    return Err(format!("after {shown:?}: no {right:?} in {:?}", self.patience))
                }
                Err(RecvTimeoutError::Disconnected) => return Err(format!("after {shown:?}: the output ended")),
            }
        }
        Ok(())
    }

    // Nothing more comes, and the program ends well.
    fn end(&mut self) -> Result<(), String> {
        match self.lines.recv_timeout(self.patience) {
            Err(RecvTimeoutError::Disconnected) => {}
            Err(RecvTimeoutError::Timeout) => return Err(format!("the output does not end in {:?}", self.patience)),
            Ok(line) => return Err(format!("{line:?} after the last answer")),
        }
        match self.child.wait() {
            Ok(status) if status.success() => Ok(()),
            Ok(status) => Err(format!("the program ended with {status}")),
            Err(error) => Err(error.to_string()),
        }
    }

    // Each part of the input in turn, and the answer to it; then the end of the input, which the program may not wait for after a refused
    // first frame.
    fn whole(&mut self, parts: &[&str]) -> Result<(), String> {
        for part in parts {
            self.write(part)?;
            // A frame that lacks its end is answered when it comes.
            if part.ends_with('\n') {
                self.hear()?;
            }
        }
        if !report(&self.written).starts_with("ee") {
            self.input = None;
        }
        self.hear()?;
        self.end()
    }
}

impl Drop for Conversation {
    // A program that was caught is not left behind. One that has ended cannot be ended again, and that is no fault.
    fn drop(&mut self) {
        self.input = None;
        let _ = self.child.kill();
        let _ = self.child.wait();
    }
}

// The parts that a controller writes, one after the other.
const CONVERSATIONS: [&[&str]; 6] = [
    &["000301020300000004\n", "030102\n", "010302\n", "010203\n", "010103\n"],
    // The last frame lacks its end.
    &["000301020300000004\n", "030102\n", "010302"],
    // Frames that come in pieces.
    &["0003010203", "00000004\n", "03", "0102", "\n", "\n", "0102033", "\n"],
    // Coated, with refused frames between.
    &["010401820304000000", "18\n", "84838281\n", "80010203\n", "A4838281\n", "04030201\n"],
    &["000401020304000000fc\n", "04030201\n"],
    // A refused first frame ends the run, with the input still open.
    &["000d\n"],
];

// No answer is waited for before the end.
const AT_ONCE: &str = "000301020300000004\n030102\n010302";

// Holds every conversation with the program, then sees that a program that answers at the end only is caught, and by nothing
// but its lateness.
pub fn conversations() -> Result<String, String> {
    let mut parts = 0;
    for conversation in CONVERSATIONS {
        Conversation::start(&mut Command::new(PROGRAM), PATIENCE)?.whole(conversation)?;
        parts += conversation.len();
    }
    let late = || {
        let mut late = Command::new("sh");
        late.args(["-c", r#"all=$(cat); printf '%s\n' "$all" | "$0""#, PROGRAM]);
        Conversation::start(&mut late, LITTLE_PATIENCE)
    };
    late()?.whole(&[AT_ONCE]).map_err(|wrong| format!("a program that answers at the end only, {wrong}"))?;
    if late()?.whole(CONVERSATIONS[0]).is_ok() {
        return Err("a program that answers at the end only was not caught".to_string());
    }
    Ok(format!(
        "{} conversations, {parts} parts; a program that answers at the end only is caught",
        CONVERSATIONS.len()
    ))
}
