//! The proved program `sheet` beside the second implementation, on the same
//! input.

use crate::{proved, save};
use reference::frames::{self, Program};
use std::collections::{BTreeMap, BTreeSet};
use std::io::{self, Read, Write};
use std::process::{ChildStdin, Command, Stdio};
use std::thread;
use std::time::{Duration, Instant};

const PROGRAM: &str = concat!(env!("CARGO_MANIFEST_DIR"), "/../../target/bin/sheet");
/// How long one run of the program may take.
const LIMIT: Duration = Duration::from_secs(120);
/// Lines that are shown before and after the line that is answered otherwise.
const AROUND: usize = 5;

/// What the program writes for the input that `write` gives it. It must end
/// with status 0 once the input has ended.
pub fn written_for(write: impl FnOnce(&mut ChildStdin) -> io::Result<()> + Send) -> Vec<u8> {
    let mut child = Command::new(PROGRAM)
        .stdin(Stdio::piped())
        .stdout(Stdio::piped())
        .spawn()
        .unwrap_or_else(|error| panic!("{PROGRAM}: {error}"));
    let mut input = child.stdin.take().unwrap();
    let mut output = child.stdout.take().unwrap();
    let (result, status) = thread::scope(|scope| {
        // A program that ends too early closes its input; what it wrote then tells.
        scope.spawn(move || write(&mut input).or_else(ended_early).unwrap());
        let reader = scope.spawn(move || {
            let mut written = Vec::new();
            output.read_to_end(&mut written).map(|_| written)
        });
        let start = Instant::now();
        while !reader.is_finished() && start.elapsed() < LIMIT {
            thread::sleep(Duration::from_millis(1));
        }
        if !reader.is_finished() {
            child.kill().unwrap();
        }
        (reader.join().unwrap(), child.wait().unwrap())
    });
    assert_eq!(status.code(), Some(0), "the program's status at the end of its input: {status}");
    result.unwrap()
}

fn ended_early(error: io::Error) -> io::Result<()> {
    match error.kind() {
        io::ErrorKind::BrokenPipe => Ok(()),
        _ => Err(error),
    }
}

/// What the second implementation writes for the input.
pub fn expected_for(input: &[u8]) -> Vec<u8> {
    let mut output = Vec::new();
    frames::run(input, &mut output).unwrap();
    output
}

/// The lines of an input; a last one without LF counts if it holds a character.
pub fn lines_of(input: &[u8]) -> Vec<&[u8]> {
    let mut lines: Vec<&[u8]> = input.split(|byte| *byte == b'\n').collect();
    if lines.last().map_or(false, |last| last.is_empty()) {
        lines.pop();
    }
    lines
}

/// The kinds of the lines and what the program writes for them are those of
/// the second implementation; else the test ends with the seed, the number of
/// the line and the lines around it.
pub fn agrees(seed: u64, input: &[u8]) -> Met {
    for (number, line) in lines_of(input).into_iter().enumerate() {
        let (expected, found) = (frames::frame_kind(line), proved::frame_kind_of(line));
        assert_eq!(found, expected, "seed {seed}, kind of line {}: {}", number + 1, line.escape_ascii());
    }
    let written = written_for(|to| to.write_all(input));
    same(seed, input, &written);
    Met::in_output(lines_of(input).len() as u64, &written)
}

/// The output `written` is that of the second implementation for the input.
pub fn same(seed: u64, input: &[u8], written: &[u8]) {
    let expected = expected_for(input);
    if written != expected {
        panic!("{}", difference(seed, input, written, &expected));
    }
}

/// Where two outputs part: the seed, the line, the answers to it, the lines
/// around it, and the name of a file with the whole input.
fn difference(seed: u64, input: &[u8], written: &[u8], expected: &[u8]) -> String {
    let parted = written.iter().zip(expected).take_while(|(a, b)| a == b).count();
    let lines = lines_of(input);
    let mut program = Program::new();
    let mut answers = Vec::new();
    let mut start = 0;
    let mut at = 0;
    while at < lines.len() {
        start = answers.len();
        program.step(lines[at], &mut answers);
        if answers.len() > parted {
            break;
        }
        at += 1;
    }
    let from = start.max(parted.saturating_sub(80));
    let shown = |bytes: &[u8], most: usize| bytes[..bytes.len().min(most)].escape_ascii().to_string();
    let mut text = format!(
        "seed {seed}, line {} of {}: answers part at byte {}\n  expected {}\n  written  {}\n",
        at + 1,
        lines.len(),
        parted - start,
        shown(&expected[from..], 160),
        shown(&written[from..], 160),
    );
    let first = at.saturating_sub(AROUND);
    for (number, line) in lines.iter().enumerate().skip(first).take(at - first + AROUND) {
        text.push_str(&format!("  line {}: {}\n", number + 1, shown(line, 300)));
    }
    text + &save(&format!("lines-{seed}"), input)
}

/// What some histories of lines met: how many lines, how many answers of each
/// kind and cause, how many places of tied and of retired boats, and which numbers
/// of entries.
#[derive(Debug, Default)]
pub struct Met {
    pub lines: u64,
    pub answers: BTreeMap<String, u64>,
    pub tied: u64,
    pub retired: u64,
    pub lengths: BTreeSet<usize>,
}

impl Met {
    fn in_output(lines: u64, output: &[u8]) -> Self {
        let mut met = Met { lines, ..Met::default() };
        for answer in lines_of(output) {
            let text = std::str::from_utf8(&answer[..8.min(answer.len())]).unwrap();
            if !text.starts_with('9') {
                *met.answers.entry(text[..4].to_string()).or_default() += 1;
                met.lengths.insert(usize::from_str_radix(&text[4..], 16).unwrap());
                if text.starts_with("8700") {
                    met.tied += u64::from(!answer.ends_with(b"0001"));
                    met.retired += u64::from(answer.ends_with(b"0000000000000001"));
                }
            }
        }
        assert_eq!(met.answers.values().sum::<u64>(), lines, "an answer for each line");
        met
    }

    pub fn add(&mut self, other: Met) {
        self.lines += other.lines;
        for (head, number) in other.answers {
            *self.answers.entry(head).or_default() += number;
        }
        self.tied += other.tied;
        self.retired += other.retired;
        self.lengths.extend(other.lengths);
    }
}
