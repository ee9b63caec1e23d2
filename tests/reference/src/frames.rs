//! The lines of the program (01, "Frames"; 02, F-3, F-11). 02, F-14: "The program and the
//! C display keep 1,024", so that the store here is the clubs'.

use crate::calls::{self, Answer, Cause};
use crate::layout::{Counts, Node, Shape, Slots, Tallies, COUNTS, SIZE, SLOTS, TALLIES};
use std::io::{self, BufRead, ErrorKind, Write};

/// The most words of a tape line.
pub const LINE_WORDS: usize = 16;
/// The most entries that one read frame gives.
pub const READ_ENTRIES: usize = 64;
/// The most words that wait.
pub const WAITING_WORDS: usize = 1024;
/// What [`frame_kind`] gives where the line is no frame.
pub const NO_FRAME: u8 = 255;

/// Bytes of the longest frame: the kind and a full tape line.
const LONGEST_FRAME: usize = 1 + 4 * LINE_WORDS;
/// Characters of the longest line that can be a frame.
const LONGEST_LINE: usize = 2 * LONGEST_FRAME;

/// A line that is a frame.
#[derive(Clone, Copy, Debug, PartialEq, Eq)]
pub enum Frame {
    Insert { rank: usize, entry: u64 },
    Delete { rank: usize },
    Read { first: usize, last: usize },
    Tape(TapeLine),
    Print,
    Clear,
    Place { rank: usize },
}

impl Frame {
    pub const fn kind(&self) -> u8 {
        match self {
            Frame::Insert { .. } => 1,
            Frame::Delete { .. } => 2,
            Frame::Read { .. } => 3,
            Frame::Tape(_) => 4,
            Frame::Print => 5,
            Frame::Clear => 6,
            Frame::Place { .. } => 7,
        }
    }
}

/// The words of a tape line, 1 to 16; the rest of the array is zero.
#[derive(Clone, Copy, Debug, PartialEq, Eq)]
pub struct TapeLine {
    words: [u32; LINE_WORDS],
    len: usize,
}

impl TapeLine {
    pub fn words(&self) -> &[u32] {
        &self.words[..self.len]
    }
}

/// The frame in a line without its LF, or none.
pub fn decode(line: &[u8]) -> Option<Frame> {
    let mut bytes = [0; LONGEST_FRAME];
    let bytes = hex_bytes(line, &mut bytes)?;
    let (&kind, fields) = bytes.split_first()?;
    let rank = |at: usize| number(&fields[at..at + 2]) as usize;
    match (kind, fields.len()) {
        (1, 10) => Some(Frame::Insert {
            rank: rank(0),
            entry: number(&fields[2..]),
        }),
        (2, 2) => Some(Frame::Delete { rank: rank(0) }),
        (3, 4) => Some(Frame::Read {
            first: rank(0),
            last: rank(2),
        }),
        (4, 4..) => tape_line(fields).map(Frame::Tape),
        (5, 0) => Some(Frame::Print),
        (6, 0) => Some(Frame::Clear),
        (7, 2) => Some(Frame::Place { rank: rank(0) }),
        _ => None,
    }
}

/// The kind of the frame in a line without its LF, or 255.
pub fn frame_kind(line: &[u8]) -> u8 {
    decode(line).map_or(NO_FRAME, |frame| frame.kind())
}

/// The words in the fields of a tape line, unless they end within a word.
fn tape_line(fields: &[u8]) -> Option<TapeLine> {
    let mut line = TapeLine {
        words: [0; LINE_WORDS],
        len: fields.len() / 4,
    };
    let words = fields.chunks_exact(4);
    if !words.remainder().is_empty() {
        return None;
    }
    for (word, bytes) in line.words.iter_mut().zip(words) {
        *word = number(bytes) as u32;
    }
    Some(line)
}

/// The bytes that a line of upper-case hexadecimal pairs tells.
fn hex_bytes<'a>(line: &[u8], bytes: &'a mut [u8; LONGEST_FRAME]) -> Option<&'a [u8]> {
    if line.len() > LONGEST_LINE || line.len() % 2 != 0 {
        return None;
    }
    for (byte, pair) in bytes.iter_mut().zip(line.chunks_exact(2)) {
        *byte = hex_digit(pair[0])? << 4 | hex_digit(pair[1])?;
    }
    Some(&bytes[..line.len() / 2])
}

fn hex_digit(character: u8) -> Option<u8> {
    match character {
        b'0'..=b'9' => Some(character - b'0'),
        b'A'..=b'F' => Some(character - b'A' + 10),
        _ => None,
    }
}

/// The number in at most 8 bytes, high byte first.
fn number(bytes: &[u8]) -> u64 {
    bytes
        .iter()
        .fold(0, |number, &byte| number << 8 | u64::from(byte))
}

/// The waiting tape: words of tape lines that no call has read yet.
#[derive(Clone, Debug)]
pub struct Waiting {
    words: [u32; WAITING_WORDS],
    len: usize,
}

impl Waiting {
    pub const fn new() -> Self {
        Waiting {
            words: [0; WAITING_WORDS],
            len: 0,
        }
    }

    /// The waiting words, oldest first.
    pub fn words(&self) -> &[u32] {
        &self.words[..self.len]
    }

    /// Adds all the words, or none where they would pass 1,024.
    pub fn add(&mut self, words: &[u32]) -> Result<(), Cause> {
        let free = &mut self.words[self.len..];
        let place = free.get_mut(..words.len()).ok_or(Cause::TapeFull)?;
        place.copy_from_slice(words);
        self.len += words.len();
        Ok(())
    }

    /// Drops the oldest `read` words, of which at least as many wait.
    fn drop_oldest(&mut self, read: usize) {
        self.words.copy_within(read..self.len, 0);
        self.len -= read;
    }
}

impl Default for Waiting {
    fn default() -> Self {
        Waiting::new()
    }
}

/// One step of the program: the answer to `line`, given without its LF, is put
/// at the end of `out`, each of its lines ended by LF.
pub fn step(
    line: &[u8],
    slots: &mut [u64],
    counts: &mut [u16],
    tallies: &mut [u16],
    waiting: &mut Waiting,
    out: &mut Vec<u8>,
) {
    let frame = match decode(line) {
        Some(frame) => frame,
        None => {
            put_head(out, 0xFF, Cause::NoFrame.number(), calls::length(counts));
            out.push(b'\n');
            return;
        }
    };
    let mut entries = [0; READ_ENTRIES];
    let answer = carry_out(&frame, slots, counts, tallies, waiting, &mut entries);
    put_head(
        out,
        frame.kind() + 0x80,
        answer.number(),
        calls::length(counts),
    );
    match answer {
        Answer::Read { entries: n } => entries[..n].iter().for_each(|&entry| put(out, entry, 8)),
        // 02, F-3: "Frame 87 carries place (2 bytes), sum (4) and t (2)."
        Answer::Placed { place, sum, t } => {
            put(out, place as u64, 2);
            put(out, sum as u64, 4);
            put(out, t as u64, 2);
        }
        _ => {}
    }
    out.push(b'\n');
    if let (Frame::Print, Answer::Checked { n }) = (frame, answer) {
        put_sheet(out, n, slots, counts);
    }
}

/// The call that a frame asks for. A tape line asks for none; where its words
/// now wait it answers as check does.
fn carry_out(
    frame: &Frame,
    slots: &mut [u64],
    counts: &mut [u16],
    tallies: &mut [u16],
    waiting: &mut Waiting,
    entries: &mut [u64; READ_ENTRIES],
) -> Answer {
    let answer = match *frame {
        Frame::Insert { rank, entry } => {
            calls::insert(slots, counts, tallies, rank, entry, waiting.words())
        }
        Frame::Delete { rank } => calls::delete(slots, counts, tallies, rank, waiting.words()),
        Frame::Read { first, last } => calls::read(slots, counts, tallies, first, last, entries),
        Frame::Tape(line) => waiting
            .add(line.words())
            .map(|()| Answer::Checked {
                n: calls::length(counts),
            })
            .into(),
        Frame::Print => calls::check(slots, counts, tallies),
        Frame::Clear => calls::clear(slots, counts, tallies),
        Frame::Place { rank } => calls::place(slots, counts, tallies, rank),
    };
    // "Words read by an accepted call leave the waiting tape, oldest first."
    if let Answer::Changed { words, .. } = answer {
        waiting.drop_oldest(words);
    }
    answer
}

/// The head of every answer: kind, cause number or 00, N.
fn put_head(out: &mut Vec<u8>, kind: u8, cause: u8, n: usize) {
    put(out, kind.into(), 1);
    put(out, cause.into(), 1);
    put(out, n as u64, 2);
}

/// After print: a line 90, M, N, and a line for each leaf: 91, leaf number from
/// 0, its count, each slot. "An empty sheet prints no 91 line."
fn put_sheet(out: &mut Vec<u8>, n: usize, slots: &[u64], counts: &[u16]) {
    let m = usize::from(counts[SIZE]);
    put(out, 0x90, 1);
    put(out, m as u64, 2);
    put(out, n as u64, 2);
    out.push(b'\n');
    if n == 0 {
        return;
    }
    let shape = Shape::of(m);
    let leaves = Node::all_at(shape.height).zip(slots.chunks_exact(shape.leaf_slots));
    for (leaf, (node, leaf_slots)) in leaves.enumerate() {
        put(out, 0x91, 1);
        put(out, leaf as u64, 2);
        put(out, shape.count(counts, node) as u64, 2);
        leaf_slots.iter().for_each(|&slot| put(out, slot, 8));
        out.push(b'\n');
    }
}

/// The low bytes of a value, high byte first, as upper-case hexadecimal pairs.
fn put(out: &mut Vec<u8>, value: u64, bytes: u32) {
    const DIGITS: &[u8; 16] = b"0123456789ABCDEF";
    for digit in (0..2 * bytes).rev() {
        out.push(DIGITS[(value >> (4 * digit) & 15) as usize]);
    }
}

/// The program's own store and waiting tape.
#[derive(Clone, Debug)]
pub struct Program {
    slots: Box<Slots>,
    counts: Box<Counts>,
    tallies: Box<Tallies>,
    waiting: Waiting,
}

impl Program {
    /// "It starts with a cleared sheet."
    pub fn new() -> Self {
        Program {
            slots: Box::new([0; SLOTS]),
            counts: Box::new([0; COUNTS]),
            tallies: Box::new([0; TALLIES]),
            waiting: Waiting::new(),
        }
    }

    pub fn slots(&self) -> &Slots {
        &self.slots
    }

    pub fn counts(&self) -> &Counts {
        &self.counts
    }

    pub fn tallies(&self) -> &Tallies {
        &self.tallies
    }

    pub fn waiting(&self) -> &[u32] {
        self.waiting.words()
    }

    /// One step, on a line without its LF.
    pub fn step(&mut self, line: &[u8], out: &mut Vec<u8>) {
        step(
            line,
            &mut self.slots[..],
            &mut self.counts[..],
            &mut self.tallies[..],
            &mut self.waiting,
            out,
        );
    }
}

impl Default for Program {
    fn default() -> Self {
        Program::new()
    }
}

/// The start of a line, as much of it as tells whether it is a frame: one
/// character more than a frame can have. So a line of any length fits.
struct Line {
    start: Vec<u8>,
}

impl Line {
    fn add(&mut self, characters: &[u8]) {
        let room = LONGEST_LINE + 1 - self.start.len();
        self.start
            .extend_from_slice(&characters[..characters.len().min(room)]);
    }
}

/// The program: one answer for each line of `input`. "A last line without LF
/// counts if it holds a character."
pub fn run(mut input: impl BufRead, mut output: impl Write) -> io::Result<()> {
    let mut program = Program::new();
    let mut line = Line { start: Vec::new() };
    let mut out = Vec::new();
    let mut answer = |line: &mut Line, output: &mut dyn Write| {
        out.clear();
        program.step(&line.start, &mut out);
        line.start.clear();
        output.write_all(&out)
    };
    loop {
        let chunk = match input.fill_buf() {
            Ok([]) => break,
            Ok(chunk) => chunk,
            Err(error) if error.kind() == ErrorKind::Interrupted => continue,
            Err(error) => return Err(error),
        };
        let mut parts = chunk.split(|&character| character == b'\n');
        let unended = parts.next_back().unwrap_or(&[]);
        for part in parts {
            line.add(part);
            answer(&mut line, &mut output)?;
        }
        line.add(unended);
        let read = chunk.len();
        input.consume(read);
        output.flush()?;
    }
    if !line.start.is_empty() {
        answer(&mut line, &mut output)?;
    }
    output.flush()
}

#[cfg(test)]
mod tests {
    use super::*;

    #[test]
    fn frames_are_decoded() {
        assert_eq!(
            decode(b"0101020000000000000A0B"),
            Some(Frame::Insert {
                rank: 0x102,
                entry: 0xA0B
            })
        );
        assert_eq!(
            decode(b"010000FFFFFFFFFFFFFFFF"),
            Some(Frame::Insert {
                rank: 0,
                entry: u64::MAX
            })
        );
        assert_eq!(decode(b"02FFFF"), Some(Frame::Delete { rank: 0xFFFF }));
        assert_eq!(
            decode(b"0300010040"),
            Some(Frame::Read { first: 1, last: 64 })
        );
        assert_eq!(decode(b"05"), Some(Frame::Print));
        assert_eq!(decode(b"06"), Some(Frame::Clear));
        assert_eq!(decode(b"070009"), Some(Frame::Place { rank: 9 }));
    }

    #[test]
    fn tape_lines_have_1_to_16_words() {
        for words in 0..20 {
            let line = [b"04".to_vec(), b"DEADBEEF".repeat(words)].concat();
            match decode(&line) {
                Some(Frame::Tape(tape)) => {
                    assert!((1..=16).contains(&words));
                    assert_eq!(tape.words(), vec![0xDEAD_BEEF; words]);
                }
                other => {
                    assert!(other.is_none() && !(1..=16).contains(&words));
                }
            }
            for extra in 1..4 {
                let line = [&line[..], &b"00".repeat(extra)].concat();
                assert_eq!(frame_kind(&line), NO_FRAME);
            }
        }
    }

    #[test]
    fn lines_that_are_no_frame() {
        let lines: [&[u8]; 24] = [
            b"",
            b"0",
            b"00",
            b"08",
            b"FF",
            b"85",
            b"5",
            b"005",
            b"05 ",
            b" 05",
            b"05\r",
            b"05\n",
            b"05\0",
            b"0500",
            b"0x05",
            b"0G",
            b"01000000000000000000",
            b"010000000000000000000a",
            b"010000000000000000000A0",
            b"02000",
            b"0200000",
            b"03000000",
            b"04",
            b"\xFF\xFE",
        ];
        for line in lines {
            assert_eq!(frame_kind(line), NO_FRAME, "{line:?}");
        }
    }

    /// The kind tells the length of each frame but a tape line's.
    #[test]
    fn kinds_by_length() {
        for kind in 0..=255u8 {
            for bytes in 0..70 {
                let line = format!("{kind:02X}{}", "1F".repeat(bytes));
                let is_frame = match kind {
                    1 => bytes == 10,
                    2 | 7 => bytes == 2,
                    3 => bytes == 4,
                    4 => bytes % 4 == 0 && (4..=64).contains(&bytes),
                    5 | 6 => bytes == 0,
                    _ => false,
                };
                let expected = if is_frame { kind } else { NO_FRAME };
                assert_eq!(frame_kind(line.as_bytes()), expected);
            }
        }
    }

    #[test]
    fn only_upper_case_hexadecimal_counts() {
        for character in 0..=255u8 {
            let line = [b"02000", &[character][..]].concat();
            let is_hex = b"0123456789ABCDEF".contains(&character);
            assert_eq!(frame_kind(&line) == 2, is_hex);
        }
    }

    #[test]
    fn waiting_words_leave_oldest_first() {
        let mut waiting = Waiting::new();
        waiting.add(&[1, 2, 3]).unwrap();
        waiting.add(&[4]).unwrap();
        waiting.drop_oldest(2);
        assert_eq!(waiting.words(), [3, 4]);
        waiting.add(&[5]).unwrap();
        assert_eq!(waiting.words(), [3, 4, 5]);
    }

    #[test]
    fn waiting_words_end_at_1024() {
        let mut waiting = Waiting::new();
        waiting.add(&[7; 1020]).unwrap();
        assert_eq!(waiting.add(&[8; 5]), Err(Cause::TapeFull));
        assert_eq!(waiting.words(), [7; 1020]);
        waiting.add(&[8; 4]).unwrap();
        assert_eq!(waiting.words().len(), 1024);
        assert_eq!(waiting.add(&[8]), Err(Cause::TapeFull));
    }
}
