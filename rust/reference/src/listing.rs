//! The listing of a list, in pieces (document 01, with request 3's reasons and request 5's pieces).

use crate::decode::{parse, Instruction};
use crate::limits::{check_code, feature, TEXT_LEAST};
use crate::refusal::{Refusal, DONE};

const HEADER: &str = "at\tlen\tname\tbits\tanswer\n";

/// Bytes written, where the next piece starts, the answer, and whether lines remain. With a refusal
/// all but the answer is 0.
#[derive(Debug, Clone, Copy, PartialEq, Eq, Default)]
pub struct Listed {
    pub written: u64,
    /// The first step without a line, the refused step if it has its line, or the end of the list.
    pub next: u64,
    pub status: u32,
    pub more: bool,
}

/// Writes as many whole lines as fit into `text`: those of the steps of `code` from `place` on,
/// behind the header if that is 0.
pub fn listing(code: &[u8], place: usize, text: &mut [u8]) -> Listed {
    match accept(code, place, text) {
        Ok(()) => list(code, place, text),
        Err(refusal) => Listed {
            status: refusal.number(),
            ..Listed::default()
        },
    }
}

/// The listing's own refusals: 1, then 8.
fn accept(code: &[u8], place: usize, text: &[u8]) -> Result<(), Refusal> {
    if text.len() < TEXT_LEAST || place > code.len() {
        return Err(Refusal::Size);
    }
    check_code(code)
}

/// One piece. Beside the steps whose lines it holds, at most one more is decoded.
fn list(code: &[u8], place: usize, text: &mut [u8]) -> Listed {
    let mut piece = Piece { text, written: 0 };
    if place == 0 {
        piece.push(HEADER);
    }
    let mut next = place;
    let mut more = next < code.len();
    while more {
        let step = parse(&code[next..], feature::ALL);
        if !piece.push(&line(next, &step)) {
            break;
        }
        next += step.as_ref().map_or(0, |instruction| instruction.length);
        more = step.is_ok() && next < code.len();
    }
    Listed {
        written: piece.written as u64,
        next: next as u64,
        status: DONE,
        more,
    }
}

/// The text with what has been written so far.
struct Piece<'a> {
    text: &'a mut [u8],
    written: usize,
}

impl Piece<'_> {
    /// Writes a line behind the others if all of it fits, and says whether it does.
    fn push(&mut self, line: &str) -> bool {
        let end = self.written + line.len();
        let Some(room) = self.text.get_mut(self.written..end) else {
            return false;
        };
        room.copy_from_slice(line.as_bytes());
        self.written = end;
        true
    }
}

/// The line of the step at a place of the list.
fn line(place: usize, step: &Result<Instruction, Refusal>) -> String {
    match step {
        Ok(instruction) => accepted_line(place, instruction),
        Err(refusal) => refused_line(place, *refusal),
    }
}

fn accepted_line(place: usize, instruction: &Instruction) -> String {
    let length = instruction.length;
    let name = instruction.row.mnemonic.name();
    let bits = instruction.bits();
    format!("{place}\t{length}\t{name}\t{bits}\t{DONE}\n")
}

fn refused_line(place: usize, refusal: Refusal) -> String {
    let answer = answer_field(refusal);
    format!("{place}\t0\t-\t0\t{answer}\n")
}

/// The number of the refusal, and for answer 4 a colon and the reason (request 3).
fn answer_field(refusal: Refusal) -> String {
    let number = refusal.number();
    match refusal {
        Refusal::Reserved(field) => format!("{number}:{}", field.number()),
        _ => number.to_string(),
    }
}
