//! Comparison of listings, piece by piece: the whole result, and every byte of every buffer.

use crate::display;
use crate::guard::Guarded;
use crate::instructions::Instructions;
use crate::limits::features;
use crate::tally::{Counts, Reasons};
use std::fmt;
use tarhuspo::limits::TEXT_LEAST;
use tarhuspo::Listed;

/// The inputs of a listing.
#[derive(Clone)]
pub struct Case {
    pub code: Vec<u8>,
    /// Bytes that follow the code in memory and are not passed.
    pub behind: Vec<u8>,
    /// Where the piece starts.
    pub place: usize,
    pub text_size: usize,
    /// The first byte of the text before; those behind it count up.
    pub old: u8,
}

impl Case {
    /// From place 0, with text that is enough for every line.
    pub fn new(code: &[u8]) -> Case {
        let mut case = Case {
            code: Vec::new(),
            behind: Vec::new(),
            place: 0,
            text_size: 0,
            old: 0,
        };
        case.set_code(code.to_vec());
        case
    }

    /// Other code, and text that is enough for every line of it.
    pub fn set_code(&mut self, code: Vec<u8>) {
        self.text_size = enough(&code);
        self.code = code;
    }
}

/// Bytes of text that hold a list's headings and lines: 27 are allowed a line, and an instruction
/// has at least 4 bytes, but for a refused one.
pub fn enough(code: &[u8]) -> usize {
    TEXT_LEAST.max(24 + 27 * (code.len() / 4 + 1))
}

impl fmt::Display for Case {
    fn fmt(&self, f: &mut fmt::Formatter) -> fmt::Result {
        writeln!(f, "{}", display::bytes("code", &self.code))?;
        writeln!(f, "{}", display::bytes("behind it", &self.behind))?;
        let (place, size, old) = (self.place, self.text_size, self.old);
        write!(
            f,
            "from place {place}, text of {size} bytes, counting up from {old:02X}"
        )
    }
}

/// Lists with the library and with the reference, and stops at the first difference.
#[derive(Default)]
pub struct Comparison {
    code: Guarded,
    text: Guarded,
    /// What the text held before.
    before: Vec<u8>,
    /// The text that the reference leaves.
    expected: Vec<u8>,
    pub counts: Counts,
    /// Accepted pieces by the status in their last line, 0 if there is none.
    pub last_lines: Counts,
    /// The reasons behind a 4 in the last line.
    pub reasons: Reasons,
    /// Accepted pieces by their end.
    pub ends: Ends,
    /// The instructions that have a line.
    pub instructions: Instructions,
}

impl Comparison {
    /// Compares on `case`, and gives the result.
    ///
    /// # Panics
    ///
    /// If the results or the texts differ, if a refusal has another number than its status or
    /// changed text, if the last line has a reason with another status than 4, or if the library
    /// changed the code or bytes around a buffer.
    pub fn check(&mut self, case: &Case) -> Listed {
        self.before.clear();
        let old = (0..case.text_size).map(|i| case.old.wrapping_add(i as u8));
        self.before.extend(old);
        self.expected.clone_from(&self.before);
        let library = tarhuspo::listing(
            self.code.fill_joined(&case.code, &case.behind),
            case.place,
            self.text.fill(&self.before),
        );
        let reference = self.list_reference(case);
        if let Some(difference) = self.difference(case, library, reference) {
            panic!("{difference}\n{case}");
        }
        self.counts.add(library.status);
        if library.status == 0 {
            self.record(case, library);
        }
        library
    }

    /// Takes pieces from place 0 on until no lines remain, each of the size that `size` gives, and
    /// joins them.
    ///
    /// # Panics
    ///
    /// As [`check`](Comparison::check), if a piece is refused, or if it does not move on.
    pub fn joined(&mut self, case: &Case, mut size: impl FnMut() -> usize) -> String {
        let mut piece = case.clone();
        piece.place = 0;
        let mut text = String::new();
        loop {
            piece.text_size = size();
            let listed = self.check(&piece);
            assert_eq!(listed.status, 0, "{piece}");
            text += self.written(listed);
            if !listed.more {
                return text;
            }
            let next = listed.next as usize;
            assert!(next > piece.place, "next is {next}\n{piece}");
            piece.place = next;
        }
    }

    /// The text that a listing has written, if it was the last one.
    pub fn written(&self, listed: Listed) -> &str {
        let text = &self.expected[..listed.written as usize];
        std::str::from_utf8(text).unwrap_or("not UTF-8")
    }

    fn list_reference(&mut self, case: &Case) -> Listed {
        let reference::Listed {
            written,
            next,
            status,
            more,
        } = reference::listing(&case.code, case.place, &mut self.expected);
        Listed {
            written,
            next,
            status,
            more,
        }
    }

    fn difference(&self, case: &Case, library: Listed, reference: Listed) -> Option<String> {
        if library != reference {
            return Some(format!("library: {library:?}\nreference: {reference:?}"));
        }
        let refused = library.status != 0;
        let counted = library != refusal(library.status);
        if refused && (counted || !self.text.is_unchanged(&self.before)) {
            return Some(format!("{library:?}, or the text is not as before"));
        }
        if let Some(found) = self.text.difference(&self.expected) {
            let text = self.written(library);
            return Some(format!("text: {found}\nreference:\n{text}"));
        }
        let found = self.code.joined_difference(&case.code, &case.behind)?;
        Some(format!("code: {found}"))
    }

    /// Counts an accepted piece.
    fn record(&mut self, case: &Case, listed: Listed) {
        let headings = usize::from(case.place == 0);
        let last = self.written(listed).lines().skip(headings).last();
        let (status, reason) = last.map_or((0, 0), answer);
        self.last_lines.add(status);
        self.reasons.add(status, reason);
        self.ends.add(case, listed, status);
        let lines = case.place..listed.next as usize;
        self.instructions
            .record_list(&case.code[lines], features::ALL);
    }
}

/// A refusal: the status, and nothing in every other field.
pub fn refusal(status: u32) -> Listed {
    Listed {
        written: 0,
        next: 0,
        status,
        more: false,
    }
}

/// Status and reason at the end of a line.
fn answer(line: &str) -> (u32, u32) {
    let field = line.rsplit('\t').next().unwrap_or(line);
    let (status, reason) = field.split_once(':').unwrap_or((field, "0"));
    let number = |digits: &str| digits.parse().unwrap_or(u32::MAX);
    (number(status), number(reason))
}

/// How pieces can end.
const ENDS: [&str; 4] = [
    "lines remain",
    "at the end of the list",
    "behind a refused line",
    "without a line",
];

/// How many pieces had each end, those of place 0 and the others.
#[derive(Debug, Default, Clone, Copy)]
pub struct Ends([[u64; 2]; 4]);

impl Ends {
    /// Counts an accepted piece, with the status in its last line.
    fn add(&mut self, case: &Case, listed: Listed, status: u32) {
        let end = match listed {
            Listed { more: true, .. } => 0,
            _ if status != 0 => 2,
            _ if case.place == case.code.len() => 3,
            _ => 1,
        };
        self.0[end][usize::from(case.place > 0)] += 1;
    }

    pub fn merge(&mut self, other: &Ends) {
        for (counts, more) in self.0.iter_mut().zip(other.0) {
            *counts = [counts[0] + more[0], counts[1] + more[1]];
        }
    }

    /// Prints them as a table.
    ///
    /// # Panics
    ///
    /// If one never occurred.
    pub fn finish(&self) {
        println!("\n{:26}{:>9} {:>8}", "pieces", "place 0", "others");
        for (name, [first, others]) in ENDS.iter().zip(self.0) {
            println!("{name:26}{first:>9} {others:>8}");
            assert!(first > 0 && others > 0, "no piece '{name}'");
        }
    }
}
