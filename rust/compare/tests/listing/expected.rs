//! What a listing gives, worked out from what decoding says of each instruction.

use compare::limits::features::ALL;
use tarhuspo::{mnemonic_name, Decoded, Listed};

pub const HEADINGS: &str = "at\tlen\tname\tbits\tanswer\n";

/// All lines of a list from a place on.
pub struct Lines {
    place: usize,
    /// Each with the place of its instruction.
    lines: Vec<(usize, String)>,
    /// The place of the refused instruction, or the end of the list.
    end: usize,
}

impl Lines {
    pub fn new(code: &[u8], place: usize) -> Lines {
        let mut lines = Vec::new();
        let mut end = place;
        while end < code.len() {
            let decoded = tarhuspo::decode(&code[end..], ALL);
            lines.push((end, line(end, &decoded)));
            if decoded.status != 0 {
                break;
            }
            end += decoded.length as usize;
        }
        Lines { place, lines, end }
    }

    /// As many of them as fit into text of the given size, behind the headings if the place is 0,
    /// and the answer.
    pub fn piece(&self, size: usize) -> (String, Listed) {
        let mut text = String::from(if self.place == 0 { HEADINGS } else { "" });
        for (place, line) in &self.lines {
            if text.len() + line.len() > size {
                let answer = answer(&text, *place, true);
                return (text, answer);
            }
            text += line;
        }
        let answer = answer(&text, self.end, false);
        (text, answer)
    }

    /// All of them.
    pub fn text(&self) -> String {
        self.piece(usize::MAX).0
    }

    /// The length of the last one.
    pub fn last(&self) -> Option<usize> {
        self.lines.last().map(|(_, line)| line.len())
    }
}

fn answer(text: &str, next: usize, more: bool) -> Listed {
    Listed {
        written: text.len() as u64,
        next: next as u64,
        status: 0,
        more,
    }
}

fn line(place: usize, decoded: &Decoded) -> String {
    let Decoded {
        status,
        length,
        bits,
        reason,
        ..
    } = decoded;
    let name = mnemonic_name(decoded.mnemonic).unwrap_or("-");
    let reason = match status {
        4 => format!(":{reason}"),
        _ => String::new(),
    };
    format!("{place}\t{length}\t{name}\t{bits}\t{status}{reason}\n")
}
