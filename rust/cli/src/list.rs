//! `tarhuspo list`: a list of instructions as text, which is printed in pieces.

use crate::answer::{refusal, refusal_at, Answer, Failure};
use crate::input::{note_hex, Inputs};
use crate::options::{Options, HEX};
use crate::output::{complain, print};
use std::ffi::{OsStr, OsString};

/// Bytes of text that are printed at once.
const PIECE_SIZE: usize = 4_096;

pub fn run(words: &[OsString]) -> Result<Answer, Failure> {
    let options = Options::parse(words, &[HEX])?;
    let word = match options.operands[..] {
        [] => OsStr::new("-"),
        _ => options.only("one list of instructions")?,
    };
    let code = Inputs::new(&options).code(word)?;
    note_hex(&options, word, &code);
    let end = pieces(&code, &mut [0; PIECE_SIZE], print)?;
    note_reason(&code, end);
    // Everything has been printed.
    Ok(Answer::default())
}

/// Takes the pieces of a listing into `text`, one after the other, and gives the place where it
/// ended: that of the refused instruction, or the list's length. A list that is too long is refused
/// before the first piece.
fn pieces(
    code: &[u8],
    text: &mut [u8],
    mut take: impl FnMut(&[u8]) -> Result<(), String>,
) -> Result<usize, Failure> {
    let mut place = 0;
    loop {
        let listed = tarhuspo::listing(code, place, text);
        if listed.status != 0 {
            return Err(Failure::Refused(refusal(listed.status)));
        }
        take(&text[..listed.written as usize])?;
        place = listed.next as usize;
        if !listed.more {
            return Ok(place);
        }
    }
}

/// Says on standard error what the digit behind a 4 stands for.
fn note_reason(code: &[u8], end: usize) {
    if let Some(reason) = reason(code, end) {
        let refusal = refusal_at(end as u64, 4, reason);
        complain(&format!("tarhuspo: note: {refusal}\n"));
    }
}

/// The reason, if a listing ended at an instruction that has answer 4. The library is asked for it
/// again, so that no text has to be read back.
fn reason(code: &[u8], end: usize) -> Option<u32> {
    let decoded = tarhuspo::decode(code.get(end..)?, tarhuspo::features::ALL);
    (decoded.status == 4).then_some(decoded.reason)
}

#[cfg(test)]
mod tests {
    use super::*;
    use tarhuspo::limits::{CODE_LIMIT, TEXT_LEAST, TEXT_WHOLE};

    /// vunpcklps xmm1, xmm2, xmm3 and vpshufd xmm1, xmm2, 0x1b
    const STEPS: [u8; 9] = [0xC5, 0xE8, 0x14, 0xCB, 0xC5, 0xF9, 0x70, 0xCA, 0x1B];
    /// An instruction with each wrong field, by its reason.
    const WRONG: [&[u8]; 6] = [
        &[0x62, 0xF9, 0x7D, 0x48, 0x70, 0xCA, 0x1B],
        &[0xC4, 0xE3, 0xFD, 0x05, 0xCA, 0x05],
        &[0xC4, 0xE3, 0x69, 0x06, 0xCB, 0x31],
        &[0xC5, 0xE9, 0x70, 0xCA, 0x1B],
        &[0x62, 0xF2, 0x6D, 0x58, 0x8D, 0x08],
        &[0x62, 0xF1, 0x7D, 0xC8, 0x70, 0xCA, 0x1B],
    ];

    /// vpshufd zmm1, zmm2, 0x1b in EVEX map 5, which is no wrong field.
    const OTHER_MAP: [u8; 7] = [0x62, 0xF5, 0x7D, 0x48, 0x70, 0xCA, 0x1B];

    fn taken(code: &[u8], size: usize) -> (Vec<String>, usize) {
        let mut found = Vec::new();
        let end = pieces(code, &mut vec![b'#'; size], |piece| {
            found.push(String::from_utf8_lossy(piece).into_owned());
            Ok(())
        });
        (found, end.ok().expect("a list that is not too long"))
    }

    /// The lists that the tests take, each with where it ends and its reason.
    fn lists() -> Vec<(Vec<u8>, usize, Option<u32>)> {
        let mut lists = Vec::new();
        for count in [0, 1, 2, 20] {
            let steps = STEPS.repeat(count);
            let length = steps.len();
            lists.push((steps.clone(), length, None));
            for more in [&[0xC5, 0xF9][..], &[0x90, 0xC5], &OTHER_MAP] {
                lists.push(([&steps, more].concat(), length, None));
            }
            for (reason, wrong) in (1..).zip(WRONG) {
                lists.push(([&steps, wrong].concat(), length, Some(reason)));
            }
        }
        lists
    }

    #[test]
    fn pieces_are_one_text_whatever_their_size() {
        for (code, end, reason_there) in lists() {
            let (whole, end_of_whole) = taken(&code, TEXT_WHOLE);
            assert_eq!((whole.len(), end_of_whole), (1, end));
            for size in (TEXT_LEAST..=whole[0].len() + TEXT_LEAST).chain([PIECE_SIZE]) {
                let (found, found_end) = taken(&code, size);
                assert_eq!((found.concat(), found_end), (whole[0].clone(), end));
                assert!(found.iter().all(|piece| piece.ends_with('\n')), "{found:?}");
            }
            assert_eq!(reason(&code, end), reason_there);
        }
    }

    /// What is noted is what the last line says, be it alone in its piece or behind others.
    #[test]
    fn reasons_are_those_of_the_last_line() {
        let (mut alone, mut behind) = (0, 0);
        for (code, ..) in lists() {
            for size in TEXT_LEAST..TEXT_LEAST + 100 {
                let (found, end) = taken(&code, size);
                let last = found.last().and_then(|piece| piece.lines().last());
                let last = last.expect("a line in every list's last piece");
                let said = reason(&code, end).map(|reason| format!("{end}\t0\t-\t0\t4:{reason}"));
                assert_eq!(said.as_deref(), last.contains("\t4:").then_some(last));
                match found.last().map(|piece| piece.lines().count()) {
                    Some(1) => alone += usize::from(said.is_some()),
                    _ => behind += usize::from(said.is_some()),
                }
            }
        }
        println!("reasons: {alone} in a piece of their own, {behind} behind other lines");
        assert!(alone > 0 && behind > 0);
    }

    /// What cannot be printed ends it, and a list that is too long has no piece at all.
    #[test]
    fn failures_end_the_listing() {
        let code = STEPS.repeat(20);
        let mut count = 0;
        let failed = pieces(&code, &mut [0; TEXT_LEAST], |_| {
            count += 1;
            Err("full".to_string())
        });
        assert!(matches!(failed, Err(Failure::Usage(message)) if message == "full"));
        assert_eq!(count, 1);

        let refused = pieces(&[0xC5; CODE_LIMIT + 1], &mut [0; PIECE_SIZE], |piece| {
            panic!("a piece of {} bytes", piece.len())
        });
        assert!(matches!(refused, Err(Failure::Refused(message)) if message == refusal(8)));
    }
}
