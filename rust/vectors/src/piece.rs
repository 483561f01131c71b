//! Where a piece of a listing starts, and how many bytes of text it may have.

use crate::layout::TEXT_MOST;
use inputs::limits::features::ALL;
use inputs::limits::{OLD_TEXT_SIZES, TEXT_LEAST, TEXT_WHOLE};
use inputs::random::Random;

pub struct Piece {
    pub place: usize,
    /// Bytes of text.
    pub size: usize,
}

impl Piece {
    /// One that is not refused, if the list is not.
    pub fn of(code: &[u8], random: &mut Random) -> Piece {
        let place = place(code, random);
        let size = size(code, place, random);
        Piece { place, size }
    }

    /// Of a long list: few lines from a late step on, or many from the front or an early one.
    pub fn of_long(code: &[u8], random: &mut Random) -> Piece {
        let starts = starts(code);
        let third = random.below(1 + starts.len() / 3);
        if random.flag() {
            let behind = random.pick(&[third, third % 4]);
            return Piece {
                place: starts[starts.len() - 1 - behind],
                size: few(random),
            };
        }
        Piece {
            place: random.pick(&[0, starts[third]]),
            size: random.pick(&[OLD_TEXT_SIZES[0], OLD_TEXT_SIZES[1], TEXT_MOST]),
        }
    }
}

/// Bytes of a text that is too short.
pub fn short_text(random: &mut Random) -> usize {
    let below = random.below(TEXT_LEAST);
    random.pick(&[0, 1, TEXT_LEAST - 1, below])
}

/// A place past the end of a list: by one byte, by a few, or by far.
pub fn past_end(end: usize, random: &mut Random) -> u16 {
    let next = end as u16 + 1;
    let few = next + u16::from(random.bits(4));
    let far = few.max(random.number() as u16);
    random.pick(&[next, few, far, u16::MAX])
}

/// The front, the start of a step, that of one of the last, any place, or the end.
fn place(code: &[u8], random: &mut Random) -> usize {
    let starts = starts(code);
    let end = code.len();
    match random.below(10) {
        0..=2 => 0,
        3 | 4 => random.pick(&starts),
        5 | 6 => starts[starts.len() - 1 - random.below(starts.len().min(4))],
        7 | 8 => random.below(end + 1),
        _ => end,
    }
}

/// Where the steps of the list start, up to the refused one. An empty list has the front alone.
fn starts(code: &[u8]) -> Vec<usize> {
    let mut starts = vec![0];
    let mut place = 0;
    loop {
        let step = reference::decode(&code[place..], ALL);
        place += step.length as usize;
        if step.status != 0 || place == code.len() {
            return starts;
        }
        starts.push(place);
    }
}

/// Few bytes, many, or so many that all lines from the place on just fit, or just do not.
fn size(code: &[u8], place: usize, random: &mut Random) -> usize {
    let size = match random.below(10) {
        0 => TEXT_LEAST,
        1 => random.pick(&[TEXT_LEAST + 1, 100]),
        2..=4 => few(random),
        5 => 10 * few(random),
        6 => random.pick(&OLD_TEXT_SIZES),
        7 => TEXT_MOST,
        8 => whole(code, place),
        _ => whole(code, place).saturating_sub(1),
    };
    size.clamp(TEXT_LEAST, TEXT_MOST)
}

/// Bytes for a few lines.
fn few(random: &mut Random) -> usize {
    TEXT_LEAST + random.below(300)
}

/// Bytes of all lines from the place on.
fn whole(code: &[u8], place: usize) -> usize {
    let mut text = vec![0; TEXT_WHOLE];
    reference::listing(code, place, &mut text).written as usize
}
