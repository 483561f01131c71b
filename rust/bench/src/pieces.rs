//! A listing in pieces: one piece at several places, and all of them from texts of several sizes.

use crate::calls::unpacks;
use crate::timing::{medians, rate, ROUNDS};
use compare::random::Random;
use std::hint::black_box;
use tarhuspo::limits::{CODE_LIMIT, MOST_STEPS, TEXT_LEAST, TEXT_WHOLE};

/// Gives status, bytes written, next place, and whether lines remain.
type Listing = fn(&[u8], usize, &mut [u8]) -> (u32, u64, u64, bool);

const LISTINGS: [Listing; 2] = [by_library, by_reference];

/// Bytes of text for a piece at each place, and the places in the longest list. Behind the last one
/// there are more lines than fit, too.
const PIECE_SIZE: usize = 256;
const PLACES: [usize; 6] = [0, 4, 4_096, 8_192, 12_288, CODE_LIMIT - 64];
/// How many pieces a round takes at a place.
const PIECES: usize = 4_000;

/// Sizes of text for the whole listing, and how often a round takes it.
const SIZES: [usize; 4] = [TEXT_LEAST, PIECE_SIZE, 4_096, TEXT_WHOLE];
const PASSES: usize = 10;

/// Prints the tables. An error says where results differ.
pub fn print() -> Result<(), String> {
    let code = unpacks(MOST_STEPS as usize, &mut Random::new(8)).code;
    println!(
        "ns per piece of a listing (less is faster), {PIECE_SIZE} bytes of text, list of {} bytes, \
         median of {ROUNDS} rounds of {PIECES}",
        code.len()
    );
    println!("place 0: with the headings");
    println!(
        "{:>8}{:>8}{:>12}{:>12}{:>20}{:>18}",
        "place", "lines", "library", "reference", "library/reference", "library ns/line"
    );
    PLACES
        .iter()
        .try_for_each(|place| print_piece(&code, *place))?;
    println!("\nmicroseconds for all pieces of that listing, by the bytes of text");
    println!(
        "{:>8}{:>8}{:>12}{:>12}{:>20}{:>18}",
        "text", "pieces", "library", "reference", "library/reference", "library ns/line"
    );
    SIZES.iter().try_for_each(|size| print_whole(&code, *size))
}

fn print_piece(code: &[u8], place: usize) -> Result<(), String> {
    let [library, reference] = LISTINGS.map(|listing| {
        let mut text = [0; PIECE_SIZE];
        (listing(code, place, &mut text), text)
    });
    // With lines behind it, a piece is as full as it can be.
    let ((status, written, _, more), text) = library;
    if library != reference || status != 0 || !more {
        return Err(format!("a piece at {place}"));
    }
    let lines = lines(&text[..written as usize]) - usize::from(place == 0);
    let times = times(PIECES, |listing| {
        let mut text = [0; PIECE_SIZE];
        for _ in 0..PIECES {
            let text = black_box(&mut text);
            black_box(listing(black_box(code), black_box(place), text));
        }
    });
    print_line(
        [place, lines],
        times.map(|time| 1e9 * time),
        1.0 / lines as f64,
    );
    Ok(())
}

fn print_whole(code: &[u8], size: usize) -> Result<(), String> {
    let [library, reference] = LISTINGS.map(|listing| joined(code, size, listing));
    let whole = joined(code, TEXT_WHOLE, by_library).1;
    let count = MOST_STEPS as usize;
    if library != reference || library.1 != whole || lines(&whole) != count + 1 {
        return Err(format!("pieces of {size} bytes"));
    }
    let times = times(PASSES, |listing| {
        let mut text = vec![0; size];
        for _ in 0..PASSES {
            take_all(black_box(code), &mut text, listing, |piece| {
                black_box(piece);
            });
        }
    });
    let times = times.map(|time| 1e6 * time);
    print_line([size, library.0], times, 1e3 / count as f64);
    Ok(())
}

/// The engines' times, and the library's for a line, by the factor from one to the other.
fn print_line(numbers: [usize; 2], [library, reference]: [f64; 2], to_line: f64) {
    let [first, second] = numbers;
    println!(
        "{first:>8}{second:>8}{library:>12.1}{reference:>12.1}{:>20.2}{:>18.1}",
        library / reference,
        library * to_line
    );
}

/// Seconds of library and reference for one of the `count` things that `work` does.
fn times(count: usize, work: impl Fn(Listing)) -> [f64; 2] {
    let [library, reference] = LISTINGS.map(|listing| {
        let work = &work;
        move || rate(count, || work(listing))
    });
    let rates = medians(&[&library, &reference]);
    [1.0 / rates[0], 1.0 / rates[1]]
}

fn lines(text: &[u8]) -> usize {
    text.iter().filter(|character| **character == b'\n').count()
}

/// How many pieces there are, and their text.
fn joined(code: &[u8], size: usize, listing: Listing) -> (usize, Vec<u8>) {
    let (mut count, mut joined) = (0, Vec::new());
    take_all(code, &mut vec![0; size], listing, |piece| {
        count += 1;
        joined.extend_from_slice(piece);
    });
    (count, joined)
}

/// Takes the pieces of a list that is not refused, from place 0 until no lines remain.
fn take_all(code: &[u8], text: &mut [u8], listing: Listing, mut take: impl FnMut(&[u8])) {
    let mut place = 0;
    loop {
        let (_, written, next, more) = listing(code, place, text);
        take(&text[..written as usize]);
        place = next as usize;
        if !more {
            return;
        }
    }
}

fn by_library(code: &[u8], place: usize, text: &mut [u8]) -> (u32, u64, u64, bool) {
    let listed = tarhuspo::listing(code, place, text);
    (listed.status, listed.written, listed.next, listed.more)
}

fn by_reference(code: &[u8], place: usize, text: &mut [u8]) -> (u32, u64, u64, bool) {
    let listed = reference::listing(code, place, text);
    (listed.status, listed.written, listed.next, listed.more)
}
