//! There are pieces of listings of every kind.

use crate::vectors;
use inputs::limits::features::ALL;
use inputs::limits::{CODE_LIMIT, OLD_TEXT_SIZES, TEXT_LEAST};
use reference::Listed;
use vectors::layout::{INPUTS, TEXT_MOST};
use vectors::list_inputs;
use vectors::lists::{ListInput, Listing};
use vectors::section::Input;

/// An input with its answer.
struct Piece<'a> {
    code: &'a [u8],
    place: usize,
    size: usize,
    listed: Listed,
    /// The answer with one more byte of text.
    longer: Listed,
}

impl Piece<'_> {
    fn new(input: &ListInput) -> Piece<'_> {
        let (place, size) = (input.place.into(), input.text.length.into());
        let listed = |size| reference::listing(&input.code, place, &mut vec![0; size]);
        Piece {
            code: &input.code,
            place,
            size,
            listed: listed(size),
            longer: listed(size + 1),
        }
    }

    fn end(&self) -> usize {
        self.code.len()
    }

    fn is_done(&self) -> bool {
        self.listed.status == 0
    }

    fn has_lines(&self) -> bool {
        self.is_done() && self.listed.written > 0
    }

    /// Whether the list goes on behind the lines with a step that is refused.
    fn refuses_next(&self) -> bool {
        let rest = &self.code[self.listed.next as usize..];
        self.is_done() && !rest.is_empty() && reference::decode(rest, ALL).status != 0
    }

    fn has_refused_line(&self) -> bool {
        !self.listed.more && self.refuses_next()
    }

    fn reaches_end(&self) -> bool {
        self.has_lines() && !self.listed.more && !self.refuses_next()
    }

    fn is_full(&self) -> bool {
        self.listed.written as usize == self.size
    }

    /// Whether one byte more of text would have been enough for the last line.
    fn just_misses(&self) -> bool {
        self.listed.more && !self.longer.more
    }

    /// Whether the place is the start of a step, from the front on.
    fn is_at_step(&self) -> bool {
        let mut start = 0;
        while start < self.place {
            let step = reference::decode(&self.code[start..], ALL);
            if step.status != 0 {
                return false;
            }
            start += step.length as usize;
        }
        start == self.place && start < self.end()
    }

    fn is_inside_step(&self) -> bool {
        self.place < self.end() && !self.is_at_step()
    }

    fn has_status(&self, status: u32) -> bool {
        self.listed.status == status
    }

    fn is_short(&self) -> bool {
        self.size < TEXT_LEAST
    }

    fn is_past_end(&self) -> bool {
        self.place > self.end()
    }

    fn is_over_limit(&self) -> bool {
        self.end() > CODE_LIMIT
    }
}

/// A kind of piece: its name, how many there are at least, and whether a piece is of it.
type Kind = (&'static str, usize, fn(&Piece) -> bool);

const KINDS: [Kind; 27] = [
    ("headings and lines", 24, |p| {
        p.has_lines() && p.place == 0 && p.end() > 0
    }),
    ("headings alone", 24, |p| p.has_lines() && p.end() == 0),
    ("lines alone", 24, |p| p.has_lines() && p.place > 0),
    ("the end, no line", 24, |p| {
        p.is_done() && p.place == p.end() && p.place > 0
    }),
    ("place of a step", 24, |p| {
        p.has_lines() && p.place > 0 && p.is_at_step()
    }),
    ("place inside a step", 24, |p| {
        p.has_lines() && p.is_inside_step()
    }),
    ("inside, accepted there", 24, |p| {
        p.has_lines() && p.is_inside_step() && p.listed.next as usize > p.place
    }),
    ("lines remain", 24, |p| p.listed.more),
    ("lines remain, place over 0", 24, |p| {
        p.listed.more && p.place > 0
    }),
    ("up to the end", 24, |p| p.reaches_end()),
    ("up to the end, just fits", 24, |p| {
        p.reaches_end() && p.is_full()
    }),
    ("last line just misses", 24, |p| {
        p.just_misses() && !p.refuses_next()
    }),
    ("refused line", 24, |p| p.has_refused_line()),
    ("refused line just fits", 24, |p| {
        p.has_refused_line() && p.is_full()
    }),
    ("refused line remains", 24, |p| {
        p.listed.more && p.refuses_next()
    }),
    ("refused line just misses", 24, |p| {
        p.just_misses() && p.refuses_next()
    }),
    ("refused behind 4,096 bytes", 2, |p| {
        p.has_refused_line() && p.listed.next > 4_096
    }),
    ("five digits, lines remain", 4, |p| {
        p.listed.more && p.listed.next >= 10_000
    }),
    ("25,000 bytes, lines remain", 2, |p| {
        p.listed.more && p.listed.written > 25_000
    }),
    ("short text", 24, |p| {
        p.has_status(1) && p.is_short() && !p.is_past_end()
    }),
    ("place one past the end", 24, |p| {
        p.has_status(1) && !p.is_short() && p.place == p.end() + 1
    }),
    ("place far past the end", 24, |p| {
        p.has_status(1) && !p.is_short() && p.place > CODE_LIMIT
    }),
    ("short text, past the end", 24, |p| {
        p.has_status(1) && p.is_short() && p.is_past_end()
    }),
    ("over 16,384 bytes", 24, |p| p.has_status(8)),
    ("over, not from place 0", 12, |p| {
        p.has_status(8) && p.place > 0
    }),
    ("over, short text", 1, |p| {
        p.has_status(1) && p.is_over_limit() && !p.is_past_end()
    }),
    ("over, past the end", 1, |p| {
        p.has_status(1) && p.is_over_limit() && !p.is_short()
    }),
];

#[test]
fn every_kind_of_piece_has_inputs() {
    let samples = list_inputs();
    let inputs = samples.iter().flat_map(|(_, inputs)| inputs);
    let pieces: Vec<_> = inputs.map(Piece::new).collect();
    assert_eq!(pieces.len(), INPUTS);
    for (name, least, is_of) in KINDS {
        let found = pieces.iter().filter(|piece| is_of(piece)).count();
        println!("{name:28}{found:>6}");
        assert!(found >= least, "{name}: {found} pieces");
    }
}

#[test]
fn texts_are_of_every_size() {
    let samples = list_inputs();
    let inputs = samples.iter().flat_map(|(_, inputs)| inputs);
    let sizes: Vec<usize> = inputs.map(|input| input.text.length.into()).collect();
    assert!(sizes.iter().all(|&size| size <= TEXT_MOST));
    let [first, second] = OLD_TEXT_SIZES;
    let kinds = [
        0..=0,
        1..=TEXT_LEAST - 2,
        TEXT_LEAST - 1..=TEXT_LEAST - 1,
        TEXT_LEAST..=TEXT_LEAST,
        TEXT_LEAST + 1..=TEXT_LEAST + 1,
        100..=100,
        101..=400,
        1_000..=4_000,
        first..=first,
        second..=second,
        TEXT_MOST..=TEXT_MOST,
    ];
    for kind in kinds {
        let found = sizes.iter().filter(|size| kind.contains(size)).count();
        println!("text of {kind:?} bytes: {found}");
        assert!(found >= 24, "{found} texts of {kind:?} bytes");
    }
}

/// A record is the text's start and length, and the place. A line is the status, the bytes written,
/// the next place, 1 or 0 for lines that remain, and the digest.
#[test]
fn records_and_lines_are_as_they_should() {
    let mut sections = vectors().sections.iter();
    let section = sections.find(|section| section.name == "listing");
    let section = section.expect("a section");
    assert_eq!(section.data.len(), 6 * INPUTS);
    let mut records = section.data.chunks(6);
    let mut lines = section.results.lines();
    for input in list_inputs().iter().flat_map(|(_, inputs)| inputs) {
        let record = Listing(input).record().0;
        assert_eq!(records.next(), Some(&record[..]));
        let field = |at: usize| u16::from_le_bytes([record[at], record[at + 1]]);
        let fields = [input.text.start, input.text.length, input.place];
        assert_eq!([0, 2, 4].map(field), fields);
        let Listed {
            written,
            next,
            status,
            more,
        } = Piece::new(input).listed;
        let more = u32::from(more);
        let numbers = format!("{status:x} {written:x} {next:x} {more:x} ");
        let digest = lines.next().and_then(|line| line.strip_prefix(&numbers));
        assert_eq!(digest.map(str::len), Some(16), "{numbers}");
    }
    assert_eq!(lines.next(), None);
}
