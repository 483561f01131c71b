//! Answers that are worked out an instruction at a time.

use crate::tools::base;
use settled::entry_point::EntryPoint;
use settled::landed::{whole_lines, Landed};
use settled::today;

/// At the base they are the base's, and with all requests today's: no request is forgotten.
#[test]
fn answers_are_the_bases_and_todays() {
    let base = base();
    for entry_point in EntryPoint::ALL {
        let answers = base.answers(entry_point).iter();
        let (mut compared, mut changed) = (0, 0);
        for (number, (input, old)) in base.inputs(entry_point).zip(answers).enumerate() {
            let Some(before) = Landed::Base.answer(&input) else {
                continue;
            };
            let place = format!("{}, record {number} from 0\n{input}", entry_point.name());
            assert_eq!(before, *old, "{place}");
            let now = today::answer(&input);
            assert_eq!(Landed::TODAY.answer(&input), Some(now.clone()), "{place}");
            compared += 1;
            changed += usize::from(now != before);
        }
        let name = entry_point.name();
        println!("{name}: {compared} compared, of which {changed} have another answer now");
    }
}

#[test]
fn lines_are_whole() {
    let text = "at\n1\n22\n";
    let pieces = ["", "", "", "at\n", "at\n", "at\n1\n", "at\n1\n", "at\n1\n"];
    for (size, piece) in pieces.into_iter().enumerate() {
        assert_eq!(whole_lines(text, size), piece, "{size} bytes");
    }
    for size in [8, 9, usize::MAX] {
        assert_eq!(whole_lines(text, size), text, "{size} bytes");
    }
}
