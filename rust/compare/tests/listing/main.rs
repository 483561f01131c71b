//! A listing of the library has the same bytes as one of the reference, and as document 01 and
//! requests 3 and 5 show: whole, and in pieces.

mod expected;
mod lists;
mod pieces;
mod whole;

use compare::instructions::Instructions;
use compare::listings::{Comparison, Ends};
use compare::tally::{Reasons, Table};

const LEAST: u64 = 100_000;

/// A kind of input: its name, and what compares all inputs of that kind.
type Kind = (&'static str, fn(&mut Comparison));

#[test]
fn library_agrees_with_reference() {
    let mut table = Table::new("compared listings", &[0, 1, 8]);
    let mut last_lines = Vec::new();
    let mut reasons = Reasons::default();
    let mut ends = Ends::default();
    let mut instructions = Instructions::default();
    for (name, compare_all) in whole::KINDS.into_iter().chain(pieces::KINDS) {
        let mut comparison = Comparison::default();
        compare_all(&mut comparison);
        table.line(name, comparison.counts);
        last_lines.push((name, comparison.last_lines));
        reasons.merge(&comparison.reasons);
        ends.merge(&comparison.ends);
        instructions.merge(&comparison.instructions);
    }
    table.finish(LEAST);

    println!();
    let mut table = Table::new("by their last line", &[0, 2, 3, 4]);
    last_lines.retain(|(_, counts)| counts.sum() > 0);
    for (name, counts) in last_lines {
        table.line(name, counts);
    }
    table.finish(1);
    reasons.finish("last lines by reason");
    ends.finish();
    instructions.print("lines by instruction", |_| true);
}
