//! Building, applying and composing byte maps with the library gives what the reference gives, and
//! keeps the laws of byte maps.

mod applying;
mod building;
mod composing;
mod laws;
mod maps;

use compare::form::Form;
use compare::instructions::Instructions;
use compare::mapping;
use compare::tally::{Reasons, Table};

const LEAST_LISTS: u64 = 50_000;
const LEAST_MAPS: u64 = 5_000;

/// A kind of input: its name, and what compares all inputs of that kind.
type Kind<C> = (&'static str, fn(&mut C));

/// One test, so that the tables do not mix.
#[test]
fn library_agrees_with_reference() {
    compare_builds();
    compare_maps("compared applications", &applying::KINDS);
    compare_maps("compared compositions", &composing::KINDS);
    check_laws();
}

fn compare_builds() {
    let mut table = Table::new("compared builds", &[0, 1, 2, 3, 4, 5, 7, 8]);
    let mut lists = 0;
    let mut reasons = Reasons::default();
    let mut instructions = Instructions::default();
    for (name, compare_all) in building::KINDS {
        let mut comparison = compare::building::Comparison::default();
        compare_all(&mut comparison);
        table.line(name, comparison.counts);
        lists += comparison.lists;
        reasons.merge(&comparison.reasons);
        instructions.merge(&comparison.instructions);
    }
    table.finish(LEAST_LISTS);
    println!("{lists} lists");
    assert!(lists >= LEAST_LISTS, "fewer than {LEAST_LISTS} lists");
    reasons.finish("builds by reason");
    let is_mappable = |form: Form| !form.shape.memory && !form.has_register_control();
    instructions.print("built steps by instruction", is_mappable);
}

fn compare_maps(what: &str, kinds: &[Kind<mapping::Comparison>]) {
    println!();
    let mut table = Table::new(what, &[0, 1, 9]);
    for (name, compare_all) in kinds {
        let mut comparison = mapping::Comparison::default();
        compare_all(&mut comparison);
        table.line(name, comparison.counts);
    }
    table.finish(LEAST_MAPS);
}

fn check_laws() {
    println!("\n{:26}{:>9}", "checked laws", "cases");
    for (name, check_all) in laws::KINDS {
        let mut laws = laws::Laws::default();
        check_all(&mut laws);
        println!("{name:26}{:>9}", laws.cases);
        assert!(laws.cases > 0, "no case of the kind '{name}'");
    }
}
