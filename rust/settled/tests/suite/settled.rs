//! Every answer is the base's, or a rule explains the difference.

use settled::base::Base;
use settled::comparison::Comparison;
use settled::entry_point::EntryPoint;
use settled::frozen::folder;
use settled::report::Report;
use settled::rules::RULES;

#[test]
fn answers_are_the_bases_or_explained() {
    let base = Base::read(&folder()).expect("the frozen files can be read");
    let comparisons = EntryPoint::ALL.map(|e| Comparison::of(&base, e, RULES));
    for comparison in &comparisons {
        let name = comparison.entry_point.name();
        assert_eq!(comparison.inputs, 20_000, "inputs of {name}");
    }
    let report = Report::new(RULES, comparisons.into());
    println!("\n{}\n", report.table());
    let faults = report.faults();
    assert!(faults.is_empty(), "\n{}\n", faults.join("\n\n"));
}
