//! Made-up differences: what is found, what a rule explains, and what the table counts.

use settled::answer::Answer;
use settled::comparison::Comparison;
use settled::digest::Digest;
use settled::entry_point::EntryPoint;
use settled::input::{Decode, Input};
use settled::report::Report;
use settled::rules::Rule;

/// Five inputs of one byte, 0 to 4: the first two are accepted as before, and the next ones were
/// accepted and are refused with 3, 3 and 4.
fn compared(rules: &[Rule]) -> Report<'_> {
    let mut comparison = Comparison::new(EntryPoint::Decode, rules);
    for (byte, status) in [(0, 0), (1, 0), (2, 3), (3, 3), (4, 4)] {
        comparison.add(&input(byte), &answer(0), &answer(status));
    }
    let untouched = Comparison::new(EntryPoint::Step, rules);
    Report::new(rules, vec![comparison, untouched])
}

fn input(byte: u8) -> Input {
    let (features, code) = (31, vec![byte]);
    Input::Decode(Decode { features, code })
}

fn answer(status: u32) -> Answer {
    Answer {
        status,
        numbers: vec![1],
        digest: Digest(255),
    }
}

const REFUSED_WITH_3: Rule = Rule {
    request: 7,
    name: "refused with 3",
    explains: |_, old, new| old.status == 0 && new.status == 3,
};

const REFUSED_WITH_4: Rule = Rule {
    request: 9,
    name: "refused with 4",
    explains: |_, old, new| old.status == 0 && new.status == 4,
};

const CODE_IS_2: Rule = Rule {
    request: 9,
    name: "code is 2",
    explains: |input, _, _| matches!(input, Input::Decode(input) if input.code == [2]),
};

const NOTHING: Rule = Rule {
    request: 12,
    name: "nothing",
    explains: |_, _, _| false,
};

#[test]
fn difference_without_a_rule_is_a_fault() {
    let faults = compared(&[]).faults();
    assert_eq!(faults.len(), 1, "{faults:?}");
    let start = "decode: 3 of 5 answers differ from the base's, and no rule explains it. ";
    assert!(faults[0].starts_with(start), "{}", faults[0]);
    let second = "\n\n\
                  decode, record 3 from 0\n\
                  old: 0 1 00000000000000ff\n\
                  new: 3 1 00000000000000ff\n\
                  features: 31\n\
                  code, 1 bytes: 03\n\n";
    assert!(faults[0].contains(second), "{}", faults[0]);
}

#[test]
fn difference_that_the_rules_leave_is_a_fault() {
    let rules = [REFUSED_WITH_3];
    let faults = compared(&rules).faults();
    assert_eq!(faults.len(), 1, "{faults:?}");
    assert!(faults[0].starts_with("decode: 1 of 5"), "{}", faults[0]);
    assert!(faults[0].contains("decode, record 4 from 0"));
}

/// Status, numbers and digest all count.
#[test]
fn difference_of_any_part_is_a_fault() {
    let changes: [fn(&mut Answer); 3] = [
        |answer| answer.status = 1,
        |answer| answer.numbers[0] = 2,
        |answer| answer.digest = Digest(254),
    ];
    for change in changes {
        let mut new = answer(0);
        change(&mut new);
        let mut comparison = Comparison::new(EntryPoint::Decode, &[]);
        comparison.add(&input(0), &answer(0), &new);
        assert_eq!((comparison.same, comparison.unexplained), (0, 1), "{new}");
    }
}

#[test]
fn rules_that_explain_every_difference_are_counted() {
    let rules = [CODE_IS_2, REFUSED_WITH_3, REFUSED_WITH_4];
    let report = compared(&rules);
    let faults = report.faults();
    assert!(faults.is_empty(), "{faults:?}");
    let table = "\
        | entry point | inputs | same | request 7 | request 9 |\n\
        |---|---|---|---|---|\n\
        | decode | 5 | 2 | 1 | 2 |\n\
        | step | 0 | 0 | 0 | 0 |\n\
        | all | 5 | 2 | 1 | 2 |";
    assert_eq!(report.table(), table);
}

#[test]
fn rule_that_explains_none_is_a_fault() {
    let rules = [REFUSED_WITH_3, NOTHING, REFUSED_WITH_4];
    let faults = compared(&rules).faults();
    let fault = "the rule 'nothing' of request 12 explains no difference";
    assert_eq!(faults, [fault]);
}

/// The first rule counts the difference, and the second is not needed.
#[test]
fn rule_behind_one_that_explains_the_same_is_a_fault() {
    let rules = [REFUSED_WITH_3, REFUSED_WITH_4, CODE_IS_2];
    let faults = compared(&rules).faults();
    let fault = "the rule 'code is 2' of request 9 explains no difference";
    assert_eq!(faults, [fault]);
}

#[test]
fn rule_is_not_asked_where_nothing_changed() {
    let anything = Rule {
        explains: |_, old, new| old != new || panic!("asked about {old}"),
        ..REFUSED_WITH_3
    };
    assert!(compared(&[anything]).faults().is_empty());
}

#[test]
fn first_three_of_many_differences_are_described() {
    let mut comparison = Comparison::new(EntryPoint::Decode, &[]);
    for byte in 0..200 {
        comparison.add(&input(byte), &answer(0), &answer(5));
    }
    let faults = Report::new(&[], vec![comparison]).faults();
    assert!(faults[0].starts_with("decode: 200 of 200"), "{}", faults[0]);
    assert_eq!(faults[0].matches("from 0\n").count(), 3, "{}", faults[0]);
}

#[test]
fn table_writes_thousands_with_commas() {
    let mut comparison = Comparison::new(EntryPoint::Run, &[]);
    (comparison.inputs, comparison.same) = (1_020_003, 999);
    let table = Report::new(&[], vec![comparison]).table();
    assert!(table.contains("\n| run | 1,020,003 | 999 |\n"), "{table}");
}
