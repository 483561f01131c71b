//! Today's answers of an entry point beside the base's, and what explains a difference.

use crate::answer::Answer;
use crate::base::Base;
use crate::entry_point::EntryPoint;
use crate::input::Input;
use crate::rules::Rule;
use crate::today;

/// How many unexplained differences of an entry point are described.
const SHOWN: usize = 3;

pub struct Comparison<'a> {
    pub entry_point: EntryPoint,
    rules: &'a [Rule],
    pub inputs: usize,
    pub same: usize,
    /// For each rule, the differences that it explains.
    pub changed: Vec<usize>,
    pub unexplained: usize,
    /// The first differences that no rule explains.
    pub described: Vec<String>,
}

impl<'a> Comparison<'a> {
    /// Of no inputs.
    pub fn new(entry_point: EntryPoint, rules: &'a [Rule]) -> Comparison<'a> {
        Comparison {
            entry_point,
            rules,
            inputs: 0,
            same: 0,
            changed: vec![0; rules.len()],
            unexplained: 0,
            described: Vec::new(),
        }
    }

    /// Of every input that the base has.
    ///
    /// # Panics
    ///
    /// If there is not one record for each of the base's answers.
    pub fn of(base: &Base, entry_point: EntryPoint, rules: &'a [Rule]) -> Comparison<'a> {
        let mut comparison = Comparison::new(entry_point, rules);
        let mut inputs = base.inputs(entry_point);
        for old in base.answers(entry_point) {
            let input = inputs.next().expect("a record for each answer");
            comparison.add(&input, old, &today::answer(&input));
        }
        assert!(inputs.next().is_none(), "a record without an answer");
        comparison
    }

    /// Counts the next input, with the base's answer and today's.
    pub fn add(&mut self, input: &Input, old: &Answer, new: &Answer) {
        let number = self.inputs;
        self.inputs += 1;
        if old == new {
            self.same += 1;
            return;
        }
        let mut rules = self.rules.iter();
        match rules.position(|rule| (rule.explains)(input, old, new)) {
            Some(rule) => self.changed[rule] += 1,
            None => self.leave(number, input, old, new),
        }
    }

    /// Counts a difference that no rule explains, and describes it if it is one of the first.
    fn leave(&mut self, number: usize, input: &Input, old: &Answer, new: &Answer) {
        self.unexplained += 1;
        if self.described.len() < SHOWN {
            let name = self.entry_point.name();
            self.described.push(format!(
                "{name}, record {number} from 0\nold: {old}\nnew: {new}\n{input}"
            ));
        }
    }
}
