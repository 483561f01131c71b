//! What the comparisons found: a table, and what is wrong.

use crate::comparison::Comparison;
use crate::rules::Rule;
use std::collections::BTreeSet;

pub struct Report<'a> {
    rules: &'a [Rule],
    comparisons: Vec<Comparison<'a>>,
}

impl<'a> Report<'a> {
    /// Of comparisons under the given rules.
    pub fn new(rules: &'a [Rule], comparisons: Vec<Comparison<'a>>) -> Report<'a> {
        Report { rules, comparisons }
    }

    /// A table in markdown. An entry point's line has its inputs, those that answer the same, and
    /// those that a request changed, with a column for each request that has a rule.
    pub fn table(&self) -> String {
        let requests: BTreeSet<_> = self.rules.iter().map(|rule| rule.request).collect();
        let mut titles = vec!["entry point".into(), "inputs".into(), "same".into()];
        titles.extend(requests.iter().map(|request| format!("request {request}")));
        let mut lines = vec![line(&titles), "|---".repeat(titles.len()) + "|"];
        let mut sums = vec![0; titles.len() - 1];
        for comparison in &self.comparisons {
            let mut counts = vec![comparison.inputs, comparison.same];
            counts.extend(requests.iter().map(|&r| self.changed_by(r, comparison)));
            for (sum, count) in sums.iter_mut().zip(&counts) {
                *sum += count;
            }
            lines.push(counts_line(comparison.entry_point.name(), &counts));
        }
        lines.push(counts_line("all", &sums));
        lines.join("\n")
    }

    /// What is wrong, if anything: for each entry point the differences that no rule explains, and
    /// each rule that explains none.
    pub fn faults(&self) -> Vec<String> {
        let unexplained = self.comparisons.iter().filter_map(unexplained);
        let rules = self.rules.iter().enumerate();
        let idle = rules.filter(|&(i, _)| self.explained_by(i) == 0);
        let idle = idle.map(|(_, Rule { request, name, .. })| {
            format!("the rule '{name}' of request {request} explains no difference")
        });
        unexplained.chain(idle).collect()
    }

    fn changed_by(&self, request: u32, comparison: &Comparison) -> usize {
        let rules = self.rules.iter().zip(&comparison.changed);
        let own = rules.filter(|(rule, _)| rule.request == request);
        own.map(|(_, changed)| changed).sum()
    }

    fn explained_by(&self, rule: usize) -> usize {
        self.comparisons.iter().map(|c| c.changed[rule]).sum()
    }
}

fn unexplained(comparison: &Comparison) -> Option<String> {
    let (count, inputs) = (comparison.unexplained, comparison.inputs);
    let name = comparison.entry_point.name();
    let described = comparison.described.join("\n\n");
    (count > 0).then(|| {
        format!(
            "{name}: {count} of {inputs} answers differ from the base's, and no rule explains it. \
             The first:\n\n{described}"
        )
    })
}

fn counts_line(name: &str, counts: &[usize]) -> String {
    let mut cells = vec![name.to_string()];
    cells.extend(counts.iter().map(|&count| with_commas(count)));
    line(&cells)
}

fn line(cells: &[String]) -> String {
    format!("| {} |", cells.join(" | "))
}

/// A number with a comma before every three digits.
fn with_commas(number: usize) -> String {
    match number / 1_000 {
        0 => number.to_string(),
        thousands => format!("{},{:03}", with_commas(thousands), number % 1_000),
    }
}
