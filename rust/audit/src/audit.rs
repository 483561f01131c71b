//! The audit: case after case until a limit or a difference.

use crate::case::{Case, Plan};
use crate::compare::Comparison;
use crate::detect::Capabilities;
use crate::difference::{Difference, Finding};
use crate::engine::Engine;
use crate::features::Impossible;
use crate::lead::Lead;
use crate::processor::Processor;
use crate::report::{Report, Skipped};
use std::fmt;
use std::io;
use std::time::{Duration, Instant};

/// When an audit ends if nothing differs.
#[derive(Debug, Clone, Copy, PartialEq, Eq)]
pub enum Limit {
    /// After so many instructions, accepted and refused ones together.
    Steps(u64),
    Time(Duration),
}

#[derive(Debug, Clone, Copy)]
pub struct Options {
    pub seed: u64,
    /// The number of the first case.
    pub first_case: u64,
    pub limit: Limit,
    /// What to use of the processor, unless no processor has what it reports.
    pub capabilities: Result<Capabilities, Impossible>,
}

impl Options {
    /// From case 0, with all that the processor has.
    pub fn new(seed: u64, limit: Limit) -> Options {
        Options {
            seed,
            first_case: 0,
            limit,
            capabilities: Capabilities::detect(),
        }
    }
}

/// Why there is no report.
#[derive(Debug)]
pub enum Failure {
    Difference(Box<Difference>),
    /// The features are a set that no processor has. Nothing was compared.
    Impossible(Impossible),
    /// The system gives no memory to execute instructions in.
    Setup(io::Error),
}

impl fmt::Display for Failure {
    fn fmt(&self, f: &mut fmt::Formatter<'_>) -> fmt::Result {
        match self {
            Failure::Difference(difference) => difference.fmt(f),
            Failure::Impossible(set) => write!(f, "{set}; nothing was compared"),
            Failure::Setup(error) => write!(f, "cannot execute instructions here: {error}"),
        }
    }
}

/// How far an audit is.
#[derive(Debug, Clone, Copy)]
pub struct Progress {
    /// Instructions compared, accepted and refused ones together.
    pub instructions: u64,
    pub elapsed: Duration,
}

/// Compares an engine with the processor. Without AVX nothing can be compared, and the report says
/// so.
pub fn audit(engine: &mut dyn Engine, options: Options) -> Result<Report, Failure> {
    audit_watched(engine, options, &mut |_| {})
}

/// The same, and tells `watch` after every instruction how far it is.
pub fn audit_watched(
    engine: &mut dyn Engine,
    options: Options,
    watch: &mut dyn FnMut(Progress),
) -> Result<Report, Failure> {
    let capabilities = options.capabilities.map_err(Failure::Impossible)?;
    let plan = Plan::new(capabilities);
    let mut report = Report::new(engine.name(), options.seed, capabilities);
    report.skipped = skipped(&plan);
    if capabilities.register_set().is_none() {
        return Ok(report);
    }
    let processor = Processor::new(capabilities).map_err(Failure::Setup)?;
    let mut comparison = Comparison::new(processor);
    let start = Instant::now();
    let mut count = 0;
    while !is_over(options.limit, count, start) {
        let case = plan.case(options.seed, options.first_case.wrapping_add(count));
        let findings = comparison.check(engine, &case);
        if !findings.is_empty() {
            let lead = comparison.lead().cloned();
            let difference = difference(engine, options.seed, case, lead, findings);
            return Err(Failure::Difference(Box::new(difference)));
        }
        report.count(&case, comparison.is_b_ignored(&case), comparison.lead());
        count += 1;
        watch(Progress {
            instructions: count,
            elapsed: start.elapsed(),
        });
    }
    report.elapsed = start.elapsed();
    Ok(report)
}

fn skipped(plan: &Plan) -> Vec<Skipped> {
    let skipped = plan.skipped.iter().cloned();
    skipped
        .map(|(form, lacks)| Skipped { form, lacks })
        .collect()
}

fn is_over(limit: Limit, count: u64, start: Instant) -> bool {
    match limit {
        Limit::Steps(steps) => count >= steps,
        Limit::Time(time) => start.elapsed() >= time,
    }
}

fn difference(
    engine: &dyn Engine,
    seed: u64,
    case: Case,
    lead: Option<Lead>,
    findings: Vec<Finding>,
) -> Difference {
    Difference {
        engine: engine.name().to_string(),
        seed,
        case: case.number,
        form: case.shape.form(),
        damage: case.damage,
        code: case.code,
        trailing: case.trailing,
        features: case.features,
        memory: case.memory,
        state: case.state,
        lead,
        findings,
    }
}
