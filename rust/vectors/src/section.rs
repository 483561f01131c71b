//! The inputs of one entry point with the reference's results.

use crate::digest::Digest;
use crate::layout::Record;
use crate::maker::Maker;
use crate::pools::Pools;
use inputs::tally::{Counts, Reasons};
use std::collections::HashSet;

/// What an entry point answers: the status, other numbers, and the digest of what it may write.
pub struct Answer {
    pub status: u32,
    /// One of the numbers, if the entry point gives it.
    pub reason: Option<u32>,
    pub numbers: Vec<u64>,
    /// None if the numbers are all of the result.
    pub digest: Option<Digest>,
}

impl Answer {
    fn line(&self) -> String {
        let mut words = vec![format!("{:x}", self.status)];
        words.extend(self.numbers.iter().map(|number| format!("{number:x}")));
        words.extend(self.digest.map(|digest| digest.to_string()));
        words.join(" ") + "\n"
    }
}

/// An input of an entry point.
pub trait Input {
    /// What stands in the entry point's own file.
    fn record(&self) -> Record;
    /// The reference's answer.
    fn answer(&self, pools: &Pools) -> Answer;
}

/// How many inputs of a kind there are, and how one is made.
pub type Kind<I> = (&'static str, usize, fn(&mut Maker) -> I);

/// The inputs of each kind, under its name.
pub type Samples<I> = Vec<(&'static str, Vec<I>)>;

/// Inputs of every kind. No two of them have a key in common.
pub fn samples<I>(seed: u64, kinds: &[Kind<I>], keys: fn(&I) -> Vec<Vec<u8>>) -> Samples<I> {
    let mut maker = Maker::new(seed);
    let mut seen = HashSet::new();
    let mut is_new = |input: &I| {
        let keys = keys(input);
        let new = keys.iter().all(|key| !seen.contains(key));
        seen.extend(keys);
        new
    };
    let mut samples = Vec::new();
    for &(name, count, make) in kinds {
        let made = std::iter::repeat_with(|| make(&mut maker));
        samples.push((name, made.filter(&mut is_new).take(count).collect()));
    }
    samples
}

pub struct Section {
    /// The entry point, and its file of inputs.
    pub name: &'static str,
    /// What it can answer.
    pub statuses: &'static [u32],
    pub kinds: Vec<(&'static str, Counts)>,
    /// None were counted if the entry point gives no reason.
    pub reasons: Reasons,
    pub data: Vec<u8>,
    /// A line for each input.
    pub results: String,
}

impl Section {
    pub fn new(name: &'static str, statuses: &'static [u32]) -> Section {
        Section {
            name,
            statuses,
            kinds: Vec::new(),
            reasons: Reasons::default(),
            data: Vec::new(),
            results: String::new(),
        }
    }

    /// Adds the inputs of one kind.
    pub fn add<I: Input>(
        &mut self,
        kind: &'static str,
        inputs: impl Iterator<Item = I>,
        pools: &Pools,
    ) {
        let mut counts = Counts::default();
        for input in inputs {
            let answer = input.answer(pools);
            counts.add(answer.status);
            if let Some(reason) = answer.reason {
                self.reasons.add(answer.status, reason);
            }
            self.data.extend(input.record().0);
            self.results += &answer.line();
        }
        self.kinds.push((kind, counts));
    }

    pub fn add_all<I: Input>(&mut self, samples: Samples<I>, pools: &Pools) {
        for (kind, inputs) in samples {
            self.add(kind, inputs.into_iter(), pools);
        }
    }

    pub fn counts(&self) -> Counts {
        let mut all = Counts::default();
        for (_, counts) in &self.kinds {
            all.merge(counts);
        }
        all
    }
}
