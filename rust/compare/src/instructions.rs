//! Counts of the instructions that were accepted, as a table with a line for each row.

use crate::encoding::{Row, ROWS};
use crate::form::{Combination, Form};
use std::collections::{BTreeMap, BTreeSet};
use tarhuspo::{decode, mnemonic_name, Decoded};

/// A column of the table: its title, and which instructions it counts.
type Column = (&'static str, fn(&Combination) -> bool);

const COLUMNS: [Column; 10] = [
    ("VEX", |c| !c.evex),
    ("EVEX", |c| c.evex),
    ("128", |c| c.bits == 128),
    ("256", |c| c.bits == 256),
    ("512", |c| c.bits == 512),
    ("merging", |c| c.masked && !c.zeroing),
    ("zeroing", |c| c.zeroing),
    ("register", |c| !c.memory),
    ("memory", |c| c.memory && !c.broadcast),
    ("broadcast", |c| c.broadcast),
];

/// What a combination is made from, as numbers, which are quick to look up.
type Key = [u32; 8];

/// How often each combination was accepted.
#[derive(Default)]
pub struct Instructions(BTreeMap<Key, u64>);

impl Instructions {
    /// Counts an accepted instruction.
    pub fn record(&mut self, decoded: &Decoded) {
        *self.0.entry(key(decoded)).or_default() += 1;
    }

    /// Counts the instructions of a list, up to the first that is refused.
    pub fn record_list(&mut self, code: &[u8], features: u32) {
        let mut place = 0;
        loop {
            let decoded = decode(&code[place..], features);
            if decoded.status != 0 {
                return;
            }
            self.record(&decoded);
            place += decoded.length as usize;
        }
    }

    pub fn merge(&mut self, other: &Instructions) {
        for (&key, count) in &other.0 {
            *self.0.entry(key).or_default() += count;
        }
    }

    /// Prints the table.
    ///
    /// # Panics
    ///
    /// If a number that occurred is no mnemonic, or if the combinations that occurred are not those
    /// of the forms that can be.
    pub fn print(&self, what: &str, can_be: impl Fn(Form) -> bool) {
        let counts = self
            .0
            .iter()
            .map(|(&key, &count)| (combination(key), count));
        let counts: BTreeMap<_, _> = counts.collect();
        let titles: String = COLUMNS.iter().map(|(t, _)| format!(" {t:>9}")).collect();
        println!("\n{what:26}{:>9}{titles}", "all");
        for row in &ROWS {
            print_row(row, &counts);
        }
        let forms = Form::all().into_iter().filter(|&form| can_be(form));
        let existing: BTreeSet<_> = forms.map(Form::combination).collect();
        let occurred: BTreeSet<_> = counts.into_keys().collect();
        assert_eq!(occurred, existing, "forms that occurred, and the table's");
        println!(
            "{} combinations of mnemonic, immediate, encoding, width, masking, zeroing, \
             broadcast and operand kind, all that exist",
            existing.len()
        );
    }
}

fn print_row(row: &Row, counts: &BTreeMap<Combination, u64>) {
    let own = |c: &Combination| c.name == row.name && c.immediate == row.immediate;
    let sum = |counted: fn(&Combination) -> bool| -> u64 {
        let those = counts.iter().filter(|(c, _)| own(c) && counted(c));
        those.map(|(_, count)| count).sum()
    };
    let columns: String = COLUMNS
        .map(|(_, counted)| format!(" {:>9}", sum(counted)))
        .concat();
    let kind = if row.immediate { ", immediate" } else { "" };
    let all = sum(|_| true);
    println!("{:26}{all:>9}{columns}", format!("{}{kind}", row.name));
}

/// The name of a mnemonic's number.
///
/// # Panics
///
/// If there is none.
pub fn name(mnemonic: u32) -> &'static str {
    match mnemonic_name(mnemonic) {
        Some(name) => name,
        None => panic!("{mnemonic} is no mnemonic"),
    }
}

fn key(decoded: &Decoded) -> Key {
    [
        decoded.mnemonic,
        decoded.has_immediate,
        decoded.evex,
        decoded.bits,
        u32::from(decoded.mask != 0),
        decoded.zeroing,
        decoded.broadcast,
        u32::from(decoded.memory != 0),
    ]
}

fn combination(key: Key) -> Combination {
    let [mnemonic, immediate, evex, bits, masked, zeroing, broadcast, memory] = key;
    Combination {
        name: name(mnemonic),
        immediate: immediate != 0,
        evex: evex != 0,
        bits,
        masked: masked != 0,
        zeroing: zeroing != 0,
        broadcast: broadcast != 0,
        memory: memory != 0,
    }
}
