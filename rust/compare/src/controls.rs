//! Which controls in registers and memory accepted steps had.

use crate::encoding::{Control, ROWS};
use crate::instructions::name;
use std::collections::BTreeMap;
use tarhuspo::Decoded;

/// Where a control stands: an instruction, and the kind of the operand.
type Place = (&'static str, &'static str);

/// How often each control occurred, in elements that were let through: by byte 0 of the element.
#[derive(Default)]
pub struct Controls(BTreeMap<Place, Vec<u64>>);

impl Controls {
    /// Counts the controls of a step that was carried out.
    pub fn record(&mut self, decoded: &Decoded, file: &[u8], masks: &[u64], memory: &[u8]) {
        let name = name(decoded.mnemonic);
        let immediate = decoded.has_immediate != 0;
        let mut rows = ROWS.iter();
        let row = rows.find(|row| row.name == name && row.immediate == immediate);
        let Some((row, control)) = row.and_then(|row| Some((row, row.control?))) else {
            return;
        };
        let register = |number: u32| &file[64 * number as usize..][..64];
        let (kind, operand) = match control {
            Control::First => ("register", register(decoded.first)),
            Control::Third if decoded.memory == 0 => ("register", register(decoded.third)),
            Control::Third if decoded.broadcast == 0 => ("memory", memory),
            Control::Third => ("broadcast", memory),
        };
        let mask = match decoded.mask {
            0 => u64::MAX,
            number => masks[number as usize],
        };
        let place = self.0.entry((name, kind));
        let counts = place.or_insert_with(|| vec![0; 256]);
        for j in 0..decoded.bits as usize / 8 / row.element {
            // A broadcast operand is one element.
            let at = j * row.element % operand.len();
            counts[usize::from(operand[at])] += mask >> j & 1;
        }
    }

    pub fn merge(&mut self, other: &Controls) {
        for (&place, more) in &other.0 {
            let counts = self.0.entry(place).or_insert_with(|| vec![0; 256]);
            for (count, more) in counts.iter_mut().zip(more) {
                *count += more;
            }
        }
    }

    /// Prints how many there were at each place.
    ///
    /// # Panics
    ///
    /// If one of the 256 did not occur at a place, or a place did not.
    pub fn print(&self) {
        println!(
            "\n{:26}{:>10} {:>10} {:>10}",
            "controls", "all", "bit 7 set", "clear"
        );
        for ((name, kind), counts) in &self.0 {
            let [clear, set] = [&counts[..128], &counts[128..]].map(|c| c.iter().sum::<u64>());
            let place = format!("{name}, {kind}");
            println!("{place:26}{:>10} {set:>10} {clear:>10}", set + clear);
            assert!(
                counts.iter().all(|&count| count > 0),
                "a control of {place}"
            );
        }
        let places: Vec<_> = self.0.keys().copied().collect();
        assert_eq!(places, existing());
    }
}

/// Every place, in order.
fn existing() -> Vec<Place> {
    let mut places = Vec::new();
    for row in &ROWS {
        let kinds: &[&str] = match (row.control, row.broadcast) {
            (None, _) => &[],
            (Some(Control::First), _) => &["register"],
            (Some(Control::Third), false) => &["memory", "register"],
            (Some(Control::Third), true) => &["broadcast", "memory", "register"],
        };
        places.extend(kinds.iter().map(|&kind| (row.name, kind)));
    }
    places.sort();
    places
}
