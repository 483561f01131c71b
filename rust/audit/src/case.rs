//! The cases of an audit, each a function of seed and number alone.

use crate::damage::{applies, damage, FIELDS};
use crate::detect::{Capabilities, RegisterSet};
use crate::encoding::{Fields, Third};
use crate::features;
use crate::random::Random;
use crate::setting::Setting;
use crate::shape::{Form, Shape};
use crate::state::State;
use reference::Field;

/// One instruction and everything that it reads.
#[derive(Debug, Clone)]
pub struct Case {
    pub number: u64,
    pub shape: Shape,
    /// The field that is wrong, if the instruction is to be refused.
    pub damage: Option<Field>,
    pub fields: Fields,
    pub code: Vec<u8>,
    /// Bytes behind the instruction, for the engine alone: its length must not depend on them.
    pub trailing: Vec<u8>,
    pub features: u32,
    pub state: State,
    pub memory: Vec<u8>,
    pub setting: Setting,
}

impl Case {
    /// Whether b is wrong only because the third operand is a register: with memory the row has a
    /// broadcast.
    pub fn has_b_with_register(&self) -> bool {
        self.damage == Some(Field::Broadcast) && self.shape.row.broadcast.is_some()
    }

    /// The instruction's bytes with b 0.
    pub fn code_without_b(&self) -> Vec<u8> {
        let fields = Fields {
            broadcast: 0,
            ..self.fields.clone()
        };
        fields.bytes()
    }

    /// The register that is written; none if the instruction is refused.
    pub fn destination(&self) -> Option<usize> {
        let destination = usize::from(self.fields.destination);
        self.damage.is_none().then_some(destination)
    }

    /// Whether the destination is also a source.
    pub fn overlaps(&self) -> bool {
        let destination = self.fields.destination;
        let is_first = self.shape.row.first && self.fields.first == destination;
        is_first
            || matches!(self.fields.third, Third::Register { number, .. } if number == destination)
    }
}

/// Which shapes can be audited on this machine, and which not.
pub struct Plan {
    /// The features of a case are one of these, and what its shape needs.
    sets: Vec<u8>,
    accepted: Vec<Shape>,
    damaged: Vec<(Shape, Field)>,
    pub skipped: Vec<(Form, String)>,
}

impl Plan {
    pub fn new(capabilities: Capabilities) -> Plan {
        Plan::of(capabilities.apx(), |shape| lacking(shape, capabilities))
    }

    /// The plan for a machine with or without APX, of the shapes for which `lacking` has no reason.
    fn of(apx: bool, lacking: impl Fn(Shape) -> Option<String>) -> Plan {
        let mut plan = Plan {
            sets: features::possible(),
            accepted: Vec::new(),
            damaged: Vec::new(),
            skipped: Vec::new(),
        };
        for shape in Shape::all() {
            match lacking(shape) {
                Some(reason) => plan.skip(shape, reason),
                None => plan.accepted.push(shape),
            }
        }
        for field in FIELDS {
            let shapes = plan.accepted.iter().copied();
            let damaged = shapes.filter(|shape| applies(*shape, field, apx));
            plan.damaged.extend(damaged.map(|shape| (shape, field)));
        }
        plan
    }

    fn skip(&mut self, shape: Shape, reason: String) {
        let skipped = (shape.form(), reason);
        if !self.skipped.contains(&skipped) {
            self.skipped.push(skipped);
        }
    }

    /// Three accepted encodings, then a damaged one. Shapes and fields take turns, so that a
    /// bounded run misses none.
    fn pick(&self, number: u64) -> (Shape, Option<Field>) {
        let (round, turn) = (number / 4, number % 4);
        let place = |number: u64, count: usize| (number % count as u64) as usize;
        if turn == 3 {
            let (shape, field) = self.damaged[place(round, self.damaged.len())];
            return (shape, Some(field));
        }
        let shape = self.accepted[place(3 * round + turn, self.accepted.len())];
        (shape, None)
    }

    pub fn case(&self, seed: u64, number: u64) -> Case {
        let mut random = Random::for_case(seed, number);
        let (shape, field) = self.pick(number);
        let mut fields = Fields::random(shape, &mut random);
        // Features beyond the needed ones do not matter, and for a wrong field none do. But they
        // have to be a set that a processor can have, which two such sets together are too.
        let mut features = u32::from(random.pick(&self.sets));
        match field {
            Some(field) => damage(&mut fields, field, &mut random),
            None => features |= shape.needed_features(),
        }
        Case {
            number,
            shape,
            damage: field,
            code: fields.bytes(),
            fields,
            trailing: trailing(&mut random),
            features,
            state: random_state(&mut random),
            memory: random.bytes(shape.memory()),
            setting: Setting::random(&mut random),
        }
    }
}

/// Why this machine cannot run the shape, if so.
fn lacking(shape: Shape, capabilities: Capabilities) -> Option<String> {
    let missing = shape.needed_features() & !capabilities.features();
    if missing != 0 {
        return Some(features::names(missing));
    }
    let set = capabilities.register_set();
    let has_opmasks = set.is_some_and(RegisterSet::has_opmasks);
    (shape.is_evex() && !has_opmasks).then(|| "avx512bw".to_string())
}

/// No byte half of the time, else a few.
fn trailing(random: &mut Random) -> Vec<u8> {
    let count = random.bit() * random.below(9);
    random.bytes(usize::from(count))
}

fn random_state(random: &mut Random) -> State {
    let mut state = State::ZERO;
    random.fill(&mut state.file);
    for mask in &mut state.masks {
        *mask = random_mask(random);
    }
    state
}

/// Half of the masks are plain random numbers. The others have few, many, all or no bits. All but
/// the last kind have bits past the last element of most vectors.
fn random_mask(random: &mut Random) -> u64 {
    let word = random.word();
    match random.below(8) {
        0 => word & random.word() & random.word(),
        1 => word | random.word() | random.word(),
        2 => u64::MAX,
        3 => 0,
        _ => word,
    }
}

#[cfg(test)]
mod tests {
    use super::{Case, Plan};
    use crate::detect::Capabilities;
    use crate::features::possible;
    use reference::Field;
    use std::collections::{BTreeMap, BTreeSet};

    /// Each of the sets, of an encoding that is refused whatever the features are.
    #[test]
    fn features_of_a_case_are_possible() {
        let capabilities = Capabilities::detect().expect("possible features");
        if capabilities.register_set().is_none() {
            println!("skipped: no AVX on this machine");
            return;
        }
        let plan = Plan::new(capabilities);
        let mut damaged = BTreeSet::new();
        for case in (0..4_000).map(|number| plan.case(1, number)) {
            let features = case.features as u8;
            assert_eq!(u32::from(features), case.features);
            assert!(possible().contains(&features), "{features}");
            if case.damage.is_some() {
                damaged.insert(features);
                continue;
            }
            let lacking = case.shape.needed_features() & !case.features;
            assert_eq!(lacking, 0, "{}", case.shape.form());
        }
        assert!(damaged.into_iter().eq(possible()));
    }

    const SEEDS: u64 = 20;
    const CASES: u64 = 4_000;

    /// The EVEX cases of many seeds, on a machine that has every feature.
    fn evex_cases(apx: bool) -> impl Iterator<Item = Case> {
        let plan = Plan::of(apx, |_| None);
        let numbers = (0..SEEDS).flat_map(|seed| (0..CASES).map(move |number| (seed, number)));
        let cases = numbers.map(move |(seed, number)| plan.case(seed, number));
        cases.filter(|case| case.code[0] == 0x62)
    }

    /// Maps 4 to 7 belong to instructions that are not ours, and map 0 to none.
    #[test]
    fn evex_maps_are_those_of_the_rows() {
        for apx in [false, true] {
            let mut maps = BTreeMap::new();
            for case in evex_cases(apx) {
                let map = case.code[1] & 7;
                assert_eq!(map, case.shape.row.map, "{:02X?}", case.code);
                *maps.entry(map).or_insert(0) += 1;
            }
            println!("EVEX cases by map, APX {apx}: {maps:?}");
            assert!(maps.keys().eq(&[1, 2, 3]), "{maps:?}");
        }
    }

    /// How many cases have neither of the two bits wrong, P bit 3, Q bit 2, and both.
    fn fixed_bits(apx: bool) -> [usize; 4] {
        let mut counts = [0; 4];
        for case in evex_cases(apx) {
            let (p, q) = (case.code[1] >> 3 & 1, !case.code[2] >> 2 & 1);
            let is_damaged = case.damage == Some(Field::FixedBits);
            assert_eq!(p | q == 1, is_damaged, "{:02X?}", case.code);
            counts[usize::from(p + 2 * q)] += 1;
        }
        println!("EVEX cases with none, P bit 3, Q bit 2, both wrong, APX {apx}: {counts:?}");
        counts
    }

    #[test]
    fn fixed_bits_are_wrong_alone_and_together() {
        assert!(fixed_bits(false).iter().all(|count| *count > 0));
    }

    /// The two bits have a meaning there, and no other is fixed.
    #[test]
    fn no_bit_is_fixed_with_apx() {
        let [none, wrong @ ..] = fixed_bits(true);
        assert!(none > 0);
        assert_eq!(wrong, [0; 3]);
    }
}
