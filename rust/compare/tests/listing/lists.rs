//! Lists to list.

use compare::faults::Fault;
use compare::limits::features::ALL;
use compare::listings::Case;
use compare::lists::{List, Mix};
use compare::random::Random;

/// What a list can be refused for with all features, with the statuses.
pub const FAULTS: [(Fault, u32); 6] = [
    (Fault::Short, 2),
    (Fault::NoRow, 3),
    (Fault::OtherOpcodeMap, 3),
    (Fault::FixedBits, 4),
    (Fault::Reserved, 4),
    (Fault::SeveralReserved, 4),
];

/// Calls `each` with `count` lists of at most `most` steps of every form, and a case that has their
/// code.
pub fn for_lists(
    seed: u64,
    count: usize,
    most: usize,
    mut each: impl FnMut(&List, &mut Case, &mut Random),
) {
    let mut random = Random::new(seed);
    let mix = Mix::of(|_| true);
    for _ in 0..count {
        let steps = random.below(most + 1);
        let list = mix.list(steps, &mut random);
        let mut case = Case::new(&list.code);
        case.old = random.byte();
        case.text_size += random.below(3);
        each(&list, &mut case, &mut random);
    }
}

/// The list as it is, or with a bad step anywhere in it.
pub fn with_or_without_fault(list: &List, random: &mut Random) -> Vec<u8> {
    let (fault, _) = random.pick(&FAULTS);
    let bad = fault.encode(ALL, random).filter(|_| random.flag());
    let position = random.below(list.count() + 1);
    bad.map_or_else(
        || list.code.clone(),
        |bad| fault.insert(list, position, &bad),
    )
}
