//! Laws of byte maps. Every call is compared with the reference as well.

use crate::maps::{old_map, valid_map};
use crate::Kind;
use compare::limits::features::ALL;
use compare::lists::{List, Mix};
use compare::random::Random;
use compare::{building, mapping, running};
use tarhuspo::limits::{CODE_LIMIT, FILE_SIZE, MAP_SIZE, MAP_ZERO, MOST_STEPS};

pub const KINDS: [Kind<Laws>; 7] = [
    ("applying is running", applying_is_running),
    ("applying, at the limit", applying_at_the_limit),
    ("joins are compositions", joins),
    ("joins at the limit", joins_at_the_limit),
    ("composing is associative", triples),
    ("the empty list", empty_list),
    ("maps tell lists apart", lists_told_apart),
];

#[derive(Default)]
pub struct Laws {
    builder: building::Comparison,
    mapper: mapping::Comparison,
    runner: running::Comparison,
    pub cases: u64,
}

impl Laws {
    /// The map of an accepted list.
    fn build(&mut self, code: &[u8], masks: &[u64], random: &mut Random) -> Vec<u16> {
        let mut case = building::Case::new(random);
        case.code = code.to_vec();
        case.masks = masks.to_vec();
        let built = self.builder.check(&case);
        assert_eq!(built.status, 0, "the generator made\n{case}");
        self.builder.map().to_vec()
    }

    fn compose(&mut self, first: &[u16], second: &[u16], random: &mut Random) -> Vec<u16> {
        let out = old_map(MAP_SIZE, random);
        assert_eq!(self.mapper.compose(first, second, &out), 0);
        self.mapper.out().to_vec()
    }

    fn apply(&mut self, map: &[u16], file: &[u8]) -> Vec<u8> {
        assert_eq!(self.mapper.apply(map, file), 0);
        self.mapper.file().to_vec()
    }

    /// The register file that the whole list leaves.
    fn run(&mut self, case: &running::Case) -> Vec<u8> {
        let ran = self.runner.check(case);
        let (place, status) = (ran.place as usize, ran.status);
        assert_eq!((place, status), (case.code.len(), 0), "{case}");
        self.runner.file().to_vec()
    }
}

/// Applying a list's map leaves the file that running the list leaves.
fn applying_is_running(laws: &mut Laws) {
    let mut random = Random::new(21);
    let mix = Mix::mappable(ALL);
    for _ in 0..8_000 {
        let list = mix.list(random.below(40), &mut random);
        check_applying(laws, &list, &mut random);
    }
}

/// Lists of the most bytes, and one of the most steps.
fn applying_at_the_limit(laws: &mut Laws) {
    let mut random = Random::new(27);
    let mix = Mix::mappable(ALL);
    for _ in 0..20 {
        let list = mix.list_of_length(CODE_LIMIT, &mut random);
        check_applying(laws, &list, &mut random);
    }
    let mut shortest = List::default();
    (0..MOST_STEPS).for_each(|_| shortest.push(&[0xC5, 0xE8, 0x14, 0xD9]));
    check_applying(laws, &shortest, &mut random);
}

fn check_applying(laws: &mut Laws, list: &List, random: &mut Random) {
    let mut case = running::Case::new(random);
    case.code.clone_from(&list.code);
    case.budget = random.pick(&[list.count() as u64, MOST_STEPS, u64::MAX]);
    let map = laws.build(&case.code, &case.masks, random);
    for _ in 0..2 {
        random.fill(&mut case.file);
        assert!(laws.apply(&map, &case.file) == laws.run(&case), "{case}");
    }
    laws.cases += 1;
}

/// Accepts two lists and their join, and compares the join's map with the composition.
fn check_join(laws: &mut Laws, first: &[u8], second: &[u8], random: &mut Random) {
    let masks = running::Case::new(random).masks;
    let [a, b] = [first, second].map(|code| laws.build(code, &masks, random));
    let join = laws.build(&[first, second].concat(), &masks, random);
    let composed = laws.compose(&a, &b, random);
    assert!(
        composed == join,
        "opmasks {masks:X?}\nlists {first:02X?}\n{second:02X?}"
    );
    laws.cases += 1;
}

fn joins(laws: &mut Laws) {
    let mut random = Random::new(22);
    let mix = Mix::mappable(ALL);
    for _ in 0..6_000 {
        let counts = [random.below(16), random.below(16)];
        let [first, second] = counts.map(|count| mix.list(count, &mut random).code);
        check_join(laws, &first, &second, &mut random);
    }
}

fn joins_at_the_limit(laws: &mut Laws) {
    let mut random = Random::new(23);
    let mix = Mix::mappable(ALL);
    for _ in 0..20 {
        let length = 28 + random.below(CODE_LIMIT - 56);
        let first = mix.list_of_length(length, &mut random).code;
        let second = mix.list_of_length(CODE_LIMIT - length, &mut random).code;
        check_join(laws, &first, &second, &mut random);
        check_join(laws, &[], &[&first[..], &second].concat(), &mut random);
    }
}

/// For maps of lists, and for any maps that may be read.
fn triples(laws: &mut Laws) {
    let mut random = Random::new(24);
    let mix = Mix::mappable(ALL);
    for _ in 0..1_500 {
        let masks = running::Case::new(&mut random).masks;
        let any = [(); 3].map(|()| valid_map(&mut random));
        let built = [(); 3].map(|()| {
            let code = mix.list(random.below(12), &mut random).code;
            laws.build(&code, &masks, &mut random)
        });
        for [a, b, c] in [any, built] {
            let [ab, bc] = [(&a, &b), (&b, &c)].map(|(x, y)| laws.compose(x, y, &mut random));
            let [left, right] =
                [(&ab, &c), (&a, &bc)].map(|(x, y)| laws.compose(x, y, &mut random));
            assert!(left == right, "{a:?}\n{b:?}\n{c:?}");
            laws.cases += 1;
        }
    }
}

/// Its map changes no register file when applied, and no map when composed on either side.
fn empty_list(laws: &mut Laws) {
    let mut random = Random::new(25);
    for _ in 0..500 {
        let case = running::Case::new(&mut random);
        let empty = laws.build(&[], &case.masks, &mut random);
        assert!(empty.iter().copied().eq(0..MAP_ZERO), "{empty:?}");
        assert!(laws.apply(&empty, &case.file) == case.file, "{case}");
        let map = valid_map(&mut random);
        assert!(laws.compose(&empty, &map, &mut random) == map, "{map:?}");
        assert!(laws.compose(&map, &empty, &mut random) == map, "{map:?}");
        laws.cases += 1;
    }
}

/// Two lists have equal maps exactly when no register file tells them apart. Where the maps differ
/// in an entry, a file with a single byte that is not 0 does.
fn lists_told_apart(laws: &mut Laws) {
    let mut random = Random::new(26);
    let mix = Mix::mappable(ALL);
    let (mut equal, mut different) = (0, 0);
    for _ in 0..3_000 {
        // The second list repeats the first one's last step, which often changes nothing.
        let list = mix.list(1 + random.below(3), &mut random);
        let last = &list.code[list.end_of(list.count() - 1)..];
        let mut one = running::Case::new(&mut random);
        let mut other = one.clone();
        one.code = list.code.clone();
        other.code = [&list.code[..], last].concat();
        let a = laws.build(&one.code, &one.masks, &mut random);
        let b = laws.build(&other.code, &one.masks, &mut random);
        let Some(place) = (0..MAP_SIZE).find(|&i| a[i] != b[i]) else {
            assert!(laws.run(&one) == laws.run(&other), "{one}\n{other}");
            equal += 1;
            continue;
        };
        let mut file = vec![0; FILE_SIZE];
        file[usize::from(a[place].min(b[place]))] = 1;
        (one.file, other.file) = (file.clone(), file);
        assert!(laws.run(&one) != laws.run(&other), "{one}\n{other}");
        different += 1;
    }
    assert!(
        equal > 0 && different > 0,
        "{equal} equal, {different} different"
    );
    laws.cases += equal + different;
}
