//! Inputs of running, building a byte map and listing. They share their lists.

use crate::digest::Digest;
use crate::layout::{Record, Span, CODE_ROOM, ROOM, TEXT_ROOM};
use crate::maker::Maker;
use crate::piece::{past_end, short_text, Piece};
use crate::pools::{old_map, passed, Pools};
use crate::section::{Answer, Input, Kind};
use inputs::faults::{Fault, FEATURE_SETS};
use inputs::limits::features::ALL;
use inputs::limits::{CODE_LIMIT, MOST_STEPS, OLD_CODE_LIMIT, OLD_MOST_STEPS};
use inputs::lists::{List, Mix};
use inputs::random::Random;

pub const RUN_STATUSES: [u32; 8] = [0, 1, 2, 3, 4, 5, 6, 8];
pub const BUILD_STATUSES: [u32; 8] = [0, 1, 2, 3, 4, 5, 7, 8];
pub const LISTING_STATUSES: [u32; 3] = [0, 1, 8];

/// A list, and what each of the three entry points takes beside it.
pub struct ListInput {
    pub code: Vec<u8>,
    pub features: u32,
    masks: Span,
    budget: u64,
    file: Span,
    map: Span,
    pub text: Span,
    /// Where the listing starts.
    pub place: u16,
}

pub struct Run<'a>(pub &'a ListInput);
pub struct Build<'a>(pub &'a ListInput);
pub struct Listing<'a>(pub &'a ListInput);

pub const KINDS: [Kind<ListInput>; 28] = [
    ("accepted", 3_956, accepted),
    ("short bytes", 1_500, short),
    ("no row", 900, no_row),
    ("another opcode map", 300, other_opcode_map),
    ("fixed bits, any opcode map", 700, fixed_bits),
    ("opcode map or fixed bits, cut", 200, opcode_map_and_cut),
    ("reserved field", 1_500, reserved),
    ("several reserved fields", 1_500, several_reserved),
    ("reserved fields, cut", 300, reserved_and_cut),
    ("missing feature", 1_500, feature),
    ("memory operand", 1_500, memory),
    ("control in a register", 2_000, control),
    ("one bit flipped", 1_200, flipped),
    ("any bytes", 200, any_bytes),
    ("impossible features", 450, impossible_features),
    ("features over 63", 300, unknown_features),
    ("sizes", 1_000, wrong_sizes),
    ("place past the end", 400, wrong_place),
    ("number of opmasks", 400, wrong_masks),
    ("200 to 1,000 bytes", 100, long),
    ("4,096 bytes", 12, at_old_limit),
    ("over 4,096 bytes", 12, past_old_limit),
    ("over 4,096 bytes, refused", 16, past_old_limit_refused),
    ("16,384 bytes", 6, at_limit),
    ("16,384 bytes, 4,096 steps", 6, most_steps),
    ("over 16,384 bytes", 36, past_limit),
    ("over 16,384 bytes, sizes", 3, past_limit_wrong_sizes),
    ("over 16,384 bytes, place", 3, past_limit_wrong_place),
];

/// What a list with all features can be refused for.
const LATE_FAULTS: [Fault; 8] = [
    Fault::Short,
    Fault::NoRow,
    Fault::OtherOpcodeMap,
    Fault::FixedBits,
    Fault::Reserved,
    Fault::SeveralReserved,
    Fault::Memory,
    Fault::Control,
];

/// For each entry point, what no other input of it has: the record with the list.
pub fn keys(input: &ListInput) -> Vec<Vec<u8>> {
    let records = [
        Run(input).record(),
        Build(input).record(),
        Listing(input).record(),
    ];
    let whole = records.map(|record| record.code(&input.code).0);
    (0..)
        .zip(whole)
        .map(|(i, key)| [vec![i], key].concat())
        .collect()
}

impl Input for Run<'_> {
    fn record(&self) -> Record {
        let input = self.0;
        let record = Record::default().u32(input.features).u64(input.budget);
        record.span(input.file).masks(input.masks)
    }

    fn answer(&self, pools: &Pools) -> Answer {
        let input = self.0;
        let mut file = pools.bytes(input.file.start, ROOM);
        let ran = reference::run(
            &input.code,
            passed(&mut file, input.file),
            &pools.masks(input.masks),
            input.features,
            input.budget,
        );
        Answer {
            status: ran.status,
            reason: Some(ran.reason),
            numbers: vec![ran.steps, ran.place, ran.reason.into()],
            digest: Some(Digest::of(&file)),
        }
    }
}

impl Input for Build<'_> {
    fn record(&self) -> Record {
        let input = self.0;
        let record = Record::default().u32(input.features);
        record.span(input.map).masks(input.masks)
    }

    fn answer(&self, pools: &Pools) -> Answer {
        let input = self.0;
        let mut map = old_map(input.map.start);
        let built = reference::build(
            &input.code,
            &pools.masks(input.masks),
            input.features,
            passed(&mut map, input.map),
        );
        Answer {
            status: built.status,
            reason: Some(built.reason),
            numbers: vec![built.place, built.reason.into()],
            digest: Some(Digest::of(&map)),
        }
    }
}

impl Input for Listing<'_> {
    fn record(&self) -> Record {
        Record::default().span(self.0.text).u16(self.0.place)
    }

    fn answer(&self, pools: &Pools) -> Answer {
        let input = self.0;
        let mut text = pools.bytes(input.text.start, TEXT_ROOM);
        let listed = reference::listing(
            &input.code,
            input.place.into(),
            passed(&mut text, input.text),
        );
        Answer {
            status: listed.status,
            reason: None,
            numbers: vec![listed.written, listed.next, listed.more.into()],
            digest: Some(Digest::of(&text)),
        }
    }
}

impl ListInput {
    /// Right sizes, and a budget that now and then ends the run before the list does.
    fn new(code: Vec<u8>, features: u32, maker: &mut Maker) -> ListInput {
        let steps = code.len() / 4 + 2;
        let budget = match maker.random.below(6) {
            0 | 1 => maker.random.below(steps) as u64,
            2 => OLD_MOST_STEPS,
            3 => MOST_STEPS,
            4 => u64::MAX,
            _ => maker.random.number(),
        };
        let piece = Piece::of(&code, &mut maker.random);
        ListInput {
            code,
            features,
            masks: maker.masks(),
            budget,
            file: maker.file(),
            map: maker.file(),
            text: maker.span(piece.size),
            place: piece.place as u16,
        }
    }
}

fn features(random: &mut Random) -> u32 {
    let some = random.pick(&FEATURE_SETS);
    random.pick(&[ALL, some])
}

/// Instructions that run and byte map accept, mostly a few.
fn list(features: u32, random: &mut Random) -> List {
    let most = random.pick(&[3, 6, 12]);
    let count = random.below(most + 1);
    Mix::mappable(features).list(count, random)
}

fn accepted(maker: &mut Maker) -> ListInput {
    let features = features(&mut maker.random);
    let list = list(features, &mut maker.random);
    ListInput::new(list.code, features, maker)
}

fn short(maker: &mut Maker) -> ListInput {
    with_fault(Fault::Short, maker)
}

fn no_row(maker: &mut Maker) -> ListInput {
    with_fault(Fault::NoRow, maker)
}

fn other_opcode_map(maker: &mut Maker) -> ListInput {
    with_fault(Fault::OtherOpcodeMap, maker)
}

fn fixed_bits(maker: &mut Maker) -> ListInput {
    with_fault(Fault::FixedBits, maker)
}

/// A list that ends inside an instruction with another opcode map or with wrong fixed bits.
fn opcode_map_and_cut(maker: &mut Maker) -> ListInput {
    let features = features(&mut maker.random);
    let mut code = list(features, &mut maker.random).code;
    code.extend(maker.opcode_map_and_cut());
    ListInput::new(code, features, maker)
}

fn reserved(maker: &mut Maker) -> ListInput {
    with_fault(Fault::Reserved, maker)
}

fn several_reserved(maker: &mut Maker) -> ListInput {
    with_fault(Fault::SeveralReserved, maker)
}

/// A list that ends inside an instruction with wrong fields.
fn reserved_and_cut(maker: &mut Maker) -> ListInput {
    let features = features(&mut maker.random);
    let mut code = list(features, &mut maker.random).code;
    let mut bad = maker.fault(Fault::SeveralReserved);
    maker.cut(&mut bad);
    code.extend(bad);
    ListInput::new(code, features, maker)
}

fn feature(maker: &mut Maker) -> ListInput {
    with_fault(Fault::Feature, maker)
}

fn memory(maker: &mut Maker) -> ListInput {
    with_fault(Fault::Memory, maker)
}

fn control(maker: &mut Maker) -> ListInput {
    with_fault(Fault::Control, maker)
}

/// A list with one bad instruction anywhere in it.
fn with_fault(fault: Fault, maker: &mut Maker) -> ListInput {
    let random = &mut maker.random;
    let (features, bad) = loop {
        let features = features(random);
        if let Some(bad) = fault.encode(features, random) {
            break (features, bad);
        }
    };
    let list = list(features, random);
    let position = random.below(list.count() + 1);
    let code = fault.insert(&list, position, &bad);
    ListInput::new(code, features, maker)
}

fn flipped(maker: &mut Maker) -> ListInput {
    let mut input = accepted(maker);
    if !input.code.is_empty() {
        maker.flip(&mut input.code);
    }
    input
}

fn any_bytes(maker: &mut Maker) -> ListInput {
    let code = maker.any_bytes(40);
    let features = maker.features();
    ListInput::new(code, features, maker)
}

fn impossible_features(maker: &mut Maker) -> ListInput {
    let features = maker.impossible_features();
    let input = accepted(maker);
    ListInput { features, ..input }
}

fn unknown_features(maker: &mut Maker) -> ListInput {
    let features = maker.unknown_features();
    let input = accepted(maker);
    ListInput { features, ..input }
}

/// Every other listing has a wrong place too.
fn wrong_sizes(maker: &mut Maker) -> ListInput {
    let mut input = accepted(maker);
    if maker.random.flag() {
        input = with_wrong_place(input, maker);
    }
    with_wrong_sizes(input, maker)
}

fn with_wrong_sizes(input: ListInput, maker: &mut Maker) -> ListInput {
    let text = short_text(&mut maker.random);
    ListInput {
        file: maker.wrong_file(),
        map: maker.wrong_file(),
        text: maker.span(text),
        ..input
    }
}

/// Running and building take no place.
fn wrong_place(maker: &mut Maker) -> ListInput {
    let input = accepted(maker);
    with_wrong_place(input, maker)
}

fn with_wrong_place(input: ListInput, maker: &mut Maker) -> ListInput {
    let place = past_end(input.code.len(), &mut maker.random);
    ListInput { place, ..input }
}

fn wrong_masks(maker: &mut Maker) -> ListInput {
    let masks = maker.wrong_masks();
    let input = accepted(maker);
    ListInput { masks, ..input }
}

fn long(maker: &mut Maker) -> ListInput {
    let length = 200 + maker.random.below(801);
    of_length(length, maker)
}

fn of_length(length: usize, maker: &mut Maker) -> ListInput {
    let list = Mix::mappable(ALL).list_of_length(length, &mut maker.random);
    ListInput::new(list.code, ALL, maker)
}

/// So many bytes of the shortest instructions: as many as there can be, and so the longest listing.
fn shortest_steps(length: usize, maker: &mut Maker) -> ListInput {
    let random = &mut maker.random;
    // vunpcklps, vunpckhps, vunpcklpd and vunpckhpd of xmm0 to xmm15, xmm0 to xmm15 and xmm0 to xmm7
    let mut step = || {
        let prefix = random.bits(5) << 3 | random.bits(1);
        let opcode = 0x14 | random.bits(1);
        [0xC5, prefix, opcode, 0xC0 | random.bits(6)]
    };
    let code: Vec<_> = (0..length / 4).flat_map(|_| step()).collect();
    ListInput::new(code, ALL, maker)
}

/// In every other list, as many instructions as there could be.
fn at_old_limit(maker: &mut Maker) -> ListInput {
    match maker.random.flag() {
        true => of_length(OLD_CODE_LIMIT, maker),
        false => shortest_steps(OLD_CODE_LIMIT, maker),
    }
}

/// One byte more than the old limit, or anything up to the new one.
fn past_old_limit(maker: &mut Maker) -> ListInput {
    let longest = maker.random.pick(&[1, CODE_LIMIT - OLD_CODE_LIMIT]);
    let length = OLD_CODE_LIMIT + 1 + maker.random.below(longest);
    of_length(length, maker)
}

/// A refused instruction behind at least so many bytes as the old limit.
fn past_old_limit_refused(maker: &mut Maker) -> ListInput {
    let length = OLD_CODE_LIMIT + maker.random.below(6_000);
    let list = Mix::mappable(ALL).list_of_length(length, &mut maker.random);
    let fault = maker.in_turn(&LATE_FAULTS);
    let code = [list.code, maker.fault(fault)].concat();
    let input = ListInput::new(code, ALL, maker);
    to_the_end(input, maker)
}

fn at_limit(maker: &mut Maker) -> ListInput {
    let input = of_length(CODE_LIMIT, maker);
    to_the_end(input, maker)
}

fn most_steps(maker: &mut Maker) -> ListInput {
    let input = shortest_steps(CODE_LIMIT, maker);
    to_the_end(input, maker)
}

/// A run comes to the end of the longest list, or to the step before it, and a listing has many
/// lines, or those of late steps.
fn to_the_end(input: ListInput, maker: &mut Maker) -> ListInput {
    let budgets = [MOST_STEPS - 1, MOST_STEPS, u64::MAX];
    let piece = Piece::of_long(&input.code, &mut maker.random);
    ListInput {
        budget: maker.random.pick(&budgets),
        text: maker.span(piece.size),
        place: piece.place as u16,
        ..input
    }
}

fn past_limit(maker: &mut Maker) -> ListInput {
    let longest = maker.random.pick(&[1, 1, 16, CODE_ROOM - CODE_LIMIT]);
    let length = CODE_LIMIT + 1 + maker.random.below(longest);
    of_length(length, maker)
}

fn past_limit_wrong_sizes(maker: &mut Maker) -> ListInput {
    let input = past_limit(maker);
    with_wrong_sizes(input, maker)
}

fn past_limit_wrong_place(maker: &mut Maker) -> ListInput {
    let input = past_limit(maker);
    with_wrong_place(input, maker)
}
