//! Inputs of applying and composing byte maps.

use crate::digest::Digest;
use crate::layout::{Map, Record, Span, ROOM};
use crate::maker::Maker;
use crate::pools::{old_map, passed, Pools, BUILT_MAPS};
use crate::section::{Answer, Input, Kind};
use inputs::limits::{MAP_SIZE, MAP_ZERO};

pub const STATUSES: [u32; 3] = [0, 1, 9];

pub struct Apply {
    map: Map,
    file: Span,
}

pub struct Compose {
    first: Map,
    second: Map,
    out: Span,
}

pub const APPLY_KINDS: [Kind<Apply>; 8] = [
    ("built map", 3_000, apply_built),
    ("any part of the pool", 9_000, apply_any),
    ("one entry set", 2_500, apply_set),
    ("an entry over 2,048", 3_000, apply_wrong_entry),
    ("such an entry behind", 500, apply_behind),
    ("size of the map", 700, apply_wrong_map),
    ("size of the file", 700, apply_wrong_file),
    ("several faults", 600, apply_several_faults),
];

pub const COMPOSE_KINDS: [Kind<Compose>; 10] = [
    ("built maps", 4_000, compose_built),
    ("any parts of the pool", 8_500, compose_any),
    ("one entry set in each", 2_000, compose_set),
    ("first has one over 2,048", 1_500, compose_wrong_first),
    ("second has one", 1_500, compose_wrong_second),
    ("such an entry behind", 500, compose_behind),
    ("size of the first", 400, compose_first_size),
    ("size of the second", 400, compose_second_size),
    ("size of the output", 600, compose_out_size),
    ("several faults", 600, compose_several_faults),
];

impl Input for Apply {
    fn record(&self) -> Record {
        Record::default().map(self.map).span(self.file)
    }

    fn answer(&self, pools: &Pools) -> Answer {
        let mut file = pools.bytes(self.file.start, ROOM);
        let status = reference::apply(&pools.map(self.map), passed(&mut file, self.file));
        Answer {
            status,
            reason: None,
            numbers: vec![],
            digest: Some(Digest::of(&file)),
        }
    }
}

impl Input for Compose {
    fn record(&self) -> Record {
        let record = Record::default().map(self.first).map(self.second);
        record.span(self.out)
    }

    fn answer(&self, pools: &Pools) -> Answer {
        let mut out = old_map(self.out.start);
        let (first, second) = (pools.map(self.first), pools.map(self.second));
        let status = reference::compose(&first, &second, passed(&mut out, self.out));
        Answer {
            status,
            reason: None,
            numbers: vec![],
            digest: Some(Digest::of(&out)),
        }
    }
}

/// A map as it is in the pool.
fn map_at(start: usize) -> Map {
    Map {
        span: Span::new(start, MAP_SIZE),
        place: Map::NO_PLACE,
        entry: 0,
    }
}

fn built(maker: &mut Maker) -> Map {
    map_at(MAP_SIZE * maker.random.below(BUILT_MAPS))
}

fn any(maker: &mut Maker) -> Map {
    map_at(maker.start())
}

/// One entry of a map set to one that it may have.
fn set(maker: &mut Maker) -> Map {
    let random = &mut maker.random;
    let place = random.below(MAP_SIZE) as u16;
    let below = random.below(MAP_SIZE) as u16;
    let entry = random.pick(&[0, MAP_ZERO - 1, MAP_ZERO, below]);
    Map {
        place,
        entry,
        ..any(maker)
    }
}

fn wrong_entry(maker: &mut Maker) -> Map {
    let random = &mut maker.random;
    let above = MAP_ZERO + 1 + random.below(usize::from(u16::MAX - MAP_ZERO)) as u16;
    let entry = random.pick(&[MAP_ZERO + 1, u16::MAX, above]);
    let place = random.below(MAP_SIZE);
    let place = random.pick(&[0, MAP_SIZE - 1, place, place]) as u16;
    Map {
        place,
        entry,
        ..any(maker)
    }
}

/// A wrong entry past the map's end, where it does not count.
fn behind(maker: &mut Maker) -> Map {
    let wrong = wrong_entry(maker);
    let place = (MAP_SIZE + maker.random.below(ROOM - MAP_SIZE)) as u16;
    Map { place, ..wrong }
}

fn wrong_size(maker: &mut Maker) -> Map {
    let length = maker.wrong_size(MAP_SIZE, ROOM);
    Map {
        span: maker.span(length),
        ..map_at(0)
    }
}

fn any_fault(maker: &mut Maker) -> Map {
    match maker.random.below(3) {
        0 => any(maker),
        1 => wrong_entry(maker),
        _ => Map {
            span: wrong_size(maker).span,
            ..wrong_entry(maker)
        },
    }
}

fn apply(map: Map, maker: &mut Maker) -> Apply {
    let file = maker.file();
    Apply { map, file }
}

fn apply_built(maker: &mut Maker) -> Apply {
    apply(built(maker), maker)
}

fn apply_any(maker: &mut Maker) -> Apply {
    apply(any(maker), maker)
}

fn apply_set(maker: &mut Maker) -> Apply {
    apply(set(maker), maker)
}

fn apply_wrong_entry(maker: &mut Maker) -> Apply {
    apply(wrong_entry(maker), maker)
}

fn apply_behind(maker: &mut Maker) -> Apply {
    apply(behind(maker), maker)
}

fn apply_wrong_map(maker: &mut Maker) -> Apply {
    apply(wrong_size(maker), maker)
}

fn apply_wrong_file(maker: &mut Maker) -> Apply {
    Apply {
        map: any(maker),
        file: maker.wrong_file(),
    }
}

fn apply_several_faults(maker: &mut Maker) -> Apply {
    let map = any_fault(maker);
    let file = match maker.random.below(3) {
        0 => maker.file(),
        _ => maker.wrong_file(),
    };
    Apply { map, file }
}

fn compose(first: Map, second: Map, maker: &mut Maker) -> Compose {
    let out = maker.file();
    Compose { first, second, out }
}

fn compose_built(maker: &mut Maker) -> Compose {
    compose(built(maker), built(maker), maker)
}

fn compose_any(maker: &mut Maker) -> Compose {
    compose(any(maker), any(maker), maker)
}

fn compose_set(maker: &mut Maker) -> Compose {
    compose(set(maker), set(maker), maker)
}

fn compose_wrong_first(maker: &mut Maker) -> Compose {
    compose(wrong_entry(maker), any(maker), maker)
}

fn compose_wrong_second(maker: &mut Maker) -> Compose {
    compose(any(maker), wrong_entry(maker), maker)
}

fn compose_behind(maker: &mut Maker) -> Compose {
    compose(behind(maker), behind(maker), maker)
}

fn compose_first_size(maker: &mut Maker) -> Compose {
    compose(wrong_size(maker), any(maker), maker)
}

fn compose_second_size(maker: &mut Maker) -> Compose {
    compose(any(maker), wrong_size(maker), maker)
}

fn compose_out_size(maker: &mut Maker) -> Compose {
    Compose {
        first: any(maker),
        second: any(maker),
        out: maker.wrong_file(),
    }
}

fn compose_several_faults(maker: &mut Maker) -> Compose {
    let first = any_fault(maker);
    let second = any_fault(maker);
    let out = match maker.random.below(3) {
        0 => maker.file(),
        _ => maker.wrong_file(),
    };
    Compose { first, second, out }
}
