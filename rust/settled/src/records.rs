//! Records of the entry points, and the inputs that they stand for.

use crate::entry_point::EntryPoint;
use crate::input::{Apply, Build, Compose, Decode, Input, Listing, Run, Step};
use crate::pools::Pools;
use crate::reader::Reader;
use crate::room::{old_map, Room, ROOM, TEXT_ROOM};

/// The inputs of an entry point, in the order of its records.
pub struct Inputs<'a> {
    entry_point: EntryPoint,
    records: Reader<'a>,
    lists: Reader<'a>,
    pools: &'a Pools,
}

impl<'a> Inputs<'a> {
    pub fn new(
        entry_point: EntryPoint,
        records: &'a [u8],
        lists: &'a [u8],
        pools: &'a Pools,
    ) -> Inputs<'a> {
        let lists = if entry_point.is_listed() { lists } else { &[] };
        Inputs {
            entry_point,
            records: Reader::new(records),
            lists: Reader::new(lists),
            pools,
        }
    }

    fn decode(&mut self) -> Decode {
        Decode {
            features: self.records.u32(),
            code: self.records.code(),
        }
    }

    fn step(&mut self) -> Step {
        Step {
            features: self.records.u32(),
            file: self.file(),
            masks: self.masks(),
            memory: self.memory(),
            code: self.records.code(),
        }
    }

    fn run(&mut self) -> Run {
        Run {
            features: self.records.u32(),
            budget: self.records.u64(),
            file: self.file(),
            masks: self.masks(),
            code: self.lists.code(),
        }
    }

    fn build(&mut self) -> Build {
        Build {
            features: self.records.u32(),
            map: self.written_map(),
            masks: self.masks(),
            code: self.lists.code(),
        }
    }

    fn apply(&mut self) -> Apply {
        Apply {
            map: self.read_map(),
            file: self.file(),
        }
    }

    fn compose(&mut self) -> Compose {
        Compose {
            first: self.read_map(),
            second: self.read_map(),
            out: self.written_map(),
        }
    }

    fn listing(&mut self) -> Listing {
        let (start, size) = self.span();
        let whole = self.pools.bytes(start, TEXT_ROOM);
        Listing {
            text: Room::new(whole, size),
            code: self.lists.code(),
        }
    }

    fn span(&mut self) -> (u16, u16) {
        (self.records.u16(), self.records.u16())
    }

    fn file(&mut self) -> Room<u8> {
        let (start, size) = self.span();
        Room::new(self.pools.bytes(start, ROOM), size)
    }

    fn masks(&mut self) -> Vec<u64> {
        let (start, count) = (self.records.u8(), self.records.u8());
        self.pools.masks(start, count.into())
    }

    fn memory(&mut self) -> Vec<u8> {
        let (start, length) = (self.records.u16(), self.records.u8());
        self.pools.bytes(start, length.into())
    }

    /// A map of the pool, with the entry at one place set. A place past its end changes nothing.
    fn read_map(&mut self) -> Vec<u16> {
        let (start, length) = self.span();
        let (place, entry) = (self.records.u16(), self.records.u16());
        let mut map = self.pools.entries(start, length.into());
        if let Some(old) = map.get_mut(usize::from(place)) {
            *old = entry;
        }
        map
    }

    fn written_map(&mut self) -> Room<u16> {
        let (start, size) = self.span();
        Room::new(old_map(start), size)
    }
}

/// # Panics
///
/// If a file ends inside an input, or lists are left behind the last record.
impl Iterator for Inputs<'_> {
    type Item = Input;

    fn next(&mut self) -> Option<Input> {
        if self.records.is_at_end() {
            assert!(self.lists.is_at_end(), "lists without a record");
            return None;
        }
        Some(match self.entry_point {
            EntryPoint::Decode => Input::Decode(self.decode()),
            EntryPoint::Step => Input::Step(self.step()),
            EntryPoint::Run => Input::Run(self.run()),
            EntryPoint::Build => Input::Build(self.build()),
            EntryPoint::Apply => Input::Apply(self.apply()),
            EntryPoint::Compose => Input::Compose(self.compose()),
            EntryPoint::Listing => Input::Listing(self.listing()),
        })
    }
}
