//! Comparison of applying and composing byte maps: the status, and every element of every buffer.

use crate::display;
use crate::guard::Guarded;
use crate::random::Random;
use crate::tally::Counts;
use tarhuspo::limits::MAP_ZERO;

/// Random entries that a map to be read may have. One of eight stands for a zero byte.
pub fn valid_entries(map: &mut [u16], random: &mut Random) {
    map.fill_with(|| match random.below(8) {
        0 => MAP_ZERO,
        _ => random.below(usize::from(MAP_ZERO)) as u16,
    });
}

/// Entries that an output may hold before: equal ones, or any.
pub fn any_entries(map: &mut [u16], random: &mut Random) {
    match random.below(4) {
        0 => map.fill(random.pick(&[0, MAP_ZERO, MAP_ZERO + 1, u16::MAX])),
        _ => map.fill_with(|| random.number() as u16),
    }
}

/// Applies and composes with the library and with the reference, and stops at the first difference.
#[derive(Default)]
pub struct Comparison {
    first: Guarded<u16>,
    second: Guarded<u16>,
    out: Guarded<u16>,
    file: Guarded,
    expected_out: Vec<u16>,
    expected_file: Vec<u8>,
    pub counts: Counts,
}

impl Comparison {
    /// Compares applying `map` to `file`, and gives the status.
    ///
    /// # Panics
    ///
    /// If statuses or register files differ, if a refusal changed the register file, or if the
    /// library changed the map or elements around a buffer.
    pub fn apply(&mut self, map: &[u16], file: &[u8]) -> u32 {
        let library = tarhuspo::bytemap_apply(self.first.fill(map), self.file.fill(file));
        self.expected_file.clear();
        self.expected_file.extend_from_slice(file);
        let reference = reference::apply(map, &mut self.expected_file);
        let mut wrong = self.wrong_status(library, reference);
        if library != 0 && !self.file.is_unchanged(file) {
            wrong = wrong.or(Some(format!("status {library} changed the file")));
        }
        let found = self.file.difference(&self.expected_file);
        wrong = wrong.or(found.map(|found| format!("register file: {found}")));
        let found = self.first.difference(map);
        wrong = wrong.or(found.map(|found| format!("map: {found}")));
        if let Some(wrong) = wrong {
            let [map, file] = [display::entries("map", map), display::bytes("file", file)];
            panic!("applying: {wrong}\n{map}\n{file}");
        }
        self.counts.add(library);
        library
    }

    /// Compares composing `first` and `second` over `out`, and gives the status.
    ///
    /// # Panics
    ///
    /// If statuses or maps differ, if a refusal changed the output, or if the library changed
    /// another map or elements around one.
    pub fn compose(&mut self, first: &[u16], second: &[u16], out: &[u16]) -> u32 {
        let library = tarhuspo::bytemap_compose(
            self.first.fill(first),
            self.second.fill(second),
            self.out.fill(out),
        );
        self.expected_out.clear();
        self.expected_out.extend_from_slice(out);
        let reference = reference::compose(first, second, &mut self.expected_out);
        let mut wrong = self.wrong_status(library, reference);
        if library != 0 && !self.out.is_unchanged(out) {
            wrong = wrong.or(Some(format!("status {library} changed the output")));
        }
        for (name, buffer, expected) in [
            ("output", &self.out, &self.expected_out[..]),
            ("first map", &self.first, first),
            ("second map", &self.second, second),
        ] {
            let found = buffer.difference(expected);
            wrong = wrong.or(found.map(|found| format!("{name}: {found}")));
        }
        if let Some(wrong) = wrong {
            let maps = [("first", first), ("second", second), ("output", out)];
            let maps = maps.map(|(name, map)| display::entries(name, map));
            panic!("composing: {wrong}\n{}", maps.join("\n"));
        }
        self.counts.add(library);
        library
    }

    /// As [`compose`](Comparison::compose), with one buffer as both inputs.
    ///
    /// # Panics
    ///
    /// As [`compose`](Comparison::compose).
    pub fn compose_with_itself(&mut self, map: &[u16], out: &[u16]) -> u32 {
        let status = self.compose(map, map, out);
        let both = &*self.first.fill(map);
        let library = tarhuspo::bytemap_compose(both, both, self.out.fill(out));
        let as_before = library == status && self.first.is_unchanged(map);
        let agrees = as_before && self.out.is_unchanged(&self.expected_out);
        assert!(
            agrees,
            "{}",
            display::entries("one map as both inputs", map)
        );
        status
    }

    /// The register file that the last application left.
    pub fn file(&self) -> &[u8] {
        &self.expected_file
    }

    /// The map that the last composition left.
    pub fn out(&self) -> &[u16] {
        &self.expected_out
    }

    fn wrong_status(&self, library: u32, reference: u32) -> Option<String> {
        let differ = library != reference;
        differ.then(|| format!("status {library} from the library, {reference} from the reference"))
    }
}
