//! The base's inputs and answers, from the frozen files.

use crate::answer::Answer;
use crate::entry_point::EntryPoint;
use crate::pools::Pools;
use crate::records::Inputs;
use crate::results;
use std::path::Path;
use std::{fs, io};

/// Inputs of each entry point.
pub const INPUTS: usize = 20_000;

pub struct Base {
    pools: Pools,
    lists: Vec<u8>,
    /// These two in the order of [`EntryPoint::ALL`].
    records: Vec<Vec<u8>>,
    answers: Vec<Vec<Answer>>,
}

impl Base {
    /// Reads the files of the folder.
    ///
    /// # Panics
    ///
    /// If the pools or the results are not laid out as they were.
    pub fn read(folder: &Path) -> io::Result<Base> {
        let data = |name: &str| fs::read(folder.join("data").join(name));
        let records: io::Result<_> = EntryPoint::ALL.iter().map(|e| data(e.name())).collect();
        Ok(Base {
            pools: Pools::read(&data("pools")?),
            lists: data("lists")?,
            records: records?,
            answers: results::read(&fs::read_to_string(folder.join("stdout"))?),
        })
    }

    /// In the order of the records.
    pub fn inputs(&self, entry_point: EntryPoint) -> Inputs<'_> {
        let records = &self.records[entry_point as usize];
        Inputs::new(entry_point, records, &self.lists, &self.pools)
    }

    /// The base's answers to these inputs, in the same order.
    pub fn answers(&self, entry_point: EntryPoint) -> &[Answer] {
        &self.answers[entry_point as usize]
    }
}
