//! What the tests of engines share.

use audit::{
    audit, Capabilities, Difference, Engine, Failure, Limit, Options, RegisterSet, Report,
};

const SEED: u64 = 20_240_607;
/// Each wrong engine must be caught within so many cases.
pub const ENOUGH: u64 = 4_000;

pub fn options(steps: u64) -> Options {
    Options::new(SEED, Limit::Steps(steps))
}

/// Whether the processor has all registers. If not, one line says so.
pub fn has_all_registers() -> bool {
    let has = Capabilities::detect()
        .expect("possible features")
        .register_set()
        == Some(RegisterSet::Zmm32);
    if !has {
        println!("skipped: no AVX-512 on this machine");
    }
    has
}

pub fn passed(engine: &mut dyn Engine, options: Options) -> Report {
    match audit(engine, options) {
        Ok(report) => report,
        Err(failure) => panic!("{failure}"),
    }
}

pub fn caught(engine: &mut dyn Engine, options: Options) -> Difference {
    match audit(engine, options) {
        Err(Failure::Difference(difference)) => *difference,
        Err(failure) => panic!("{failure}"),
        Ok(report) => panic!("not caught: {report}"),
    }
}
