//! A report in words.

use crate::damage::field_name;
use crate::detect::{processor_name, RegisterSet};
use crate::features;
use crate::report::{Coverage, FormCount, Report, Skipped};
use crate::shape::Form;
use crate::state::{FILE_SIZE, MASKS, REGISTERS, REGISTER_SIZE};
use reference::Field;
use std::collections::BTreeMap;
use std::fmt::{Display, Formatter, Result};

impl Display for Report {
    fn fmt(&self, f: &mut Formatter<'_>) -> Result {
        writeln!(f, "engine: {}, seed {}", self.engine, self.seed)?;
        let Some(set) = self.capabilities.register_set() else {
            return writeln!(f, "nothing was compared: it takes x86-64 Linux and AVX");
        };
        write_machine(f, self, set)?;
        write_compared(f, self, set)?;
        write_forms(f, &self.forms)?;
        write_refused(f, &self.refused)?;
        write_coverage(f, &self.coverage)?;
        write_addresses(f, self)?;
        let seconds = self.elapsed.as_secs_f64();
        let rate = (self.steps() + self.refused_cases()) as f64 / seconds.max(1e-9);
        writeln!(
            f,
            "time: {seconds:.1} seconds, {rate:.0} instructions a second"
        )?;
        writeln!(f, "no difference")
    }
}

fn write_machine(f: &mut Formatter<'_>, report: &Report, set: RegisterSet) -> Result {
    let capabilities = report.capabilities;
    let features = features::names(capabilities.features());
    writeln!(f, "processor: {} ({features})", processor_name())?;
    if set == RegisterSet::Ymm16 {
        writeln!(f, "no AVX-512 here: only VEX forms, on registers 0 to 15")?;
    }
    writeln!(f, "forms skipped: {}", skipped_forms(&report.skipped))?;
    write_left_out(f, capabilities.apx())
}

/// Encodings that are never carried out, because some processors have a meaning for them.
fn write_left_out(f: &mut Formatter<'_>, apx: bool) -> Result {
    writeln!(
        f,
        "EVEX maps 4 to 7 are not compared: none of these instructions is there, and newer processors \
         may have\n  others"
    )?;
    if apx {
        writeln!(
            f,
            "EVEX fixed bits are not compared: APX is on, which has a meaning for them"
        )?;
    }
    Ok(())
}

/// The forms that the machine lacks, on one line.
fn skipped_forms(skipped: &[Skipped]) -> String {
    if skipped.is_empty() {
        return "none".to_string();
    }
    let text = |skipped: &Skipped| format!("{} (lacks {})", skipped.form, skipped.lacks);
    let forms: Vec<_> = skipped.iter().map(text).collect();
    forms.join("; ")
}

fn write_compared(f: &mut Formatter<'_>, report: &Report, set: RegisterSet) -> Result {
    let (refused, ignored) = (report.refused_cases(), report.ignored);
    writeln!(
        f,
        "steps compared: {} carried out, {} refused with #UD",
        report.steps(),
        refused - ignored
    )?;
    if ignored > 0 {
        writeln!(
            f,
            "  and {ignored} refused that this processor carries out: the manual has #UD for b with a \
             register as\n  third operand, and this processor ignores b there"
        )?;
    }
    writeln!(
        f,
        "compared after each: {FILE_SIZE} register bytes ({REGISTERS} registers of {REGISTER_SIZE} \
         bytes), {MASKS} opmasks of 64 bits,"
    )?;
    writeln!(
        f,
        "  status, reason, length in bytes, the memory operand, the guard bytes around each buffer"
    )?;
    if set == RegisterSet::Ymm16 {
        writeln!(
            f,
            "  the processor has {} of the register bytes and no opmasks; the other bytes must be \
             unchanged,\n  or cleared in the destination",
            report.processor_bytes()
        )?;
    }
    Ok(())
}

/// Column names of the table of forms.
const COLUMNS: [&str; 7] = [
    "done",
    "register",
    "memory",
    "broadcast",
    "masked",
    "overlap",
    "refused",
];

fn write_forms(f: &mut Formatter<'_>, forms: &BTreeMap<Form, FormCount>) -> Result {
    writeln!(
        f,
        "instructions by form: carried out; of these with the third operand in a register, in"
    )?;
    writeln!(
        f,
        "  memory, broadcast from memory; under k1 to k7; with the destination as a source; refused"
    )?;
    write_row(f, "form", &COLUMNS)?;
    for (form, count) in forms {
        let counts = [
            count.steps,
            count.registers,
            count.memory,
            count.broadcast,
            count.masked,
            count.overlapping,
            count.refused,
        ];
        write_row(f, &form.to_string(), &counts)?;
    }
    Ok(())
}

fn write_row<T: Display>(f: &mut Formatter<'_>, form: &str, columns: &[T]) -> Result {
    write!(f, "  {form:24}")?;
    for column in columns {
        write!(f, "{column:>10}")?;
    }
    writeln!(f)
}

fn write_refused(f: &mut Formatter<'_>, refused: &BTreeMap<Field, u64>) -> Result {
    let text = |(field, count): (&Field, &u64)| format!("{} {count}", field_name(*field));
    let fields: Vec<_> = refused.iter().map(text).collect();
    writeln!(f, "refused by wrong field: {}", fields.join(", "))
}

fn write_coverage(f: &mut Formatter<'_>, coverage: &Coverage) -> Result {
    writeln!(
        f,
        "different numbers used: {} destination registers, {} first sources, {} third operands,\n  \
         {} opmask numbers with merging (0 is none), {} with zeroing, {} immediate bytes",
        coverage.destinations.len(),
        coverage.first_sources.len(),
        coverage.third_operands.len(),
        coverage.merging.len(),
        coverage.zeroing.len(),
        coverage.immediates.len()
    )
}

/// Ways to name memory on one line.
const WAYS_PER_LINE: usize = 4;

fn write_addresses(f: &mut Formatter<'_>, report: &Report) -> Result {
    let text = |(name, count): &(&str, u64)| format!("{name} {count}");
    let ways: Vec<_> = report.addresses.iter().map(text).collect();
    let lines: Vec<_> = ways.chunks(WAYS_PER_LINE).map(|w| w.join(", ")).collect();
    writeln!(
        f,
        "memory operands that the processor read at the engine's address: {}; of these with\n  {}",
        report.memory_operands(),
        lines.join(",\n  ")
    )
}
