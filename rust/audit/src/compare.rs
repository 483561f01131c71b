//! One case on the processor and on an engine.

use crate::case::Case;
use crate::damage::reason;
use crate::detect::RegisterSet;
use crate::difference::Finding;
use crate::engine::{Addressed, Answer, Engine};
use crate::guarded::Guarded;
use crate::lead::{Expected, Lead};
use crate::processor::{Outcome, Prepared, Processor};
use crate::state::{State, FILE_SIZE, MASKS, REGISTER_SIZE};
use reference::limits::feature;

const FILL: u8 = 0xA5;
const FILL_WORD: u64 = 0xA5A5_A5A5_A5A5_A5A5;

/// VPSHUFD zmm1, zmm2 with b set.
const B_WITH_REGISTER: [u8; 7] = [0x62, 0xF1, 0x7D, 0x58, 0x70, 0xCA, 0x1B];

/// The processor, and the buffers that engines get.
pub struct Comparison {
    processor: Processor,
    /// Where the third operand is a register and the row has a broadcast, the manual has #UD for b
    /// 1. Some processors ignore b there.
    ignores_b: bool,
    code: Guarded<u8>,
    general: Guarded<u64>,
    file: Guarded<u8>,
    masks: Guarded<u64>,
    memory: Guarded<u8>,
    /// How the last case was led to its memory operand.
    lead: Option<Lead>,
}

impl Comparison {
    pub fn new(mut processor: Processor) -> Comparison {
        let done = Outcome::Done {
            length: B_WITH_REGISTER.len(),
        };
        let ignores_b = processor.register_set().has_opmasks()
            && processor.run(&B_WITH_REGISTER, &State::ZERO, &[]) == done;
        Comparison {
            processor,
            ignores_b,
            code: Guarded::new(FILL),
            general: Guarded::new(FILL_WORD),
            file: Guarded::new(FILL),
            masks: Guarded::new(FILL_WORD),
            memory: Guarded::new(FILL),
            lead: None,
        }
    }

    /// Whether the processor carries the case out, although the engine has to refuse it.
    pub fn is_b_ignored(&self, case: &Case) -> bool {
        self.ignores_b && case.has_b_with_register()
    }

    /// How the last case was led to its memory operand; nothing if it was not run.
    pub fn lead(&self) -> Option<&Lead> {
        self.lead.as_ref()
    }

    /// Everything that is not as it should be.
    pub fn check(&mut self, engine: &mut dyn Engine, case: &Case) -> Vec<Finding> {
        self.lead = None;
        if !is_read_alike(case) {
            return vec![Finding::Encoding];
        }
        match self.prepare(case) {
            Ok(prepared) => self.check_prepared(engine, case, &prepared),
            Err(reason) => {
                let expected = self.expected_outcome(case);
                let found = Outcome::NotRun(reason);
                vec![Finding::Processor { expected, found }]
            }
        }
    }

    fn check_prepared(
        &mut self,
        engine: &mut dyn Engine,
        case: &Case,
        prepared: &Prepared,
    ) -> Vec<Finding> {
        let addressed = self.address(engine, case, prepared);
        let answer = self.step(engine, case);
        let mut findings = Vec::from_iter(self.compare_address(case, prepared, addressed));
        // If the engine names a place in the page, it is for the processor to find the operand.
        let place = match findings[..] {
            [] if addressed.has_address => addressed.address,
            _ => prepared.target(),
        };
        let (state, memory) = (&case.state, &case.memory);
        let outcome = self.processor.execute(prepared, state, memory, place);
        findings.extend(compare_outcome(self.expected_outcome(case), outcome));
        findings.extend(compare_answer(case, answer));
        findings.extend(self.compare_registers(case));
        findings.extend(self.compare_masks(case));
        findings.extend(self.written_by_processor());
        findings.extend(self.written_by_engine(case, prepared));
        if self.is_b_ignored(case) {
            findings.extend(self.compare_without_b(case));
        }
        self.lead = Some(lead(prepared, addressed));
        findings
    }

    fn prepare(&self, case: &Case) -> Result<Prepared, &'static str> {
        let length = case.memory.len();
        self.processor.prepare(&case.code, length, &case.setting)
    }

    /// The processor carries out an accepted instruction, of exactly these bytes, or raises #UD.
    fn expected_outcome(&self, case: &Case) -> Outcome {
        if case.damage.is_some() && !self.is_b_ignored(case) {
            return Outcome::Undefined;
        }
        Outcome::Done {
            length: case.code.len(),
        }
    }

    /// To ignore b is to leave what the same instruction with b 0 leaves.
    fn compare_without_b(&mut self, case: &Case) -> Option<Finding> {
        let with_b = self.processor.after().clone();
        let code = case.code_without_b();
        let outcome = self.processor.run(&code, &case.state, &case.memory);
        let is_same = outcome == self.expected_outcome(case) && *self.processor.after() == with_b;
        (!is_same).then_some(Finding::NotIgnored)
    }

    /// Asks for the address of what the processor is going to run.
    fn address(&mut self, engine: &mut dyn Engine, case: &Case, prepared: &Prepared) -> Addressed {
        self.code.set(&engine_code(case, prepared));
        self.general.set(prepared.general());
        engine.address(
            self.code.content(),
            case.features,
            self.general.content(),
            prepared.entry(),
        )
    }

    /// Whether the engine says what it should of an address. Which place in the operand's page it
    /// names is not looked at here.
    fn compare_address(
        &self,
        case: &Case,
        prepared: &Prepared,
        found: Addressed,
    ) -> Option<Finding> {
        let expected = expected_address(case);
        let length = case.memory.len();
        let is_right = match expected {
            Expected::Refusal { reason } => found == without_address(4, reason),
            Expected::None => found == without_address(0, 0),
            Expected::InPage => {
                (found.status, found.reason, found.has_address) == (0, 0, true)
                    && self.processor.holds(prepared, found.address, length)
            }
        };
        (!is_right).then_some(Finding::Address { expected, found })
    }

    /// The code is what `address` has put there.
    fn step(&mut self, engine: &mut dyn Engine, case: &Case) -> Answer {
        self.file.set(&case.state.file);
        self.masks.set(&case.state.masks);
        self.memory.set(&case.memory);
        engine.step(
            self.code.content(),
            self.file.content_mut(),
            self.masks.content(),
            case.features,
            self.memory.content(),
        )
    }

    /// Compares all 2,048 bytes of the register file.
    fn compare_registers(&self, case: &Case) -> Option<Finding> {
        let engine: &[u8; FILE_SIZE] = self.file.content().try_into().expect("a whole file");
        let expected = self.expected_file(case);
        if *engine == expected {
            return None;
        }
        let mut places = (0..FILE_SIZE).filter(|place| engine[*place] != expected[*place]);
        let lowest = places.next()?;
        Some(Finding::Register {
            register: lowest / REGISTER_SIZE,
            byte: lowest % REGISTER_SIZE,
            engine: engine[lowest],
            expected: expected[lowest],
            differing: 1 + places.count(),
        })
    }

    /// What the processor left, or, where it alone carries the case out, what was there. Bytes that
    /// a processor without AVX-512 does not have follow the rule for bytes above the vector width
    /// (cleared in the destination) and for other registers (unchanged).
    fn expected_file(&self, case: &Case) -> [u8; FILE_SIZE] {
        if self.is_b_ignored(case) {
            return case.state.file;
        }
        let registers = self.processor.register_set();
        let written = case.destination();
        let mut file = self.processor.after().file;
        if registers == RegisterSet::Zmm32 {
            return file;
        }
        for (place, byte) in file.iter_mut().enumerate() {
            let register = place / REGISTER_SIZE;
            if registers.has(register, place % REGISTER_SIZE) {
                continue;
            }
            *byte = match written {
                Some(destination) if destination == register => 0,
                _ => case.state.file[place],
            };
        }
        file
    }

    /// Compares all opmasks that the processor has with what they were.
    fn compare_masks(&self, case: &Case) -> Option<Finding> {
        if !self.processor.register_set().has_opmasks() {
            return None;
        }
        changed_mask(&case.state.masks, &self.processor.after().masks)
    }

    fn written_by_processor(&mut self) -> Vec<Finding> {
        let checks = [
            (
                self.processor.is_memory_intact(),
                "the memory operand or the bytes around it changed on the processor",
            ),
            (
                self.processor.is_context_intact(),
                "the guard bytes around the processor's state changed",
            ),
        ];
        failed(&checks)
    }

    fn written_by_engine(&self, case: &Case, prepared: &Prepared) -> Vec<Finding> {
        let memory = self.memory.content() == case.memory;
        let masks = self.masks.content() == case.state.masks;
        let code = self.code.content() == engine_code(case, prepared);
        let general = self.general.content() == prepared.general();
        let checks = [
            (memory, "the engine wrote to the memory operand"),
            (masks, "the engine wrote to the opmasks"),
            (code, "the engine wrote to the code"),
            (general, "the engine wrote to the general registers"),
            (
                self.memory.is_intact(),
                "the engine wrote beside the memory operand",
            ),
            (
                self.masks.is_intact(),
                "the engine wrote beside the opmasks",
            ),
            (self.code.is_intact(), "the engine wrote beside the code"),
            (
                self.general.is_intact(),
                "the engine wrote beside the general registers",
            ),
            (
                self.file.is_intact(),
                "the engine wrote beside the register file",
            ),
        ];
        failed(&checks)
    }
}

/// What the engine gets to decode: the bytes that are run, and a few behind them.
fn engine_code(case: &Case, prepared: &Prepared) -> Vec<u8> {
    [prepared.code(), &case.trailing].concat()
}

fn lead(prepared: &Prepared, engine: Addressed) -> Lead {
    Lead {
        code: prepared.code().to_vec(),
        entry: prepared.entry(),
        general: *prepared.general(),
        operand: prepared.operand().copied(),
        target: prepared.target(),
        engine,
    }
}

/// The lowest opmask that is not as before.
fn changed_mask(before: &[u64; MASKS], after: &[u64; MASKS]) -> Option<Finding> {
    let number = (0..MASKS).find(|number| before[*number] != after[*number])?;
    Some(Finding::Mask {
        number,
        found: after[number],
    })
}

fn failed(checks: &[(bool, &'static str)]) -> Vec<Finding> {
    let failed = checks.iter().filter(|(is_intact, _)| !is_intact);
    failed.map(|(_, what)| Finding::Written(what)).collect()
}

/// Whether the reference finds the instruction in the bytes that the generator meant. If not, they
/// are not run.
fn is_read_alike(case: &Case) -> bool {
    if case.damage.is_some() {
        return reference::reserved_field(&case.code, case.features) == case.damage;
    }
    let decoded = reference::decode(&case.code, feature::ALL);
    let fields = &case.fields;
    let form = case.shape.form();
    let found = [
        decoded.status,
        decoded.reason,
        decoded.length,
        decoded.mnemonic,
        decoded.bits,
        decoded.evex,
        decoded.destination,
        decoded.first,
        decoded.memory,
        decoded.mask,
        decoded.zeroing,
        decoded.broadcast,
    ];
    let meant = [
        0,
        0,
        case.code.len() as u32,
        case.shape.row.mnemonic,
        form.bits,
        u32::from(form.is_evex),
        u32::from(fields.destination),
        u32::from(fields.first),
        case.memory.len() as u32,
        u32::from(fields.mask),
        u32::from(fields.zeroing),
        u32::from(fields.broadcast),
    ];
    found == meant
}

fn compare_outcome(expected: Outcome, found: Outcome) -> Option<Finding> {
    (found != expected).then_some(Finding::Processor { expected, found })
}

/// A damaged encoding has a refusal, and a register form no address.
fn expected_address(case: &Case) -> Expected {
    match case.damage {
        Some(field) => Expected::Refusal {
            reason: reason(field),
        },
        None if case.memory.is_empty() => Expected::None,
        None => Expected::InPage,
    }
}

fn without_address(status: u32, reason: u32) -> Addressed {
    Addressed {
        status,
        reason,
        has_address: false,
        address: 0,
    }
}

/// The engine answers 0 and the length, or 4, no length and the field that was damaged.
fn expected_answer(case: &Case) -> Answer {
    match case.damage {
        Some(field) => Answer {
            status: 4,
            length: 0,
            reason: reason(field),
        },
        None => Answer {
            status: 0,
            length: case.code.len() as u32,
            reason: 0,
        },
    }
}

fn compare_answer(case: &Case, answer: Answer) -> Vec<Finding> {
    let right = expected_answer(case);
    let mut findings = Vec::new();
    let (expected, found) = (right.status, answer.status);
    if found != expected {
        findings.push(Finding::Status { expected, found });
    }
    let (expected, found) = (right.length, answer.length);
    if found != expected {
        findings.push(Finding::Length { expected, found });
    }
    let (expected, found) = (right.reason, answer.reason);
    if found != expected {
        findings.push(Finding::Reason { expected, found });
    }
    findings
}

#[cfg(test)]
mod tests {
    use super::{changed_mask, compare_outcome, Comparison, Finding, Outcome, Processor};
    use crate::case::{Case, Plan};
    use crate::detect::{Capabilities, RegisterSet};
    use crate::engine;
    use reference::limits::feature;

    /// A memory form that is carried out or refused; nothing without AVX-512.
    fn case(refused: bool) -> Option<Case> {
        let capabilities = Capabilities::detect().expect("possible features");
        if capabilities.register_set() != Some(RegisterSet::Zmm32) {
            println!("skipped: no AVX-512 on this machine");
            return None;
        }
        let plan = Plan::new(capabilities);
        let mut cases = (0..).map(|number| plan.case(1, number));
        cases.find(|case| case.damage.is_some() == refused && !case.memory.is_empty())
    }

    fn comparison() -> Comparison {
        Comparison::new(
            Processor::new(Capabilities::detect().expect("possible features")).expect("pages"),
        )
    }

    /// Writes where an engine must not.
    type Spoil = fn(&mut Comparison);

    /// Spoils one buffer after a step of the reference, and gives the findings.
    fn spoiled(case: &Case, spoil: Spoil) -> Vec<Finding> {
        let mut comparison = comparison();
        assert_eq!(comparison.check(&mut engine::reference(), case), []);
        spoil(&mut comparison);
        let prepared = comparison.prepare(case).expect("as before");
        comparison.written_by_engine(case, &prepared)
    }

    #[test]
    fn writes_to_what_is_only_read_are_found() {
        let Some(case) = case(false) else { return };
        let spoils: [(&str, Spoil); 4] = [
            ("general", |c| c.general.content_mut()[15] ^= 1),
            ("memory", |c| c.memory.content_mut()[0] ^= 1),
            ("opmasks", |c| c.masks.content_mut()[7] ^= 1 << 63),
            ("code", |c| c.code.content_mut()[3] ^= 1),
        ];
        for (name, spoil) in spoils {
            let findings = spoiled(&case, spoil);
            let [Finding::Written(text)] = findings[..] else {
                panic!("{name}: {findings:?}");
            };
            assert!(text.contains(name), "{name}: {text}");
        }
    }

    #[test]
    fn writes_beside_buffers_are_found() {
        let Some(case) = case(true) else { return };
        let spoils: [Spoil; 5] = [
            |c| c.general.with_guards_mut()[64 + 16] ^= 1,
            |c| c.memory.with_guards_mut()[63] ^= 1,
            |c| c.file.with_guards_mut()[64 + 2_048] ^= 1,
            |c| c.code.with_guards_mut()[0] ^= 1,
            |c| c.masks.with_guards_mut()[64 + 8] ^= 1,
        ];
        for spoil in spoils {
            let findings = spoiled(&case, spoil);
            assert!(
                matches!(findings[..], [Finding::Written(_)]),
                "{findings:?}"
            );
        }
    }

    #[test]
    fn each_bit_of_each_opmask_counts() {
        let before = [0x0123_4567_89AB_CDEF; 8];
        assert_eq!(changed_mask(&before, &before), None);
        for bit in 0..8 * 64 {
            let (number, mut after) = (bit / 64, before);
            after[number] ^= 1 << (bit % 64);
            let found = after[number];
            let finding = Finding::Mask { number, found };
            assert_eq!(changed_mask(&before, &after), Some(finding));
        }
    }

    #[test]
    fn processor_must_do_what_is_expected() {
        let (Some(accepted), Some(refused)) = (case(false), case(true)) else {
            return;
        };
        let length = accepted.code.len();
        let done = Outcome::Done { length };
        let comparison = comparison();
        let differs = |case: &Case, found| {
            compare_outcome(comparison.expected_outcome(case), found).is_some()
        };
        assert!(!differs(&accepted, done));
        assert!(!differs(&refused, Outcome::Undefined));
        let longer = Outcome::Done { length: length + 1 };
        for outcome in [longer, Outcome::Undefined, Outcome::Fault] {
            assert!(differs(&accepted, outcome), "{outcome}");
        }
        for outcome in [done, Outcome::Fault, Outcome::NotRun("")] {
            assert!(differs(&refused, outcome), "{outcome}");
        }
    }

    /// An engine that ignores b of a register form.
    fn ignoring_b() -> engine::Function {
        engine::Function {
            name: "ignores b",
            address: engine::reference().address,
            step: |code, file, masks, features, memory| {
                let mut code = code.to_vec();
                code[3] &= !0x10;
                (engine::reference().step)(&code, file, masks, features, memory)
            },
        }
    }

    /// Whether the processor raises #UD for it or ignores b: an engine has to refuse it, and what is
    /// expected of the processor is what it does.
    #[test]
    fn b_with_a_register_is_refused() {
        let Some(any) = case(true) else { return };
        let plan = Plan::new(Capabilities::detect().expect("possible features"));
        let cases = (any.number..).map(|number| plan.case(1, number));
        let is_changed = |case: &Case| case.fields.mask == 0 && case.features == feature::ALL;
        let mut cases = cases.filter(|case| case.has_b_with_register() && is_changed(case));
        let case = cases.next().expect("cases do not end");
        // Without b it is an instruction, and one bit is all that changes.
        let without_b = case.code_without_b();
        assert_eq!(reference::decode(&without_b, feature::ALL).status, 0);
        let mut code = case.code.clone();
        code[3] ^= 0x10;
        assert_eq!(code, without_b);
        let mut comparison = comparison();
        assert_eq!(comparison.check(&mut engine::reference(), &case), []);
        let findings = comparison.check(&mut ignoring_b(), &case);
        let found = 0;
        for finding in [
            Finding::Status { expected: 4, found },
            Finding::Reason { expected: 5, found },
        ] {
            assert!(findings.contains(&finding), "{findings:?}");
        }
        comparison.ignores_b = !comparison.ignores_b;
        let findings = comparison.check(&mut engine::reference(), &case);
        assert!(
            matches!(findings[0], Finding::Processor { .. }),
            "{findings:?}"
        );
    }

    /// A processor that does something else is not taken for one that ignores b.
    #[test]
    fn ignoring_b_is_doing_without_it() {
        let Some(accepted) = case(false) else { return };
        let mut comparison = comparison();
        let run = |comparison: &mut Comparison, case: &Case| {
            comparison
                .processor
                .run(&case.code, &case.state, &case.memory);
        };
        run(&mut comparison, &accepted);
        assert_eq!(comparison.compare_without_b(&accepted), None);
        let mut other = accepted.clone();
        other.state.masks[7] ^= 1;
        run(&mut comparison, &other);
        let findings = comparison.compare_without_b(&accepted);
        assert_eq!(findings, Some(Finding::NotIgnored));
    }

    #[test]
    fn bytes_that_mean_something_else_are_not_run() {
        let (Some(accepted), Some(refused)) = (case(false), case(true)) else {
            return;
        };
        for case in [accepted, refused] {
            for code in [vec![0x0F, 0x05], [&case.code[..], &[0x90]].concat()] {
                let case = Case {
                    code,
                    damage: None,
                    ..case.clone()
                };
                let findings = comparison().check(&mut engine::reference(), &case);
                assert_eq!(findings, [Finding::Encoding]);
            }
        }
    }
}
