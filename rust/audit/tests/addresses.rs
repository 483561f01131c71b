//! Engines whose addresses are wrong on purpose are caught: by the processor, which does not find
//! the operand where they say, or because they say what cannot be.

mod tools;

use audit::{engine, Addressed, Answer, Base, Engine, Expected, Finding, Operand, Options};
use reference::limits::feature;
use reference::{decode, Decoded};
use tools::{caught, has_all_registers, options, passed, ENOUGH};

/// What a wrong engine knows about an address that the reference has worked out.
struct Call<'a> {
    code: &'a [u8],
    general: &'a [u64],
    decoded: Decoded,
    /// Nothing for a register form, or a refused one.
    operand: Option<Operand>,
}

impl Call<'_> {
    fn is_register_form(&self) -> bool {
        self.decoded.status == 0 && self.operand.is_none()
    }
}

/// Changes what the reference says. It is called for accepted and for refused instructions.
type Change = fn(&Call, &mut Addressed);

struct Wrong {
    name: &'static str,
    change: Change,
}

impl Engine for Wrong {
    fn name(&self) -> &str {
        self.name
    }

    fn address(&mut self, code: &[u8], features: u32, general: &[u64], at: u64) -> Addressed {
        let mut addressed = engine::reference().address(code, features, general, at);
        let decoded = decode(code, feature::ALL);
        let unit = (decoded.memory != 0).then_some(decoded.memory as usize);
        let call = Call {
            code,
            general,
            decoded,
            operand: unit.and_then(|unit| Operand::of(code, unit)),
        };
        (self.change)(&call, &mut addressed);
        addressed
    }

    fn step(
        &mut self,
        code: &[u8],
        file: &mut [u8],
        masks: &[u64],
        features: u32,
        memory: &[u8],
    ) -> Answer {
        engine::reference().step(code, file, masks, features, memory)
    }
}

/// Runs a wrong engine, sees it caught, and gives the one thing that was found.
fn found(name: &'static str, change: Change) -> Option<Finding> {
    if !has_all_registers() {
        return None;
    }
    let difference = caught(&mut Wrong { name, change }, options(ENOUGH));
    let again = Options {
        first_case: difference.case,
        ..options(1)
    };
    let repeated = caught(&mut Wrong { name, change }, again);
    assert_eq!(repeated.code, difference.code, "a case repeats alone");
    let text = difference.to_string();
    for part in [name, "\nrun as: ", "\nengine: ", "\nrax: ", "\nr15: "] {
        assert!(text.contains(part), "no {part:?} in\n{text}");
    }
    let [finding] = &difference.findings[..] else {
        panic!("{text}");
    };
    Some(finding.clone())
}

/// An engine that gives another place in the operand's page, or one outside, as it comes.
fn is_caught(name: &'static str, change: Change) {
    let Some(finding) = found(name, change) else {
        return;
    };
    let is_outside = matches!(
        finding,
        Finding::Address {
            expected: Expected::InPage,
            ..
        }
    );
    let is_not_found = matches!(finding, Finding::Register { .. });
    assert!(is_outside || is_not_found, "{name}: {finding}");
}

/// An engine that gives another place in the operand's page: the processor alone can tell.
fn is_caught_by_the_processor(name: &'static str, change: Change) {
    let Some(finding) = found(name, change) else {
        return;
    };
    assert!(
        matches!(finding, Finding::Register { .. }),
        "{name}: {finding}"
    );
}

/// Adds to an address, modulo 2^64.
fn add(addressed: &mut Addressed, number: i64) {
    addressed.address = addressed.address.wrapping_add_signed(number);
}

/// The displacement of one byte, before it is multiplied.
fn one_byte(call: &Call) -> Option<(Operand, i64)> {
    let operand = call.operand.filter(|operand| operand.mode == 1)?;
    Some((operand, operand.displacement / operand.unit))
}

fn index_of(call: &Call) -> Option<(usize, u64)> {
    call.operand?.index
}

#[test]
fn right_addresses_are_found() {
    if has_all_registers() {
        let change: Change = |_, _| {};
        passed(
            &mut Wrong {
                name: "right",
                change,
            },
            options(ENOUGH),
        );
    }
}

#[test]
fn displacement_not_multiplied() {
    is_caught("EVEX displacement in bytes", |call, addressed| {
        if let Some((operand, byte)) = one_byte(call) {
            add(addressed, byte - operand.displacement);
        }
    });
}

#[test]
fn displacement_multiplied_under_vex() {
    is_caught("VEX displacement in vectors", |call, addressed| {
        if let (Some((_, byte)), 0) = (one_byte(call), call.decoded.evex) {
            add(addressed, byte * i64::from(call.decoded.memory) - byte);
        }
    });
}

#[test]
fn displacement_multiplied_by_the_vector_with_b() {
    is_caught("broadcast displacement in vectors", |call, addressed| {
        if let (Some((operand, byte)), 1) = (one_byte(call), call.decoded.broadcast) {
            let vector = i64::from(call.decoded.bits / 8);
            add(addressed, byte * vector - operand.displacement);
        }
    });
}

#[test]
fn displacement_of_four_bytes_multiplied() {
    is_caught("EVEX multiplies four bytes", |call, addressed| {
        let operand = call.operand.filter(|operand| operand.mode == 2);
        if let Some(operand) = operand {
            add(addressed, operand.displacement * (operand.unit - 1));
        }
    });
}

#[test]
fn sign_of_one_byte_lost() {
    is_caught(
        "displacement of 0 to 255",
        |call, addressed| match one_byte(call) {
            Some((operand, byte)) if byte < 0 => add(addressed, 256 * operand.unit),
            _ => {}
        },
    );
}

#[test]
fn sign_of_four_bytes_lost() {
    is_caught(
        "displacement of 32 bits without a sign",
        |call, addressed| match call.operand {
            Some(operand) if operand.mode != 1 && operand.displacement < 0 => {
                add(addressed, 1 << 32);
            }
            _ => {}
        },
    );
}

fn is_relative(call: &Call) -> bool {
    matches!(call.operand, Some(operand) if operand.base == Base::NextInstruction)
}

#[test]
fn rip_without_the_length() {
    is_caught_by_the_processor("relative to the instruction itself", |call, addressed| {
        if is_relative(call) {
            add(addressed, -i64::from(call.decoded.length));
        }
    });
}

#[test]
fn rip_without_the_immediate() {
    is_caught_by_the_processor("relative to the immediate", |call, addressed| {
        if is_relative(call) {
            add(addressed, -i64::from(call.decoded.has_immediate));
        }
    });
}

#[test]
fn bytes_behind_counted_as_length() {
    is_caught_by_the_processor("relative to the end of all bytes", |call, addressed| {
        if is_relative(call) {
            let behind = call.code.len() as i64 - i64::from(call.decoded.length);
            add(addressed, behind);
        }
    });
}

#[test]
fn r13_added_to_rip() {
    is_caught("B counts with mod 0 and r/m 5", |call, addressed| {
        let has_b = call.code[0] != 0xC5 && call.code[1] & 0x20 == 0;
        if is_relative(call) && has_b {
            add(addressed, call.general[13] as i64);
        }
    });
}

#[test]
fn index_r12_taken_for_none() {
    is_caught("index 4 is none with X 1 too", |call, addressed| {
        if let Some((12, scale)) = index_of(call) {
            add(addressed, -(call.general[12].wrapping_mul(scale) as i64));
        }
    });
}

#[test]
fn no_index_taken_for_rsp() {
    is_caught("index 4 is rsp with X 0", |call, addressed| {
        let is_none = |operand: &Operand| operand.has_sib && operand.index.is_none();
        if call.operand.as_ref().is_some_and(is_none) {
            add(addressed, call.general[4] as i64);
        }
    });
}

#[test]
fn base_kept_with_mod_0_and_base_5() {
    is_caught("base 5 is rbp with mod 0 too", |call, addressed| {
        if matches!(call.operand, Some(operand) if operand.base == Base::None) {
            add(addressed, call.general[5] as i64);
        }
    });
}

#[test]
fn scale_ignored() {
    is_caught("scale 1 always", |call, addressed| {
        if let Some((index, scale)) = index_of(call) {
            let more = call.general[index].wrapping_mul(scale - 1);
            add(addressed, -(more as i64));
        }
    });
}

#[test]
fn sum_of_32_bits() {
    is_caught("addresses of 32 bits", |_, addressed| {
        addressed.address &= 0xFFFF_FFFF;
    });
}

#[test]
fn sum_that_does_not_wrap() {
    is_caught("addresses end at 2^64", |call, addressed| {
        let Some(operand) = call.operand else { return };
        let (Base::Register(base), Some((index, scale))) = (operand.base, operand.index) else {
            return;
        };
        let indexed = call.general[index].saturating_mul(scale);
        let sum = call.general[base].saturating_add(indexed);
        addressed.address = sum.saturating_add_signed(operand.displacement);
    });
}

#[test]
fn one_byte_beside_the_operand() {
    is_caught("a byte too high", |_, addressed| {
        add(addressed, i64::from(addressed.has_address));
    });
    is_caught("a byte too low", |_, addressed| {
        add(addressed, -i64::from(addressed.has_address));
    });
}

#[test]
fn address_of_a_register_form() {
    let found = found("an address for a register", |call, addressed| {
        if call.is_register_form() {
            addressed.has_address = true;
            addressed.address = call.general[0];
        }
    });
    let Some(finding) = found else { return };
    let text = finding.to_string();
    assert!(text.starts_with("engine: address ") && text.contains("; expected: no address, for"));
}

#[test]
fn number_of_a_register_form() {
    let found = found("a number where there is no address", |call, addressed| {
        if call.is_register_form() {
            addressed.address = 1;
        }
    });
    let Some(finding) = found else { return };
    let text = finding.to_string();
    assert!(text.starts_with("engine: no address, but the number 0000000000000001; expected: no"));
}

#[test]
fn no_address_of_a_memory_form() {
    let found = found("no address for memory", |_, addressed| {
        addressed.has_address = false;
        addressed.address = 0;
    });
    let Some(finding) = found else { return };
    let text = "engine: no address; expected: an address in the operand's page";
    assert_eq!(finding.to_string(), text);
}

#[test]
fn refusal_of_an_accepted_instruction() {
    let found = found("5 for rip-relative", |call, addressed| {
        if is_relative(call) {
            *addressed = Addressed {
                status: 5,
                reason: 0,
                has_address: false,
                address: 0,
            };
        }
    });
    let Some(finding) = found else { return };
    let text = "engine: status 5, reason 0, no address; expected: an address in the operand's page";
    assert_eq!(finding.to_string(), text);
}

/// What an engine says of an encoding with a wrong field.
fn damaged(name: &'static str, change: Change) {
    let Some(finding) = found(name, change) else {
        return;
    };
    let Finding::Address {
        expected: Expected::Refusal { reason },
        ..
    } = finding
    else {
        panic!("{name}: {finding}");
    };
    let text = format!("; expected: status 4, reason {reason}, no address");
    assert!(finding.to_string().ends_with(&text), "{finding}");
}

#[test]
fn damaged_encodings_not_refused() {
    damaged("an address for everything", |call, addressed| {
        if addressed.status == 4 {
            *addressed = Addressed {
                status: 0,
                reason: 0,
                has_address: true,
                address: call.general[0],
            };
        }
    });
    damaged("an address with a refusal", |call, addressed| {
        if addressed.status == 4 {
            addressed.has_address = true;
            addressed.address = call.general[0];
        }
    });
    damaged("4 without a reason", |_, addressed| addressed.reason = 0);
    damaged("3 for 4", |_, addressed| {
        if addressed.status == 4 {
            addressed.status = 3;
        }
    });
}
