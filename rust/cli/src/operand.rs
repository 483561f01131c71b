//! How an instruction names its memory operand.
//!
//! The library gives the address and not how it comes about, so that this is read here, out of
//! ModRM, SIB and displacement. Nothing is proved of it: what is read is held to the library's
//! address before it is used.

use crate::answer::Failure;
use crate::general::NAMES;
use std::fmt;
use tarhuspo::limits::GPR_COUNT;
use tarhuspo::{features, Decoded};

/// A hex digit for each register: one taken for another, or a wrong scale, shows in the sum. Base
/// and index exchanged at a scale of 1 do not, since they make the same sum.
const TELLING: [u64; GPR_COUNT] = {
    let mut registers = [1; GPR_COUNT];
    let mut number = 1;
    while number < GPR_COUNT {
        registers[number] = 16 * registers[number - 1];
        number += 1;
    }
    registers
};

/// What index and displacement are added to.
#[derive(Debug, Clone, Copy, PartialEq, Eq)]
enum Base {
    Register(usize),
    NextInstruction,
    None,
}

/// A memory operand.
#[derive(Debug, Clone, Copy, PartialEq, Eq)]
pub struct Operand {
    base: Base,
    /// Register and scale.
    index: Option<(usize, u64)>,
    /// In bytes.
    displacement: i64,
}

impl Operand {
    /// The memory operand of an instruction that the library accepts; none for a register form.
    pub fn of(code: &[u8], decoded: &Decoded) -> Result<Option<Operand>, Failure> {
        let addressed = tarhuspo::address(code, features::ALL, &TELLING, 0);
        let operand = Operand::read(code, decoded);
        match operand {
            None if !addressed.has_address => Ok(None),
            Some(operand) if addressed.has_address => {
                let next = u64::from(decoded.length);
                operand.hold(&TELLING, next, addressed.address)?;
                Ok(Some(operand))
            }
            _ => Err(slip(
                "the library and the command do not agree whether it has one",
            )),
        }
    }

    /// An error if the address that the registers make is not the library's.
    pub fn hold(
        &self,
        registers: &[u64; GPR_COUNT],
        next: u64,
        library: u64,
    ) -> Result<(), Failure> {
        let found = self.address(registers, next);
        if found == library {
            return Ok(());
        }
        let text = format!("{self} makes {found:#x}, and the library has {library:#x}");
        Err(slip(&text))
    }

    fn read(code: &[u8], decoded: &Decoded) -> Option<Operand> {
        let (opcode_at, extension) = match code {
            [0xC5, ..] => (2, 0),
            [0xC4, p, ..] => (3, !p),
            [_, p, ..] => (4, !p),
            _ => return None,
        };
        let mut rest = code.get(opcode_at + 1..)?.iter().copied();
        let modrm = rest.next()?;
        let (mode, rm) = (modrm >> 6, modrm & 7);
        if mode == 3 {
            return None;
        }
        let sib = if rm == 4 { Some(rest.next()?) } else { None };
        let (x, b) = (extension >> 6 & 1, extension >> 5 & 1);
        let base = match (mode, rm, sib.map(|sib| sib & 7)) {
            (0, 5, _) => Base::NextInstruction,
            (0, _, Some(5)) => Base::None,
            (_, _, low) => Base::Register(register(b, low.unwrap_or(rm))),
        };
        Some(Operand {
            base,
            index: sib.and_then(|sib| index(x, sib)),
            displacement: match (mode, base) {
                (0, Base::Register(_)) => 0,
                (1, _) => i64::from(rest.next()? as i8) * unit(decoded),
                _ => i64::from(four_bytes(&mut rest)?),
            },
        })
    }

    /// The address that these registers make. `next` is that of the next instruction.
    fn address(&self, registers: &[u64; GPR_COUNT], next: u64) -> u64 {
        let base = match self.base {
            Base::Register(number) => registers[number],
            Base::NextInstruction => next,
            Base::None => 0,
        };
        let index = self
            .index
            .map_or(0, |(number, scale)| registers[number].wrapping_mul(scale));
        base.wrapping_add(index)
            .wrapping_add_signed(self.displacement)
    }

    pub fn is_relative(&self) -> bool {
        self.base == Base::NextInstruction
    }

    /// The numbers of the general registers in it, each once.
    pub fn registers(&self) -> Vec<usize> {
        let mut numbers = Vec::new();
        if let Base::Register(number) = self.base {
            numbers.push(number);
        }
        numbers.extend(self.index.map(|(number, _)| number));
        numbers.dedup();
        numbers
    }
}

/// An internal error: the command read an operand in another way than the library.
fn slip(text: &str) -> Failure {
    Failure::Internal(format!(
        "internal error in reading the memory operand: {text}"
    ))
}

fn register(high: u8, low: u8) -> usize {
    usize::from(high << 3 | low)
}

/// Register and scale. What would be rsp is none.
fn index(x: u8, sib: u8) -> Option<(usize, u64)> {
    let number = register(x, sib >> 3 & 7);
    (number != 4).then_some((number, 1 << (sib >> 6)))
}

/// What a displacement of one byte counts: under EVEX as many bytes as are read.
fn unit(decoded: &Decoded) -> i64 {
    match decoded.evex {
        0 => 1,
        _ => i64::from(decoded.memory),
    }
}

fn four_bytes(bytes: &mut impl Iterator<Item = u8>) -> Option<i32> {
    let mut next = || bytes.next();
    Some(i32::from_le_bytes([next()?, next()?, next()?, next()?]))
}

/// As an assembler writes it.
impl fmt::Display for Operand {
    fn fmt(&self, f: &mut fmt::Formatter<'_>) -> fmt::Result {
        let mut terms = Vec::new();
        match self.base {
            Base::Register(number) => terms.push(NAMES[number].to_string()),
            Base::NextInstruction => terms.push("rip".to_string()),
            Base::None => {}
        }
        if let Some((number, scale)) = self.index {
            terms.push(format!("{}*{scale}", NAMES[number]));
        }
        let sum = terms.join(" + ");
        let bytes = self.displacement.unsigned_abs();
        match self.displacement {
            // Alone, it is an address.
            address if terms.is_empty() => write!(f, "[{:#x}]", address as u64),
            0 => write!(f, "[{sum}]"),
            1.. => write!(f, "[{sum} + {bytes:#x}]"),
            _ => write!(f, "[{sum} - {bytes:#x}]"),
        }
    }
}

#[cfg(test)]
mod tests {
    use super::{Base, Failure, Operand, TELLING};
    use inputs::encoding::Shape;
    use inputs::random::Random;
    use tarhuspo::features;

    type Test = fn(&Operand) -> bool;

    /// What the random operands are to have, each some time.
    const KINDS: [(&str, Test); 10] = [
        ("base alone", |o| is_base(o) && o.index.is_none()),
        ("base and index", |o| is_base(o) && o.index.is_some()),
        ("index alone", |o| o.base == Base::None && o.index.is_some()),
        ("rip-relative", Operand::is_relative),
        ("absolute", |o| o.base == Base::None && o.index.is_none()),
        ("index r12", |o| matches!(o.index, Some((12, _)))),
        ("scale 8", |o| matches!(o.index, Some((_, 8)))),
        ("negative", |o| o.displacement < 0),
        ("positive", |o| o.displacement > 0),
        ("no displacement", |o| o.displacement == 0),
    ];

    fn is_base(operand: &Operand) -> bool {
        matches!(operand.base, Base::Register(_))
    }

    /// Mostly any numbers, else small ones.
    fn number(random: &mut Random) -> u64 {
        let number = random.number();
        if random.below(4) == 0 {
            return number % 256;
        }
        number
    }

    /// The operand of some instruction, with the library's address for some registers.
    fn compare(code: &[u8], random: &mut Random) -> Option<Operand> {
        let registers = [(); 16].map(|()| number(random));
        let at = number(random);
        let decoded = tarhuspo::decode(code, features::ALL);
        let addressed = tarhuspo::address(code, features::ALL, &registers, at);
        assert_eq!((decoded.status, addressed.status), (0, 0), "{code:02X?}");
        let operand = Operand::read(code, &decoded);
        assert_eq!(operand.is_some(), addressed.has_address, "{code:02X?}");
        let next = at.wrapping_add(u64::from(decoded.length));
        let found = operand?.address(&registers, next);
        assert_eq!(
            found, addressed.address,
            "{code:02X?}, {registers:X?}, {at:X}"
        );
        assert!(matches!(Operand::of(code, &decoded), Ok(Some(_))));
        operand
    }

    #[test]
    fn operands_make_the_librarys_addresses() {
        let (shapes, mut random) = (Shape::all(), Random::new(31));
        let (mut counts, mut multiplied, mut without) = ([0; KINDS.len()], 0, 0);
        for _ in 0..200_000 {
            let code = random.pick(&shapes).encode(&mut random);
            let Some(operand) = compare(&code, &mut random) else {
                without += 1;
                continue;
            };
            for (count, (_, is_so)) in counts.iter_mut().zip(KINDS) {
                *count += u32::from(is_so(&operand));
            }
            // ModRM.mod 1 under EVEX.
            multiplied += u32::from(code[0] == 0x62 && code[5] >> 6 == 1);
        }
        let kinds = KINDS.map(|(name, _)| name);
        let more = [("multiplied", multiplied), ("register forms", without)];
        for (name, count) in kinds.into_iter().zip(counts).chain(more) {
            println!("{name}: {count}");
            assert!(count > 0, "{name}");
        }
    }

    /// An operand that is read wrongly is not printed.
    #[test]
    fn a_slip_is_an_error() {
        // vpshufd xmm1, [rax + rcx*4 + 0x10], 0x1b
        let code = [0xC5, 0xF9, 0x70, 0x4C, 0x88, 0x10, 0x1B];
        let decoded = tarhuspo::decode(&code, features::ALL);
        let library = tarhuspo::address(&code, features::ALL, &TELLING, 0).address;
        let right = Operand::read(&code, &decoded).expect("a memory form");
        assert!(right.hold(&TELLING, 7, library).is_ok());
        let slips = [
            (Base::Register(1), right.index, right.displacement),
            (Base::None, right.index, right.displacement),
            (Base::NextInstruction, right.index, right.displacement),
            (right.base, None, right.displacement),
            (right.base, Some((1, 8)), right.displacement),
            (right.base, Some((2, 4)), right.displacement),
            (right.base, right.index, -0x10),
            (right.base, right.index, 0x100),
        ];
        for (base, index, displacement) in slips {
            let wrong = Operand {
                base,
                index,
                displacement,
            };
            let Err(Failure::Internal(text)) = wrong.hold(&TELLING, 7, library) else {
                panic!("{wrong} passes for {right}");
            };
            assert!(text.starts_with("internal error "), "{text}");
            assert!(text.contains(&wrong.to_string()), "{text}");
        }
    }
}
