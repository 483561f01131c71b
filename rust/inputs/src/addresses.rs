//! Which kinds of addresses occurred.

use crate::operand::{Base, Operand};

/// An accepted memory form with what its address is made of.
#[derive(Debug, Clone, Copy)]
pub struct Address {
    /// The first byte of the prefix.
    first: u8,
    operand: Operand,
    /// Bytes that a displacement of one byte counts.
    unit: i64,
    immediate: bool,
    sum: i128,
}

impl Address {
    /// From an accepted instruction, which is all of `code`, with the bytes that its memory operand
    /// has and whether it has an immediate. None for a register form.
    pub fn new(
        code: &[u8],
        memory: u32,
        immediate: bool,
        registers: &[u64],
        own: u64,
    ) -> Option<Address> {
        let operand = Operand::read(code)?;
        let first = code[0];
        let unit = if first == 0x62 { memory.into() } else { 1 };
        let next = i128::from(own) + code.len() as i128;
        Some(Address {
            first,
            operand,
            unit,
            immediate,
            sum: operand.sum(unit, registers, next),
        })
    }

    /// The sum modulo 2^64.
    pub fn wrapped(&self) -> u64 {
        self.sum as u64
    }

    fn has_base(&self, bits: u8) -> bool {
        matches!(self.operand.base(), Base::Register(number) if number & 7 == bits)
    }

    fn is_relative(&self) -> bool {
        self.operand.base() == Base::NextInstruction
    }

    fn has_no_base(&self) -> bool {
        self.operand.base() == Base::None
    }

    fn has_scale(&self, scale: u8) -> bool {
        self.operand.index().is_some_and(|i| i.scale == scale)
    }

    fn has_index(&self, register: u8) -> bool {
        self.operand.index().is_some_and(|i| i.register == register)
    }

    fn is_index_base(&self) -> bool {
        match (self.operand.base(), self.operand.index()) {
            (Base::Register(number), Some(index)) => index.register == number,
            _ => false,
        }
    }

    /// Whether a displacement of one byte counts so many.
    fn counts(&self, unit: i64) -> bool {
        self.operand.displacement_size() == 1 && self.unit == unit
    }

    fn is_evex(&self) -> bool {
        self.first == 0x62
    }
}

/// A kind of address: its name, and whether an address is of it.
type Kind = (&'static str, fn(&Address) -> bool);

const KINDS: [Kind; 38] = [
    ("C5", |a| a.first == 0xC5),
    ("C4", |a| a.first == 0xC4),
    ("62", |a| a.is_evex()),
    ("mod 0", |a| a.operand.mode == 0),
    ("mod 1", |a| a.operand.mode == 1),
    ("mod 2", |a| a.operand.mode == 2),
    ("no SIB", |a| !a.operand.has_sib()),
    ("SIB", |a| a.operand.has_sib()),
    ("index", |a| a.operand.index().is_some()),
    ("index r12", |a| a.has_index(12)),
    ("SIB without index", |a| {
        a.operand.has_sib() && a.operand.index().is_none()
    }),
    ("index times 1", |a| a.has_scale(0)),
    ("index times 2", |a| a.has_scale(1)),
    ("index times 4", |a| a.has_scale(2)),
    ("index times 8", |a| a.has_scale(3)),
    ("index is the base too", |a| a.is_index_base()),
    ("base rsp or r12", |a| a.has_base(4)),
    ("base rbp or r13", |a| a.has_base(5)),
    ("rip-relative", |a| a.is_relative()),
    ("rip-relative, B 1", |a| a.is_relative() && a.operand.b == 1),
    ("rip-relative, immediate", |a| {
        a.is_relative() && a.immediate
    }),
    ("index without base", |a| {
        a.has_no_base() && a.operand.index().is_some()
    }),
    ("absolute", |a| {
        a.has_no_base() && a.operand.index().is_none()
    }),
    ("no base, B 1", |a| a.has_no_base() && a.operand.b == 1),
    ("no displacement", |a| a.operand.displacement_size() == 0),
    ("negative displacement", |a| a.operand.distance(a.unit) < 0),
    ("positive displacement", |a| a.operand.distance(a.unit) > 0),
    ("one byte, times 4", |a| a.counts(4)),
    ("one byte, times 8", |a| a.counts(8)),
    ("one byte, times 16", |a| a.counts(16)),
    ("one byte, times 32", |a| a.counts(32)),
    ("one byte, times 64", |a| a.counts(64)),
    ("one byte, VEX, as it is", |a| a.counts(1)),
    ("four bytes, VEX", |a| {
        !a.is_evex() && a.operand.displacement_size() == 4
    }),
    ("four bytes, EVEX, as is", |a| {
        a.is_evex() && a.operand.displacement_size() == 4
    }),
    ("sum from 2^64 on", |a| a.sum >= 1 << 64),
    ("sum below 0", |a| a.sum < 0),
    ("sum as it is", |a| (0..1 << 64).contains(&a.sum)),
];

/// How many addresses of each kind there were.
#[derive(Debug, Clone)]
pub struct Counted {
    kinds: [u64; KINDS.len()],
    /// By the register.
    bases: [u64; 16],
    indices: [u64; 16],
}

impl Default for Counted {
    fn default() -> Counted {
        Counted {
            kinds: [0; KINDS.len()],
            bases: [0; 16],
            indices: [0; 16],
        }
    }
}

impl Counted {
    pub fn add(&mut self, address: &Address) {
        for (count, (_, is_of)) in self.kinds.iter_mut().zip(&KINDS) {
            *count += u64::from(is_of(address));
        }
        if let Base::Register(number) = address.operand.base() {
            self.bases[usize::from(number)] += 1;
        }
        if let Some(index) = address.operand.index() {
            self.indices[usize::from(index.register)] += 1;
        }
    }

    pub fn merge(&mut self, other: &Counted) {
        let own = [&mut self.kinds[..], &mut self.bases, &mut self.indices];
        let more = [&other.kinds[..], &other.bases, &other.indices];
        for (own, more) in own.into_iter().zip(more) {
            own.iter_mut().zip(more).for_each(|(count, n)| *count += n);
        }
    }

    /// Prints them as a table.
    ///
    /// # Panics
    ///
    /// If a kind, or a register as base or as index, has fewer than `least`.
    pub fn finish(&self, what: &str, least: u64) {
        println!("\n{what:26}{:>9}", "cases");
        for ((name, _), count) in KINDS.iter().zip(self.kinds) {
            println!("{name:26}{count:>9}");
            assert!(count >= least, "{count} of the kind '{name}'");
        }
        println!("{:26}{:?}", "bases 0 to 15", self.bases);
        println!("{:26}{:?}", "indices 0 to 15", self.indices);
        assert!(self.bases.iter().all(|&count| count >= least), "a base");
        for (register, &count) in self.indices.iter().enumerate() {
            // Register 4 cannot be an index.
            let is_right = if register == 4 {
                count == 0
            } else {
                count >= least
            };
            assert!(is_right, "{count} with index {register}");
        }
    }
}
