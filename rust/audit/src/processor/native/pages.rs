//! Memory for instructions, a memory operand and a signal stack.

use super::sys;
use crate::random::Random;
use crate::setting::PAGE;
use std::ffi::{c_int, c_void};
use std::io;
use std::ptr;

/// Places of an arena's pages, with code before and behind the operand. A page without access is
/// before and behind each.
const CODE_BEFORE: usize = 1;
const OPERAND: usize = 3;
const CODE_BEHIND: usize = 5;
const ARENA_PAGES: usize = 7;
/// The signal stack, behind a page without access. A frame with AVX-512 state takes about 3 KiB,
/// and 11 KiB with AMX.
const STACK: usize = 1;
const STACK_PAGES: usize = 32;
/// No displacement leads from the low operand, which is below 2 GiB, to this address or above.
const OUT_OF_REACH: u64 = 1 << 33;

/// Longest instruction of the processor.
pub const LONGEST: usize = 15;
/// INT3: whatever runs past the instruction stops at once.
const BREAKPOINT: u8 = 0xCC;
/// Makes the bytes around an operand.
const FILLING_SEED: u64 = 0xA5;

const READ_WRITE: c_int = sys::PROT_READ | sys::PROT_WRITE;
const READ_EXECUTE: c_int = sys::PROT_READ | sys::PROT_EXEC;

/// Pages that are unmapped in the end.
struct Mapping {
    start: *mut u8,
    pages: usize,
}

impl Mapping {
    /// Pages without access.
    fn new(pages: usize, flags: c_int) -> io::Result<Mapping> {
        let flags = sys::MAP_PRIVATE | sys::MAP_ANONYMOUS | flags;
        let length = pages * PAGE;
        // SAFETY: a new mapping at an address of the system's choice overlaps no other.
        let start = unsafe { sys::mmap(ptr::null_mut(), length, sys::PROT_NONE, flags, -1, 0) };
        if start == sys::MAP_FAILED {
            return Err(io::Error::last_os_error());
        }
        let start = start.cast();
        Ok(Mapping { start, pages })
    }

    fn page(&self, page: usize) -> *mut u8 {
        assert!(page < self.pages);
        self.start.wrapping_add(page * PAGE)
    }

    /// Sets the access to `count` pages. No reference to them may be held.
    fn protect(&self, page: usize, count: usize, protection: c_int) -> io::Result<()> {
        assert!(page + count <= self.pages);
        let address = self.page(page).cast::<c_void>();
        // SAFETY: the pages are inside the mapping, and this module makes references to them only
        // for the time of a function.
        match unsafe { sys::mprotect(address, count * PAGE, protection) } {
            0 => Ok(()),
            _ => Err(io::Error::last_os_error()),
        }
    }

    /// Puts code into `count` pages, which are never writable and executable at once. Breakpoints
    /// follow it.
    fn set_code(&self, page: usize, count: usize, code: &[u8]) -> io::Result<()> {
        assert!(code.len() <= count * PAGE, "longer than the pages");
        self.protect(page, count, READ_WRITE)?;
        // SAFETY: the pages are mapped and writable, and nothing else refers to them.
        unsafe {
            ptr::write_bytes(self.page(page), BREAKPOINT, count * PAGE);
            ptr::copy_nonoverlapping(code.as_ptr(), self.page(page), code.len());
        }
        self.protect(page, count, READ_EXECUTE)
    }
}

impl Drop for Mapping {
    fn drop(&mut self) {
        // SAFETY: the mapping is this value's own, and nothing refers to it any more.
        let result = unsafe { sys::munmap(self.start.cast(), self.pages * PAGE) };
        debug_assert_eq!(result, 0);
    }
}

/// Pages for an instruction and its memory operand.
pub struct Arena {
    mapping: Mapping,
    /// Random bytes, so that an instruction that reads beside its operand reads something else.
    filling: Box<[u8; PAGE]>,
    /// What was last written to the operand's page.
    written: Box<[u8; PAGE]>,
}

impl Arena {
    fn new(flags: c_int) -> io::Result<Arena> {
        let mapping = Mapping::new(ARENA_PAGES, flags)?;
        mapping.protect(OPERAND, 1, READ_WRITE)?;
        let mut filling = Box::new([0; PAGE]);
        Random::new(FILLING_SEED).fill(&mut filling[..]);
        let written = filling.clone();
        let mut arena = Arena {
            mapping,
            filling,
            written,
        };
        arena.set_operand(&[], arena.operand_address(0, 0));
        for is_behind in [false, true] {
            arena.set_code(is_behind, &[])?;
        }
        Ok(arena)
    }

    /// Puts an instruction before or behind the operand.
    pub fn set_code(&self, is_behind: bool, code: &[u8]) -> io::Result<()> {
        assert!(code.len() <= LONGEST, "longer than any instruction");
        self.mapping.set_code(code_page(is_behind), 1, code)
    }

    /// Where the instruction starts.
    pub fn code_address(&self, is_behind: bool) -> u64 {
        self.mapping.page(code_page(is_behind)) as u64
    }

    /// The address of a memory operand of `length` bytes, with `gap` bytes between it and the end
    /// of its page. Without any, reading one byte more is a fault.
    pub fn operand_address(&self, length: usize, gap: usize) -> u64 {
        (self.mapping.page(OPERAND + 1) as u64) - (length + gap) as u64
    }

    /// Whether the operand's page has all of `length` bytes at this address.
    pub fn holds(&self, address: u64, length: usize) -> bool {
        let start = self.mapping.page(OPERAND) as u64;
        let last = self.operand_address(length, 0);
        length <= PAGE && (start..=last).contains(&address)
    }

    /// Puts the memory operand at an address that the page holds, among bytes of the filling.
    pub fn set_operand(&mut self, operand: &[u8], address: u64) {
        assert!(self.holds(address, operand.len()), "outside of the page");
        let start = (address - self.mapping.page(OPERAND) as u64) as usize;
        self.written.copy_from_slice(&self.filling[..]);
        self.written[start..start + operand.len()].copy_from_slice(operand);
        *self.operand_page() = *self.written;
    }

    /// Whether the whole page still is what `set_operand` wrote.
    fn is_intact(&mut self) -> bool {
        let written = *self.written;
        *self.operand_page() == written
    }

    fn operand_page(&mut self) -> &mut [u8; PAGE] {
        // SAFETY: the page is mapped, readable and writable, lives as long as `self`, and is
        // reached through `self` alone while no instruction runs.
        unsafe { &mut *self.mapping.page(OPERAND).cast() }
    }
}

fn code_page(is_behind: bool) -> usize {
    match is_behind {
        false => CODE_BEFORE,
        true => CODE_BEHIND,
    }
}

pub struct Pages {
    /// Below 2 GiB, so that a 32-bit displacement alone reaches the operand.
    low: Arena,
    /// Wherever the system has room, which is above 4 GiB.
    high: Arena,
    /// Out of reach of an RSP that leads to the low operand: the kernel would take an RSP inside
    /// this stack for a handler that is running, and put the next frame right below it. A random
    /// RSP is inside with a chance of 1 in 2^47.
    stack: Mapping,
}

impl Pages {
    pub fn new() -> io::Result<Pages> {
        let pages = Pages {
            low: Arena::new(sys::MAP_32BIT)?,
            high: Arena::new(0)?,
            stack: Mapping::new(STACK + STACK_PAGES, 0)?,
        };
        if (pages.stack.start as u64) < OUT_OF_REACH {
            return Err(io::Error::other("the signal stack is too near the operand"));
        }
        pages.stack.protect(STACK, STACK_PAGES, READ_WRITE)?;
        Ok(pages)
    }

    pub fn arena(&self, is_high: bool) -> &Arena {
        match is_high {
            false => &self.low,
            true => &self.high,
        }
    }

    pub fn arena_mut(&mut self, is_high: bool) -> &mut Arena {
        match is_high {
            false => &mut self.low,
            true => &mut self.high,
        }
    }

    /// Whether operands and the bytes around them still are what was written there.
    pub fn are_operands_intact(&mut self) -> bool {
        self.low.is_intact() && self.high.is_intact()
    }

    /// The stack for signal handlers.
    pub fn signal_stack(&self) -> sys::SignalStack {
        sys::SignalStack {
            start: self.stack.page(STACK).cast(),
            flags: 0,
            size: STACK_PAGES * PAGE,
        }
    }
}

/// Executable pages with code of any length.
pub struct CodePages(Mapping);

impl CodePages {
    pub fn new(code: &[u8]) -> io::Result<CodePages> {
        let count = code.len().div_ceil(PAGE);
        let mapping = Mapping::new(count, 0)?;
        mapping.set_code(0, count, code)?;
        Ok(CodePages(mapping))
    }

    /// Where the code starts.
    pub fn address(&self) -> u64 {
        self.0.start as u64
    }
}

#[cfg(test)]
mod tests {
    use super::{Pages, PAGE};
    use crate::setting::LARGEST_GAP;

    fn pages() -> Pages {
        Pages::new().expect("pages to execute instructions in")
    }

    #[test]
    fn every_byte_of_the_operand_page_counts() {
        let mut pages = pages();
        for is_high in [false, true] {
            let operand = [1, 2, 3, 4];
            let address = pages.arena(is_high).operand_address(4, 100);
            pages.arena_mut(is_high).set_operand(&operand, address);
            let page = pages.arena_mut(is_high).operand_page();
            assert_eq!(page[PAGE - 104..PAGE - 100], operand);
            for place in 0..PAGE {
                assert!(pages.are_operands_intact());
                pages.arena_mut(is_high).operand_page()[place] ^= 1;
                assert!(!pages.are_operands_intact(), "byte {place}");
                pages.arena_mut(is_high).operand_page()[place] ^= 1;
            }
        }
    }

    #[test]
    fn operand_without_a_gap_ends_at_the_end_of_its_page() {
        let pages = pages();
        for length in [0, 4, 16, 64] {
            let end = pages.low.operand_address(length, 0) + length as u64;
            assert!(end.is_multiple_of(PAGE as u64) && end < 1 << 31);
            let end = pages.high.operand_address(length, 0) + length as u64;
            assert!(end.is_multiple_of(PAGE as u64) && end > 1 << 32);
        }
    }

    #[test]
    fn page_holds_what_lies_in_it() {
        let pages = pages();
        for length in [4, 8, 16, 32, 64] {
            let [first, last] =
                [PAGE - length, 0].map(|gap| pages.low.operand_address(length, gap));
            for address in [first, last, first + 1, last - 1] {
                assert!(pages.low.holds(address, length));
                assert!(!pages.high.holds(address, length));
            }
            for address in [first - 1, last + 1, 0, u64::MAX] {
                assert!(!pages.low.holds(address, length));
            }
            let lower = pages.low.operand_address(length, LARGEST_GAP) - 1;
            assert!(pages.low.holds(lower, length));
        }
        assert!(!pages
            .low
            .holds(pages.low.operand_address(PAGE, 0), PAGE + 1));
    }

    /// Bytes that are read beside an operand are not the operand's by chance.
    #[test]
    fn filling_does_not_repeat() {
        let pages = pages();
        let mut windows: Vec<_> = pages.low.filling.windows(4).collect();
        windows.sort();
        windows.dedup();
        assert_eq!(windows.len(), PAGE - 3);
    }
}
