//! The commands, and what each says of itself.

use crate::answer::{Answer, Failure};
use crate::options::expected;
use crate::{address, audit, compare, decode, list, map, run};
use std::ffi::OsString;
use tarhuspo::version::{MAJOR, MINOR};

pub struct Command {
    pub name: &'static str,
    /// Its own lines, and between them those that several commands share.
    help: &'static [&'static str],
    pub run: fn(&[OsString]) -> Result<Answer, Failure>,
}

pub const COMMANDS: [Command; 7] = [
    Command {
        name: "list",
        help: &[LIST, REASONS, CODE, LIST_END],
        run: list::run,
    },
    Command {
        name: "decode",
        help: &[DECODE, FEATURES, REASONS, DECODE_END],
        run: decode::run,
    },
    Command {
        name: "address",
        help: &[ADDRESS, FEATURES, ADDRESS_END],
        run: address::run,
    },
    Command {
        name: "run",
        help: &[RUN, MASKS, FEATURES, CODE, RUN_END],
        run: run::run,
    },
    Command {
        name: "map",
        help: &[MAP, MASKS, FEATURES, CODE, MAP_END],
        run: map::run,
    },
    Command {
        name: "compare",
        help: &[COMPARE, MASKS, FEATURES, CODE, COMPARE_END],
        run: compare::run,
    },
    Command {
        name: "audit",
        help: &[AUDIT],
        run: audit::run,
    },
];

impl Command {
    pub fn named(name: &str) -> Option<&'static Command> {
        COMMANDS.iter().find(|command| command.name == name)
    }

    pub fn help(&self) -> String {
        self.help.concat()
    }
}

/// The answer to `tarhuspo help`, with or without a command.
pub fn asked(words: &[OsString]) -> Result<Answer, Failure> {
    let [name] = words else {
        return match words {
            [] => Ok(Answer::text(OVERVIEW)),
            _ => Err("expected at most one command after 'help'".into()),
        };
    };
    let name = name.to_string_lossy();
    match Command::named(&name) {
        Some(command) => Ok(Answer::text(command.help())),
        None => Err(unknown(&name).into()),
    }
}

/// The answer to `tarhuspo --version`.
pub fn version(words: &[OsString]) -> Result<Answer, Failure> {
    match words {
        [] => Ok(Answer::text(format!("tarhuspo {MAJOR}.{MINOR}\n"))),
        _ => Err("expected nothing after '--version'".into()),
    }
}

pub fn unknown(given: &str) -> String {
    let names: Vec<_> = COMMANDS.iter().map(|command| command.name).collect();
    expected(&format!("a command ({} or help)", names.join(", ")), given)
}

pub const OVERVIEW: &str = "\
tarhuspo: AVX permute instructions in software, by the proved library

usage: tarhuspo COMMAND ..

  list       the instructions of a list, a line for each
  decode     one instruction in words
  address    where the memory operand of an instruction is
  run        a list of instructions on a register file
  map        byte maps: what a list does to every register file
  compare    whether lists of instructions do the same
  audit      the library against this machine's processor
  help       this text; tarhuspo help COMMAND or COMMAND --help says more
  --version  the version of the library, as in its C header

instructions, VEX and EVEX: VPERMILPD, VPERMILPS, VPSHUFD, VUNPCKLPS, VUNPCKHPS,
VUNPCKLPD, VUNPCKHPD, VPSHUFB; VEX alone: VPERM2F128; EVEX alone: VPERMB

example: tarhuspo decode 62 F1 7D C9 70 CA 1B

exit status: 0 done, 1 refused or different, 2 bad usage or a file that cannot be used
";

// Options that several commands have, and what CODE is.
const MASKS: &str = "  \
  --masks FILE     the opmasks k0 to k7 as eight hex numbers, or hex:.. with the
                   numbers themselves; all zero if not given
";

const FEATURES: &str = "  \
  --features LIST  what the processor has: names between commas out of avx,
                   avx2, avx512f, avx512vl, avx512_vbmi, avx512bw, or their
                   number; all, which is 63, if not given; without avx there
                   is no other, and without avx512f none of the last three
";

const REASONS: &str = "
Status 4 (#UD) comes with a reason: the number of the reserved field that is
wrong, and of the first one if several are. What the fields must be:
  1  EVEX fixed bits: bit 3 of the second byte 0, bit 2 of the third 1
  2  W: 0 in the VEX forms of VPERMILPD, VPERMILPS and VPERM2F128
  3  width: not L'L 11b under EVEX, and L 1 for VPERM2F128
  4  vvvv: 1111b, and V' 1 under EVEX, in a form without a first source
  5  b: 0 with a register as third operand, and on VPERMB and VPSHUFB
  6  z: 0 without an opmask (aaa 000b)
";

const CODE: &str = "
CODE is a list of instructions, end to end, of at most 16,384 bytes:
  hex:C5F970CA1B   the bytes, as pairs of hex digits; with spaces, in quotes
  FILE             a file with the bytes (./hex:x if its name starts with hex:)
  -                standard input
With --hex, files and standard input hold hex text instead: pairs of digits with
spaces, line ends or commas between them, with or without 0x, # for comments.
";

const LIST: &str = "\
usage: tarhuspo list [CODE] [--hex]

Prints headings and a line for each instruction: its place, length in bytes,
name, width in bits, and 0. The first one that is refused has the last line, with
its status in place of the 0. Status 4 is written 4:1 to 4:6, with its reason, and
a note on standard error has that in words. All features count as there. Without
CODE, standard input is read.
";

const LIST_END: &str = "
example: tarhuspo list hex:C5F970CA1BC5E814CB

exit status: 0 listed, also if the last line is a refusal; 1 the code is too
long; 2 bad usage, or a file that cannot be read
";

const DECODE: &str = "\
usage: tarhuspo decode HEX.. [--features LIST]

Prints the instruction that the bytes start with as an assembler writes it, then
its length, the memory that it wants, and each operand; or the status and why it
is refused, which for status 4 (#UD) is a field and what it must be. An operand in
memory is written with its size and how its address comes about, such as
xmmword ptr [rbx + r12*4 - 0x40], or dword ptr [rip + 0x10]{1to16} for one element
that is repeated. A displacement is in bytes there: EVEX counts one of a single
byte in vectors, or in elements. tarhuspo address works the address out.

  HEX              the bytes, as pairs of hex digits, with or without spaces
                   and 0x
";

const DECODE_END: &str = "
example: tarhuspo decode 62 F1 7D C9 70 CA 1B --features avx,avx512f

exit status: 0 accepted, 1 refused, 2 bad usage, 3 internal error
";

const ADDRESS: &str = "\
usage: tarhuspo address HEX.. [--at ADDRESS] [--gpr LIST].. [--features LIST]

Prints the address of the memory operand, for the instruction that the bytes start
with; then the operand as decode writes it, and the value of each register in it,
where rip is the address of the next instruction. The sum wraps around at 64 bits,
and the base of a segment is not in it. An instruction without a memory operand is
said to have none; one that is refused has its status and why. Status 4 (#UD)
comes with a reason: tarhuspo help decode lists them.

  HEX              the bytes, as pairs of hex digits, with or without spaces
                   and 0x
  --at ADDRESS     where the instruction stands, which matters for rip alone; 0 if
                   not given
  --gpr LIST       general registers (rax, rcx, rdx, rbx, rsp, rbp, rsi, rdi, r8
                   to r15) with their values, between commas; 0 if not given; may
                   be given several times
";

const ADDRESS_END: &str = "
Addresses and values are decimal, or hex with 0x in front.

example: tarhuspo address 62B17D48704CA3FF1B --gpr rbx=0x1000,r12=8

exit status: 0 accepted, also without a memory operand; 1 refused; 2 bad usage;
3 internal error
";

const RUN: &str = "\
usage: tarhuspo run CODE [--hex] [--registers FILE] [--masks FILE]
                    [--features LIST] [--budget N] [--out FILE [--keep-steps]]

Carries out the instructions of CODE. Prints how many (steps), where the next or
the refused one starts (place), the status (answer), and the registers that
changed, with the numbers of the changed bytes. Status 4 (#UD) comes with a
reason: tarhuspo help decode lists them.

  --registers FILE the registers before: 2,048 bytes, zmm0 first, in each the
                   lowest byte first; all zero if not given
  --budget N       the most instructions to carry out; 4,096 if not given, which
                   is enough for every list
  --out FILE       where the registers go afterwards, 2,048 bytes; written only
                   if the answer is 0, or with --keep-steps
  --keep-steps     writes --out after a refusal too: the registers as they are
                   after the steps that were carried out
";

const RUN_END: &str = "
example: tarhuspo run hex:C5F970CA1B --registers before.bin --out after.bin

exit status: 0 the end was reached or the budget was spent; 1 refused, also with
--keep-steps; 2 bad usage, or a file that cannot be read or written
";

const MAP: &str = "\
usage: tarhuspo map build CODE [--hex] [--masks FILE] [--features LIST]
                    [--out FILE]
       tarhuspo map apply MAP --registers FILE [--out FILE]
       tarhuspo map compose MAP MAP.. [--out FILE]
       tarhuspo map show MAP [--svg FILE]

A byte map says for each of the 2,048 register bytes where it comes from. MAP is
a file of 2,048 little-endian numbers of 16 bits, or - for standard input. Number
64 r + i is for byte i of register r. It is 64 s + j if byte j of register s comes
there, or 2048 for zero.

build writes the map of a list, apply moves the bytes of a file of registers, and
compose writes one map for several in the order of applying. show prints what
moves, in runs such as zmm1[0..3] from zmm2[12..15], and leaves out what stays.
A list with a memory operand has no map, nor has one with a control in a register:
VPERMB, VPSHUFB, and VPERMILPD or VPERMILPS without an immediate. Status 4 (#UD)
comes with a reason: tarhuspo help decode lists them.

  --registers FILE 2,048 bytes, zmm0 first, in each the lowest byte first
  --out FILE       where the map or the registers go; standard output if not
                   given, unless that is a terminal
  --svg FILE       draws the map as well: a row for each register, a cell for
                   each byte; with -, prints the drawing and no text
";

const MAP_END: &str = "
example: tarhuspo map build hex:C5F970CA1B | tarhuspo map show -

exit status: 0 done, 1 refused, 2 bad usage, or a file that cannot be read or
written
";

const COMPARE: &str = "\
usage: tarhuspo compare CODE CODE.. [--hex] [--masks FILE] [--features LIST]

Builds the byte map of each list, and compares it with that of the first. Lists
are the same if no starting registers tell them apart. Otherwise the lowest
register byte that differs is named, with where each list takes it from. Status 4
(#UD) comes with a reason: tarhuspo help decode lists them.

";

const COMPARE_END: &str = "
example: tarhuspo compare hex:C5F970CA1B hex:C5F970CAE4

exit status: 0 all are the same, 1 some differ or are refused, 2 bad usage, or a
file that cannot be read
";

const AUDIT: &str = "\
usage: tarhuspo audit [--seconds N | --steps N | --case N] [--seed N]

Carries out random instructions on this machine's processor and with the library.
After each it compares 2,048 register bytes (32 registers of 64 bytes), 8 opmasks
of 64 bits, the memory operand, status, reason and length, and guard bytes around
all buffers. The general registers are random too, and the memory operand stands
where the library works out its address, among other bytes: the processor has to
find it there. Damaged encodings must raise #UD and be refused with status 4 and
the damaged field as the reason; b with a register as third operand, which some
processors ignore, must be refused all the same. EVEX maps 4 to 7 are left out,
where newer processors may have instructions, and the EVEX fixed bits where APX is
on, which has a meaning for them. It ends at the first difference, and prints all
that is needed to repeat that.

  --seconds N      stop after N seconds; 10 if nothing is given
  --steps N        stop after N instructions, accepted and refused ones together
  --case N         only case N, as a difference names it
  --seed N         other instructions and registers; 1 if not given

example: tarhuspo audit --seconds 60 --seed 7

exit status: 0 no difference, 1 a difference, 2 bad usage, or nothing can be
compared here
";
