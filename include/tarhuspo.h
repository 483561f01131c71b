/*
 * Tarhuspo: a proved decoder and emulator of AVX permute instructions (64-bit code, VEX and EVEX
 * encodings).
 *
 * Link with target/staticlib/libtarhuspo.a, which tools/staticlib.sh proves and builds for x86-64.
 * It defines the functions of this header and no other global symbol.
 * Symbols that it takes from outside: memcpy.
 *
 * For every caller:
 *  - Each _len counts elements of its pointer's type: bytes for uint8_t, masks or registers for
 *    uint64_t, map entries for uint16_t. It never counts bits, nor the bytes that masks, registers
 *    or entries take.
 *  - A pointer must not be null, also where its length is 0, must be aligned for its type, and must
 *    be valid for that length.
 *  - A buffer that a call writes to must not overlap another one of that call. Those that are only
 *    read may. Nothing else may write to any of them during the call.
 *  - Nothing else is asked. Every content and every length is allowed and has a defined answer.
 *  - No function allocates, keeps a pointer after it returns, or has state of its own, so that
 *    any number of threads may call at once.
 */
#ifndef TARHUSPO_H
#define TARHUSPO_H

#include <stddef.h>
#include <stdint.h>

#ifdef __cplusplus
extern "C" {
#endif

/*
 * The version. MAJOR moves when a caller's source or stored answers can break: a struct's layout, a
 * size or limit, an answer that changes for some input. MINOR moves when something is only added: a
 * function, a constant, an instruction that status 3 refused before.
 */
#define TARHUSPO_VERSION_MAJOR 6
#define TARHUSPO_VERSION_MINOR 0

/*
 * Processor features: add those that the processor has. Every other feature needs AVX, and
 * AVX512VL, AVX512_VBMI and AVX512BW need AVX512F as well. 0, no feature, is a set too.
 *
 * Any other number, and so each over 63, is a set that no processor has: every function that takes
 * features refuses it with status 1, before it looks at anything else. 19 numbers pass. To ask
 * about one, decode no bytes: tarhuspo_decode(code, 0, features).status is 2 if it passes, else 1.
 */
#define TARHUSPO_AVX UINT32_C(1)
#define TARHUSPO_AVX2 UINT32_C(2)
#define TARHUSPO_AVX512F UINT32_C(4)
#define TARHUSPO_AVX512VL UINT32_C(8)
#define TARHUSPO_AVX512_VBMI UINT32_C(16)
#define TARHUSPO_AVX512BW UINT32_C(32)

/*
 * The reason of status 4: the reserved field that is wrong. These say what the field must be. Where
 * several fields are wrong, the lowest number is given; with every other status the reason is 0.
 */
/* EVEX: bit 3 of the second byte is 0, and bit 2 of the third is 1. */
#define TARHUSPO_REASON_FIXED_BITS UINT32_C(1)
/* W is 0 in the VEX forms of VPERMILPD, VPERMILPS and VPERM2F128. */
#define TARHUSPO_REASON_W UINT32_C(2)
/* L'L is not 11b under EVEX, and L is 1 in VPERM2F128. */
#define TARHUSPO_REASON_WIDTH UINT32_C(3)
/* vvvv is 1111b, and V' is 1 under EVEX, in a form without a first source. */
#define TARHUSPO_REASON_VVVV UINT32_C(4)
/* b is 0 with a register as third operand, and on VPERMB and VPSHUFB. */
#define TARHUSPO_REASON_B UINT32_C(5)
/* z is 0 without an opmask (aaa 000b). */
#define TARHUSPO_REASON_Z UINT32_C(6)

/* Sizes: bytes of the register file, opmasks, general registers, and entries of a byte map. */
#define TARHUSPO_FILE_SIZE 2048
#define TARHUSPO_MASK_COUNT 8
#define TARHUSPO_GPR_COUNT 16
#define TARHUSPO_MAP_SIZE 2048
/* The entry of a byte map that stands for a zero byte. */
#define TARHUSPO_MAP_ZERO 2048
/* Most bytes of a list of instructions, and a number of instructions that no list exceeds. */
#define TARHUSPO_CODE_LIMIT 16384
#define TARHUSPO_MOST_STEPS 4096
/* Least bytes of text for a piece of a listing, and a number of them that holds a whole one. */
#define TARHUSPO_TEXT_LEAST 64
#define TARHUSPO_TEXT_WHOLE 110616

/*
 * A decoded instruction.
 *
 * status is 0 if the instruction is accepted. Otherwise it says what is wrong, and every other
 * field is 0, but for the reason of a 4. The first of these that applies is given:
 *
 *  1  features is a set that no processor has: see the feature macros.
 *  2  There is no byte.
 *  3  The first byte is not C4, C5 or 62 (hexadecimal, as below).
 *  2  The bytes end before the opcode does.
 *  4  EVEX: bit 3 of the second byte is not 0, or bit 2 of the third is not 1. This is
 *     TARHUSPO_REASON_FIXED_BITS.
 *  3  No supported instruction has this prefix kind, pp, map and opcode, and under EVEX this W.
 *     The EVEX map is bits 2 to 0 of the second byte. Only maps 1, 2 and 3 have instructions here.
 *  2  The bytes end before the instruction does.
 *  4  A reserved field is wrong (the processor raises #UD): VEX W is 1 where it must be 0,
 *     VPERM2F128 has 128 bits, the EVEX width is 3, vvvv or V' is not all ones in a form without
 *     a first source, the broadcast bit is set with a register as third operand or on VPERMB or
 *     VPSHUFB, or zeroing is set without an opmask. The reason is the lowest of those that hold,
 *     TARHUSPO_REASON_W to TARHUSPO_REASON_Z.
 *  5  The instruction needs a feature that features does not have (#UD).
 */
typedef struct {
    uint32_t status;        /* 0 accepted, or 1 to 5 as above */
    uint32_t length;        /* bytes of the instruction; those behind are ignored */
    uint32_t memory;        /* bytes that the memory operand has, 0 for a register form */
    uint32_t mnemonic;      /* 1 VPERMILPD, 2 VPERMB, 3 VUNPCKLPS, 4 VPSHUFD, 5 VPERM2F128,
                               6 VPERMILPS, 7 VUNPCKHPS, 8 VUNPCKLPD, 9 VUNPCKHPD, 10 VPSHUFB */
    uint32_t bits;          /* vector width: 128, 256 or 512 */
    uint32_t evex;          /* 1 for an EVEX encoding, 0 for VEX */
    uint32_t destination;   /* destination register, 0 to 31 */
    uint32_t first;         /* first source register, 0 where the form has none */
    uint32_t third;         /* register of the third operand (ModRM r/m), 0 for a memory form */
    uint32_t mask;          /* opmask register, 0 for none and under VEX */
    uint32_t zeroing;       /* 1 if masked-off elements are zeroed, 0 if they are kept */
    uint32_t broadcast;     /* 1 if the memory operand is one element for all */
    uint32_t has_immediate; /* 1 if the form has an immediate byte */
    uint32_t immediate;     /* the immediate byte, 0 where there is none */
    uint32_t reason;        /* with status 4 a TARHUSPO_REASON_ number, else 0 */
} tarhuspo_decoded;

/*
 * Decodes the instruction at the start of code, which has code_len bytes: none, or any number.
 * Bytes after the instruction make no difference. Writes to no memory but the result.
 */
tarhuspo_decoded tarhuspo_decode(const uint8_t *code, size_t code_len, uint32_t features);

/*
 * Where a memory operand is.
 *
 * status is 0 if the instruction is accepted. Otherwise it says what is wrong, and every other
 * field is 0, but for the reason of a 4. The first of these that applies is given:
 *
 *  1  registers_len is not 16, or features is a set that no processor has.
 *  2 to 5  The instruction is not accepted: as tarhuspo_decode, in its order and with its reason.
 */
typedef struct {
    uint64_t address;     /* address of the operand's first byte, 0 for a register form */
    uint32_t status;      /* 0 accepted, or 1 to 5 as above */
    uint32_t reason;      /* with status 4 a TARHUSPO_REASON_ number, else 0 */
    uint32_t has_address; /* 1 for a memory form, 0 for a register form */
} tarhuspo_addressed;

/*
 * Gives the address of the memory operand of the instruction at the start of code. How many bytes
 * the operand has is what tarhuspo_decode gives as memory.
 *
 * registers are the 16 general registers, in the order of their numbers: rax, rcx, rdx, rbx, rsp,
 * rbp, rsi, rdi, r8 to r15. instruction_address is where the instruction itself stands.
 *
 * The address is base + scale * index + displacement, modulo 2^64, of which the encoding has:
 *
 *  - As base the register B.r/m, or B.base with a SIB byte. Where mod is 0, a 5 in r/m stands for
 *    the address of the next instruction (instruction_address and the length, immediate included),
 *    and a 5 in the SIB's base for nothing, whatever B is.
 *  - With a SIB byte, as index the register X.index, but none if that is 4. So index 4 with X 1 is
 *    r12. X and B are written inverted in the prefix, and are 0 if that is C5.
 *  - A signed displacement of 1 or 4 bytes, or none. Under EVEX one of 1 byte is multiplied by the
 *    bytes of the vector (16, 32 or 64), or with a broadcast by those of the element (4 or 8): at
 *    512 bits FF is -64. VEX does not multiply, and 4 bytes are never multiplied.
 *
 * Left out are segment bases, the address-size prefix 67, and whether the address is canonical. Code
 * that begins with any such prefix is refused with 3: to skip one for fs or gs, pass the code and
 * the instruction_address behind it, and add the segment's base to the address. The memory itself
 * is not read. Writes to no memory but the result.
 */
tarhuspo_addressed tarhuspo_address(const uint8_t *code, size_t code_len, uint32_t features,
                                    const uint64_t *registers, size_t registers_len,
                                    uint64_t instruction_address);

/*
 * The result of a step.
 *
 * status is 0 if the instruction was carried out. Otherwise it says what is wrong, and length is 0.
 * The first of these that applies is given:
 *
 *  1  file_len is not 2048, masks_len is not 8, or features is a set that no processor has.
 *  2 to 5  The instruction is not accepted: as tarhuspo_decode, in its order and with its reason.
 *  6  memory_len is not exactly what tarhuspo_decode gives as memory: 0 for a register form, the
 *     vector width for a memory form, one element for a broadcast. An opmask changes nothing in
 *     that, even if it leaves no element.
 */
typedef struct {
    uint32_t status; /* 0 done, or 1 to 6 as above */
    uint32_t length; /* bytes of the instruction; those behind are ignored */
    uint32_t reason; /* with status 4 a TARHUSPO_REASON_ number, else 0 */
} tarhuspo_stepped;

/*
 * Carries out the instruction at the start of code on the register file.
 *
 * Byte i of register r is file[64 * r + i], lowest byte first. masks[k] is opmask k: its bit j is
 * for element j, and bits past the last element do not count. Nor does masks[0], because opmask 0
 * stands for no masking. All sources are read before the destination is written, so they may be
 * the same register. memory has the bytes of the memory operand, and no other memory is read: where
 * the operand is for the instruction, tarhuspo_address tells.
 *
 * If status is 0, the 64 bytes of the destination register are changed and no others: elements
 * that the opmask lets through get their new value, the others are kept or zeroed, and bytes above
 * the vector width are zeroed. If status is not 0, nothing is changed. code, masks and memory are
 * never written to.
 */
tarhuspo_stepped tarhuspo_step(const uint8_t *code, size_t code_len, uint8_t *file, size_t file_len,
                               const uint64_t *masks, size_t masks_len, uint32_t features,
                               const uint8_t *memory, size_t memory_len);

/*
 * The result of a run.
 *
 * status is 0 if the end of the code was reached or the budget was spent. Otherwise it is the first
 * of these that applies:
 *
 *  1  file_len is not 2048, masks_len is not 8, or features is a set that no processor has.
 *  8  code_len is over 16384.
 *  2 to 6  The instruction at place is refused: as tarhuspo_step without memory, with its reason.
 *     Every memory form that is not refused with 2 to 5 is refused with 6.
 *
 * 1 and 8 are given whatever the budget is, also if it is 0.
 */
typedef struct {
    uint64_t steps;  /* instructions carried out, 0 for 1 and 8 */
    uint64_t place;  /* where the next or the refused instruction starts, 0 for 1 and 8 */
    uint32_t status; /* 0, or 1 to 6 or 8 as above */
    uint32_t reason; /* with status 4 a TARHUSPO_REASON_ number, else 0 */
} tarhuspo_ran;

/*
 * Carries out the instructions of code, one behind the other, at most budget of them. The one after
 * a spent budget is not looked at. 4096 is enough for every list, since no instruction is shorter
 * than 4 bytes.
 *
 * The register file is left as steps calls of tarhuspo_step leave it, also if a later instruction
 * is refused. For 1 and 8 nothing is changed. code and masks are never written to.
 */
tarhuspo_ran tarhuspo_run(const uint8_t *code, size_t code_len, uint8_t *file, size_t file_len,
                          const uint64_t *masks, size_t masks_len, uint32_t features,
                          uint64_t budget);

/*
 * The result of building a byte map.
 *
 * status is 0 if the map was written. Otherwise it is the first of these that applies:
 *
 *  1  map_len is not 2048, masks_len is not 8, or features is a set that no processor has.
 *  8  code_len is over 16384.
 *  2 to 5, 7  The instruction at place is refused: 2 to 5 as tarhuspo_decode, with its reason,
 *     then 7 for a memory form, and for one whose control is in a register (VPERMB, VPSHUFB, and
 *     VPERMILPD or VPERMILPS without an immediate).
 */
typedef struct {
    uint64_t place;  /* code_len if status is 0, else where the refused instruction starts, or 0
                        for 1 and 8 */
    uint32_t status; /* 0, or 1 to 5, 7 or 8 as above */
    uint32_t reason; /* with status 4 a TARHUSPO_REASON_ number, else 0 */
} tarhuspo_built;

/*
 * Writes the byte map of a list of instructions: entry i tells where byte i of the register file
 * comes from when the whole list is run. Below 2048 it is a place in the file before the run, and
 * 2048 stands for a zero byte.
 *
 * If status is 0, all 2048 entries are written, and what they held before does not count.
 * Otherwise nothing is changed. code and masks are never written to.
 */
tarhuspo_built tarhuspo_bytemap_build(const uint8_t *code, size_t code_len, const uint64_t *masks,
                                      size_t masks_len, uint32_t features, uint16_t *map,
                                      size_t map_len);

/*
 * Replaces byte i of the register file by the byte that stood at place map[i] before the call, or
 * by 0 if map[i] is 2048. Any map may be applied, built or not.
 *
 * Gives 0, or the first of these that applies, and then nothing is changed:
 *
 *  1  map_len or file_len is not 2048.
 *  9  An entry of map is over 2048.
 *
 * map is never written to.
 */
uint32_t tarhuspo_bytemap_apply(const uint16_t *map, size_t map_len, uint8_t *file,
                                size_t file_len);

/*
 * Writes the map that does what first and then second do: an entry of 2048 in second stays, and an
 * entry e below becomes entry e of first. Any maps may be composed, built or not.
 *
 * Gives 0, or the first of these that applies, and then nothing is changed:
 *
 *  1  first_len, second_len or out_len is not 2048.
 *  9  An entry of first or of second is over 2048, whether or not the other map names it. What out
 *     held before does not count.
 *
 * first and second are never written to.
 */
uint32_t tarhuspo_bytemap_compose(const uint16_t *first, size_t first_len, const uint16_t *second,
                                  size_t second_len, uint16_t *out, size_t out_len);

/*
 * The result of a listing, which is one piece of its text.
 *
 * status is 0 if the piece was written, also for code that is refused. Otherwise it is the first of
 * these that applies, and written, next and more are 0:
 *
 *  1  text_len is under 64, or place is over code_len.
 *  8  code_len is over 16384.
 */
typedef struct {
    uint64_t written; /* bytes of text that were written */
    uint64_t next;    /* the place of the next piece if more is 1, else where the listing ended */
    uint32_t status;  /* 0, or 1 or 8 as above */
    uint32_t more;    /* 1 if lines remain, else 0 */
} tarhuspo_listed;

/*
 * Writes a list of instructions as text, one piece in each call: from place on, as many whole lines
 * as fit. With place 0, and only then, a line of headings stands in front (at, len, name, bits,
 * answer).
 *
 * Each instruction has a line with its place, length, mnemonic, vector width in bits, and 0. All
 * features count as there, and memory forms are listed like others. The first instruction that
 * tarhuspo_decode refuses has the last line: its place, 0, -, 0, and the status. Behind status 4
 * stand a colon and the reason: 4:1 to 4:6. Numbers are decimal, a tab stands between fields, and a
 * newline ends every line, also the last. No null byte is added.
 *
 * Every place, in text too, is counted in bytes from the start of code. place may be any up to
 * code_len. If it is inside an instruction, the bytes from there on are decoded.
 *
 *  - If a line does not fit, that of a refused instruction included, more is 1, and next is where
 *    its instruction starts.
 *  - If the line of a refused instruction was written, more is 0, and next is where that starts.
 *  - If the code has ended, more is 0, and next is code_len. So a place of code_len gives no line,
 *    but if that is 0 the headings.
 *
 * If more is 1, next is over place, since 64 bytes hold the headings and another line. So this loop
 * ends, at once if a call is refused. Its pieces joined are the same text whatever text_len is,
 * also if that is another one in each call:
 *
 *     size_t place = 0;
 *     tarhuspo_listed l;
 *     do {
 *         l = tarhuspo_listing(code, code_len, place, text, text_len);
 *         fwrite(text, 1, (size_t)l.written, stdout);
 *         place = (size_t)l.next;
 *     } while (l.more);
 *
 * With TARHUSPO_TEXT_WHOLE bytes of text there is one piece. A call looks at no code in front of
 * place: it takes as long as its lines do, wherever they stand.
 *
 * If status is 0, the first written bytes of text are changed and no others. Otherwise nothing is
 * changed. code is never written to.
 */
tarhuspo_listed tarhuspo_listing(const uint8_t *code, size_t code_len, size_t place, uint8_t *text,
                                 size_t text_len);

#ifdef __cplusplus
}
#endif

#endif
