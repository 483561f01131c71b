#!/usr/bin/env python3
"""The expected output of the program `cases` (crates/cases/stdout), worked out without the library.

Each line of document 01's table of cases, and each case of requests 1, 3, 6 and 7, has its answer, length, memory and destination
bytes written here by hand, from the papers' rules for the instruction: there is no decoder. From the repository's top,
`python3 docs/cases.py > crates/cases/stdout` writes the file. `.ci/run` compares the file with what this prints, and
in it `rt ci` with what the program prints.
"""

REGISTERS, BYTES = 32, 64
MASKS = [0, 0x5555, 0x2222, 0x3333, 0x4444, 0x6666, 0x7777, 0x8888]


# Parts of a destination, as the numbers that the program shows: 0 for zero, offset + 1, 3001 + memory place.

def register(r, start, count):
    return [BYTES * r + start + b + 1 for b in range(count)]


def dwords(r, which):
    return [n for k in which for n in register(r, 4 * k, 4)]


def qwords(r, which):
    return [n for k in which for n in register(r, 8 * k, 8)]


def memory_dwords(which):
    return [3001 + 4 * k + b for k in which for b in range(4)]


def zeros(count):
    return [0] * count


# Elements of registers 2 and 3 in turn, by their numbers.
def in_turn(part, which):
    return [n for k in which for r in (2, 3) for n in part(r, [k])]


# Every lane's four doublewords are one of its own.
def repeated_dword(r, k):
    return [n for lane in range(4) for n in dwords(r, [4 * lane + k] * 4)]


# Imm8 1B is 00 01 10 11 from its high bits: doublewords 3, 2, 1, 0 of each lane.
def turned(r, lane):
    return dwords(r, [4 * lane + 3, 4 * lane + 2, 4 * lane + 1, 4 * lane])


# k1 is 5555, so of each lane's four doublewords the second and the fourth are cleared.
def turned_even(r, lane):
    return dwords(r, [4 * lane + 3]) + zeros(4) + dwords(r, [4 * lane + 1]) + zeros(4)


def accepted(length, memory, destination, content):
    return (0, length, memory, destination, content)


def refused(answer):
    return (answer, 0, 0, None, None)


# Answer 4 with the number of the wrong field.
FIXED_BITS, W, WIDTH, VVVV, B, Z = range(1, 7)


def wrong(field):
    return refused(f"4:{field}")


# Document 01's cases.
BASE = [
    # VPSHUFD xmm1, xmm2, 1B
    ("C5 F9 70 CA 1B", accepted(5, 0, 1, turned(2, 0) + zeros(48))),
    # The immediate is missing.
    ("C5 F9 70 CA", refused(2)),
    # vvvv is not all ones.
    ("C5 E9 70 CA 1B", wrong(VVVV)),
    # VPSHUFD zmm1{k1}{z}, zmm2, 1B
    ("62 F1 7D C9 70 CA 1B",
     accepted(7, 0, 1, turned_even(2, 0) + turned_even(2, 1) + turned_even(2, 2) + turned_even(2, 3))),
    # z with mask 0.
    ("62 F1 7D C8 70 CA 1B", wrong(Z)),
    # Width 3.
    ("62 F1 7D 68 70 CA 1B", wrong(WIDTH)),
    # VPSHUFD zmm1, m32 repeated, 00
    ("62 F1 7D 58 70 08 00", accepted(7, 4, 1, memory_dwords([0] * 16))),
    # b with a register.
    ("62 F1 7D 58 70 CA 1B", wrong(B)),
    # VPSHUFD zmm17, zmm26, 1B
    ("62 81 7D 48 70 CA 1B", accepted(7, 0, 17, turned(26, 0) + turned(26, 1) + turned(26, 2) + turned(26, 3))),
    # VPERMILPD ymm1, ymm2, 05
    ("C4 E3 7D 05 CA 05", accepted(6, 0, 1, qwords(2, [1, 0, 3, 2]) + zeros(32))),
    # VPERM2F128 with L 0.
    ("C4 E3 69 06 CB 31", wrong(WIDTH)),
    # VPERMB with b.
    ("62 F2 6D 58 8D 08", wrong(B)),
    # VPERMILPD xmm1, xmm2, xmm3. Quadwords 0 and 1 of xmm3 begin with 193 (C1) and 201 (C9) in the low file and
    # with 0 in the high file: bit 1 is 0 in each, so both quadwords take the low one.
    ("C4 E2 69 0D CB", accepted(5, 0, 1, qwords(2, [0, 0]) + zeros(48))),
    # VUNPCKLPS xmm1, xmm2, xmm3
    ("C5 E8 14 CB", accepted(4, 0, 1, dwords(2, [0]) + dwords(3, [0]) + dwords(2, [1]) + dwords(3, [1]) + zeros(48))),
    # VPSHUFD xmm0, m128 with SIB and one byte of displacement, 1B
    ("C5 F9 70 44 88 10 1B", accepted(7, 16, 0, memory_dwords([3, 2, 1, 0]) + zeros(48))),
    # VPERM2F128 ymm1, ymm2, ymm3, 88
    ("C4 E3 6D 06 CB 88", accepted(6, 0, 1, zeros(64))),
]

# The numbers in register 2 are 129 to 192, so its bytes are 0 in the high file, and what a control takes from it there
# is 0 too. Register 3 has the numbers 193 to 256: byte 63 is 0 in the low file and 1 in the high file, and the bytes
# before it are C1 to FF in the low file and 0 in the high file.

# As VPSHUFB's controls, C1 to FF clear. Byte 63 takes byte 0 of its lane in the low file.
SHUFFLED = zeros(63) + register(2, 48, 1)

# As VPERMILPS's controls, the doublewords of register 3 begin with 01 in their low bits in the low file, and so does
# memory, whose first byte is 3001 % 256 = B9.
SECOND_DWORDS = repeated_dword(2, 1)

# k1 is 5555: of lane 0 the even bytes are cleared as above and the odd ones kept, and the other lanes are kept whole.
KEPT_ODD = [0 if b % 2 == 0 else 64 + b + 1 for b in range(16)] + register(1, 16, 48)

# Request 1's cases, and more of its instructions with controls: the features stand in front.
MORE = [
    # VUNPCKHPS xmm1, xmm2, xmm3
    (63, "C5 E8 15 CB", accepted(4, 0, 1, in_turn(dwords, [2, 3]) + zeros(48))),
    # VPERMILPS xmm1, xmm2, 1B: as case 1.
    (63, "C4 E3 79 04 CA 1B", accepted(6, 0, 1, turned(2, 0) + zeros(48))),
    # VPSHUFB zmm1, zmm2, zmm3, with W 0 and with W 1
    (63, "62 F2 6D 48 00 CB", accepted(6, 0, 1, SHUFFLED)),
    (63, "62 F2 ED 48 00 CB", accepted(6, 0, 1, SHUFFLED)),
    # VPSHUFB with b.
    (63, "62 F2 6D 58 00 08", wrong(B)),
    # AVX512BW is missing.
    (31, "62 F2 6D 48 00 CB", refused(5)),
    # VUNPCKLPD xmm1, xmm2, xmm3, with W 0 and with W 1
    (63, "C5 E9 14 CB", accepted(4, 0, 1, in_turn(qwords, [0]) + zeros(48))),
    (63, "C4 E1 E9 14 CB", accepted(5, 0, 1, in_turn(qwords, [0]) + zeros(48))),
    # Under EVEX, W 0 has no row.
    (63, "62 F1 6D 48 14 CB", refused(3)),
    # VUNPCKLPD zmm1, zmm2, zmm3
    (63, "62 F1 ED 48 14 CB", accepted(6, 0, 1, in_turn(qwords, [0, 2, 4, 6]))),
    # VUNPCKHPD xmm1, xmm2, xmm3
    (63, "C5 E9 15 CB", accepted(4, 0, 1, in_turn(qwords, [1]) + zeros(48))),
    # VPERMILPS zmm1, zmm2, zmm3, and with m32 repeated
    (63, "62 F2 6D 48 0C CB", accepted(6, 0, 1, SECOND_DWORDS)),
    (63, "62 F2 6D 58 0C 08", accepted(6, 4, 1, SECOND_DWORDS)),
    # VPSHUFB zmm1{k1}, zmm2, zmm3
    (63, "62 F2 6D 49 00 CB", accepted(6, 0, 1, KEPT_ODD)),
]

# Request 3: the fields that no case above has by itself, and two wrong fields at once, of which the first counts. What is
# changed in VPSHUFD zmm1, zmm2, 1B (62 F1 7D 48 70 CA 1B): F9 has bit 3 of the second byte, 75 a vvvv of 1110b, and of the
# fourth byte 20 makes the width 3, 10 is b and 80 is z.
RESERVED = [
    ("62 F9 7D 48 70 CA 1B", wrong(FIXED_BITS)),
    # VPERM2F128 with W 1.
    ("C4 E3 ED 06 CB 21", wrong(W)),
    # Fixed bits with the width, vvvv, b and z.
    ("62 F9 7D 68 70 CA 1B", wrong(FIXED_BITS)),
    ("62 F9 75 48 70 CA 1B", wrong(FIXED_BITS)),
    ("62 F9 7D 58 70 CA 1B", wrong(FIXED_BITS)),
    ("62 F9 7D C8 70 CA 1B", wrong(FIXED_BITS)),
    # W with the width (VPERM2F128, L 0) and with vvvv (VPERMILPD).
    ("C4 E3 E9 06 CB 31", wrong(W)),
    ("C4 E3 F5 05 CA 05", wrong(W)),
    # The width with vvvv, b and z.
    ("62 F1 75 68 70 CA 1B", wrong(WIDTH)),
    ("62 F1 7D 78 70 CA 1B", wrong(WIDTH)),
    ("62 F1 7D E8 70 CA 1B", wrong(WIDTH)),
    # vvvv with b and z, and b with z.
    ("62 F1 75 58 70 CA 1B", wrong(VVVV)),
    ("62 F1 75 C8 70 CA 1B", wrong(VVVV)),
    ("62 F1 7D D8 70 CA 1B", wrong(B)),
]

# Request 6: sets of features that no processor has, then no feature at all and one that is complete.
FEATURE_SETS = [
    # AVX2 without AVX.
    (2, "C5 FD 70 CA 1B", refused(1)),
    # AVX512F without AVX.
    (4, "62 F1 7D 48 70 CA 1B", refused(1)),
    # AVX512VL alone.
    (8, "C5 F9 70 CA 1B", refused(1)),
    # AVX, and AVX512VL, AVX512_VBMI or AVX512BW without AVX512F.
    (9, "62 F1 7D 28 70 CA 1B", refused(1)),
    (17, "62 F2 6D 48 8D CB", refused(1)),
    (33, "62 F2 6D 48 00 CB", refused(1)),
    # All but AVX512F, and all but AVX.
    (59, "C5 F9 70 CA 1B", refused(1)),
    (62, "C5 F9 70 CA 1B", refused(1)),
    (0, "C5 F9 70 CA 1B", refused(5)),
    # VPSHUFD ymm1, ymm2, 1B under EVEX, with AVX, AVX512F and AVX512VL
    (13, "62 F1 7D 28 70 CA 1B", accepted(7, 0, 1, turned(2, 0) + turned(2, 1) + zeros(32))),
]

# Request 7: of P bit 3 is fixed and bits 2:0 are the map; of Q bit 2 is fixed. P bit 3 by itself is the first case of request 3.
MAPS = [
    # Maps 5, 4 and 0.
    ("62 F5 7D 48 70 CA 1B", refused(3)),
    ("62 F4 7D 48 70 CA 1B", refused(3)),
    ("62 F0 7D 48 70 CA 1B", refused(3)),
    # Bit 2 of Q is 0.
    ("62 F1 79 48 70 CA 1B", wrong(FIXED_BITS)),
    # Map 5 with bit 3 of P, and with bit 2 of Q.
    ("62 FD 7D 48 70 CA 1B", wrong(FIXED_BITS)),
    ("62 F5 79 48 70 CA 1B", wrong(FIXED_BITS)),
]


def under(features, cases):
    return [(features, code, result) for code, result in cases]


CASES = under(31, BASE) + MORE + under(63, RESERVED) + FEATURE_SETS + under(63, MAPS)

# Controls for a lane. Every lane of register 3 and of memory has them, in both files.

# Quadwords 2 (bit 1 is 1: high) and 1 (bit 1 is 0: low).
QWORDS_2_1 = [2] + [0] * 7 + [1] + [0] * 7
# As request 1 lists them: they take bytes 0, 15, 0, 15 of their lane, and the last two clear.
SIX = [0x00, 0x0F, 0x10, 0x7F, 0x80, 0xFF]
BYTE_CONTROLS = SIX + SIX + SIX[:4]
# Of which bits 1:0 count.
DWORDS_3210 = [3, 0, 0, 0, 2, 0, 0, 0, 1, 0, 0, 0, 0, 0, 0, 0]
DWORDS_6745 = [6, 0, 0, 0, 7, 0, 0, 0, 4, 0, 0, 0, 5, 0, 0, 0]


def by_bytes(r, lane):
    low, high = register(r, 16 * lane, 1), register(r, 16 * lane + 15, 1)
    six = low + high + low + high + zeros(2)
    return six + six + low + high + low + high


# Case 30: its even bytes of lane 0 are those of case 19.
def even_by_bytes():
    return [by_bytes(2, 0)[b] if b % 2 == 0 else KEPT_ODD[b] for b in range(16)] + register(1, 16, 48)


# The number of a case, its controls, and what the destination gets.
CONTROLLED = [
    (13, QWORDS_2_1, qwords(2, [1, 0]) + zeros(48)),
    (19, BYTE_CONTROLS, by_bytes(2, 0) + by_bytes(2, 1) + by_bytes(2, 2) + by_bytes(2, 3)),
    (28, DWORDS_3210, turned(2, 0) + turned(2, 1) + turned(2, 2) + turned(2, 3)),
    (28, DWORDS_6745, dwords(2, [2, 3, 0, 1, 6, 7, 4, 5, 10, 11, 8, 9, 14, 15, 12, 13])),
    # One doubleword is repeated, the first.
    (29, DWORDS_3210, repeated_dword(2, 3)),
    (29, DWORDS_6745, repeated_dword(2, 2)),
    (30, BYTE_CONTROLS, even_by_bytes()),
]


def plain_numbers():
    return [p + 1 for p in range(REGISTERS * BYTES)]


# The same control bytes stand in both files, so a control byte c is shown as c + 256 c.
def controlled_numbers(control):
    numbers = plain_numbers()
    numbers[3 * BYTES:4 * BYTES] = [c + 256 * c for c in 4 * control]
    return numbers


def digest(numbers):
    d = 0
    for n in numbers:
        d = (d * 16777619 + n) % 2**32
    return d


def show(code, result, numbers):
    answer, length, memory, destination, content = result
    print(code.lower())
    print(f"decode: answer {answer}, length {length}, memory {memory}")
    print(f"step, low file: answer {answer}, length {length}")
    print(f"step, high file: answer {answer}, length {length}")
    if answer == 0:
        assert len(content) == BYTES
        print(f"register {destination}:")
        for lane in range(4):
            print("".join(f" {n}" for n in content[16 * lane:16 * lane + 16]))
        rest = numbers[:BYTES * destination] + numbers[BYTES * destination + BYTES:]
        which = "other registers"
    else:
        rest = numbers
        which = "all registers"
    d = f"{digest(rest):08x}"
    print(f"{which} unchanged: digest {d} before, {d} after")


def show_controlled(number, control, content):
    features, code, (answer, length, memory, destination, _) = CASES[number - 1]
    lane = "".join(f" {c:02x}" for c in control)
    print()
    print(f"case {number} with features {features}, every lane of register 3 and of memory{lane}: ", end="")
    show(code, (answer, length, memory, destination, content), controlled_numbers(control))


def main():
    print("masks:" + "".join(f" {m:x}" for m in MASKS))
    print("files: byte p is (p + 1) % 256 in the low file and (p + 1) / 256 in the high file")
    print("memory: byte j is (3001 + j) % 256 for the low file and (3001 + j) / 256 for the high file")
    print("shown: low byte + 256 * high byte, so 0 is zero, p + 1 the byte from offset p, 3001 + j memory byte j")
    print("digest: from 0, d = (16777619 * d + number) % 4294967296 over the numbers shown, in the order of offsets")
    for number, (features, code, result) in enumerate(CASES, 1):
        print()
        print(f"case {number} with features {features}: ", end="")
        show(code, result, plain_numbers())
    for number, control, content in CONTROLLED:
        show_controlled(number, control, content)


main()
