/*
 * Each function of the library once, with its status looked at. Build it at the top of the
 * repository, after tools/staticlib.sh:
 *
 *     cc -std=c11 -I include examples/example.c target/staticlib/libtarhuspo.a -o example
 *
 * examples/example.txt is what it prints.
 */
#include "tarhuspo.h"

#include <inttypes.h>
#include <stdio.h>
#include <stdlib.h>
#include <string.h>

/* What the guest's processor has: AVX512VL, VBMI and BW need AVX512F, and all the others AVX. */
#define FEATURES                                                           \
    (TARHUSPO_AVX | TARHUSPO_AVX2 | TARHUSPO_AVX512F | TARHUSPO_AVX512VL | \
     TARHUSPO_AVX512_VBMI | TARHUSPO_AVX512BW)

/* vunpcklps xmm1, xmm2, xmm3 */
#define UNPACK 0xC5, 0xE8, 0x14, 0xCB
/* vpshufd xmm1, xmm1, 0x1b */
#define SHUFFLE 0xC5, 0xF9, 0x70, 0xC9, 0x1B

static const uint8_t list[] = {UNPACK, SHUFFLE};
static const uint8_t list_twice[] = {UNPACK, SHUFFLE, UNPACK, SHUFFLE};
static const uint8_t list_long[] = {UNPACK, SHUFFLE, UNPACK, SHUFFLE,
                                    UNPACK, SHUFFLE, UNPACK, SHUFFLE};

/* vpshufd zmm1{k1}, dword ptr [rbx + r12*4 - 8]{1to16}, 0x1b */
static const uint8_t broadcast[] = {0x62, 0xB1, 0x7D, 0x59, 0x70, 0x4C, 0xA3, 0xFE, 0x1B};

/* The shuffle with vvvv in use, although it has no first source: #UD */
static const uint8_t undefined[] = {0xC5, 0xE9, 0x70, 0xC9, 0x1B};

/* The guest's registers: byte i of register r is file[64 * r + i]. */
static uint8_t file[TARHUSPO_FILE_SIZE];
static uint64_t masks[TARHUSPO_MASK_COUNT];
/* Its general registers: rax, rcx, rdx, rbx, rsp, rbp, rsi, rdi, r8 to r15. */
static uint64_t general[TARHUSPO_GPR_COUNT];

/* The guest's memory, which is at this address for the guest. */
#define GUEST_START UINT64_C(0x40000000)
static uint8_t guest[4096];

/* Ends the program if a call was refused that should not be. */
static void check(const char *what, uint32_t status)
{
    if (status != 0) {
        fprintf(stderr, "%s: refused with status %" PRIu32 "\n", what, status);
        exit(EXIT_FAILURE);
    }
}

static void expect(const char *what, int holds)
{
    if (!holds) {
        fprintf(stderr, "%s: does not hold\n", what);
        exit(EXIT_FAILURE);
    }
}

static void fill_guest(void)
{
    size_t i;

    for (i = 0; i < sizeof file; i++)
        file[i] = (uint8_t)(i + i / 64);
    for (i = 0; i < sizeof guest; i++)
        guest[i] = (uint8_t)(i + 0x80);
    general[3] = GUEST_START + 16; /* rbx */
    general[12] = 6;               /* r12 */
}

/*
 * Every function refuses features that no processor has, with status 1. Decoding no bytes is how to
 * ask: the status is 2 for features that pass.
 */
static void features(void)
{
    tarhuspo_decoded possible = tarhuspo_decode(list, 0, FEATURES);
    tarhuspo_decoded wrong = tarhuspo_decode(list, 0, FEATURES - TARHUSPO_AVX512F);

    expect("a processor can have these features", possible.status == 2);
    printf("features: no bytes have status %" PRIu32 ", and without AVX512F %" PRIu32 "\n",
           possible.status, wrong.status);
}

/* Decoding tells the length, the operands and how much memory is wanted. */
static uint32_t decode(void)
{
    tarhuspo_decoded d = tarhuspo_decode(broadcast, sizeof broadcast, FEATURES);
    tarhuspo_decoded cut = tarhuspo_decode(broadcast, sizeof broadcast - 1, FEATURES);

    check("decode", d.status);
    printf("decode: mnemonic %" PRIu32 " of %" PRIu32 " bits, %" PRIu32 " bytes long\n", d.mnemonic,
           d.bits, d.length);
    printf("        destination %" PRIu32 ", opmask %" PRIu32 ", ", d.destination, d.mask);
    printf("wants %" PRIu32 " bytes of memory\n", d.memory);
    printf("        without the last byte: status %" PRIu32 "\n", cut.status);
    return d.memory;
}

/* With status 4 the reason names the reserved field that is wrong. */
static void refuse(void)
{
    tarhuspo_decoded d = tarhuspo_decode(undefined, sizeof undefined, FEATURES);

    expect("vvvv is what is wrong", d.status == 4 && d.reason == TARHUSPO_REASON_VVVV);
    printf("refused: status %" PRIu32 ", reason %" PRIu32 ": vvvv must be 1111b\n", d.status,
           d.reason);
}

/* A trap handler finds the memory operand by its address. rip is where the instruction stands. */
static const uint8_t *find(uint32_t wanted, uint64_t rip)
{
    tarhuspo_addressed a = tarhuspo_address(broadcast, sizeof broadcast, FEATURES, general,
                                            TARHUSPO_GPR_COUNT, rip);
    tarhuspo_addressed none = tarhuspo_address(list, sizeof list, FEATURES, general,
                                               TARHUSPO_GPR_COUNT, rip);
    uint64_t place = a.address - GUEST_START;

    check("address", a.status);
    expect("a memory form has an address", a.has_address == 1);
    expect("a register form has none", none.status == 0 && none.has_address == 0);
    /* Where the guest has no such memory, the handler raises a page fault instead. */
    expect("the operand is in memory", place < sizeof guest && wanted <= sizeof guest - place);
    printf("address: %" PRIX64 ", with %02X %02X there\n", a.address, guest[place],
           guest[place + 1]);
    return guest + place;
}

/* A step gets exactly the memory that decoding named, and is refused otherwise. */
static void step(const uint8_t *memory, uint32_t wanted)
{
    tarhuspo_stepped s;

    masks[1] = 0x2; /* element 1 alone is written */
    s = tarhuspo_step(broadcast, sizeof broadcast, file, sizeof file, masks, TARHUSPO_MASK_COUNT,
                      FEATURES, memory, wanted);
    check("step", s.status);
    printf("step: %" PRIu32 " bytes, register 1 has %02X %02X %02X from byte 3 on\n", s.length,
           file[67], file[68], file[69]);
    s = tarhuspo_step(broadcast, sizeof broadcast, file, sizeof file, masks, TARHUSPO_MASK_COUNT,
                      FEATURES, memory, 64);
    printf("      with 64 bytes of memory: status %" PRIu32 "\n", s.status);
}

/* A run of one step, and then of the rest. */
static void run(void)
{
    tarhuspo_ran r = tarhuspo_run(list, sizeof list, file, sizeof file, masks, TARHUSPO_MASK_COUNT,
                                  FEATURES, 1);
    size_t place = (size_t)r.place;

    check("run", r.status);
    printf("run: %" PRIu64 " step, next at %" PRIu64 "\n", r.steps, r.place);
    r = tarhuspo_run(list + place, sizeof list - place, file, sizeof file, masks,
                     TARHUSPO_MASK_COUNT, FEATURES, TARHUSPO_MOST_STEPS);
    check("run of the rest", r.status);
    printf("     %" PRIu64 " more, %" PRIu64 " bytes on\n", r.steps, r.place);
}

static void build(const uint8_t *code, size_t code_len, uint16_t map[TARHUSPO_MAP_SIZE])
{
    tarhuspo_built b = tarhuspo_bytemap_build(code, code_len, masks, TARHUSPO_MASK_COUNT, FEATURES,
                                              map, TARHUSPO_MAP_SIZE);

    check("build", b.status);
}

/* A map does to any registers what its list does, and two maps compose to that of both lists. */
static void maps(void)
{
    static uint16_t once[TARHUSPO_MAP_SIZE], twice[TARHUSPO_MAP_SIZE], both[TARHUSPO_MAP_SIZE];
    static uint8_t mapped[TARHUSPO_FILE_SIZE];

    build(list, sizeof list, once);
    build(list_twice, sizeof list_twice, twice);
    printf("map: entries of register 1 for byte 0: %u, for byte 16: %u\n", once[64], once[80]);

    memcpy(mapped, file, sizeof file);
    check("apply", tarhuspo_bytemap_apply(once, TARHUSPO_MAP_SIZE, mapped, sizeof mapped));
    check("run", tarhuspo_run(list, sizeof list, file, sizeof file, masks, TARHUSPO_MASK_COUNT,
                              FEATURES, TARHUSPO_MOST_STEPS).status);
    expect("applying leaves what running does", memcmp(mapped, file, sizeof file) == 0);
    check("compose", tarhuspo_bytemap_compose(once, TARHUSPO_MAP_SIZE, once, TARHUSPO_MAP_SIZE,
                                              both, TARHUSPO_MAP_SIZE));
    expect("composed maps are the map of both lists", memcmp(both, twice, sizeof both) == 0);

    both[7] = TARHUSPO_MAP_ZERO + 1;
    printf("     an entry of 2049: status %" PRIu32 "\n",
           tarhuspo_bytemap_apply(both, TARHUSPO_MAP_SIZE, file, sizeof file));
}

/*
 * A listing comes in pieces of whole lines, so that a small buffer is enough for any list. The text
 * is not terminated: written says where it ends.
 */
static void listing(void)
{
    uint8_t text[128];
    uint64_t bytes = 0;
    unsigned pieces = 0;
    size_t place = 0;
    tarhuspo_listed l;

    printf("listing: with %u bytes of text\n", (unsigned)sizeof text);
    /* The last instruction lacks a byte, and its line says so. */
    do {
        l = tarhuspo_listing(list_long, sizeof list_long - 1, place, text, sizeof text);
        check("listing", l.status);
        fwrite(text, 1, (size_t)l.written, stdout);
        bytes += l.written;
        pieces++;
        place = (size_t)l.next;
    } while (l.more);
    printf("         %" PRIu64 " bytes in %u pieces, ended at place %" PRIu64 "\n", bytes, pieces,
           l.next);
}

int main(void)
{
    uint32_t wanted;

    features();
    wanted = decode();
    refuse();
    fill_guest();
    step(find(wanted, UINT64_C(0x401000)), wanted);
    run();
    maps();
    listing();
    return EXIT_SUCCESS;
}
