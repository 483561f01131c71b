/* Built and run by tests/c_header.rs: the header fits the archive. */
#include "tarhuspo.h"

#include <inttypes.h>
#include <stddef.h>
#include <stdio.h>
#include <string.h>

#define SIZE(type, size) _Static_assert(sizeof(type) == (size), "size of " #type)
#define FIELD(type, name, at) \
    _Static_assert(offsetof(type, name) == (at), "offset of " #name " in " #type)

SIZE(tarhuspo_decoded, 60);
FIELD(tarhuspo_decoded, status, 0);
FIELD(tarhuspo_decoded, length, 4);
FIELD(tarhuspo_decoded, memory, 8);
FIELD(tarhuspo_decoded, mnemonic, 12);
FIELD(tarhuspo_decoded, bits, 16);
FIELD(tarhuspo_decoded, evex, 20);
FIELD(tarhuspo_decoded, destination, 24);
FIELD(tarhuspo_decoded, first, 28);
FIELD(tarhuspo_decoded, third, 32);
FIELD(tarhuspo_decoded, mask, 36);
FIELD(tarhuspo_decoded, zeroing, 40);
FIELD(tarhuspo_decoded, broadcast, 44);
FIELD(tarhuspo_decoded, has_immediate, 48);
FIELD(tarhuspo_decoded, immediate, 52);
FIELD(tarhuspo_decoded, reason, 56);

SIZE(tarhuspo_addressed, 24);
FIELD(tarhuspo_addressed, address, 0);
FIELD(tarhuspo_addressed, status, 8);
FIELD(tarhuspo_addressed, reason, 12);
FIELD(tarhuspo_addressed, has_address, 16);

SIZE(tarhuspo_stepped, 12);
FIELD(tarhuspo_stepped, status, 0);
FIELD(tarhuspo_stepped, length, 4);
FIELD(tarhuspo_stepped, reason, 8);

SIZE(tarhuspo_ran, 24);
FIELD(tarhuspo_ran, steps, 0);
FIELD(tarhuspo_ran, place, 8);
FIELD(tarhuspo_ran, status, 16);
FIELD(tarhuspo_ran, reason, 20);

SIZE(tarhuspo_built, 16);
FIELD(tarhuspo_built, place, 0);
FIELD(tarhuspo_built, status, 8);
FIELD(tarhuspo_built, reason, 12);

SIZE(tarhuspo_listed, 24);
FIELD(tarhuspo_listed, written, 0);
FIELD(tarhuspo_listed, next, 8);
FIELD(tarhuspo_listed, status, 16);
FIELD(tarhuspo_listed, more, 20);

/* With other types this is no valid C. */
static tarhuspo_listed (*const list_piece)(const uint8_t *code, size_t code_len, size_t place,
                                           uint8_t *text, size_t text_len) = tarhuspo_listing;

static void print(const char *name, tarhuspo_decoded d)
{
    printf("%s: %u %u %u %u %u %u %u %u %u %u %u %u %u %u, reason %u\n", name, d.status, d.length,
           d.memory, d.mnemonic, d.bits, d.evex, d.destination, d.first, d.third, d.mask, d.zeroing,
           d.broadcast, d.has_immediate, d.immediate, d.reason);
}

static void decode(void)
{
    /* vpermilpd ymm17{k3}{z}, ymm9, qword [8 bytes]{1to4} */
    const uint8_t code[] = {0x62, 0xE2, 0xB5, 0xBB, 0x0D, 0x08};
    /* vpshufb zmm1, zmm2, zmm3 */
    const uint8_t vpshufb[] = {0x62, 0xF2, 0x6D, 0x48, 0x00, 0xCB};
    /* The same with z and no opmask, and with b as well. */
    const uint8_t z[] = {0x62, 0xF2, 0x6D, 0xC8, 0x00, 0xCB};
    const uint8_t b_and_z[] = {0x62, 0xF2, 0x6D, 0xD8, 0x00, 0xCB};

    print("accepted", tarhuspo_decode(code, sizeof code, 63));
    print("too short", tarhuspo_decode(code, sizeof code - 1, 63));
    print("empty", tarhuspo_decode(code, 0, 63));
    print("features", tarhuspo_decode(code, sizeof code, 64));
    print("vpshufb", tarhuspo_decode(vpshufb, sizeof vpshufb,
                                     TARHUSPO_AVX | TARHUSPO_AVX512F | TARHUSPO_AVX512BW));
    print("without avx512bw", tarhuspo_decode(vpshufb, sizeof vpshufb, 63 - TARHUSPO_AVX512BW));
    print("z", tarhuspo_decode(z, sizeof z, 63));
    print("b and z", tarhuspo_decode(b_and_z, sizeof b_and_z, 0));
}

/* The first bytes of vpshufd zmm1, zmm2, 0x1b, which P F1 and Q 7D make. */
static void decode_evex(const char *name, uint8_t p, uint8_t q, size_t code_len)
{
    const uint8_t code[] = {0x62, p, q, 0x48, 0x70, 0xCA, 0x1B};

    print(name, tarhuspo_decode(code, code_len, 63));
}

static void evex_maps(void)
{
    decode_evex("map 1", 0xF1, 0x7D, 7);
    decode_evex("map 0", 0xF0, 0x7D, 7);
    decode_evex("map 4", 0xF4, 0x7D, 7);
    decode_evex("map 5", 0xF5, 0x7D, 7);
    decode_evex("map 6", 0xF6, 0x7D, 7);
    decode_evex("map 7", 0xF7, 0x7D, 7);
    decode_evex("P bit 3", 0xF9, 0x7D, 7);
    decode_evex("P bit 3, map 5", 0xFD, 0x7D, 7);
    decode_evex("Q bit 2", 0xF1, 0x79, 7);
    decode_evex("Q bit 2, map 5", 0xF5, 0x79, 7);
    decode_evex("map 5 cut behind the opcode", 0xF5, 0x7D, 5);
    decode_evex("map 5 cut before it", 0xF5, 0x7D, 4);
    decode_evex("P bit 3 cut behind the opcode", 0xF9, 0x7D, 5);
    decode_evex("P bit 3 cut before it", 0xF9, 0x7D, 4);
}

static void print_address(const char *name, tarhuspo_addressed a)
{
    printf("%s: %u %u %u %016" PRIx64 "\n", name, a.status, a.reason, a.has_address, a.address);
}

static void address(void)
{
    /* vpshufd zmm1, [rbx + r12*4 - 0x2000], 0x1b */
    const uint8_t code[] = {0x62, 0xB1, 0x7D, 0x48, 0x70, 0x4C, 0xA3, 0x80, 0x1B};
    /* vunpcklps xmm1, xmm2, [rip - 0x10] */
    const uint8_t next[] = {0xC5, 0xE8, 0x14, 0x0D, 0xF0, 0xFF, 0xFF, 0xFF};
    /* vpshufd xmm1, xmm2, 0x1b */
    const uint8_t form[] = {0xC5, 0xF9, 0x70, 0xCA, 0x1B};
    /* vpshufb with z and no opmask */
    const uint8_t z[] = {0x62, 0xF2, 0x6D, 0xC8, 0x00, 0x08};
    uint64_t registers[TARHUSPO_GPR_COUNT] = {0};
    const size_t count = TARHUSPO_GPR_COUNT;

    registers[3] = 0xC000;
    registers[12] = 8;
    print_address("address", tarhuspo_address(code, sizeof code, 63, registers, count, 0));
    print_address("next instruction", tarhuspo_address(next, sizeof next, 63, registers, count, 6));
    print_address("register form", tarhuspo_address(form, sizeof form, 63, registers, count, 6));
    print_address("fifteen registers",
                  tarhuspo_address(code, sizeof code, 63, registers, count - 1, 0));
    print_address("short address",
                  tarhuspo_address(code, sizeof code - 1, 63, registers, count, 0));
    print_address("reserved address", tarhuspo_address(z, sizeof z, 0, registers, count, 0));
}

/* vunpcklps xmm1, xmm2, xmm3; vperm2f128 with L 0 */
static const uint8_t reserved_list[] = {0xC5, 0xE8, 0x14, 0xCB, 0xC4, 0xE3, 0x69, 0x06, 0xCB, 0x31};
/* vpermilpd with W 1 and vvvv */
static const uint8_t reserved[] = {0xC4, 0xE3, 0xED, 0x05, 0xCA, 0x05};

static uint8_t file[TARHUSPO_FILE_SIZE];
static uint64_t masks[TARHUSPO_MASK_COUNT];

static void step(void)
{
    /* vpshufd zmm1{k1}{z}, dword [4 bytes]{1to16}, 0x1b */
    const uint8_t code[] = {0x62, 0xF1, 0x7D, 0xD9, 0x70, 0x08, 0x1B};
    const uint8_t memory[] = {5, 6, 7, 8};
    tarhuspo_stepped s;

    file[64] = 1;
    file[71] = 1;
    masks[1] = 2;
    s = tarhuspo_step(code, sizeof code, file, sizeof file, masks, TARHUSPO_MASK_COUNT, 63, memory,
                      sizeof memory);
    printf("step: %u %u, bytes %u %u %u %u %u\n", s.status, s.length, file[64], file[68], file[71],
           file[72], file[127]);
    s = tarhuspo_step(code, sizeof code, file, sizeof file, masks, TARHUSPO_MASK_COUNT, 63, memory,
                      sizeof memory - 1);
    printf("refused step: %u %u, bytes %u %u\n", s.status, s.length, file[68], file[71]);
    s = tarhuspo_step(reserved, sizeof reserved, file, sizeof file, masks, TARHUSPO_MASK_COUNT, 63,
                      memory, sizeof memory);
    printf("reserved step: %u %u, reason %u\n", s.status, s.length, s.reason);
}

/* vunpcklps xmm1, xmm2, xmm3; vpshufd xmm1, xmm1, 0x1b; a byte that starts nothing */
static const uint8_t list[] = {0xC5, 0xE8, 0x14, 0xCB, 0xC5, 0xF9, 0x70, 0xC9, 0x1B, 0x90};

static void fill_file(void)
{
    size_t i;

    for (i = 0; i < sizeof file; i++)
        file[i] = (uint8_t)(i + i / 64);
}

static void run(void)
{
    tarhuspo_ran r;

    fill_file();
    r = tarhuspo_run(list, sizeof list, file, sizeof file, masks, TARHUSPO_MASK_COUNT, 63,
                     TARHUSPO_MOST_STEPS);
    printf("run: %" PRIu64 " %" PRIu64 " %u, ", r.steps, r.place, r.status);
    printf("bytes %u %u %u\n", file[64], file[68], file[80]);
    r = tarhuspo_run(list, sizeof list, file, sizeof file, masks, TARHUSPO_MASK_COUNT, 63,
                     UINT64_C(0));
    printf("no budget: %" PRIu64 " %" PRIu64 " %u\n", r.steps, r.place, r.status);
}

static void reserved_run(void)
{
    tarhuspo_ran r = tarhuspo_run(reserved_list, sizeof reserved_list, file, sizeof file, masks,
                                  TARHUSPO_MASK_COUNT, 63, TARHUSPO_MOST_STEPS);
    printf("reserved run: %" PRIu64 " %" PRIu64 " %u, reason %u\n", r.steps, r.place, r.status,
           r.reason);
}

static uint16_t map[TARHUSPO_MAP_SIZE], second[TARHUSPO_MAP_SIZE], both[TARHUSPO_MAP_SIZE];

static void bytemap(void)
{
    tarhuspo_built b = tarhuspo_bytemap_build(list, sizeof list - 1, masks, TARHUSPO_MASK_COUNT, 63,
                                              map, TARHUSPO_MAP_SIZE);
    uint32_t status;

    printf("build: %" PRIu64 " %u, ", b.place, b.status);
    printf("entries %u %u %u\n", map[64], map[68], map[80]);
    b = tarhuspo_bytemap_build(list, sizeof list, masks, TARHUSPO_MASK_COUNT, 63, second,
                               TARHUSPO_MAP_SIZE);
    printf("refused build: %" PRIu64 " %u, entry %u\n", b.place, b.status, second[64]);
    status = tarhuspo_bytemap_apply(map, TARHUSPO_MAP_SIZE, file, sizeof file);
    printf("apply: %u, bytes %u %u\n", status, file[64], file[80]);
    second[0] = 68;
    status = tarhuspo_bytemap_compose(map, TARHUSPO_MAP_SIZE, second, TARHUSPO_MAP_SIZE, both,
                                      TARHUSPO_MAP_SIZE);
    printf("compose: %u, entries %u %u\n", status, both[0], both[1]);
    both[0] = TARHUSPO_MAP_ZERO + 1;
    status = tarhuspo_bytemap_apply(both, TARHUSPO_MAP_SIZE, file, sizeof file);
    printf("refused apply: %u\n", status);
    b = tarhuspo_bytemap_build(reserved_list, sizeof reserved_list, masks, TARHUSPO_MASK_COUNT, 63,
                               map, TARHUSPO_MAP_SIZE);
    printf("reserved build: %" PRIu64 " %u, reason %u\n", b.place, b.status, b.reason);
}

static uint8_t text[TARHUSPO_TEXT_WHOLE];

/* Prints a piece, and how many bytes of text the call has changed. */
static void piece(const char *name, const uint8_t *code, size_t code_len, size_t place,
                  size_t text_len)
{
    size_t changed = sizeof text;
    tarhuspo_listed l;

    memset(text, '#', sizeof text);
    l = list_piece(code, code_len, place, text, text_len);
    while (changed > 0 && text[changed - 1] == '#')
        changed--;
    printf("%s: %" PRIu64 " %" PRIu64 " %u %u, changed %" PRIuMAX "\n", name, l.written, l.next,
           l.status, l.more, (uintmax_t)changed);
    if (l.written < 128)
        printf("%.*s", (int)l.written, (const char *)text);
}

static void listing(void)
{
    /* vpshufd xmm1, [rax + disp32], 0x1b, with vunpcklps xmm1, xmm2, xmm3 as its displacement */
    const uint8_t nested[] = {0xC5, 0xF9, 0x70, 0x88, 0xC5, 0xE8, 0x14, 0xCB, 0x1B};
    const size_t least = TARHUSPO_TEXT_LEAST;

    piece("short text", list, sizeof list, 0, least - 1);
    piece("place behind", list, sizeof list, sizeof list + 1, sizeof text);
    piece("listing", list, sizeof list, 0, sizeof text);
    piece("just fits", list, sizeof list, 0, 72);
    piece("a byte less", list, sizeof list, 0, 71);
    piece("first piece", list, sizeof list, 0, least);
    piece("second piece", list, sizeof list, 9, least);
    piece("nested", nested, sizeof nested, 0, least);
    piece("inside", nested, sizeof nested, 4, least);
    piece("at the end", list, sizeof list, sizeof list, least);
    piece("empty listing", list, 0, 0, least);
    piece("reserved listing", reserved_list, sizeof reserved_list, 0, sizeof text);
}

/* vunpcklps xmm1, xmm2, xmm3; vpshufd zmm1, zmm2, 0x1b with another P: all but decoding. */
static void refused_evex(const char *name, uint8_t p)
{
    const uint8_t code[] = {0xC5, 0xE8, 0x14, 0xCB, 0x62, p, 0x7D, 0x48, 0x70, 0xCA, 0x1B};
    const uint64_t registers[TARHUSPO_GPR_COUNT] = {0};
    const uint8_t *last = code + 4;
    const size_t last_len = sizeof code - 4;
    tarhuspo_stepped s = tarhuspo_step(last, last_len, file, sizeof file, masks,
                                       TARHUSPO_MASK_COUNT, 63, code, 0);
    tarhuspo_ran r = tarhuspo_run(code, sizeof code, file, sizeof file, masks, TARHUSPO_MASK_COUNT,
                                  63, TARHUSPO_MOST_STEPS);
    tarhuspo_built b = tarhuspo_bytemap_build(code, sizeof code, masks, TARHUSPO_MASK_COUNT, 63,
                                              map, TARHUSPO_MAP_SIZE);

    print_address(name, tarhuspo_address(last, last_len, 63, registers, TARHUSPO_GPR_COUNT, 0));
    printf("step: %u %u, reason %u\n", s.status, s.length, s.reason);
    printf("run: %" PRIu64 " %" PRIu64 " %u, reason %u\n", r.steps, r.place, r.status, r.reason);
    printf("build: %" PRIu64 " %u, reason %u\n", b.place, b.status, b.reason);
    piece("listing", code, sizeof code, 0, sizeof text);
}

/* A list of the most bytes, and one of a byte more. */
static void limit(size_t code_len)
{
    static uint8_t code[TARHUSPO_CODE_LIMIT + 1];
    tarhuspo_built b;
    tarhuspo_ran r;
    size_t i;

    for (i = 0; i < sizeof code; i++)
        code[i] = list[i % 4];
    r = tarhuspo_run(code, code_len, file, sizeof file, masks, TARHUSPO_MASK_COUNT, 63,
                     TARHUSPO_MOST_STEPS);
    b = tarhuspo_bytemap_build(code, code_len, masks, TARHUSPO_MASK_COUNT, 63, map,
                               TARHUSPO_MAP_SIZE);
    printf("run: %" PRIu64 " %" PRIu64 " %u, ", r.steps, r.place, r.status);
    printf("build: %" PRIu64 " %u\n", b.place, b.status);
    piece("listing", code, code_len, 0, sizeof text);
    piece("last line", code, code_len, code_len - 4, TARHUSPO_TEXT_LEAST);
    piece("short text", code, code_len, 0, TARHUSPO_TEXT_LEAST - 1);
}

/* vunpcklps zmm1, zmm2, zmm3 needs AVX512F. */
static const uint8_t unpack[] = {0x62, 0xF1, 0x6C, 0x48, 0x14, 0xCB};

/* The functions that take features, and the status that each gives for the unpack. */
static uint32_t decoding(uint32_t features)
{
    return tarhuspo_decode(unpack, sizeof unpack, features).status;
}

static uint32_t addressing(uint32_t features)
{
    const uint64_t registers[TARHUSPO_GPR_COUNT] = {0};

    return tarhuspo_address(unpack, sizeof unpack, features, registers, TARHUSPO_GPR_COUNT, 0)
        .status;
}

static uint32_t stepping(uint32_t features)
{
    return tarhuspo_step(unpack, sizeof unpack, file, sizeof file, masks, TARHUSPO_MASK_COUNT,
                         features, unpack, 0)
        .status;
}

static uint32_t running(uint32_t features)
{
    return tarhuspo_run(unpack, sizeof unpack, file, sizeof file, masks, TARHUSPO_MASK_COUNT,
                        features, 1)
        .status;
}

static uint32_t building(uint32_t features)
{
    return tarhuspo_bytemap_build(unpack, sizeof unpack, masks, TARHUSPO_MASK_COUNT, features, map,
                                  TARHUSPO_MAP_SIZE)
        .status;
}

static unsigned refused, changed;

/* Prints a number that passes, with the status. Counts one that does not. */
static void ask(uint32_t (*call)(uint32_t features), uint32_t features)
{
    static uint8_t file_before[TARHUSPO_FILE_SIZE];
    static uint16_t map_before[TARHUSPO_MAP_SIZE];
    uint32_t status;

    /* Neither holds what the unpack leaves there. */
    fill_file();
    memset(map, 0, sizeof map);
    memcpy(file_before, file, sizeof file);
    memcpy(map_before, map, sizeof map);
    status = call(features);
    if (status != 1) {
        printf(" %u:%u", features, status);
        return;
    }
    refused++;
    if (memcmp(file_before, file, sizeof file) != 0 || memcmp(map_before, map, sizeof map) != 0)
        changed++;
}

/* All numbers of up to 8 bits, and larger ones whose low bits would pass. */
static void features_of(const char *name, uint32_t (*call)(uint32_t features))
{
    uint32_t features;
    unsigned bit;

    refused = changed = 0;
    printf("features of %s:", name);
    for (features = 0; features < 256; features++)
        ask(call, features);
    for (bit = 8; bit < 32; bit++)
        ask(call, (UINT32_C(1) << bit) + 63);
    ask(call, UINT32_MAX);
    printf(", refused %u, changed %u\n", refused, changed);
}

int main(void)
{
    decode();
    evex_maps();
    address();
    step();
    run();
    bytemap();
    reserved_run();
    listing();
    refused_evex("map 5", 0xF5);
    refused_evex("P bit 3", 0xF9);
    limit(TARHUSPO_CODE_LIMIT);
    limit(TARHUSPO_CODE_LIMIT + 1);
    features_of("decode", decoding);
    features_of("address", addressing);
    features_of("step", stepping);
    features_of("run", running);
    features_of("build", building);
    return 0;
}
