/*
 * What one would write for a single form in place of a library: a function for each form of the
 * step table. Each knows its form alone. It looks whether the bytes are exactly that, takes the
 * numbers of registers and opmask and the immediate from them, and carries the instruction out.
 *
 * There is one inline function for each instruction. Width, masking and the kind of the third
 * operand are its arguments, and macros make a function for each choice, in which they are
 * constants.
 */
#include <stdbool.h>
#include <stddef.h>
#include <stdint.h>
#include <string.h>

/* The compiler has no choice, so that forms do not share code in which these are no constants. */
#define INLINE static inline __attribute__((always_inline))

enum { REGISTER_SIZE = 64, LANE_SIZE = 16 };

/* What the third operand is; broadcast is one element in memory, repeated. */
enum operand { REGISTER, MEMORY, BROADCAST };

/* Gives the length of the instruction, or 0 if the bytes are not of the form. */
typedef size_t step_function(const uint8_t *code, size_t length, uint8_t *file,
                             const uint64_t *masks, const uint8_t *memory, size_t memory_length);

/* What a step is given. */
struct input {
    const uint8_t *code;
    size_t length;
    uint8_t *file;
    const uint64_t *masks;
    const uint8_t *memory;
    size_t memory_length;
};

/* What two forms of an instruction differ in. */
struct variant {
    size_t width; /* bytes */
    bool masked;
    enum operand operand;
};

/* What all encodings of a form have in common. */
struct form {
    unsigned pp, map, opcode, w;
    bool any_w;
    bool has_first; /* vvvv names a first source */
    bool has_immediate;
    size_t element; /* bytes */
    struct variant variant;
};

/* What one encoding says. */
struct decoded {
    size_t length;
    uint8_t *destination;
    const uint8_t *first;
    const uint8_t *third;
    uint64_t mask;
    unsigned immediate;
};

INLINE size_t wanted_memory(struct form form)
{
    switch (form.variant.operand) {
    case MEMORY:
        return form.variant.width;
    case BROADCAST:
        return form.element;
    default:
        return 0;
    }
}

/* Bytes of ModRM, SIB and displacement; a SIB that is cut off counts as if it were there. */
INLINE size_t memory_form_length(const uint8_t *modrm, size_t left)
{
    unsigned mode = modrm[0] >> 6, base = modrm[0] & 7;
    size_t length = 1;
    if (base == 4) {
        length = 2;
        base = left < 2 ? 0 : modrm[1] & 7;
    }
    if (mode == 1)
        return length + 1;
    return mode == 2 || base == 5 ? length + 4 : length;
}

/* Reads what follows the opcode. Gives false if bytes lack or the third operand is another one. */
INLINE bool read_tail(struct input input, struct form form, size_t at, struct decoded *decoded)
{
    const uint8_t *modrm = input.code + at;
    bool is_register = modrm[0] >> 6 == 3;
    if (is_register != (form.variant.operand == REGISTER) ||
        input.memory_length != wanted_memory(form))
        return false;
    size_t length = at + (is_register ? 1 : memory_form_length(modrm, input.length - at));
    if (input.length < length + form.has_immediate)
        return false;
    decoded->immediate = form.has_immediate ? input.code[length] : 0;
    decoded->length = length + form.has_immediate;
    return true;
}

/* Whether prefix and opcode are of the form, but for what names registers. */
INLINE bool is_evex_form(const uint8_t *code, struct form form)
{
    struct variant variant = form.variant;
    /* Without a first source vvvv and V', which are stored inverted, have to be all ones. */
    unsigned q_fixed = (form.any_w ? 0x07 : 0x87) | (form.has_first ? 0 : 0x78);
    unsigned q = (form.w << 7 | 0x7C | form.pp) & q_fixed;
    unsigned s_fixed = 0xF0 | (form.has_first ? 0 : 0x08);
    unsigned width = variant.width == 16 ? 0 : variant.width == 32 ? 1 : 2;
    unsigned b = variant.operand == BROADCAST;
    unsigned s = (width << 5 | b << 4 | 0x08) & s_fixed;
    return code[0] == 0x62 && (code[1] & 0x0F) == form.map && (code[2] & q_fixed) == q &&
           (code[3] & s_fixed) == s && ((code[3] & 7) != 0) == variant.masked &&
           code[4] == form.opcode;
}

/* Reads an EVEX encoding. Gives false if it is not of the form. */
INLINE bool read_evex(struct input input, struct form form, struct decoded *decoded)
{
    const uint8_t *code = input.code;
    if (input.length < 6 || !is_evex_form(code, form) || !read_tail(input, form, 5, decoded))
        return false;
    /* These bits are stored inverted. */
    unsigned p = ~code[1], q = ~code[2], s = ~code[3];
    unsigned destination = (p >> 4 & 1) << 4 | (p >> 7 & 1) << 3 | (code[5] >> 3 & 7);
    unsigned first = (s >> 3 & 1) << 4 | (q >> 3 & 15);
    unsigned third = (p >> 6 & 1) << 4 | (p >> 5 & 1) << 3 | (code[5] & 7);
    bool is_register = form.variant.operand == REGISTER;
    decoded->destination = input.file + REGISTER_SIZE * destination;
    decoded->first = input.file + REGISTER_SIZE * first;
    decoded->third = is_register ? input.file + REGISTER_SIZE * third : input.memory;
    decoded->mask = input.masks[code[3] & 7];
    return true;
}

/* The same of a VEX encoding of 256 bits with a first source, W 0 and three prefix bytes. */
INLINE bool read_vex(struct input input, struct form form, struct decoded *decoded)
{
    const uint8_t *code = input.code;
    if (input.length < 5 || code[0] != 0xC4 || (code[1] & 0x1F) != form.map ||
        (code[2] & 0x87) != (1 << 2 | form.pp) || code[3] != form.opcode ||
        !read_tail(input, form, 4, decoded))
        return false;
    unsigned p = ~code[1], q = ~code[2];
    unsigned destination = (p >> 7 & 1) << 3 | (code[4] >> 3 & 7);
    unsigned third = (p >> 5 & 1) << 3 | (code[4] & 7);
    bool is_register = form.variant.operand == REGISTER;
    decoded->destination = input.file + REGISTER_SIZE * destination;
    decoded->first = input.file + REGISTER_SIZE * (q >> 3 & 15);
    decoded->third = is_register ? input.file + REGISTER_SIZE * third : input.memory;
    return true;
}

/* Element `j` of the third operand. */
INLINE const uint8_t *third_element(struct form form, struct decoded decoded, size_t j)
{
    return form.variant.operand == BROADCAST ? decoded.third : decoded.third + form.element * j;
}

/*
 * Writes a result, which is apart from the sources because the destination may be one of them. No
 * piece is over 32 bytes: compilers make slow string instructions of longer copies.
 */
INLINE size_t finish(struct form form, struct decoded decoded, const uint8_t *result)
{
    uint8_t *destination = decoded.destination;
    size_t width = form.variant.width, size = form.element;
    size_t piece = width < 32 ? width : 32;
    if (form.variant.masked) {
        for (size_t j = 0; j < width / size; j++)
            if (decoded.mask >> j & 1)
                memcpy(destination + size * j, result + size * j, size);
    } else {
        memcpy(destination, result, piece);
        memcpy(destination + piece, result + piece, width - piece);
    }
    for (size_t at = width; at < REGISTER_SIZE; at += LANE_SIZE)
        memset(destination + at, 0, LANE_SIZE);
    return decoded.length;
}

/* Four fields of two bits pick from each lane. */
INLINE void pick_doublewords(struct form form, struct decoded decoded, uint8_t *result)
{
    for (size_t j = 0; j < form.variant.width / 4; j++) {
        size_t pick = decoded.immediate >> 2 * (j % 4) & 3;
        memcpy(result + 4 * j, third_element(form, decoded, j / 4 * 4 + pick), 4);
    }
}

INLINE size_t VPSHUFD_immediate(struct input input, struct variant variant)
{
    struct form form = {.pp = 1, .map = 1, .opcode = 0x70, .has_immediate = true, .element = 4,
                        .variant = variant};
    struct decoded decoded;
    uint8_t result[REGISTER_SIZE];
    if (!read_evex(input, form, &decoded))
        return 0;
    pick_doublewords(form, decoded, result);
    return finish(form, decoded, result);
}

INLINE size_t VPERMILPS_immediate(struct input input, struct variant variant)
{
    struct form form = {.pp = 1, .map = 3, .opcode = 0x04, .has_immediate = true, .element = 4,
                        .variant = variant};
    struct decoded decoded;
    uint8_t result[REGISTER_SIZE];
    if (!read_evex(input, form, &decoded))
        return 0;
    pick_doublewords(form, decoded, result);
    return finish(form, decoded, result);
}

INLINE size_t VPERMILPD_immediate(struct input input, struct variant variant)
{
    struct form form = {.pp = 1, .map = 3, .opcode = 0x05, .w = 1, .has_immediate = true,
                        .element = 8, .variant = variant};
    struct decoded decoded;
    uint8_t result[REGISTER_SIZE];
    if (!read_evex(input, form, &decoded))
        return 0;
    for (size_t j = 0; j < variant.width / 8; j++) {
        size_t pick = decoded.immediate >> j & 1;
        memcpy(result + 8 * j, third_element(form, decoded, j / 2 * 2 + pick), 8);
    }
    return finish(form, decoded, result);
}

INLINE size_t VPERMILPS_plain(struct input input, struct variant variant)
{
    struct form form = {.pp = 1, .map = 2, .opcode = 0x0C, .has_first = true, .element = 4,
                        .variant = variant};
    struct decoded decoded;
    uint8_t result[REGISTER_SIZE];
    if (!read_evex(input, form, &decoded))
        return 0;
    for (size_t j = 0; j < variant.width / 4; j++) {
        size_t pick = third_element(form, decoded, j)[0] & 3;
        memcpy(result + 4 * j, decoded.first + 4 * (j / 4 * 4 + pick), 4);
    }
    return finish(form, decoded, result);
}

/* Bit 1 of a control picks, not bit 0. */
INLINE size_t VPERMILPD_plain(struct input input, struct variant variant)
{
    struct form form = {.pp = 1, .map = 2, .opcode = 0x0D, .w = 1, .has_first = true, .element = 8,
                        .variant = variant};
    struct decoded decoded;
    uint8_t result[REGISTER_SIZE];
    if (!read_evex(input, form, &decoded))
        return 0;
    for (size_t j = 0; j < variant.width / 8; j++) {
        size_t pick = third_element(form, decoded, j)[0] >> 1 & 1;
        memcpy(result + 8 * j, decoded.first + 8 * (j / 2 * 2 + pick), 8);
    }
    return finish(form, decoded, result);
}

/* The first source has the numbers of the bytes, the third operand the bytes. */
INLINE size_t VPERMB_plain(struct input input, struct variant variant)
{
    struct form form = {.pp = 1, .map = 2, .opcode = 0x8D, .has_first = true, .element = 1,
                        .variant = variant};
    struct decoded decoded;
    uint8_t result[REGISTER_SIZE];
    if (!read_evex(input, form, &decoded))
        return 0;
    for (size_t j = 0; j < variant.width; j++)
        result[j] = decoded.third[decoded.first[j] & (variant.width - 1)];
    return finish(form, decoded, result);
}

/* A control with bit 7 gives a zero. */
INLINE size_t VPSHUFB_plain(struct input input, struct variant variant)
{
    struct form form = {.pp = 1, .map = 2, .opcode = 0x00, .any_w = true, .has_first = true,
                        .element = 1, .variant = variant};
    struct decoded decoded;
    uint8_t result[REGISTER_SIZE];
    if (!read_evex(input, form, &decoded))
        return 0;
    for (size_t j = 0; j < variant.width; j++) {
        uint8_t control = decoded.third[j];
        uint8_t byte = decoded.first[j / LANE_SIZE * LANE_SIZE + (control & 15)];
        result[j] = control & 0x80 ? 0 : byte;
    }
    return finish(form, decoded, result);
}

/* The low or the high half of each lane, its elements from the two sources in turn. */
INLINE size_t unpack(struct input input, struct form form, bool high)
{
    size_t size = form.element, in_lane = LANE_SIZE / size;
    struct decoded decoded;
    uint8_t result[REGISTER_SIZE];
    if (!read_evex(input, form, &decoded))
        return 0;
    for (size_t j = 0; j < form.variant.width / size; j++) {
        size_t from = j / in_lane * in_lane + j % in_lane / 2 + (high ? in_lane / 2 : 0);
        const uint8_t *first = decoded.first + size * from;
        memcpy(result + size * j, j % 2 == 0 ? first : third_element(form, decoded, from), size);
    }
    return finish(form, decoded, result);
}

INLINE size_t VUNPCKLPS_plain(struct input input, struct variant variant)
{
    struct form form = {.pp = 0, .map = 1, .opcode = 0x14, .has_first = true, .element = 4,
                        .variant = variant};
    return unpack(input, form, false);
}

INLINE size_t VUNPCKHPS_plain(struct input input, struct variant variant)
{
    struct form form = {.pp = 0, .map = 1, .opcode = 0x15, .has_first = true, .element = 4,
                        .variant = variant};
    return unpack(input, form, true);
}

INLINE size_t VUNPCKLPD_plain(struct input input, struct variant variant)
{
    struct form form = {.pp = 1, .map = 1, .opcode = 0x14, .w = 1, .has_first = true, .element = 8,
                        .variant = variant};
    return unpack(input, form, false);
}

INLINE size_t VUNPCKHPD_plain(struct input input, struct variant variant)
{
    struct form form = {.pp = 1, .map = 1, .opcode = 0x15, .w = 1, .has_first = true, .element = 8,
                        .variant = variant};
    return unpack(input, form, true);
}

/* Four bits for each half: two pick one of the sources' four halves, and the highest clears. */
INLINE size_t VPERM2F128_immediate(struct input input, struct variant variant)
{
    struct form form = {.pp = 1, .map = 3, .opcode = 0x06, .has_first = true, .has_immediate = true,
                        .element = 16, .variant = variant};
    struct decoded decoded;
    uint8_t result[REGISTER_SIZE];
    if (!read_vex(input, form, &decoded))
        return 0;
    for (size_t j = 0; j < 2; j++) {
        unsigned control = decoded.immediate >> 4 * j & 15;
        const uint8_t *source = control & 2 ? decoded.third : decoded.first;
        if (control & 8)
            memset(result + LANE_SIZE * j, 0, LANE_SIZE);
        else
            memcpy(result + LANE_SIZE * j, source + LANE_SIZE * (control & 1), LANE_SIZE);
    }
    return finish(form, decoded, result);
}

/* Behind a mnemonic in the names above: whether there is an immediate. */
enum control { plain, immediate };

/* All forms, each handed to MAKE. */
#define WIDTHS(MAKE, name, control, operand)                                  \
    MAKE(name, control, 128, 0, operand) MAKE(name, control, 128, 1, operand) \
    MAKE(name, control, 256, 0, operand) MAKE(name, control, 256, 1, operand) \
    MAKE(name, control, 512, 0, operand) MAKE(name, control, 512, 1, operand)
#define WHOLE(MAKE, name, control) \
    WIDTHS(MAKE, name, control, REGISTER) WIDTHS(MAKE, name, control, MEMORY)
#define ANY(MAKE, name, control) WHOLE(MAKE, name, control) WIDTHS(MAKE, name, control, BROADCAST)
#define FORMS(MAKE)                                             \
    ANY(MAKE, VPERMILPD, immediate) ANY(MAKE, VPERMILPD, plain) \
    ANY(MAKE, VPERMILPS, immediate) ANY(MAKE, VPERMILPS, plain) \
    ANY(MAKE, VUNPCKLPS, plain) ANY(MAKE, VUNPCKHPS, plain)     \
    ANY(MAKE, VUNPCKLPD, plain) ANY(MAKE, VUNPCKHPD, plain)     \
    ANY(MAKE, VPSHUFD, immediate)                               \
    WHOLE(MAKE, VPSHUFB, plain) WHOLE(MAKE, VPERMB, plain)      \
    MAKE(VPERM2F128, immediate, 256, 0, REGISTER)               \
    MAKE(VPERM2F128, immediate, 256, 0, MEMORY)

#define FUNCTION(name, control, bits, masked, operand) \
    name##_##control##_##bits##_##masked##_##operand

#define DEFINE(name, control, bits, masked, operand)                              \
    static size_t FUNCTION(name, control, bits, masked, operand)(                 \
        const uint8_t *code, size_t length, uint8_t *file, const uint64_t *masks, \
        const uint8_t *memory, size_t memory_length)                              \
    {                                                                             \
        struct input input = {code, length, file, masks, memory, memory_length};  \
        struct variant variant = {(bits) / 8, masked, operand};                   \
        return name##_##control(input, variant);                                  \
    }
FORMS(DEFINE)

#define ENTRY(name, control, bits, masked, operand) \
    {#name, control, bits, masked, operand, FUNCTION(name, control, bits, masked, operand)},
static const struct {
    const char *name;
    int immediate;
    int bits;
    int masked;
    int operand;
    step_function *function;
} table[] = {FORMS(ENTRY)};

/* The function of a form, or null if there is none. */
step_function *specialised_find(const char *name, int immediate, int bits, int masked, int operand)
{
    for (size_t i = 0; i < sizeof table / sizeof table[0]; i++)
        if (strcmp(table[i].name, name) == 0 && table[i].immediate == immediate &&
            table[i].bits == bits && table[i].masked == masked && table[i].operand == operand)
            return table[i].function;
    return NULL;
}
