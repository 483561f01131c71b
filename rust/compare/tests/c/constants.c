/* Built and run by tests/c_header.rs: the constants of the header, as a C compiler sees them. */
#include "tarhuspo.h"

#include <inttypes.h>
#include <stdio.h>

/* A caller may ask for a version before the compiler proper sees anything. */
#if TARHUSPO_VERSION_MAJOR < 1 || TARHUSPO_VERSION_MINOR < 0
#error "the version is no number for the preprocessor"
#endif

#define PRINT(name) printf(#name " %" PRIuMAX "\n", (uintmax_t)(TARHUSPO_##name))

int main(void)
{
    PRINT(VERSION_MAJOR);
    PRINT(VERSION_MINOR);
    PRINT(AVX);
    PRINT(AVX2);
    PRINT(AVX512F);
    PRINT(AVX512VL);
    PRINT(AVX512_VBMI);
    PRINT(AVX512BW);
    PRINT(REASON_FIXED_BITS);
    PRINT(REASON_W);
    PRINT(REASON_WIDTH);
    PRINT(REASON_VVVV);
    PRINT(REASON_B);
    PRINT(REASON_Z);
    PRINT(FILE_SIZE);
    PRINT(MASK_COUNT);
    PRINT(GPR_COUNT);
    PRINT(MAP_SIZE);
    PRINT(MAP_ZERO);
    PRINT(CODE_LIMIT);
    PRINT(MOST_STEPS);
    PRINT(TEXT_LEAST);
    PRINT(TEXT_WHOLE);
    return 0;
}
