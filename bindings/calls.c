/* Calls every function of jpeg_block.h: known blocks, and each refusal, with the outputs and the places around them looked at.
 * Prints what is not as expected; its status is 0 where all is. C and C++ take it. */
#include "jpeg_block.h"

#include <stdio.h>
#include <string.h>

#define GUARD 8
#define FILL 0xa5

static int failures = 0;

static void expect(int as_expected, const char *name, const char *what)
{
    if (!as_expected) {
        printf("%s: %s\n", name, what);
        failures++;
    }
}

/* whether size bytes are as they were filled */
static int untouched(const void *from, size_t size)
{
    const unsigned char *bytes = (const unsigned char *)from;
    size_t i;
    for (i = 0; i < size; i++) {
        if (bytes[i] != FILL) {
            return 0;
        }
    }
    return 1;
}

/* An output of at most 65 places, with places around it. */
#define OUTPUT(T) \
    T buffer[GUARD + 65 + GUARD]; \
    T *const output = buffer + GUARD; \
    memset(buffer, FILL, sizeof buffer)

#define REFUSED(name, call, number) \
    do { \
        expect((call) == (number), name, #call " is not refused by " #number); \
        expect(untouched(buffer, sizeof buffer), name, #call " wrote"); \
    } while (0)

/* after a call that wrote n places */
#define WROTE(name, n) \
    do { \
        expect(untouched(buffer, GUARD * sizeof *buffer), name, "wrote before the output"); \
        expect(untouched(output + (n), (65 - (n) + GUARD) * sizeof *buffer), name, "wrote after the output"); \
    } while (0)

/* One entry of 12 bits: n samples, all `sample` for the coefficient `value` at `place`. */
#define INVERSE_12BIT(entry, n, place, value, sample) \
    do { \
        static const char name[] = #entry; \
        int16_t input[65] = {0}; \
        int i; \
        OUTPUT(uint16_t); \
        input[place] = (value); \
        REFUSED(name, entry(input, 63, output, n), 1); \
        REFUSED(name, entry(input, 65, output, n), 1); \
        REFUSED(name, entry(input, 0, output, n), 1); \
        REFUSED(name, entry(NULL, 0, output, n), 1); \
        REFUSED(name, entry(input, 63, output, (n) - 1), 1); \
        REFUSED(name, entry(NULL, 0, NULL, 0), 1); \
        REFUSED(name, entry(input, 64, output, (n) - 1), 3); \
        REFUSED(name, entry(input, 64, output, (n) + 1), 3); \
        REFUSED(name, entry(input, 64, output, 0), 3); \
        REFUSED(name, entry(input, 64, NULL, 0), 3); \
        expect(entry(input, 64, output, n) == 0, name, "is refused"); \
        for (i = 0; i < (n); i++) { \
            expect(output[i] == (sample), name, #value " at " #place " does not give " #sample); \
        } \
        WROTE(name, n); \
    } while (0)

/* The counts of an 8-bit inverse, with places around them. */
#define COUNTS \
    uint32_t held[GUARD + 3 + GUARD]; \
    uint32_t *const counts = held + GUARD; \
    memset(held, FILL, sizeof held)

#define REFUSED_COUNTS(name, call, number) \
    do { \
        REFUSED(name, call, number); \
        expect(untouched(held, sizeof held), name, #call " wrote counts"); \
    } while (0)

/* after a call that wrote them */
#define COUNTED(name, raised, lowered) \
    do { \
        expect(counts[0] == (raised), name, "does not raise " #raised); \
        expect(counts[1] == (lowered), name, "does not lower " #lowered); \
        expect(untouched(held, GUARD * sizeof *held), name, "wrote before the counts"); \
        expect(untouched(counts + 2, (1 + GUARD) * sizeof *held), name, "wrote after the counts"); \
    } while (0)

/* One entry of 8 bits: n samples, all `sample` for the coefficient `value` at `place`, and its counts. */
#define INVERSE(entry, In, n, place, value, sample, raised, lowered) \
    do { \
        static const char name[] = #entry; \
        In input[65] = {0}; \
        int i; \
        OUTPUT(uint8_t); \
        COUNTS; \
        input[place] = (value); \
        REFUSED_COUNTS(name, entry(input, 63, output, n, counts, 2), 1); \
        REFUSED_COUNTS(name, entry(input, 65, output, n, NULL, 0), 1); \
        REFUSED_COUNTS(name, entry(input, 0, output, n, counts, 3), 1); \
        REFUSED_COUNTS(name, entry(NULL, 0, output, n, counts, 2), 1); \
        REFUSED_COUNTS(name, entry(input, 63, output, (n) - 1, counts, 1), 1); \
        REFUSED_COUNTS(name, entry(NULL, 0, NULL, 0, NULL, 0), 1); \
        REFUSED_COUNTS(name, entry(input, 64, output, (n) - 1, counts, 2), 3); \
        REFUSED_COUNTS(name, entry(input, 64, output, (n) + 1, NULL, 0), 3); \
        REFUSED_COUNTS(name, entry(input, 64, output, 0, counts, 2), 3); \
        REFUSED_COUNTS(name, entry(input, 64, NULL, 0, counts, 2), 3); \
        REFUSED_COUNTS(name, entry(input, 64, output, n, counts, 1), 3); \
        REFUSED_COUNTS(name, entry(input, 64, output, n, counts, 3), 3); \
        expect(entry(input, 64, output, n, NULL, 0) == 0, name, "is refused without counts"); \
        for (i = 0; i < (n); i++) { \
            expect(output[i] == (sample), name, #value " at " #place " does not give " #sample); \
        } \
        WROTE(name, n); \
        expect(entry(input, 64, output, n, counts, 2) == 0, name, "is refused"); \
        for (i = 0; i < (n); i++) { \
            expect(output[i] == (sample), name, #value " at " #place " does not give " #sample); \
        } \
        WROTE(name, n); \
        COUNTED(name, raised, lowered); \
    } while (0)

/* DC 1016 gives 255 and -1024 gives 0, both without a clamp. */
static void inverse_blocks(void)
{
    INVERSE(jpeg_block_islow_block, int16_t, 64, 0, 4, 129, 0, 0);
    INVERSE(jpeg_block_islow_block, int16_t, 64, 0, 3, 128, 0, 0);
    INVERSE(jpeg_block_islow_block, int16_t, 64, 0, -4, 128, 0, 0);
    INVERSE(jpeg_block_islow_block, int16_t, 64, 0, -5, 127, 0, 0);
    INVERSE(jpeg_block_islow_block, int16_t, 64, 0, 1016, 255, 0, 0);
    INVERSE(jpeg_block_islow_block, int16_t, 64, 0, 1020, 255, 0, 64);
    INVERSE(jpeg_block_islow_block, int16_t, 64, 0, -1024, 0, 0, 0);
    INVERSE(jpeg_block_islow_block, int16_t, 64, 0, -1029, 0, 64, 0);
    INVERSE(jpeg_block_islow_block_i32, int32_t, 64, 0, 4, 129, 0, 0);
    INVERSE(jpeg_block_islow_block_i32, int32_t, 64, 0, 65536, 255, 0, 64);
    INVERSE(jpeg_block_islow_block_i32, int32_t, 64, 0, -65536, 0, 64, 0);
    INVERSE(jpeg_block_islow_block_top_half, int16_t, 64, 0, 4, 129, 0, 0);
    INVERSE(jpeg_block_islow_block_top_half, int16_t, 64, 0, -1029, 0, 64, 0);
    INVERSE(jpeg_block_islow_block_top_half, int16_t, 64, 32, 1000, 128, 0, 0);
    INVERSE(jpeg_block_islow_block_top_half_i32, int32_t, 64, 0, 65536, 255, 0, 64);
    INVERSE(jpeg_block_islow_block_top_half_i32, int32_t, 64, 32, 1000, 128, 0, 0);
    INVERSE(jpeg_block_islow_block_4x4, int16_t, 16, 0, 4, 129, 0, 0);
    INVERSE(jpeg_block_islow_block_4x4, int16_t, 16, 0, 1020, 255, 0, 16);
    INVERSE(jpeg_block_islow_block_4x4, int16_t, 16, 4, 1000, 128, 0, 0);
    INVERSE(jpeg_block_islow_block_2x2, int16_t, 4, 0, 4, 129, 0, 0);
    INVERSE(jpeg_block_islow_block_2x2, int16_t, 4, 0, -1029, 0, 4, 0);
    INVERSE(jpeg_block_islow_block_2x2, int16_t, 4, 2, 1000, 128, 0, 0);
    INVERSE_12BIT(jpeg_block_islow_block_12bit, 64, 0, 8, 2049);
    INVERSE_12BIT(jpeg_block_islow_block_12bit_4x4, 16, 0, 8, 2049);
    INVERSE_12BIT(jpeg_block_islow_block_12bit_2x2, 4, 0, 8, 2049);
}

/* All samples and all quantizers equal: DC as given, the rest 0. */
static void equal_samples(int sample, int quantizer, int dc)
{
    static const char name[] = "jpeg_block_fdct_quantize";
    uint8_t block[64], quant[64];
    int i;
    OUTPUT(int16_t);
    memset(block, sample, sizeof block);
    memset(quant, quantizer, sizeof quant);
    expect(jpeg_block_fdct_quantize(block, 64, quant, 64, output, 64) == 0, name, "is refused");
    for (i = 0; i < 64; i++) {
        expect(output[i] == (i == 0 ? dc : 0), name, "a coefficient of equal samples");
    }
    WROTE(name, 64);
}

static void forward_block(void)
{
    static const char name[] = "jpeg_block_fdct_quantize";
    const uint8_t block[65] = {0}, quant[65] = {0};
    OUTPUT(int16_t);
    equal_samples(128, 1, 0);
    equal_samples(0, 1, -1024);
    equal_samples(129, 16, 1);
    equal_samples(127, 16, -1);
    equal_samples(129, 17, 0);
    equal_samples(255, 0, 1016);
    equal_samples(255, 255, 4);
    REFUSED(name, jpeg_block_fdct_quantize(block, 63, quant, 64, output, 64), 1);
    REFUSED(name, jpeg_block_fdct_quantize(block, 65, quant, 64, output, 64), 1);
    REFUSED(name, jpeg_block_fdct_quantize(NULL, 0, NULL, 0, NULL, 0), 1);
    REFUSED(name, jpeg_block_fdct_quantize(block, 64, quant, 63, output, 64), 2);
    REFUSED(name, jpeg_block_fdct_quantize(block, 64, quant, 65, output, 64), 2);
    REFUSED(name, jpeg_block_fdct_quantize(block, 64, NULL, 0, output, 63), 2);
    REFUSED(name, jpeg_block_fdct_quantize(block, 64, quant, 64, output, 63), 3);
    REFUSED(name, jpeg_block_fdct_quantize(block, 64, quant, 64, output, 65), 3);
    REFUSED(name, jpeg_block_fdct_quantize(block, 64, quant, 64, NULL, 0), 3);
}

static void one_coefficient(void)
{
    static const char name[] = "jpeg_block_fdct_quantize_coefficient";
    uint8_t block[65];
    OUTPUT(int16_t);
    memset(block, 255, sizeof block);
    REFUSED(name, jpeg_block_fdct_quantize_coefficient(block, 63, 0, 64, output, 2), 1);
    REFUSED(name, jpeg_block_fdct_quantize_coefficient(block, 65, 0, 0, output, 1), 1);
    REFUSED(name, jpeg_block_fdct_quantize_coefficient(NULL, 0, 0, 0, NULL, 0), 1);
    REFUSED(name, jpeg_block_fdct_quantize_coefficient(block, 64, 0, 64, output, 1), 4);
    REFUSED(name, jpeg_block_fdct_quantize_coefficient(block, 64, 0, SIZE_MAX, output, 2), 4);
    REFUSED(name, jpeg_block_fdct_quantize_coefficient(block, 64, 0, 63, output, 0), 3);
    REFUSED(name, jpeg_block_fdct_quantize_coefficient(block, 64, 0, 0, output, 2), 3);
    REFUSED(name, jpeg_block_fdct_quantize_coefficient(block, 64, 0, 0, NULL, 0), 3);
    expect(jpeg_block_fdct_quantize_coefficient(block, 64, 0, 0, output, 1) == 0, name, "is refused");
    expect(output[0] == 1016, name, "DC of 255");
    expect(jpeg_block_fdct_quantize_coefficient(block, 64, 255, 0, output, 1) == 0, name, "is refused");
    expect(output[0] == 4, name, "DC of 255 under 255");
    expect(jpeg_block_fdct_quantize_coefficient(block, 64, 1, 63, output, 1) == 0, name, "refuses the index 63");
    expect(output[0] == 0, name, "coefficient 63 of 255");
    WROTE(name, 1);
}

/* A plane of 9 x 1 takes two blocks, of which the second has its one column repeated: DC alone. Then the refusals in their order. */
static void plane(void)
{
    static const char name[] = "jpeg_block_fdct_quantize_plane";
    static const int16_t none[63] = {0};
    uint8_t samples[10], quant[65];
    int i;
    int16_t buffer[GUARD + 129 + GUARD];
    int16_t *const output = buffer + GUARD;
    memset(buffer, FILL, sizeof buffer);
    memset(quant, 16, sizeof quant);
    for (i = 0; i < 10; i++) {
        samples[i] = (uint8_t)(i < 4 ? 0 : 255);
    }
    REFUSED(name, jpeg_block_fdct_quantize_plane(samples, 0, 0, 1, quant, 63, output, 63), 8);
    REFUSED(name, jpeg_block_fdct_quantize_plane(samples, 0, 1, 0, quant, 63, output, 63), 8);
    REFUSED(name, jpeg_block_fdct_quantize_plane(samples, 9, 4097, 1, quant, 63, output, 63), 8);
    REFUSED(name, jpeg_block_fdct_quantize_plane(samples, 9, 1, SIZE_MAX, quant, 63, output, 63), 8);
    REFUSED(name, jpeg_block_fdct_quantize_plane(samples, 8, 9, 1, quant, 63, output, 63), 9);
    REFUSED(name, jpeg_block_fdct_quantize_plane(samples, 10, 9, 1, quant, 64, output, 128), 9);
    REFUSED(name, jpeg_block_fdct_quantize_plane(NULL, 0, 9, 1, NULL, 0, NULL, 0), 9);
    REFUSED(name, jpeg_block_fdct_quantize_plane(samples, 9, 9, 1, quant, 63, output, 127), 2);
    REFUSED(name, jpeg_block_fdct_quantize_plane(samples, 9, 9, 1, quant, 65, output, 128), 2);
    REFUSED(name, jpeg_block_fdct_quantize_plane(samples, 9, 9, 1, quant, 64, output, 127), 3);
    REFUSED(name, jpeg_block_fdct_quantize_plane(samples, 9, 9, 1, quant, 64, output, 129), 3);
    REFUSED(name, jpeg_block_fdct_quantize_plane(samples, 9, 9, 1, quant, 64, NULL, 0), 3);
    expect(jpeg_block_fdct_quantize_plane(samples, 9, 9, 1, quant, 64, output, 128) == 0, name, "is refused");
    expect(output[0] == 0 && output[1] != 0 && output[8] == 0, name, "the first block");
    expect(output[64] == 64 && memcmp(output + 65, none, sizeof none) == 0, name, "the second block");
    expect(untouched(buffer, GUARD * sizeof *buffer), name, "wrote before the output");
    expect(untouched(output + 128, (1 + GUARD) * sizeof *buffer), name, "wrote after the output");
}

/* A plane of 9 x 1 back, at w x 1 samples: DC 4 of the first block, 1 of the second, under quantizers 8. Then the refusals in order. Then DC
 * that raises the n samples of the first block and lowers those of the second, most of which lie beyond the edge. */
#define INVERSE_PLANE(entry, w, n) \
    do { \
        static const char name[] = #entry; \
        int16_t coefficients[129] = {0}; \
        uint8_t quant[65]; \
        int i; \
        OUTPUT(uint8_t); \
        COUNTS; \
        memset(quant, 8, sizeof quant); \
        coefficients[0] = 4; \
        coefficients[64] = 1; \
        REFUSED_COUNTS(name, entry(coefficients, 0, 0, 1, quant, 63, output, 0, counts, 3), 8); \
        REFUSED_COUNTS(name, entry(coefficients, 0, 1, 0, quant, 63, output, 0, counts, 2), 8); \
        REFUSED_COUNTS(name, entry(coefficients, 128, 4097, 1, quant, 64, output, w, counts, 2), 8); \
        REFUSED_COUNTS(name, entry(coefficients, 128, 9, SIZE_MAX, quant, 64, output, w, counts, 2), 8); \
        REFUSED_COUNTS(name, entry(coefficients, 127, 9, 1, quant, 63, output, (w) - 1, counts, 1), 1); \
        REFUSED_COUNTS(name, entry(coefficients, 129, 9, 1, quant, 64, output, w, counts, 2), 1); \
        REFUSED_COUNTS(name, entry(NULL, 0, 9, 1, NULL, 0, NULL, 0, NULL, 0), 1); \
        REFUSED_COUNTS(name, entry(coefficients, 128, 9, 1, quant, 63, output, (w) - 1, counts, 2), 2); \
        REFUSED_COUNTS(name, entry(coefficients, 128, 9, 1, quant, 65, output, w, counts, 1), 2); \
        REFUSED_COUNTS(name, entry(coefficients, 128, 9, 1, quant, 64, output, (w) - 1, counts, 2), 3); \
        REFUSED_COUNTS(name, entry(coefficients, 128, 9, 1, quant, 64, output, (w) + 1, counts, 2), 3); \
        REFUSED_COUNTS(name, entry(coefficients, 128, 9, 1, quant, 64, NULL, 0, counts, 2), 3); \
        REFUSED_COUNTS(name, entry(coefficients, 128, 9, 1, quant, 64, output, w, counts, 1), 3); \
        REFUSED_COUNTS(name, entry(coefficients, 128, 9, 1, quant, 64, output, w, counts, 3), 3); \
        expect(entry(coefficients, 128, 9, 1, quant, 64, output, w, NULL, 0) == 0, name, "is refused without counts"); \
        expect(untouched(held, sizeof held), name, "wrote counts that were not lent"); \
        for (i = 0; i < (w); i++) { \
            expect(output[i] == (i < (w) - 1 ? 132 : 129), name, "a sample"); \
        } \
        coefficients[0] = -400; \
        coefficients[64] = 400; \
        expect(entry(coefficients, 128, 9, 1, quant, 64, output, w, counts, 2) == 0, name, "is refused"); \
        for (i = 0; i < (w); i++) { \
            expect(output[i] == (i < (w) - 1 ? 0 : 255), name, "a clamped sample"); \
        } \
        WROTE(name, w); \
        COUNTED(name, n, n); \
    } while (0)

static void inverse_planes(void)
{
    INVERSE_PLANE(jpeg_block_islow_plane, 9, 64);
    INVERSE_PLANE(jpeg_block_islow_plane_4x4, 5, 16);
    INVERSE_PLANE(jpeg_block_islow_plane_2x2, 3, 4);
}

/* The divisor of DC is the reciprocal of 8 times its quantizer. */
static void divisors_made(void)
{
    static const char name[] = "jpeg_block_quantization_divisors";
    uint8_t quant[65];
    OUTPUT(double);
    memset(quant, 16, sizeof quant);
    REFUSED(name, jpeg_block_quantization_divisors(quant, 63, output, 63), 2);
    REFUSED(name, jpeg_block_quantization_divisors(quant, 65, output, 64), 2);
    REFUSED(name, jpeg_block_quantization_divisors(NULL, 0, NULL, 0), 2);
    REFUSED(name, jpeg_block_quantization_divisors(quant, 64, output, 63), 3);
    REFUSED(name, jpeg_block_quantization_divisors(quant, 64, output, 65), 3);
    quant[63] = 0;
    REFUSED(name, jpeg_block_quantization_divisors(quant, 64, output, 63), 5);
    quant[63] = 1;
    expect(jpeg_block_quantization_divisors(quant, 64, output, 64) == 0, name, "is refused");
    expect(output[0] == 1.0 / 128.0, name, "the divisor of DC");
    WROTE(name, 64);
}

/* The left half of the block 0, the right half 255: AC at u = 1, 3, 5, 7 alone. `buffer` is the AC output. */
static void guarded(void)
{
    static const char name[] = "jpeg_block_fdct_quantize_guarded";
    static const int places[] = {1, 6, 15, 28};
    uint8_t block[65], quant[65];
    double divisors[65];
    int16_t dc[2] = {7, 7}, canonical[1];
    uint64_t bitmap[2] = {7, 7}, expected = 0;
    uint8_t table[65];
    int i, u;
    OUTPUT(int16_t);
    for (i = 0; i < 65; i++) {
        block[i] = i % 8 < 4 ? 0 : 255;
        quant[i] = 10;
        divisors[i] = 0.0;
        table[i] = 7;
    }
    expect(jpeg_block_quantization_divisors(quant, 64, divisors, 64) == 0, name, "no divisors");
    REFUSED(name, jpeg_block_fdct_quantize_guarded(block, 63, quant, 63, divisors, 63, dc, 0, output, 63, bitmap, 0, table, 0), 1);
    REFUSED(name, jpeg_block_fdct_quantize_guarded(NULL, 0, NULL, 0, NULL, 0, NULL, 0, NULL, 0, NULL, 0, NULL, 0), 1);
    REFUSED(name, jpeg_block_fdct_quantize_guarded(block, 64, quant, 65, divisors, 63, dc, 0, output, 63, bitmap, 0, table, 0), 2);
    REFUSED(name, jpeg_block_fdct_quantize_guarded(block, 64, quant, 64, divisors, 63, dc, 0, output, 63, bitmap, 0, table, 0), 2);
    REFUSED(name, jpeg_block_fdct_quantize_guarded(block, 64, quant, 64, divisors, 65, dc, 1, output, 64, bitmap, 1, table, 64), 2);
    REFUSED(name, jpeg_block_fdct_quantize_guarded(block, 64, quant, 64, divisors, 64, dc, 0, output, 64, bitmap, 1, table, 64), 3);
    REFUSED(name, jpeg_block_fdct_quantize_guarded(block, 64, quant, 64, divisors, 64, dc, 2, output, 64, bitmap, 1, table, 64), 3);
    REFUSED(name, jpeg_block_fdct_quantize_guarded(block, 64, quant, 64, divisors, 64, dc, 1, output, 63, bitmap, 1, table, 64), 3);
    REFUSED(name, jpeg_block_fdct_quantize_guarded(block, 64, quant, 64, divisors, 64, dc, 1, output, 65, bitmap, 1, table, 64), 3);
    REFUSED(name, jpeg_block_fdct_quantize_guarded(block, 64, quant, 64, divisors, 64, dc, 1, output, 64, bitmap, 0, table, 64), 3);
    REFUSED(name, jpeg_block_fdct_quantize_guarded(block, 64, quant, 64, divisors, 64, dc, 1, output, 64, bitmap, 2, table, 64), 3);
    REFUSED(name, jpeg_block_fdct_quantize_guarded(block, 64, quant, 64, divisors, 64, dc, 1, output, 64, bitmap, 1, table, 63), 3);
    REFUSED(name, jpeg_block_fdct_quantize_guarded(block, 64, quant, 64, divisors, 64, dc, 1, output, 64, bitmap, 1, table, 65), 3);
    quant[63] = 0;
    REFUSED(name, jpeg_block_fdct_quantize_guarded(block, 64, quant, 64, divisors, 63, dc, 0, output, 63, bitmap, 0, table, 0), 5);
    quant[63] = 10;
    expect(dc[0] == 7 && dc[1] == 7 && bitmap[0] == 7 && bitmap[1] == 7, name, "a refused call wrote");
    for (i = 0; i < 65; i++) {
        expect(table[i] == 7, name, "a refused call wrote a divisor");
    }
    quant[63] = 200;
    expect(jpeg_block_fdct_quantize_guarded(block, 64, quant, 64, divisors, 64, dc, 1, output, 64, bitmap, 1, table, 64) == 0, name, "is refused");
    expect(jpeg_block_fdct_quantize_coefficient(block, 64, 10, 0, canonical, 1) == 0, name, "no canonical DC");
    expect(dc[0] == canonical[0] && dc[1] == 7, name, "DC");
    for (u = 0; u < 4; u++) {
        expect(jpeg_block_fdct_quantize_coefficient(block, 64, 10, 2 * (size_t)u + 1, canonical, 1) == 0, name, "no canonical AC");
        expect(canonical[0] != 0 && output[places[u]] == canonical[0], name, "an AC coefficient");
        expected |= (uint64_t)1 << (64 - places[u]);
        output[places[u]] = 0;
    }
    for (i = 0; i < 64; i++) {
        expect(output[i] == 0, name, "an AC coefficient that is not zero");
    }
    expect(bitmap[0] == expected && bitmap[1] == 7, name, "the bitmap");
    for (i = 0; i < 64; i++) {
        expect(table[i] == quant[i], name, "a divisor of the record");
    }
    expect(table[64] == 7, name, "wrote after the divisors");
    WROTE(name, 64);
}

/* Samples that no two rows or columns share: the record has the canonical coefficients. */
static void canonical_recorded(void)
{
    static const char name[] = "jpeg_block_fdct_quantize_record";
    /* natural indices of the first AC places */
    static const int natural[] = {0, 1, 8, 16, 9, 2, 3, 10, 17, 24};
    uint8_t block[65], quant[65];
    int16_t dc[2] = {7, 7}, canonical[64];
    uint64_t bitmap[2] = {7, 7};
    uint8_t table[65];
    int i, nonzero = 0;
    OUTPUT(int16_t);
    for (i = 0; i < 65; i++) {
        block[i] = (uint8_t)(i * i * 37 + i / 8);
        quant[i] = (uint8_t)(1 + i);
        table[i] = 7;
    }
    REFUSED(name, jpeg_block_fdct_quantize_record(block, 63, quant, 63, dc, 0, output, 63, bitmap, 0, table, 0), 1);
    REFUSED(name, jpeg_block_fdct_quantize_record(NULL, 0, NULL, 0, NULL, 0, NULL, 0, NULL, 0, NULL, 0), 1);
    REFUSED(name, jpeg_block_fdct_quantize_record(block, 64, quant, 65, dc, 0, output, 63, bitmap, 0, table, 0), 2);
    REFUSED(name, jpeg_block_fdct_quantize_record(block, 64, quant, 64, dc, 2, output, 64, bitmap, 1, table, 64), 3);
    REFUSED(name, jpeg_block_fdct_quantize_record(block, 64, quant, 64, dc, 1, output, 63, bitmap, 1, table, 64), 3);
    REFUSED(name, jpeg_block_fdct_quantize_record(block, 64, quant, 64, dc, 1, output, 64, bitmap, 0, table, 64), 3);
    REFUSED(name, jpeg_block_fdct_quantize_record(block, 64, quant, 64, dc, 1, output, 64, bitmap, 1, table, 65), 3);
    quant[63] = 0;
    REFUSED(name, jpeg_block_fdct_quantize_record(block, 64, quant, 64, dc, 0, output, 63, bitmap, 0, table, 0), 5);
    quant[63] = 64;
    expect(dc[0] == 7 && bitmap[0] == 7 && table[0] == 7, name, "a refused call wrote");
    expect(jpeg_block_fdct_quantize_record(block, 64, quant, 64, dc, 1, output, 64, bitmap, 1, table, 64) == 0, name, "is refused");
    expect(jpeg_block_fdct_quantize(block, 64, quant, 64, canonical, 64) == 0, name, "no canonical coefficients");
    expect(dc[0] == canonical[0] && dc[1] == 7, name, "DC");
    expect(output[0] == 0, name, "AC place 0");
    for (i = 1; i < 10; i++) {
        expect(output[i] == canonical[natural[i]], name, "an AC coefficient");
        nonzero += output[i] != 0;
    }
    expect(nonzero > 4, name, "AC coefficients that are zero");
    for (i = 0; i < 64; i++) {
        expect((i > 0 && output[i] != 0) == (i > 0 && (bitmap[0] >> (64 - i) & 1) == 1), name, "a bit");
        expect(table[i] == quant[i], name, "a divisor of the record");
    }
    expect(bitmap[1] == 7 && table[64] == 7, name, "wrote after the record");
    WROTE(name, 64);
}

static void dequantized(void)
{
    static const char name[] = "jpeg_block_dequantize";
    int16_t coefficients[65];
    uint8_t quant[65];
    int i;
    OUTPUT(int32_t);
    for (i = 0; i < 65; i++) {
        coefficients[i] = (int16_t)(i % 2 == 0 ? -32768 + i : 32767 - i);
        quant[i] = (uint8_t)(255 - i % 2 * 255);
    }
    REFUSED(name, jpeg_block_dequantize(coefficients, 63, quant, 63, output, 63), 1);
    REFUSED(name, jpeg_block_dequantize(coefficients, 65, quant, 64, output, 64), 1);
    REFUSED(name, jpeg_block_dequantize(NULL, 0, NULL, 0, NULL, 0), 1);
    REFUSED(name, jpeg_block_dequantize(coefficients, 64, quant, 63, output, 63), 2);
    REFUSED(name, jpeg_block_dequantize(coefficients, 64, quant, 65, output, 64), 2);
    REFUSED(name, jpeg_block_dequantize(coefficients, 64, quant, 64, output, 63), 3);
    REFUSED(name, jpeg_block_dequantize(coefficients, 64, quant, 64, output, 65), 3);
    expect(jpeg_block_dequantize(coefficients, 64, quant, 64, output, 64) == 0, name, "is refused");
    for (i = 0; i < 64; i++) {
        expect(output[i] == (i % 2 == 0 ? (-32768 + i) * 255 : 32767 - i), name, "a product");
    }
    WROTE(name, 64);
}

static void screened(void)
{
    static const char name[] = "jpeg_block_screen";
    static const struct { int place, value, quantizer, yes; } cases[] = {
        {0, 0, 0, 1}, {0, 5, 225, 1}, {0, 6, 225, 0}, {0, 1016, 1, 1}, {0, 1017, 0, 0}, {0, -1024, 0, 1}, {0, -1025, 1, 0},
        {63, 837, 1, 1}, {63, 838, 1, 0}, {63, -837, 0, 1}, {63, -838, 0, 0}, {63, -32768, 255, 0},
    };
    int16_t coefficients[65] = {0};
    uint8_t quant[65] = {0};
    size_t i;
    OUTPUT(uint8_t);
    REFUSED(name, jpeg_block_screen(coefficients, 63, quant, 63, output, 0), 1);
    REFUSED(name, jpeg_block_screen(coefficients, 65, quant, 64, output, 1), 1);
    REFUSED(name, jpeg_block_screen(NULL, 0, NULL, 0, NULL, 0), 1);
    REFUSED(name, jpeg_block_screen(coefficients, 64, quant, 63, output, 0), 2);
    REFUSED(name, jpeg_block_screen(coefficients, 64, quant, 65, output, 1), 2);
    REFUSED(name, jpeg_block_screen(coefficients, 64, quant, 64, output, 0), 3);
    REFUSED(name, jpeg_block_screen(coefficients, 64, quant, 64, output, 2), 3);
    for (i = 0; i < sizeof cases / sizeof *cases; i++) {
        coefficients[cases[i].place] = (int16_t)cases[i].value;
        quant[cases[i].place] = (uint8_t)cases[i].quantizer;
        expect(jpeg_block_screen(coefficients, 64, quant, 64, output, 1) == 0, name, "is refused");
        expect(output[0] == cases[i].yes, name, "a yes or a no");
        coefficients[cases[i].place] = 0;
    }
    WROTE(name, 1);
}

static void same_blocks(void)
{
    static const char name[] = "jpeg_block_same";
    int16_t a[65] = {0}, b[65] = {0};
    OUTPUT(uint8_t);
    REFUSED(name, jpeg_block_same(a, 63, b, 64, output, 1), 1);
    REFUSED(name, jpeg_block_same(a, 64, b, 65, output, 0), 1);
    REFUSED(name, jpeg_block_same(NULL, 0, NULL, 0, NULL, 0), 1);
    REFUSED(name, jpeg_block_same(a, 64, b, 64, output, 0), 3);
    REFUSED(name, jpeg_block_same(a, 64, b, 64, output, 2), 3);
    b[64] = 1;
    expect(jpeg_block_same(a, 64, b, 64, output, 1) == 0, name, "is refused");
    expect(output[0] == 1, name, "equal blocks");
    expect(jpeg_block_same(b, 64, b, 64, output, 1) == 0, name, "is refused for one block lent twice");
    expect(output[0] == 1, name, "a block and itself");
    b[63] = -1;
    expect(jpeg_block_same(a, 64, b, 64, output, 1) == 0, name, "is refused");
    expect(output[0] == 0, name, "blocks that differ at 63");
    WROTE(name, 1);
}

static void same_recorded(void)
{
    static const char name[] = "jpeg_block_same_records";
    int16_t a[65] = {0}, b[65] = {0};
    uint8_t q[65] = {0}, r[65] = {0};
    OUTPUT(uint8_t);
    REFUSED(name, jpeg_block_same_records(1, a, 63, q, 63, 1, b, 64, r, 64, output, 0), 1);
    REFUSED(name, jpeg_block_same_records(1, a, 64, q, 63, 1, b, 65, r, 64, output, 0), 1);
    REFUSED(name, jpeg_block_same_records(1, a, 64, q, 65, 1, b, 64, r, 64, output, 0), 2);
    REFUSED(name, jpeg_block_same_records(1, a, 64, q, 64, 1, b, 64, r, 63, output, 0), 2);
    REFUSED(name, jpeg_block_same_records(0, NULL, 0, NULL, 0, 0, NULL, 0, NULL, 0, NULL, 0), 1);
    REFUSED(name, jpeg_block_same_records(1, a, 64, q, 64, 1, b, 64, r, 64, output, 0), 3);
    REFUSED(name, jpeg_block_same_records(1, a, 64, q, 64, 1, b, 64, r, 64, output, 2), 3);
    a[0] = 5;
    b[64] = 1;
    r[64] = 1;
    expect(jpeg_block_same_records(-1, a, 64, q, 64, -1, b, 64, r, 64, output, 1) == 0, name, "is refused");
    expect(output[0] == 1, name, "records that differ at AC place 0 alone");
    expect(jpeg_block_same_records(-1, a, 64, q, 64, 1, b, 64, r, 64, output, 1) == 0, name, "is refused");
    expect(output[0] == 0, name, "records that differ in DC");
    b[63] = -1;
    expect(jpeg_block_same_records(1, a, 64, q, 64, 1, b, 64, r, 64, output, 1) == 0, name, "is refused");
    expect(output[0] == 0, name, "records that differ at AC place 63");
    r[63] = 1;
    expect(jpeg_block_same_records(1, a, 64, q, 64, 1, a, 64, r, 64, output, 1) == 0, name, "is refused");
    expect(output[0] == 0, name, "records that differ at divisor 63");
    WROTE(name, 1);
}

/* Quantizers 0 to 63 at 1, 100 and 200 percent, and 255 at 200. */
static void percents(void)
{
    static const char name[] = "jpeg_block_percent_table";
    uint8_t base[65];
    int i;
    OUTPUT(uint8_t);
    for (i = 0; i < 65; i++) {
        base[i] = (uint8_t)i;
    }
    REFUSED(name, jpeg_block_percent_table(base, 63, 0, output, 63), 2);
    REFUSED(name, jpeg_block_percent_table(base, 65, 100, output, 64), 2);
    REFUSED(name, jpeg_block_percent_table(NULL, 0, 0, NULL, 0), 2);
    REFUSED(name, jpeg_block_percent_table(base, 64, 0, output, 63), 3);
    REFUSED(name, jpeg_block_percent_table(base, 64, 201, output, 65), 3);
    REFUSED(name, jpeg_block_percent_table(base, 64, 100, NULL, 0), 3);
    REFUSED(name, jpeg_block_percent_table(base, 64, 0, output, 64), 11);
    REFUSED(name, jpeg_block_percent_table(base, 64, 201, output, 64), 11);
    REFUSED(name, jpeg_block_percent_table(base, 64, UINT32_MAX, output, 64), 11);
    expect(jpeg_block_percent_table(base, 64, 1, output, 64) == 0, name, "is refused");
    for (i = 0; i < 64; i++) {
        expect(output[i] == 1, name, "a divisor at 1 percent");
    }
    expect(jpeg_block_percent_table(base, 64, 100, output, 64) == 0, name, "is refused");
    for (i = 0; i < 64; i++) {
        expect(output[i] == (i == 0 ? 1 : i), name, "a divisor at 100 percent");
    }
    base[63] = 255;
    expect(jpeg_block_percent_table(base, 64, 200, output, 64) == 0, name, "is refused");
    for (i = 0; i < 64; i++) {
        expect(output[i] == (i == 0 ? 1 : i == 63 ? 255 : 2 * i), name, "a divisor at 200 percent");
    }
    WROTE(name, 64);
}

/* Three benches: two blocks at bench 0 and one at bench 2, in turns of two and of as many as there are. */
static void queued(void)
{
    static const char name[] = "jpeg_block_bench_queue_turn";
    static const char deposit[] = "jpeg_block_bench_queue_deposit";
    static const char report[] = "jpeg_block_bench_queue_report";
    static const uint32_t fresh[10] = {3, 2};
    uint32_t state[11] = {0}, answer[3] = {9, 9, 9}, counts[9] = {7, 7, 7, 7, 7, 7, 7, 7, 7}, other[10];
    static uint8_t out[4097];
    int i;
    memset(out, 9, sizeof out);
    expect(jpeg_block_bench_queue_new(0, state, 10) == 13, "jpeg_block_bench_queue_new", "0 benches");
    expect(jpeg_block_bench_queue_new(9, state, 9) == 13, "jpeg_block_bench_queue_new", "9 benches");
    expect(jpeg_block_bench_queue_new(3, state, 11) == 3, "jpeg_block_bench_queue_new", "a place of 11 numbers");
    for (i = 0; i < 11; i++) {
        expect(state[i] == 0, "jpeg_block_bench_queue_new", "wrote where it refused");
    }
    expect(jpeg_block_bench_queue_turn(state, 10, 1, out, 4095, answer, 1) == 13, name, "the zero record");
    expect(jpeg_block_bench_queue_new(3, state, 10) == 0, "jpeg_block_bench_queue_new", "is refused");
    expect(memcmp(state, fresh, sizeof fresh) == 0, "jpeg_block_bench_queue_new", "a new state");
    expect(jpeg_block_bench_queue_deposit(state, 10, 0, 2) == 0, deposit, "is refused");
    expect(jpeg_block_bench_queue_deposit(state, 10, 2, 1) == 0, deposit, "is refused");
    memcpy(other, state, sizeof other);
    expect(jpeg_block_bench_queue_deposit(state, 9, 0, 1) == 13, deposit, "a state of nine numbers");
    expect(jpeg_block_bench_queue_deposit(state, 10, 3, 65536) == 13, deposit, "bench 3 of three");
    expect(jpeg_block_bench_queue_deposit(state, 10, 0, 65534) == 14, deposit, "65536 blocks");
    expect(jpeg_block_bench_queue_turn(state, 10, 2, out, 4097, answer, 2) == 3, name, "4097 places");
    expect(jpeg_block_bench_queue_turn(state, 10, 2, out, 4096, answer, 3) == 3, name, "an answer of three");
    expect(memcmp(state, other, sizeof other) == 0 && out[0] == 9 && answer[0] == 9, name, "wrote where it refused");
    expect(jpeg_block_bench_queue_turn(state, 10, 2, out, 4096, answer, 2) == 0, name, "is refused");
    expect(answer[0] == 2 && answer[1] == 1 && out[0] == 0 && out[1] == 2 && out[2] == 9, name, "a turn of two");
    expect(jpeg_block_bench_queue_report(state, 10, counts, 7) == 3, report, "seven counts");
    expect(jpeg_block_bench_queue_report(state, 11, counts, 8) == 13, report, "a state of 11 numbers");
    expect(counts[0] == 7, report, "wrote where it refused");
    expect(jpeg_block_bench_queue_report(state, 10, counts, 8) == 0, report, "is refused");
    expect(counts[0] == 1 && counts[2] == 0 && counts[7] == 0 && counts[8] == 7, report, "the counts");
    expect(jpeg_block_bench_queue_turn(state, 10, UINT32_MAX, out, 4096, answer, 2) == 0, name, "is refused");
    expect(answer[0] == 1 && answer[1] == 2 && answer[2] == 9 && out[0] == 0 && out[1] == 2 && out[4096] == 9, name, "the last block");
}

/* All 12-bit samples and all quantizers equal: DC as given, the rest 0. */
static void equal_12bit(int sample, int quantizer, int dc)
{
    static const char name[] = "jpeg_block_fdct_quantize_12bit";
    uint16_t block[64], quant[64];
    int i;
    OUTPUT(int16_t);
    for (i = 0; i < 64; i++) {
        block[i] = (uint16_t)sample;
        quant[i] = (uint16_t)quantizer;
    }
    expect(jpeg_block_fdct_quantize_12bit(block, 64, quant, 64, output, 64) == 0, name, "is refused");
    for (i = 0; i < 64; i++) {
        expect(output[i] == (i == 0 ? dc : 0), name, "a coefficient of equal samples");
    }
    WROTE(name, 64);
}

static void forward_12bit(void)
{
    static const char name[] = "jpeg_block_fdct_quantize_12bit";
    uint16_t block[65] = {0};
    const uint16_t quant[65] = {0};
    OUTPUT(int16_t);
    equal_12bit(2048, 1, 0);
    equal_12bit(0, 1, -16384);
    equal_12bit(4095, 0, 16376);
    equal_12bit(2049, 16, 1);
    equal_12bit(2047, 16, -1);
    equal_12bit(2049, 17, 0);
    equal_12bit(4095, 256, 64);
    equal_12bit(0, 32768, -1);
    equal_12bit(0, 32769, 0);
    equal_12bit(4095, 65535, 0);
    block[63] = 4096;
    REFUSED(name, jpeg_block_fdct_quantize_12bit(block, 63, quant, 63, output, 63), 1);
    REFUSED(name, jpeg_block_fdct_quantize_12bit(block, 65, quant, 64, output, 64), 1);
    REFUSED(name, jpeg_block_fdct_quantize_12bit(NULL, 0, NULL, 0, NULL, 0), 1);
    REFUSED(name, jpeg_block_fdct_quantize_12bit(block, 64, quant, 63, output, 63), 2);
    REFUSED(name, jpeg_block_fdct_quantize_12bit(block, 64, quant, 65, output, 64), 2);
    REFUSED(name, jpeg_block_fdct_quantize_12bit(block, 64, NULL, 0, output, 64), 2);
    REFUSED(name, jpeg_block_fdct_quantize_12bit(block, 64, quant, 64, output, 63), 3);
    REFUSED(name, jpeg_block_fdct_quantize_12bit(block, 64, quant, 64, output, 65), 3);
    REFUSED(name, jpeg_block_fdct_quantize_12bit(block, 64, quant, 64, NULL, 0), 3);
    REFUSED(name, jpeg_block_fdct_quantize_12bit(block, 64, quant, 64, output, 64), 12);
    block[63] = 65535;
    REFUSED(name, jpeg_block_fdct_quantize_12bit(block, 64, quant, 64, output, 64), 12);
}

/* A strip of 8 × 9 and one of 3 × 9: two blocks each, one above the other. */
static void joined(void)
{
    static const char name[] = "jpeg_block_join_planes";
    static const int16_t wide[32768] = {0};
    int16_t left[129], right[129], joined[257];
    uint8_t q[65] = {0}, r[65] = {0};
    int i;
    for (i = 0; i < 129; i++) {
        left[i] = (int16_t)i;
        right[i] = (int16_t)(1000 + i);
    }
    for (i = 0; i < 257; i++) {
        joined[i] = -7;
    }
    q[5] = 1; /* a quantizer 0 counts as 1 */
    expect(jpeg_block_join_planes(left, 127, 0, 9, q, 63, right, 127, 0, 9, r, 63, joined, 255) == 8, name, "a left width of 0");
    expect(jpeg_block_join_planes(left, 127, 8, 9, q, 63, right, 127, 3, 4097, r, 63, joined, 255) == 8, name, "a right height of 4097");
    expect(jpeg_block_join_planes(left, 127, 8, 9, q, 63, right, 127, 4097, 9, r, 63, joined, 255) == 8, name, "a right width of 4097");
    expect(jpeg_block_join_planes(NULL, 0, 8, 0, NULL, 0, NULL, 0, 3, 9, NULL, 0, NULL, 0) == 8, name, "a left height of 0");
    expect(jpeg_block_join_planes(left, 127, 8, 9, q, 63, right, 127, 3, 9, r, 63, joined, 255) == 1, name, "127 coefficients on the left");
    expect(jpeg_block_join_planes(left, 128, 8, 9, q, 63, right, 129, 3, 9, r, 63, joined, 255) == 1, name, "129 coefficients on the right");
    expect(jpeg_block_join_planes(left, 128, 8, 9, q, 63, right, 128, 3, 9, r, 65, joined, 255) == 2, name, "a left table of 63");
    expect(jpeg_block_join_planes(left, 128, 8, 9, q, 64, right, 128, 3, 9, r, 65, joined, 255) == 2, name, "a right table of 65");
    r[6] = 2;
    expect(jpeg_block_join_planes(left, 128, 7, 9, q, 64, right, 64, 3, 8, r, 64, joined, 255) == 15, name, "other divisors");
    r[6] = 0;
    expect(jpeg_block_join_planes(left, 128, 7, 9, q, 64, right, 64, 3, 8, r, 64, joined, 255) == 16, name, "other heights");
    expect(jpeg_block_join_planes(left, 128, 7, 9, q, 64, right, 128, 3, 9, r, 64, joined, 255) == 17, name, "a left width of 7");
    expect(jpeg_block_join_planes(wide, 32768, 4096, 1, q, 64, right, 64, 1, 1, r, 64, joined, 255) == 8, name, "a joined width of 4097");
    expect(jpeg_block_join_planes(left, 128, 8, 9, q, 64, right, 128, 3, 9, r, 64, joined, 255) == 3, name, "an output of 255 places");
    expect(jpeg_block_join_planes(left, 128, 8, 9, q, 64, right, 128, 3, 9, r, 64, NULL, 0) == 3, name, "no output");
    for (i = 0; i < 257; i++) {
        expect(joined[i] == -7, name, "wrote where it refused");
    }
    expect(jpeg_block_join_planes(left, 128, 8, 9, q, 64, right, 128, 3, 9, r, 64, joined, 256) == 0, name, "is refused");
    for (i = 0; i < 256; i++) {
        expect(joined[i] == (i % 128 < 64 ? 64 * (i / 128) + i % 64 : 1000 + 64 * (i / 128) + i % 64), name, "a joined coefficient");
    }
    expect(joined[256] == -7, name, "wrote beside the output");
}

/* A sample of 129 under quantizers 16: it comes back up to a divisor of 11, at 71 percent, and is 1 away from 17 on, where no coefficient is
 * left. A block of 128 has none at any percent. */
static void fewest(void)
{
    static const char name[] = "jpeg_block_fewest_coefficients";
    uint8_t sample[65], grey[64], base[65];
    OUTPUT(uint64_t);
    memset(sample, 129, sizeof sample);
    memset(grey, 128, sizeof grey);
    memset(base, 16, sizeof base);
#define FEWEST(samples, side, limit, trials, percent, off, tried) \
    do { \
        expect(jpeg_block_fewest_coefficients(samples, (side) * (side), side, side, base, 64, limit, trials, output, 3) == 0, name, "is refused"); \
        expect(output[0] == (percent), name, "limit " #limit ", trials " #trials ": not " #percent " percent"); \
        expect(output[1] == (off), name, "limit " #limit ", trials " #trials ": not " #off " off"); \
        expect(output[2] == (tried), name, "limit " #limit ", trials " #trials ": not " #tried " trials"); \
        WROTE(name, 3); \
    } while (0)
    REFUSED(name, jpeg_block_fewest_coefficients(sample, 0, 0, 1, base, 63, 0, 200, output, 2), 8);
    REFUSED(name, jpeg_block_fewest_coefficients(sample, 0, 1, 0, base, 63, 0, 200, output, 2), 8);
    REFUSED(name, jpeg_block_fewest_coefficients(sample, 1, 4097, 1, base, 64, 0, 200, output, 3), 8);
    REFUSED(name, jpeg_block_fewest_coefficients(sample, 1, 1, SIZE_MAX, base, 64, 0, 200, output, 3), 8);
    REFUSED(name, jpeg_block_fewest_coefficients(sample, 63, 8, 8, base, 63, 0, 200, output, 2), 9);
    REFUSED(name, jpeg_block_fewest_coefficients(sample, 65, 8, 8, base, 64, 0, 200, output, 3), 9);
    REFUSED(name, jpeg_block_fewest_coefficients(NULL, 0, 8, 8, NULL, 0, 0, 200, NULL, 0), 9);
    REFUSED(name, jpeg_block_fewest_coefficients(sample, 64, 8, 8, base, 63, 0, 200, output, 2), 2);
    REFUSED(name, jpeg_block_fewest_coefficients(sample, 64, 8, 8, base, 65, 0, 200, output, 3), 2);
    REFUSED(name, jpeg_block_fewest_coefficients(sample, 64, 8, 8, base, 64, 0, 200, output, 2), 3);
    REFUSED(name, jpeg_block_fewest_coefficients(sample, 64, 8, 8, base, 64, 0, 200, output, 4), 3);
    REFUSED(name, jpeg_block_fewest_coefficients(sample, 64, 8, 8, base, 64, 0, 200, NULL, 0), 3);
    FEWEST(sample, 8, 0, 0, 0, 0, 0);
    FEWEST(sample, 8, 0, 1, 1, 1, 1);
    FEWEST(sample, 8, 0, 200, 71, 1, 200);
    FEWEST(sample, 8, 63, 200, 71, 1, 200);
    FEWEST(sample, 8, 64, 200, 200, 0, 200);
    FEWEST(sample, 8, 64, 199, 199, 0, 199);
    FEWEST(sample, 8, 64, 201, 200, 0, 200);
    FEWEST(sample, 8, UINT64_MAX, UINT32_MAX, 200, 0, 200);
    FEWEST(sample, 1, 0, 200, 71, 1, 200);
    FEWEST(sample, 1, 1, 200, 200, 0, 200);
    FEWEST(grey, 8, 0, 7, 7, 0, 7);
#undef FEWEST
}

int main(void)
{
    inverse_blocks();
    forward_block();
    one_coefficient();
    plane();
    inverse_planes();
    divisors_made();
    guarded();
    canonical_recorded();
    dequantized();
    screened();
    same_blocks();
    same_recorded();
    percents();
    fewest();
    queued();
    forward_12bit();
    joined();
    if (failures == 0) {
        printf("every call is as expected\n");
    }
    return failures != 0;
}
