/* Codes a block of samples, screens and dequantizes its coefficients, and decodes them again, also brighter than 8 bits hold; compares its
 * record with others; codes it as one of 12 bits. Then codes a plane, decodes it at three sizes, joins it from two strips, and looks for the
 * percent of its table that stores it in the fewest coefficients. Then serves benches in turn. C and C++ take it. */
#include "jpeg_block.h"

#include <stdio.h>
#include <stdlib.h>
#include <string.h>

#define WIDTH 20
#define HEIGHT 12
#define BLOCKS (((WIDTH + 7) / 8) * ((HEIGHT + 7) / 8))
#define LEFT_WIDTH 16 /* a multiple of 8 */
#define RIGHT_WIDTH (WIDTH - LEFT_WIDTH)
#define HALF_WIDTH ((WIDTH + 1) / 2)
#define HALF_HEIGHT ((HEIGHT + 1) / 2)
#define QUARTER_WIDTH ((WIDTH + 3) / 4)
#define QUARTER_HEIGHT ((HEIGHT + 3) / 4)

static uint8_t block[64], quant[64];
static int16_t coefficients[64];

static void done(uint32_t status)
{
    if (status != JPEG_BLOCK_OK) {
        fprintf(stderr, "refused %u\n", (unsigned)status);
        exit(EXIT_FAILURE);
    }
}

static const char *word(int yes)
{
    return yes ? "yes" : "no";
}

static int largest_difference(const uint8_t *a, const uint8_t *b, int count)
{
    int n, largest = 0;
    for (n = 0; n < count; n++) {
        int off = abs((int)a[n] - (int)b[n]);
        if (off > largest) {
            largest = off;
        }
    }
    return largest;
}

static void one_block(void)
{
    uint8_t decoded[64], yes[1];
    int16_t dc[1];
    int32_t products[64];
    uint32_t status, counts[2];
    int n, nonzero = 0;

    done(jpeg_block_fdct_quantize(block, 64, quant, 64, coefficients, 64));
    for (n = 0; n < 64; n++) {
        nonzero += coefficients[n] != 0;
    }
    printf("coefficients that are not zero: %d\n", nonzero);

    done(jpeg_block_fdct_quantize_coefficient(block, 64, 16, 0, dc, 1));
    printf("DC: %d\n", dc[0]);

    done(jpeg_block_screen(coefficients, 64, quant, 64, yes, 1));
    printf("screen: %s\n", word(yes[0] == 1));

    done(jpeg_block_dequantize(coefficients, 64, quant, 64, products, 64));
    done(jpeg_block_islow_block_i32(products, 64, decoded, 64, NULL, 0));
    printf("largest difference of a sample: %d\n", largest_difference(block, decoded, 64));

    status = jpeg_block_islow_block_i32(products, 64, decoded, 63, NULL, 0);
    printf("an output of 63 places: refused %u\n", (unsigned)status);

    products[0] += 800;
    done(jpeg_block_islow_block_i32(products, 64, decoded, 64, counts, 2));
    printf("100 levels brighter: %u samples raised to 0, %u lowered to 255\n", (unsigned)counts[0], (unsigned)counts[1]);
}

/* A record under the table, and one under a table that gives the same coefficients. */
static void records(void)
{
    uint8_t other[64], divisors[2][64], yes[1];
    int16_t dc[2][1], ac[2][64];
    uint64_t nonzero_ac[1];
    double reciprocals[64];

    memcpy(other, quant, sizeof other);
    other[63] = 17;
    done(jpeg_block_fdct_quantize_record(block, 64, quant, 64, dc[0], 1, ac[0], 64, nonzero_ac, 1, divisors[0], 64));
    done(jpeg_block_fdct_quantize_record(block, 64, other, 64, dc[1], 1, ac[1], 64, nonzero_ac, 1, divisors[1], 64));
    done(jpeg_block_same_records(dc[0][0], ac[0], 64, divisors[0], 64, dc[0][0], ac[0], 64, divisors[0], 64, yes, 1));
    printf("a record and itself are the same: %s\n", word(yes[0] == 1));
    done(jpeg_block_same_records(dc[0][0], ac[0], 64, divisors[0], 64, dc[1][0], ac[1], 64, divisors[1], 64, yes, 1));
    printf("with another divisor: %s\n", word(yes[0] == 1));
    done(jpeg_block_quantization_divisors(quant, 64, reciprocals, 64)); /* once for many blocks */
    done(jpeg_block_fdct_quantize_guarded(block, 64, quant, 64, reciprocals, 64, dc[1], 1, ac[1], 64, nonzero_ac, 1, divisors[1], 64));
    done(jpeg_block_same_records(dc[0][0], ac[0], 64, divisors[0], 64, dc[1][0], ac[1], 64, divisors[1], 64, yes, 1));
    printf("with divisors made beforehand: %s\n", word(yes[0] == 1));
}

static void twelve_bits(void)
{
    uint16_t block_12bit[64], quant_12bit[64];
    int16_t coefficients_12bit[64];
    uint8_t yes[1];
    int n;

    for (n = 0; n < 64; n++) {
        block_12bit[n] = (uint16_t)(block[n] + 1920);
        quant_12bit[n] = quant[n];
    }
    done(jpeg_block_fdct_quantize_12bit(block_12bit, 64, quant_12bit, 64, coefficients_12bit, 64));
    done(jpeg_block_same(coefficients, 64, coefficients_12bit, 64, yes, 1));
    printf("12 bits, 1920 added to each sample, have the same coefficients: %s\n", word(yes[0] == 1));
}

static void whole_plane(void)
{
    uint8_t plane[WIDTH * HEIGHT], left[LEFT_WIDTH * HEIGHT], right[RIGHT_WIDTH * HEIGHT], table[64];
    uint8_t decoded[WIDTH * HEIGHT], half[HALF_WIDTH * HALF_HEIGHT], quarter[QUARTER_WIDTH * QUARTER_HEIGHT];
    int16_t coded[64 * BLOCKS], joined[64 * BLOCKS], coded_left[64 * 4], coded_right[64 * 2];
    uint64_t answer[3];
    int n;

    for (n = 0; n < WIDTH * HEIGHT; n++) {
        int x = n % WIDTH, y = n / WIDTH;
        plane[n] = (uint8_t)(40 + 9 * x + 3 * y);
        if (x < LEFT_WIDTH) {
            left[LEFT_WIDTH * y + x] = plane[n];
        } else {
            right[RIGHT_WIDTH * y + x - LEFT_WIDTH] = plane[n];
        }
    }
    done(jpeg_block_fdct_quantize_plane(plane, WIDTH * HEIGHT, WIDTH, HEIGHT, quant, 64, coded, 64 * BLOCKS));
    printf("DC of the %d blocks of a plane:", BLOCKS);
    for (n = 0; n < BLOCKS; n++) {
        printf(" %d", coded[64 * n]);
    }
    printf("\n");

    done(jpeg_block_islow_plane(coded, 64 * BLOCKS, WIDTH, HEIGHT, quant, 64, decoded, sizeof decoded, NULL, 0));
    printf("largest difference of its samples: %d\n", largest_difference(plane, decoded, WIDTH * HEIGHT));
    done(jpeg_block_islow_plane_4x4(coded, 64 * BLOCKS, WIDTH, HEIGHT, quant, 64, half, sizeof half, NULL, 0));
    done(jpeg_block_islow_plane_2x2(coded, 64 * BLOCKS, WIDTH, HEIGHT, quant, 64, quarter, sizeof quarter, NULL, 0));
    printf("first samples at half and quarter size: %d %d\n", half[0], quarter[0]);

    done(jpeg_block_fdct_quantize_plane(left, sizeof left, LEFT_WIDTH, HEIGHT, quant, 64, coded_left, 64 * 4));
    done(jpeg_block_fdct_quantize_plane(right, sizeof right, RIGHT_WIDTH, HEIGHT, quant, 64, coded_right, 64 * 2));
    done(jpeg_block_join_planes(coded_left, 64 * 4, LEFT_WIDTH, HEIGHT, quant, 64, coded_right, 64 * 2, RIGHT_WIDTH, HEIGHT, quant, 64, joined, 64 * BLOCKS));
    printf("two strips joined are the plane: %s\n", word(memcmp(joined, coded, sizeof coded) == 0));

    done(jpeg_block_fewest_coefficients(plane, WIDTH * HEIGHT, WIDTH, HEIGHT, quant, 64, 4 * WIDTH * HEIGHT, 200, answer, 3));
    done(jpeg_block_percent_table(quant, 64, (uint32_t)answer[0], table, 64));
    printf("fewest coefficients within a squared error of 4 a sample: %u percent, divisors %d\n", (unsigned)answer[0], table[0]);
}

/* Two blocks at bench 0, one at bench 2, and a turn for as many as there are. */
static void queue(void)
{
    static uint8_t list[4096];
    uint32_t state[10], answer[2], waiting[8], n;

    done(jpeg_block_bench_queue_new(3, state, 10));
    done(jpeg_block_bench_queue_deposit(state, 10, 0, 2));
    done(jpeg_block_bench_queue_deposit(state, 10, 2, 1));
    done(jpeg_block_bench_queue_report(state, 10, waiting, 8));
    printf("blocks that wait: %u %u %u\n", (unsigned)waiting[0], (unsigned)waiting[1], (unsigned)waiting[2]);
    done(jpeg_block_bench_queue_turn(state, 10, 4096, list, 4096, answer, 2));
    printf("benches served:");
    for (n = 0; n < answer[0]; n++) {
        printf(" %d", list[n]);
    }
    printf(", then %s\n", answer[1] == 2 ? "idle" : "spent");
}

int main(void)
{
    int n;

    for (n = 0; n < 64; n++) {
        block[n] = (uint8_t)(64 + 9 * (n % 8) + 5 * (n / 8));
        quant[n] = 16;
    }
    one_block();
    records();
    twelve_bits();
    whole_plane();
    queue();
    return EXIT_SUCCESS;
}
