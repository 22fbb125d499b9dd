/* What the pictures and the plot of this folder are made from, by the functions of libjpeg_block.a. Standard input is a PGM picture with a
 * header of three lines. The arguments say what is printed:
 *   half, quarter: the picture at that size, coded with divisor 1, as PGM
 *   at PERCENT:    the picture coded under T.81's table K.1 at that percent, at full size, as PGM
 *   percents:      for each percent a line PERCENT NONZERO SQUARED_ERROR
 *   fewest LIMIT:  the percent that jpeg_block_fewest_coefficients finds within that squared error, of 200 tried, or 0 */
#include "jpeg_block.h"

#include <stdio.h>
#include <stdlib.h>
#include <string.h>

static const uint8_t k1[64] = {
    16, 11, 10, 16, 24,  40,  51,  61,  12, 12, 14, 19, 26,  58,  60,  55,  14, 13, 16, 24, 40,  57,  69,  56,  14, 17, 22, 29, 51,  87,  80,  62,
    18, 22, 37, 56, 68, 109, 103,  77,  24, 35, 55, 64, 81, 104, 113,  92,  49, 64, 78, 87, 103, 121, 120, 101, 72, 92, 95, 98, 112, 100, 103, 99,
};

static size_t width, height, places;
static uint8_t *picture, *decoded;
static int16_t *coefficients;

static void taken(int as_expected, const char *what)
{
    if (!as_expected) {
        fprintf(stderr, "planes: %s\n", what);
        exit(EXIT_FAILURE);
    }
}

static void read_picture(void)
{
    unsigned w, h;
    taken(scanf("P5\n%u %u\n255", &w, &h) == 2 && getchar() == '\n', "no PGM header of three lines");
    taken(w >= 1 && w <= 4096 && h >= 1 && h <= 4096, "another width or height");
    width = w;
    height = h;
    places = 64 * ((width + 7) / 8) * ((height + 7) / 8);
    picture = (uint8_t *)malloc(width * height);
    decoded = (uint8_t *)malloc(width * height);
    coefficients = (int16_t *)malloc(places * sizeof *coefficients);
    taken(picture != NULL && decoded != NULL && coefficients != NULL, "no memory");
    taken(fread(picture, 1, width * height, stdin) == width * height, "the samples end too early");
}

static void code(const uint8_t *table)
{
    taken(jpeg_block_fdct_quantize_plane(picture, width * height, width, height, table, 64, coefficients, places) == JPEG_BLOCK_OK, "coding is refused");
}

/* into `decoded`, at full, half or quarter size */
static void decode(const uint8_t *table, int by)
{
    size_t n = ((width + by - 1) / by) * ((height + by - 1) / by);
    uint32_t status = by == 1   ? jpeg_block_islow_plane(coefficients, places, width, height, table, 64, decoded, n, NULL, 0)
                      : by == 2 ? jpeg_block_islow_plane_4x4(coefficients, places, width, height, table, 64, decoded, n, NULL, 0)
                                : jpeg_block_islow_plane_2x2(coefficients, places, width, height, table, 64, decoded, n, NULL, 0);
    taken(status == JPEG_BLOCK_OK, "decoding is refused");
}

static void print_picture(int by)
{
    size_t w = (width + by - 1) / by, h = (height + by - 1) / by;
    printf("P5\n%zu %zu\n255\n", w, h);
    taken(fwrite(decoded, 1, w * h, stdout) == w * h, "the picture cannot be written");
}

static void table_at(unsigned long percent, uint8_t *table)
{
    taken(jpeg_block_percent_table(k1, 64, (uint32_t)percent, table, 64) == JPEG_BLOCK_OK, "the percent is refused");
}

int main(int count, char **words)
{
    uint8_t table[64];
    const char *what = count > 1 ? words[1] : "";
    unsigned long number = count > 2 ? strtoul(words[2], NULL, 10) : 0;
    read_picture();
    if (strcmp(what, "half") == 0 || strcmp(what, "quarter") == 0) {
        int by = what[0] == 'h' ? 2 : 4;
        memset(table, 1, sizeof table);
        code(table);
        decode(table, by);
        print_picture(by);
    } else if (strcmp(what, "at") == 0) {
        table_at(number, table);
        code(table);
        decode(table, 1);
        print_picture(1);
    } else if (strcmp(what, "percents") == 0) {
        unsigned percent;
        for (percent = 1; percent <= 200; percent++) {
            unsigned long nonzero = 0, error = 0;
            size_t i;
            table_at(percent, table);
            code(table);
            decode(table, 1);
            for (i = 0; i < places; i++) {
                nonzero += coefficients[i] != 0;
            }
            for (i = 0; i < width * height; i++) {
                long off = (long)picture[i] - (long)decoded[i];
                error += (unsigned long)(off * off);
            }
            printf("%u %lu %lu\n", percent, nonzero, error);
        }
    } else if (strcmp(what, "fewest") == 0) {
        uint64_t answer[3];
        taken(jpeg_block_fewest_coefficients(picture, width * height, width, height, k1, 64, number, 200, answer, 3) == JPEG_BLOCK_OK, "the search is refused");
        printf("%lu\n", (unsigned long)answer[0]);
    } else {
        taken(0, "half, quarter, at PERCENT, percents or fewest LIMIT");
    }
    return EXIT_SUCCESS;
}
