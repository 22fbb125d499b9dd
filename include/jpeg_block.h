/* JPEG 8x8 block transforms, and whole planes: the functions of libjpeg_block.a, which `rt lib` in crates/jpeg_block writes
 * (Linux, for processors from x86-64-v2 on).
 *
 * A block is 64 numbers in natural order: index 8v + u for frequencies, 8y + x for samples (u and x across). A quantizer table is 64
 * quantizers in the same order; a quantizer 0 counts as 1, but for the guarded quantizer, which refuses it.
 *
 * Each buffer is a pointer and its length, the number of elements and not of bytes. Each function returns 0, and has then written
 * its output, all of it unless said otherwise; or a refusal's number, and has then written nothing:
 *
 *   1  an input block, or AC places of a record, not of 64; coefficients of a plane that are not 64 for each block
 *   2  a quantizer table, or divisors, not of 64
 *   3  an output of the wrong length
 *   4  an index above 63
 *   5  a quantizer 0 anywhere
 *   8  a width or height of 0 or above 4096, a joined width too
 *   9  samples that are not width times height
 *  11  a percent outside 1 to 200
 *  12  a 12-bit sample above 4095
 *  13  a bench count outside 1 to 8, a bench number not below it, a queue state out of range
 *  14  a waiting count above 65535
 *  15  divisors of two strips that differ
 *  16  heights of two strips that differ
 *  17  a left strip whose width is no multiple of 8
 *
 * Quantizers are of 8 bits: a table of T.81 with 16-bit entries is taken by jpeg_block_fdct_quantize_12bit alone.
 *
 * The tests run in the order in which each function lists its numbers, and the first that fails is answered. No function keeps a
 * pointer, allocates, or has a state: calls may run in parallel, also over shared inputs.
 *
 * What the caller guarantees, since no function can test it: each pointer is aligned for its type and valid for its length, for
 * reading, an output also for writing, until the call returns; an output overlaps no other buffer of the call and nobody else
 * touches it meanwhile. Two inputs may overlap. A buffer of length 0 is not looked at: its pointer may be anything, NULL too.
 */
#ifndef JPEG_BLOCK_H
#define JPEG_BLOCK_H

#include <stddef.h>
#include <stdint.h>

#ifdef __cplusplus
extern "C" {
#endif

#define JPEG_BLOCK_OK 0
#define JPEG_BLOCK_REFUSED_BLOCK 1
#define JPEG_BLOCK_REFUSED_TABLE 2
#define JPEG_BLOCK_REFUSED_OUTPUT 3
#define JPEG_BLOCK_REFUSED_INDEX 4
#define JPEG_BLOCK_REFUSED_QUANTIZER 5
#define JPEG_BLOCK_REFUSED_SIZE 8
#define JPEG_BLOCK_REFUSED_SAMPLES 9
#define JPEG_BLOCK_REFUSED_PERCENT 11
#define JPEG_BLOCK_REFUSED_SAMPLE 12
#define JPEG_BLOCK_REFUSED_BENCH 13
#define JPEG_BLOCK_REFUSED_WAITING 14
#define JPEG_BLOCK_REFUSED_DIVISORS 15
#define JPEG_BLOCK_REFUSED_HEIGHTS 16
#define JPEG_BLOCK_REFUSED_LEFT_WIDTH 17

/* The inverse transforms (ISLOW) of 64 dequantized coefficients. Refusals 1, 3.
 *
 * Those of 8 bits, and those of planes below, say what the clamp to 0..255 did: into counts[0] how many samples it raised to 0, into
 * counts[1] how many it lowered to 255; samples that are 0 or 255 without it are not counted. counts_len 2; or 0, with any pointer, NULL
 * too, where they are not wanted. Another length is refused by 3, tested last. */

/* 8x8 samples of 8 bits; output_len 64. The sums wrap at 32 bits. */
uint32_t jpeg_block_islow_block(const int16_t *input, size_t input_len, uint8_t *output, size_t output_len, uint32_t *counts, size_t counts_len);
uint32_t jpeg_block_islow_block_i32(const int32_t *input, size_t input_len, uint8_t *output, size_t output_len, uint32_t *counts, size_t counts_len);

/* The same of a block whose rows 4 to 7 (entries 32 to 63) count as zero: they are not read, but belong to the 64 places. */
uint32_t jpeg_block_islow_block_top_half(const int16_t *input, size_t input_len, uint8_t *output, size_t output_len, uint32_t *counts, size_t counts_len);
uint32_t jpeg_block_islow_block_top_half_i32(const int32_t *input, size_t input_len, uint8_t *output, size_t output_len, uint32_t *counts, size_t counts_len);

/* 4x4 and 2x2 samples of 8 bits; output_len 16 and 4. */
uint32_t jpeg_block_islow_block_4x4(const int16_t *input, size_t input_len, uint8_t *output, size_t output_len, uint32_t *counts, size_t counts_len);
uint32_t jpeg_block_islow_block_2x2(const int16_t *input, size_t input_len, uint8_t *output, size_t output_len, uint32_t *counts, size_t counts_len);

/* 8x8, 4x4 and 2x2 samples of 12 bits, 0 to 4095; output_len 64, 16 and 4. */
uint32_t jpeg_block_islow_block_12bit(const int16_t *input, size_t input_len, uint16_t *output, size_t output_len);
uint32_t jpeg_block_islow_block_12bit_4x4(const int16_t *input, size_t input_len, uint16_t *output, size_t output_len);
uint32_t jpeg_block_islow_block_12bit_2x2(const int16_t *input, size_t input_len, uint16_t *output, size_t output_len);

/* The canonical forward transform of 64 samples of 8 bits, quantized: each quotient rounded to nearest, halves away from zero. */

/* All 64 coefficients; out_len 64. Refusals 1, 2, 3. */
uint32_t jpeg_block_fdct_quantize(const uint8_t *block, size_t block_len, const uint8_t *quant, size_t quant_len, int16_t *out, size_t out_len);

/* The same of 64 samples of 12 bits, 0 to 4095, less 2048, under quantizers of 16 bits; a coefficient is at most 2^14 in size; out_len 64.
 * An 8-bit block with 1920 added to each sample has its 8-bit coefficients. Refusals 1, 2, 3, 12. */
uint32_t jpeg_block_fdct_quantize_12bit(const uint16_t *block, size_t block_len, const uint16_t *quant, size_t quant_len, int16_t *out, size_t out_len);

/* The coefficient at the index `natural` under one quantizer, into out[0]; out_len 1. Refusals 1, 4, 3. */
uint32_t jpeg_block_fdct_quantize_coefficient(const uint8_t *block, size_t block_len, uint8_t quantizer, size_t natural, int16_t *out, size_t out_len);

/* The guarded quantizer of 64 samples of 8 bits: a transform in binary64 and one product for each coefficient; where that lies less
 * than 2^-19 from a half the canonical coefficient stands. It and its divisors want the default floating-point environment: rounding to
 * nearest, ties to even, and subnormal numbers kept. */

/* The divisors of a table, which each call of the guarded quantizer takes; out_len 64. Refusals 2, 5, 3. */
uint32_t jpeg_block_quantization_divisors(const uint8_t *quant, size_t quant_len, double *out, size_t out_len);

/* DC into dc[0], dc_len 1; the AC coefficients in zigzag order into ac, ac[0] being 0, ac_len 64; into nonzero_ac[0] the bitmap whose
 * bit 64 - z is set when ac[z] is not 0, nonzero_ac_len 1; the table's 64 quantizers into record_divisors, record_divisors_len 64. The
 * divisors are used as handed over, even if made from another table; those of the record are always the table's.
 * Refusals 1, 2, 5; then 2 for the divisors; 3 for any of the four outputs. */
uint32_t jpeg_block_fdct_quantize_guarded(const uint8_t *block, size_t block_len, const uint8_t *quant, size_t quant_len, const double *divisors, size_t divisors_len, int16_t *dc, size_t dc_len, int16_t *ac, size_t ac_len, uint64_t *nonzero_ac, size_t nonzero_ac_len, uint8_t *record_divisors, size_t record_divisors_len);

/* The same record, with the divisors made from the table: then the guarded coefficients are proved to be the canonical ones, those of
 * jpeg_block_fdct_quantize, for every block and every table of quantizers 1 to 255. The divisors are made in each call.
 * Refusals 1, 2, 5; then 3 for any of the four outputs. */
uint32_t jpeg_block_fdct_quantize_record(const uint8_t *block, size_t block_len, const uint8_t *quant, size_t quant_len, int16_t *dc, size_t dc_len, int16_t *ac, size_t ac_len, uint64_t *nonzero_ac, size_t nonzero_ac_len, uint8_t *record_divisors, size_t record_divisors_len);

/* Into yes[0]: 1 when two records of the guarded quantizer have the same DC, the same ac[1] to ac[63] and the same 64 divisors, else 0;
 * yes_len 1. ac[0] is not looked at, and the bitmap is not asked for. Refusals 1 for the AC places of either record, 2 for the divisors of
 * either, 3. */
uint32_t jpeg_block_same_records(int16_t a_dc, const int16_t *a_ac, size_t a_ac_len, const uint8_t *a_divisors, size_t a_divisors_len, int16_t b_dc, const int16_t *b_ac, size_t b_ac_len, const uint8_t *b_divisors, size_t b_divisors_len, uint8_t *yes, size_t yes_len);

/* Blocks of 64 stored coefficients. */

/* Each coefficient times its quantizer; out_len 64. Refusals 1, 2, 3. */
uint32_t jpeg_block_dequantize(const int16_t *coefficients, size_t coefficients_len, const uint8_t *quant, size_t quant_len, int32_t *out, size_t out_len);

/* Into yes[0]: 1 when each coefficient is what some whole number rounds to under its quantizer, from the least to the greatest scaled sum
   that 8-bit blocks have at that frequency, else 0; yes_len 1. It judges frequencies singly and says nothing of whole blocks. What
   jpeg_block_fdct_quantize writes gives 1. Refusals 1, 2, 3. */
uint32_t jpeg_block_screen(const int16_t *coefficients, size_t coefficients_len, const uint8_t *quant, size_t quant_len, uint8_t *yes, size_t yes_len);

/* Into yes[0]: 1 when all 64 coefficients are equal, else 0; yes_len 1. Refusals 1 for either block, 3. */
uint32_t jpeg_block_same(const int16_t *a, size_t a_len, const int16_t *b, size_t b_len, uint8_t *yes, size_t yes_len);

/* Whole planes, width and height 1 to 4096. */

/* The samples of 8 bits, row by row, are cut into blocks from the top left, rows of blocks first; past the right or bottom edge the last
 * column or row repeats. The canonical coefficients of block k go to out[64 * k] and on; out_len 64 for each of the
 * ((width + 7) / 8) * ((height + 7) / 8) blocks. Refusals 8, 9, 2, 3. */
uint32_t jpeg_block_fdct_quantize_plane(const uint8_t *samples, size_t samples_len, size_t width, size_t height, const uint8_t *quant, size_t quant_len, int16_t *out, size_t out_len);

/* Coefficients, 64 for each block as jpeg_block_fdct_quantize_plane writes them, back to samples of 8 bits, row by row: at full size,
 * output_len width * height; with 4 or 2 samples for a block's side, output_len that of the width and height divided by 2 or 4, each
 * rounded up. What a block has beyond the plane's edge is left out, but counted. At full size the products of coefficient and quantizer are of 32
 * bits, else each is clamped to 16. Refusals 8, 1, 2, 3; then 3 for counts. */
uint32_t jpeg_block_islow_plane(const int16_t *coefficients, size_t coefficients_len, size_t width, size_t height, const uint8_t *quant, size_t quant_len, uint8_t *output, size_t output_len, uint32_t *counts, size_t counts_len);
uint32_t jpeg_block_islow_plane_4x4(const int16_t *coefficients, size_t coefficients_len, size_t width, size_t height, const uint8_t *quant, size_t quant_len, uint8_t *output, size_t output_len, uint32_t *counts, size_t counts_len);
uint32_t jpeg_block_islow_plane_2x2(const int16_t *coefficients, size_t coefficients_len, size_t width, size_t height, const uint8_t *quant, size_t quant_len, uint8_t *output, size_t output_len, uint32_t *counts, size_t counts_len);

/* Two coefficient planes of one height become one, without decoding: in each row of blocks the left's blocks and then the right's. Decoded it
 * shows the left picture beside the right one. out_len 64 for each block of a plane of left_width + right_width by left_height. Refusals 8,
 * 1 and 2, each for the left and then for the right; 15 for divisors that differ, a quantizer 0 counting as 1; 16 for heights that differ;
 * 17 for a left width that is no multiple of 8; 8 for a joined width above 4096; 3. */
uint32_t jpeg_block_join_planes(const int16_t *left, size_t left_len, size_t left_width, size_t left_height, const uint8_t *left_quant, size_t left_quant_len, const int16_t *right, size_t right_len, size_t right_width, size_t right_height, const uint8_t *right_quant, size_t right_quant_len, int16_t *out, size_t out_len);

/* A table by percent, 1 to 200: each quantizer of the base table times the percent, plus 50, divided by 100 and rounded down, then held to
 * 1..255; out_len 64. A larger percent makes no divisor smaller and no zero coefficient nonzero. Refusals 2, 3, 11. */
uint32_t jpeg_block_percent_table(const uint8_t *base, size_t base_len, uint32_t percent, uint8_t *out, size_t out_len);

/* The good percent of a base table with the fewest nonzero coefficients, the larger on equality. Percents 1, 2, 3 and on are tried, so many
 * as `trials` says and at most 200, each by coding and decoding the plane under the table of that percent; one is good where the squared
 * differences of the plane's samples to those that come back add up to at most `limit`. Into answer[0] the percent, or 0 when none tried is
 * good; into answer[1] how many nonzero coefficients it has at most more than any percent of 1 to 200: its number less that at percent 200,
 * or 0 when none is good; into answer[2] the number of trials, at most 200; answer_len 3. The time grows with blocks times trials.
 * Refusals 8, 9, 2, 3. */
uint32_t jpeg_block_fewest_coefficients(const uint8_t *samples, size_t samples_len, size_t width, size_t height, const uint8_t *base, size_t base_len, uint64_t limit, uint32_t trials, uint64_t *answer, size_t answer_len);

/* The queue of one to eight benches before one coder. A state is ten numbers: the bench count, the bench last served, and eight counts of
 * waiting blocks, 0 to 65535 and 0 past the last bench; state_len 10. A state that holds anything else, or is not of ten numbers, is refused
 * by 13 before any other test. A call that is not refused leaves the new state in its place. */

/* A new state of so many benches, with nobody waiting, that serves bench 0 first. Refusals 13 for a bench count outside 1 to 8, 3. */
uint32_t jpeg_block_bench_queue_new(uint32_t benches, uint32_t *state, size_t state_len);

/* So many more blocks wait at the bench; 0 is allowed. Refusals 13, also for a bench not below the bench count; 14 for a waiting count that
 * would exceed 65535. */
uint32_t jpeg_block_bench_queue_deposit(uint32_t *state, size_t state_len, uint32_t bench, uint32_t blocks);

/* Lists in out, from out[0] on, the bench of each of up to l coded blocks, one at a time, each the next waiting bench in cyclic order after
 * the one last served; l above 4096 acts as 4096; out_len 4096, of which no other place is written. Into answer[0] the number of blocks
 * listed; into answer[1] 2 ("idle") when nobody waits afterwards, else 1 ("spent", exactly l blocks were listed); answer_len 2.
 * Refusals 13, 3 for either output. */
uint32_t jpeg_block_bench_queue_turn(uint32_t *state, size_t state_len, uint32_t l, uint8_t *out, size_t out_len, uint32_t *answer, size_t answer_len);

/* Every bench's waiting count, eight of them, into counts; counts_len 8. Refusals 13, 3. */
uint32_t jpeg_block_bench_queue_report(const uint32_t *state, size_t state_len, uint32_t *counts, size_t counts_len);

#ifdef __cplusplus
}
#endif

#endif
