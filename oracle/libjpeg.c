/* Compares the inverse blocks of libjpeg_block.a with the samples that the installed libjpeg decodes (JDCT_ISLOW) from the same
 * coefficients, at scales 8/8, 4/8 and 2/8: libjpeg_compare [FILE.jpg ..]. Without files it makes its own pictures: grey ones of three
 * kinds, at qualities 1 to 100.
 *
 * A component's samples are taken as they leave the inverse transform (raw data): no upsampling, no colour conversion. Blocks with a
 * product of coefficient and quantizer beyond -1024..1023, which no picture of 8 bits has at a quality that is not very low, are
 * counted apart: there a number before the clamp can lie beyond the range in which libjpeg clamps. */
#include <setjmp.h>
#include <stdio.h>
#include <stdlib.h>
#include <string.h>

#include <jpeglib.h>

#include "jpeg_block.h"

struct errors { struct jpeg_error_mgr mgr; jmp_buf back; };

static void leave(j_common_ptr info) { longjmp(((struct errors *)info->err)->back, 1); }
static void silent(j_common_ptr info) { (void)info; }

struct tally { unsigned long blocks, differ, wide, wide_differ; };
static struct tally tallies[3];

/* One block of one component: what libjpeg gave, row by row, and what the coefficients give here. */
static void compare(const JCOEF *stored, const JQUANT_TBL *table, int side, JSAMPARRAY rows, size_t left) {
    int16_t products16[64];
    uint8_t samples[64];
    int32_t products[64];
    int wide = 0, differs = 0;
    for (int n = 0; n < 64; n++) {
        products[n] = stored[n] * (int32_t)table->quantval[n];
        products16[n] = (int16_t)products[n];
        wide |= products[n] < -1024 || products[n] > 1023;
    }
    uint32_t status = side == 8   ? jpeg_block_islow_block_i32(products, 64, samples, 64, NULL, 0)
                      : side == 4 ? jpeg_block_islow_block_4x4(products16, 64, samples, 16, NULL, 0)
                                  : jpeg_block_islow_block_2x2(products16, 64, samples, 4, NULL, 0);
    if (status != 0) { fprintf(stderr, "libjpeg_compare: refused %u\n", (unsigned)status); exit(2); }
    for (int y = 0; y < side; y++) differs |= memcmp(rows[y] + left, samples + side * y, (size_t)side) != 0;
    struct tally *t = &tallies[side == 8 ? 0 : side == 4 ? 1 : 2];
    if (wide) { t->wide++; t->wide_differ += differs; } else { t->blocks++; t->differ += differs; }
}

/* Every block of a JPEG file, decoded at scale num/8; components that libjpeg gives another number of samples are left out. */
static int file(unsigned char *bytes, unsigned long size, unsigned num) {
    struct jpeg_decompress_struct stored, decoded;
    struct errors errors;
    stored.err = decoded.err = jpeg_std_error(&errors.mgr);
    errors.mgr.error_exit = leave;
    errors.mgr.output_message = silent;
    memset(&stored, 0, sizeof stored);
    memset(&decoded, 0, sizeof decoded);
    stored.err = decoded.err = &errors.mgr;
    if (setjmp(errors.back)) { jpeg_destroy_decompress(&stored); jpeg_destroy_decompress(&decoded); return 0; }
    jpeg_create_decompress(&stored);
    jpeg_mem_src(&stored, bytes, size);
    jpeg_read_header(&stored, TRUE);
    jvirt_barray_ptr *coefficients = jpeg_read_coefficients(&stored);
    jpeg_create_decompress(&decoded);
    jpeg_mem_src(&decoded, bytes, size);
    jpeg_read_header(&decoded, TRUE);
    decoded.raw_data_out = TRUE;
    decoded.dct_method = JDCT_ISLOW;
    decoded.do_block_smoothing = FALSE;
    decoded.scale_num = num;
    decoded.scale_denom = 8;
    decoded.out_color_space = decoded.jpeg_color_space;
    jpeg_start_decompress(&decoded);
    JSAMPARRAY planes[MAX_COMPONENTS];
    int most = decoded.max_v_samp_factor * decoded.min_DCT_scaled_size;
    for (int c = 0; c < decoded.num_components; c++) {
        jpeg_component_info *info = &decoded.comp_info[c];
        unsigned rows = (unsigned)(info->v_samp_factor * info->DCT_scaled_size);
        unsigned across = (info->width_in_blocks + 2 * (unsigned)info->h_samp_factor) * (unsigned)info->DCT_scaled_size;
        planes[c] = (*decoded.mem->alloc_sarray)((j_common_ptr)&decoded, JPOOL_IMAGE, across, rows);
    }
    for (unsigned group = 0; decoded.output_scanline < decoded.output_height; group++) {
        if (jpeg_read_raw_data(&decoded, planes, (JDIMENSION)most) == 0) break;
        for (int c = 0; c < decoded.num_components; c++) {
            jpeg_component_info *info = &decoded.comp_info[c], *from = &stored.comp_info[c];
            int side = info->DCT_scaled_size;
            if ((side != 8 && side != 4 && side != 2) || from->quant_table == NULL) continue;
            for (int v = 0; v < info->v_samp_factor; v++) {
                JDIMENSION row = group * (unsigned)info->v_samp_factor + (unsigned)v;
                if (row >= from->height_in_blocks) continue;
                JBLOCKARRAY blocks = (*stored.mem->access_virt_barray)((j_common_ptr)&stored, coefficients[c], row, 1, FALSE);
                for (JDIMENSION u = 0; u < from->width_in_blocks; u++)
                    compare(blocks[0][u], from->quant_table, side, planes[c] + v * side, (size_t)u * (size_t)side);
            }
        }
    }
    jpeg_abort_decompress(&decoded);
    jpeg_destroy_decompress(&decoded);
    jpeg_destroy_decompress(&stored);
    return 1;
}

static int at_scales(unsigned char *bytes, unsigned long size) { return file(bytes, size, 8) & file(bytes, size, 4) & file(bytes, size, 2); }

static uint32_t seed = 16112026;
static unsigned next(unsigned below) {
    seed ^= seed << 13;
    seed ^= seed >> 17;
    seed ^= seed << 5;
    return seed % below;
}

/* A grey picture: noise, a ramp with a little noise, or squares. */
static void picture(unsigned char *samples, int side, int kind) {
    for (int i = 0; i < side * side; i++) {
        int x = i % side, y = i / side;
        int ramp = (x + 2 * y) * 255 / (3 * side) + (int)next(9) - 4;
        samples[i] = kind == 0   ? (unsigned char)next(256)
                     : kind == 1 ? (unsigned char)(ramp < 0 ? 0 : ramp > 255 ? 255 : ramp)
                                 : (unsigned char)(((x / 11 + y / 7) % 2) * 255);
    }
}

static unsigned long pictures(void) {
    enum { SIDE = 256 };
    static unsigned char samples[SIDE * SIDE];
    unsigned long made = 0;
    for (int quality = 1; quality <= 100; quality += quality < 10 ? 1 : 5)
        for (int kind = 0; kind < 3; kind++) {
            struct jpeg_compress_struct out;
            struct jpeg_error_mgr errors;
            unsigned char *bytes = NULL;
            unsigned long size = 0;
            out.err = jpeg_std_error(&errors);
            jpeg_create_compress(&out);
            jpeg_mem_dest(&out, &bytes, &size);
            out.image_width = out.image_height = SIDE;
            out.input_components = 1;
            out.in_color_space = JCS_GRAYSCALE;
            jpeg_set_defaults(&out);
            jpeg_set_quality(&out, quality, TRUE);
            jpeg_start_compress(&out, TRUE);
            picture(samples, SIDE, kind);
            while (out.next_scanline < SIDE) {
                JSAMPROW row = samples + out.next_scanline * SIDE;
                jpeg_write_scanlines(&out, &row, 1);
            }
            jpeg_finish_compress(&out);
            jpeg_destroy_compress(&out);
            made += (unsigned long)at_scales(bytes, size);
            free(bytes);
        }
    return made;
}

/* A block of 8x8 samples with one coefficient, DC: the sample that libjpeg decodes, and the one here. Such products lie beyond what the
 * pictures above have. */
static void alone(int coefficient, unsigned quantizer) {
    struct jpeg_compress_struct out;
    struct jpeg_decompress_struct in;
    struct jpeg_error_mgr errors;
    unsigned char *bytes = NULL, row[8];
    unsigned long size = 0;
    unsigned table[64];
    int32_t products[64] = {0};
    uint8_t samples[64];
    JSAMPROW into = row;
    for (int n = 0; n < 64; n++) table[n] = quantizer;
    out.err = in.err = jpeg_std_error(&errors);
    jpeg_create_compress(&out);
    jpeg_mem_dest(&out, &bytes, &size);
    out.image_width = out.image_height = 8;
    out.input_components = 1;
    out.in_color_space = JCS_GRAYSCALE;
    jpeg_set_defaults(&out);
    jpeg_add_quant_table(&out, 0, table, 100, TRUE);
    jvirt_barray_ptr blocks = (*out.mem->request_virt_barray)((j_common_ptr)&out, JPOOL_IMAGE, TRUE, 1, 1, 1);
    jpeg_write_coefficients(&out, &blocks);
    (*out.mem->access_virt_barray)((j_common_ptr)&out, blocks, 0, 1, TRUE)[0][0][0] = (JCOEF)coefficient;
    jpeg_finish_compress(&out);
    jpeg_destroy_compress(&out);
    jpeg_create_decompress(&in);
    jpeg_mem_src(&in, bytes, size);
    jpeg_read_header(&in, TRUE);
    in.dct_method = JDCT_ISLOW;
    jpeg_start_decompress(&in);
    jpeg_read_scanlines(&in, &into, 1);
    jpeg_abort_decompress(&in);
    jpeg_destroy_decompress(&in);
    free(bytes);
    products[0] = coefficient * (int32_t)quantizer;
    jpeg_block_islow_block_i32(products, 64, samples, 64, NULL, 0);
    printf("DC %d alone: libjpeg %d, here %d\n", (int)products[0], row[0], samples[0]);
}

int main(int count, char **names) {
    unsigned long files = 0, unread = 0;
    if (count == 1) files = pictures();
    for (int k = 1; k < count; k++) {
        FILE *in = fopen(names[k], "rb");
        unsigned char *bytes = NULL;
        long size = -1;
        if (in != NULL && fseek(in, 0, SEEK_END) == 0 && (size = ftell(in)) > 0 && fseek(in, 0, SEEK_SET) == 0) bytes = malloc((size_t)size);
        if (bytes != NULL && fread(bytes, 1, (size_t)size, in) == (size_t)size && at_scales(bytes, (unsigned long)size)) files++; else unread++;
        free(bytes);
        if (in != NULL) fclose(in);
    }
    printf("files %lu, not read %lu\n", files, unread);
    static const char *const scales[3] = {"8/8", "4/8", "2/8"};
    int failed = 0;
    for (int k = 0; k < 3; k++) {
        printf("scale %s: blocks %lu, differ %lu; with a product beyond -1024..1023: blocks %lu, differ %lu\n", scales[k], tallies[k].blocks, tallies[k].differ, tallies[k].wide, tallies[k].wide_differ);
        failed |= tallies[k].differ != 0 || tallies[k].blocks == 0;
    }
    alone(1016, 1);
    alone(1023, 4);
    alone(1024, 8);
    return failed;
}
