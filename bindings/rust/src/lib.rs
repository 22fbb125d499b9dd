//! The functions of `libjpeg_block.a` (include/jpeg_block.h) for Rust, on slices
//! and arrays: JPEG 8x8 block transforms and whole planes, each proved to meet
//! its contract.
//!
//! A refusal is `Err` of a [`Refusal`], and then nothing is written. A slice
//! meets what the header asks of a caller, so the functions are safe. They keep
//! nothing between calls and allocate nothing. Quantizers are of 8 bits, but for
//! [`fdct_quantize_12bit`], and the guarded quantizer and its divisors want the
//! default floating-point environment. A block is 64 numbers in natural order:
//! index 8v + u for frequencies, 8y + x for samples.
//!
//! ```
//! use jpeg_block::{dequantize, fdct_quantize, islow_block_i32, Refusal};
//!
//! fn main() -> Result<(), Refusal> {
//!     let block = [200; 64];
//!     let quant = [16; 64];
//!
//!     let mut coefficients = [0; 64];
//!     fdct_quantize(&block, &quant, &mut coefficients)?;
//!     assert_eq!(coefficients[0], 36);
//!     assert!(coefficients[1..].iter().all(|&c| c == 0));
//!
//!     let mut products = [0; 64];
//!     dequantize(&coefficients, &quant, &mut products)?;
//!     let mut samples = [0; 64];
//!     islow_block_i32(&products, &mut samples)?;
//!     assert_eq!(samples, [200; 64]);
//!
//!     let refused = islow_block_i32(&products, &mut samples[..63]);
//!     assert_eq!(refused, Err(Refusal::OUTPUT));
//!     Ok(())
//! }
//! ```
//!
//! `rt lib` in crates/jpeg_block writes the archive; build.rs says where it is looked
//! for. `rustc` alone takes this file too, with `-L native=` the archive's folder.

#![no_std]
#![deny(missing_docs)]

use core::fmt;

/// The functions as the archive has them: a slice is a pointer and a length.
/// include/jpeg_block.h says what each does and what it asks of its caller.
#[allow(missing_docs)]
pub mod raw {
    #[link(name = "jpeg_block", kind = "static")]
    extern "C" {
        pub fn jpeg_block_islow_block(
            input: *const i16,
            input_len: usize,
            output: *mut u8,
            output_len: usize,
            counts: *mut u32,
            counts_len: usize,
        ) -> u32;
        pub fn jpeg_block_islow_block_i32(
            input: *const i32,
            input_len: usize,
            output: *mut u8,
            output_len: usize,
            counts: *mut u32,
            counts_len: usize,
        ) -> u32;
        pub fn jpeg_block_islow_block_top_half(
            input: *const i16,
            input_len: usize,
            output: *mut u8,
            output_len: usize,
            counts: *mut u32,
            counts_len: usize,
        ) -> u32;
        pub fn jpeg_block_islow_block_top_half_i32(
            input: *const i32,
            input_len: usize,
            output: *mut u8,
            output_len: usize,
            counts: *mut u32,
            counts_len: usize,
        ) -> u32;
        pub fn jpeg_block_islow_block_4x4(
            input: *const i16,
            input_len: usize,
            output: *mut u8,
            output_len: usize,
            counts: *mut u32,
            counts_len: usize,
        ) -> u32;
        pub fn jpeg_block_islow_block_2x2(
            input: *const i16,
            input_len: usize,
            output: *mut u8,
            output_len: usize,
            counts: *mut u32,
            counts_len: usize,
        ) -> u32;
        pub fn jpeg_block_islow_block_12bit(
            input: *const i16,
            input_len: usize,
            output: *mut u16,
            output_len: usize,
        ) -> u32;
        pub fn jpeg_block_islow_block_12bit_4x4(
            input: *const i16,
            input_len: usize,
            output: *mut u16,
            output_len: usize,
        ) -> u32;
        pub fn jpeg_block_islow_block_12bit_2x2(
            input: *const i16,
            input_len: usize,
            output: *mut u16,
            output_len: usize,
        ) -> u32;
        pub fn jpeg_block_fdct_quantize(
            block: *const u8,
            block_len: usize,
            quant: *const u8,
            quant_len: usize,
            out: *mut i16,
            out_len: usize,
        ) -> u32;
        pub fn jpeg_block_fdct_quantize_12bit(
            block: *const u16,
            block_len: usize,
            quant: *const u16,
            quant_len: usize,
            out: *mut i16,
            out_len: usize,
        ) -> u32;
        pub fn jpeg_block_fdct_quantize_coefficient(
            block: *const u8,
            block_len: usize,
            quantizer: u8,
            natural: usize,
            out: *mut i16,
            out_len: usize,
        ) -> u32;
        pub fn jpeg_block_fdct_quantize_plane(
            samples: *const u8,
            samples_len: usize,
            width: usize,
            height: usize,
            quant: *const u8,
            quant_len: usize,
            out: *mut i16,
            out_len: usize,
        ) -> u32;
        pub fn jpeg_block_quantization_divisors(
            quant: *const u8,
            quant_len: usize,
            out: *mut f64,
            out_len: usize,
        ) -> u32;
        pub fn jpeg_block_fdct_quantize_guarded(
            block: *const u8,
            block_len: usize,
            quant: *const u8,
            quant_len: usize,
            divisors: *const f64,
            divisors_len: usize,
            dc: *mut i16,
            dc_len: usize,
            ac: *mut i16,
            ac_len: usize,
            nonzero_ac: *mut u64,
            nonzero_ac_len: usize,
            record_divisors: *mut u8,
            record_divisors_len: usize,
        ) -> u32;
        pub fn jpeg_block_fdct_quantize_record(
            block: *const u8,
            block_len: usize,
            quant: *const u8,
            quant_len: usize,
            dc: *mut i16,
            dc_len: usize,
            ac: *mut i16,
            ac_len: usize,
            nonzero_ac: *mut u64,
            nonzero_ac_len: usize,
            record_divisors: *mut u8,
            record_divisors_len: usize,
        ) -> u32;
        pub fn jpeg_block_same_records(
            a_dc: i16,
            a_ac: *const i16,
            a_ac_len: usize,
            a_divisors: *const u8,
            a_divisors_len: usize,
            b_dc: i16,
            b_ac: *const i16,
            b_ac_len: usize,
            b_divisors: *const u8,
            b_divisors_len: usize,
            yes: *mut u8,
            yes_len: usize,
        ) -> u32;
        pub fn jpeg_block_dequantize(
            coefficients: *const i16,
            coefficients_len: usize,
            quant: *const u8,
            quant_len: usize,
            out: *mut i32,
            out_len: usize,
        ) -> u32;
        pub fn jpeg_block_islow_plane(
            coefficients: *const i16,
            coefficients_len: usize,
            width: usize,
            height: usize,
            quant: *const u8,
            quant_len: usize,
            output: *mut u8,
            output_len: usize,
            counts: *mut u32,
            counts_len: usize,
        ) -> u32;
        pub fn jpeg_block_islow_plane_4x4(
            coefficients: *const i16,
            coefficients_len: usize,
            width: usize,
            height: usize,
            quant: *const u8,
            quant_len: usize,
            output: *mut u8,
            output_len: usize,
            counts: *mut u32,
            counts_len: usize,
        ) -> u32;
        pub fn jpeg_block_islow_plane_2x2(
            coefficients: *const i16,
            coefficients_len: usize,
            width: usize,
            height: usize,
            quant: *const u8,
            quant_len: usize,
            output: *mut u8,
            output_len: usize,
            counts: *mut u32,
            counts_len: usize,
        ) -> u32;
        pub fn jpeg_block_screen(
            coefficients: *const i16,
            coefficients_len: usize,
            quant: *const u8,
            quant_len: usize,
            yes: *mut u8,
            yes_len: usize,
        ) -> u32;
        pub fn jpeg_block_same(
            a: *const i16,
            a_len: usize,
            b: *const i16,
            b_len: usize,
            yes: *mut u8,
            yes_len: usize,
        ) -> u32;
        pub fn jpeg_block_join_planes(
            left: *const i16,
            left_len: usize,
            left_width: usize,
            left_height: usize,
            left_quant: *const u8,
            left_quant_len: usize,
            right: *const i16,
            right_len: usize,
            right_width: usize,
            right_height: usize,
            right_quant: *const u8,
            right_quant_len: usize,
            out: *mut i16,
            out_len: usize,
        ) -> u32;
        pub fn jpeg_block_percent_table(
            base: *const u8,
            base_len: usize,
            percent: u32,
            out: *mut u8,
            out_len: usize,
        ) -> u32;
        pub fn jpeg_block_fewest_coefficients(
            samples: *const u8,
            samples_len: usize,
            width: usize,
            height: usize,
            base: *const u8,
            base_len: usize,
            limit: u64,
            trials: u32,
            answer: *mut u64,
            answer_len: usize,
        ) -> u32;
        pub fn jpeg_block_bench_queue_new(benches: u32, state: *mut u32, state_len: usize) -> u32;
        pub fn jpeg_block_bench_queue_deposit(
            state: *mut u32,
            state_len: usize,
            bench: u32,
            blocks: u32,
        ) -> u32;
        pub fn jpeg_block_bench_queue_turn(
            state: *mut u32,
            state_len: usize,
            l: u32,
            out: *mut u8,
            out_len: usize,
            answer: *mut u32,
            answer_len: usize,
        ) -> u32;
        pub fn jpeg_block_bench_queue_report(
            state: *const u32,
            state_len: usize,
            counts: *mut u32,
            counts_len: usize,
        ) -> u32;
    }
}

/// Why a call was refused: a number, which every call of the library gives the
/// same meaning. What the call was lent is as it was.
///
/// ```
/// use jpeg_block::{percent_table, Refusal};
///
/// let mut table = [0; 64];
/// let refusal = percent_table(&[16; 64], 201, &mut table).unwrap_err();
/// assert_eq!(refusal, Refusal::PERCENT);
/// assert_eq!(refusal.number(), 11);
/// assert_eq!(refusal.to_string(), "refused 11: a percent outside 1 to 200");
/// ```
#[derive(Clone, Copy, Debug, PartialEq, Eq, Hash)]
pub struct Refusal(u32);

macro_rules! refusals {
    ($($number:literal $name:ident $meaning:literal)*) => {
        impl Refusal {
            $(
                #[doc = concat!(stringify!($number), ": ", $meaning, ".")]
                pub const $name: Refusal = Refusal($number);
            )*

            /// What the number means.
            pub const fn meaning(self) -> &'static str {
                match self.0 {
                    $($number => $meaning,)*
                    _ => "for a reason that this binding does not know",
                }
            }
        }
    };
}

// As in include/jpeg_block.h.
refusals! {
    1 BLOCK "an input block, or AC places of a record, not of 64; coefficients of a plane that are not 64 for each block"
    2 TABLE "a quantizer table, or divisors, not of 64"
    3 OUTPUT "an output of the wrong length"
    4 INDEX "an index above 63"
    5 QUANTIZER "a quantizer 0 anywhere"
    8 SIZE "a width or height of 0 or above 4096, a joined width too"
    9 SAMPLES "samples that are not width times height"
    11 PERCENT "a percent outside 1 to 200"
    12 SAMPLE "a 12-bit sample above 4095"
    13 BENCH "a bench count outside 1 to 8, a bench number not below it, a queue state out of range"
    14 WAITING "a waiting count above 65535"
    15 DIVISORS "divisors of two strips that differ"
    16 HEIGHTS "heights of two strips that differ"
    17 LEFT_WIDTH "a left strip whose width is no multiple of 8"
}

impl Refusal {
    /// The number, as the function for C returns it.
    pub const fn number(self) -> u32 {
        self.0
    }
}

impl fmt::Display for Refusal {
    fn fmt(&self, f: &mut fmt::Formatter<'_>) -> fmt::Result {
        write!(f, "refused {}: {}", self.0, self.meaning())
    }
}

impl core::error::Error for Refusal {}

impl From<Refusal> for u32 {
    fn from(refusal: Refusal) -> u32 {
        refusal.0
    }
}

#[inline]
fn answer<T>(status: u32, value: T) -> Result<T, Refusal> {
    if status == 0 {
        Ok(value)
    } else {
        Err(Refusal(status))
    }
}

/// What the clamp of an 8-bit inverse did. Samples that are 0 or 255 without it
/// are not counted.
#[derive(Clone, Copy, Debug, Default, PartialEq, Eq)]
pub struct Clamped {
    /// How many samples it raised to 0.
    pub raised: u32,
    /// How many samples it lowered to 255.
    pub lowered: u32,
}

/// Why a call on arrays that has nothing but lengths to refuse cannot be.
const RIGHT_LENGTHS: &str = "arrays of the right lengths are not refused";

#[inline]
fn clamped(status: u32, [raised, lowered]: [u32; 2]) -> Result<Clamped, Refusal> {
    answer(status, Clamped { raised, lowered })
}

macro_rules! inverse {
    ($($(#[$says:meta])* $name:ident, $raw:ident, $input:ty;)*) => {$(
        $(#[$says])*
        ///
        /// Refusals: 1, an input not of 64 places; 3, an output of the wrong length.
        #[inline]
        pub fn $name(input: &[$input], output: &mut [u8]) -> Result<Clamped, Refusal> {
            let mut counts = [0; 2];
            // SAFETY: both are slices, an exclusive one overlaps no other, and
            // the place for the counts is this function's own.
            let status = unsafe {
                raw::$raw(
                    input.as_ptr(),
                    input.len(),
                    output.as_mut_ptr(),
                    output.len(),
                    counts.as_mut_ptr(),
                    counts.len(),
                )
            };
            clamped(status, counts)
        }
    )*};
}

inverse! {
    /// 8x8 samples of 8 bits.
    islow_block, jpeg_block_islow_block, i16;
    /// 8x8 samples of 8 bits.
    islow_block_i32, jpeg_block_islow_block_i32, i32;
    /// 8x8 samples of 8 bits of a block whose rows 4 to 7 count as zero.
    islow_block_top_half, jpeg_block_islow_block_top_half, i16;
    /// 8x8 samples of 8 bits of a block whose rows 4 to 7 count as zero.
    islow_block_top_half_i32, jpeg_block_islow_block_top_half_i32, i32;
    /// 4x4 samples of 8 bits.
    islow_block_4x4, jpeg_block_islow_block_4x4, i16;
    /// 2x2 samples of 8 bits.
    islow_block_2x2, jpeg_block_islow_block_2x2, i16;
}

macro_rules! inverse_12bit {
    ($($(#[$says:meta])* $name:ident, $raw:ident;)*) => {$(
        $(#[$says])*
        ///
        /// Refusals: 1, an input not of 64 places; 3, an output of the wrong length.
        #[inline]
        pub fn $name(input: &[i16], output: &mut [u16]) -> Result<(), Refusal> {
            // SAFETY: both are slices, and an exclusive one overlaps no other.
            let status = unsafe {
                raw::$raw(input.as_ptr(), input.len(), output.as_mut_ptr(), output.len())
            };
            answer(status, ())
        }
    )*};
}

inverse_12bit! {
    /// 8x8 samples of 12 bits.
    islow_block_12bit, jpeg_block_islow_block_12bit;
    /// 4x4 samples of 12 bits.
    islow_block_12bit_4x4, jpeg_block_islow_block_12bit_4x4;
    /// 2x2 samples of 12 bits.
    islow_block_12bit_2x2, jpeg_block_islow_block_12bit_2x2;
}

/// The 64 canonical coefficients of a block. Refusals: 1, a block not of 64
/// places; 2, a table not of 64; 3, an output not of 64.
#[inline]
pub fn fdct_quantize(block: &[u8], quant: &[u8], out: &mut [i16]) -> Result<(), Refusal> {
    // SAFETY: all are slices, and an exclusive one overlaps no other.
    let status = unsafe {
        raw::jpeg_block_fdct_quantize(
            block.as_ptr(),
            block.len(),
            quant.as_ptr(),
            quant.len(),
            out.as_mut_ptr(),
            out.len(),
        )
    };
    answer(status, ())
}

/// The 64 canonical coefficients of a block of 12-bit samples, 0 to 4095, under
/// quantizers of 16 bits; each is at most 2^14 in size. Refusals: 1, a block not
/// of 64 places; 2, a table not of 64; 3, an output not of 64; 12, a sample
/// above 4095.
#[inline]
pub fn fdct_quantize_12bit(block: &[u16], quant: &[u16], out: &mut [i16]) -> Result<(), Refusal> {
    // SAFETY: all are slices, and an exclusive one overlaps no other.
    let status = unsafe {
        raw::jpeg_block_fdct_quantize_12bit(
            block.as_ptr(),
            block.len(),
            quant.as_ptr(),
            quant.len(),
            out.as_mut_ptr(),
            out.len(),
        )
    };
    answer(status, ())
}

/// The canonical coefficient at the index `natural`. Refusals: 1, a block not
/// of 64 places; 4, an index above 63.
#[inline]
pub fn fdct_quantize_coefficient(
    block: &[u8],
    quantizer: u8,
    natural: usize,
) -> Result<i16, Refusal> {
    let mut place = [0];
    // SAFETY: both are slices, and the place is this function's own.
    let status = unsafe {
        raw::jpeg_block_fdct_quantize_coefficient(
            block.as_ptr(),
            block.len(),
            quantizer,
            natural,
            place.as_mut_ptr(),
            place.len(),
        )
    };
    answer(status, place[0])
}

/// How many coefficients a plane has: 64 for each of its blocks. 0 for a width
/// or height that [`fdct_quantize_plane`] refuses.
#[inline]
pub fn plane_coefficients(width: usize, height: usize) -> usize {
    let taken = 1..=4096;
    if taken.contains(&width) && taken.contains(&height) {
        64 * width.div_ceil(8) * height.div_ceil(8)
    } else {
        0
    }
}

/// The canonical coefficients of a plane of samples, row by row: those of block
/// k at `out[64 * k]` and on, rows of blocks first; past the right or bottom
/// edge the last column or row repeats. Refusals: 8, a width or height of 0 or
/// above 4096; 9, samples not `width * height`; 2, a table not of 64; 3, an
/// output not of 64 places for each block.
#[inline]
pub fn fdct_quantize_plane(
    samples: &[u8],
    width: usize,
    height: usize,
    quant: &[u8],
    out: &mut [i16],
) -> Result<(), Refusal> {
    // SAFETY: all are slices, and an exclusive one overlaps no other.
    let status = unsafe {
        raw::jpeg_block_fdct_quantize_plane(
            samples.as_ptr(),
            samples.len(),
            width,
            height,
            quant.as_ptr(),
            quant.len(),
            out.as_mut_ptr(),
            out.len(),
        )
    };
    answer(status, ())
}

/// The divisors that the guarded quantizer takes for a table. Refusals: 2, a
/// table not of 64; 5, a quantizer 0.
#[inline]
pub fn quantization_divisors(quant: &[u8]) -> Result<[f64; 64], Refusal> {
    let mut out = [0.0; 64];
    // SAFETY: both are slices, and the output is this function's own.
    let status = unsafe {
        raw::jpeg_block_quantization_divisors(
            quant.as_ptr(),
            quant.len(),
            out.as_mut_ptr(),
            out.len(),
        )
    };
    answer(status, out)
}

/// What the guarded quantizer gives. [`same_records`] compares two; `==` looks at
/// the bitmap and at AC place 0 too.
#[derive(Clone, Copy, Debug, PartialEq, Eq)]
pub struct QuantizedBlock {
    /// The DC coefficient.
    pub dc: i16,
    /// The AC coefficients in zigzag order; place 0 is 0.
    pub ac_coefficients: [i16; 64],
    /// Bit 64 - z is set when AC place z is not 0.
    pub nonzero_ac: u64,
    /// The quantizer table, in natural order.
    pub divisors: [u8; 64],
}

/// The guarded quantizer. Refusals: 1, a block not of 64 places; 2, a table not
/// of 64; 5, a quantizer 0.
#[inline]
pub fn fdct_quantize_guarded(
    block: &[u8],
    quant: &[u8],
    divisors: &[f64; 64],
) -> Result<QuantizedBlock, Refusal> {
    let mut made = QuantizedBlock {
        dc: 0,
        ac_coefficients: [0; 64],
        nonzero_ac: 0,
        divisors: [0; 64],
    };
    // SAFETY: the inputs are slices, and the outputs the parts of this
    // function's own record.
    let status = unsafe {
        raw::jpeg_block_fdct_quantize_guarded(
            block.as_ptr(),
            block.len(),
            quant.as_ptr(),
            quant.len(),
            divisors.as_ptr(),
            divisors.len(),
            &mut made.dc,
            1,
            made.ac_coefficients.as_mut_ptr(),
            made.ac_coefficients.len(),
            &mut made.nonzero_ac,
            1,
            made.divisors.as_mut_ptr(),
            made.divisors.len(),
        )
    };
    answer(status, made)
}

/// The record of a block's canonical coefficients, by the guarded quantizer with
/// the divisors made from the table in this call. Refusals: 1, a block not of 64
/// places; 2, a table not of 64; 5, a quantizer 0.
#[inline]
pub fn fdct_quantize_record(block: &[u8], quant: &[u8]) -> Result<QuantizedBlock, Refusal> {
    let mut made = QuantizedBlock {
        dc: 0,
        ac_coefficients: [0; 64],
        nonzero_ac: 0,
        divisors: [0; 64],
    };
    // SAFETY: the inputs are slices, and the outputs the parts of this
    // function's own record.
    let status = unsafe {
        raw::jpeg_block_fdct_quantize_record(
            block.as_ptr(),
            block.len(),
            quant.as_ptr(),
            quant.len(),
            &mut made.dc,
            1,
            made.ac_coefficients.as_mut_ptr(),
            made.ac_coefficients.len(),
            &mut made.nonzero_ac,
            1,
            made.divisors.as_mut_ptr(),
            made.divisors.len(),
        )
    };
    answer(status, made)
}

/// Whether two records have the same DC, the same AC places 1 to 63 and the same
/// divisors, whatever their bitmaps and AC place 0 hold. A record has no wrong
/// length, so nothing is refused.
#[inline]
pub fn same_records(a: &QuantizedBlock, b: &QuantizedBlock) -> bool {
    let mut place = [0];
    // SAFETY: all are arrays, and the place is this function's own.
    let status = unsafe {
        raw::jpeg_block_same_records(
            a.dc,
            a.ac_coefficients.as_ptr(),
            a.ac_coefficients.len(),
            a.divisors.as_ptr(),
            a.divisors.len(),
            b.dc,
            b.ac_coefficients.as_ptr(),
            b.ac_coefficients.len(),
            b.divisors.as_ptr(),
            b.divisors.len(),
            place.as_mut_ptr(),
            place.len(),
        )
    };
    answer(status, place[0] == 1).expect(RIGHT_LENGTHS)
}

/// Each coefficient times its quantizer, 0 counting as 1. Refusals: 1, a block
/// not of 64 places; 2, a table not of 64; 3, an output not of 64.
#[inline]
pub fn dequantize(coefficients: &[i16], quant: &[u8], out: &mut [i32]) -> Result<(), Refusal> {
    // SAFETY: all are slices, and an exclusive one overlaps no other.
    let status = unsafe {
        raw::jpeg_block_dequantize(
            coefficients.as_ptr(),
            coefficients.len(),
            quant.as_ptr(),
            quant.len(),
            out.as_mut_ptr(),
            out.len(),
        )
    };
    answer(status, ())
}

macro_rules! inverse_plane {
    ($($(#[$says:meta])* $name:ident, $raw:ident;)*) => {$(
        $(#[$says])*
        /// The counts are those of whole blocks, before any is cropped.
        ///
        /// Refusals: 8, a width or height of 0 or above 4096; 1, coefficients not
        /// 64 for each block; 2, a table not of 64; 3, an output of the wrong length.
        #[inline]
        pub fn $name(
            coefficients: &[i16],
            width: usize,
            height: usize,
            quant: &[u8],
            output: &mut [u8],
        ) -> Result<Clamped, Refusal> {
            let mut counts = [0; 2];
            // SAFETY: all are slices, an exclusive one overlaps no other, and
            // the place for the counts is this function's own.
            let status = unsafe {
                raw::$raw(
                    coefficients.as_ptr(),
                    coefficients.len(),
                    width,
                    height,
                    quant.as_ptr(),
                    quant.len(),
                    output.as_mut_ptr(),
                    output.len(),
                    counts.as_mut_ptr(),
                    counts.len(),
                )
            };
            clamped(status, counts)
        }
    )*};
}

inverse_plane! {
    /// A plane of `width * height` samples from its coefficients.
    islow_plane, jpeg_block_islow_plane;
    /// A plane at half size, width and height rounded up: 4x4 samples a block.
    islow_plane_4x4, jpeg_block_islow_plane_4x4;
    /// A plane at quarter size, width and height rounded up: 2x2 samples a block.
    islow_plane_2x2, jpeg_block_islow_plane_2x2;
}

/// Whether each coefficient is what some whole number rounds to under its
/// quantizer, from the least to the greatest scaled sum that 8-bit blocks have
/// at that frequency. It judges frequencies singly and says nothing of whole
/// blocks. Refusals: 1, a block not of 64 places; 2, a table not of 64.
#[inline]
pub fn screen(coefficients: &[i16], quant: &[u8]) -> Result<bool, Refusal> {
    let mut place = [0];
    // SAFETY: all are slices, and the place is this function's own.
    let status = unsafe {
        raw::jpeg_block_screen(
            coefficients.as_ptr(),
            coefficients.len(),
            quant.as_ptr(),
            quant.len(),
            place.as_mut_ptr(),
            place.len(),
        )
    };
    answer(status, place[0] == 1)
}

/// Whether all 64 coefficients are equal. Refusal: 1, either block not of 64
/// places.
#[inline]
pub fn same(a: &[i16], b: &[i16]) -> Result<bool, Refusal> {
    let mut place = [0];
    // SAFETY: all are slices, and the place is this function's own.
    let status = unsafe {
        raw::jpeg_block_same(
            a.as_ptr(),
            a.len(),
            b.as_ptr(),
            b.len(),
            place.as_mut_ptr(),
            place.len(),
        )
    };
    answer(status, place[0] == 1)
}

/// A plane's coefficients as [`fdct_quantize_plane`] writes them, with its width,
/// height and table.
#[derive(Clone, Copy, Debug)]
pub struct Strip<'a> {
    /// 64 for each block.
    pub coefficients: &'a [i16],
    /// 1 to 4096 samples.
    pub width: usize,
    /// 1 to 4096 samples.
    pub height: usize,
    /// 64 quantizers.
    pub quant: &'a [u8],
}

/// Two planes of one height become one, whose blocks are the left's and then the
/// right's in each row of blocks. Refusals, each for the left and then for the
/// right: 8, a width or height outside 1 to 4096; 1, coefficients not 64 to a
/// block; 2, a table not of 64. Then 15, divisors that differ; 16, heights that
/// differ; 17, a left width that is no multiple of 8; 8, a joined width above
/// 4096; 3, an output not of 64 places to a joined block.
#[inline]
pub fn join_planes(left: Strip, right: Strip, out: &mut [i16]) -> Result<(), Refusal> {
    // SAFETY: all are slices, and an exclusive one overlaps no other.
    let status = unsafe {
        raw::jpeg_block_join_planes(
            left.coefficients.as_ptr(),
            left.coefficients.len(),
            left.width,
            left.height,
            left.quant.as_ptr(),
            left.quant.len(),
            right.coefficients.as_ptr(),
            right.coefficients.len(),
            right.width,
            right.height,
            right.quant.as_ptr(),
            right.quant.len(),
            out.as_mut_ptr(),
            out.len(),
        )
    };
    answer(status, ())
}

/// A table by percent: each quantizer of the base table times the percent, plus
/// 50, divided by 100 and rounded down, then held to 1..255. Refusals: 2, a base
/// table not of 64; 3, an output not of 64; 11, a percent outside 1 to 200.
#[inline]
pub fn percent_table(base: &[u8], percent: u32, out: &mut [u8]) -> Result<(), Refusal> {
    // SAFETY: both are slices, and an exclusive one overlaps no other.
    let status = unsafe {
        raw::jpeg_block_percent_table(
            base.as_ptr(),
            base.len(),
            percent,
            out.as_mut_ptr(),
            out.len(),
        )
    };
    answer(status, ())
}

/// What [`fewest_coefficients`] finds.
#[derive(Clone, Copy, Debug, PartialEq, Eq)]
pub struct Fewest {
    /// `None`: none tried is good.
    pub percent: Option<u32>,
    /// How many nonzero coefficients it has at most more than any percent of 1
    /// to 200: its number less that at percent 200, or 0 where none is good.
    pub off: u64,
    /// The number of trials, at most 200.
    pub trials: u32,
}

/// The good percent of a base table with the fewest nonzero coefficients, the
/// larger on equality. Percents 1, 2, 3 and on are tried, at most 200, each by
/// coding and decoding the plane; one is good where the squared differences of
/// the plane's samples add up to at most the limit. Refusals: 8, a width or
/// height of 0 or above 4096; 9, samples that are not width times height; 2, a
/// base table not of 64.
#[inline]
pub fn fewest_coefficients(
    samples: &[u8],
    width: usize,
    height: usize,
    base: &[u8],
    limit: u64,
    trials: u32,
) -> Result<Fewest, Refusal> {
    let mut place = [0; 3];
    // SAFETY: all are slices, and an exclusive one overlaps no other.
    let status = unsafe {
        raw::jpeg_block_fewest_coefficients(
            samples.as_ptr(),
            samples.len(),
            width,
            height,
            base.as_ptr(),
            base.len(),
            limit,
            trials,
            place.as_mut_ptr(),
            place.len(),
        )
    };
    let [percent, off, trials] = place;
    let percent = if percent == 0 {
        None
    } else {
        Some(percent as u32)
    };
    answer(
        status,
        Fewest {
            percent,
            off,
            trials: trials as u32,
        },
    )
}

/// The queue of one to eight benches before one coder: ten numbers, the bench
/// count, the bench last served and eight counts of waiting blocks. A state out
/// of range, made by hand, is refused by 13 from every call.
///
/// ```
/// use jpeg_block::{BenchQueue, Word};
///
/// let queue = BenchQueue::new(3)?.deposit(0, 2)?.deposit(2, 1)?;
/// let mut list = [0; 4096];
/// let turned = queue.turn(2, &mut list)?;
/// assert_eq!(list[..turned.listed], [0, 2]);
/// assert_eq!(turned.word, Word::Spent);
/// assert_eq!(turned.state.report()?[..3], [1, 0, 0]);
/// # Ok::<(), jpeg_block::Refusal>(())
/// ```
#[derive(Clone, Copy, Debug, PartialEq, Eq)]
pub struct BenchQueue(pub [u32; 10]);

/// What an accepted turn says.
#[derive(Clone, Copy, Debug, PartialEq, Eq)]
pub enum Word {
    /// So many blocks were coded as were asked for, and somebody waits.
    Spent,
    /// Nobody waits.
    Idle,
}

/// What an accepted turn gives.
#[derive(Clone, Copy, Debug, PartialEq, Eq)]
pub struct Turned {
    /// The new state.
    pub state: BenchQueue,
    /// The number of blocks listed.
    pub listed: usize,
    /// Whether somebody still waits.
    pub word: Word,
}

impl BenchQueue {
    /// Nobody waits, and bench 0 is served first. Refusal: 13, a bench count
    /// outside 1 to 8.
    #[inline]
    pub fn new(benches: u32) -> Result<BenchQueue, Refusal> {
        let mut state = [0; 10];
        // SAFETY: it is an array of this function's own.
        let status =
            unsafe { raw::jpeg_block_bench_queue_new(benches, state.as_mut_ptr(), state.len()) };
        answer(status, BenchQueue(state))
    }

    /// So many more blocks wait at the bench. Refusals: 13, a bench number not
    /// below the bench count; 14, a waiting count above 65535.
    #[inline]
    pub fn deposit(self, bench: u32, blocks: u32) -> Result<BenchQueue, Refusal> {
        let mut state = self.0;
        // SAFETY: it is an array of this function's own.
        let status = unsafe {
            raw::jpeg_block_bench_queue_deposit(state.as_mut_ptr(), state.len(), bench, blocks)
        };
        answer(status, BenchQueue(state))
    }

    /// Lists the bench of each of up to `l` coded blocks, at most 4096, from the
    /// first place of `out` on, and writes no other place. Refusals: 13; 3, an
    /// output not of 4096 places.
    #[inline]
    pub fn turn(self, l: u32, out: &mut [u8]) -> Result<Turned, Refusal> {
        let (mut state, mut told) = (self.0, [0; 2]);
        // SAFETY: all are slices, and an exclusive one overlaps no other.
        let status = unsafe {
            raw::jpeg_block_bench_queue_turn(
                state.as_mut_ptr(),
                state.len(),
                l,
                out.as_mut_ptr(),
                out.len(),
                told.as_mut_ptr(),
                told.len(),
            )
        };
        answer(
            status,
            Turned {
                state: BenchQueue(state),
                listed: told[0] as usize,
                word: if told[1] == 2 {
                    Word::Idle
                } else {
                    Word::Spent
                },
            },
        )
    }

    /// Every bench's waiting count. Refusal: 13.
    #[inline]
    pub fn report(self) -> Result<[u32; 8], Refusal> {
        let mut counts = [0; 8];
        // SAFETY: both are arrays, and the counts this function's own.
        let status = unsafe {
            raw::jpeg_block_bench_queue_report(
                self.0.as_ptr(),
                self.0.len(),
                counts.as_mut_ptr(),
                counts.len(),
            )
        };
        answer(status, counts)
    }
}

/// The calls on blocks by arrays. Their lengths are right by their types, so
/// that only a value can be refused, and an output is what a call gives.
///
/// ```
/// use jpeg_block::arrays::{fdct_quantize, islow_block};
///
/// let coefficients = fdct_quantize(&[200; 64], &[1; 64]);
/// let (samples, clamped) = islow_block(&coefficients);
/// assert_eq!(samples, [200; 64]);
/// assert_eq!((clamped.raised, clamped.lowered), (0, 0));
/// ```
pub mod arrays {
    use super::{Clamped, Refusal, RIGHT_LENGTHS};

    macro_rules! inverse {
        ($($name:ident, $input:ty, $samples:literal;)*) => {$(
            #[doc = concat!("[`", stringify!($name), "`](super::", stringify!($name), "()), which cannot be refused here.")]
            #[inline]
            pub fn $name(input: &[$input; 64]) -> ([u8; $samples], Clamped) {
                let mut output = [0; $samples];
                let clamped = super::$name(input, &mut output).expect(RIGHT_LENGTHS);
                (output, clamped)
            }
        )*};
    }

    inverse! {
        islow_block, i16, 64;
        islow_block_i32, i32, 64;
        islow_block_top_half, i16, 64;
        islow_block_top_half_i32, i32, 64;
        islow_block_4x4, i16, 16;
        islow_block_2x2, i16, 4;
    }

    macro_rules! inverse_12bit {
        ($($name:ident, $samples:literal;)*) => {$(
            #[doc = concat!("[`", stringify!($name), "`](super::", stringify!($name), "()), which cannot be refused here.")]
            #[inline]
            pub fn $name(input: &[i16; 64]) -> [u16; $samples] {
                let mut output = [0; $samples];
                super::$name(input, &mut output).expect(RIGHT_LENGTHS);
                output
            }
        )*};
    }

    inverse_12bit! {
        islow_block_12bit, 64;
        islow_block_12bit_4x4, 16;
        islow_block_12bit_2x2, 4;
    }

    /// [`fdct_quantize`](super::fdct_quantize()), which cannot be refused here.
    #[inline]
    pub fn fdct_quantize(block: &[u8; 64], quant: &[u8; 64]) -> [i16; 64] {
        let mut out = [0; 64];
        super::fdct_quantize(block, quant, &mut out).expect(RIGHT_LENGTHS);
        out
    }

    /// [`fdct_quantize_12bit`](super::fdct_quantize_12bit()). Refusal: 12, a
    /// sample above 4095.
    #[inline]
    pub fn fdct_quantize_12bit(block: &[u16; 64], quant: &[u16; 64]) -> Result<[i16; 64], Refusal> {
        let mut out = [0; 64];
        super::fdct_quantize_12bit(block, quant, &mut out)?;
        Ok(out)
    }

    /// [`dequantize`](super::dequantize()), which cannot be refused here.
    #[inline]
    pub fn dequantize(coefficients: &[i16; 64], quant: &[u8; 64]) -> [i32; 64] {
        let mut out = [0; 64];
        super::dequantize(coefficients, quant, &mut out).expect(RIGHT_LENGTHS);
        out
    }

    /// [`screen`](super::screen()), which cannot be refused here.
    #[inline]
    pub fn screen(coefficients: &[i16; 64], quant: &[u8; 64]) -> bool {
        super::screen(coefficients, quant).expect(RIGHT_LENGTHS)
    }

    /// [`same`](super::same()), which cannot be refused here.
    #[inline]
    pub fn same(a: &[i16; 64], b: &[i16; 64]) -> bool {
        super::same(a, b).expect(RIGHT_LENGTHS)
    }

    /// [`percent_table`](super::percent_table()). Refusal: 11, a percent outside
    /// 1 to 200.
    #[inline]
    pub fn percent_table(base: &[u8; 64], percent: u32) -> Result<[u8; 64], Refusal> {
        let mut out = [0; 64];
        super::percent_table(base, percent, &mut out)?;
        Ok(out)
    }
}
