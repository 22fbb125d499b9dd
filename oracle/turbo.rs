//! The 8-bit inverses of libjpeg_block.a beside libjpeg-turbo's vector code, on
//! the same 64 blocks of a kind, in turn.
//!
//! libjpeg-turbo's functions multiply the coefficients by a table, of ones here,
//! and store row by row through pointers, which stand ready. They clamp as we do,
//! but count nothing.

use crate::{coefficients, pass, Mode};
use std::arch::is_x86_feature_detected;
use std::hint::black_box;

/// As libjpeg-turbo wants blocks and tables to lie.
#[repr(align(32))]
struct Aligned([i16; 64]);

static ONES: Aligned = Aligned([1; 64]);

/// Samples, and pointers to their rows.
struct Rows<const N: usize> {
    samples: Box<[u8; N]>,
    rows: Vec<*mut u8>,
}

fn rows<const N: usize>() -> Rows<N> {
    let mut samples = Box::new([0; N]);
    let start = samples.as_mut_ptr();
    let side = N.isqrt();
    let rows = (0..side).map(|y| start.wrapping_add(side * y)).collect();
    Rows { samples, rows }
}

macro_rules! turbo {
    ($($name:ident $jsimd:ident [$n:literal])*) => {
        // The static library has them, but no header: simd/jsimd.h of its source.
        extern "C" {
            $(fn $jsimd(table: *const i16, block: *const i16, rows: *const *mut u8, column: u32);)*
        }
        // Each under a name that a profile shows.
        $(
            #[inline(never)]
            #[no_mangle]
            fn $name(input: &Aligned, output: &mut Rows<$n>) {
                // SAFETY: 64 coefficients and quantizers, aligned, and as many rows as are stored.
                unsafe { $jsimd(ONES.0.as_ptr(), input.0.as_ptr(), output.rows.as_ptr(), 0) }
            }
        )*
    };
}

turbo! {
    turbo_islow_block_sse2 jsimd_idct_islow_sse2 [64]
    turbo_islow_block_avx2 jsimd_idct_islow_avx2 [64]
    turbo_islow_block_4x4_sse2 jsimd_idct_4x4_sse2 [16]
    turbo_islow_block_2x2_sse2 jsimd_idct_2x2_sse2 [4]
}

/// Times both, or counts theirs alone: ours is counted beside the Rust's. First
/// says on how many blocks the samples are the same.
fn beside<const N: usize>(
    mode: &mut Mode,
    name: &str,
    turbo: fn(&Aligned, &mut Rows<N>),
    ours: impl Fn(&Aligned, &mut Rows<N>),
) {
    for (kind, blocks) in coefficients::<i16>() {
        let inputs: Vec<_> = blocks.into_iter().map(Aligned).collect();
        match mode {
            Mode::Count(only) if only == kind => {
                pass(&inputs, &mut rows(), 1, turbo);
            }
            Mode::Time(only) if name.starts_with(only.as_str()) => {
                let same = inputs.iter().filter(|input| {
                    let (mut theirs, mut here) = (rows(), rows());
                    turbo(input, &mut theirs);
                    ours(input, &mut here);
                    theirs.samples == here.samples
                });
                println!(
                    "{name} {kind}: the same samples on {} of {} blocks",
                    same.count(),
                    inputs.len()
                );
                mode.run(name, kind, &inputs, rows(), turbo, &ours);
            }
            _ => {}
        }
    }
}

pub fn run(mode: &mut Mode) {
    macro_rules! ours {
        ($block:ident) => {
            |input, output| {
                black_box(jpeg_block::$block(&input.0, &mut *output.samples)).expect("no refusal");
            }
        };
    }
    beside(
        mode,
        "islow_block/turbo_sse2",
        turbo_islow_block_sse2,
        ours!(islow_block),
    );
    if is_x86_feature_detected!("avx2") {
        beside(
            mode,
            "islow_block/turbo_avx2",
            turbo_islow_block_avx2,
            ours!(islow_block),
        );
    }
    beside(
        mode,
        "islow_block_4x4/turbo_sse2",
        turbo_islow_block_4x4_sse2,
        ours!(islow_block_4x4),
    );
    beside(
        mode,
        "islow_block_2x2/turbo_sse2",
        turbo_islow_block_2x2_sse2,
        ours!(islow_block_2x2),
    );
}
