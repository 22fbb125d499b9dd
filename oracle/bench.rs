//! Times every function of libjpeg_block.a beside the published Rust's, on the
//! same inputs, in turn. The Rust has no dequantizing, screen, sameness, table
//! by percent, search or queue; the plain loops below stand in its place. It has no
//! 12-bit forward entry; its 8-bit one stands there, on the block with 1920 less
//! in each sample, and in a second line our own. A plane's time is that of one
//! block, beside the Rust's in a loop, and beside our own block entry's.
//! Where libjpeg-turbo is linked (cfg `turbo`), lines `NAME/turbo_sse2` and
//! `NAME/turbo_avx2` have its functions in the Rust's place (turbo.rs).
//!
//! No arguments: a line for each function and kind of block, `NAME KIND RUST_NS
//! OURS_NS RATIO`, the medians over the rounds; with the beginning of a name,
//! for the functions whose names begin so. `count KIND`: calls each
//! function that has this kind, and the Rust's, once for each of the 64 blocks,
//! for a tool that counts instructions; `kinds`: the names of the kinds.

#[allow(dead_code)]
mod numbers;
#[allow(dead_code)]
mod planes;
#[cfg(turbo)]
mod turbo;

use j2k_codec_math::jpeg::{fdct, idct};
use j2k_encoder::{Divisors, Quantized};
use jpeg_block::{BenchQueue, QuantizedBlock, Strip};
use numbers::{Random, SEED};
use planes::{any_plane, blocks, cut, Plane};
use std::hint::black_box;
use std::time::Instant;

/// Blocks of a kind: few enough to stay in the nearest cache.
const BLOCKS: usize = 64;
const ROUNDS: usize = 501;
/// Fewer where one call takes long.
const ALL_ROUNDS_NS: f64 = 2e9;
/// The time of one round of one side: so short that other programs interrupt
/// few of them, and the median is of an undisturbed one.
const ROUND_NS: f64 = 50_000.0;

/// The least 2cd + d and the greatest 2cd - d of a coefficient c that passes the
/// screen under the divisor d, for each frequency.
static LOW: [i32; 64] = [
    -2_048, -1_848, -1_884, -1_848, -2_040, -1_848, -1_884, -1_848, -1_848, -1_674, -1_707, -1_674,
    -1_848, -1_674, -1_707, -1_674, -1_884, -1_707, -1_741, -1_707, -1_884, -1_707, -1_741, -1_707,
    -1_848, -1_674, -1_707, -1_674, -1_848, -1_674, -1_707, -1_674, -2_040, -1_848, -1_884, -1_848,
    -2_040, -1_848, -1_884, -1_848, -1_848, -1_674, -1_707, -1_674, -1_848, -1_674, -1_707, -1_674,
    -1_884, -1_707, -1_741, -1_707, -1_884, -1_707, -1_741, -1_707, -1_848, -1_674, -1_707, -1_674,
    -1_848, -1_674, -1_707, -1_674,
];
static HIGH: [i32; 64] = [
    2_032, 1_848, 1_884, 1_848, 2_040, 1_848, 1_884, 1_848, 1_848, 1_674, 1_707, 1_674, 1_848,
    1_674, 1_707, 1_674, 1_884, 1_707, 1_741, 1_707, 1_884, 1_707, 1_741, 1_707, 1_848, 1_674,
    1_707, 1_674, 1_848, 1_674, 1_707, 1_674, 2_040, 1_848, 1_884, 1_848, 2_040, 1_848, 1_884,
    1_848, 1_848, 1_674, 1_707, 1_674, 1_848, 1_674, 1_707, 1_674, 1_884, 1_707, 1_741, 1_707,
    1_884, 1_707, 1_741, 1_707, 1_848, 1_674, 1_707, 1_674, 1_848, 1_674, 1_707, 1_674,
];

/// The Rust's functions, each under a name that a profile shows.
macro_rules! rust {
    ($($name:ident($($arg:ident: $t:ty),*) $body:block)*) => {$(
        #[inline(never)]
        #[no_mangle]
        fn $name($($arg: $t),*) $body
    )*};
}

rust! {
    rust_islow_block(input: &[i16; 64], output: &mut [u8; 64]) {
        idct::islow_block(input, output);
    }
    rust_islow_block_i32(input: &[i32; 64], output: &mut [u8; 64]) {
        idct::islow_block(input, output);
    }
    rust_islow_block_top_half(input: &[i16; 64], output: &mut [u8; 64]) {
        idct::islow_block_top_half(input, output);
    }
    rust_islow_block_top_half_i32(input: &[i32; 64], output: &mut [u8; 64]) {
        idct::islow_block_top_half(input, output);
    }
    rust_islow_block_4x4(input: &[i16; 64], output: &mut [u8; 16]) {
        idct::islow_block_4x4(input, output);
    }
    rust_islow_block_2x2(input: &[i16; 64], output: &mut [u8; 4]) {
        idct::islow_block_2x2(input, output);
    }
    rust_islow_block_12bit(input: &[i16; 64], output: &mut [u16; 64]) {
        idct::islow_block_12bit(input, output);
    }
    rust_islow_block_12bit_4x4(input: &[i16; 64], output: &mut [u16; 16]) {
        idct::islow_block_12bit_4x4(input, output);
    }
    rust_islow_block_12bit_2x2(input: &[i16; 64], output: &mut [u16; 4]) {
        idct::islow_block_12bit_2x2(input, output);
    }
    rust_fdct_quantize(input: &([u8; 64], [u8; 64]), output: &mut [i16; 64]) {
        *output = fdct::fdct_quantize(&input.0, &input.1);
    }
    rust_fdct_quantize_12bit(input: &Raised, output: &mut [i16; 64]) {
        *output = fdct::fdct_quantize(&input.block, &input.quant);
    }
    rust_fdct_quantize_coefficient(input: &([u8; 64], u8, usize), output: &mut i16) {
        *output = fdct::fdct_quantize_coefficient(&input.0, input.1, input.2);
    }
    rust_fdct_quantize_plane(input: &(Plane, [u8; 64]), output: &mut Vec<i16>) {
        let Plane { width, height, samples } = &input.0;
        let across = blocks(*width);
        for (k, out) in output.chunks_mut(64).enumerate() {
            let (left, top) = (8 * (k % across), 8 * (k / across));
            let mut block = [0; 64];
            if left + 8 <= *width && top + 8 <= *height {
                for y in 0..8 {
                    let from = width * (top + y) + left;
                    block[8 * y..8 * y + 8].copy_from_slice(&samples[from..from + 8]);
                }
            } else {
                for (i, sample) in block.iter_mut().enumerate() {
                    let (x, y) = ((left + i % 8).min(width - 1), (top + i / 8).min(height - 1));
                    *sample = samples[width * y + x];
                }
            }
            out.copy_from_slice(&fdct::fdct_quantize(&block, &input.1));
        }
    }
    rust_islow_plane(input: &Stored, output: &mut Vec<u8>) {
        rust_plane::<8, 64>(input, 1, output, |products, block| {
            idct::islow_block(products, block);
        });
    }
    rust_islow_plane_4x4(input: &Stored, output: &mut Vec<u8>) {
        rust_plane::<4, 16>(input, 2, output, |products, block| {
            idct::islow_block_4x4(&narrow(products), block);
        });
    }
    rust_islow_plane_2x2(input: &Stored, output: &mut Vec<u8>) {
        rust_plane::<2, 4>(input, 4, output, |products, block| {
            idct::islow_block_2x2(&narrow(products), block);
        });
    }
    rust_quantization_divisors(input: &[u8; 64], output: &mut [f64; 64]) {
        *output = Divisors::new(input).reciprocals();
    }
    rust_fdct_quantize_guarded(input: &Guarded, output: &mut Option<Quantized>) {
        *output = Some(j2k_encoder::fdct_quantize(&input.block, &input.quant, &input.theirs));
    }
    rust_fdct_quantize_record(input: &Guarded, output: &mut Option<Quantized>) {
        let divisors = Divisors::new(&input.quant);
        *output = Some(j2k_encoder::fdct_quantize(&input.block, &input.quant, &divisors));
    }
    rust_dequantize(input: &([i16; 64], [u8; 64]), output: &mut [i32; 64]) {
        for n in 0..64 {
            output[n] = i32::from(input.0[n]) * i32::from(input.1[n].max(1));
        }
    }
    rust_screen(input: &([i16; 64], [u8; 64]), output: &mut bool) {
        *output = (0..64).all(|n| {
            let d = i32::from(input.1[n].max(1));
            let twice = 2 * i32::from(input.0[n]) * d;
            twice - d <= HIGH[n] && twice + d >= LOW[n]
        });
    }
    rust_same(input: &([i16; 64], [i16; 64]), output: &mut bool) {
        *output = input.0 == input.1;
    }
    rust_same_records(input: &(QuantizedBlock, QuantizedBlock), output: &mut bool) {
        let (a, b) = input;
        let numbers = a.dc == b.dc && a.ac_coefficients[1..] == b.ac_coefficients[1..];
        *output = numbers && a.divisors == b.divisors;
    }
    rust_percent_table(input: &([u8; 64], u32), output: &mut [u8; 64]) {
        for n in 0..64 {
            output[n] = ((u32::from(input.0[n]) * input.1 + 50) / 100).clamp(1, 255) as u8;
        }
    }
    rust_join_planes(input: &Strips, output: &mut Vec<i16>) {
        let (left, right) = output.split_at_mut(input.left.len());
        left.copy_from_slice(&input.left);
        right.copy_from_slice(&input.right);
    }

    rust_fewest_coefficients(input: &(Plane, [u8; 64], u64), output: &mut (u32, u64)) {
        let (Plane { width, height, samples }, base, limit) = input;
        let across = blocks(*width);
        let trial = |percent: u32| {
            let mut quant = [0; 64];
            rust_percent_table(&(*base, percent), &mut quant);
            let (mut error, mut count) = (0, 0);
            for k in 0..across * blocks(*height) {
                let (left, top) = (8 * (k % across), 8 * (k / across));
                let mut block = [0; 64];
                for (i, sample) in block.iter_mut().enumerate() {
                    let (x, y) = ((left + i % 8).min(width - 1), (top + i / 8).min(height - 1));
                    *sample = samples[width * y + x];
                }
                let coefficients = fdct::fdct_quantize(&block, &quant);
                let mut products = [0; 64];
                for n in 0..64 {
                    products[n] = i32::from(coefficients[n]) * i32::from(quant[n].max(1));
                }
                let mut decoded = [0; 64];
                idct::islow_block(&products, &mut decoded);
                for y in 0..8.min(height - top) {
                    for x in 0..8.min(width - left) {
                        let d = u64::from(block[8 * y + x].abs_diff(decoded[8 * y + x]));
                        error += d * d;
                    }
                }
                count += coefficients.iter().filter(|c| **c != 0).count() as u64;
            }
            (error, count)
        };
        let (_, last) = trial(200);
        let mut best = None;
        for percent in 1..=200 {
            let (error, count) = trial(percent);
            if error <= *limit && best.is_none_or(|(_, fewest)| count <= fewest) {
                best = Some((percent, count));
            }
        }
        *output = best.map_or((0, 0), |(percent, count)| (percent, count - last));
    }
    rust_bench_queue_new(input: &u32, output: &mut [u32; 10]) {
        *output = [*input, *input - 1, 0, 0, 0, 0, 0, 0, 0, 0];
    }
    rust_bench_queue_deposit(input: &([u32; 10], u32, u32), output: &mut [u32; 10]) {
        let (state, bench, blocks) = input;
        *output = *state;
        output[2 + *bench as usize] += blocks;
    }
    rust_bench_queue_report(input: &[u32; 10], output: &mut [u32; 8]) {
        output.copy_from_slice(&input[2..]);
    }
    rust_bench_queue_turn(input: &[u32; 10], output: &mut [u8; 4096]) {
        let (benches, mut last, mut waiting) = (input[0], input[1], *input);
        for place in output {
            let next = (1..=benches).map(|k| (last + k) % benches).find(|b| waiting[2 + *b as usize] > 0);
            let Some(b) = next else { break };
            *place = b as u8;
            waiting[2 + b as usize] -= 1;
            last = b;
        }
    }
}

/// An 8-bit block with its table, and both at 12 bits: 1920 added to each sample.
struct Raised {
    block: [u8; 64],
    quant: [u8; 64],
    raised: [u16; 64],
    widened: [u16; 64],
}

impl Raised {
    fn new((block, quant): &([u8; 64], [u8; 64])) -> Self {
        Raised {
            block: *block,
            quant: *quant,
            raised: block.map(|s| u16::from(s) + 1_920),
            widened: quant.map(u16::from),
        }
    }
}

/// Two strips of one size.
struct Strips {
    left: Vec<i16>,
    right: Vec<i16>,
    width: usize,
    height: usize,
}

/// A plane's coefficients, its width and height, and the table.
struct Stored {
    coefficients: Vec<i16>,
    width: usize,
    height: usize,
    quant: [u8; 64],
}

fn narrow(products: &[i32; 64]) -> [i16; 64] {
    products.map(|p| p.clamp(-32_768, 32_767) as i16)
}

/// A plane back at one sample of `by`, blocks of S x S samples by the Rust.
#[inline(always)]
fn rust_plane<const S: usize, const N: usize>(
    input: &Stored,
    by: usize,
    output: &mut [u8],
    inverse: impl Fn(&[i32; 64], &mut [u8; N]),
) {
    let (columns, rows) = (input.width.div_ceil(by), input.height.div_ceil(by));
    let across = blocks(input.width);
    for (k, stored) in input.coefficients.chunks(64).enumerate() {
        let mut products = [0; 64];
        for n in 0..64 {
            products[n] = i32::from(stored[n]) * i32::from(input.quant[n].max(1));
        }
        let mut block = [0; N];
        inverse(&products, &mut block);
        let (left, top) = (S * (k % across), S * (k / across));
        for y in 0..S.min(rows - top) {
            let n = S.min(columns - left);
            let to = columns * (top + y) + left;
            if n == S {
                output[to..to + S].copy_from_slice(&block[S * y..S * y + S]);
            } else {
                output[to..to + n].copy_from_slice(&block[S * y..S * y + n]);
            }
        }
    }
}

/// A block, its table, and the table's divisors for each side.
struct Guarded {
    block: [u8; 64],
    quant: [u8; 64],
    theirs: Divisors,
    ours: [f64; 64],
}

impl Guarded {
    fn new(block: [u8; 64], quant: [u8; 64]) -> Self {
        let theirs = Divisors::new(&quant);
        let ours = theirs.reciprocals();
        Guarded {
            block,
            quant,
            theirs,
            ours,
        }
    }
}

enum Mode {
    /// The functions whose names begin so.
    Time(String),
    Count(String),
    Kinds(Vec<&'static str>),
}

fn median(mut all: Vec<f64>) -> f64 {
    all.sort_by(f64::total_cmp);
    all[all.len() / 2]
}

/// Runs over the blocks so many times, and answers the time of one call.
fn pass<I, O>(inputs: &[I], output: &mut O, turns: usize, call: impl Fn(&I, &mut O)) -> f64 {
    let start = Instant::now();
    for _ in 0..turns {
        for input in inputs {
            call(black_box(input), black_box(output));
        }
    }
    start.elapsed().as_nanos() as f64 / (turns * inputs.len()) as f64
}

impl Mode {
    fn run<I, O>(
        &mut self,
        name: &str,
        kind: &'static str,
        inputs: &[I],
        output: O,
        rust: impl Fn(&I, &mut O),
        ours: impl Fn(&I, &mut O),
    ) {
        self.run_blocks(name, kind, 1, inputs, output, rust, ours);
    }

    /// Calls that take so many blocks each: the times are for one block.
    #[allow(clippy::too_many_arguments)]
    fn run_blocks<I, O>(
        &mut self,
        name: &str,
        kind: &'static str,
        blocks: usize,
        inputs: &[I],
        mut output: O,
        rust: impl Fn(&I, &mut O),
        ours: impl Fn(&I, &mut O),
    ) {
        let counted = blocks * inputs.len() == BLOCKS;
        match self {
            Mode::Kinds(kinds) => {
                if counted && !kinds.contains(&kind) {
                    kinds.push(kind);
                }
            }
            Mode::Count(only) => {
                if counted && only == kind {
                    pass(inputs, &mut output, 1, &rust);
                    pass(inputs, &mut output, 1, &ours);
                }
            }
            Mode::Time(only) => {
                if !name.starts_with(only.as_str()) {
                    return;
                }
                let once = (0..9)
                    .map(|_| pass(inputs, &mut output, 1, &rust))
                    .collect();
                let once = median(once) * inputs.len() as f64;
                let turns = 1 + (ROUND_NS / once) as usize;
                let rounds = ROUNDS.min(5 + (ALL_ROUNDS_NS / once) as usize);
                let (mut theirs, mut here) = (Vec::new(), Vec::new());
                for _ in 0..rounds {
                    theirs.push(pass(inputs, &mut output, turns, &rust) / blocks as f64);
                    here.push(pass(inputs, &mut output, turns, &ours) / blocks as f64);
                }
                let (theirs, here) = (median(theirs), median(here));
                println!("{name} {kind} {theirs:.1} {here:.1} {:.2}", here / theirs);
            }
        }
    }
}

/// 64 blocks of one kind.
fn many<I>(mut at: impl FnMut(&mut Random) -> I) -> Vec<I> {
    let mut random = Random(SEED);
    (0..BLOCKS).map(|_| at(&mut random)).collect()
}

fn within(random: &mut Random, size: u64) -> i64 {
    random.below(2 * size + 1) as i64 - size as i64
}

/// Coefficients that are all likely nonzero, small or of the size of DC; a DC
/// and a few low frequencies, as most blocks of a picture have; DC alone; and,
/// where the type holds them, dense ones that no 16-bit number holds.
fn coefficients<T: TryFrom<i64>>() -> Vec<(&'static str, Vec<[T; 64]>)> {
    let of = |x: i64| T::try_from(x).ok().expect("a coefficient");
    let dense = |size| many(|r| core::array::from_fn(|_| of(within(r, size))));
    let mut kinds = vec![
        ("dense15", dense(15)),
        ("dense1023", dense(1_023)),
        (
            "sparse",
            many(|r| {
                let mut block = [0; 64];
                block[0] = within(r, 1_023);
                for _ in 0..5 {
                    block[(8 * r.below(3) + r.below(3)) as usize] = within(r, 60);
                }
                block.map(of)
            }),
        ),
        (
            "dc",
            many(|r| {
                let mut block = [0; 64];
                block[0] = within(r, 1_023);
                block.map(of)
            }),
        ),
    ];
    if T::try_from(100_000).is_ok() {
        kinds.push(("dense100000", dense(100_000)));
    }
    kinds
}

fn samples() -> Vec<(&'static str, Vec<[u8; 64]>)> {
    vec![
        ("random", many(|r| core::array::from_fn(|_| r.next() as u8))),
        (
            "smooth",
            many(|r| {
                let (level, across, down) = (r.below(64), r.below(12), r.below(12));
                core::array::from_fn(|n| {
                    (level + across * (n as u64 % 8) + down * (n as u64 / 8) + r.below(3)) as u8
                })
            }),
        ),
        ("constant", many(|r| [r.next() as u8; 64])),
    ]
}

/// T.81's table K.1, luminance, in natural order.
const K1: [u8; 64] = [
    16, 11, 10, 16, 24, 40, 51, 61, 12, 12, 14, 19, 26, 58, 60, 55, 14, 13, 16, 24, 40, 57, 69, 56,
    14, 17, 22, 29, 51, 87, 80, 62, 18, 22, 37, 56, 68, 109, 103, 77, 24, 35, 55, 64, 81, 104, 113,
    92, 49, 64, 78, 87, 103, 121, 120, 101, 72, 92, 95, 98, 112, 100, 103, 99,
];

fn table(random: &mut Random) -> [u8; 64] {
    core::array::from_fn(|_| 1 + random.below(99) as u8)
}

/// A plane back, beside the Rust's in a loop; and beside our own dequantizing
/// and inverse of its blocks, each into a block of its own.
macro_rules! inverse_plane {
    ($mode:ident, $kind:ident, $stored:ident, $($name:ident $rust:ident $block:ident by $by:literal, [u8; $n:literal], $fit:expr;)*) => {$(
        let n = $stored.coefficients.len() / 64;
        let size = $stored.width.div_ceil($by) * $stored.height.div_ceil($by);
        let inputs = core::slice::from_ref(&$stored);
        let decoded = |input: &Stored, output: &mut Vec<u8>| {
            black_box(jpeg_block::$name(
                &input.coefficients,
                input.width,
                input.height,
                &input.quant,
                output,
            ))
            .expect("no refusal");
        };
        $mode.run_blocks(stringify!($name), $kind, n, inputs, vec![0; size], $rust, decoded);
        if let Mode::Time(_) = $mode {
            $mode.run_blocks(
                concat!(stringify!($name), "/", stringify!($block)),
                $kind,
                n,
                inputs,
                vec![0; size],
                |input, _| {
                    for stored in input.coefficients.chunks(64) {
                        let (mut products, mut samples) = ([0; 64], [0; $n]);
                        jpeg_block::dequantize(stored, &input.quant, &mut products)
                            .expect("no refusal");
                        jpeg_block::$block(&$fit(&products), &mut samples).expect("no refusal");
                        black_box(&samples);
                    }
                },
                decoded,
            );
        }
    )*};
}

macro_rules! inverse {
    ($mode:ident, $($name:ident $rust:ident $t:ty => [$s:ty; $n:literal];)*) => {$(
        for (kind, inputs) in coefficients::<$t>() {
            $mode.run(stringify!($name), kind, &inputs, [0 as $s; $n], $rust, |input, output| {
                black_box(jpeg_block::$name(input, output)).expect("no refusal");
            });
        }
    )*};
}

fn main() {
    let mut args = std::env::args().skip(1);
    let mut mode = match args.next().as_deref() {
        Some("count") => Mode::Count(args.next().expect("a kind")),
        Some("kinds") => Mode::Kinds(Vec::new()),
        name => Mode::Time(name.unwrap_or("").to_string()),
    };
    inverse! { mode,
        islow_block rust_islow_block i16 => [u8; 64];
        islow_block_i32 rust_islow_block_i32 i32 => [u8; 64];
        islow_block_top_half rust_islow_block_top_half i16 => [u8; 64];
        islow_block_top_half_i32 rust_islow_block_top_half_i32 i32 => [u8; 64];
        islow_block_4x4 rust_islow_block_4x4 i16 => [u8; 16];
        islow_block_2x2 rust_islow_block_2x2 i16 => [u8; 4];
        islow_block_12bit rust_islow_block_12bit i16 => [u16; 64];
        islow_block_12bit_4x4 rust_islow_block_12bit_4x4 i16 => [u16; 16];
        islow_block_12bit_2x2 rust_islow_block_12bit_2x2 i16 => [u16; 4];
    }
    #[cfg(turbo)]
    turbo::run(&mut mode);
    for (kind, blocks) in samples() {
        let mut random = Random(SEED);
        let whole: Vec<_> = blocks.iter().map(|b| (*b, table(&mut random))).collect();
        mode.run(
            "fdct_quantize",
            kind,
            &whole,
            [0; 64],
            rust_fdct_quantize,
            |(block, quant), output| {
                black_box(jpeg_block::fdct_quantize(block, quant, output)).expect("no refusal");
            },
        );
        let raised: Vec<_> = whole.iter().map(Raised::new).collect();
        let ours = |input: &Raised, output: &mut [i16; 64]| {
            black_box(jpeg_block::fdct_quantize_12bit(
                &input.raised,
                &input.widened,
                output,
            ))
            .expect("no refusal");
        };
        mode.run(
            "fdct_quantize_12bit",
            kind,
            &raised,
            [0; 64],
            rust_fdct_quantize_12bit,
            ours,
        );
        if let Mode::Time(_) = mode {
            mode.run(
                "fdct_quantize_12bit/fdct_quantize",
                kind,
                &raised,
                [0; 64],
                |input, output| {
                    black_box(jpeg_block::fdct_quantize(
                        &input.block,
                        &input.quant,
                        output,
                    ))
                    .expect("no refusal");
                },
                ours,
            );
        }
        let single: Vec<_> = (0..BLOCKS)
            .map(|n| (blocks[n], 1 + 3 * n as u8, n))
            .collect();
        mode.run(
            "fdct_quantize_coefficient",
            kind,
            &single,
            0,
            rust_fdct_quantize_coefficient,
            |(block, quantizer, natural), output| {
                *output = jpeg_block::fdct_quantize_coefficient(block, *quantizer, *natural)
                    .expect("no refusal");
            },
        );
    }
    // For one block: the plane cut and coded by the Rust in a loop, and the
    // blocks, cut beforehand, one after the other through the block entry.
    for (kind, width, height) in [
        ("64x64", 64, 64),
        ("640x480", 640, 480),
        ("2048x2048", 2048, 2048),
    ] {
        let plane = any_plane(&mut Random(SEED), width, height);
        let n = blocks(width) * blocks(height);
        let apart = cut(&plane);
        let inputs = [(plane, K1)];
        let coded = |(plane, quant): &(Plane, [u8; 64]), output: &mut Vec<i16>| {
            let Plane { samples, .. } = plane;
            black_box(jpeg_block::fdct_quantize_plane(
                samples, width, height, quant, output,
            ))
            .expect("no refusal");
        };
        let output = vec![0; 64 * n];
        mode.run_blocks(
            "fdct_quantize_plane",
            kind,
            n,
            &inputs,
            output.clone(),
            rust_fdct_quantize_plane,
            coded,
        );
        if let Mode::Time(_) = mode {
            mode.run_blocks(
                "fdct_quantize_plane/fdct_quantize",
                kind,
                n,
                &inputs,
                output,
                |(_, quant), output| {
                    for (block, out) in apart.iter().zip(output.chunks_mut(64)) {
                        black_box(jpeg_block::fdct_quantize(block, quant, out))
                            .expect("no refusal");
                    }
                },
                coded,
            );
        }
    }
    for (kind, width, height) in [
        ("64x64", 64, 64),
        ("640x480", 640, 480),
        ("2048x2048", 2048, 2048),
    ] {
        let coefficients = cut(&any_plane(&mut Random(SEED), width, height))
            .iter()
            .flat_map(|block| fdct::fdct_quantize(block, &K1))
            .collect();
        let stored = Stored {
            coefficients,
            width,
            height,
            quant: K1,
        };
        inverse_plane! { mode, kind, stored,
            islow_plane rust_islow_plane islow_block_i32 by 1, [u8; 64], |p: &[i32; 64]| *p;
            islow_plane_4x4 rust_islow_plane_4x4 islow_block_4x4 by 2, [u8; 16], narrow;
            islow_plane_2x2 rust_islow_plane_2x2 islow_block_2x2 by 4, [u8; 4], narrow;
        }
    }
    // For one block: 200 trials and the count at percent 200.
    for (kind, width, height) in [("64x64", 64, 64), ("640x480", 640, 480)] {
        let plane = any_plane(&mut Random(SEED), width, height);
        let n = blocks(width) * blocks(height);
        let inputs = [(plane, K1, 50 * (width * height) as u64)];
        mode.run_blocks(
            "fewest_coefficients",
            kind,
            n,
            &inputs,
            (0, 0),
            rust_fewest_coefficients,
            |(plane, base, limit), output| {
                let Plane { samples, .. } = plane;
                let found =
                    jpeg_block::fewest_coefficients(samples, width, height, base, *limit, 200)
                        .expect("no refusal");
                *output = (found.percent.unwrap_or(0), found.off);
            },
        );
    }
    mode.run(
        "quantization_divisors",
        "random",
        &many(table),
        [0.0; 64],
        rust_quantization_divisors,
        |quant, output| {
            *output = jpeg_block::quantization_divisors(quant).expect("no refusal");
        },
    );
    // Quantizers 1, and T.81's: with those few coefficients are not 0.
    let tables = [
        (["random", "smooth", "constant"], [1; 64]),
        (["random_k1", "smooth_k1", "constant_k1"], K1),
    ];
    for (kinds, quant) in tables {
        for (kind, (_, blocks)) in kinds.into_iter().zip(samples()) {
            let blocks: Vec<_> = blocks.iter().map(|b| Guarded::new(*b, quant)).collect();
            mode.run(
                "fdct_quantize_guarded",
                kind,
                &blocks,
                None,
                rust_fdct_quantize_guarded,
                |Guarded {
                     block, quant, ours, ..
                 },
                 output| {
                    let made =
                        jpeg_block::fdct_quantize_guarded(block, quant, ours).expect("no refusal");
                    *output = Some(Quantized {
                        dc: made.dc,
                        ac_coefficients: made.ac_coefficients,
                        nonzero_ac: made.nonzero_ac,
                    });
                },
            );
            // Both make the divisors in each call.
            mode.run(
                "fdct_quantize_record",
                kind,
                &blocks,
                None,
                rust_fdct_quantize_record,
                |Guarded { block, quant, .. }, output| {
                    let made = jpeg_block::fdct_quantize_record(block, quant).expect("no refusal");
                    *output = Some(Quantized {
                        dc: made.dc,
                        ac_coefficients: made.ac_coefficients,
                        nonzero_ac: made.nonzero_ac,
                    });
                },
            );
        }
    }
    for (kind, blocks) in coefficients::<i16>() {
        let mut random = Random(SEED);
        let stored: Vec<_> = blocks.iter().map(|b| (*b, table(&mut random))).collect();
        mode.run(
            "dequantize",
            kind,
            &stored,
            [0; 64],
            rust_dequantize,
            |(coefficients, quant), output| {
                black_box(jpeg_block::dequantize(coefficients, quant, output)).expect("no refusal");
            },
        );
        // All pass, so that every place is looked at.
        let passing: Vec<_> = blocks
            .iter()
            .map(|b| (b.map(|c| c.clamp(-837, 837)), [1; 64]))
            .collect();
        mode.run(
            "screen",
            kind,
            &passing,
            false,
            rust_screen,
            |(coefficients, quant), output| {
                *output = jpeg_block::screen(coefficients, quant).expect("no refusal");
            },
        );
        let pairs: Vec<_> = blocks.iter().map(|b| (*b, *b)).collect();
        mode.run("same", kind, &pairs, false, rust_same, |(a, b), output| {
            *output = jpeg_block::same(a, b).expect("no refusal");
        });
        // Records that are the same, so that every place is looked at.
        let record = |(ac_coefficients, divisors): &([i16; 64], [u8; 64])| QuantizedBlock {
            dc: ac_coefficients[0],
            ac_coefficients: *ac_coefficients,
            nonzero_ac: 0,
            divisors: *divisors,
        };
        let pairs: Vec<_> = stored.iter().map(|s| (record(s), record(s))).collect();
        mode.run(
            "same_records",
            kind,
            &pairs,
            false,
            rust_same_records,
            |(a, b), output| {
                *output = jpeg_block::same_records(a, b);
            },
        );
    }
    mode.run(
        "percent_table",
        "random",
        &many(|r| (table(r), 1 + r.below(200) as u32)),
        [0; 64],
        rust_percent_table,
        |(base, percent), output| {
            black_box(jpeg_block::percent_table(base, *percent, output)).expect("no refusal");
        },
    );
    // Held against a plain copy of as many bytes.
    for (kind, width, height) in [
        ("8x8", 8, 8),
        ("8x512", 8, 512),
        ("64x64", 64, 64),
        ("512x512", 512, 512),
    ] {
        let strips: Vec<Strips> = (0..4)
            .map(|k| Strips {
                left: vec![k; width * height],
                right: vec![-k; width * height],
                width,
                height,
            })
            .collect();
        mode.run(
            "join_planes",
            kind,
            &strips,
            vec![0; 2 * width * height],
            rust_join_planes,
            |strips, output| {
                let strip = |coefficients| Strip {
                    coefficients,
                    width: strips.width,
                    height: strips.height,
                    quant: &[16; 64],
                };
                let (left, right) = (strip(&strips.left[..]), strip(&strips.right[..]));
                black_box(jpeg_block::join_planes(left, right, output)).expect("no refusal");
            },
        );
    }
    // Eight benches with many blocks each.
    let states: Vec<[u32; 10]> = many(|r| {
        core::array::from_fn(|i| match i {
            0 => 8,
            1 => r.below(8) as u32,
            _ => 1000 + r.below(60_000) as u32,
        })
    });
    mode.run(
        "bench_queue_new",
        "benches",
        &many(|r| 1 + r.below(8) as u32),
        [0; 10],
        rust_bench_queue_new,
        |benches, output| *output = BenchQueue::new(*benches).expect("no refusal").0,
    );
    let deposits: Vec<_> = (0..)
        .zip(&states)
        .map(|(n, state)| (*state, n % 8, 4_000 + n))
        .collect();
    mode.run(
        "bench_queue_deposit",
        "benches",
        &deposits,
        [0; 10],
        rust_bench_queue_deposit,
        |(state, bench, blocks), output| {
            *output = BenchQueue(*state)
                .deposit(*bench, *blocks)
                .expect("no refusal")
                .0;
        },
    );
    mode.run(
        "bench_queue_report",
        "benches",
        &states,
        [0; 8],
        rust_bench_queue_report,
        |state, output| *output = BenchQueue(*state).report().expect("no refusal"),
    );
    mode.run(
        "bench_queue_turn",
        "4096",
        &states,
        [0; 4096],
        rust_bench_queue_turn,
        |state: &[u32; 10], output| {
            black_box(BenchQueue(*state).turn(4096, output)).expect("no refusal");
        },
    );
    if let Mode::Kinds(kinds) = mode {
        println!("{}", kinds.join(" "));
    }
}
