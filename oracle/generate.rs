//! Writes a fixed list of the oracle's answers, one file for each function, and
//! those of stored.rs for what the oracle does not have; and a file with one
//! wrong answer, which shows that the replay sees a difference.
//!
//! A file is a text header of 256 bytes, then cases of one size: the inputs,
//! then the answers, little-endian. Boundary cases come first, then random
//! ones from a fixed seed, so a second run gives the same bytes.
//!
//! Arguments: the folder for the files, and the file for the lines that the
//! replay must print.

mod blocks;
mod forward;
mod guarded;
mod numbers;
mod stored;

use blocks::{blocks, CLAMP_12BIT, CLAMP_8BIT};
use forward::{single_coefficients, whole_blocks};
use j2k_codec_math::jpeg::{fdct, idct, ZIGZAG};
use j2k_encoder::Divisors;
use numbers::{ends, least, most, powers, Number, Random, SEED};
use std::path::{Path, PathBuf};
use stored::{
    coded_blocks, dequantized, pairs_of_blocks, same, screen_ends, screened, stored_blocks,
};

const HEADER: usize = 256;

/// Whose answers a file holds.
const ORACLE: &str = "the answers of frames-sg/j2k at 0c61cb298a built with rustc";
const HARNESS: &str = "the answers of oracle/stored.rs, by a computation of its own";
const WRONG: &str = "answers of islow_block of frames-sg/j2k at 0c61cb298a, \
                     but sample 63 of the second record is changed";

/// What a case is made of.
trait Put {
    fn put(&self, to: &mut Vec<u8>);
}

macro_rules! put_number {
    ($($t:ty)*) => {$(
        impl Put for $t {
            fn put(&self, to: &mut Vec<u8>) {
                to.extend(self.to_le_bytes());
            }
        }
    )*};
}
put_number!(u8 u16 i16 i32 i64 u64 f64);

impl<T: Put, const N: usize> Put for [T; N] {
    fn put(&self, to: &mut Vec<u8>) {
        self.iter().for_each(|x| x.put(to));
    }
}

impl<A: Put, B: Put> Put for (A, B) {
    fn put(&self, to: &mut Vec<u8>) {
        self.0.put(to);
        self.1.put(to);
    }
}

fn randoms<T: Number>(count: usize) -> Vec<T> {
    let mut random = Random(SEED);
    (0..count)
        .map(|_| T::of(random.any_width(T::BITS)))
        .collect()
}

/// `count` numbers: the boundary ones, then random ones.
fn numbers<T: Number>(boundary: Vec<i64>, count: usize) -> Vec<T> {
    let mut all: Vec<T> = boundary.into_iter().map(T::of).collect();
    assert!(all.len() < count);
    let rest = count - all.len();
    all.extend(randoms::<T>(rest));
    all
}

/// Pairs: the ends of the type with each other, then random ones.
fn pairs<T: Number>(count: usize) -> Vec<(T, T)> {
    let mut all = Vec::new();
    for a in ends::<T>() {
        for b in ends::<T>() {
            all.push((T::of(a), T::of(b)));
        }
    }
    let mut random = Random(SEED);
    while all.len() < count {
        let a = T::of(random.any_width(T::BITS));
        let b = T::of(random.any_width(T::BITS));
        all.push((a, b));
    }
    all
}

/// Every shift from 1 to 31, with boundary values and random ones.
fn shifted() -> Vec<(i32, i32)> {
    let mut random = Random(SEED);
    let mut all = Vec::new();
    for shift in 1..=31 {
        let half = 1i64 << (shift - 1);
        let mut values = ends::<i32>();
        // Halves, and the sums that wrap.
        for x in [half, 2 * half, 3 * half, 1 + most::<i32>() - half] {
            values.extend([x - 1, x, x + 1, -x - 1, -x, 1 - x]);
        }
        values.retain(|x| (least::<i32>()..=most::<i32>()).contains(x));
        values.extend((0..60).map(|_| random.any_width(32)));
        all.extend(values.into_iter().map(|v| (i32::of(v), shift)));
    }
    all
}

/// One row or column: the inputs of the 1-D transforms.
fn vectors<T: Number>(count: usize) -> Vec<[T; 8]> {
    let mut all = vec![[T::of(0); 8]];
    for k in 0..8 {
        for x in ends::<T>() {
            let mut p = [T::of(0); 8];
            p[k] = T::of(x);
            all.push(p);
        }
    }
    for x in ends::<T>() {
        all.push([T::of(x); 8]);
    }
    // Every choice of an end of the type for each entry.
    for signs in 0..256 {
        all.push(core::array::from_fn(|k| {
            T::of(if signs >> k & 1 == 0 {
                least::<T>()
            } else {
                most::<T>()
            })
        }));
    }
    let mut random = Random(SEED);
    assert!(all.len() < count);
    while all.len() < count {
        let kind = all.len() % 4;
        // Of one width for the whole row, so that the sums reach every size.
        let width = 1 + random.below(u64::from(T::BITS)) as u32;
        all.push(core::array::from_fn(|_| {
            T::of(match kind {
                0 => random.signed(16),
                1 => random.signed(T::BITS),
                2 => random.signed(width),
                _ => random.any_width(T::BITS),
            })
        }));
    }
    all
}

/// The vectors of the passes: those above, and many that take the shortcut for
/// zero AC terms or miss it by one entry.
fn pass_vectors(count: usize) -> Vec<[i32; 8]> {
    let mut all = Vec::new();
    let dc_only = |dc: i64| {
        let mut p = [0; 8];
        p[0] = i32::of(dc);
        p
    };
    all.extend(powers::<i32>().into_iter().map(dc_only));
    // Where p0 / 32 steps, and where 8192 * p0 in the full pass, 4 * p0 and
    // p0 + 16 wrap.
    for near in [
        0,
        1 << 18,
        -(1 << 18),
        1 << 29,
        -(1 << 29),
        1 << 30,
        -(1 << 30),
    ] {
        all.extend((near - 40..=near + 40).map(dc_only));
    }
    all.extend((most::<i32>() - 40..=most::<i32>()).map(dc_only));
    let mut random = Random(SEED);
    for _ in 0..200 {
        all.push(dc_only(random.any_width(32)));
    }
    for k in 1..8 {
        for ac in [1, -1, 1 << 16, i32::MIN, i32::MAX] {
            for dc in [0, 65_536, i64::from(i32::MAX), i64::from(i32::MIN)] {
                let mut p = dc_only(dc);
                p[k] = ac;
                all.push(p);
            }
        }
        for _ in 0..10 {
            let mut p = dc_only(random.any_width(32));
            p[k] = i32::of(random.any_width(32));
            all.push(p);
        }
    }
    assert!(all.len() < count);
    let rest = count - all.len();
    all.extend(vectors::<i32>(rest));
    all
}

struct Answers {
    folder: PathBuf,
    lines: String,
}

impl Answers {
    /// Writes the file of one function. `layout` says what a case holds.
    fn save<I: Put + Copy, A: Put>(
        &mut self,
        name: &str,
        layout: &str,
        inputs: &[I],
        answer: impl Fn(I) -> A,
    ) {
        self.save_from(ORACLE, name, layout, inputs, answer, 0);
    }

    /// `wrong` says how many of the answers are meant to differ.
    fn save_from<I: Put + Copy, A: Put>(
        &mut self,
        source: &str,
        name: &str,
        layout: &str,
        inputs: &[I],
        mut answer: impl FnMut(I) -> A,
        wrong: usize,
    ) {
        let count = inputs.len();
        let mut bytes = format!(
            "{name}: {source}, \
             made by oracle/generate; seed {SEED:#x}; {count} cases; \
             one case, little-endian: {layout}"
        )
        .into_bytes();
        assert!(bytes.len() < HEADER);
        bytes.resize(HEADER - 1, b' ');
        bytes.push(b'\n');
        for &input in inputs {
            input.put(&mut bytes);
            answer(input).put(&mut bytes);
        }
        std::fs::write(self.folder.join(name), bytes).expect("the folder takes the file");
        self.lines += &format!("{name} {count} cases {wrong} differences\n");
    }
}

fn wrapping(to: &mut Answers) {
    let pairs32 = pairs::<i32>(2_000);
    let layout = "a i32, b i32; answer i32";
    to.save("wrapping_add_i32", layout, &pairs32, |(a, b)| {
        a.wrapping_add(b)
    });
    to.save("wrapping_sub_i32", layout, &pairs32, |(a, b)| {
        a.wrapping_sub(b)
    });
    to.save("wrapping_mul_i32", layout, &pairs32, |(a, b)| {
        a.wrapping_mul(b)
    });
    let pairs64 = pairs::<i64>(2_000);
    let layout = "a i64, b i64; answer i64";
    to.save("wrapping_add_i64", layout, &pairs64, |(a, b)| {
        a.wrapping_add(b)
    });
    to.save("wrapping_sub_i64", layout, &pairs64, |(a, b)| {
        a.wrapping_sub(b)
    });
    to.save("wrapping_mul_i64", layout, &pairs64, |(a, b)| {
        a.wrapping_mul(b)
    });
}

fn scaling(to: &mut Answers) {
    to.save(
        "descale",
        "value i32, shift i32 of 1 to 31; answer i32",
        &shifted(),
        |(value, shift)| idct::descale(value, shift),
    );

    to.save(
        "islow_dc",
        "dc i32; answer i32",
        &numbers::<i32>(powers::<i32>(), 1_000),
        idct::islow_dc,
    );

    let mut edges: Vec<i64> = (-140..=400).collect();
    edges.extend(powers::<i32>());
    // value + 128 wraps from 2147483520 on.
    edges.extend(2_147_483_510..=2_147_483_530);
    let samples = numbers::<i32>(edges, 1_500);
    to.save(
        "sample_u8",
        "value i32; answer u8",
        &samples,
        idct::sample_u8,
    );
    to.save(
        "sample_centered",
        "value i32; answer i32",
        &samples,
        idct::sample_centered,
    );

    // Above this value + 2048 overflows, and the Rust has no answer.
    let top = i64::MAX - 2_048;
    let mut edges: Vec<i64> = (-2_060..=-2_040).collect();
    edges.extend(-5..=5);
    edges.extend(2_030..=2_060);
    edges.extend(4_080..=4_110);
    edges.extend(powers::<i64>());
    edges.extend(top - 10..=top);
    let mut values = numbers::<i64>(edges, 1_500);
    values.retain(|&v| v <= top);
    to.save(
        "sample_12bit",
        "value i64; answer u16",
        &values,
        idct::sample_12bit,
    );
}

fn islow(to: &mut Answers) {
    let rows = vectors::<i32>(1_200);
    to.save(
        "islow_1d",
        "p [i32; 8]; answer [i32; 8]",
        &rows,
        idct::islow_1d,
    );
    to.save(
        "islow_1d_4",
        "p [i32; 8]; answer [i32; 4]",
        &rows,
        idct::islow_1d_4,
    );
    to.save(
        "islow_1d_2",
        "p [i32; 8]; answer [i32; 2]",
        &rows,
        idct::islow_1d_2,
    );
    to.save(
        "islow_gain_bounds",
        "answer max_gain i32, max_l1 i32",
        &[[0u8; 0]],
        |_| idct::islow_gain_bounds(),
    );
}

fn islow_i64(to: &mut Answers) {
    let rows = vectors::<i64>(1_200);
    to.save(
        "islow_1d_i64",
        "p [i64; 8]; answer [i64; 8]",
        &rows,
        idct::islow_1d_i64,
    );
    to.save(
        "islow_1d_4_i64",
        "p [i64; 8]; answer [i64; 4]",
        &rows,
        idct::islow_1d_4_i64,
    );
    to.save(
        "islow_1d_2_i64",
        "p [i64; 8]; answer [i64; 2]",
        &rows,
        idct::islow_1d_2_i64,
    );
}

fn passes(to: &mut Answers) {
    let rows = pass_vectors(2_000);
    let layout = "p [i32; 8]; answer [i32; 8]";
    to.save("islow_pass1", layout, &rows, idct::islow_pass1);
    to.save("islow_pass2", layout, &rows, idct::islow_pass2);
    to.save("islow_column", layout, &rows, idct::islow_column);
    to.save("islow_row", layout, &rows, idct::islow_row);
}

/// An entry as a function of its block.
fn samples<T, S: Copy + Default, const N: usize>(
    entry: impl Fn(&[T; 64], &mut [S; N]),
) -> impl Fn([T; 64]) -> [S; N] {
    move |input| {
        let mut output = [S::default(); N];
        entry(&input, &mut output);
        output
    }
}

fn block_entries(to: &mut Answers) {
    let narrow = blocks::<i16>(&CLAMP_8BIT, 2_000);
    let layout = "input [i16; 64]; output [u8; 64]";
    to.save("islow_block", layout, &narrow, samples(idct::islow_block));
    let wide = blocks::<i32>(&CLAMP_8BIT, 2_000);
    let layout_i32 = "input [i32; 64]; output [u8; 64]";
    to.save(
        "islow_block_i32",
        layout_i32,
        &wide,
        samples(idct::islow_block),
    );
    to.save(
        "islow_block_top_half",
        layout,
        &narrow,
        samples(idct::islow_block_top_half),
    );
    to.save(
        "islow_block_top_half_i32",
        layout_i32,
        &wide,
        samples(idct::islow_block_top_half),
    );
    to.save(
        "islow_block_4x4",
        "input [i16; 64]; output [u8; 16]",
        &narrow,
        samples(idct::islow_block_4x4),
    );
    to.save(
        "islow_block_2x2",
        "input [i16; 64]; output [u8; 4]",
        &narrow,
        samples(idct::islow_block_2x2),
    );
}

fn block_entries_12bit(to: &mut Answers) {
    let inputs = blocks::<i16>(&CLAMP_12BIT, 2_000);
    to.save(
        "islow_block_12bit",
        "input [i16; 64]; output [u16; 64]",
        &inputs,
        samples(idct::islow_block_12bit),
    );
    to.save(
        "islow_block_12bit_4x4",
        "input [i16; 64]; output [u16; 16]",
        &inputs,
        samples(idct::islow_block_12bit_4x4),
    );
    to.save(
        "islow_block_12bit_2x2",
        "input [i16; 64]; output [u16; 4]",
        &inputs,
        samples(idct::islow_block_12bit_2x2),
    );
}

fn forward_entries(to: &mut Answers) {
    to.save(
        "fdct_quantize",
        "block [u8; 64], quant [u8; 64]; answer [i16; 64]",
        &whole_blocks(2_600),
        |(block, quant)| fdct::fdct_quantize(&block, &quant),
    );
    to.save(
        "fdct_quantize_coefficient",
        "block [u8; 64], quantizer u8, natural u8; answer i16",
        &single_coefficients(2_400),
        |(block, (quantizer, natural))| {
            fdct::fdct_quantize_coefficient(&block, quantizer, usize::from(natural))
        },
    );
}

fn zigzag(to: &mut Answers) {
    to.save("zigzag", "answer [u8; 64]", &[[0u8; 0]], |_| ZIGZAG);
    to.save(
        "natural_to_zigzag",
        "answer [u8; 64], each a usize in the Rust",
        &[[0u8; 0]],
        |_| j2k_encoder::natural_to_zigzag().map(|z| u8::try_from(z).expect("a place below 64")),
    );
}

fn record(made: j2k_encoder::Quantized) -> (i16, ([i16; 64], u64)) {
    (made.dc, (made.ac_coefficients, made.nonzero_ac))
}

fn guarded_entries(to: &mut Answers) {
    let mut random = Random(SEED);
    let mut tables: Vec<forward::Table> = (1..=255).map(|q| [q; 64]).collect();
    tables.extend((0..145).map(|_| guarded::table(&mut random)));
    to.save(
        "quantization_divisors",
        "quant [u8; 64]; reciprocals [f64; 64]",
        &tables,
        |quant| Divisors::new(&quant).reciprocals(),
    );
    let answer = "dc i16, ac [i16; 64], nonzero u64";
    to.save(
        "transform_fdct_quantize",
        &format!("block, quant, table of the divisors [u8; 64]; {answer}"),
        &guarded::made(4_200),
        |(block, (quant, other))| {
            record(j2k_encoder::fdct_quantize(
                &block,
                &quant,
                &Divisors::new(&other),
            ))
        },
    );
    to.save(
        "transform_fdct_quantize_handed",
        &format!("block, quant [u8; 64], divisors [f64; 64]; {answer}"),
        &guarded::handed(1_200),
        |(block, (quant, reciprocals))| {
            record(j2k_encoder::fdct_quantize(
                &block,
                &quant,
                &Divisors::of(reciprocals),
            ))
        },
    );
}

/// Not the oracle's: see stored.rs.
fn stored_entries(to: &mut Answers) {
    let blocks = stored_blocks(1_400);
    let mut screened_ones = screen_ends();
    screened_ones.extend(&blocks[..400]);
    screened_ones.extend(coded_blocks(2_600).into_iter().step_by(13));
    to.save_from(
        HARNESS,
        "dequantize",
        "coefficients [i16; 64], quant [u8; 64]; answer [i32; 64]",
        &blocks,
        dequantized,
        0,
    );
    to.save_from(
        HARNESS,
        "screen",
        "coefficients [i16; 64], quant [u8; 64]; answer u8, 1 for yes",
        &screened_ones,
        screened,
        0,
    );
    to.save_from(
        HARNESS,
        "same",
        "a [i16; 64], b [i16; 64]; answer u8, 1 for yes",
        &pairs_of_blocks(1_200),
        same,
        0,
    );
}

/// Three records of `islow_block`. The answer of the second is wrong at one place.
fn deliberately_wrong(to: &mut Answers) {
    let inputs = blocks::<i16>(&CLAMP_8BIT, 2_000);
    let right = samples(idct::islow_block);
    let mut record = 0;
    to.save_from(
        WRONG,
        "deliberately_wrong",
        "input [i16; 64]; output [u8; 64]",
        &inputs[inputs.len() - 3..],
        |input| {
            let mut output: [u8; 64] = right(input);
            record += 1;
            if record == 2 {
                output[63] ^= 1;
            }
            output
        },
        1,
    );
}

/// The input of the program `near_half`, and what it must print: the Rust's
/// guarded quantizer and its canonical one differ nowhere.
fn near_half(folder: &Path) {
    let (cases, guards) = guarded::near_half(300);
    let mut input = Vec::new();
    let mut differences = 0;
    for (block, quant) in &cases {
        input.extend(block);
        input.extend(quant);
        let made = j2k_encoder::fdct_quantize(block, quant, &Divisors::new(quant));
        let canonical = fdct::fdct_quantize(block, quant);
        differences += (0..64)
            .filter(|&z| {
                let here = if z == 0 {
                    made.dc
                } else {
                    made.ac_coefficients[z]
                };
                here != canonical[usize::from(ZIGZAG[z])]
            })
            .count();
    }
    let lines = format!(
        "blocks {}\ncoefficients {}\nguard taken {guards}\ndifferences {differences}\n",
        cases.len(),
        64 * cases.len()
    );
    std::fs::write(folder.join("stdin"), input).expect("the blocks are written");
    std::fs::write(folder.join("stdout"), lines).expect("the lines are written");
}

fn main() {
    let mut args = std::env::args().skip(1);
    let folder = PathBuf::from(args.next().expect("the folder for the answers"));
    let lines = args.next().expect("the file for the lines");
    let near = PathBuf::from(args.next().expect("the folder of near_half"));
    let mut to = Answers {
        folder,
        lines: String::new(),
    };
    wrapping(&mut to);
    scaling(&mut to);
    islow(&mut to);
    islow_i64(&mut to);
    passes(&mut to);
    block_entries(&mut to);
    block_entries_12bit(&mut to);
    forward_entries(&mut to);
    zigzag(&mut to);
    stored_entries(&mut to);
    guarded_entries(&mut to);
    deliberately_wrong(&mut to);
    std::fs::write(lines, to.lines).expect("the lines are written");
    near_half(&near);
}
