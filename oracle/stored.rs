//! The blocks of stored coefficients that dequantizing, the screen and sameness
//! are asked for, and the answers.
//!
//! The published Rust of the oracle has none of the three. Their answers are
//! computed here, independently of the rewrite: products by the rule of
//! document 01 ("Added by design") in 64-bit integers, where the rewrite works
//! in 32; the screen by the rule of document 02, card 3, searching the sums of
//! a frequency in 128-bit integers, where the rewrite compares a product with a
//! limit.

use crate::forward::{basis, whole_blocks_from, Table};
use crate::{Random, SEED};
use j2k_codec_math::jpeg::fdct;
use std::sync::OnceLock;

pub type Coefficients = [i16; 64];

/// The inputs of dequantizing and of the screen, and of sameness.
pub type Stored = (Coefficients, Table);
pub type Pair = (Coefficients, Coefficients);

/// The quantizers under which the screen's ends are tried at every frequency.
const EDGES: [u8; 7] = [0, 1, 2, 3, 17, 225, 255];

fn divisor(quantizer: u8) -> i64 {
    i64::from(quantizer).max(1)
}

fn products((coefficients, quant): Stored) -> [i64; 64] {
    core::array::from_fn(|n| i64::from(coefficients[n]) * divisor(quant[n]))
}

pub fn dequantized(stored: Stored) -> [i32; 64] {
    products(stored).map(|p| i32::try_from(p).expect("a product of 32 bits"))
}

/// The least and the greatest S of a frequency over all 8-bit blocks: no term
/// depends on another, so each is tried with every sample by itself.
fn low_and_high(natural: usize) -> (i128, i128) {
    let terms = |place| (0..=255).map(move |s| (s - 128) * i128::from(basis(natural, place)));
    let low = (0..64).map(|place| terms(place).min().expect("256 terms"));
    let high = (0..64).map(|place| terms(place).max().expect("256 terms"));
    (low.sum(), high.sum())
}

/// S / (d * 2^32) rounded to nearest, halves away from zero.
fn rounded(sum: i128, quantizer: u8) -> i128 {
    let unit = i128::from(divisor(quantizer)) << 32;
    sum.signum() * ((2 * sum.abs() + unit) / (2 * unit))
}

/// Whether some sum from low to high rounds to the coefficient. Rounding never
/// falls while the sum rises, so the first sum that rounds to it or above is
/// found by halving.
fn passes((low, high): (i128, i128), quantizer: u8, coefficient: i64) -> bool {
    let wanted = i128::from(coefficient);
    let (mut first, mut last) = (low, high);
    while first < last {
        let middle = first + (last - first) / 2;
        if rounded(middle, quantizer) >= wanted {
            last = middle;
        } else {
            first = middle + 1;
        }
    }
    rounded(first, quantizer) == wanted
}

/// The last coefficients that pass at a frequency under a quantizer, the least
/// and the greatest, found step by step from 0.
fn ends(natural: usize, quantizer: u8) -> (i64, i64) {
    static ALL: OnceLock<Vec<(i64, i64)>> = OnceLock::new();
    let all = ALL.get_or_init(|| {
        let mut all = Vec::new();
        for natural in 0..64 {
            let sums = low_and_high(natural);
            for quantizer in 0..=255 {
                let last = |step| {
                    let mut coefficient = 0;
                    while passes(sums, quantizer, coefficient + step) {
                        coefficient += step;
                    }
                    coefficient
                };
                all.push((last(-1), last(1)));
            }
        }
        all
    });
    all[256 * natural + usize::from(quantizer)]
}

pub fn screened((coefficients, quant): Stored) -> u8 {
    let pass = |n: usize| {
        let (least, greatest) = ends(n, quant[n]);
        (least..=greatest).contains(&i64::from(coefficients[n]))
    };
    u8::from((0..64).all(pass))
}

pub fn same((a, b): Pair) -> u8 {
    let apart: i64 = (0..64)
        .map(|n| (i64::from(a[n]) - i64::from(b[n])).abs())
        .sum();
    u8::from(apart == 0)
}

fn coefficient(value: i64) -> i16 {
    i16::try_from(value).expect("a coefficient")
}

/// Any quantizer, often 0, 1 or 255.
fn quantizer(random: &mut Random) -> u8 {
    match random.below(4) {
        0 => [0, 1, 255][random.below(3) as usize],
        1 => random.below(32) as u8,
        _ => random.next() as u8,
    }
}

/// A block whose coefficients all pass the screen under its table.
fn passing(random: &mut Random) -> Stored {
    let quant: Table = core::array::from_fn(|_| quantizer(random));
    let coefficients = core::array::from_fn(|n| {
        let (least, greatest) = ends(n, quant[n]);
        coefficient(least + random.below((greatest - least + 1) as u64) as i64)
    });
    (coefficients, quant)
}

/// The block with another coefficient and quantizer at one place.
fn with((mut coefficients, mut quant): Stored, n: usize, value: i64, quantizer: u8) -> Stored {
    coefficients[n] = coefficient(value);
    quant[n] = quantizer;
    (coefficients, quant)
}

/// At each frequency, on both sides, the last coefficient that passes and the
/// first that does not, in a block whose others pass.
fn edges(random: &mut Random) -> Vec<Stored> {
    let mut all = Vec::new();
    for n in 0..64 {
        for quantizer in EDGES {
            let (least, greatest) = ends(n, quantizer);
            for value in [least - 1, least, greatest, greatest + 1] {
                all.push(with(passing(random), n, value, quantizer));
            }
        }
    }
    all
}

/// The largest and the least product at each place, and at all at once; the
/// same coefficients under quantizers 0 and 1.
fn extremes(random: &mut Random) -> Vec<Stored> {
    let ends = [i64::from(i16::MIN), i64::from(i16::MAX)];
    let mut all = Vec::new();
    for n in 0..64 {
        for end in ends {
            all.push(with(passing(random), n, end, 255));
        }
    }
    for quantizer in [0, 1, 254, 255] {
        for end in ends {
            all.push(([coefficient(end); 64], [quantizer; 64]));
        }
        let mixed = core::array::from_fn(|_| coefficient(ends[random.below(2) as usize]));
        all.push((mixed, [quantizer; 64]));
    }
    all
}

/// At least `count` blocks with their tables: the boundary ones, then random
/// ones.
pub fn stored_blocks(count: usize) -> Vec<Stored> {
    stored_blocks_from(SEED, count)
}

pub fn stored_blocks_from(seed: u64, count: usize) -> Vec<Stored> {
    let mut random = Random(seed);
    let mut all = extremes(&mut random);
    for dc in -8..8 {
        // A DC alone, just at and beyond the screen's ends.
        let zeros = ([0; 64], [1; 64]);
        all.push(with(zeros, 0, 1_016 + dc, 1));
        all.push(with(zeros, 0, -1_024 + dc, 0));
    }
    assert!(all.len() + 400 < count);
    while all.len() < count {
        all.push(match all.len() % 4 {
            0 | 1 => passing(&mut random),
            // One that does not pass, at times.
            2 => {
                let (n, q) = (random.below(64) as usize, quantizer(&mut random));
                with(passing(&mut random), n, random.signed(12), q)
            }
            _ => (
                core::array::from_fn(|_| coefficient(random.any_width(16))),
                core::array::from_fn(|_| quantizer(&mut random)),
            ),
        });
    }
    let yes = all.iter().filter(|&&x| screened(x) == 1).count();
    assert!(yes > count / 4 && yes < count - count / 4);
    all
}

/// The screen's ends, and card 3's white block under a DC quantizer of 225.
pub fn screen_ends() -> Vec<Stored> {
    screen_ends_from(SEED)
}

pub fn screen_ends_from(seed: u64) -> Vec<Stored> {
    let mut all = edges(&mut Random(seed));
    for (dc, answer) in [(5, 1), (6, 0)] {
        let block = with(([0; 64], [1; 64]), 0, dc, 225);
        assert!(screened(block) == answer);
        all.push(block);
    }
    all
}

/// The blocks of forward.rs as the Rust codes them. All of them pass.
pub fn coded_blocks(count: usize) -> Vec<Stored> {
    coded_blocks_from(SEED, count)
}

pub fn coded_blocks_from(seed: u64, count: usize) -> Vec<Stored> {
    let blocks = whole_blocks_from(seed, count).into_iter();
    let all: Vec<Stored> = blocks
        .map(|(block, table)| (fdct::fdct_quantize(&block, &table), table))
        .collect();
    assert!(all.iter().all(|&x| screened(x) == 1));
    all
}

fn random_block(random: &mut Random) -> Coefficients {
    match random.below(3) {
        // As a picture has them: the higher the frequency, the smaller.
        0 => core::array::from_fn(|n| coefficient(random.signed(12) >> (n / 8 + n % 8))),
        1 => core::array::from_fn(|_| coefficient(random.any_width(16))),
        _ => core::array::from_fn(|_| coefficient(random.signed(16))),
    }
}

/// The block with one coefficient moved, wrapping at 16 bits.
fn moved(mut block: Coefficients, n: usize, by: i16) -> Coefficients {
    block[n] = block[n].wrapping_add(by);
    block
}

/// At least `count` pairs: blocks that differ at one place alone, at each place
/// and in the lowest, the highest and any bits; that differ at two places by
/// opposite numbers, by two places exchanged, or by a sign; that do not differ;
/// and any two.
pub fn pairs_of_blocks(count: usize) -> Vec<Pair> {
    pairs_of_blocks_from(SEED, count)
}

pub fn pairs_of_blocks_from(seed: u64, count: usize) -> Vec<Pair> {
    let mut random = Random(seed);
    let mut all: Vec<Pair> = Vec::new();
    for n in 0..64 {
        for by in [1, -1, 256, i16::MIN, 1 + random.below(65_535) as u16 as i16] {
            let a = random_block(&mut random);
            all.push((a, moved(a, n, by)));
        }
        let a = random_block(&mut random);
        let other = (n + 1 + random.below(63) as usize) % 64;
        all.push((a, moved(moved(a, n, 1), other, -1)));
        let a = random_block(&mut random);
        let mut b = a;
        b.swap(n, other);
        all.push((a, b));
        let a = moved([0; 64], n, 1);
        all.push((a, moved([0; 64], n, -1)));
        all.push((a, a));
        all.push(([0; 64], a));
    }
    for value in [0, 1, -1, i16::MIN, i16::MAX] {
        all.push(([value; 64], [value; 64]));
        all.push(([value; 64], [0; 64]));
    }
    assert!(all.len() + 400 < count);
    while all.len() < count {
        let a = random_block(&mut random);
        all.push(match all.len() % 8 {
            0 => (a, random_block(&mut random)),
            1 => (
                a,
                moved(a, random.below(64) as usize, random.signed(16) as i16),
            ),
            _ => (a, a),
        });
    }
    all
}
