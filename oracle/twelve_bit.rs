//! The 12-bit blocks and 16-bit tables that the canonical entry is asked for,
//! and the answers.
//!
//! The published Rust has no such entry. The answers are computed here in
//! 128-bit integers by the rule of document 02, card 8: the 64-term sums of
//! the samples less 2048 against the Rust's basis, each divided by d * 2^32
//! and rounded by one addition before one division.

use crate::forward::{any_block, basis, RATIONAL};
use crate::Random;

pub type Samples = [u16; 64];
pub type Table = [u16; 64];
pub type Whole = (Samples, Table);

/// The largest sample, and what is taken off each.
pub const LIMIT: u16 = 4_095;
const CENTRE: i128 = 2_048;

/// Quantizers that are tried alone, in a table of equal ones: around the ends
/// of 8 bits, of the signed and of the unsigned numbers of 16.
pub const QUANTIZERS: [u16; 16] = [
    0, 1, 2, 3, 16, 17, 254, 255, 256, 257, 4_096, 16_384, 32_767, 32_768, 65_534, 65_535,
];

/// The coefficients, or the refusal's number.
pub fn coefficients((block, quant): &Whole) -> Result<[i16; 64], u32> {
    if block.iter().any(|sample| *sample > LIMIT) {
        return Err(12);
    }
    Ok(core::array::from_fn(|natural| {
        let sum: i128 = (0..64)
            .map(|n| (i128::from(block[n]) - CENTRE) * i128::from(basis(natural, n)))
            .sum();
        let divisor = i128::from(quant[natural].max(1)) << 32;
        let size = (2 * sum.abs() + divisor) / (2 * divisor);
        i16::try_from(sum.signum() * size).expect("a coefficient of 16 bits")
    }))
}

fn samples(at: impl FnMut(usize) -> u16) -> Samples {
    core::array::from_fn(at)
}

fn sample(random: &mut Random) -> u16 {
    random.below(u64::from(LIMIT) + 1) as u16
}

/// A table of random quantizers, of those that stand alone elsewhere, of equal
/// ones, or of small ones.
fn table(random: &mut Random) -> Table {
    match random.below(5) {
        0 => core::array::from_fn(|_| random.next() as u16),
        1 => core::array::from_fn(|_| QUANTIZERS[random.below(16) as usize]),
        2 => [QUANTIZERS[random.below(16) as usize]; 64],
        3 => [1; 64],
        _ => core::array::from_fn(|_| 1 + random.below(24) as u16),
    }
}

/// A block whose 64 differences from 2048, each with the sign of the basis of
/// `natural`, sum up to `sum`: spread evenly but for the last steps, at random
/// places.
fn with_sum(natural: usize, sum: i64, random: &mut Random) -> Samples {
    let share = sum / 64;
    let mut block: [i64; 64] = core::array::from_fn(|n| 2_048 + basis(natural, n).signum() * share);
    let mut left = sum - 64 * share;
    while left != 0 {
        let n = random.below(64) as usize;
        let moved = block[n] + basis(natural, n).signum() * left.signum();
        if (0..=i64::from(LIMIT)).contains(&moved) {
            block[n] = moved;
            left -= left.signum();
        }
    }
    samples(|n| u16::try_from(block[n]).expect("a sample"))
}

/// Blocks with a quotient of just a half at a rational frequency, and one
/// sample off it on either side: there S / (d * 2^32) is sum / (8 * d), a tie
/// where the sum is 4 * d * an odd number.
fn ties(random: &mut Random) -> Vec<Whole> {
    let most = 2_047 * 64;
    let mut all = Vec::new();
    for natural in RATIONAL {
        for k in 0..48 {
            let quantizer = if k < 16 {
                QUANTIZERS[k]
            } else {
                1 + random.below(if k < 32 { 300 } else { 32_000 }) as u16
            };
            let d = i64::from(quantizer.max(1));
            // Under a larger divisor than 32752 no sum is a tie.
            let odd = 2 * random.below(((most / (4 * d) + 1) as u64 / 2).max(1)) as i64 + 1;
            let sign = if k % 2 == 0 { 1 } else { -1 };
            for off in [-1, 0, 1] {
                let sum = (sign * (4 * d * odd + off)).clamp(-most, most);
                let mut quant = table(random);
                quant[natural] = quantizer;
                all.push((with_sum(natural, sum, random), quant));
            }
        }
    }
    all
}

/// A block of random samples of one of several kinds.
fn block(random: &mut Random) -> Samples {
    match random.below(5) {
        // Ends alone.
        0 => samples(|_| LIMIT * random.below(2) as u16),
        // Noise of a small amplitude around one level.
        1 => {
            let (amplitude, level) = (1 + random.below(40), random.below(4_000));
            samples(|_| (level + random.below(2 * amplitude)) as u16)
        }
        // An 8-bit block at the centre of 12 bits.
        2 => raised(&any_block(random)),
        // Rows that repeat.
        3 => {
            let row: [u16; 8] = core::array::from_fn(|_| sample(random));
            samples(|n| row[n % 8])
        }
        _ => samples(|_| sample(random)),
    }
}

/// An 8-bit block with 1920 added to each sample, and its table widened.
pub fn raised(block: &[u8; 64]) -> Samples {
    block.map(|s| u16::from(s) + 1_920)
}

pub fn widened(table: &[u8; 64]) -> Table {
    table.map(u16::from)
}

/// At least `count` blocks with their tables: equal samples, ties, the largest
/// and the least sum of each frequency, one sample that stands out, one above
/// the limit at each place; then random ones, some with samples of 16 bits.
pub fn blocks_from(seed: u64, count: usize) -> Vec<Whole> {
    let mut random = Random(seed);
    let mut all = Vec::new();
    for value in [
        0, 1, 2_046, 2_047, 2_048, 2_049, 2_050, 4_094, 4_095, 4_096, 65_535,
    ] {
        for quantizer in QUANTIZERS {
            all.push(([value; 64], [quantizer; 64]));
        }
    }
    all.extend(ties(&mut random));
    for natural in 0..64 {
        for positive in [true, false] {
            let ends = samples(|n| LIMIT * u16::from((basis(natural, n) > 0) == positive));
            all.push((ends, [natural as u16 % 2; 64]));
            all.push((ends, table(&mut random)));
        }
    }
    for place in 0..64 {
        for (ground, point) in [
            (2_048, 0),
            (2_048, LIMIT),
            (0, LIMIT),
            (LIMIT, 0),
            (2_048, 2_049),
        ] {
            let one = samples(|n| if n == place { point } else { ground });
            all.push((one, table(&mut random)));
        }
        for above in [4_096, 6_143, 32_768, 61_440, 65_535] {
            let mut one = block(&mut random);
            one[place] = above;
            all.push((one, table(&mut random)));
        }
    }
    assert!(all.len() + 400 < count);
    while all.len() < count {
        let mut any = block(&mut random);
        if random.below(16) == 0 {
            any[random.below(64) as usize] = random.next() as u16;
        }
        all.push((any, table(&mut random)));
    }
    all
}
