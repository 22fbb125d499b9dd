//! The blocks and the quantizer tables that the forward entries are asked for.

use crate::{Random, SEED};
use j2k_codec_math::jpeg::fdct::{BASIS_HIGH, BASIS_LOW};

pub type Samples = [u8; 64];
pub type Table = [u8; 64];

/// The inputs of a call for a whole block, and for one coefficient.
pub type Whole = (Samples, Table);
pub type Single = (Samples, (u8, u8));

/// The frequencies whose basis is 2^29 everywhere but for the sign, so that
/// quotients of just one half occur: u and v of 0 and 4.
pub const RATIONAL: [usize; 4] = [0, 4, 32, 36];

/// Quantizers that are tried alone, in a table of equal ones.
const QUANTIZERS: [u8; 16] = [0, 1, 2, 3, 4, 5, 7, 8, 15, 16, 17, 64, 127, 128, 254, 255];

/// The basis of frequency `natural` at a place of the block, mirrored from its
/// quarter.
pub fn basis(natural: usize, place: usize) -> i64 {
    let (u, v) = (natural % 8, natural / 8);
    let (x, y) = (place % 8, place / 8);
    let index = 16 * natural + 4 * y.min(7 - y) + x.min(7 - x);
    let entry = i64::from(BASIS_HIGH[index]) * 65_536 + i64::from(BASIS_LOW[index]);
    let negated = (x > 3 && u % 2 == 1) != (y > 3 && v % 2 == 1);
    if negated {
        -entry
    } else {
        entry
    }
}

fn samples(at: impl FnMut(usize) -> u8) -> Samples {
    core::array::from_fn(at)
}

fn random_table(random: &mut Random) -> Table {
    core::array::from_fn(|_| random.next() as u8)
}

/// A table of the quantizers that stand alone elsewhere, mixed.
fn mixed_table(random: &mut Random) -> Table {
    core::array::from_fn(|_| QUANTIZERS[random.below(16) as usize])
}

/// A table of one of the kinds above, or of small quantizers.
pub fn any_table(random: &mut Random) -> Table {
    match random.below(4) {
        0 => random_table(random),
        1 => mixed_table(random),
        2 => [QUANTIZERS[random.below(16) as usize]; 64],
        _ => core::array::from_fn(|_| 1 + random.below(24) as u8),
    }
}

/// The samples, 0 and 255 alone, of the largest and of the least coefficient.
fn largest(natural: usize, positive: bool) -> Samples {
    samples(|n| {
        if (basis(natural, n) > 0) == positive {
            255
        } else {
            0
        }
    })
}

/// A block whose 64 differences from 128, each with the sign of the basis of
/// `natural`, sum up to `sum`: spread evenly, or at random places.
fn with_sum(natural: usize, sum: i64, even: bool, random: &mut Random) -> Samples {
    let mut left = sum;
    let mut block: [i64; 64] = [128; 64];
    if even {
        let share = sum / 64;
        for (n, sample) in block.iter_mut().enumerate() {
            *sample += basis(natural, n).signum() * share;
        }
        left -= 64 * share;
    }
    while left != 0 {
        let n = random.below(64) as usize;
        let step = if even {
            left.signum()
        } else {
            left.signum() * (1 + random.below(left.unsigned_abs().min(90)) as i64)
        };
        let moved = block[n] + basis(natural, n).signum() * step;
        if (0..=255).contains(&moved) {
            block[n] = moved;
            left -= step;
        }
    }
    core::array::from_fn(|n| u8::try_from(block[n]).expect("a sample"))
}

/// Blocks with a quotient of just a half at a rational frequency, and one
/// sample off it on either side: there S = 2^29 * sum, so S / (d * 2^32) is
/// sum / (8 * d), a tie where the sum is 4 * d * an odd number.
fn ties(random: &mut Random) -> Vec<(Samples, usize, u8)> {
    let mut all = Vec::new();
    for natural in RATIONAL {
        for k in 0..48i64 {
            let quantizer = if k < 16 {
                QUANTIZERS[k as usize]
            } else {
                random.next() as u8
            };
            let d = i64::from(quantizer.max(1));
            // Sums to 127 * 64 can be reached with either sign of the basis.
            let odd = 2 * random.below((127 * 64 / (4 * d) + 1) as u64 / 2) as i64 + 1;
            let sign = if k % 2 == 0 { 1 } else { -1 };
            for off in [-1, 0, 1] {
                let sum = (sign * (4 * d * odd + off)).clamp(-127 * 64, 127 * 64);
                all.push((
                    with_sum(natural, sum, k % 4 < 2, random),
                    natural,
                    quantizer,
                ));
            }
        }
    }
    all
}

/// Blocks whose samples step evenly across, down and both ways, with and
/// without wrapping at 255.
fn gradients() -> Vec<Samples> {
    let mut all = Vec::new();
    for step in [1usize, 2, 3, 4, 8, 16, 18, 31, 36, 51] {
        for start in [0, 64, 128] {
            all.push(samples(|n| (start + step * (n % 8)) as u8));
            all.push(samples(|n| (start + step * (n / 8)) as u8));
            all.push(samples(|n| (start + step * (n % 8 + n / 8)) as u8));
            all.push(samples(|n| {
                (start + step * (7 - n % 8) + step * (n / 8)) as u8
            }));
        }
    }
    // The numbers of the places themselves, and from the far end.
    all.push(samples(|n| n as u8));
    all.push(samples(|n| 4 * n as u8));
    all.push(samples(|n| 255 - n as u8));
    all
}

/// Blocks of one sample that stands out of 0, 128 or 255.
fn single_samples() -> Vec<Samples> {
    let mut all = Vec::new();
    for place in 0..64 {
        for (ground, point) in [(128, 0), (128, 255), (0, 255), (255, 0), (128, 129)] {
            all.push(samples(|n| if n == place { point } else { ground }));
        }
    }
    all
}

/// Noise of a small amplitude around one level, and with one bit a sample.
fn small_noise(random: &mut Random) -> Samples {
    let amplitude = 1 + random.below(8);
    let level = 8 + random.below(240) as u8;
    samples(|_| level - amplitude as u8 + random.below(2 * amplitude + 1) as u8)
}

/// A block of random samples of one of several kinds.
pub fn any_block(random: &mut Random) -> Samples {
    match random.below(5) {
        0 => small_noise(random),
        // Ends alone.
        1 => samples(|_| 255 * random.below(2) as u8),
        // A rough texture on a slope.
        2 => {
            let (across, down) = (random.below(16), random.below(16));
            samples(|n| (across * (n as u64 % 8) + down * (n as u64 / 8) + random.below(24)) as u8)
        }
        // Rows that repeat, as at an edge that runs down.
        3 => {
            let row: [u8; 8] = core::array::from_fn(|_| random.next() as u8);
            samples(|n| row[n % 8])
        }
        _ => samples(|_| random.next() as u8),
    }
}

/// Equal samples of every value, each under a few quantizers.
fn equal_samples(random: &mut Random) -> Vec<Whole> {
    let mut all = Vec::new();
    for value in 0..=255 {
        all.push(([value; 64], [1; 64]));
        all.push(([value; 64], any_table(random)));
    }
    for value in [0, 1, 126, 127, 128, 129, 130, 254, 255] {
        for quantizer in QUANTIZERS {
            all.push(([value; 64], [quantizer; 64]));
        }
    }
    all
}

/// At least `count` blocks with their tables: the boundary ones, then random
/// ones.
pub fn whole_blocks(count: usize) -> Vec<Whole> {
    whole_blocks_from(SEED, count)
}

pub fn whole_blocks_from(seed: u64, count: usize) -> Vec<Whole> {
    let mut random = Random(seed);
    let mut all = equal_samples(&mut random);
    for (block, natural, quantizer) in ties(&mut random) {
        let mut table = any_table(&mut random);
        table[natural] = quantizer;
        all.push((block, table));
    }
    for natural in 0..64 {
        for positive in [true, false] {
            all.push((largest(natural, positive), [natural as u8 % 2; 64]));
            all.push((largest(natural, positive), any_table(&mut random)));
        }
    }
    for block in gradients() {
        all.push((block, [1; 64]));
        all.push((block, any_table(&mut random)));
    }
    for block in single_samples() {
        all.push((block, any_table(&mut random)));
    }
    assert!(all.len() + 400 < count);
    while all.len() < count {
        let block = any_block(&mut random);
        all.push((block, any_table(&mut random)));
    }
    all
}

/// At least `count` blocks, each with one quantizer and one index; every index
/// comes with the extremes of its coefficient.
pub fn single_coefficients(count: usize) -> Vec<Single> {
    single_coefficients_from(SEED, count)
}

pub fn single_coefficients_from(seed: u64, count: usize) -> Vec<Single> {
    let mut random = Random(seed);
    let mut all = Vec::new();
    for natural in 0..64 {
        for quantizer in [0, 1, 2, 3, 255] {
            for positive in [true, false] {
                all.push((largest(natural, positive), (quantizer, natural as u8)));
            }
            all.push((small_noise(&mut random), (quantizer, natural as u8)));
        }
        for value in [0, 128, 255] {
            all.push(([value; 64], (1, natural as u8)));
        }
    }
    for (block, natural, quantizer) in ties(&mut random) {
        all.push((block, (quantizer, natural as u8)));
    }
    assert!(all.len() + 400 < count);
    while all.len() < count {
        let block = any_block(&mut random);
        let quantizer = any_table(&mut random)[0];
        all.push((block, (quantizer, (all.len() % 64) as u8)));
    }
    all
}
