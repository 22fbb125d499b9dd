//! The blocks that the inverse entries are asked for.

use crate::{ends, least, most, powers, Number, Random, SEED};
use j2k_codec_math::jpeg::idct;

/// The DC coefficients, alone in a block, of the least and the most sample.
pub struct Clamp {
    pub low: i64,
    pub high: i64,
}

pub const CLAMP_8BIT: Clamp = Clamp {
    low: -8 * 128,
    high: 8 * 127,
};
pub const CLAMP_12BIT: Clamp = Clamp {
    low: -8 * 2_048,
    high: 8 * 2_047,
};

type Block<T> = [T; 64];

fn block<T: Number>(at: impl FnMut(usize) -> i64) -> Block<T> {
    let mut at = at;
    core::array::from_fn(|n| T::of(at(n)))
}

fn dc_only<T: Number>(dc: i64) -> Block<T> {
    block(|n| if n == 0 { dc } else { 0 })
}

/// DC over the whole type, densely where a sample steps at the clamp's edges
/// and where `4 * dc`, its sum with 16 and `8192 * dc` wrap.
fn dcs<T: Number>(clamp: &Clamp) -> Vec<i64> {
    let mut all = powers::<T>();
    for near in [0, clamp.low, clamp.high, 1 << 18, 1 << 29, 1 << 30, 1 << 31] {
        all.extend(near - 12..=near + 12);
        all.extend(-near - 12..=-near + 12);
    }
    all.retain(|x| (least::<T>()..=most::<T>()).contains(x));
    all.extend((0..64).map(|k| least::<T>() + (k << (T::BITS - 6)) + k));
    all.sort_unstable();
    all.dedup();
    all
}

/// Sets of rows or of columns, a bit for each: one, all, those that the
/// reduced sizes read or skip, and the halves.
fn lines() -> Vec<u32> {
    let mut all: Vec<u32> = (0..8).map(|k| 1 << k).collect();
    all.extend([
        0b1111_1111,
        // p0 with what 4x4 skips, and with what 2x2 skips: their zero test passes.
        0b0001_0001,
        0b0101_0101,
        // What 2x2 skips, and what it reads.
        0b0101_0100,
        0b1010_1011,
        // What the top half reads and skips, and p0 with what it skips.
        0b0000_1111,
        0b1111_0000,
        0b1111_0001,
    ]);
    all
}

/// Whether entry n lies in one of the rows and one of the columns.
fn inside(rows: u32, columns: u32, n: usize) -> bool {
    rows >> (n / 8) & 1 == 1 && columns >> (n % 8) & 1 == 1
}

/// Blocks of zeros but for some rows and columns, with numbers of one width
/// and with ends of the type.
fn sparse<T: Number>(random: &mut Random) -> Vec<Block<T>> {
    let mut all = Vec::new();
    for rows in lines() {
        for columns in lines() {
            let width = 1 + random.below(u64::from(T::BITS)) as u32;
            for kind in 0..2 {
                all.push(block(|n| {
                    if !inside(rows, columns, n) {
                        0
                    } else if kind == 0 {
                        random.signed(width)
                    } else {
                        end::<T>(random)
                    }
                }));
            }
        }
    }
    // Any rows and columns, in sizes that leave most samples unclamped.
    for _ in 0..120 {
        let (rows, columns) = (random.next() as u32, random.next() as u32);
        let width = 1 + random.below(12) as u32;
        all.push(block(|n| {
            if inside(rows, columns, n) {
                random.signed(width)
            } else {
                0
            }
        }));
    }
    all
}

fn end<T: Number>(random: &mut Random) -> i64 {
    if random.below(2) == 0 {
        least::<T>()
    } else {
        most::<T>()
    }
}

/// What each output of a 1-D transform takes of each input.
pub fn gains<const N: usize>(transform: fn([i32; 8]) -> [i32; N]) -> Vec<[i32; 8]> {
    let mut all = vec![[0; 8]; N];
    for k in 0..8 {
        let mut impulse = [0; 8];
        impulse[k] = 1;
        for (j, gain) in transform(impulse).into_iter().enumerate() {
            all[j][k] = gain;
        }
    }
    all
}

/// For each sample of each size the largest and the least sum, which wrap,
/// and one of any size.
fn largest_sums<T: Number>(random: &mut Random) -> Vec<Block<T>> {
    let mut all = Vec::new();
    for gains in [
        gains(idct::islow_1d),
        gains(idct::islow_1d_4),
        gains(idct::islow_1d_2),
    ] {
        for down in &gains {
            for across in &gains {
                let high = random.any_width(T::BITS).abs();
                for (high, low) in [
                    (most::<T>(), least::<T>()),
                    (least::<T>(), most::<T>()),
                    (high.min(most::<T>()), -high),
                ] {
                    all.push(block(|n| {
                        if (down[n / 8] < 0) == (across[n % 8] < 0) {
                            high
                        } else {
                            low
                        }
                    }));
                }
            }
        }
    }
    all
}

/// Columns other than the first whose `4 * p0` wraps to zero, so that the row
/// takes the shortcut though its block has AC terms.
fn wrapped_to_zero<T: Number>(random: &mut Random) -> Vec<Block<T>> {
    // A fourth of the wrapping 2^32. No 16-bit number has it.
    let quarter = 1i64 << 30;
    if most::<T>() < quarter {
        return Vec::new();
    }
    let zeros = [0, quarter, -quarter, -2 * quarter];
    let mut all = Vec::new();
    for _ in 0..24 {
        let dc = random.any_width(T::BITS);
        all.push(block(|n| match n {
            0 => dc,
            1..8 => zeros[random.below(4) as usize],
            _ => 0,
        }));
    }
    all
}

/// Samples around the clamp's edges, in blocks with few small AC terms.
fn at_the_clamp<T: Number>(clamp: &Clamp, random: &mut Random) -> Vec<Block<T>> {
    let mut all = Vec::new();
    for k in 0..160 {
        let dc = if k % 2 == 0 { clamp.low } else { clamp.high } + random.signed(6);
        let width = 2 + random.below(6) as u32;
        let one_in = 1 + random.below(16);
        all.push(block(|n| {
            if n == 0 {
                dc
            } else if random.below(one_in) == 0 {
                random.signed(width)
            } else {
                0
            }
        }));
    }
    all
}

/// `count` blocks: the boundary ones, then random ones.
pub fn blocks<T: Number>(clamp: &Clamp, count: usize) -> Vec<Block<T>> {
    blocks_from(SEED, clamp, count)
}

pub fn blocks_from<T: Number>(seed: u64, clamp: &Clamp, count: usize) -> Vec<Block<T>> {
    let mut random = Random(seed);
    let mut all: Vec<Block<T>> = dcs::<T>(clamp).into_iter().map(dc_only).collect();
    all.extend(ends::<T>().into_iter().map(|x| block(|_| x)));
    all.extend(sparse::<T>(&mut random));
    all.extend(largest_sums::<T>(&mut random));
    all.extend(wrapped_to_zero::<T>(&mut random));
    all.extend(at_the_clamp::<T>(clamp, &mut random));
    all.extend((0..60).map(|_| block(|_| end::<T>(&mut random))));
    assert!(all.len() < count);
    while all.len() < count {
        let kind = all.len() % 4;
        // Of one width for the whole block, so that the sums reach every size.
        let width = 1 + random.below(u64::from(T::BITS)) as u32;
        all.push(block(|n| match kind {
            // As a picture has them: the higher the frequency, the smaller.
            0 => random.signed(12) >> (n / 8 + n % 8),
            1 => random.any_width(T::BITS),
            _ => random.signed(width),
        }));
    }
    all
}
