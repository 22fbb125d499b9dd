//! Two strips and what joining them makes, computed by the harness. The published
//! Rust joins nothing; the pictures of both strips are put together from its
//! inverse blocks.

use crate::clamped::{clamped, Size};
use crate::forward::Table;
use crate::planes::{blocks, together, Coded, Plane};
use crate::stored::dequantized;
use j2k_codec_math::jpeg::idct;

/// A strip as it is handed over, of whatever lengths.
#[derive(Clone, Copy, Debug)]
pub struct Strip<'a> {
    pub coefficients: &'a [i16],
    pub width: usize,
    pub height: usize,
    pub quant: &'a [u8],
}

impl<'a> Strip<'a> {
    pub fn of(coded: &'a Coded, quant: &'a Table) -> Self {
        Strip {
            coefficients: &coded.coefficients,
            width: coded.width,
            height: coded.height,
            quant,
        }
    }
}

/// The coefficients of a plane, in number; of one that is too wide or high, those
/// of 4096.
pub fn count(width: usize, height: usize) -> usize {
    64 * blocks(width.min(4096)) * blocks(height.min(4096))
}

/// The number that document 02, card 13 gives a join.
pub fn number(left: Strip, right: Strip, out: usize) -> u32 {
    let both = [left, right];
    let sized = |n: usize| (1..=4096).contains(&n);
    let divisors = |strip: Strip| strip.quant.iter().map(|q| (*q).max(1)).collect::<Vec<_>>();
    if !both.iter().all(|s| sized(s.width) && sized(s.height)) {
        8
    } else if both
        .iter()
        .any(|s| s.coefficients.len() != count(s.width, s.height))
    {
        1
    } else if both.iter().any(|s| s.quant.len() != 64) {
        2
    } else if divisors(left) != divisors(right) {
        15
    } else if left.height != right.height {
        16
    } else if left.width % 8 != 0 {
        17
    } else if !sized(left.width + right.width) {
        8
    } else if out != count(left.width + right.width, left.height) {
        3
    } else {
        0
    }
}

/// Rows of p beside rows of q.
pub fn beside<A: Copy>(left: &[A], p: usize, right: &[A], q: usize) -> Vec<A> {
    left.chunks(p)
        .zip(right.chunks(q))
        .flat_map(|(a, b)| a.iter().chain(b).copied())
        .collect()
}

/// Two pictures side by side.
pub fn side_by_side(left: &Plane, right: &Plane) -> Plane {
    Plane {
        width: left.width + right.width,
        height: left.height,
        samples: beside(&left.samples, left.width, &right.samples, right.width),
    }
}

/// A plane's picture at one sample of `by`, its columns, and how many samples the
/// clamp raised and lowered in whole blocks.
pub fn picture(coded: &Coded, quant: &Table, by: usize) -> (Vec<u8>, usize, [u32; 2]) {
    let size = match by {
        1 => Size::eight(),
        2 => Size::four(),
        _ => Size::two(),
    };
    let mut counts = [0; 2];
    let shown: Vec<Vec<u8>> = coded
        .coefficients
        .chunks(64)
        .map(|c| {
            let products = dequantized((c.try_into().expect("64 coefficients"), *quant));
            let narrow = products.map(|p| p.clamp(-32_768, 32_767) as i16);
            let (numbers, samples) = match by {
                1 => {
                    let mut samples = [0; 64];
                    idct::islow_block(&products, &mut samples);
                    (size.numbers(&products.map(i64::from)), samples.to_vec())
                }
                2 => {
                    let mut samples = [0; 16];
                    idct::islow_block_4x4(&narrow, &mut samples);
                    (size.numbers(&narrow.map(i64::from)), samples.to_vec())
                }
                _ => {
                    let mut samples = [0; 4];
                    idct::islow_block_2x2(&narrow, &mut samples);
                    (size.numbers(&narrow.map(i64::from)), samples.to_vec())
                }
            };
            let (_, block) = clamped(&numbers);
            counts = [counts[0] + block[0], counts[1] + block[1]];
            samples
        })
        .collect();
    let (columns, rows) = (coded.width.div_ceil(by), coded.height.div_ceil(by));
    let picture = together(&shown, 8 / by, blocks(coded.width), (columns, rows));
    (picture, columns, counts)
}

/// Every left width of 8 to 48 that a join takes, with every right width and every
/// height of 1 to 17.
pub fn every_join() -> Vec<(usize, usize, usize)> {
    let mut all = Vec::new();
    for left in (8..=48).step_by(8) {
        for right in 1..=17 {
            all.extend((1..=17).map(|height| (left, right, height)));
        }
    }
    all
}
