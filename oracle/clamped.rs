//! The numbers of an 8-bit inverse before its clamp, and what the clamp does to
//! them, computed by the harness. The published Rust does not count.
//!
//! A pass is written as sums of products with its gains, which the Rust's 1-D
//! transforms give for unit inputs, in 128 bits, and only then wrapped to 32.

use crate::blocks::gains;
use j2k_codec_math::jpeg::idct;

/// 8x8, 4x4 or 2x2: the gains, and the bits by which a pass is shifted further
/// than at 8x8.
pub struct Size {
    gains: Vec<[i32; 8]>,
    extra: u32,
}

impl Size {
    pub fn eight() -> Self {
        let gains = gains(idct::islow_1d);
        Size { gains, extra: 0 }
    }
    pub fn four() -> Self {
        let gains = gains(idct::islow_1d_4);
        Size { gains, extra: 1 }
    }
    pub fn two() -> Self {
        let gains = gains(idct::islow_1d_2);
        Size { gains, extra: 2 }
    }

    /// Whether the inputs other than the first that the transform reads are 0.
    fn ac_is_zero(&self, p: &[i64; 8]) -> bool {
        let read = |k: usize| self.gains.iter().any(|gain| gain[k] != 0);
        (1..8).all(|k| p[k] == 0 || !read(k))
    }

    fn pass(&self, p: &[i64; 8], shift: u32) -> Vec<i64> {
        let shift = shift + self.extra;
        self.gains
            .iter()
            .map(|gain| {
                let sum: i128 = (0..8).map(|k| i128::from(gain[k]) * i128::from(p[k])).sum();
                wrapped(sum + (1 << (shift - 1))) >> shift
            })
            .collect()
    }

    /// The numbers before the clamp, row by row, of coefficients in natural
    /// order, with the zero shortcuts of columns and of rows.
    pub fn numbers(&self, input: &[i64; 64]) -> Vec<i64> {
        let side = self.gains.len();
        let columns: Vec<Vec<i64>> = (0..8)
            .map(|u| {
                let p = core::array::from_fn(|v| input[8 * v + u]);
                if self.ac_is_zero(&p) {
                    vec![wrapped(4 * i128::from(p[0])); side]
                } else {
                    self.pass(&p, 11)
                }
            })
            .collect();
        let mut all = Vec::new();
        for y in 0..side {
            let p = core::array::from_fn(|u| columns[u][y]);
            all.extend(if self.ac_is_zero(&p) {
                vec![wrapped(i128::from(p[0]) + 16) >> 5; side]
            } else {
                self.pass(&p, 18)
            });
        }
        all
    }
}

/// To 32 bits.
fn wrapped(sum: i128) -> i64 {
    i64::from(sum as i32)
}

/// The samples of numbers before the clamp, how many were raised to 0, and how
/// many lowered to 255. The sum with 128 wraps before it is judged.
pub fn clamped(numbers: &[i64]) -> (Vec<u8>, [u32; 2]) {
    let mut counts = [0; 2];
    let samples = numbers
        .iter()
        .map(|v| match wrapped(i128::from(*v) + 128) {
            sum @ 0..=255 => sum as u8,
            ..0 => {
                counts[0] += 1;
                0
            }
            _ => {
                counts[1] += 1;
                255
            }
        })
        .collect();
    (samples, counts)
}
