//! The published `transform.rs` as a crate of its own, `j2k_encoder`.
//!
//! Its items are `pub(super)` and its fields private, so it is included in a
//! module of ours, which hands both on.

mod transform {
    include!("j2k/crates/j2k-jpeg/src/encoder/transform.rs");

    pub(super) fn reciprocals(divisors: &QuantizationDivisors) -> [f64; 64] {
        divisors.reciprocals
    }

    pub(super) fn from_reciprocals(reciprocals: [f64; 64]) -> QuantizationDivisors {
        QuantizationDivisors { reciprocals }
    }

    pub(super) fn values(block: &[u8; 64]) -> [f64; 64] {
        fdct_values_scalar(block)
    }

    pub(super) fn inverse_zigzag() -> [usize; 64] {
        NATURAL_TO_ZIGZAG
    }
}

/// `NATURAL_TO_ZIGZAG`.
pub fn natural_to_zigzag() -> [usize; 64] {
    transform::inverse_zigzag()
}

/// `QuantizationDivisors`, made from one quantizer table.
pub struct Divisors(transform::QuantizationDivisors);

impl Divisors {
    pub fn new(quant: &[u8; 64]) -> Self {
        Self(transform::QuantizationDivisors::new(quant))
    }

    /// Divisors of any content.
    pub fn of(reciprocals: [f64; 64]) -> Self {
        Self(transform::from_reciprocals(reciprocals))
    }

    pub fn reciprocals(&self) -> [f64; 64] {
        transform::reciprocals(&self.0)
    }
}

/// Each value of the f64 transform times its reciprocal: what is rounded.
pub fn scaled_values(block: &[u8; 64], divisors: &Divisors) -> [f64; 64] {
    let values = transform::values(block);
    let reciprocals = divisors.reciprocals();
    core::array::from_fn(|n| values[n] * reciprocals[n])
}

/// `QuantizedBlock`, with fields that the harness can read.
pub struct Quantized {
    pub dc: i16,
    pub ac_coefficients: [i16; 64],
    pub nonzero_ac: u64,
}

pub fn fdct_quantize(block: &[u8; 64], quant: &[u8; 64], divisors: &Divisors) -> Quantized {
    let made = transform::fdct_quantize(block, quant, &divisors.0);
    Quantized {
        dc: made.dc,
        ac_coefficients: made.ac_coefficients,
        nonzero_ac: made.nonzero_ac,
    }
}
