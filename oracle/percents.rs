//! The base tables and percents that tables by percent are asked for, and the
//! answers.
//!
//! The published Rust has no such function. The answers are computed here by
//! counting, by the rule of document 02, card 6: the greatest whole number of
//! which a hundred are no more than base * percent + 50, held to 1..255.

use crate::forward::{any_table, Table};
use crate::Random;
use std::sync::OnceLock;

/// A base table and a percent from 1 to 200. What is made smaller may have 0.
pub type Share = (Table, u8);

const LAST: usize = 200;

fn divisor(base: usize, percent: usize) -> u8 {
    let mut count = 0;
    while 100 * (count + 1) <= base * percent + 50 {
        count += 1;
    }
    match count {
        0 => 1,
        1..=255 => count as u8,
        _ => 255,
    }
}

/// The table, or the refusal's number.
pub fn table((base, percent): Share) -> Result<Table, u32> {
    static ALL: OnceLock<Vec<[u8; 256]>> = OnceLock::new();
    let all = ALL.get_or_init(|| {
        (1..=LAST)
            .map(|percent| core::array::from_fn(|base| divisor(base, percent)))
            .collect()
    });
    match usize::from(percent) {
        percent @ 1..=LAST => Ok(base.map(|q| all[percent - 1][usize::from(q)])),
        _ => Err(11),
    }
}

/// Every percent with every quantizer: the quantizers 0 to 255 in four tables.
pub fn every_share() -> Vec<Share> {
    let mut all = Vec::new();
    for percent in 1..=LAST {
        for quarter in 0..4 {
            let base = core::array::from_fn(|n| (64 * quarter + n) as u8);
            all.push((base, percent as u8));
        }
    }
    all
}

pub fn shares_from(seed: u64, count: usize) -> Vec<Share> {
    let mut random = Random(seed);
    (0..count)
        .map(|_| {
            let base = any_table(&mut random);
            (base, 1 + random.below(LAST as u64) as u8)
        })
        .collect()
}
