//! The planes, base tables and limits that the search by percent is asked for,
//! and the answers.
//!
//! The published Rust has no such function. The answers are computed here
//! plainly, by document 02, card 12: for each percent the plane is cut, coded
//! and decoded by the Rust's block functions and put together again; the good
//! percents are those within the limit, and the answer the last of those with
//! the fewest nonzero coefficients.

use crate::forward::{any_table, Table};
use crate::percents;
use crate::planes::{any_plane, blocks, cut, together, Plane};
use crate::Random;
use j2k_codec_math::jpeg::{fdct, idct};

/// The numbers of trials that are given.
pub const GIVEN: [u32; 6] = [0, 1, 199, 200, 201, u32::MAX];

pub struct Trial {
    error: u64,
    count: u64,
}

fn trial(plane: &Plane, quant: &Table) -> Trial {
    let coded: Vec<[i16; 64]> = cut(plane)
        .iter()
        .map(|block| fdct::fdct_quantize(block, quant))
        .collect();
    let decoded: Vec<Vec<u8>> = coded
        .iter()
        .map(|coefficients| {
            let products: [i32; 64] =
                core::array::from_fn(|n| i32::from(coefficients[n]) * i32::from(quant[n].max(1)));
            let mut block = [0; 64];
            idct::islow_block(&products, &mut block);
            block.to_vec()
        })
        .collect();
    let size = (plane.width, plane.height);
    let picture = together(&decoded, 8, blocks(plane.width), size);
    let difference = |(a, b): (&u8, &u8)| u64::from(a.abs_diff(*b)).pow(2);
    Trial {
        error: plane.samples.iter().zip(&picture).map(difference).sum(),
        count: coded.iter().flatten().filter(|c| **c != 0).count() as u64,
    }
}

/// Those of percents 1 to 200.
pub fn trials(plane: &Plane, base: &Table) -> Vec<Trial> {
    (1..=200)
        .map(|percent| {
            trial(
                plane,
                &percents::table((*base, percent)).expect("a percent"),
            )
        })
        .collect()
}

/// The percent, or 0; how far off it is at most; the number of trials.
pub fn answer(trials: &[Trial], limit: u64, given: u32) -> [u64; 3] {
    let number = given.min(200);
    let good = || {
        (1..)
            .zip(&trials[..number as usize])
            .filter(|(_, t)| t.error <= limit)
    };
    let Some(fewest) = good().map(|(_, t)| t.count).min() else {
        return [0, 0, u64::from(number)];
    };
    let percents = good()
        .filter(|(_, t)| t.count == fewest)
        .map(|(percent, _)| percent);
    let percent: u64 = percents.max().expect("a good percent");
    [percent, fewest - trials[199].count, u64::from(number)]
}

/// Every limit at which some percent turns good, the one below each, and the
/// ends.
pub fn limits(trials: &[Trial]) -> Vec<u64> {
    let mut all = vec![0, u64::MAX];
    for Trial { error, .. } in trials {
        all.extend([*error, error.saturating_sub(1)]);
    }
    all.sort_unstable();
    all.dedup();
    all
}

/// A plane of up to two by two blocks, at times flat; and a base table, at times
/// of zeros or of 255.
pub fn any_search(random: &mut Random) -> (Plane, Table) {
    let mut measure = || 1 + random.below(16) as usize;
    let (width, height) = (measure(), measure());
    let mut plane = any_plane(random, width, height);
    if random.below(4) == 0 {
        plane.samples.fill(random.next() as u8);
    }
    let base = match random.below(6) {
        0 => [0; 64],
        1 => [255; 64],
        _ => any_table(random),
    };
    (plane, base)
}
