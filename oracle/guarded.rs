//! The blocks, the tables and the divisors that the guarded quantizer is asked
//! for. Its tables have no quantizer 0.

use crate::forward::{any_block, any_table, Samples, Table, RATIONAL};
use crate::{Random, SEED};
use j2k_encoder::Divisors;

/// A block, its table, and the table that the divisors are made from.
pub type Made = (Samples, (Table, Table));
/// A block, its table, and the 64 reciprocals handed over.
pub type Handed = (Samples, (Table, [f64; 64]));

/// Half of the guard's width, 2^-19.
const GUARD: f64 = 1.0 / 524_288.0;

pub fn table(random: &mut Random) -> Table {
    any_table(random).map(|quantizer| quantizer.max(1))
}

/// How far the fraction of each value times its reciprocal is from one half,
/// but for the frequencies where ties are common.
fn distances(block: &Samples, divisors: &Divisors) -> impl Iterator<Item = f64> {
    let scaled = j2k_encoder::scaled_values(block, divisors);
    (0..64)
        .filter(|n| !RATIONAL.contains(n))
        .map(move |n| (scaled[n].abs().fract() - 0.5).abs())
}

/// `count` blocks with a value inside the guard, and as many with one less than
/// four times as far from a half, outside of it.
fn near_a_half(count: usize, random: &mut Random) -> Vec<Made> {
    let (mut inside, mut outside) = (Vec::new(), Vec::new());
    while inside.len() < count || outside.len() < count {
        let block = any_block(random);
        let quant = table(random);
        let divisors = Divisors::new(&quant);
        let nearest = distances(&block, &divisors).fold(1.0, f64::min);
        if nearest < GUARD && inside.len() < count {
            inside.push((block, (quant, quant)));
        } else if (GUARD..4.0 * GUARD).contains(&nearest) && outside.len() < count {
            outside.push((block, (quant, quant)));
        }
    }
    inside.extend(outside);
    inside
}

/// The blocks and tables of the program `near_half`, and how many of their
/// values lie inside the guard.
pub fn near_half(count: usize) -> (Vec<(Samples, Table)>, usize) {
    let all: Vec<_> = near_a_half(count, &mut Random(SEED))
        .into_iter()
        .map(|(block, (quant, _))| (block, quant))
        .collect();
    let taken = |(block, quant): &(Samples, Table)| {
        let scaled = j2k_encoder::scaled_values(block, &Divisors::new(quant));
        let near = |q: &&f64| (q.abs().fract() - 0.5).abs() < GUARD;
        scaled.iter().filter(near).count()
    };
    let guards = all.iter().map(taken).sum();
    (all, guards)
}

/// Equal samples, and such with one that differs.
fn nearly_constant(random: &mut Random) -> Vec<Made> {
    let mut all = Vec::new();
    for value in 0..=255u8 {
        let quant = table(random);
        all.push(([value; 64], (quant, quant)));
    }
    for place in 0..64 {
        for by in [1, 255, 128] {
            let mut block = [random.next() as u8; 64];
            block[place] = block[place].wrapping_add(by);
            let quant = table(random);
            all.push((block, (quant, quant)));
        }
    }
    // The first eight samples are equal, the others not.
    for _ in 0..32 {
        let mut block = any_block(random);
        block[..8].fill(random.next() as u8);
        let quant = table(random);
        all.push((block, (quant, quant)));
    }
    all
}

/// The cases of the recorded answers.
pub fn made(count: usize) -> Vec<Made> {
    made_from(SEED, 700, count)
}

/// `count` cases: the ones above, `near` on each side of the guard's end, then
/// random blocks, every fourth with the divisors of another table.
pub fn made_from(seed: u64, near: usize, count: usize) -> Vec<Made> {
    let mut random = Random(seed);
    let mut all = nearly_constant(&mut random);
    all.extend(near_a_half(near, &mut random));
    assert!(all.len() + 1_000 < count);
    while all.len() < count {
        let block = any_block(&mut random);
        let quant = table(&mut random);
        let other = if all.len() % 4 == 0 {
            table(&mut random)
        } else {
            quant
        };
        all.push((block, (quant, other)));
    }
    all
}

const SPECIAL: [f64; 18] = [
    f64::NAN,
    f64::INFINITY,
    f64::NEG_INFINITY,
    0.0,
    -0.0,
    f64::MIN_POSITIVE,
    5e-324,
    -5e-324,
    f64::MAX,
    f64::MIN,
    1e300,
    -1e300,
    1.0,
    -1.0,
    0.5,
    -0.5,
    100.0,
    -100.0,
];

/// A reciprocal that puts the value at a half of a whole number, or at the
/// guard's end beside it, give or take a few units in the last place.
fn at_the_guard(value: f64, random: &mut Random) -> f64 {
    let whole = random.below(2_000) as f64;
    let off = [0.0, GUARD, -GUARD, 1.5 * GUARD, -1.5 * GUARD][random.below(5) as usize];
    let reciprocal = (whole + 0.5 + off) / value;
    if reciprocal.is_finite() {
        f64::from_bits(
            reciprocal
                .to_bits()
                .wrapping_add(random.below(7))
                .wrapping_sub(3),
        )
    } else {
        reciprocal
    }
}

/// The cases of the recorded answers.
pub fn handed(count: usize) -> Vec<Handed> {
    handed_from(SEED, count)
}

/// `count` cases of divisors that no table makes.
pub fn handed_from(seed: u64, count: usize) -> Vec<Handed> {
    let mut random = Random(seed);
    let mut all: Vec<Handed> = Vec::new();
    for special in SPECIAL {
        for _ in 0..4 {
            all.push((any_block(&mut random), (table(&mut random), [special; 64])));
        }
        all.push((
            [random.next() as u8; 64],
            (table(&mut random), [special; 64]),
        ));
    }
    while all.len() < count {
        let block = any_block(&mut random);
        let quant = table(&mut random);
        let divisors = Divisors::new(&quant);
        let reciprocals = divisors.reciprocals();
        let scaled = j2k_encoder::scaled_values(&block, &divisors);
        let kind = all.len() % 5;
        let given = core::array::from_fn(|n| match kind {
            // Some of the table's own, some special.
            0 if random.below(4) != 0 => reciprocals[n],
            0 => SPECIAL[random.below(18) as usize],
            // Any bits.
            1 => f64::from_bits(random.next()),
            // So large that the results leave 16 bits.
            2 => reciprocals[n] * random.below(4_000) as f64,
            3 => -reciprocals[n],
            _ => at_the_guard(scaled[n] / reciprocals[n], &mut random),
        });
        all.push((block, (quant, given)));
    }
    all
}
