//! The pairs of records that their sameness is asked for, and the answers.
//!
//! The published Rust has neither the divisors in a record nor a sameness. The
//! answer is computed here by the rule of document 02, card 9, as a count of
//! the numbers that are apart.

use crate::forward::Table;
use crate::stored::Coefficients;
use crate::Random;

/// DC, the AC places and the divisors.
pub type Parts = (i16, (Coefficients, Table));
pub type Pair = (Parts, Parts);

pub fn same(((dc, (ac, quant)), (other_dc, (other_ac, other))): Pair) -> u8 {
    let apart = usize::from(dc != other_dc)
        + (1..64).filter(|&z| ac[z] != other_ac[z]).count()
        + (0..64).filter(|&n| quant[n] != other[n]).count();
    u8::from(apart == 0)
}

fn any_record(random: &mut Random) -> Parts {
    let quant = core::array::from_fn(|_| random.next() as u8);
    let ac = core::array::from_fn(|_| random.any_width(16) as i16);
    (random.any_width(16) as i16, (ac, quant))
}

/// At least `count` pairs: records that differ in DC alone, at one AC place
/// alone, at one divisor alone, each place in the lowest, the highest and any
/// bits; records of one block's numbers under two tables; records that do not
/// differ, or at AC place 0 alone; and any two.
pub fn pairs_from(seed: u64, count: usize) -> Vec<Pair> {
    let mut random = Random(seed);
    let mut all: Vec<Pair> = Vec::new();
    for n in 0..64 {
        for by in [1, -1, 256, i16::MIN, 1 + random.below(65_535) as u16 as i16] {
            let a = any_record(&mut random);
            let mut b = a;
            b.1 .0[n] = b.1 .0[n].wrapping_add(by);
            all.push((a, b));
            all.push((b, a));
        }
        for by in [1, 255, 128, 1 + random.below(255) as u8] {
            let a = any_record(&mut random);
            let mut b = a;
            b.1 .1[n] = b.1 .1[n].wrapping_add(by);
            all.push((a, b));
            all.push((b, a));
        }
        let a = any_record(&mut random);
        all.push((a, (a.0.wrapping_add(1 << (n % 16)), a.1)));
        all.push((a, (a.0, (a.1 .0, any_record(&mut random).1 .1))));
    }
    assert!(all.len() + 400 < count);
    while all.len() < count {
        let a = any_record(&mut random);
        let mut b = a;
        b.1 .0[0] = random.signed(16) as i16;
        all.push(match all.len() % 8 {
            0 => (a, any_record(&mut random)),
            1 | 2 => (a, a),
            _ => (a, b),
        });
    }
    let yes = all.iter().filter(|&&x| same(x) == 1).count();
    assert!(yes > count / 4 && yes < count - count / 8);
    all
}
