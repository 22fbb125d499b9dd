//! Random numbers, and the numbers at the ends of their types: what the inputs
//! are made of.

/// The seed of the recorded answers.
pub const SEED: u64 = 0x000c_61cb_298a;

/// splitmix64.
pub struct Random(pub u64);

impl Random {
    pub fn next(&mut self) -> u64 {
        self.0 = self.0.wrapping_add(0x9e37_79b9_7f4a_7c15);
        let mut z = self.0;
        z = (z ^ (z >> 30)).wrapping_mul(0xbf58_476d_1ce4_e5b9);
        z = (z ^ (z >> 27)).wrapping_mul(0x94d0_49bb_1331_11eb);
        z ^ (z >> 31)
    }

    pub fn below(&mut self, n: u64) -> u64 {
        self.next() % n
    }

    /// A signed number of `bits` bits.
    pub fn signed(&mut self, bits: u32) -> i64 {
        (self.next() as i64) >> (64 - bits)
    }

    /// A signed number of 1 to `bits` bits, each width as likely as the next.
    pub fn any_width(&mut self, bits: u32) -> i64 {
        let width = 1 + self.below(u64::from(bits)) as u32;
        self.signed(width)
    }
}

/// The numbers that the transforms are tried on: `i16`, `i32` and `i64`.
pub trait Number: Copy + PartialEq {
    const BITS: u32;
    fn of(x: i64) -> Self;
}

impl Number for i16 {
    const BITS: u32 = 16;
    fn of(x: i64) -> Self {
        i16::try_from(x).expect("a number of 16 bits")
    }
}

impl Number for i32 {
    const BITS: u32 = 32;
    fn of(x: i64) -> Self {
        i32::try_from(x).expect("a number of 32 bits")
    }
}

impl Number for i64 {
    const BITS: u32 = 64;
    fn of(x: i64) -> Self {
        x
    }
}

pub fn least<T: Number>() -> i64 {
    i64::MIN >> (64 - T::BITS)
}

pub fn most<T: Number>() -> i64 {
    i64::MAX >> (64 - T::BITS)
}

/// Zero, every power of two, its neighbours and their negatives.
pub fn powers<T: Number>() -> Vec<i64> {
    let mut all = vec![0];
    for k in 0..T::BITS - 1 {
        let p = 1i64 << k;
        all.extend([p - 1, p, p + 1, -p - 1, -p, 1 - p]);
    }
    all.extend([most::<T>() - 1, most::<T>(), least::<T>(), least::<T>() + 1]);
    all.sort_unstable();
    all.dedup();
    all
}

/// The ends of the type, small numbers and the ends of 16 bits.
pub fn ends<T: Number>() -> Vec<i64> {
    let mut all = vec![
        least::<T>(),
        least::<T>() + 1,
        least::<T>() / 2,
        -65_536,
        -32_768,
        -2,
        -1,
        0,
        1,
        2,
        32_767,
        65_536,
        most::<T>() / 2,
        most::<T>() / 2 + 1,
        most::<T>() - 1,
        most::<T>(),
    ];
    all.retain(|x| (least::<T>()..=most::<T>()).contains(x));
    all.sort_unstable();
    all.dedup();
    all
}
