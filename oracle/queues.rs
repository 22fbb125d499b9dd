//! The bench queue of document 02, card 11, in the harness's own way, and the
//! states and calls that it is asked for.
//!
//! The published Rust has no such queue. A turn is worked out here by rounds and
//! not block by block: while nothing is deposited, the cyclic order gives every
//! waiting bench its first block, then every bench that still waits its second,
//! and so on, each round in the order after the bench last served.

use crate::Random;

/// Places of a turn's output.
pub const PLACES: usize = 4096;

/// The bench count, the bench last served, eight waiting counts.
pub type State = [u32; 10];

/// What a turn leaves: the state, the benches listed, and its word, 1 for spent
/// and 2 for idle.
pub type Turned = (State, Vec<u8>, u32);

pub fn in_range(state: &State) -> bool {
    let (benches, last) = (state[0], state[1]);
    let fits = |b: usize| state[2 + b] <= if (b as u32) < benches { 65535 } else { 0 };
    matches!(benches, 1..=8) && last < benches && (0..8).all(fits)
}

pub fn new(benches: u32) -> Result<State, u32> {
    match benches {
        1..=8 => Ok([benches, benches - 1, 0, 0, 0, 0, 0, 0, 0, 0]),
        _ => Err(13),
    }
}

pub fn deposit(mut state: State, bench: u32, blocks: u32) -> Result<State, u32> {
    if !in_range(&state) || bench >= state[0] {
        return Err(13);
    }
    let count = &mut state[2 + bench as usize];
    match u64::from(*count) + u64::from(blocks) {
        sum @ 0..=65535 => *count = sum as u32,
        _ => return Err(14),
    }
    Ok(state)
}

pub fn turn(state: State, l: u32) -> Result<Turned, u32> {
    if !in_range(&state) {
        return Err(13);
    }
    let (benches, last) = (state[0], state[1]);
    let rounds = *state[2..].iter().max().expect("eight counts");
    let order = (1..=benches).map(|k| (last + k) % benches);
    let listed: Vec<u8> = (0..rounds)
        .flat_map(|round| {
            order
                .clone()
                .filter(move |b| state[2 + *b as usize] > round)
        })
        .take((l as usize).min(PLACES))
        .map(|b| b as u8)
        .collect();
    let mut after = state;
    for b in &listed {
        after[2 + usize::from(*b)] -= 1;
        after[1] = u32::from(*b);
    }
    let word = if after[2..].iter().all(|w| *w == 0) {
        2
    } else {
        1
    };
    Ok((after, listed, word))
}

/// A number at or around an end of a range, or any.
fn any_number(random: &mut Random) -> u32 {
    match random.below(8) {
        0 => [0, 1, 7, 8, 9, 65534, 65535, 65536, u32::MAX][random.below(9) as usize],
        1 => random.next() as u32,
        2 => random.below(65536) as u32,
        _ => random.below(6) as u32,
    }
}

/// A state: most are in range, the others out of it at one number or at any.
pub fn any_state(random: &mut Random) -> State {
    let benches = 1 + random.below(8) as u32;
    let mut state = [0; 10];
    state[0] = benches;
    state[1] = random.below(u64::from(benches)) as u32;
    for b in 0..benches as usize {
        state[2 + b] = any_number(random).min(65535);
    }
    match random.below(6) {
        0 => state[random.below(10) as usize] = any_number(random),
        1 if random.below(4) == 0 => state = core::array::from_fn(|_| any_number(random)),
        _ => {}
    }
    state
}

/// How many blocks a turn may have at most.
pub fn any_limit(random: &mut Random) -> u32 {
    match random.below(4) {
        0 => [0, 1, 4095, 4096, 4097, u32::MAX][random.below(6) as usize],
        1 => random.below(5000) as u32,
        _ => random.below(20) as u32,
    }
}

/// A bench number, and a number of blocks.
pub fn any_deposit(random: &mut Random) -> (u32, u32) {
    let bench = match random.below(8) {
        0 => any_number(random),
        _ => random.below(8) as u32,
    };
    (bench, any_number(random))
}
