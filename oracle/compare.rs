//! Compares every function of libjpeg_block.a with the published Rust, and
//! those that it does not have with stored.rs, records.rs, percents.rs,
//! searches.rs, queues.rs, twelve_bit.rs and strips.rs, on many inputs; the
//! counts of the 8-bit inverses with clamped.rs.
//!
//! Arguments: the seconds to spend, the seed, and how the names of the functions
//! begin, unless all are compared. Each function is first called with lengths
//! around every one that it takes. Then all are asked for a list of
//! boundary and random inputs each, then for lists from the next seed, until the
//! time is over. An output lies between guard places; those, and what a refused
//! call was lent, must stay as they were.
//!
//! A line for each function says how many calls were made and how many were
//! not as expected. The first of those, made smaller as long as it differs, is
//! shown before. The status is 0 only if there is none.

#[allow(dead_code)]
mod blocks;
mod clamped;
#[allow(dead_code)]
mod forward;
#[allow(dead_code)]
mod guarded;
#[allow(dead_code)]
mod numbers;
mod percents;
#[allow(dead_code)]
mod planes;
mod queues;
mod records;
mod searches;
#[allow(dead_code)]
mod stored;
mod strips;
mod twelve_bit;

use blocks::{blocks_from, CLAMP_12BIT, CLAMP_8BIT};
use clamped::{clamped, Size};
use forward::{
    any_table, single_coefficients_from, whole_blocks_from, Samples, Single, Table, Whole,
};
use guarded::{handed_from, made_from, Handed};
use j2k_codec_math::jpeg::{fdct, idct, ZIGZAG};
use j2k_encoder::Divisors;
use jpeg_block::raw;
use numbers::{ends, least, most, powers, Number, Random, SEED};
use percents::{every_share, shares_from, Share};
use planes::{any_coded, any_plane, cut, every_size, sizes_from, together, Coded, Plane};
use std::fmt::Debug;
use std::time::{Duration, Instant};
use stored::{
    coded_blocks_from, pairs_of_blocks_from, screen_ends_from, stored_blocks_from, Pair, Stored,
};
use strips::{beside, every_join, picture, side_by_side, Strip};

/// Inputs in one list: more than the boundary ones of any function.
const LIST: usize = 4_000;

/// Planes in one list.
const PLANES: usize = 20;

/// Planes in one list that are searched, each at many limits.
const SEARCHED: usize = 6;

/// The lengths that are tried for each buffer: around 1, 4, 16 and 64.
const LENGTHS: [usize; 13] = [0, 1, 2, 3, 4, 5, 15, 16, 17, 63, 64, 65, 128];

/// Places before and after an output.
const GUARD: usize = 16;

/// An input as a row of numbers, for making it smaller and for showing it.
trait Row: Copy {
    fn put(&self, to: &mut Vec<i64>);
    fn take(from: &mut impl Iterator<Item = i64>) -> Self;
}

macro_rules! row_of_number {
    ($($t:ty)*) => {$(
        impl Row for $t {
            fn put(&self, to: &mut Vec<i64>) {
                to.push(i64::from(*self));
            }
            fn take(from: &mut impl Iterator<Item = i64>) -> Self {
                from.next().expect("a number") as $t
            }
        }
    )*};
}
row_of_number!(u8 u16 i16 i32);

/// By its bits.
impl Row for f64 {
    fn put(&self, to: &mut Vec<i64>) {
        to.push(self.to_bits() as i64);
    }
    fn take(from: &mut impl Iterator<Item = i64>) -> Self {
        f64::from_bits(from.next().expect("a number") as u64)
    }
}

impl<T: Row, const N: usize> Row for [T; N] {
    fn put(&self, to: &mut Vec<i64>) {
        self.iter().for_each(|x| x.put(to));
    }
    fn take(from: &mut impl Iterator<Item = i64>) -> Self {
        core::array::from_fn(|_| T::take(from))
    }
}

impl<A: Row, B: Row> Row for (A, B) {
    fn put(&self, to: &mut Vec<i64>) {
        self.0.put(to);
        self.1.put(to);
    }
    fn take(from: &mut impl Iterator<Item = i64>) -> Self {
        let a = A::take(from);
        (a, B::take(from))
    }
}

fn row(input: &impl Row) -> Vec<i64> {
    let mut all = Vec::new();
    input.put(&mut all);
    all
}

/// An input that still differs, with as few nonzero numbers as can be reached
/// by setting one after the other to zero, and those as small as halving and
/// stepping reach.
fn smallest<I: Row>(input: I, differs: impl Fn(&I) -> bool) -> I {
    let of = |numbers: &[i64]| I::take(&mut numbers.iter().copied());
    let mut numbers = row(&input);
    loop {
        let before = numbers.clone();
        for n in 0..numbers.len() {
            let held = numbers[n];
            for less in [0, held / 2, held - held.signum()] {
                if less != held {
                    numbers[n] = less;
                    if differs(&of(&numbers)) {
                        break;
                    }
                    numbers[n] = held;
                }
            }
        }
        if numbers == before {
            return of(&numbers);
        }
    }
}

/// What a call left: its number, its output, and whether the places around it
/// stayed as they were.
#[derive(Debug, PartialEq)]
struct Left<S, const N: usize> {
    status: u32,
    output: [S; N],
    guards: bool,
}

fn written<S, const N: usize>(output: [S; N]) -> Left<S, N> {
    Left {
        status: 0,
        output,
        guards: true,
    }
}

/// The number that fills an output before a call; no sample of 12 bits has it.
trait Place: Copy + PartialEq + Debug {
    const FILL: Self;
}
impl Place for u8 {
    const FILL: Self = 0xa5;
}
impl Place for u16 {
    const FILL: Self = 0xa5a5;
}
impl Place for i16 {
    const FILL: Self = 0x5aa5;
}
impl Place for i32 {
    const FILL: Self = 0x5aa5_a55a;
}
impl Place for u32 {
    const FILL: Self = 0xa55a_5aa5;
}
impl Place for u64 {
    const FILL: Self = 0x5aa5_a55a_a55a_5aa5;
}
impl Place for f64 {
    const FILL: Self = 165.5;
}

/// A buffer of `len` places between guards.
struct Lent<S>(Vec<S>, usize);

impl<S: Place> Lent<S> {
    fn new(len: usize) -> Self {
        Lent(vec![S::FILL; len + 2 * GUARD], len)
    }
    fn places(&mut self) -> &mut [S] {
        &mut self.0[GUARD..GUARD + self.1]
    }
    fn held(&self) -> &[S] {
        &self.0[GUARD..GUARD + self.1]
    }
    fn guards(&self) -> bool {
        let (before, rest) = self.0.split_at(GUARD);
        before.iter().chain(&rest[self.1..]).all(|x| *x == S::FILL)
    }
    fn kept(&self) -> bool {
        self.0.iter().all(|x| *x == S::FILL)
    }
}

/// The four outputs of the guarded quantizer.
struct Outputs {
    dc: Lent<i16>,
    ac: Lent<i16>,
    nonzero_ac: Lent<u64>,
    divisors: Lent<u8>,
}

impl Outputs {
    fn new((dc, ac, nonzero_ac, divisors): (usize, usize, usize, usize)) -> Self {
        Outputs {
            dc: Lent::new(dc),
            ac: Lent::new(ac),
            nonzero_ac: Lent::new(nonzero_ac),
            divisors: Lent::new(divisors),
        }
    }

    fn call(&mut self, block: &[u8], quant: &[u8], divisors: &[f64]) -> u32 {
        let (dc, ac, nonzero_ac) = (self.dc.places(), self.ac.places(), self.nonzero_ac.places());
        let record_divisors = self.divisors.places();
        // SAFETY: all are slices, and an exclusive one overlaps no other.
        unsafe {
            raw::jpeg_block_fdct_quantize_guarded(
                block.as_ptr(),
                block.len(),
                quant.as_ptr(),
                quant.len(),
                divisors.as_ptr(),
                divisors.len(),
                dc.as_mut_ptr(),
                dc.len(),
                ac.as_mut_ptr(),
                ac.len(),
                nonzero_ac.as_mut_ptr(),
                nonzero_ac.len(),
                record_divisors.as_mut_ptr(),
                record_divisors.len(),
            )
        }
    }

    fn call_record(&mut self, block: &[u8], quant: &[u8]) -> u32 {
        let (dc, ac, nonzero_ac) = (self.dc.places(), self.ac.places(), self.nonzero_ac.places());
        let record_divisors = self.divisors.places();
        // SAFETY: all are slices, and an exclusive one overlaps no other.
        unsafe {
            raw::jpeg_block_fdct_quantize_record(
                block.as_ptr(),
                block.len(),
                quant.as_ptr(),
                quant.len(),
                dc.as_mut_ptr(),
                dc.len(),
                ac.as_mut_ptr(),
                ac.len(),
                nonzero_ac.as_mut_ptr(),
                nonzero_ac.len(),
                record_divisors.as_mut_ptr(),
                record_divisors.len(),
            )
        }
    }

    fn record(&self, status: u32) -> Record {
        Record {
            status,
            dc: self.dc.held()[0],
            ac: self.ac.held().try_into().expect("64 places"),
            nonzero_ac: self.nonzero_ac.held()[0],
            divisors: self.divisors.held().try_into().expect("64 places"),
            guards: self.guards(),
        }
    }

    fn kept(&self) -> bool {
        self.dc.kept() && self.ac.kept() && self.nonzero_ac.kept() && self.divisors.kept()
    }
    fn guards(&self) -> bool {
        let one = self.dc.guards() && self.nonzero_ac.guards();
        one && self.ac.guards() && self.divisors.guards()
    }
}

/// What the guarded quantizer left.
#[derive(Debug, PartialEq)]
struct Record {
    status: u32,
    dc: i16,
    ac: [i16; 64],
    nonzero_ac: u64,
    /// Not in the published Rust: held to the table.
    divisors: Table,
    guards: bool,
}

impl Record {
    /// What a call leaves that is refused for a quantizer 0. No list has one,
    /// but `smallest` may try it.
    fn refused() -> Self {
        Record {
            status: 5,
            dc: i16::FILL,
            ac: [i16::FILL; 64],
            nonzero_ac: u64::FILL,
            divisors: [u8::FILL; 64],
            guards: true,
        }
    }

    /// The Rust's canonical coefficients, in zigzag order with their bitmap.
    fn canonical(block: &Samples, quant: &Table) -> Self {
        let coefficients = fdct::fdct_quantize(block, quant);
        let ac: [i16; 64] = core::array::from_fn(|z| match z {
            0 => 0,
            _ => coefficients[usize::from(ZIGZAG[z])],
        });
        let bit = |z: &usize| u64::from(ac[*z] != 0) << (64 - z);
        Record {
            status: 0,
            dc: coefficients[0],
            ac,
            nonzero_ac: (1..64).map(|z| bit(&z)).sum(),
            divisors: *quant,
            guards: true,
        }
    }
}

/// Calls with an output of N places between guards. A 64-place output needs
/// 96 places in all.
fn guarded<S: Place, const N: usize>(mut call: impl FnMut(&mut [S]) -> u32) -> Left<S, N> {
    let mut all = [S::FILL; 64 + 2 * GUARD];
    let status = call(&mut all[GUARD..GUARD + N]);
    let (before, rest) = all.split_at(GUARD);
    let (output, after) = rest.split_at(N);
    Left {
        status,
        output: output.try_into().expect("N places"),
        guards: before.iter().chain(after).all(|x| *x == S::FILL),
    }
}

fn call1<A, S>(
    f: unsafe extern "C" fn(*const A, usize, *mut S, usize) -> u32,
    a: &[A],
    out: &mut [S],
) -> u32 {
    // SAFETY: both are slices, and an exclusive one overlaps no other.
    unsafe { f(a.as_ptr(), a.len(), out.as_mut_ptr(), out.len()) }
}

fn call2<A, B, S>(
    f: unsafe extern "C" fn(*const A, usize, *const B, usize, *mut S, usize) -> u32,
    a: &[A],
    b: &[B],
    out: &mut [S],
) -> u32 {
    // SAFETY: all are slices, and an exclusive one overlaps no other.
    unsafe {
        f(
            a.as_ptr(),
            a.len(),
            b.as_ptr(),
            b.len(),
            out.as_mut_ptr(),
            out.len(),
        )
    }
}

/// A call on a block with a place for the counts.
type Counting<T> = unsafe extern "C" fn(*const T, usize, *mut u8, usize, *mut u32, usize) -> u32;

fn counting<T>(f: Counting<T>, input: &[T], out: &mut [u8], counts: &mut [u32]) -> u32 {
    // SAFETY: all are slices, and an exclusive one overlaps no other.
    unsafe {
        f(
            input.as_ptr(),
            input.len(),
            out.as_mut_ptr(),
            out.len(),
            counts.as_mut_ptr(),
            counts.len(),
        )
    }
}

/// What no call answers.
const WRONG: u32 = u32::MAX;

/// The status of a call with two places for the counts; `WRONG` where one with
/// another length is not refused after it, or where a refused one writes.
fn counts_tried(to: &mut [u8], call: impl Fn(&mut [u8], &mut [u32]) -> u32) -> u32 {
    let mut others = Vec::new();
    for n in [1, 3] {
        let mut counts = Lent::new(n);
        others.push(call(to, counts.places()));
        if !counts.kept() || to.iter().any(|x| *x != u8::FILL) {
            return WRONG;
        }
    }
    let mut counts = Lent::new(2);
    let status = call(to, counts.places());
    let (kept, refused) = if status == 0 {
        (counts.guards(), 3)
    } else {
        (counts.kept(), status)
    };
    if kept && others.iter().all(|other| *other == refused) {
        status
    } else {
        WRONG
    }
}

fn coefficient(block: &[u8], quantizer: u8, natural: usize, out: &mut [i16]) -> u32 {
    // SAFETY: both are slices, and an exclusive one overlaps no other.
    unsafe {
        raw::jpeg_block_fdct_quantize_coefficient(
            block.as_ptr(),
            block.len(),
            quantizer,
            natural,
            out.as_mut_ptr(),
            out.len(),
        )
    }
}

/// Records as DC, AC places and divisors.
fn same_records(a: (i16, &[i16], &[u8]), b: (i16, &[i16], &[u8]), out: &mut [u8]) -> u32 {
    // SAFETY: all are slices, and an exclusive one overlaps no other.
    unsafe {
        raw::jpeg_block_same_records(
            a.0,
            a.1.as_ptr(),
            a.1.len(),
            a.2.as_ptr(),
            a.2.len(),
            b.0,
            b.1.as_ptr(),
            b.1.len(),
            b.2.as_ptr(),
            b.2.len(),
            out.as_mut_ptr(),
            out.len(),
        )
    }
}

fn percent_table(base: &[u8], percent: u32, out: &mut [u8]) -> u32 {
    // SAFETY: both are slices, and an exclusive one overlaps no other.
    unsafe {
        raw::jpeg_block_percent_table(
            base.as_ptr(),
            base.len(),
            percent,
            out.as_mut_ptr(),
            out.len(),
        )
    }
}

/// A state in a lent place of `len` numbers: the first ten, or as many as there
/// are.
fn lent_state(state: &queues::State, len: usize) -> Lent<u32> {
    let mut lent = Lent::new(len);
    for (to, from) in lent.places().iter_mut().zip(state) {
        *to = *from;
    }
    lent
}

/// What is left of the three places of a turn, with its status.
type TurnLeft = (u32, Lent<u32>, Lent<u8>, Lent<u32>);

fn queue_turn(
    state: &queues::State,
    l: u32,
    (len, places, answers): (usize, usize, usize),
) -> TurnLeft {
    let (mut held, mut out, mut answer) = (
        lent_state(state, len),
        Lent::new(places),
        Lent::new(answers),
    );
    let (s, o, a) = (held.places(), out.places(), answer.places());
    // SAFETY: all are slices that overlap no other.
    let status = unsafe {
        raw::jpeg_block_bench_queue_turn(
            s.as_mut_ptr(),
            s.len(),
            l,
            o.as_mut_ptr(),
            o.len(),
            a.as_mut_ptr(),
            a.len(),
        )
    };
    (status, held, out, answer)
}

/// What of a turn is not as queues.rs has it.
fn turn_difference(state: &queues::State, l: u32) -> Option<String> {
    let (status, held, out, answer) = queue_turn(state, l, (10, queues::PLACES, 2));
    let guards = held.guards() && out.guards() && answer.guards();
    let same = match queues::turn(*state, l) {
        Err(number) => status == number && held.held() == state && out.kept() && answer.kept(),
        Ok((after, listed, word)) => {
            let (here, rest) = out.held().split_at(listed.len());
            status == 0
                && held.held() == after
                && here == listed
                && rest.iter().all(|x| *x == u8::FILL)
                && answer.held() == [listed.len() as u32, word]
        }
    };
    if same && guards {
        return None;
    }
    Some(format!(
        "a turn of {l} on {state:?}: status {status}, state {:?}, answer {:?}",
        held.held(),
        answer.held()
    ))
}

fn queue_deposit(state: &mut [u32], bench: u32, blocks: u32) -> u32 {
    // SAFETY: it is a slice.
    unsafe { raw::jpeg_block_bench_queue_deposit(state.as_mut_ptr(), state.len(), bench, blocks) }
}

fn deposit_difference(state: &queues::State, bench: u32, blocks: u32) -> Option<String> {
    let mut held = lent_state(state, 10);
    let status = queue_deposit(held.places(), bench, blocks);
    let same = match queues::deposit(*state, bench, blocks) {
        Err(number) => status == number && held.held() == state,
        Ok(after) => status == 0 && held.held() == after,
    };
    if same && held.guards() {
        return None;
    }
    Some(format!(
        "a deposit of {blocks} at {bench} on {state:?}: status {status}, state {:?}",
        held.held()
    ))
}

fn queue_report(state: &[u32], counts: &mut [u32]) -> u32 {
    // SAFETY: both are slices, and an exclusive one overlaps no other.
    unsafe {
        raw::jpeg_block_bench_queue_report(
            state.as_ptr(),
            state.len(),
            counts.as_mut_ptr(),
            counts.len(),
        )
    }
}

/// A history of calls from a new state on, each on the state that the call
/// before left: whatever was deposited was listed or waits, and a bench that
/// waits is listed within as many blocks as there are benches.
fn history_difference(random: &mut Random) -> Option<String> {
    let benches = 1 + random.below(8) as usize;
    let mut state = queues::new(benches as u32).expect("one to eight benches");
    let (mut deposited, mut listed) = ([0u64; 8], [0u64; 8]);
    // The blocks listed since bench b was last served or began to wait.
    let mut passed = [0usize; 8];
    for _ in 0..40 {
        if random.below(3) > 0 {
            let (bench, blocks) = queues::any_deposit(random);
            if let Some(difference) = deposit_difference(&state, bench, blocks) {
                return Some(difference);
            }
            let mut held = lent_state(&state, 10);
            if queue_deposit(held.places(), bench, blocks) == 0 {
                let b = bench as usize;
                if state[2 + b] == 0 {
                    passed[b] = 0;
                }
                deposited[b] += u64::from(blocks);
                state = held.held().try_into().expect("ten numbers");
            }
        } else {
            let l = queues::any_limit(random);
            if let Some(difference) = turn_difference(&state, l) {
                return Some(difference);
            }
            let (_, held, out, answer) = queue_turn(&state, l, (10, queues::PLACES, 2));
            let mut waiting: queues::State = state;
            for b in &out.held()[..answer.held()[0] as usize] {
                let b = usize::from(*b);
                for (other, count) in passed.iter_mut().enumerate() {
                    *count += usize::from(waiting[2 + other] > 0);
                    if *count > benches {
                        return Some(format!("bench {other} is passed over from {state:?} on"));
                    }
                }
                passed[b] = 0;
                waiting[2 + b] -= 1;
                listed[b] += 1;
            }
            state = held.held().try_into().expect("ten numbers");
        }
        for b in 0..8 {
            if deposited[b] != listed[b] + u64::from(state[2 + b]) {
                return Some(format!("bench {b}: {deposited:?}, {listed:?}, {state:?}"));
            }
        }
    }
    None
}

/// Percents around the first and the last that is taken, and such that end in
/// one that is, at 8 and at 16 bits.
const PERCENTS: [u32; 14] = [
    0,
    1,
    2,
    100,
    199,
    200,
    201,
    255,
    256,
    257,
    65_535,
    65_636,
    u32::MAX - 1,
    u32::MAX,
];

/// A call on a plane: its input, width, height, table and output.
type PlaneCall<A, S> =
    unsafe extern "C" fn(*const A, usize, usize, usize, *const u8, usize, *mut S, usize) -> u32;

fn call_plane<A, S>(
    f: PlaneCall<A, S>,
    input: &[A],
    (width, height): (usize, usize),
    quant: &[u8],
    out: &mut [S],
) -> u32 {
    // SAFETY: all are slices, and an exclusive one overlaps no other.
    unsafe {
        f(
            input.as_ptr(),
            input.len(),
            width,
            height,
            quant.as_ptr(),
            quant.len(),
            out.as_mut_ptr(),
            out.len(),
        )
    }
}

/// A call on a plane with a place for the counts.
type CountingPlane = unsafe extern "C" fn(
    *const i16,
    usize,
    usize,
    usize,
    *const u8,
    usize,
    *mut u8,
    usize,
    *mut u32,
    usize,
) -> u32;

fn counting_plane(
    f: CountingPlane,
    input: &[i16],
    (width, height): (usize, usize),
    quant: &[u8],
    out: &mut [u8],
    counts: &mut [u32],
) -> u32 {
    // SAFETY: all are slices, and an exclusive one overlaps no other.
    unsafe {
        f(
            input.as_ptr(),
            input.len(),
            width,
            height,
            quant.as_ptr(),
            quant.len(),
            out.as_mut_ptr(),
            out.len(),
            counts.as_mut_ptr(),
            counts.len(),
        )
    }
}

fn join_planes(left: Strip, right: Strip, out: &mut [i16]) -> u32 {
    // SAFETY: all are slices, and an exclusive one overlaps no other.
    unsafe {
        raw::jpeg_block_join_planes(
            left.coefficients.as_ptr(),
            left.coefficients.len(),
            left.width,
            left.height,
            left.quant.as_ptr(),
            left.quant.len(),
            right.coefficients.as_ptr(),
            right.coefficients.len(),
            right.width,
            right.height,
            right.quant.as_ptr(),
            right.quant.len(),
            out.as_mut_ptr(),
            out.len(),
        )
    }
}

/// The joined coefficients, which must be the rows of blocks side by side.
fn joined(left: &Coded, ql: &Table, right: &Coded, qr: &Table) -> Result<Coded, String> {
    let mut out = Lent::new(left.coefficients.len() + right.coefficients.len());
    let status = join_planes(Strip::of(left, ql), Strip::of(right, qr), out.places());
    if status != 0 {
        return Err(format!("refused {status}"));
    }
    if !out.guards() {
        return Err("wrote beside the output".to_string());
    }
    let across = |coded: &Coded| 64 * planes::blocks(coded.width);
    let (p, q) = (across(left), across(right));
    if out.held() != beside(&left.coefficients, p, &right.coefficients, q) {
        return Err("other coefficients".to_string());
    }
    Ok(Coded {
        width: left.width + right.width,
        height: left.height,
        coefficients: out.held().to_vec(),
    })
}

/// What of a join is not as the harness has it: the coefficients, the picture and
/// the counts at each scale, and that two coded pictures make the coded picture.
fn join_tried(random: &mut Random, (wl, wr, h): (usize, usize, usize)) -> Result<(), String> {
    let quant = any_table(random);
    // The same divisors.
    let other = quant.map(|q| if q <= 1 { random.below(2) as u8 } else { q });
    let (left, right) = (any_coded(random, wl, h), any_coded(random, wr, h));
    let both = joined(&left, &quant, &right, &other)?;
    let calls: [(usize, CountingPlane); 3] = [
        (1, raw::jpeg_block_islow_plane),
        (2, raw::jpeg_block_islow_plane_4x4),
        (4, raw::jpeg_block_islow_plane_2x2),
    ];
    for (by, f) in calls {
        let (a, p, counts_a) = picture(&left, &quant, by);
        let (b, q, counts_b) = picture(&right, &other, by);
        let mut out = Lent::new((wl + wr).div_ceil(by) * h.div_ceil(by));
        let mut counts = Lent::new(2);
        let status = counting_plane(
            f,
            &both.coefficients,
            (wl + wr, h),
            &quant,
            out.places(),
            counts.places(),
        );
        if status != 0 || out.held() != beside(&a, p, &b, q) {
            return Err(format!("other samples at one of {by}"));
        }
        if counts.held() != [counts_a[0] + counts_b[0], counts_a[1] + counts_b[1]] {
            return Err(format!("other counts at one of {by}"));
        }
    }
    let coded = |plane: &Plane, quant: &Table| Coded {
        width: plane.width,
        height: plane.height,
        coefficients: cut(plane)
            .iter()
            .flat_map(|block| fdct::fdct_quantize(block, quant))
            .collect(),
    };
    let (a, b) = (any_plane(random, wl, h), any_plane(random, wr, h));
    let both = joined(&coded(&a, &quant), &quant, &coded(&b, &other), &other)?;
    if both.coefficients != coded(&side_by_side(&a, &b), &quant).coefficients {
        return Err("not the picture coded".to_string());
    }
    Ok(())
}

fn fewest_coefficients(
    samples: &[u8],
    (width, height): (usize, usize),
    base: &[u8],
    (limit, trials): (u64, u32),
    out: &mut [u64],
) -> u32 {
    // SAFETY: all are slices, and an exclusive one overlaps no other.
    unsafe {
        raw::jpeg_block_fewest_coefficients(
            samples.as_ptr(),
            samples.len(),
            width,
            height,
            base.as_ptr(),
            base.len(),
            limit,
            trials,
            out.as_mut_ptr(),
            out.len(),
        )
    }
}

/// Widths and heights around every one that a plane call takes.
const MEASURES: [usize; 10] = [0, 1, 7, 8, 9, 4095, 4096, 4097, 1 << 32, usize::MAX];

/// A function, and how a list of inputs from a seed is tried on it.
struct Function {
    tally: Tally,
    try_list: Box<dyn Fn(u64, &mut Tally)>,
}

/// The functions so far, and the seed.
struct Compare {
    functions: Vec<Function>,
    seed: u64,
}

struct Tally {
    name: &'static str,
    cases: usize,
    differences: usize,
}

impl Tally {
    fn new(name: &'static str) -> Self {
        Tally {
            name,
            cases: 0,
            differences: 0,
        }
    }

    /// One call that must answer `number`, with an output of `len` places. If
    /// that refuses, nothing is written.
    fn length<S: Place>(
        &mut self,
        number: u32,
        len: usize,
        lengths: impl Debug,
        call: impl Fn(&mut [S]) -> u32,
    ) {
        let mut all = vec![S::FILL; len + 2 * GUARD];
        let status = call(&mut all[GUARD..GUARD + len]);
        let kept = if number == 0 {
            all[..GUARD]
                .iter()
                .chain(&all[GUARD + len..])
                .all(|x| *x == S::FILL)
        } else {
            all.iter().all(|x| *x == S::FILL)
        };
        self.cases += 1;
        if status != number || !kept {
            if self.differences == 0 {
                println!(
                    "{}: lengths {lengths:?}: {status} for {number}, buffers {}",
                    self.name,
                    if kept { "kept" } else { "overwritten" }
                );
            }
            self.differences += 1;
        }
    }
}

impl Compare {
    fn inputs<I: Row + 'static, A: PartialEq + Debug + 'static>(
        &mut self,
        tally: Tally,
        list: impl Fn(u64) -> Vec<I> + 'static,
        ours: impl Fn(&I) -> A + 'static,
        expected: impl Fn(&I) -> A + 'static,
    ) {
        let try_list = Box::new(move |seed, tally: &mut Tally| {
            for input in list(seed) {
                tally.cases += 1;
                if ours(&input) != expected(&input) {
                    if tally.differences == 0 {
                        let small = smallest(input, |i| ours(i) != expected(i));
                        println!("{}: input {:?}", tally.name, row(&small));
                        println!("{}: here {:?}", tally.name, ours(&small));
                        println!("{}: expected {:?}", tally.name, expected(&small));
                    }
                    tally.differences += 1;
                }
            }
        });
        self.functions.push(Function { tally, try_list });
    }

    /// Every length around the right ones, of an output of n places.
    fn block_lengths<T: Number, S: Place>(
        &self,
        name: &'static str,
        n: usize,
        call: impl Fn(&[T], &mut [S]) -> u32,
    ) -> Tally {
        let mut tally = Tally::new(name);
        let mut random = Random(self.seed);
        let input: Vec<T> = (0..128).map(|_| T::of(random.any_width(T::BITS))).collect();
        for a in LENGTHS {
            for out in LENGTHS {
                let number = if a != 64 {
                    1
                } else if out != n {
                    3
                } else {
                    0
                };
                tally.length(number, out, (a, out), |to: &mut [S]| call(&input[..a], to));
            }
        }
        tally
    }

    /// An 8-bit inverse, of a block of which the rows from `rows` on count as
    /// zero. Each block is asked for with counts and without.
    fn inverse<T: Number + Row + Into<i64> + 'static, const N: usize>(
        &mut self,
        name: &'static str,
        (size, rows): (Size, usize),
        f: Counting<T>,
        rust: impl Fn(&[T; 64], &mut [u8; N]) + 'static,
    ) {
        let tally = self.block_lengths(name, N, |input: &[T], to| {
            counts_tried(to, |to, counts| counting(f, input, to, counts))
        });
        self.inputs(
            tally,
            move |seed| blocks_from::<T>(seed, &CLAMP_8BIT, LIST),
            move |input| {
                let mut counts = Lent::new(2);
                let left = guarded(|to| counting(f, input, to, counts.places()));
                let without = guarded(|to| counting(f, input, to, &mut []));
                (left, without, counts.held().to_vec(), counts.guards())
            },
            move |input| {
                let mut output = [0; N];
                rust(input, &mut output);
                let read: [i64; 64] =
                    core::array::from_fn(|n| if n / 8 < rows { input[n].into() } else { 0 });
                let (samples, counts) = clamped(&size.numbers(&read));
                assert_eq!(samples, output, "{name}: not the Rust's numbers");
                (written(output), written(output), counts.to_vec(), true)
            },
        );
    }

    fn inverse_12bit<const N: usize>(
        &mut self,
        name: &'static str,
        f: unsafe extern "C" fn(*const i16, usize, *mut u16, usize) -> u32,
        rust: impl Fn(&[i16; 64], &mut [u16; N]) + 'static,
    ) {
        let tally = self.block_lengths(name, N, |input: &[i16], to| call1(f, input, to));
        self.inputs(
            tally,
            move |seed| blocks_from::<i16>(seed, &CLAMP_12BIT, LIST),
            move |input| guarded(|to| call1(f, input, to)),
            move |input| {
                let mut output = [0; N];
                rust(input, &mut output);
                written(output)
            },
        );
    }

    /// The lengths of a function of two inputs: `second` is the number for a
    /// wrong length of the second, and its output has n places.
    fn lengths2<A: Copy, B: Copy, S: Place>(
        name: &'static str,
        (a0, b0): (A, B),
        (second, n): (u32, usize),
        f: unsafe extern "C" fn(*const A, usize, *const B, usize, *mut S, usize) -> u32,
    ) -> Tally {
        let mut tally = Tally::new(name);
        for a in LENGTHS {
            for b in LENGTHS {
                for out in LENGTHS {
                    let number = if a != 64 {
                        1
                    } else if b != 64 {
                        second
                    } else if out != n {
                        3
                    } else {
                        0
                    };
                    let (first, other) = (vec![a0; a], vec![b0; b]);
                    tally.length(number, out, (a, b, out), |to: &mut [S]| {
                        call2(f, &first, &other, to)
                    });
                }
            }
        }
        tally
    }

    fn inverses(&mut self) {
        self.inverse(
            "islow_block",
            (Size::eight(), 8),
            raw::jpeg_block_islow_block,
            idct::islow_block::<i16>,
        );
        self.inverse(
            "islow_block_i32",
            (Size::eight(), 8),
            raw::jpeg_block_islow_block_i32,
            idct::islow_block::<i32>,
        );
        self.inverse(
            "islow_block_top_half",
            (Size::eight(), 4),
            raw::jpeg_block_islow_block_top_half,
            idct::islow_block_top_half::<i16>,
        );
        self.inverse(
            "islow_block_top_half_i32",
            (Size::eight(), 4),
            raw::jpeg_block_islow_block_top_half_i32,
            idct::islow_block_top_half::<i32>,
        );
        self.inverse(
            "islow_block_4x4",
            (Size::four(), 8),
            raw::jpeg_block_islow_block_4x4,
            idct::islow_block_4x4,
        );
        self.inverse(
            "islow_block_2x2",
            (Size::two(), 8),
            raw::jpeg_block_islow_block_2x2,
            idct::islow_block_2x2,
        );
        self.inverse_12bit(
            "islow_block_12bit",
            raw::jpeg_block_islow_block_12bit,
            idct::islow_block_12bit,
        );
        self.inverse_12bit(
            "islow_block_12bit_4x4",
            raw::jpeg_block_islow_block_12bit_4x4,
            idct::islow_block_12bit_4x4,
        );
        self.inverse_12bit(
            "islow_block_12bit_2x2",
            raw::jpeg_block_islow_block_12bit_2x2,
            idct::islow_block_12bit_2x2,
        );
    }

    fn forwards(&mut self) {
        let tally = Self::lengths2(
            "fdct_quantize",
            (200, 3),
            (2, 64),
            raw::jpeg_block_fdct_quantize,
        );
        self.inputs(
            tally,
            |seed| whole_blocks_from(seed, LIST),
            |(block, quant): &Whole| {
                guarded(|to| call2(raw::jpeg_block_fdct_quantize, block, quant, to))
            },
            |(block, quant)| written(fdct::fdct_quantize(block, quant)),
        );

        let mut tally = Tally::new("fdct_quantize_coefficient");
        for a in LENGTHS {
            for natural in [0, 1, 62, 63, 64, 65, 255, 256, usize::MAX - 1, usize::MAX] {
                for out in LENGTHS {
                    let number = if a != 64 {
                        1
                    } else if natural > 63 {
                        4
                    } else if out != 1 {
                        3
                    } else {
                        0
                    };
                    let block = vec![200; a];
                    tally.length(number, out, (a, natural, out), |to: &mut [i16]| {
                        coefficient(&block, 3, natural, to)
                    });
                }
            }
        }
        self.inputs(
            tally,
            |seed| single_coefficients_from(seed, LIST),
            |(block, (quantizer, natural)): &Single| {
                // An index that smallest() leaves is below 64 as it was.
                guarded(|to| coefficient(block, *quantizer, usize::from(*natural), to))
            },
            |(block, (quantizer, natural))| {
                let natural = usize::from(*natural);
                written([fdct::fdct_quantize_coefficient(block, *quantizer, natural)])
            },
        );
    }

    /// Every size and every length around the right ones: `lengths` has those of
    /// the input and of the output, `number` the refusal of an input. A size with
    /// an input of more than 2^16 places only with an output of 0.
    fn plane_lengths<A: Copy + Default, S: Place>(
        tally: &mut Tally,
        number: u32,
        call: impl Fn(&[A], (usize, usize), &[u8], &mut [S]) -> u32,
        lengths: impl Fn(usize, usize) -> (usize, usize),
    ) {
        let (zeros, table) = (vec![A::default(); (1 << 16) + 1], [0; 65]);
        for width in MEASURES {
            for height in MEASURES {
                let sized = (1..=4096).contains(&width) && (1..=4096).contains(&height);
                let (n, m) = if sized {
                    lengths(width, height)
                } else {
                    (width.wrapping_mul(height), 64)
                };
                let small = n.min(1 << 16);
                for input in [0, small.saturating_sub(1), small, small + 1] {
                    for quant in [0, 63, 64, 65] {
                        for out in [0, m - 1, m, m + 1] {
                            let expected = if !sized {
                                8
                            } else if input != n {
                                number
                            } else if quant != 64 {
                                2
                            } else if out != m {
                                3
                            } else {
                                0
                            };
                            let out = if n > 1 << 16 { 0 } else { out };
                            tally.length(
                                expected,
                                out,
                                (width, height, input, quant, out),
                                |to: &mut [S]| {
                                    let size = (width, height);
                                    call(&zeros[..input], size, &table[..quant], to)
                                },
                            );
                        }
                    }
                }
            }
        }
    }

    /// Planes of every size first, then of random ones; `differs` says what is
    /// not as expected in one.
    fn plane(
        &mut self,
        tally: Tally,
        differs: impl Fn(&mut Random, (usize, usize), &Table) -> Option<String> + 'static,
    ) {
        let first = self.seed;
        let try_list = Box::new(move |seed, tally: &mut Tally| {
            let mut random = Random(seed);
            let sizes = if seed == first {
                every_size()
            } else {
                sizes_from(&mut random, PLANES)
            };
            for (width, height) in sizes {
                let quant = any_table(&mut random);
                tally.cases += 1;
                if let Some(what) = differs(&mut random, (width, height), &quant) {
                    if tally.differences == 0 {
                        println!("{}: {width} x {height}: {what}", tally.name);
                    }
                    tally.differences += 1;
                }
            }
        });
        self.functions.push(Function { tally, try_list });
    }

    /// A plane inverse with so many samples for a block's side, `by` of the
    /// plane's to one of them; `block` gives a block's samples by the Rust.
    fn inverse_plane(
        &mut self,
        name: &'static str,
        (side, by): (usize, usize),
        f: CountingPlane,
        (size_of, fit): (Size, fn(i32) -> i32),
        block: impl Fn(&[i32; 64]) -> Vec<u8> + 'static,
    ) {
        let mut tally = Tally::new(name);
        let shown =
            move |(width, height): (usize, usize)| (width.div_ceil(by), height.div_ceil(by));
        let call = |input: &[i16], size, quant: &[u8], to: &mut [u8]| {
            counts_tried(to, |to, counts| {
                counting_plane(f, input, size, quant, to, counts)
            })
        };
        Self::plane_lengths(&mut tally, 1, call, |width, height| {
            let (columns, rows) = shown((width, height));
            let blocks = planes::blocks(width) * planes::blocks(height);
            (64 * blocks, columns * rows)
        });
        self.plane(tally, move |random, size, quant| {
            let coded = any_coded(random, size.0, size.1);
            let (columns, rows) = shown(size);
            let mut out = Lent::new(columns * rows);
            let mut counts = Lent::new(2);
            let status = counting_plane(
                f,
                &coded.coefficients,
                size,
                quant,
                out.places(),
                counts.places(),
            );
            if status != 0 {
                return Some(format!("refused {status}"));
            }
            if !out.guards() || !counts.guards() {
                return Some("wrote beside an output".to_string());
            }
            // Those of whole blocks, and so of more samples than are shown.
            let mut sums = [0; 2];
            let blocks: Vec<Vec<u8>> = coded
                .coefficients
                .chunks(64)
                .map(|c| {
                    let c = c.try_into().expect("64 coefficients");
                    let products = stored::dequantized((c, *quant));
                    let (samples, counts) =
                        clamped(&size_of.numbers(&products.map(|p| i64::from(fit(p)))));
                    let expected = block(&products);
                    assert_eq!(samples, expected, "{name}: not the Rust's numbers");
                    sums = [sums[0] + counts[0], sums[1] + counts[1]];
                    expected
                })
                .collect();
            let expected = together(&blocks, side, planes::blocks(size.0), (columns, rows));
            let differs = plane_difference(&coded, quant, out.held(), &expected, columns, side);
            if differs.is_none() && counts.held() != sums {
                return Some(format!("counts {:?}, expected {sums:?}", counts.held()));
            }
            differs
        });
    }

    fn planes(&mut self) {
        let mut tally = Tally::new("fdct_quantize_plane");
        let f = raw::jpeg_block_fdct_quantize_plane;
        let call = |samples: &[u8], size, quant: &[u8], to: &mut [i16]| {
            call_plane(f, samples, size, quant, to)
        };
        Self::plane_lengths(&mut tally, 9, call, |width, height| {
            let blocks = planes::blocks(width) * planes::blocks(height);
            (width * height, 64 * blocks)
        });
        self.plane(tally, move |random, size, quant| {
            let plane = any_plane(random, size.0, size.1);
            let blocks = cut(&plane);
            let mut out = Lent::new(64 * blocks.len());
            let status = call_plane(f, &plane.samples, size, quant, out.places());
            if status != 0 {
                return Some(format!("refused {status}"));
            }
            if !out.guards() {
                return Some("wrote beside the output".to_string());
            }
            for (k, (block, here)) in blocks.iter().zip(out.held().chunks(64)).enumerate() {
                let expected = fdct::fdct_quantize(block, quant);
                if here != expected {
                    return Some(format!(
                        "block {k} {block:?} under {quant:?}: here {here:?}, expected {expected:?}"
                    ));
                }
            }
            None
        });
        self.inverse_plane(
            "islow_plane",
            (8, 1),
            raw::jpeg_block_islow_plane,
            (Size::eight(), |p| p),
            |products| {
                let mut samples = [0; 64];
                idct::islow_block(products, &mut samples);
                samples.to_vec()
            },
        );
        let fit = |p: i32| p.clamp(i32::from(i16::MIN), i32::from(i16::MAX));
        let narrow = move |products: &[i32; 64]| products.map(|p| fit(p) as i16);
        self.inverse_plane(
            "islow_plane_4x4",
            (4, 2),
            raw::jpeg_block_islow_plane_4x4,
            (Size::four(), fit),
            move |products| {
                let mut samples = [0; 16];
                idct::islow_block_4x4(&narrow(products), &mut samples);
                samples.to_vec()
            },
        );
        self.inverse_plane(
            "islow_plane_2x2",
            (2, 4),
            raw::jpeg_block_islow_plane_2x2,
            (Size::two(), fit),
            move |products| {
                let mut samples = [0; 4];
                idct::islow_block_2x2(&narrow(products), &mut samples);
                samples.to_vec()
            },
        );
    }

    fn divisors(&mut self) {
        let mut tally = Tally::new("quantization_divisors");
        for a in LENGTHS {
            for out in LENGTHS {
                for zero in [false, true] {
                    let mut quant = vec![3; a];
                    if zero {
                        quant.last_mut().into_iter().for_each(|q| *q = 0);
                    }
                    let number = match (a, zero, out) {
                        (64, true, _) => 5,
                        (64, false, 64) => 0,
                        (64, false, _) => 3,
                        _ => 2,
                    };
                    tally.length(number, out, (a, out, zero), |to: &mut [f64]| {
                        call1(raw::jpeg_block_quantization_divisors, &quant, to)
                    });
                }
            }
        }
        self.inputs(
            tally,
            |seed| {
                let mut random = Random(seed);
                (0..LIST).map(|_| any_table(&mut random)).collect()
            },
            |quant: &Table| {
                let left: Left<f64, 64> =
                    guarded(|to| call1(raw::jpeg_block_quantization_divisors, quant, to));
                (left.status, left.output.map(f64::to_bits), left.guards)
            },
            |quant| {
                if quant.contains(&0) {
                    return (5, [f64::FILL.to_bits(); 64], true);
                }
                let made = Divisors::new(quant).reciprocals();
                (0, made.map(f64::to_bits), true)
            },
        );
    }

    /// The lengths of the guarded quantizer: those of the inputs with right
    /// outputs and with wrong ones, and those of the outputs. The record of the
    /// canonical coefficients takes no divisors.
    fn guarded_lengths(tally: &mut Tally, quantizer: u8, takes_divisors: bool) {
        let mut inputs = Vec::new();
        for a in LENGTHS {
            for b in LENGTHS {
                for c in LENGTHS {
                    inputs.push(((a, b, c), (1, 64, 1, 64)));
                    inputs.push(((a, b, c), (0, 63, 2, 65)));
                    inputs.push(((64, 64, 64), (a, b, c, 64)));
                    inputs.push(((64, 64, 64), (1, a, b, c)));
                }
            }
        }
        for ((a, b, c), outputs_of) in inputs {
            let number = if a != 64 {
                1
            } else if b != 64 {
                2
            } else if quantizer == 0 {
                5
            } else if takes_divisors && c != 64 {
                2
            } else if outputs_of != (1, 64, 1, 64) {
                3
            } else {
                0
            };
            let block: Vec<u8> = (0..a).map(|n| (37 * n) as u8).collect();
            let (quant, divisors) = (vec![quantizer; b], vec![0.125; c]);
            let mut outputs = Outputs::new(outputs_of);
            let status = if takes_divisors {
                outputs.call(&block, &quant, &divisors)
            } else {
                outputs.call_record(&block, &quant)
            };
            let kept = if number == 0 {
                outputs.guards()
            } else {
                outputs.kept()
            };
            tally.cases += 1;
            if status != number || !kept {
                if tally.differences == 0 {
                    println!(
                        "{}: lengths {:?}, quantizer {quantizer}: {status} for {number}, buffers {}",
                        tally.name,
                        ((a, b, c), outputs_of),
                        if kept { "kept" } else { "overwritten" }
                    );
                }
                tally.differences += 1;
            }
        }
    }

    fn guarded(&mut self) {
        let mut tally = Tally::new("fdct_quantize_guarded");
        Self::guarded_lengths(&mut tally, 3, true);
        Self::guarded_lengths(&mut tally, 0, true);
        self.inputs(
            tally,
            |seed| {
                let mut all: Vec<Handed> = made_from(seed, 1, LIST)
                    .into_iter()
                    .map(|(block, (quant, other))| {
                        (block, (quant, Divisors::new(&other).reciprocals()))
                    })
                    .collect();
                all.extend(handed_from(seed, LIST));
                all
            },
            |(block, (quant, divisors)): &Handed| {
                let mut outputs = Outputs::new((1, 64, 1, 64));
                let status = outputs.call(block, quant, divisors);
                outputs.record(status)
            },
            |(block, (quant, divisors))| {
                if quant.contains(&0) {
                    return Record::refused();
                }
                let made = j2k_encoder::fdct_quantize(block, quant, &Divisors::of(*divisors));
                Record {
                    status: 0,
                    dc: made.dc,
                    ac: made.ac_coefficients,
                    nonzero_ac: made.nonzero_ac,
                    divisors: *quant,
                    guards: true,
                }
            },
        );
    }

    /// The guarded quantizer, with the divisors of its own table, against the
    /// Rust's canonical one: blocks near the guard's end among others.
    fn agreement(&mut self) {
        let mut tally = Tally::new("fdct_quantize_record");
        Self::guarded_lengths(&mut tally, 3, false);
        Self::guarded_lengths(&mut tally, 0, false);
        self.inputs(
            tally,
            |seed| {
                let made = made_from(seed, 2, LIST).into_iter();
                made.map(|(block, (quant, _))| (block, quant)).collect()
            },
            |(block, quant): &(Samples, Table)| {
                let mut outputs = Outputs::new((1, 64, 1, 64));
                let status = outputs.call_record(block, quant);
                outputs.record(status)
            },
            |(block, quant)| {
                if quant.contains(&0) {
                    return Record::refused();
                }
                Record::canonical(block, quant)
            },
        );
    }

    /// Not in the published Rust: stored.rs computes these in its own way.
    fn stored(&mut self) {
        let tally = Self::lengths2("dequantize", (-3, 5), (2, 64), raw::jpeg_block_dequantize);
        self.inputs(
            tally,
            |seed| stored_blocks_from(seed, LIST),
            |(coefficients, quant): &Stored| {
                guarded(|to| call2(raw::jpeg_block_dequantize, coefficients, quant, to))
            },
            |input| written(stored::dequantized(*input)),
        );
        let tally = Self::lengths2("screen", (-3, 5), (2, 1), raw::jpeg_block_screen);
        self.inputs(
            tally,
            |seed| {
                let mut all = screen_ends_from(seed);
                all.extend(stored_blocks_from(seed, LIST));
                all.extend(coded_blocks_from(seed, LIST));
                all
            },
            |(coefficients, quant): &Stored| {
                guarded(|to| call2(raw::jpeg_block_screen, coefficients, quant, to))
            },
            |input| written([stored::screened(*input)]),
        );
        let tally = Self::lengths2("same", (-3, -3), (1, 1), raw::jpeg_block_same);
        self.inputs(
            tally,
            |seed| pairs_of_blocks_from(seed, LIST),
            |(a, b): &Pair| guarded(|to| call2(raw::jpeg_block_same, a, b, to)),
            |input| written([stored::same(*input)]),
        );
    }

    /// Not in the published Rust: records.rs computes these in its own way.
    fn records(&mut self) {
        let mut tally = Tally::new("same_records");
        for a in LENGTHS {
            for b in LENGTHS {
                for c in LENGTHS {
                    for (ac, other, q, r) in [(a, b, c, 64), (64, a, b, c), (64, 64, a, b)] {
                        let number = match (ac, other, q, r, c) {
                            (64, 64, 64, 64, 1) => 0,
                            (64, 64, 64, 64, _) => 3,
                            (64, 64, _, _, _) => 2,
                            _ => 1,
                        };
                        let one = (vec![5; ac], vec![7; q]);
                        let two = (vec![5; other], vec![7; r]);
                        tally.length(number, c, (ac, other, q, r, c), |to: &mut [u8]| {
                            same_records((3, &one.0, &one.1), (3, &two.0, &two.1), to)
                        });
                    }
                }
            }
        }
        self.inputs(
            tally,
            |seed| records::pairs_from(seed, LIST),
            |((dc, (ac, q)), (other_dc, (other_ac, r))): &records::Pair| {
                guarded(|to| same_records((*dc, ac, q), (*other_dc, other_ac, r), to))
            },
            |input| written([records::same(*input)]),
        );
    }

    /// Two strips become one: every join of `every_join` first, then random ones;
    /// and refusals, alone and together.
    fn joins(&mut self) {
        let mut tally = Tally::new("join_planes");
        let places = vec![3; strips::count(4096, 17) + 1];
        let (ones, zeros, twos) = ([1; 65], [0; 65], [2; 65]);
        let lefts = [
            (8, 9),
            (7, 9),
            (8, 17),
            (4088, 9),
            (4096, 9),
            (0, 9),
            (8, 0),
            (8, 4097),
            (usize::MAX, 9),
        ];
        let rights = [
            (3, 9),
            (8, 9),
            (9, 9),
            (3, 17),
            (0, 9),
            (3, 0),
            (4097, 9),
            (3, usize::MAX),
        ];
        let tables = [(64, 64), (63, 64), (64, 65), (65, 63), (0, 0)];
        for (width, height) in lefts {
            for (beside, high) in rights {
                for more in 0..4 {
                    for (q, r) in tables {
                        for table in [&ones, &zeros, &twos] {
                            let left = Strip {
                                coefficients: &places[..strips::count(width, height) + more % 2],
                                width,
                                height,
                                quant: &ones[..q],
                            };
                            let right = Strip {
                                coefficients: &places[..strips::count(beside, high) + more / 2],
                                width: beside,
                                height: high,
                                quant: &table[..r],
                            };
                            let room = strips::count(width.saturating_add(beside), height);
                            let room = room.min(1 << 17);
                            for out in [room.saturating_sub(1), room, room + 1] {
                                let number = strips::number(left, right, out);
                                let lengths = ((width, height), (beside, high), more, q, r, out);
                                tally.length(number, out, lengths, |to: &mut [i16]| {
                                    join_planes(left, right, to)
                                });
                            }
                        }
                    }
                }
            }
        }
        let first = self.seed;
        let try_list = Box::new(move |seed, tally: &mut Tally| {
            let mut random = Random(seed);
            let sizes = if seed == first {
                every_join()
            } else {
                (0..PLANES)
                    .map(|_| {
                        (
                            8 * (1 + random.below(30)) as usize,
                            1 + random.below(200) as usize,
                            1 + random.below(60) as usize,
                        )
                    })
                    .collect()
            };
            for size in sizes {
                tally.cases += 1;
                if let Err(what) = join_tried(&mut random, size) {
                    if tally.differences == 0 {
                        println!("{}: {size:?}: {what}", tally.name);
                    }
                    tally.differences += 1;
                }
            }
        });
        self.functions.push(Function { tally, try_list });
    }

    /// A function of the bench queue, tried on `count` random inputs a list.
    fn queue(
        &mut self,
        tally: Tally,
        count: usize,
        one: impl Fn(&mut Random) -> Option<String> + 'static,
    ) {
        let try_list = Box::new(move |seed, tally: &mut Tally| {
            let mut random = Random(seed);
            for _ in 0..count {
                tally.cases += 1;
                if let Some(difference) = one(&mut random) {
                    if tally.differences == 0 {
                        println!("{}: {difference}", tally.name);
                    }
                    tally.differences += 1;
                }
            }
        });
        self.functions.push(Function { tally, try_list });
    }

    /// Not in the published Rust: queues.rs works these out in its own way.
    fn queues(&mut self) {
        let mut made = Tally::new("bench_queue_new");
        for benches in (0..12).chain([1 << 8, (1 << 16) + 1, u32::MAX]) {
            for len in [0, 9, 10, 11] {
                let number = match queues::new(benches) {
                    Err(number) => number,
                    Ok(_) if len != 10 => 3,
                    Ok(_) => 0,
                };
                made.length(number, len, (benches, len), |to: &mut [u32]| {
                    // SAFETY: it is a slice.
                    unsafe { raw::jpeg_block_bench_queue_new(benches, to.as_mut_ptr(), to.len()) }
                });
            }
        }
        self.queue(made, 100, |random| {
            let benches = 1 + random.below(8) as u32;
            let mut state = Lent::<u32>::new(10);
            let to = state.places();
            // SAFETY: it is a slice.
            let status =
                unsafe { raw::jpeg_block_bench_queue_new(benches, to.as_mut_ptr(), to.len()) };
            let same = status == 0
                && state.guards()
                && Ok(state.held()) == queues::new(benches).as_ref().map(|s| &s[..]);
            (!same).then(|| format!("{benches} benches: status {status}, {:?}", state.held()))
        });
        // A state of the wrong length is one out of range; the order of the
        // tests where several fail.
        let good = [2, 0, 3, 4, 0, 0, 0, 0, 0, 0, 0];
        let first = good[..10].try_into().expect("ten numbers");
        let mut deposits = Tally::new("bench_queue_deposit");
        let mut turns = Tally::new("bench_queue_turn");
        let mut reports = Tally::new("bench_queue_report");
        for len in [0, 9, 10, 11] {
            for (bench, blocks, number) in [(0, 1, 0), (2, 65536, 13), (1, 65532, 14)] {
                let number = if len == 10 { number } else { 13 };
                let mut held = lent_state(&first, len);
                let status = queue_deposit(held.places(), bench, blocks);
                deposits.cases += 1;
                let kept = status == 0 || held.held() == &good[..len.min(10)] || len > 10;
                if status != number || !kept || !held.guards() {
                    println!("bench_queue_deposit: length {len}: {status} for {number}");
                    deposits.differences += 1;
                }
            }
            for places in [0, 4095, 4096, 4097] {
                for answers in [0, 1, 2, 3] {
                    let number = match (len, places, answers) {
                        (10, 4096, 2) => 0,
                        (10, _, _) => 3,
                        _ => 13,
                    };
                    let (status, held, out, answer) = queue_turn(&first, 5, (len, places, answers));
                    turns.cases += 1;
                    let kept = number == 0 || out.kept() && answer.kept();
                    if status != number || !kept || !held.guards() {
                        println!("bench_queue_turn: lengths {len} {places} {answers}: {status} for {number}");
                        turns.differences += 1;
                    }
                }
            }
            for counts in [0, 7, 8, 9] {
                let number = match (len, counts) {
                    (10, 8) => 0,
                    (10, _) => 3,
                    _ => 13,
                };
                reports.length(number, counts, (len, counts), |to: &mut [u32]| {
                    queue_report(&good[..len], to)
                });
            }
        }
        self.queue(deposits, 1_000, |random| {
            let state = queues::any_state(random);
            let (bench, blocks) = queues::any_deposit(random);
            deposit_difference(&state, bench, blocks)
        });
        self.queue(turns, 200, |random| {
            if random.below(10) == 0 {
                return history_difference(random);
            }
            let state = queues::any_state(random);
            turn_difference(&state, queues::any_limit(random))
        });
        self.queue(reports, 1_000, |random| {
            let state = queues::any_state(random);
            let mut counts = Lent::<u32>::new(8);
            let status = queue_report(&state, counts.places());
            let same = if queues::in_range(&state) {
                status == 0 && counts.held() == &state[2..] && counts.guards()
            } else {
                status == 13 && counts.kept()
            };
            (!same).then(|| format!("{state:?}: status {status}, {:?}", counts.held()))
        });
    }

    /// Not in the published Rust: percents.rs computes these in its own way.
    /// Every percent with every quantizer first, then random tables.
    /// Small planes, each at every limit that changes an answer and with every
    /// number of trials of `searches::GIVEN`.
    fn searches(&mut self) {
        let mut tally = Tally::new("fewest_coefficients");
        let call = |samples: &[u8], size, base: &[u8], to: &mut [u64]| {
            fewest_coefficients(samples, size, base, (0, 3), to)
        };
        Self::plane_lengths(&mut tally, 9, call, |width, height| (width * height, 3));
        let try_list = Box::new(move |seed, tally: &mut Tally| {
            let mut random = Random(seed);
            for _ in 0..SEARCHED {
                let (plane, base) = searches::any_search(&mut random);
                let trials = searches::trials(&plane, &base);
                let size = (plane.width, plane.height);
                for limit in searches::limits(&trials) {
                    for given in searches::GIVEN {
                        tally.cases += 1;
                        let mut out = Lent::new(3);
                        let status = fewest_coefficients(
                            &plane.samples,
                            size,
                            &base,
                            (limit, given),
                            out.places(),
                        );
                        let expected = searches::answer(&trials, limit, given);
                        if status != 0 || out.held() != expected || !out.guards() {
                            if tally.differences == 0 {
                                println!(
                                    "{}: {} x {} {:?} under {base:?}, limit {limit}, {given} trials: \
                                     here {status} {:?}, expected 0 {expected:?}",
                                    tally.name,
                                    plane.width,
                                    plane.height,
                                    plane.samples,
                                    out.held()
                                );
                            }
                            tally.differences += 1;
                        }
                    }
                }
            }
        });
        self.functions.push(Function { tally, try_list });
    }

    fn percents(&mut self) {
        let mut tally = Tally::new("percent_table");
        for a in LENGTHS {
            for out in LENGTHS {
                for percent in PERCENTS {
                    let number = if a != 64 {
                        2
                    } else if out != 64 {
                        3
                    } else if !(1..=200).contains(&percent) {
                        11
                    } else {
                        0
                    };
                    let base = vec![200; a];
                    tally.length(number, out, (a, out, percent), |to: &mut [u8]| {
                        percent_table(&base, percent, to)
                    });
                }
            }
        }
        let first = self.seed;
        self.inputs(
            tally,
            move |seed| {
                if seed == first {
                    every_share()
                } else {
                    shares_from(seed, LIST)
                }
            },
            |(base, percent): &Share| guarded(|to| percent_table(base, u32::from(*percent), to)),
            |share| match percents::table(*share) {
                Ok(table) => written(table),
                Err(status) => Left {
                    status,
                    output: [u8::FILL; 64],
                    guards: true,
                },
            },
        );
    }

    /// Not in the published Rust: twelve_bit.rs computes these in its own way.
    /// An 8-bit block with 1920 added to each sample is held to the Rust's 8-bit
    /// entry.
    fn twelve_bit(&mut self) {
        let f = raw::jpeg_block_fdct_quantize_12bit;
        let mut tally = Tally::new("fdct_quantize_12bit");
        for a in LENGTHS {
            for b in LENGTHS {
                for out in LENGTHS {
                    for sample in [4_095, 4_096, 65_535] {
                        let number = if a != 64 {
                            1
                        } else if b != 64 {
                            2
                        } else if out != 64 {
                            3
                        } else if sample > 4_095 {
                            12
                        } else {
                            0
                        };
                        let (mut block, quant) = (vec![2_000; a], vec![3; b]);
                        if let Some(last) = block.last_mut() {
                            *last = sample;
                        }
                        tally.length(number, out, (a, b, out, sample), |to: &mut [i16]| {
                            call2(f, &block, &quant, to)
                        });
                    }
                }
            }
        }
        self.inputs(
            tally,
            |seed| twelve_bit::blocks_from(seed, LIST),
            move |(block, quant): &twelve_bit::Whole| guarded(|to| call2(f, block, quant, to)),
            |input| match twelve_bit::coefficients(input) {
                Ok(coefficients) => written(coefficients),
                Err(status) => Left {
                    status,
                    output: [i16::FILL; 64],
                    guards: true,
                },
            },
        );
        self.inputs(
            Tally::new("fdct_quantize_12bit/raised"),
            |seed| whole_blocks_from(seed, LIST),
            move |(block, quant): &Whole| {
                let (raised, widened) = (twelve_bit::raised(block), twelve_bit::widened(quant));
                guarded(|to| call2(f, &raised, &widened, to))
            },
            |(block, quant)| written(fdct::fdct_quantize(block, quant)),
        );
    }
}

/// The first sample of a decoded plane that is not as expected, with its block.
fn plane_difference(
    coded: &Coded,
    quant: &Table,
    here: &[u8],
    expected: &[u8],
    columns: usize,
    side: usize,
) -> Option<String> {
    let at = here.iter().zip(expected).position(|(a, b)| a != b)?;
    let (x, y) = (at % columns, at / columns);
    let k = planes::blocks(coded.width) * (y / side) + x / side;
    let block = &coded.coefficients[64 * k..64 * (k + 1)];
    Some(format!(
        "sample ({x}, {y}): here {}, expected {}; block {k} {block:?} under {quant:?}",
        here[at], expected[at]
    ))
}

fn argument(at: usize, default: u64) -> u64 {
    std::env::args().nth(at).map_or(default, |word| {
        word.parse().expect("a whole number as argument")
    })
}

fn main() {
    let end = Instant::now() + Duration::from_secs(argument(1, 60));
    let seed = argument(2, SEED);
    println!("seed {seed}");
    let mut compare = Compare {
        functions: Vec::new(),
        seed,
    };
    compare.inverses();
    compare.forwards();
    compare.planes();
    compare.divisors();
    compare.guarded();
    compare.agreement();
    compare.stored();
    compare.records();
    compare.percents();
    compare.searches();
    compare.queues();
    compare.twelve_bit();
    compare.joins();
    if let Some(name) = std::env::args().nth(3) {
        compare
            .functions
            .retain(|function| function.tally.name.starts_with(&name));
    }
    for list in 0.. {
        for function in &mut compare.functions {
            (function.try_list)(seed.wrapping_add(list), &mut function.tally);
        }
        if Instant::now() >= end {
            break;
        }
    }
    let mut differences = 0;
    for Function { tally, .. } in &compare.functions {
        println!(
            "{} {} cases {} differences",
            tally.name, tally.cases, tally.differences
        );
        differences += tally.differences;
    }
    if differences != 0 {
        std::process::exit(1);
    }
}
