//! Calls every function: known answers, and each refusal with the output looked
//! at. bindings/calls.c does the same for C, with more lengths.

use jpeg_block::{
    arrays, dequantize, fdct_quantize, fdct_quantize_12bit, fdct_quantize_coefficient,
    fdct_quantize_guarded, fdct_quantize_plane, fdct_quantize_record, fewest_coefficients,
    islow_plane, islow_plane_2x2, islow_plane_4x4, join_planes, percent_table, plane_coefficients,
    quantization_divisors, same, same_records, screen, BenchQueue, Clamped, Fewest, QuantizedBlock,
    Refusal, Strip, Word,
};
use std::collections::HashSet;
use std::error::Error;

const NONE: Clamped = Clamped {
    raised: 0,
    lowered: 0,
};

#[test]
fn refusals() {
    let all = [
        (1, Refusal::BLOCK),
        (2, Refusal::TABLE),
        (3, Refusal::OUTPUT),
        (4, Refusal::INDEX),
        (5, Refusal::QUANTIZER),
        (8, Refusal::SIZE),
        (9, Refusal::SAMPLES),
        (11, Refusal::PERCENT),
        (12, Refusal::SAMPLE),
        (13, Refusal::BENCH),
        (14, Refusal::WAITING),
        (15, Refusal::DIVISORS),
        (16, Refusal::HEIGHTS),
        (17, Refusal::LEFT_WIDTH),
    ];
    let meanings: HashSet<_> = all.iter().map(|(_, refusal)| refusal.meaning()).collect();
    assert_eq!(meanings.len(), all.len());
    for (number, refusal) in all {
        assert_eq!(refusal.number(), number);
        assert_eq!(u32::from(refusal), number);
        let said = format!("refused {number}: {}", refusal.meaning());
        let boxed: Box<dyn Error> = refusal.into();
        assert_eq!(boxed.to_string(), said);
        assert_eq!(boxed.downcast_ref(), Some(&refusal));
    }
}

/// One inverse of `$n` samples: all `$sample` for the coefficient `$value` at
/// `$place`, with its counts; then the refusals, which write nothing.
macro_rules! inverse {
    ($name:ident, $input:ty, $n:literal, $place:literal, $value:literal, $sample:literal, $clamped:expr) => {{
        let mut input: [$input; 65] = [0; 65];
        input[$place] = $value;
        let mut output = [7; $n + 1];
        for input in [&input[..63], &input[..], &[]] {
            assert_eq!(
                jpeg_block::$name(input, &mut output[..$n]),
                Err(Refusal::BLOCK)
            );
        }
        for n in [0, $n - 1, $n + 1] {
            assert_eq!(
                jpeg_block::$name(&input[..64], &mut output[..n]),
                Err(Refusal::OUTPUT)
            );
        }
        assert_eq!(output, [7; $n + 1]);
        assert_eq!(
            jpeg_block::$name(&input[..64], &mut output[..$n]),
            Ok($clamped)
        );
        assert_eq!(output[..$n], [$sample; $n]);
        assert_eq!(output[$n], 7);
        input[..64].try_into().expect("64 numbers")
    }};
}

macro_rules! inverse_8bit {
    ($($name:ident, $input:ty, $n:literal, $place:literal, $value:literal, $sample:literal, $raised:literal, $lowered:literal;)*) => {$(
        let clamped = Clamped { raised: $raised, lowered: $lowered };
        let input = inverse!($name, $input, $n, $place, $value, $sample, clamped);
        assert_eq!(arrays::$name(&input), ([$sample; $n], clamped));
    )*};
}

macro_rules! inverse_12bit {
    ($($name:ident, $n:literal;)*) => {$(
        let input = inverse!($name, i16, $n, 0, 8, 2049, ());
        assert_eq!(arrays::$name(&input), [2049; $n]);
    )*};
}

#[test]
fn inverse_blocks() {
    inverse_8bit! {
        islow_block, i16, 64, 0, 4, 129, 0, 0;
        islow_block, i16, 64, 0, 1016, 255, 0, 0;
        islow_block, i16, 64, 0, 1020, 255, 0, 64;
        islow_block, i16, 64, 0, -1029, 0, 64, 0;
        islow_block_i32, i32, 64, 0, 65536, 255, 0, 64;
        islow_block_top_half, i16, 64, 32, 1000, 128, 0, 0;
        islow_block_top_half_i32, i32, 64, 0, -65536, 0, 64, 0;
        islow_block_4x4, i16, 16, 0, 1020, 255, 0, 16;
        islow_block_2x2, i16, 4, 0, -1029, 0, 4, 0;
    }
    inverse_12bit! {
        islow_block_12bit, 64;
        islow_block_12bit_4x4, 16;
        islow_block_12bit_2x2, 4;
    }
}

/// DC alone.
fn only(dc: i16) -> [i16; 64] {
    std::array::from_fn(|n| if n == 0 { dc } else { 0 })
}

#[test]
fn forward_blocks() {
    for (sample, quantizer, dc) in [(128, 1, 0), (129, 16, 1), (127, 16, -1), (255, 0, 1016)] {
        let (block, quant) = ([sample; 64], [quantizer; 64]);
        let mut out = [7; 65];
        assert_eq!(fdct_quantize(&block, &quant, &mut out[..64]), Ok(()));
        assert_eq!(out[..64], only(dc));
        assert_eq!(out[64], 7);
        assert_eq!(arrays::fdct_quantize(&block, &quant), only(dc));
        assert_eq!(fdct_quantize_coefficient(&block, quantizer, 0), Ok(dc));
        assert_eq!(fdct_quantize_coefficient(&block, quantizer, 63), Ok(0));
    }
    let mut out = [7; 65];
    for (block, quant, places, refusal) in [
        (63, 63, 63, Refusal::BLOCK),
        (64, 65, 63, Refusal::TABLE),
        (64, 64, 65, Refusal::OUTPUT),
    ] {
        let refused = fdct_quantize(&[0; 65][..block], &[1; 65][..quant], &mut out[..places]);
        assert_eq!(refused, Err(refusal));
    }
    assert_eq!(out, [7; 65]);
    let coefficient = fdct_quantize_coefficient(&[0; 63], 1, 64);
    assert_eq!(coefficient, Err(Refusal::BLOCK));
    let coefficient = fdct_quantize_coefficient(&[0; 64], 1, 64);
    assert_eq!(coefficient, Err(Refusal::INDEX));
}

#[test]
fn forward_12bit() {
    for (sample, quantizer, dc) in [
        (2048, 1, 0),
        (0, 1, -16384),
        (4095, 256, 64),
        (0, 32768, -1),
    ] {
        let (block, quant) = ([sample; 64], [quantizer; 64]);
        let mut out = [7; 64];
        assert_eq!(fdct_quantize_12bit(&block, &quant, &mut out), Ok(()));
        assert_eq!(out, only(dc));
        assert_eq!(arrays::fdct_quantize_12bit(&block, &quant), Ok(only(dc)));
    }
    let mut out = [7; 65];
    for (block, quant, places, refusal) in [
        (65, 63, 63, Refusal::BLOCK),
        (64, 63, 63, Refusal::TABLE),
        (64, 64, 63, Refusal::OUTPUT),
        (64, 64, 64, Refusal::SAMPLE),
    ] {
        let refused =
            fdct_quantize_12bit(&[4096; 65][..block], &[1; 65][..quant], &mut out[..places]);
        assert_eq!(refused, Err(refusal));
    }
    assert_eq!(out, [7; 65]);
    let refused = arrays::fdct_quantize_12bit(&[65535; 64], &[1; 64]);
    assert_eq!(refused, Err(Refusal::SAMPLE));
}

/// Samples that no two rows or columns share, and a table.
fn varied() -> ([u8; 64], [u8; 64]) {
    (
        std::array::from_fn(|i| (i * i * 37 + i / 8) as u8),
        std::array::from_fn(|i| 1 + i as u8),
    )
}

#[test]
fn guarded_records() {
    let (block, quant) = varied();
    let canonical = arrays::fdct_quantize(&block, &quant);
    let divisors = quantization_divisors(&quant).expect("no quantizer is 0");
    assert_eq!(divisors[0], 1.0 / 8.0);
    let record = fdct_quantize_record(&block, &quant).expect("no quantizer is 0");
    assert_eq!(fdct_quantize_guarded(&block, &quant, &divisors), Ok(record));
    assert_eq!(record.dc, canonical[0]);
    assert_eq!(record.divisors, quant);
    let natural = [0, 1, 8, 16, 9, 2, 3, 10, 17, 24];
    for z in 1..10 {
        assert_eq!(record.ac_coefficients[z], canonical[natural[z]]);
    }
    for z in 0..64 {
        let bit = z > 0 && record.nonzero_ac >> (64 - z) & 1 == 1;
        assert_eq!(bit, z > 0 && record.ac_coefficients[z] != 0);
    }

    let mut zero = quant;
    zero[63] = 0;
    for (block, quant, refusal) in [
        (&block[..63], &zero[..63], Refusal::BLOCK),
        (&block[..], &zero[..63], Refusal::TABLE),
        (&block[..], &zero[..], Refusal::QUANTIZER),
    ] {
        assert_eq!(fdct_quantize_record(block, quant), Err(refusal));
        let guarded = fdct_quantize_guarded(block, quant, &divisors);
        assert_eq!(guarded, Err(refusal));
    }
    assert_eq!(quantization_divisors(&zero[..63]), Err(Refusal::TABLE));
    assert_eq!(quantization_divisors(&zero), Err(Refusal::QUANTIZER));
}

#[test]
fn sameness_of_records() {
    let (block, quant) = varied();
    let record = fdct_quantize_record(&block, &quant).expect("no quantizer is 0");
    assert!(same_records(&record, &record));
    let mut other = record;
    other.nonzero_ac = 0;
    other.ac_coefficients[0] = 5;
    assert!(same_records(&record, &other));
    assert_ne!(record, other);
    let changes: [fn(&mut QuantizedBlock); 3] = [
        |r| r.dc += 1,
        |r| r.ac_coefficients[63] += 1,
        |r| r.divisors[63] += 1,
    ];
    for change in changes {
        let mut other = record;
        change(&mut other);
        assert!(!same_records(&record, &other));
    }
}

#[test]
fn stored_blocks() {
    let coefficients: [i16; 64] = std::array::from_fn(|n| n as i16 - 32);
    let quant: [u8; 64] = std::array::from_fn(|n| (n % 2 * 255) as u8);
    let products = std::array::from_fn(|n| (n as i32 - 32) * if n % 2 == 0 { 1 } else { 255 });
    let mut out = [7; 65];
    for (places, table, output, refusal) in [
        (63, 63, 63, Refusal::BLOCK),
        (64, 63, 63, Refusal::TABLE),
        (64, 64, 65, Refusal::OUTPUT),
    ] {
        let refused = dequantize(&coefficients[..places], &quant[..table], &mut out[..output]);
        assert_eq!(refused, Err(refusal));
    }
    assert_eq!(out, [7; 65]);
    assert_eq!(dequantize(&coefficients, &quant, &mut out[..64]), Ok(()));
    assert_eq!(out[..64], products);
    assert_eq!(arrays::dequantize(&coefficients, &quant), products);

    for (dc, quantizer, yes) in [
        (5, 225, true),
        (6, 225, false),
        (1016, 1, true),
        (1017, 0, false),
    ] {
        assert_eq!(screen(&only(dc), &[quantizer; 64]), Ok(yes));
        assert_eq!(arrays::screen(&only(dc), &[quantizer; 64]), yes);
    }
    assert_eq!(screen(&[0; 65], &[1; 63]), Err(Refusal::BLOCK));
    assert_eq!(screen(&[0; 64], &[1; 63]), Err(Refusal::TABLE));

    assert_eq!(same(&only(1), &only(1)), Ok(true));
    assert_eq!(same(&only(1), &only(2)), Ok(false));
    assert_eq!(same(&[0; 64], &[0; 63]), Err(Refusal::BLOCK));
    assert_eq!(same(&[0; 65], &[0; 64]), Err(Refusal::BLOCK));
    assert!(arrays::same(&only(1), &only(1)));
    assert!(!arrays::same(&only(1), &only(2)));
}

#[test]
fn planes() {
    assert_eq!(plane_coefficients(9, 1), 128);
    assert_eq!(plane_coefficients(4096, 4096), 4096 * 4096);
    assert_eq!(plane_coefficients(4097, 1), 0);
    assert_eq!(plane_coefficients(1, 0), 0);

    // The second block has its one column repeated: DC alone.
    let samples: [u8; 10] = std::array::from_fn(|i| if i < 4 { 0 } else { 255 });
    let mut out = [7; 129];
    for (n, width, table, places, refusal) in [
        (8, 0, 63, 63, Refusal::SIZE),
        (8, 4097, 63, 63, Refusal::SIZE),
        (8, 9, 63, 63, Refusal::SAMPLES),
        (10, 9, 63, 63, Refusal::SAMPLES),
        (9, 9, 63, 63, Refusal::TABLE),
        (9, 9, 64, 127, Refusal::OUTPUT),
    ] {
        let refused = fdct_quantize_plane(
            &samples[..n],
            width,
            1,
            &[16; 64][..table],
            &mut out[..places],
        );
        assert_eq!(refused, Err(refusal));
    }
    assert_eq!(out, [7; 129]);
    let coded = fdct_quantize_plane(&samples[..9], 9, 1, &[16; 64], &mut out[..128]);
    assert_eq!(coded, Ok(()));
    assert_eq!(out[64..128], only(64));
    assert_eq!(out[128], 7);
}

/// A plane of 9 x 1 back, at `$w` x 1 samples of blocks of `$n`.
macro_rules! inverse_plane {
    ($($name:ident, $w:literal, $n:literal;)*) => {$(
        let mut coefficients = [0; 129];
        (coefficients[0], coefficients[64]) = (4, 1);
        let mut output = [7; $w + 1];
        for (places, width, table, samples, refusal) in [
            (127, 0, 63, $w + 1, Refusal::SIZE),
            (129, 9, 63, $w + 1, Refusal::BLOCK),
            (128, 9, 63, $w + 1, Refusal::TABLE),
            (128, 9, 64, $w + 1, Refusal::OUTPUT),
        ] {
            let refused = $name(&coefficients[..places], width, 1, &[8; 64][..table], &mut output[..samples]);
            assert_eq!(refused, Err(refusal));
        }
        assert_eq!(output, [7; $w + 1]);
        assert_eq!($name(&coefficients[..128], 9, 1, &[8; 64], &mut output[..$w]), Ok(NONE));
        assert_eq!(output[..$w - 1], [132; $w - 1]);
        assert_eq!(output[$w - 1..], [129, 7]);
        (coefficients[0], coefficients[64]) = (-400, 400);
        let clamped = Clamped { raised: $n, lowered: $n };
        assert_eq!($name(&coefficients[..128], 9, 1, &[8; 64], &mut output[..$w]), Ok(clamped));
        assert_eq!(output[$w - 2..], [0, 255, 7]);
    )*};
}

#[test]
fn inverse_planes() {
    inverse_plane! {
        islow_plane, 9, 64;
        islow_plane_4x4, 5, 16;
        islow_plane_2x2, 3, 4;
    }
}

#[test]
fn joined_planes() {
    let left: [i16; 128] = std::array::from_fn(|i| i as i16);
    let right: [i16; 129] = std::array::from_fn(|i| 1000 + i as i16);
    // A quantizer 0 counts as 1.
    let (ones, zeros) = ([1; 64], [0; 64]);
    let strip = |coefficients, width, height, quant| Strip {
        coefficients,
        width,
        height,
        quant,
    };
    let taken = strip(&left, 8, 9, &ones[..]);
    let mut out = [7; 257];
    for (left, right, places, refusal) in [
        (strip(&left, 0, 9, &ones[..63]), taken, 255, Refusal::SIZE),
        (taken, strip(&right, 3, 9, &zeros), 255, Refusal::BLOCK),
        (
            taken,
            strip(&right[..128], 3, 9, &zeros[..63]),
            255,
            Refusal::TABLE,
        ),
        (
            taken,
            strip(&right[..128], 3, 9, &[2; 64]),
            255,
            Refusal::DIVISORS,
        ),
        (
            taken,
            strip(&right[..64], 3, 8, &zeros),
            255,
            Refusal::HEIGHTS,
        ),
        (strip(&left, 7, 9, &ones), taken, 255, Refusal::LEFT_WIDTH),
        (
            strip(&[0; 32768], 4096, 1, &ones),
            strip(&right[..64], 1, 1, &ones),
            255,
            Refusal::SIZE,
        ),
        (
            taken,
            strip(&right[..128], 3, 9, &zeros),
            255,
            Refusal::OUTPUT,
        ),
    ] {
        assert_eq!(join_planes(left, right, &mut out[..places]), Err(refusal));
    }
    assert_eq!(out, [7; 257]);
    let beside = strip(&right[..128], 3, 9, &zeros);
    assert_eq!(join_planes(taken, beside, &mut out[..256]), Ok(()));
    let blocks = [&left[..64], &right[..64], &left[64..], &right[64..128]];
    assert_eq!(out[..256], blocks.concat());
    assert_eq!(out[256], 7);
}

#[test]
fn tables_by_percent() {
    let base: [u8; 64] = std::array::from_fn(|n| if n == 63 { 255 } else { n as u8 });
    let mut out = [7; 65];
    for (table, percent, places, refusal) in [
        (63, 0, 63, Refusal::TABLE),
        (64, 0, 63, Refusal::OUTPUT),
        (64, 0, 64, Refusal::PERCENT),
        (64, 201, 64, Refusal::PERCENT),
    ] {
        let refused = percent_table(&base[..table], percent, &mut out[..places]);
        assert_eq!(refused, Err(refusal));
    }
    assert_eq!(out, [7; 65]);
    let doubled = std::array::from_fn(|n| match n {
        0 => 1,
        63 => 255,
        _ => 2 * n as u8,
    });
    assert_eq!(percent_table(&base, 200, &mut out[..64]), Ok(()));
    assert_eq!(out[..64], doubled);
    assert_eq!(arrays::percent_table(&base, 200), Ok(doubled));
    assert_eq!(
        arrays::percent_table(&base, 1).map(|t| t[..50] == [1; 50]),
        Ok(true)
    );
    assert_eq!(arrays::percent_table(&base, 201), Err(Refusal::PERCENT));
}

/// A sample of 129 under quantizers 16 comes back up to 71 percent, and with no
/// coefficient left it is 1 away.
#[test]
fn searches_by_percent() {
    let (samples, base) = ([129; 64], [16; 64]);
    for (limit, trials, percent, off, tried) in [
        (0, 0, None, 0, 0),
        (0, 1, Some(1), 1, 1),
        (63, 200, Some(71), 1, 200),
        (64, 199, Some(199), 0, 199),
        (u64::MAX, u32::MAX, Some(200), 0, 200),
    ] {
        let found = Fewest {
            percent,
            off,
            trials: tried,
        };
        let answer = fewest_coefficients(&samples, 8, 8, &base, limit, trials);
        assert_eq!(answer, Ok(found));
    }
    for (n, width, table, refusal) in [
        (63, 0, 63, Refusal::SIZE),
        (63, 8, 63, Refusal::SAMPLES),
        (64, 8, 63, Refusal::TABLE),
    ] {
        let refused = fewest_coefficients(&samples[..n], width, 8, &base[..table], 0, 200);
        assert_eq!(refused, Err(refusal));
    }
}

#[test]
fn queues() -> Result<(), Refusal> {
    assert_eq!(BenchQueue::new(0), Err(Refusal::BENCH));
    assert_eq!(BenchQueue::new(9), Err(Refusal::BENCH));
    let queue = BenchQueue::new(3)?.deposit(0, 2)?.deposit(2, 1)?;
    assert_eq!(queue.0, [3, 2, 2, 0, 1, 0, 0, 0, 0, 0]);
    assert_eq!(queue.deposit(3, 65536), Err(Refusal::BENCH));
    assert_eq!(queue.deposit(0, 65534), Err(Refusal::WAITING));

    let mut list = [9; 4097];
    assert_eq!(queue.turn(2, &mut list), Err(Refusal::OUTPUT));
    assert_eq!(list, [9; 4097]);
    let turned = queue.turn(2, &mut list[..4096])?;
    assert_eq!((turned.listed, turned.word), (2, Word::Spent));
    assert_eq!(list[..3], [0, 2, 9]);
    assert_eq!(turned.state.report()?, [1, 0, 0, 0, 0, 0, 0, 0]);
    let turned = turned.state.turn(u32::MAX, &mut list[..4096])?;
    assert_eq!((turned.listed, turned.word), (1, Word::Idle));

    let by_hand = BenchQueue([0; 10]);
    assert_eq!(by_hand.deposit(0, 0), Err(Refusal::BENCH));
    assert_eq!(by_hand.turn(0, &mut list[..4096]), Err(Refusal::BENCH));
    assert_eq!(by_hand.report(), Err(Refusal::BENCH));
    Ok(())
}
