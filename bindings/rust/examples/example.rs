//! Codes a block of samples, screens and dequantizes its coefficients, and
//! decodes them again, also brighter than 8 bits hold; compares its record with
//! others; codes it as one of 12 bits. Then codes a plane, decodes it at three
//! sizes, joins it from two strips, and looks for the percent of its table that
//! stores it in the fewest coefficients. Then serves benches in turn.

use jpeg_block::{arrays, BenchQueue, Refusal, Strip, Word};

fn word(yes: bool) -> &'static str {
    if yes {
        "yes"
    } else {
        "no"
    }
}

fn largest_difference(a: &[u8], b: &[u8]) -> u8 {
    let differences = a.iter().zip(b).map(|(a, b)| a.abs_diff(*b));
    differences.max().unwrap_or(0)
}

fn one_block(block: &[u8; 64], quant: &[u8; 64]) -> Result<(), Refusal> {
    let mut coefficients = [0; 64];
    jpeg_block::fdct_quantize(block, quant, &mut coefficients)?;
    let nonzero = coefficients.iter().filter(|&&c| c != 0).count();
    println!("coefficients that are not zero: {nonzero}");

    let dc = jpeg_block::fdct_quantize_coefficient(block, 16, 0)?;
    println!("DC: {dc}");

    let yes = jpeg_block::screen(&coefficients, quant)?;
    println!("screen: {}", word(yes));

    let mut products = [0; 64];
    jpeg_block::dequantize(&coefficients, quant, &mut products)?;
    let mut decoded = [0; 64];
    jpeg_block::islow_block_i32(&products, &mut decoded)?;
    let largest = largest_difference(block, &decoded);
    println!("largest difference of a sample: {largest}");

    if let Err(refusal) = jpeg_block::islow_block_i32(&products, &mut decoded[..63]) {
        println!("an output of 63 places: refused {}", refusal.number());
    }

    products[0] += 800;
    let (_, clamped) = arrays::islow_block_i32(&products);
    println!(
        "100 levels brighter: {} samples raised to 0, {} lowered to 255",
        clamped.raised, clamped.lowered
    );
    Ok(())
}

/// A record under the table, and one under a table that gives the same
/// coefficients.
fn records(block: &[u8; 64], quant: &[u8; 64]) -> Result<(), Refusal> {
    let mut other = *quant;
    other[63] = 17;
    let record = jpeg_block::fdct_quantize_record(block, quant)?;
    let other = jpeg_block::fdct_quantize_record(block, &other)?;
    let yes = jpeg_block::same_records(&record, &record);
    println!("a record and itself are the same: {}", word(yes));
    let yes = jpeg_block::same_records(&record, &other);
    println!("with another divisor: {}", word(yes));
    // Once for many blocks.
    let divisors = jpeg_block::quantization_divisors(quant)?;
    let guarded = jpeg_block::fdct_quantize_guarded(block, quant, &divisors)?;
    let yes = jpeg_block::same_records(&record, &guarded);
    println!("with divisors made beforehand: {}", word(yes));
    Ok(())
}

fn twelve_bits(block: &[u8; 64], quant: &[u8; 64]) -> Result<(), Refusal> {
    let block_12bit = block.map(|sample| u16::from(sample) + 1920);
    let coefficients = arrays::fdct_quantize_12bit(&block_12bit, &quant.map(u16::from))?;
    let yes = arrays::same(&coefficients, &arrays::fdct_quantize(block, quant));
    println!(
        "12 bits, 1920 added to each sample, have the same coefficients: {}",
        word(yes)
    );
    Ok(())
}

const WIDTH: usize = 20;
const HEIGHT: usize = 12;
/// A multiple of 8.
const LEFT_WIDTH: usize = 16;

/// The coefficients of the plane's columns `from` and on.
fn coded(from: usize, width: usize, quant: &[u8; 64]) -> Result<Vec<i16>, Refusal> {
    let samples = columns(from, width);
    let mut coefficients = vec![0; jpeg_block::plane_coefficients(width, HEIGHT)];
    jpeg_block::fdct_quantize_plane(&samples, width, HEIGHT, quant, &mut coefficients)?;
    Ok(coefficients)
}

fn columns(from: usize, width: usize) -> Vec<u8> {
    let places = (0..HEIGHT).flat_map(|y| (from..from + width).map(move |x| (x, y)));
    places.map(|(x, y)| (40 + 9 * x + 3 * y) as u8).collect()
}

fn whole_plane(quant: &[u8; 64]) -> Result<(), Refusal> {
    let plane = columns(0, WIDTH);
    let whole = coded(0, WIDTH, quant)?;
    print!("DC of the {} blocks of a plane:", whole.len() / 64);
    for block in whole.chunks(64) {
        print!(" {}", block[0]);
    }
    println!();

    let mut decoded = vec![0; WIDTH * HEIGHT];
    jpeg_block::islow_plane(&whole, WIDTH, HEIGHT, quant, &mut decoded)?;
    let largest = largest_difference(&plane, &decoded);
    println!("largest difference of its samples: {largest}");
    let mut half = vec![0; WIDTH.div_ceil(2) * HEIGHT.div_ceil(2)];
    jpeg_block::islow_plane_4x4(&whole, WIDTH, HEIGHT, quant, &mut half)?;
    let mut quarter = vec![0; WIDTH.div_ceil(4) * HEIGHT.div_ceil(4)];
    jpeg_block::islow_plane_2x2(&whole, WIDTH, HEIGHT, quant, &mut quarter)?;
    let (half, quarter) = (half[0], quarter[0]);
    println!("first samples at half and quarter size: {half} {quarter}");

    let right_width = WIDTH - LEFT_WIDTH;
    let left = coded(0, LEFT_WIDTH, quant)?;
    let right = coded(LEFT_WIDTH, right_width, quant)?;
    let strip = |coefficients, width| Strip {
        coefficients,
        width,
        height: HEIGHT,
        quant,
    };
    let mut joined = vec![0; whole.len()];
    jpeg_block::join_planes(
        strip(&left, LEFT_WIDTH),
        strip(&right, right_width),
        &mut joined,
    )?;
    println!("two strips joined are the plane: {}", word(joined == whole));

    let limit = 4 * (WIDTH * HEIGHT) as u64;
    let fewest = jpeg_block::fewest_coefficients(&plane, WIDTH, HEIGHT, quant, limit, 200)?;
    if let Some(percent) = fewest.percent {
        let table = arrays::percent_table(quant, percent)?;
        println!(
            "fewest coefficients within a squared error of 4 a sample: {percent} percent, divisors {}",
            table[0]
        );
    }
    Ok(())
}

/// Two blocks at bench 0, one at bench 2, and a turn for as many as there are.
fn queue() -> Result<(), Refusal> {
    let queue = BenchQueue::new(3)?.deposit(0, 2)?.deposit(2, 1)?;
    let [first, second, third, ..] = queue.report()?;
    println!("blocks that wait: {first} {second} {third}");
    let mut list = [0; 4096];
    let turned = queue.turn(4096, &mut list)?;
    print!("benches served:");
    for bench in &list[..turned.listed] {
        print!(" {bench}");
    }
    let word = match turned.word {
        Word::Idle => "idle",
        Word::Spent => "spent",
    };
    println!(", then {word}");
    Ok(())
}

fn main() -> Result<(), Refusal> {
    let block = std::array::from_fn(|n| (64 + 9 * (n % 8) + 5 * (n / 8)) as u8);
    let quant = [16; 64];
    one_block(&block, &quant)?;
    records(&block, &quant)?;
    twelve_bits(&block, &quant)?;
    whole_plane(&quant)?;
    queue()
}
