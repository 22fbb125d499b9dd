//! The planes that the plane calls are asked for, and how the harness cuts them
//! and puts them together.

use crate::Random;

pub struct Plane {
    pub width: usize,
    pub height: usize,
    pub samples: Vec<u8>,
}

/// How many blocks n columns or rows take.
pub fn blocks(n: usize) -> usize {
    n.div_ceil(8)
}

/// A plane of random samples, of few levels, or of a slope with noise.
pub fn any_plane(random: &mut Random, width: usize, height: usize) -> Plane {
    let kind = random.below(4);
    let (level, across, down) = (random.below(200), random.below(9), random.below(9));
    let mut samples = Vec::with_capacity(width * height);
    for y in 0..height as u64 {
        for x in 0..width as u64 {
            samples.push(match kind {
                0 | 1 => random.next() as u8,
                2 => 85 * random.below(4) as u8,
                _ => (level + across * x + down * y + random.below(4)) as u8,
            });
        }
    }
    Plane {
        width,
        height,
        samples,
    }
}

/// A width or height: mostly small, at times up to 4096.
fn any_measure(random: &mut Random) -> usize {
    let most = [16, 100, 300, 4096][random.below(4) as usize];
    1 + random.below(most) as usize
}

/// Some random sizes; none has more than 2^20 samples.
pub fn sizes_from(random: &mut Random, count: usize) -> Vec<(usize, usize)> {
    (0..count)
        .map(|_| {
            let width = any_measure(random);
            let height = any_measure(random).min((1 << 20) / width);
            (width, height)
        })
        .collect()
}

/// Every size from 1 x 1 to 40 x 40, smaller ones first, and the largest ones.
pub fn every_size() -> Vec<(usize, usize)> {
    let mut sizes = Vec::new();
    for height in 1..=40 {
        for width in 1..=40 {
            sizes.push((width, height));
        }
    }
    sizes.extend([(4096, 1), (1, 4096), (4095, 3), (3, 4089), (4096, 4096)]);
    sizes
}

/// The blocks of a plane, rows of blocks first. The plane is first made of whole
/// blocks: each row is lengthened by its last sample, then the last row stands
/// again below itself.
pub fn cut(plane: &Plane) -> Vec<[u8; 64]> {
    let (across, down) = (blocks(plane.width), blocks(plane.height));
    let mut rows: Vec<Vec<u8>> = Vec::new();
    for row in plane.samples.chunks(plane.width) {
        let mut row = row.to_vec();
        let last = row[row.len() - 1];
        row.resize(8 * across, last);
        rows.push(row);
    }
    while rows.len() < 8 * down {
        let last = rows[rows.len() - 1].clone();
        rows.push(last);
    }
    let mut all = Vec::new();
    for eight in rows.chunks(8) {
        for left in (0..8 * across).step_by(8) {
            let mut block = [0; 64];
            for (to, row) in block.chunks_mut(8).zip(eight) {
                to.copy_from_slice(&row[left..left + 8]);
            }
            all.push(block);
        }
    }
    all
}

/// A plane's coefficients, 64 for each block.
pub struct Coded {
    pub width: usize,
    pub height: usize,
    pub coefficients: Vec<i16>,
}

/// Coefficients of every magnitude, few ones at low frequencies, or DC alone.
pub fn any_coded(random: &mut Random, width: usize, height: usize) -> Coded {
    let kind = random.below(4);
    let mut coefficients = vec![0; 64 * blocks(width) * blocks(height)];
    for block in coefficients.chunks_mut(64) {
        match kind {
            0 => block
                .iter_mut()
                .for_each(|c| *c = random.any_width(16) as i16),
            1 => block
                .iter_mut()
                .for_each(|c| *c = random.any_width(8) as i16),
            2 => {
                block[0] = random.signed(12) as i16;
                for _ in 0..5 {
                    let n = 8 * random.below(3) + random.below(3);
                    block[n as usize] = random.signed(7) as i16;
                }
            }
            _ => block[0] = random.any_width(16) as i16,
        }
    }
    Coded {
        width,
        height,
        coefficients,
    }
}

/// The picture that blocks of side x side samples make, `across` in a row, up to
/// so many columns and rows.
pub fn together(
    blocks: &[Vec<u8>],
    side: usize,
    across: usize,
    (columns, rows): (usize, usize),
) -> Vec<u8> {
    let mut picture: Vec<Vec<u8>> = Vec::new();
    for row_of_blocks in blocks.chunks(across) {
        for y in 0..side {
            let mut row: Vec<u8> = Vec::new();
            for block in row_of_blocks {
                row.extend_from_slice(&block[side * y..side * (y + 1)]);
            }
            row.truncate(columns);
            picture.push(row);
        }
    }
    picture.truncate(rows);
    picture.concat()
}
