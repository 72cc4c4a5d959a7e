//! Small bit matrices.

/// An 8 by 8 matrix, byte r its row r, mirrored: bit c of byte r goes to bit r
/// of byte c.
#[inline]
pub fn transpose8(rows: u64) -> u64 {
    let swap = |x: u64, shift: u32, mask: u64| {
        let moved = (x ^ (x >> shift)) & mask;
        x ^ moved ^ (moved << shift)
    };
    let x = swap(rows, 7, 0x00AA_00AA_00AA_00AA);
    let x = swap(x, 14, 0x0000_CCCC_0000_CCCC);
    swap(x, 28, 0x0000_0000_F0F0_F0F0)
}

/// A square matrix of up to 32 rows mirrored: bit c of row r goes to bit r of
/// row c. The size is a power of two; bits beyond it are of no account.
#[inline]
pub fn transpose<const SIZE: usize>(rows: &[u32; SIZE]) -> [u32; SIZE] {
    const LEFT_HALVES: [u32; 5] = [
        0x5555_5555,
        0x3333_3333,
        0x0F0F_0F0F,
        0x00FF_00FF,
        0x0000_FFFF,
    ];
    let mut out = *rows;
    let sizes = SIZE.trailing_zeros() as usize;
    for halving in (0..sizes).rev() {
        swap_blocks(&mut out, 1 << halving, LEFT_HALVES[halving]);
    }
    out
}

/// In every square of twice the width, swaps the block at the upper right with
/// the one at the lower left, whose columns are given.
#[inline]
fn swap_blocks<const SIZE: usize>(rows: &mut [u32; SIZE], width: usize, left: u32) {
    for square in rows.chunks_exact_mut(2 * width) {
        let (upper, lower) = square.split_at_mut(width);
        for (above, below) in upper.iter_mut().zip(lower) {
            let moved = ((*above >> width) ^ *below) & left;
            *above ^= moved << width;
            *below ^= moved;
        }
    }
}

/// Byte i is 1 where bit i of the mask is set, else 0.
#[inline]
pub fn spread(mask: u8) -> u64 {
    const EACH_BYTE: u64 = 0x0101_0101_0101_0101;
    const OWN_BIT: u64 = 0x8040_2010_0804_0201;
    let own = u64::from(mask).wrapping_mul(EACH_BYTE) & OWN_BIT;
    ((own + 0x7F * EACH_BYTE) >> 7) & EACH_BYTE
}

/// The places of the set bits, lowest first.
#[inline]
pub fn set_bits(mut mask: u64) -> impl Iterator<Item = usize> {
    core::iter::from_fn(move || {
        (mask != 0).then(|| {
            let place = mask.trailing_zeros();
            mask &= mask - 1;
            place as usize
        })
    })
}

#[cfg(test)]
mod tests {
    use super::*;
    use std::vec::Vec;

    /// A fixed pattern without symmetry.
    fn pattern(row: usize) -> u32 {
        (row as u32 + 1).wrapping_mul(0x9E37_79B9) ^ 0x0F1E_2D3C
    }

    fn mirrors_every_bit<const SIZE: usize>() {
        let rows: [u32; SIZE] = core::array::from_fn(pattern);
        for (c, column) in transpose(&rows).iter().enumerate() {
            for (r, row) in rows.iter().enumerate() {
                assert_eq!(row >> c & 1, column >> r & 1, "row {r}, bit {c}");
            }
        }
    }

    #[test]
    fn transposing_mirrors_every_bit() {
        mirrors_every_bit::<8>();
        mirrors_every_bit::<16>();
        mirrors_every_bit::<32>();
    }

    #[test]
    fn transposing_8_mirrors_every_bit() {
        let rows = 0x0123_4567_89AB_CDEF_u64.wrapping_mul(0x9E37_79B9);
        let mirrored = transpose8(rows);
        for r in 0..8 {
            for c in 0..8 {
                assert_eq!(rows >> (8 * r + c) & 1, mirrored >> (8 * c + r) & 1);
            }
        }
    }

    #[test]
    fn spreading_gives_one_byte_a_bit() {
        for mask in 0..=255_u8 {
            for bit in 0..8 {
                assert_eq!(spread(mask) >> (8 * bit) & 0xFF, u64::from(mask >> bit & 1));
            }
        }
    }

    #[test]
    fn set_bits_come_lowest_first() {
        let places: Vec<usize> = set_bits(1 << 63 | 1 << 5 | 1).collect();
        assert_eq!(places, [0, 5, 63]);
    }
}
