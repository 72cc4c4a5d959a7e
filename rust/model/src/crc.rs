//! The check value of a sealed record: CRC-32, the one of Ethernet and zlib.

/// The generator without its highest power, x^32. The lowest bit of a byte comes first,
/// so bit 31 is x^0 and bit 0 is x^31.
const GENERATOR: u32 = 0xEDB8_8320;

/// What a byte leaves in the register, for each byte.
const REMAINDERS: [u32; 256] = remainders();

const fn remainders() -> [u32; 256] {
    let mut table = [0; 256];
    let mut byte = 0;
    while byte < table.len() {
        table[byte] = divided(byte as u32);
        byte += 1;
    }
    table
}

/// The register after eight bits.
const fn divided(mut register: u32) -> u32 {
    let mut bit = 0;
    while bit < 8 {
        let carry = register & 1 != 0;
        register >>= 1;
        if carry {
            register ^= GENERATOR;
        }
        bit += 1;
    }
    register
}

/// The check value of bytes: the register is all ones at first, and inverted at the end.
pub fn crc32(bytes: &[u8]) -> u32 {
    !bytes.iter().fold(u32::MAX, |register, &byte| {
        register >> 8 ^ REMAINDERS[usize::from(register as u8 ^ byte)]
    })
}

#[cfg(test)]
mod tests {
    use super::*;
    use std::vec::Vec;

    /// The powers of the generator.
    const POWERS: [usize; 15] = [32, 26, 23, 22, 16, 12, 11, 10, 8, 7, 5, 4, 2, 1, 0];

    /// The check value by its definition: the bits are the factors of a polynomial, the
    /// highest power first. The first 32 are inverted, and the polynomial is multiplied
    /// by x^32 and divided by the generator. The remainder is inverted.
    fn by_division(bytes: &[u8]) -> u32 {
        let bits = bytes
            .iter()
            .flat_map(|byte| (0..8).map(move |bit| byte >> bit & 1));
        let mut factors: Vec<u8> = bits.chain([0; 32]).collect();
        factors[..32].iter_mut().for_each(|factor| *factor ^= 1);
        let highest = factors.len() - 32;
        for at in 0..highest {
            if factors[at] == 1 {
                POWERS
                    .iter()
                    .for_each(|power| factors[at + 32 - power] ^= 1);
            }
        }
        let remainder = factors[highest..].iter().enumerate();
        !remainder.fold(0, |value, (at, &factor)| value | u32::from(factor) << at)
    }

    #[test]
    fn the_published_check_values() {
        assert_eq!(crc32(b""), 0);
        assert_eq!(crc32(b"a"), 0xE8B7_BE43);
        assert_eq!(crc32(b"123456789"), 0xCBF4_3926);
        let fox = b"The quick brown fox jumps over the lazy dog";
        assert_eq!(crc32(fox), 0x414F_A339);
    }

    #[test]
    fn it_is_the_remainder_of_a_division() {
        for byte in 0..=255 {
            assert_eq!(crc32(&[byte]), by_division(&[byte]), "byte {byte}");
        }
        let bytes: Vec<u8> = (0..500_u32).map(|at| (at * at / 7) as u8).collect();
        for length in 0..bytes.len() {
            let bytes = &bytes[..length];
            assert_eq!(crc32(bytes), by_division(bytes), "{length} bytes");
        }
    }
}
