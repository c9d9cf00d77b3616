//! AES-128 by FIPS 197, byte by byte: for a host that draws the r strings itself and lends them in their seed's place. It shares nothing with the
//! library's, which is proved. Bytes of the state are indices into a table, so nothing secret may be enciphered by it; r and its seed are public.

/// Twice a, in GF(2^8) modulo x^8 + x^4 + x^3 + x + 1.
const fn double(a: u8) -> u8 {
    (a << 1) ^ ((a >> 7) * 0x1b)
}

/// The S-box: the inverse in the field, 0 for 0, and then the affine map.
const SBOX: [u8; 256] = {
    // Every element but 0 is a power of 3, and 3^255 is 1.
    let mut power = [1; 256];
    let mut k = 1;
    while k < 256 {
        power[k] = power[k - 1] ^ double(power[k - 1]);
        k += 1;
    }
    let mut table = [0x63; 256];
    k = 0;
    while k < 255 {
        let inverse: u8 = power[255 - k];
        let affine = inverse ^ inverse.rotate_left(1) ^ inverse.rotate_left(2) ^ inverse.rotate_left(3) ^ inverse.rotate_left(4);
        table[power[k] as usize] = affine ^ 0x63;
        k += 1;
    }
    table
};

fn sub(byte: u8) -> u8 {
    SBOX[usize::from(byte)]
}

/// A key, expanded to the words of 11 round keys.
pub struct Aes128([[u8; 4]; 44]);

impl Aes128 {
    /// KeyExpansion.
    pub fn new(key: &[u8; 16]) -> Self {
        let mut words = [[0; 4]; 44];
        for (word, bytes) in words.iter_mut().zip(key.chunks_exact(4)) {
            word.copy_from_slice(bytes);
        }
        let mut constant = 1;
        for i in 4..44 {
            let mut word = words[i - 1];
            if i % 4 == 0 {
                word.rotate_left(1);
                word = word.map(sub);
                word[0] ^= constant;
                constant = double(constant);
            }
            words[i] = std::array::from_fn(|b| words[i - 4][b] ^ word[b]);
        }
        Aes128(words)
    }

    fn add_round_key(&self, round: usize, state: [u8; 16]) -> [u8; 16] {
        std::array::from_fn(|at| state[at] ^ self.0[4 * round + at / 4][at % 4])
    }

    /// Cipher. Byte 4c + r of the state is in row r and column c.
    pub fn encrypt(&self, block: [u8; 16]) -> [u8; 16] {
        let mut state = self.add_round_key(0, block);
        for round in 1..=10 {
            state = shift_rows(state.map(sub));
            if round < 10 {
                state = mix_columns(state);
            }
            state = self.add_round_key(round, state);
        }
        state
    }

    /// Block number c that this key draws as a seed: c as 128 bits, low byte first, enciphered.
    pub fn block(&self, c: u128) -> [u8; 16] {
        self.encrypt(c.to_le_bytes())
    }
}

fn shift_rows(state: [u8; 16]) -> [u8; 16] {
    std::array::from_fn(|at| state[(at + 4 * (at % 4)) % 16])
}

fn mix_columns(state: [u8; 16]) -> [u8; 16] {
    std::array::from_fn(|at| {
        let row = |more: usize| state[at / 4 * 4 + (at + more) % 4];
        double(row(0)) ^ double(row(1)) ^ row(1) ^ row(2) ^ row(3)
    })
}

/// The first bytes that a seed draws: Block 0, Block 1 and so on. The r strings are such, one after another.
pub fn draw(seed: &[u8; 16], len: usize) -> Vec<u8> {
    let key = Aes128::new(seed);
    let mut bytes: Vec<u8> = (0..len.div_ceil(16)).flat_map(|c| key.block(c as u128)).collect();
    bytes.truncate(len);
    bytes
}

#[cfg(test)]
mod tests {
    use super::*;

    fn hex(digits: &str) -> [u8; 16] {
        std::array::from_fn(|at| u8::from_str_radix(&digits[2 * at..][..2], 16).unwrap())
    }

    /// FIPS 197: figure 7, A.1 (every fourth word of the expansion's), B and C.1.
    #[test]
    fn the_standards_vectors() {
        assert_eq!([0x00, 0x01, 0x53, 0x7f, 0x80, 0xff].map(sub), [0x63, 0x7c, 0xed, 0xd2, 0xcd, 0x16]);
        let key = Aes128::new(&hex("2b7e151628aed2a6abf7158809cf4f3c"));
        let first: Vec<u32> = key.0.iter().step_by(4).map(|word| u32::from_be_bytes(*word)).collect();
        assert_eq!(
            first,
            [
                0x2b7e1516, 0xa0fafe17, 0xf2c295f2, 0x3d80477d, 0xef44a541, 0xd4d1c6f8, 0x6d88a37a, 0x4e54f70e, 0xead27321, 0xac7766f3,
                0xd014f9a8
            ]
        );
        assert_eq!(key.0[43], [0xb6, 0x63, 0x0c, 0xa6]);
        assert_eq!(key.encrypt(hex("3243f6a8885a308d313198a2e0370734")), hex("3925841d02dc09fbdc118597196a0b32"));
        let key = Aes128::new(&hex("000102030405060708090a0b0c0d0e0f"));
        assert_eq!(key.encrypt(hex("00112233445566778899aabbccddeeff")), hex("69c4e0d86a7b0430d8cdb78070b4c55a"));
    }

    /// The inverse by search, and the affine map bit by bit.
    #[test]
    fn the_s_box_is_its_rule() {
        let times = |a: u8, b: u8| (0..8).rev().fold(0, |sum, bit| double(sum) ^ (a * (b >> bit & 1)));
        for a in 0..=255u8 {
            let inverse = (0..=255u8).find(|b| times(a, *b) == 1).unwrap_or(0);
            let bit_of = |byte: u8, i: u8| byte >> (i % 8) & 1;
            let bit = |i| bit_of(inverse, i);
            let affine =
                (0..8).fold(0, |byte, i| byte | (bit(i) ^ bit(i + 4) ^ bit(i + 5) ^ bit(i + 6) ^ bit(i + 7) ^ bit_of(0x63, i)) << i);
            assert_eq!(sub(a), affine, "{a}");
        }
    }

    #[test]
    fn blocks_are_numbered_low_byte_first() {
        let seed = hex("000102030405060708090a0b0c0d0e0f");
        let key = Aes128::new(&seed);
        assert_eq!(key.block(0x0102), key.encrypt(hex("02010000000000000000000000000000")));
        assert_eq!(key.block(1 << 120), key.encrypt(hex("00000000000000000000000000000001")));
        let drawn = draw(&seed, 16 * 300);
        assert!([0, 1, 255, 256, 299].iter().all(|c| drawn[16 * c..][..16] == key.block(*c as u128)));
        assert_eq!(draw(&seed, 20), drawn[..20]);
        assert_eq!(drawn[..4], [0xc6, 0xa1, 0x3b, 0x37]);
    }
}
