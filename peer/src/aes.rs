//! AES with 16-byte keys (FIPS 197), encryption only: both packet modes use no other direction.

pub type Block = [u8; 16];

/// Product of two bytes as polynomials modulo x^8 + x^4 + x^3 + x + 1.
const fn times(mut a: u8, mut b: u8) -> u8 {
    let mut product = 0;
    while b != 0 {
        if b & 1 == 1 {
            product ^= a;
        }
        let carry = a & 0x80 != 0;
        a <<= 1;
        if carry {
            a ^= 0x1B;
        }
        b >>= 1;
    }
    product
}

/// The inverse in the field, as the 254th power; 0 goes to 0.
const fn inverse(a: u8) -> u8 {
    let mut square = a;
    let mut result = 1;
    let mut i = 0;
    while i < 7 {
        square = times(square, square);
        result = times(result, square);
        i += 1;
    }
    result
}

/// The S-box: the field inverse, then the affine map.
const S_BOX: [u8; 256] = {
    let mut table = [0; 256];
    let mut i = 0;
    while i < 256 {
        let b = inverse(i as u8);
        table[i] = b ^ b.rotate_left(1) ^ b.rotate_left(2) ^ b.rotate_left(3) ^ b.rotate_left(4) ^ 0x63;
        i += 1;
    }
    table
};

fn substitute(byte: u8) -> u8 {
    S_BOX[byte as usize]
}

/// A key made ready: the eleven round keys.
pub struct Aes {
    round_keys: [Block; 11],
}

impl Aes {
    pub fn new(key: &Block) -> Aes {
        let mut words = [[0u8; 4]; 44];
        for i in 0..4 {
            words[i].copy_from_slice(&key[4 * i..4 * i + 4]);
        }
        let mut round_constant = 1;
        for i in 4..44 {
            let mut word = words[i - 1];
            if i % 4 == 0 {
                word.rotate_left(1);
                word = word.map(substitute);
                word[0] ^= round_constant;
                round_constant = times(round_constant, 2);
            }
            for j in 0..4 {
                words[i][j] = words[i - 4][j] ^ word[j];
            }
        }
        let mut round_keys = [[0; 16]; 11];
        for (i, word) in words.iter().enumerate() {
            let column = 4 * (i % 4);
            round_keys[i / 4][column..column + 4].copy_from_slice(word);
        }
        Aes { round_keys }
    }

    pub fn encrypt(&self, block: &Block) -> Block {
        let mut state = xor(block, &self.round_keys[0]);
        for round in 1..=10 {
            state = shift_rows(&state.map(substitute));
            if round < 10 {
                state = mix_columns(&state);
            }
            state = xor(&state, &self.round_keys[round]);
        }
        state
    }
}

/// The state is kept column by column: the byte of row r and column c stands at place r + 4c.
fn shift_rows(state: &Block) -> Block {
    std::array::from_fn(|i| state[(i + 4 * (i % 4)) % 16])
}

fn mix_columns(state: &Block) -> Block {
    std::array::from_fn(|i| {
        let column = &state[i / 4 * 4..i / 4 * 4 + 4];
        let row = i % 4;
        times(column[row], 2)
            ^ times(column[(row + 1) % 4], 3)
            ^ column[(row + 2) % 4]
            ^ column[(row + 3) % 4]
    })
}

pub fn xor(a: &Block, b: &Block) -> Block {
    std::array::from_fn(|i| a[i] ^ b[i])
}

#[cfg(test)]
mod tests {
    use super::*;
    use crate::hex::block;

    #[test]
    fn field_examples() {
        assert_eq!(times(0x57, 0x83), 0xC1);
        assert_eq!(times(0x57, 0x13), 0xFE);
        assert_eq!(substitute(0x53), 0xED);
        assert_eq!(substitute(0), 0x63);
        for a in 1..=255 {
            assert_eq!(times(a, inverse(a)), 1);
        }
    }

    #[test]
    fn key_expansion_of_appendix_a() {
        let aes = Aes::new(&block("2B7E151628AED2A6ABF7158809CF4F3C"));
        assert_eq!(aes.round_keys[1], block("A0FAFE1788542CB123A339392A6C7605"));
        assert_eq!(aes.round_keys[10], block("D014F9A8C9EE2589E13F0CC8B6630CA6"));
    }

    #[test]
    fn cipher_example_of_appendix_b() {
        let aes = Aes::new(&block("2B7E151628AED2A6ABF7158809CF4F3C"));
        let sealed = aes.encrypt(&block("3243F6A8885A308D313198A2E0370734"));
        assert_eq!(sealed, block("3925841D02DC09FBDC118597196A0B32"));
    }

    #[test]
    fn example_vector_of_appendix_c1() {
        let aes = Aes::new(&block("000102030405060708090A0B0C0D0E0F"));
        let sealed = aes.encrypt(&block("00112233445566778899AABBCCDDEEFF"));
        assert_eq!(sealed, block("69C4E0D86A7B0430D8CDB78070B4C55A"));
    }
}
