//! The two packet ciphers behind one interface: which IVs are well formed, sealing, opening.

use crate::aes::Block;
use crate::{ccm, gcm};

#[derive(Clone, Copy, PartialEq, Debug)]
pub enum Cipher {
    Ccm,
    Gcm,
}

pub const LONGEST_CONTENTS: usize = 266;

impl Cipher {
    pub fn name(self) -> &'static str {
        match self {
            Cipher::Ccm => "ccm",
            Cipher::Gcm => "gcm",
        }
    }

    /// The fixed places of an IV with the byte that belongs there, upward.
    pub fn fixed_places(self) -> &'static [(usize, u8)] {
        match self {
            Cipher::Ccm => &[(0, 1), (14, 0), (15, 0)],
            Cipher::Gcm => &[(12, 0), (13, 0), (14, 0), (15, 1)],
        }
    }

    /// The place of the IV's first wrong byte; none if the IV is well formed.
    pub fn first_wrong(self, iv: &Block) -> Option<usize> {
        let wrong = |&&(place, byte): &&(usize, u8)| iv[place] != byte;
        self.fixed_places().iter().find(wrong).map(|&(place, _)| place)
    }

    pub fn seal(self, key: &Block, iv: &Block, contents: &[u8]) -> Vec<u8> {
        match self {
            Cipher::Ccm => ccm::seal(key, iv, contents),
            Cipher::Gcm => gcm::seal(key, iv, contents),
        }
    }

    pub fn open(self, key: &Block, iv: &Block, body: &[u8]) -> Option<Vec<u8>> {
        if body.len() < 16 || body.len() > LONGEST_CONTENTS + 16 {
            return None;
        }
        match self {
            Cipher::Ccm => ccm::open(key, iv, body),
            Cipher::Gcm => gcm::open(key, iv, body),
        }
    }
}

#[cfg(test)]
mod tests {
    use super::*;
    use crate::random::Random;

    #[test]
    fn what_is_sealed_opens_and_what_is_damaged_does_not() {
        let mut random = Random::new(1);
        for cipher in [Cipher::Ccm, Cipher::Gcm] {
            for length in 0..=LONGEST_CONTENTS {
                let key = random.block();
                let mut iv = random.block();
                for &(place, byte) in cipher.fixed_places() {
                    iv[place] = byte;
                }
                assert_eq!(cipher.first_wrong(&iv), None);
                let contents = random.bytes(length);
                let body = cipher.seal(&key, &iv, &contents);
                assert_eq!(body.len(), length + 16);
                assert_eq!(cipher.open(&key, &iv, &body), Some(contents));

                let mut damaged = body.clone();
                damaged[random.below(length + 16)] ^= 1 << random.below(8);
                assert_eq!(cipher.open(&key, &iv, &damaged), None);
                assert_eq!(cipher.open(&key, &iv, &body[1..]), None);
                assert_eq!(cipher.open(&key, &iv, &body[..length + 15]), None);
            }
        }
    }

    #[test]
    fn a_body_outside_16_to_282_bytes_does_not_open() {
        for cipher in [Cipher::Ccm, Cipher::Gcm] {
            let mut iv = [7; 16];
            for &(place, byte) in cipher.fixed_places() {
                iv[place] = byte;
            }
            let long = cipher.seal(&[0; 16], &iv, &[5; LONGEST_CONTENTS + 1]);
            assert_eq!(long.len(), 283);
            assert_eq!(cipher.open(&[0; 16], &iv, &long), None);
            for length in 0..16 {
                assert_eq!(cipher.open(&[0; 16], &iv, &long[..length]), None);
            }
        }
    }

    #[test]
    fn the_first_wrong_byte_is_the_lowest() {
        let ccm = [1, 9, 9, 9, 9, 9, 9, 9, 9, 9, 9, 9, 9, 9, 0, 0];
        let gcm = [9, 9, 9, 9, 9, 9, 9, 9, 9, 9, 9, 9, 0, 0, 0, 1];
        assert_eq!(Cipher::Ccm.first_wrong(&ccm), None);
        assert_eq!(Cipher::Gcm.first_wrong(&gcm), None);
        assert_eq!(Cipher::Ccm.first_wrong(&gcm), Some(0));
        assert_eq!(Cipher::Gcm.first_wrong(&ccm), Some(12));
        assert_eq!(Cipher::Ccm.first_wrong(&[1; 16]), Some(14));
        assert_eq!(Cipher::Gcm.first_wrong(&[0; 16]), Some(15));
    }
}
