//! GCM over AES (SP 800-38D): no associated data, a tag of 16 bytes, a nonce of 12 bytes. The IV is the
//! block J0: the nonce, `00 00 00 01`.

use crate::aes::{xor, Aes, Block};

/// Product in the field of GHASH, bit by bit; the leftmost bit of a block is the coefficient of x^0.
fn times(a: u128, b: u128) -> u128 {
    let mut product = 0;
    let mut shifted = b;
    for i in (0..128).rev() {
        if a >> i & 1 == 1 {
            product ^= shifted;
        }
        let carry = shifted & 1 == 1;
        shifted >>= 1;
        if carry {
            shifted ^= 0xE1 << 120;
        }
    }
    product
}

/// GHASH over the sealed bytes, filled up with zeros, and the block of the two lengths in bits.
fn ghash(aes: &Aes, sealed: &[u8]) -> Block {
    let h = u128::from_be_bytes(aes.encrypt(&[0; 16]));
    let mut sum = 0;
    for chunk in sealed.chunks(16) {
        let mut block = [0; 16];
        block[..chunk.len()].copy_from_slice(chunk);
        sum = times(sum ^ u128::from_be_bytes(block), h);
    }
    let lengths = 8 * sealed.len() as u128;
    times(sum ^ lengths, h).to_be_bytes()
}

/// Adds the key stream of the counter blocks behind J0; done twice it changes nothing.
fn add_stream(aes: &Aes, j0: &Block, bytes: &mut [u8]) {
    let mut counter = *j0;
    for chunk in bytes.chunks_mut(16) {
        let count = u32::from_be_bytes([counter[12], counter[13], counter[14], counter[15]]);
        counter[12..].copy_from_slice(&count.wrapping_add(1).to_be_bytes());
        let stream = aes.encrypt(&counter);
        for (byte, extra) in chunk.iter_mut().zip(stream) {
            *byte ^= extra;
        }
    }
}

fn tag(aes: &Aes, j0: &Block, sealed: &[u8]) -> Block {
    xor(&ghash(aes, sealed), &aes.encrypt(j0))
}

pub fn seal(key: &Block, iv: &Block, contents: &[u8]) -> Vec<u8> {
    let aes = Aes::new(key);
    let mut body = contents.to_vec();
    add_stream(&aes, iv, &mut body);
    let tag = tag(&aes, iv, &body);
    body.extend(tag);
    body
}

/// The contents, if the tag is theirs. The body has at least 16 bytes.
pub fn open(key: &Block, iv: &Block, body: &[u8]) -> Option<Vec<u8>> {
    let aes = Aes::new(key);
    let (sealed, given_tag) = body.split_at(body.len() - 16);
    if tag(&aes, iv, sealed) != given_tag {
        return None;
    }
    let mut contents = sealed.to_vec();
    add_stream(&aes, iv, &mut contents);
    Some(contents)
}

/// The GCM authors' test cases 1 to 3: AES-128, a 96-bit IV (written here as J0), no associated data. Each
/// is key, IV, contents, body.
pub const PUBLISHED: [[&str; 4]; 3] = [
    [
        "00000000000000000000000000000000",
        "00000000000000000000000000000001",
        "-",
        "58E2FCCEFA7E3061367F1D57A4E7455A",
    ],
    [
        "00000000000000000000000000000000",
        "00000000000000000000000000000001",
        "00000000000000000000000000000000",
        "0388DACE60B6A392F328C2B971B2FE78AB6E47D42CEC13BDF53A67B21257BDDF",
    ],
    [
        "FEFFE9928665731C6D6A8F9467308308",
        "CAFEBABEFACEDBADDECAF88800000001",
        "D9313225F88406E5A55909C5AFF5269A86A7A9531534F7DA2E4C303D8A318A72\
         1C3C0C95956809532FCF0E2449A6B525B16AEDF5AA0DE657BA637B391AAFD255",
        "42831EC2217774244B7221B784D0D49CE3AA212F2C02A4E035C17E2329ACA12E\
         21D514B25466931C7D8F6A5AAC84AA051BA30B396A0AAC973D58E091473F5985\
         4D5C2AF327CD64A62CF35ABD2BA6FAB4",
    ],
];

#[cfg(test)]
mod tests {
    use super::*;
    use crate::hex::{block, from_text};

    #[test]
    fn published_cases() {
        for [key, iv, contents, body] in PUBLISHED {
            let (key, iv) = (block(key), block(iv));
            let contents = from_text(contents).unwrap();
            let body = from_text(body).unwrap();
            assert_eq!(seal(&key, &iv, &contents), body);
            assert_eq!(open(&key, &iv, &body), Some(contents));
        }
    }
}
