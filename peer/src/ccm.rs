//! CCM over AES (SP 800-38C, RFC 3610): no associated data, a tag of 16 bytes, a nonce of 13 bytes and so a
//! length field of 2. The IV is counter block 0: `01`, the nonce, `00 00`.

use crate::aes::{xor, Aes, Block};

/// The MAC: CBC over the first block and the contents, filled up with zeros.
fn mac(aes: &Aes, iv: &Block, contents: &[u8]) -> Block {
    let mut first = *iv;
    first[0] = 0x39;
    first[14..].copy_from_slice(&(contents.len() as u16).to_be_bytes());
    let mut sum = aes.encrypt(&first);
    for chunk in contents.chunks(16) {
        let mut block = [0; 16];
        block[..chunk.len()].copy_from_slice(chunk);
        sum = aes.encrypt(&xor(&sum, &block));
    }
    sum
}

/// Adds the key stream of the counter blocks 1, 2, and so on; done twice it changes nothing.
fn add_stream(aes: &Aes, iv: &Block, bytes: &mut [u8]) {
    for (i, chunk) in bytes.chunks_mut(16).enumerate() {
        let mut counter = *iv;
        counter[14..].copy_from_slice(&(i as u16 + 1).to_be_bytes());
        let stream = aes.encrypt(&counter);
        for (byte, extra) in chunk.iter_mut().zip(stream) {
            *byte ^= extra;
        }
    }
}

fn tag(aes: &Aes, iv: &Block, contents: &[u8]) -> Block {
    xor(&mac(aes, iv, contents), &aes.encrypt(iv))
}

pub fn seal(key: &Block, iv: &Block, contents: &[u8]) -> Vec<u8> {
    let aes = Aes::new(key);
    let mut body = contents.to_vec();
    add_stream(&aes, iv, &mut body);
    body.extend(tag(&aes, iv, contents));
    body
}

/// The contents, if the tag is theirs. The body has at least 16 bytes.
pub fn open(key: &Block, iv: &Block, body: &[u8]) -> Option<Vec<u8>> {
    let aes = Aes::new(key);
    let (sealed, given_tag) = body.split_at(body.len() - 16);
    let mut contents = sealed.to_vec();
    add_stream(&aes, iv, &mut contents);
    (tag(&aes, iv, &contents) == given_tag).then_some(contents)
}

#[cfg(test)]
mod tests {
    use super::*;
    use crate::hex::{block, from_text};

    /// RFC 3610 has no example with a tag of 16 bytes; these two were made with OpenSSL.
    #[test]
    fn cases_of_another_library() {
        let key = block("000102030405060708090A0B0C0D0E0F");
        let iv = block("01101112131415161718191A1B1C0000");
        let cases = [
            ("-", "D5E7B9742ADEC972909274ECBE50C0C9"),
            (
                "202122232425262728292A2B2C2D2E2F3031323334353637",
                "5CC052629C79C8F3937062BA032A42AE1AE2674A4BA2A81D\
                 8CCE0A3DDD10614C3F690A7681E84949",
            ),
        ];
        for (contents, body) in cases {
            let contents = from_text(contents).unwrap();
            let body = from_text(body).unwrap();
            assert_eq!(seal(&key, &iv, &contents), body);
            assert_eq!(open(&key, &iv, &body), Some(contents));
        }
    }
}
