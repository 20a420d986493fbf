//! The cases for `vectors`: blocks, sealing, opening and packing, one case to a line.

use crate::aes::Block;
use crate::cipher::{Cipher, LONGEST_CONTENTS};
use crate::gcm;
use crate::hex;
use crate::random::Random;

const SEED: u64 = 197;
const CIPHERS: [Cipher; 2] = [Cipher::Ccm, Cipher::Gcm];

struct Cases {
    text: String,
    random: Random,
}

pub fn write() -> String {
    let mut cases = Cases { text: String::new(), random: Random::new(SEED) };
    cases.blocks();
    cases.published_gcm();
    for cipher in CIPHERS {
        cases.every_length(cipher);
        cases.plain_patterns(cipher);
        cases.damaged_bodies(cipher);
        cases.body_lengths(cipher);
        cases.malformed_ivs(cipher);
        cases.data_packets(cipher);
        cases.data_refusals(cipher);
        cases.key_packets(cipher);
    }
    cases.every_data_count();
    cases.no_cases();
    cases.text
}

impl Cases {
    // One case each.

    fn line(&mut self, words: &[&str]) {
        self.text += &words.join(" ");
        self.text.push('\n');
    }

    fn block(&mut self, key: &Block, block: &Block) {
        self.line(&["block", &hex::to_text(key), &hex::to_text(block)]);
    }

    /// `seal` or `open`.
    fn cipher(&mut self, form: &str, cipher: Cipher, key: &Block, iv: &Block, bytes: &[u8]) {
        let (key, iv, bytes) = (hex::to_text(key), hex::to_text(iv), hex::to_text(bytes));
        self.line(&[form, cipher.name(), &key, &iv, &bytes]);
    }

    fn seal(&mut self, cipher: Cipher, key: &Block, iv: &Block, contents: &[u8]) {
        self.cipher("seal", cipher, key, iv, contents);
    }

    fn open(&mut self, cipher: Cipher, key: &Block, iv: &Block, body: &[u8]) {
        self.cipher("open", cipher, key, iv, body);
    }

    /// A `data` case under a random key; `numbers` are VER, PN, NP, ADDRESS, ROOM.
    fn data(&mut self, cipher: Cipher, iv: &Block, numbers: [u64; 5], data: &[u8]) {
        let key = hex::to_text(&self.random.block());
        let (iv, data) = (hex::to_text(iv), hex::to_text(data));
        let [ver, pn, np, address, room] = numbers.map(|number| number.to_string());
        self.line(&["data", cipher.name(), &key, &iv, &ver, &pn, &np, &address, &room, &data]);
    }

    /// A `key` case with random keys; `numbers` are KT, KV, ROOM.
    fn key(&mut self, cipher: Cipher, iv: &Block, numbers: [u64; 3]) {
        let kek = hex::to_text(&self.random.block());
        let key = hex::to_text(&self.random.block());
        let iv = hex::to_text(iv);
        let [kt, kv, room] = numbers.map(|number| number.to_string());
        self.line(&["key", cipher.name(), &kek, &iv, &kt, &kv, &room, &key]);
    }

    /// A random well-formed IV.
    fn iv(&mut self, cipher: Cipher) -> Block {
        let mut iv = self.random.block();
        for &(place, byte) in cipher.fixed_places() {
            iv[place] = byte;
        }
        iv
    }

    // Groups of cases.

    /// FIPS 197 appendices B and C.1; one bit set in the block or in the key; random ones.
    fn blocks(&mut self) {
        self.block(
            &hex::block("2B7E151628AED2A6ABF7158809CF4F3C"),
            &hex::block("3243F6A8885A308D313198A2E0370734"),
        );
        self.block(
            &hex::block("000102030405060708090A0B0C0D0E0F"),
            &hex::block("00112233445566778899AABBCCDDEEFF"),
        );
        for (key, block) in [(0x00, 0x00), (0xFF, 0x00), (0x00, 0xFF), (0xFF, 0xFF)] {
            self.block(&[key; 16], &[block; 16]);
        }
        for bit in 0..128 {
            let one = (1u128 << bit).to_be_bytes();
            self.block(&[0; 16], &one);
            self.block(&one, &[0; 16]);
        }
        for _ in 0..200 {
            let (key, block) = (self.random.block(), self.random.block());
            self.block(&key, &block);
        }
    }

    fn published_gcm(&mut self) {
        for [key, iv, contents, body] in gcm::PUBLISHED {
            self.line(&["seal", "gcm", key, iv, contents]);
            self.line(&["open", "gcm", key, iv, body]);
        }
    }

    fn every_length(&mut self, cipher: Cipher) {
        for length in 0..=LONGEST_CONTENTS {
            let (key, iv) = (self.random.block(), self.iv(cipher));
            let contents = self.random.bytes(length);
            self.seal(cipher, &key, &iv, &contents);
            let body = cipher.seal(&key, &iv, &contents);
            self.open(cipher, &key, &iv, &body);
        }
    }

    /// Keys, nonces and contents all 0x00 or all 0xFF.
    fn plain_patterns(&mut self, cipher: Cipher) {
        for (key, nonce, byte) in
            [(0x00, 0x00, 0x00), (0xFF, 0xFF, 0xFF), (0x00, 0xFF, 0x00), (0xFF, 0x00, 0xFF)]
        {
            let mut iv = [nonce; 16];
            for &(place, fixed) in cipher.fixed_places() {
                iv[place] = fixed;
            }
            for length in [0, 1, 15, 16, 17, 32, 256, 266] {
                let contents = vec![byte; length];
                self.seal(cipher, &[key; 16], &iv, &contents);
                let body = cipher.seal(&[key; 16], &iv, &contents);
                self.open(cipher, &[key; 16], &iv, &body);
            }
        }
    }

    /// A rightly sealed body, then one change at a time.
    fn damaged_bodies(&mut self, cipher: Cipher) {
        for length in [0, 1, 2, 11, 15, 16, 17, 18, 31, 32, 33, 48, 100, 255, 256, 265, 266] {
            let (key, iv) = (self.random.block(), self.iv(cipher));
            let contents = self.random.bytes(length);
            let body = cipher.seal(&key, &iv, &contents);
            self.open(cipher, &key, &iv, &body);

            // Bytes of the ciphertext and of the tag: all of them in short bodies.
            let places: Vec<usize> = if length < 20 {
                (0..length + 16).collect()
            } else {
                vec![0, length / 2, length - 1, length, length + 7, length + 15]
            };
            for place in places {
                let mut damaged = body.clone();
                damaged[place] ^= 1 << self.random.below(8);
                self.open(cipher, &key, &iv, &damaged);
            }
            // Nonce and key.
            let mut other_iv = iv;
            other_iv[1 + self.random.below(11)] ^= 1 << self.random.below(8);
            self.open(cipher, &key, &other_iv, &body);
            let mut other_key = key;
            other_key[self.random.below(16)] ^= 1 << self.random.below(8);
            self.open(cipher, &other_key, &iv, &body);
            // Shortened and lengthened, at both ends.
            self.open(cipher, &key, &iv, &body[..length + 15]);
            self.open(cipher, &key, &iv, &body[1..]);
            self.open(cipher, &key, &iv, &body[..length]);
            self.open(cipher, &key, &iv, &body[length..]);
            self.open(cipher, &key, &iv, &[&body[..], &[0]].concat());
            self.open(cipher, &key, &iv, &[&[0], &body[..]].concat());
            self.open(cipher, &key, &iv, &[&body[..length], &[0], &body[length..]].concat());
            // The tag in front, no tag, the clear contents before the tag.
            self.open(cipher, &key, &iv, &[&body[length..], &body[..length]].concat());
            self.open(cipher, &key, &iv, &[&body[..length], &[0; 16]].concat());
            self.open(cipher, &key, &iv, &[&contents[..], &body[length..]].concat());
        }
    }

    /// Bodies under 16 and above 282 bytes, also rightly sealed ones.
    fn body_lengths(&mut self, cipher: Cipher) {
        let (key, iv) = (self.random.block(), self.iv(cipher));
        let empty = cipher.seal(&key, &iv, &[]);
        for length in 0..=16 {
            self.open(cipher, &key, &iv, &empty[..length]);
        }
        for length in [0, 1, 15, 16, 17, 281, 282, 283, 284, 298, 299, 300, 400] {
            let body = self.random.bytes(length);
            self.open(cipher, &key, &iv, &body);
        }
        for length in [265, 266, 267, 268, 272, 282, 283, 300] {
            let contents = self.random.bytes(length);
            let body = cipher.seal(&key, &iv, &contents);
            self.open(cipher, &key, &iv, &body);
        }
    }

    /// Each fixed byte of the IV, and several; for sealing, opening and packing.
    fn malformed_ivs(&mut self, cipher: Cipher) {
        let places = cipher.fixed_places();
        let mut ivs = Vec::new();
        for &(place, byte) in places {
            for other in [0x00, 0x01, 0x02, 0x80, 0xFF, byte ^ 0x10] {
                let mut iv = self.iv(cipher);
                iv[place] = other;
                ivs.push(iv);
            }
        }
        // Every choice of wrong places.
        for choice in 0..1 << places.len() {
            let mut iv = self.iv(cipher);
            for (i, &(place, _)) in places.iter().enumerate() {
                if choice >> i & 1 == 1 {
                    iv[place] ^= 1 << self.random.below(8);
                }
            }
            ivs.push(iv);
        }
        // Those of the other cipher, all alike, and random ones.
        for other in CIPHERS {
            ivs.push(self.iv(other));
        }
        ivs.extend([[0x00; 16], [0x01; 16], [0xFF; 16]]);
        for _ in 0..10 {
            ivs.push(self.random.block());
        }
        for iv in ivs {
            let key = self.random.block();
            let length = self.random.below(24);
            let contents = self.random.bytes(length);
            self.seal(cipher, &key, &iv, &contents);
            let body = cipher.seal(&key, &iv, &contents);
            self.open(cipher, &key, &iv, &body);
            let short = self.random.below(16);
            self.open(cipher, &key, &iv, &body[..short]);
            self.data(cipher, &iv, [1, 1, 1, 0x4400, 100], &[0x5A]);
            self.key(cipher, &iv, [0, 1, 100]);
        }
    }

    /// Data packets that are packed: the borders of each number, and random ones.
    fn data_packets(&mut self, cipher: Cipher) {
        let vers = [0, 1, 127, 128, 255];
        let numbers = [0, 1, 2, 255, 256, 257, 0x8000, 65535];
        let addresses = [0, 1, 0xFF, 0x100, 0x1800, 0x4400, 0xFFFE, 0x10000, 0x13FFF, 0x14000, 0xFF_FFFF];
        for ver in vers {
            let iv = self.iv(cipher);
            self.data(cipher, &iv, [ver, 1, 1, 0x4400, 304], &[0xA5; 4]);
        }
        for number in numbers {
            let iv = self.iv(cipher);
            self.data(cipher, &iv, [1, number, 9, 0x4400, 304], &[0xA5; 4]);
            let iv = self.iv(cipher);
            self.data(cipher, &iv, [1, 9, number, 0x4400, 304], &[0xA5; 4]);
        }
        for address in addresses {
            let iv = self.iv(cipher);
            self.data(cipher, &iv, [1, 2, 3, address, 304], &[0xA5; 4]);
        }
        for _ in 0..100 {
            let iv = self.iv(cipher);
            let fields = [
                self.random.below(256) as u64,
                self.random.below(65536) as u64,
                self.random.below(65536) as u64,
                self.random.below(0x100_0000) as u64,
                304 + self.random.below(100) as u64,
            ];
            let count = 1 + self.random.below(40);
            let bytes = self.random.bytes(count);
            self.data(cipher, &iv, fields, &bytes);
        }
    }

    /// Each choice of the four faults (count, address, IV, room), for both wrong counts; then each border.
    fn data_refusals(&mut self, cipher: Cipher) {
        for wrong_count in [0, 257] {
            for faults in 0..16 {
                let count = if faults & 1 == 1 { wrong_count } else { 7 };
                let address = if faults & 2 == 2 { 0x100_0000 } else { 0x4400 };
                let mut iv = self.iv(cipher);
                if faults & 4 == 4 {
                    iv[15] ^= 0x40;
                }
                let room = if faults & 8 == 8 { 48 + count - 1 } else { 48 + count };
                let bytes = self.random.bytes(count);
                self.data(cipher, &iv, [1, 1, 1, address, room as u64], &bytes);
            }
        }
        for address in [0xFF_FFFF, 0x100_0000, 0x100_4400, 0x4000_0000, 0x8000_4400, 0xFFFF_FFFF] {
            let iv = self.iv(cipher);
            self.data(cipher, &iv, [1, 1, 1, address, 400], &[0x11]);
        }
        for count in [1, 2, 16, 255, 256] {
            let full = 48 + count as u64;
            for room in [0, 1, 47, 48, full - 1, full, full + 1, full + 95, 1000] {
                let iv = self.iv(cipher);
                let bytes = self.random.bytes(count);
                self.data(cipher, &iv, [1, 1, 1, 0x4400, room], &bytes);
            }
        }
        for count in [0, 1, 256, 257, 258, 300] {
            let iv = self.iv(cipher);
            let bytes = self.random.bytes(count);
            self.data(cipher, &iv, [1, 1, 1, 0x4400, 400], &bytes);
        }
    }

    fn key_packets(&mut self, cipher: Cipher) {
        for kt in [0, 1, 2, 3, 255] {
            for kv in [0, 1, 128, 255] {
                let iv = self.iv(cipher);
                self.key(cipher, &iv, [kt, kv, 56]);
            }
        }
        for room in [0, 1, 48, 51, 55, 56, 57, 64, 304, 1000] {
            let mut iv = self.iv(cipher);
            self.key(cipher, &iv, [2, 7, room]);
            let (place, byte) = cipher.fixed_places()[1];
            iv[place] = byte ^ 2;
            self.key(cipher, &iv, [2, 7, room]);
        }
        for _ in 0..50 {
            let iv = self.iv(cipher);
            let (kt, kv) = (self.random.byte() as u64, self.random.byte() as u64);
            self.key(cipher, &iv, [kt, kv, 56]);
        }
    }

    /// Data packets of 1 to 256 data bytes, with room exactly enough, and one short.
    fn every_data_count(&mut self) {
        for count in 1..=256 {
            let cipher = CIPHERS[count % 2];
            let (iv, bytes) = (self.iv(cipher), self.random.bytes(count));
            let room = 48 + count as u64;
            self.data(cipher, &iv, [3, 4, 5, 0x4400, room], &bytes);
            let (iv, bytes) = (self.iv(cipher), self.random.bytes(count));
            self.data(cipher, &iv, [3, 4, 5, 0x4400, room - 1], &bytes);
        }
    }

    /// Lines that are no cases, each a small change away from one; and some that still are.
    fn no_cases(&mut self) {
        let key = hex::to_text(&self.random.block());
        let iv = hex::to_text(&self.iv(Cipher::Ccm));
        let long = hex::to_text(&self.random.bytes(LONGEST_CONTENTS + 1));
        let sealed = format!("ccm {key} {iv}");
        for line in [
            "".to_string(),
            " ".to_string(),
            "block".to_string(),
            format!("Block {key} {key}"),
            format!("block {key} {key} "),
            format!(" block {key} {key}"),
            format!("block  {key} {key}"),
            format!("block {key} {key} {key}"),
            format!("block {key}0 {key}"),
            format!("block {key} {}", &key[1..]),
            format!("block {} {key}", key.to_lowercase()),
            format!("block {}G {key}", &key[1..]),
            format!("block -{} {key}", &key[1..]),
            format!("seal {sealed} {long}"),
            format!("seal {sealed} 0"),
            format!("seal {sealed} "),
            format!("seal {sealed} --"),
            format!("seal {sealed}"),
            format!("seal CCM {key} {iv} -"),
            format!("seal ccm {key} {iv}00 -"),
            format!("open {sealed} 0G"),
            format!("open gcm {key} {} -", &iv[2..]),
            format!("data {sealed} 256 1 1 17408 49 FF"),
            format!("data {sealed} 1 65536 1 17408 49 FF"),
            format!("data {sealed} 1 1 65536 17408 49 FF"),
            format!("data {sealed} 1 1 1 4294967296 49 FF"),
            format!("data {sealed} 1 1 1 17408 1025 FF"),
            format!("data {sealed} 1 1 1 17408 1024 FF"),
            format!("data {sealed} 1 1 1 0x4400 49 FF"),
            format!("data {sealed} 001 01 1 17408 0000000049 fF"),
            format!("data {sealed} +1 1 1 17408 49 FF"),
            format!("data {sealed} 1 -1 1 17408 49 FF"),
            format!("data {sealed} 1  1 17408 49 FF"),
            format!("key {sealed} 256 1 56 {key}"),
            format!("key {sealed} 0 256 56 {key}"),
            format!("key {sealed} 0 1 1025 {key}"),
            format!("key {sealed} 0 1 1024 {key}"),
            format!("key {sealed} 0 1 56 {key}00"),
            format!("key {sealed} 0 1 56 -"),
        ] {
            self.line(&[&line]);
        }
    }
}

#[cfg(test)]
mod tests {
    use super::*;
    use crate::answers::run;

    #[test]
    fn each_case_is_answered_and_every_refusal_occurs() {
        let cases = write();
        let mut answers = Vec::new();
        run(cases.as_bytes(), &mut answers).unwrap();
        let answers = String::from_utf8(answers).unwrap();
        assert_eq!(answers.lines().count(), cases.lines().count());
        for refusal in ["5 0", "6 0", "7 0", "11 0", "11 12", "11 13", "11 14", "11 15", "12 0"] {
            let text = format!("refused {refusal}");
            assert!(answers.lines().any(|line| line == text), "{text}");
        }
    }

    #[test]
    fn only_the_last_lines_are_no_cases() {
        let cases = write();
        let mut answers = Vec::new();
        run(cases.as_bytes(), &mut answers).unwrap();
        let answers = String::from_utf8(answers).unwrap();
        let malformed = |answers: &str| answers.lines().filter(|line| *line == "malformed").count();
        let count = malformed(&answers);
        assert!(count > 30);
        let last = answers.lines().count() - 39;
        assert_eq!(malformed(&answers.lines().take(last).collect::<Vec<_>>().join("\n")), 0);
    }
}
