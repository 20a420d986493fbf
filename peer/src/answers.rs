//! Answers cases, one line for each: what a block encrypts to, what contents seal to, what a body opens
//! to, what the packer makes.

use crate::aes::{Aes, Block};
use crate::cipher::{Cipher, LONGEST_CONTENTS};
use crate::hex;
use crate::packet::{pack_data, pack_key, well_formed, Data, NewKey};
use crate::refusal::Refusal;
use std::io::{self, BufRead, Write};

/// The most bytes that an output to pack into can have.
const MOST_ROOM: usize = 1024;

/// The words of a case, taken one after the other.
struct Words<'a> {
    words: std::str::Split<'a, char>,
}

impl<'a> Words<'a> {
    fn word(&mut self) -> Option<&'a str> {
        self.words.next()
    }

    /// Decimal digits, at least one; leading zeros are allowed, and a sign is not.
    fn number<T: std::str::FromStr>(&mut self) -> Option<T> {
        let word = self.word()?;
        word.bytes().all(|byte| byte.is_ascii_digit()).then(|| word.parse().ok())?
    }

    fn room(&mut self) -> Option<usize> {
        self.number().filter(|&room| room <= MOST_ROOM)
    }

    fn bytes(&mut self) -> Option<Vec<u8>> {
        hex::from_text(self.word()?)
    }

    fn block(&mut self) -> Option<Block> {
        self.bytes()?.try_into().ok()
    }

    fn cipher(&mut self) -> Option<Cipher> {
        match self.word()? {
            "ccm" => Some(Cipher::Ccm),
            "gcm" => Some(Cipher::Gcm),
            _ => None,
        }
    }
}

/// The result of a case; none if it is not written in one of the five forms.
fn result_of(case: &str) -> Option<Result<Vec<u8>, Refusal>> {
    let mut words = Words { words: case.split(' ') };
    let result = match words.word()? {
        "block" => {
            let (key, block) = (words.block()?, words.block()?);
            Ok(Aes::new(&key).encrypt(&block).to_vec())
        }
        "seal" => {
            let (cipher, key, iv) = (words.cipher()?, words.block()?, words.block()?);
            let contents = words.bytes().filter(|contents| contents.len() <= LONGEST_CONTENTS)?;
            well_formed(cipher, &iv).map(|()| cipher.seal(&key, &iv, &contents))
        }
        "open" => {
            let (cipher, key, iv) = (words.cipher()?, words.block()?, words.block()?);
            let body = words.bytes()?;
            let not_opened = Refusal::without_place(12);
            well_formed(cipher, &iv).and_then(|()| cipher.open(&key, &iv, &body).ok_or(not_opened))
        }
        "data" => {
            let (cipher, key, iv) = (words.cipher()?, words.block()?, words.block()?);
            let (ver, pn, np) = (words.number()?, words.number()?, words.number()?);
            let (address, room) = (words.number()?, words.room()?);
            let bytes = words.bytes()?;
            let data = Data { ver, pn, np, rsv: 0, address, bytes };
            pack_data(cipher, &key, &iv, &data, room)
        }
        "key" => {
            let (cipher, kek, iv) = (words.cipher()?, words.block()?, words.block()?);
            let (kt, kv, room) = (words.number()?, words.number()?, words.room()?);
            let key = words.block()?;
            pack_key(cipher, &kek, &iv, &NewKey { kt, kv, key }, room)
        }
        _ => return None,
    };
    words.word().is_none().then_some(result)
}

fn answer_to(case: &str) -> String {
    match result_of(case) {
        Some(Ok(bytes)) => hex::to_text(&bytes),
        Some(Err(Refusal { number, place })) => format!("refused {number} {place}"),
        None => "malformed".to_string(),
    }
}

pub fn run(input: impl BufRead, mut output: impl Write) -> io::Result<()> {
    for case in input.lines() {
        writeln!(output, "{}", answer_to(&case?))?;
    }
    output.flush()
}

#[cfg(test)]
mod tests {
    use super::*;

    const KEY: &str = "000102030405060708090A0B0C0D0E0F";
    const CCM_IV: &str = "01AAAAAAAAAAAAAAAAAAAAAAAAAA0000";

    #[test]
    fn forms_of_answers() {
        let block = format!("block {KEY} 00112233445566778899AABBCCDDEEFF");
        assert_eq!(answer_to(&block), "69C4E0D86A7B0430D8CDB78070B4C55A");
        let empty = answer_to(&format!("seal ccm {KEY} {CCM_IV} -"));
        assert_eq!(empty.len(), 32);
        assert_eq!(answer_to(&format!("open ccm {KEY} {CCM_IV} {empty}")), "-");
        assert_eq!(answer_to(&format!("open ccm {KEY} {CCM_IV} -")), "refused 12 0");
        assert_eq!(answer_to(&format!("open gcm {KEY} {CCM_IV} -")), "refused 11 12");
        assert_eq!(answer_to(&format!("data ccm {KEY} {CCM_IV} 1 1 1 17408 48 FF")), "refused 6 0");
        assert_eq!(answer_to(&format!("data ccm {KEY} {CCM_IV} 1 1 1 17408 49 FF")).len(), 98);
        assert_eq!(answer_to(&format!("data ccm {KEY} {CCM_IV} 1 1 1 16777216 0 -")), "refused 5 0");
        assert_eq!(answer_to(&format!("key ccm {KEY} {CCM_IV} 1 0 56 {KEY}")).len(), 112);
        assert_eq!(answer_to(&format!("key ccm {KEY} {CCM_IV} 1 0 55 {KEY}")), "refused 6 0");
    }

    #[test]
    fn what_is_not_a_case() {
        for text in ["", "block", "block 00 00", "seal xyz", "key ccm"] {
            assert_eq!(answer_to(text), "malformed");
        }
        assert_eq!(answer_to(&format!("block {KEY} {KEY} {KEY}")), "malformed");
        assert_eq!(answer_to(&format!("data ccm {KEY} {CCM_IV} +1 1 1 17408 49 FF")), "malformed");
        assert_eq!(answer_to(&format!("data ccm {KEY} {CCM_IV} 1 1 1 17408 1025 FF")), "malformed");
    }
}
