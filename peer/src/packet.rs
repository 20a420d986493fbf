//! Packets and frames, and the packer with its refusals.

use crate::aes::Block;
use crate::cipher::Cipher;
use crate::crc::checksum;
use crate::refusal::Refusal;

pub const DATA_PACKET: u8 = 0x30;
pub const KEY_PACKET: u8 = 0x31;

pub fn frame(core: &[u8]) -> Vec<u8> {
    let mut frame = vec![0x80];
    frame.extend((core.len() as u16).to_le_bytes());
    frame.extend(core);
    frame.extend(checksum(core).to_le_bytes());
    frame
}

/// The clear part of a data packet.
#[derive(Clone)]
pub struct Data {
    pub ver: u8,
    pub pn: u16,
    pub np: u16,
    pub rsv: u16,
    pub address: u32,
    pub bytes: Vec<u8>,
}

impl Data {
    pub fn contents(&self) -> Vec<u8> {
        let mut contents = vec![self.ver];
        contents.extend(self.pn.to_le_bytes());
        contents.extend(self.np.to_le_bytes());
        contents.extend(self.rsv.to_le_bytes());
        contents.extend(&self.address.to_le_bytes()[..3]);
        contents.extend(&self.bytes);
        contents
    }

    /// What was written by `contents`; there are at least 10 bytes.
    pub fn from_contents(contents: &[u8]) -> Data {
        let word = |place: usize| u16::from_le_bytes([contents[place], contents[place + 1]]);
        Data {
            ver: contents[0],
            pn: word(1),
            np: word(3),
            rsv: word(5),
            address: u32::from_le_bytes([contents[7], contents[8], contents[9], 0]),
            bytes: contents[10..].to_vec(),
        }
    }
}

/// The clear part of a key packet.
#[derive(Clone)]
pub struct NewKey {
    pub kt: u8,
    pub kv: u8,
    pub key: Block,
}

impl NewKey {
    pub fn contents(&self) -> Vec<u8> {
        let mut contents = vec![self.kt, self.kv];
        contents.extend(self.key);
        contents
    }
}

/// The core command of a packet with any contents; nothing is judged.
pub fn core(command: u8, cipher: Cipher, key: &Block, iv: &Block, contents: &[u8]) -> Vec<u8> {
    let mut core = vec![command];
    core.extend(iv);
    core.extend(cipher.seal(key, iv, contents));
    core
}

pub fn well_formed(cipher: Cipher, iv: &Block) -> Result<(), Refusal> {
    match cipher.first_wrong(iv) {
        Some(place) => Err(Refusal::at(11, place)),
        None => Ok(()),
    }
}

fn room_for(length: usize, room: usize) -> Result<(), Refusal> {
    if room < length {
        return Err(Refusal::without_place(6));
    }
    Ok(())
}

/// Packs a data packet into an output of `room` bytes.
pub fn pack_data(
    cipher: Cipher,
    key: &Block,
    iv: &Block,
    data: &Data,
    room: usize,
) -> Result<Vec<u8>, Refusal> {
    let count = data.bytes.len();
    if !(1..=256).contains(&count) {
        return Err(Refusal::without_place(5));
    }
    if data.address > 0xFF_FFFF {
        return Err(Refusal::without_place(7));
    }
    well_formed(cipher, iv)?;
    room_for(48 + count, room)?;
    Ok(frame(&core(DATA_PACKET, cipher, key, iv, &data.contents())))
}

/// Packs a key packet into an output of `room` bytes.
pub fn pack_key(
    cipher: Cipher,
    kek: &Block,
    iv: &Block,
    new: &NewKey,
    room: usize,
) -> Result<Vec<u8>, Refusal> {
    well_formed(cipher, iv)?;
    room_for(56, room)?;
    Ok(frame(&core(KEY_PACKET, cipher, kek, iv, &new.contents())))
}

#[cfg(test)]
mod tests {
    use super::*;

    const IV: Block = [1, 2, 3, 4, 5, 6, 7, 8, 9, 10, 11, 12, 13, 14, 0, 0];

    fn data(count: usize, address: u32) -> Data {
        let bytes = vec![0xA5; count];
        Data { ver: 1, pn: 2, np: 3, rsv: 0, address, bytes }
    }

    #[test]
    fn a_version_query_frame() {
        assert_eq!(frame(&[0x19]), [0x80, 1, 0, 0x19, 0xE8, 0x62]);
    }

    #[test]
    fn lengths() {
        for count in 1..=256 {
            let packed = pack_data(Cipher::Ccm, &[0; 16], &IV, &data(count, 0x4400), 304);
            let packed = packed.unwrap();
            assert_eq!(packed.len(), 48 + count);
            let opened = Cipher::Ccm.open(&[0; 16], &IV, &packed[20..packed.len() - 2]);
            assert_eq!(opened, Some(data(count, 0x4400).contents()));
        }
        let new = NewKey { kt: 2, kv: 9, key: [3; 16] };
        assert_eq!(pack_key(Cipher::Ccm, &[0; 16], &IV, &new, 56).unwrap().len(), 56);
    }

    #[test]
    fn contents_have_low_bytes_first() {
        let data = Data { ver: 1, pn: 0x0203, np: 0x0405, rsv: 0x0607, address: 0x08090A, bytes: vec![0x0B] };
        let contents = data.contents();
        assert_eq!(contents, [1, 3, 2, 5, 4, 7, 6, 0x0A, 9, 8, 0x0B]);
        assert_eq!(Data::from_contents(&contents).contents(), contents);
    }

    #[test]
    fn refusals_in_their_order() {
        let number = |count, address, iv: &Block, room| {
            pack_data(Cipher::Ccm, &[0; 16], iv, &data(count, address), room)
                .err()
                .map(|refusal| (refusal.number, refusal.place))
        };
        let bad_iv = [1; 16];
        assert_eq!(number(0, 0x100_0000, &bad_iv, 0), Some((5, 0)));
        assert_eq!(number(257, 0x100_0000, &bad_iv, 0), Some((5, 0)));
        assert_eq!(number(1, 0x100_0000, &bad_iv, 0), Some((7, 0)));
        assert_eq!(number(1, 0xFF_FFFF, &bad_iv, 0), Some((11, 14)));
        assert_eq!(number(1, 0xFF_FFFF, &IV, 48), Some((6, 0)));
        assert_eq!(number(1, 0xFF_FFFF, &IV, 49), None);
        let new = NewKey { kt: 1, kv: 0, key: [0; 16] };
        let short = pack_key(Cipher::Ccm, &[0; 16], &IV, &new, 55);
        assert_eq!(short, Err(Refusal { number: 6, place: 0 }));
        let both = pack_key(Cipher::Gcm, &[0; 16], &IV, &new, 55);
        assert_eq!(both, Err(Refusal { number: 11, place: 12 }));
    }
}
