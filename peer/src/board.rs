//! The board: its memory, receiver, session and power, and its answer to each call. Buffers are always of
//! full size here, so that the refusals 1 and 2 never come up. The cipher is CCM.

use crate::aes::Block;
use crate::cipher::Cipher;
use crate::crc::checksum;
use crate::packet::{frame, well_formed, Data, DATA_PACKET, KEY_PACKET};
use crate::refusal::Refusal;

/// A call of the board. A power-up without a number has a supply with no end.
#[derive(Clone, Copy, PartialEq, Debug)]
pub enum Event {
    Byte(u8),
    Silence,
    Question,
    PowerUp(Option<u32>),
}

/// The refusal or none, and then the bytes sent, or what a boot question found.
#[derive(Clone, PartialEq, Debug)]
pub struct Answer {
    pub refusal: Option<Refusal>,
    pub shown: Vec<u8>,
}

impl Answer {
    /// The refusal's number or 0.
    pub fn number(&self) -> u8 {
        self.refusal.map_or(0, |refusal| refusal.number)
    }
}

pub const APPLICATION: u8 = 1;
pub const BLANK: u8 = 2;
pub const UNFINISHED: u8 = 3;

const DARK: Refusal = Refusal { number: 3, place: 0 };
const CIPHER: Cipher = Cipher::Ccm;

/// The areas of the map: info, lower, table, upper, each with its first address and the one behind its last.
const AREAS: [(usize, usize); 4] =
    [(0x1800, 0x1A00), (0x4400, 0xF000), (0xFF80, 0x10000), (0x10000, 0x14000)];
const VECTOR: usize = 0xFFFE;

/// One storing step.
enum Step {
    Store(usize, u8),
    SetVector([u8; 2]),
    SetVersion(u8, bool),
    SetKey(usize, HeldKey),
}

#[derive(Clone, Copy)]
pub struct HeldKey {
    pub key: Block,
    pub version: u8,
}

/// An update under way: the packet number that it expects, and its number of packets.
#[derive(Clone, Copy)]
pub struct Session {
    pub next: u16,
    pub np: u16,
}

/// All that a board is. `bytes` goes by address, with unused bytes between the areas; `keys` has the data
/// key and the KEK; `received` has what came of the present frame, nothing if the receiver is idle.
pub struct Board {
    bytes: Vec<u8>,
    pub version: u8,
    pub mark: bool,
    pub keys: [HeldKey; 2],
    supply: Option<u32>,
    pub dark: bool,
    pub received: Vec<u8>,
    pub session: Option<Session>,
}

/// The answers of a fresh board to a list of calls, one for each.
pub fn answers(events: &[Event]) -> Vec<Answer> {
    let mut board = Board::fresh();
    events.iter().map(|&event| board.call(event)).collect()
}

fn outside_map(address: usize) -> bool {
    !AREAS.iter().any(|&(first, end)| first <= address && address < end)
}

fn quiet(refusal: Option<Refusal>) -> Answer {
    Answer { refusal, shown: Vec::new() }
}

/// The byte 0 and an answer frame behind it.
fn framed(refusal: Option<Refusal>, core: &[u8]) -> Answer {
    let mut shown = vec![0];
    shown.extend(frame(core));
    Answer { refusal, shown }
}

fn message(refusal: Option<Refusal>) -> Answer {
    let byte = match refusal {
        None => 0x00,
        Some(Refusal { number: 9, .. }) => 0x07,
        Some(_) => 0x05,
    };
    framed(refusal, &[0x3B, byte])
}

fn mass_erase() -> Vec<Step> {
    let mut steps = vec![Step::SetVector([0xFF, 0xFF])];
    for (first, end) in [(0xFFC0, VECTOR), AREAS[1], AREAS[3]] {
        steps.extend((first..end).map(|address| Step::Store(address, 0xFF)));
    }
    steps
}

impl Board {
    /// A fresh board: image all 0xFF, both keys zero, supply without end.
    pub fn fresh() -> Board {
        let zero = HeldKey { key: [0; 16], version: 0 };
        Board {
            bytes: vec![0xFF; 0x14000],
            version: 0,
            mark: false,
            keys: [zero, zero],
            supply: None,
            dark: false,
            received: Vec::new(),
            session: None,
        }
    }

    pub fn call(&mut self, event: Event) -> Answer {
        match event {
            Event::PowerUp(supply) => {
                self.supply = supply;
                self.dark = false;
                self.received.clear();
                self.session = None;
                quiet(None)
            }
            _ if self.dark => quiet(Some(DARK)),
            Event::Byte(byte) => self.receive(byte),
            Event::Silence => {
                self.received.clear();
                quiet(None)
            }
            Event::Question => Answer { refusal: None, shown: vec![self.boot()] },
        }
    }

    fn boot(&self) -> u8 {
        if self.mark {
            UNFINISHED
        } else if self.bytes[VECTOR..VECTOR + 2] == [0xFF, 0xFF] {
            BLANK
        } else {
            APPLICATION
        }
    }

    /// Takes one byte; the number of bytes received so far says what it is.
    fn receive(&mut self, byte: u8) -> Answer {
        self.received.push(byte);
        let got = self.received.len();
        if got == 1 && byte != 0x80 {
            return self.bad_frame(Refusal::at(81, byte));
        }
        if got < 3 {
            return quiet(None);
        }
        let length = u16::from_le_bytes([self.received[1], self.received[2]]) as usize;
        if length == 0 {
            return self.bad_frame(Refusal::without_place(83));
        }
        if length > 299 {
            return self.bad_frame(Refusal::at(84, length));
        }
        if got < length + 5 {
            return quiet(None);
        }
        let core = self.received[3..length + 3].to_vec();
        let sum = u16::from_le_bytes([self.received[length + 3], self.received[length + 4]]);
        if sum != checksum(&core) {
            return self.bad_frame(Refusal::at(82, sum));
        }
        self.received.clear();
        self.obey(&core)
    }

    fn bad_frame(&mut self, refusal: Refusal) -> Answer {
        self.received.clear();
        Answer { refusal: Some(refusal), shown: vec![refusal.number] }
    }

    fn obey(&mut self, core: &[u8]) -> Answer {
        let result = match core {
            [0x15] => {
                self.session = None;
                self.perform(mass_erase())
            }
            [0x19] => return framed(None, &[0x3A, 0x00, 0x58, 0x56, 0xB5]),
            [0x25] => {
                self.session = None;
                return quiet(None);
            }
            [DATA_PACKET, ..] => self.data_packet(core),
            [KEY_PACKET, ..] => self.key_packet(core),
            _ => Err(Refusal::at(9, core[0])),
        };
        match result {
            Ok(()) => message(None),
            Err(DARK) => quiet(Some(DARK)),
            Err(refusal) => message(Some(refusal)),
        }
    }

    /// The contents of a packet of a right length.
    fn open(&self, core: &[u8], key: usize) -> Result<Vec<u8>, Refusal> {
        let iv: Block = core[1..17].try_into().unwrap();
        well_formed(CIPHER, &iv)?;
        CIPHER.open(&self.keys[key].key, &iv, &core[17..]).ok_or(Refusal::without_place(12))
    }

    fn data_packet(&mut self, core: &[u8]) -> Result<(), Refusal> {
        if core.len() < 44 {
            return Err(Refusal::at(10, core.len()));
        }
        let data = Data::from_contents(&self.open(core, 0)?);
        let Data { ver, pn, np, .. } = data;
        if pn == 0 || np == 0 || pn > np {
            return Err(Refusal::at(20, pn));
        }
        if pn == 1 {
            let may_open = ver > self.version || (ver == self.version && self.mark);
            if !may_open {
                return Err(Refusal::at(21, pn));
            }
        } else {
            let follows = match self.session {
                Some(session) => pn == session.next && np == session.np && ver == self.version,
                None => false,
            };
            if !follows {
                return Err(Refusal::at(22, pn));
            }
        }
        let addresses = data.address as usize..data.address as usize + data.bytes.len();
        if let Some(address) = addresses.clone().find(|&address| outside_map(address)) {
            return Err(Refusal::at(23, address));
        }

        let mut steps = Vec::new();
        if pn == 1 {
            steps.push(Step::SetVersion(ver, true));
        }
        for (address, byte) in addresses.zip(data.bytes) {
            steps.push(Step::Store(address, byte));
        }
        if pn == np {
            steps.push(Step::SetVersion(ver, false));
        }
        self.perform(steps)?;
        self.session = (pn < np).then(|| Session { next: pn + 1, np });
        Ok(())
    }

    fn key_packet(&mut self, core: &[u8]) -> Result<(), Refusal> {
        if core.len() != 51 {
            return Err(Refusal::at(10, core.len()));
        }
        let contents = self.open(core, 1)?;
        let which = match contents[0] {
            0 => 0,
            2 => 1,
            kt => return Err(Refusal::at(30, kt)),
        };
        let version = contents[1];
        if version <= self.keys[which].version {
            return Err(Refusal::at(31, version));
        }
        let key = contents[2..].try_into().unwrap();
        self.perform(vec![Step::SetKey(which, HeldKey { key, version })])
    }

    /// Makes the steps one by one; at the first that is not kept the board goes dark.
    fn perform(&mut self, steps: Vec<Step>) -> Result<(), Refusal> {
        for step in steps {
            match &mut self.supply {
                None => (),
                Some(0) => {
                    self.dark = true;
                    self.session = None;
                    return Err(DARK);
                }
                Some(left) => *left -= 1,
            }
            match step {
                Step::Store(address, byte) => self.bytes[address] = byte,
                Step::SetVector(both) => self.bytes[VECTOR..VECTOR + 2].copy_from_slice(&both),
                Step::SetVersion(version, mark) => {
                    self.version = version;
                    self.mark = mark;
                }
                Step::SetKey(which, new) => self.keys[which] = new,
            }
        }
        Ok(())
    }
}

#[cfg(test)]
mod tests {
    use super::*;
    use crate::packet::{core, NewKey};

    fn send(board: &mut Board, core: &[u8]) -> Answer {
        let mut last = quiet(None);
        for byte in frame(core) {
            assert_eq!(last, quiet(None));
            last = board.call(Event::Byte(byte));
        }
        last
    }

    fn iv(nonce: u8) -> Block {
        let mut iv = [nonce; 16];
        (iv[0], iv[14], iv[15]) = (1, 0, 0);
        iv
    }

    fn packet(ver: u8, pn: u16, np: u16, address: u32, bytes: &[u8]) -> Vec<u8> {
        let data = Data { ver, pn, np, rsv: 77, address, bytes: bytes.to_vec() };
        core(DATA_PACKET, CIPHER, &[0; 16], &iv(pn as u8), &data.contents())
    }

    #[test]
    fn the_map_and_the_erase_have_the_told_sizes() {
        let sizes: Vec<usize> = AREAS.iter().map(|(first, end)| end - first).collect();
        assert_eq!(sizes, [512, 44_032, 128, 16_384]);
        assert_eq!(sizes.iter().sum::<usize>(), 61_056);
        assert_eq!(mass_erase().len(), 60_479);
        let inside = (0..0x20000).filter(|&address| !outside_map(address));
        assert_eq!(inside.clone().count(), 61_056);
        assert_eq!(inside.clone().position(|address| address == VECTOR), Some(44_670));
    }

    #[test]
    fn an_erase_blanks_what_it_must_and_nothing_else() {
        let mut board = Board::fresh();
        board.bytes.fill(0);
        assert_eq!(send(&mut board, &[0x15]), message(None));
        for (address, &byte) in board.bytes.iter().enumerate() {
            let blanked = (0x4400..0xF000).contains(&address) || address >= 0xFFC0;
            assert_eq!(byte == 0xFF, blanked, "{address:#X}");
        }
    }

    #[test]
    fn data_is_stored_where_it_is_said() {
        let mut board = Board::fresh();
        assert_eq!(send(&mut board, &packet(1, 1, 1, 0xFFFE, &[1, 2, 3])), message(None));
        assert_eq!(board.bytes[0xFFFD..0x10002], [0xFF, 1, 2, 3, 0xFF]);
        assert_eq!(board.call(Event::Question).shown, [APPLICATION]);
        assert_eq!((board.version, board.mark), (1, false));
    }

    #[test]
    fn a_cut_stores_what_it_had_power_for() {
        for supply in 0..5 {
            let mut board = Board::fresh();
            board.call(Event::PowerUp(Some(supply)));
            let answer = send(&mut board, &packet(1, 1, 1, 0x4400, &[1, 2, 3]));
            assert_eq!(answer, quiet(Some(DARK)));
            for event in [Event::Byte(0x80), Event::Silence, Event::Question] {
                assert_eq!(board.call(event), quiet(Some(DARK)));
            }
            board.call(Event::PowerUp(None));
            let stored = board.bytes[0x4400..0x4403].iter().filter(|&&b| b != 0xFF).count();
            assert_eq!(stored, (supply as usize).saturating_sub(1).min(3));
            assert_eq!((board.version, board.mark), (supply.min(1) as u8, supply > 0));
        }
        let mut board = Board::fresh();
        board.call(Event::PowerUp(Some(5)));
        let answer = send(&mut board, &packet(1, 1, 1, 0x4400, &[1, 2, 3]));
        assert_eq!(answer, message(None));
        assert!(!board.dark);
    }

    #[test]
    fn borders_of_the_map() {
        let passing = [(0x1800, 1), (0x19FF, 1), (0x4400, 1), (0xFF80, 1), (0xFFFF, 2), (0x13FFF, 1)];
        let refused = [
            (0, 1, 0),
            (0x17FF, 2, 0x17FF),
            (0x19FF, 2, 0x1A00),
            (0x1901, 256, 0x1A00),
            (0x43FF, 2, 0x43FF),
            (0xEFFF, 2, 0xF000),
            (0xEF80, 129, 0xF000),
            (0xFF7F, 2, 0xFF7F),
            (0x13FFF, 2, 0x14000),
            (0x24400, 1, 0x24400),
            (0xFFFFFF, 256, 0xFFFFFF),
        ];
        for (address, count) in passing {
            let answer = send(&mut Board::fresh(), &packet(1, 1, 1, address, &vec![0; count]));
            assert_eq!(answer, message(None), "{address:#X}");
        }
        for (address, count, place) in refused {
            let mut board = Board::fresh();
            let answer = send(&mut board, &packet(1, 1, 1, address, &vec![0; count]));
            assert_eq!(answer, message(Some(Refusal { number: 23, place })), "{address:#X}");
            assert_eq!((board.version, board.mark), (0, false));
        }
    }

    #[test]
    fn with_equal_keys_a_data_packet_of_8_bytes_opens_as_a_key_packet() {
        let mut board = Board::fresh();
        let mut sent = packet(2, 5, 6, 0x4400, &[9; 8]);
        sent[0] = KEY_PACKET;
        assert_eq!(send(&mut board, &sent), message(None));
        assert_eq!(board.keys[1].version, 5);
        assert_eq!(board.keys[0].version, 0);
        assert_eq!(board.keys[1].key[7..], [0x00, 9, 9, 9, 9, 9, 9, 9, 9]);
    }

    #[test]
    fn keys_are_set_one_by_one() {
        let mut board = Board::fresh();
        let not = |number, place| Some(Refusal { number, place });
        let sent = [
            (0, 0, not(31, 0)),
            (0, 7, None),
            (0, 7, not(31, 7)),
            (0, 6, not(31, 6)),
            (1, 9, not(30, 1)),
            (253, 0, not(30, 253)),
            (2, 3, None),
            (2, 4, not(12, 0)),
        ];
        for (kt, kv, refusal) in sent {
            let new = NewKey { kt, kv, key: [8; 16] };
            let sent = core(KEY_PACKET, CIPHER, &[0; 16], &iv(kv), &new.contents());
            assert_eq!(send(&mut board, &sent), message(refusal), "KT {kt}, KV {kv}");
        }
        assert_eq!(board.keys.map(|held| held.version), [7, 3]);
    }

    /// Bytes of which the last is refused, and nothing before it.
    fn bad_frame(bytes: &[u8]) -> Refusal {
        let mut board = Board::fresh();
        let (&last, before) = bytes.split_last().unwrap();
        for &byte in before {
            assert_eq!(board.call(Event::Byte(byte)), quiet(None));
        }
        let answer = board.call(Event::Byte(last));
        let refusal = answer.refusal.unwrap();
        assert_eq!(answer.shown, [refusal.number]);
        refusal
    }

    #[test]
    fn places_of_bad_frames() {
        for byte in [0, 0x19, 0x7F, 0x81, 0xFF] {
            assert_eq!(bad_frame(&[byte]), Refusal { number: 81, place: byte as usize });
        }
        for (bytes, place) in [
            ([0x80, 1, 0, 0x19, 0xE9, 0x62], 0x62E9),
            ([0x80, 1, 0, 0x19, 0x62, 0xE8], 0xE862),
            ([0x80, 1, 0, 0x19, 0xE8, 0x00], 0x00E8),
            ([0x80, 1, 0, 0x19, 0x00, 0x00], 0),
        ] {
            assert_eq!(bad_frame(&bytes), Refusal { number: 82, place });
        }
        assert_eq!(bad_frame(&[0x80, 0, 0]), Refusal { number: 83, place: 0 });
        for (low, high, place) in [(0x2C, 0x01, 300), (0x00, 0x80, 0x8000), (0xFF, 0xFF, 65535)] {
            assert_eq!(bad_frame(&[0x80, low, high]), Refusal { number: 84, place });
        }
    }

    /// The refusal of a core command that gets a message.
    fn refused(board: &mut Board, core: &[u8]) -> Refusal {
        let answer = send(board, core);
        let refusal = answer.refusal.unwrap();
        assert_eq!(answer, message(Some(refusal)));
        refusal
    }

    #[test]
    fn places_of_commands_and_of_packets_that_do_not_open() {
        let mut board = Board::fresh();
        for core in [vec![0x16], vec![0x15, 0], vec![0x25, 1, 2], vec![0xFE; 299]] {
            assert_eq!(refused(&mut board, &core), Refusal { number: 9, place: core[0] as usize });
        }
        for (command, length) in [(0x30, 1), (0x30, 43), (0x31, 1), (0x31, 50), (0x31, 52), (0x31, 299)] {
            let core = vec![command; length];
            assert_eq!(refused(&mut board, &core), Refusal { number: 10, place: length });
        }
        let good = packet(1, 1, 1, 0x4400, &[1]);
        // The IV begins at place 1 of the core command; its lowest wrong byte is told.
        for (wrong, place) in
            [(vec![0], 0), (vec![14], 14), (vec![15], 15), (vec![14, 15], 14), (vec![0, 15], 0)]
        {
            let mut core = good.clone();
            for byte in wrong {
                core[1 + byte] ^= 0x40;
            }
            assert_eq!(refused(&mut board, &core), Refusal { number: 11, place });
        }
        let mut core = good;
        core[20] ^= 1;
        assert_eq!(refused(&mut board, &core), Refusal { number: 12, place: 0 });
    }

    #[test]
    fn places_of_data_packets_out_of_turn() {
        let mut board = Board::fresh();
        for (pn, np) in [(0, 0), (0, 5), (1, 0), (6, 5), (0x1234, 0x1233)] {
            let core = packet(1, pn, np, 0x4400, &[1]);
            assert_eq!(refused(&mut board, &core), Refusal { number: 20, place: pn as usize });
        }
        assert_eq!(refused(&mut board, &packet(0, 1, 300, 0x4400, &[1])), Refusal { number: 21, place: 1 });
        assert_eq!(send(&mut board, &packet(1, 1, 300, 0x4400, &[1])), message(None));
        for (pn, np) in [(3, 300), (258, 300), (2, 44), (300, 300)] {
            let core = packet(1, pn, np, 0x4400, &[1]);
            assert_eq!(refused(&mut board, &core), Refusal { number: 22, place: pn as usize });
        }
    }
}
