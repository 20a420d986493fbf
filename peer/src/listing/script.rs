//! What writes a listing: it adds lines, seals packets, and makes each call on a board of its own at once,
//! so that a situation that is told here and answered otherwise stops the program.

use crate::aes::Block;
use crate::bench::answer_to;
use crate::board::{Answer, Board};
use crate::cipher::Cipher;
use crate::packet::{core, frame, Data, NewKey, DATA_PACKET, KEY_PACKET};
use crate::random::Random;

pub const NO_END: u64 = 4_294_967_295;

const DONE: [u8; 8] = [0x00, 0x80, 0x02, 0x00, 0x3B, 0x00, 0x60, 0xC4];
const REFUSED: [u8; 8] = [0x00, 0x80, 0x02, 0x00, 0x3B, 0x05, 0xC5, 0x94];
const UNKNOWN: [u8; 8] = [0x00, 0x80, 0x02, 0x00, 0x3B, 0x07, 0x87, 0xB4];
const VERSION: [u8; 11] = [0x00, 0x80, 0x05, 0x00, 0x3A, 0x00, 0x58, 0x56, 0xB5, 0x44, 0xFF];

/// The bytes that the board sends when it refuses a core command (or does not: 0).
fn sent_for(core: &[u8], refusal: u8) -> &'static [u8] {
    match (refusal, core) {
        (0, [0x19]) => &VERSION,
        (0, [0x25]) => &[],
        (0, _) => &DONE,
        (3, _) => &[],
        (9, _) => &UNKNOWN,
        _ => &REFUSED,
    }
}

pub struct Script {
    pub text: Vec<u8>,
    pub lines: usize,
    /// The first line of each topic.
    pub topics: Vec<(usize, &'static str)>,
    pub board: Board,
    pub random: Random,
    /// The keys and the firmware version that the writer knows the board to hold.
    pub data_key: Block,
    pub kek: Block,
    pub version: u8,
    sealed: u32,
}

impl Script {
    pub fn new(seed: u64) -> Script {
        Script {
            text: Vec::new(),
            lines: 0,
            topics: Vec::new(),
            board: Board::fresh(),
            random: Random::new(seed),
            data_key: [0; 16],
            kek: [0; 16],
            version: 0,
            sealed: 0,
        }
    }

    pub fn topic(&mut self, name: &'static str) {
        self.topics.push((self.lines + 1, name));
    }

    // Lines.

    pub fn line(&mut self, line: &[u8]) -> Answer {
        self.text.extend(line);
        self.text.push(b'\n');
        self.lines += 1;
        answer_to(&mut self.board, line)
    }

    pub fn call(&mut self, letter: char, number: u64) -> Answer {
        self.line(format!("{letter}{number:>11}").as_bytes())
    }

    fn told(&self, got: Answer, refusal: u8, shown: &[u8]) {
        let got = (got.number(), got.shown.as_slice());
        assert_eq!(got, (refusal, shown), "the answer (left) to line {} is not as told", self.lines);
    }

    // Calls with their told answers.

    /// A malformed line.
    pub fn malformed(&mut self, line: &[u8]) {
        let got = self.line(line);
        self.told(got, 8, &[]);
    }

    /// A byte that brings nothing.
    pub fn byte(&mut self, byte: u8) {
        let got = self.call('B', byte as u64);
        self.told(got, 0, &[]);
    }

    /// Bytes of a frame of which the last is refused by 81 to 84.
    pub fn bad_frame(&mut self, bytes: &[u8], refusal: u8) {
        let (&last, before) = bytes.split_last().unwrap();
        self.beginning(before);
        let got = self.call('B', last as u64);
        self.told(got, refusal, &[refusal]);
    }

    /// Bytes that begin a frame and do not end it.
    pub fn beginning(&mut self, bytes: &[u8]) {
        for &byte in bytes {
            self.byte(byte);
        }
    }

    pub fn silence(&mut self) {
        let got = self.call('S', 0);
        self.told(got, 0, &[]);
    }

    pub fn question(&mut self, found: u8) {
        let got = self.call('Q', 0);
        self.told(got, 0, &[found]);
    }

    pub fn power_up(&mut self, supply: u64) {
        let got = self.call('R', supply);
        self.told(got, 0, &[]);
    }

    /// A whole frame. The refusal 3 is that of the byte at which the board goes dark.
    pub fn send(&mut self, core: &[u8], refusal: u8) {
        self.send_from(0, core, refusal);
    }

    /// A frame without the bytes before `place`, which have come before.
    pub fn send_from(&mut self, place: usize, core: &[u8], refusal: u8) {
        let frame = frame(core);
        let (&last, before) = frame.split_last().unwrap();
        self.beginning(&before[place..]);
        let got = self.call('B', last as u64);
        self.told(got, refusal, sent_for(core, refusal));
    }

    pub fn send_all(&mut self, cores: &[Vec<u8>]) {
        for core in cores {
            self.send(core, 0);
        }
    }

    /// Seals a data packet and sends it.
    pub fn send_data(&mut self, ver: u8, pn: u16, np: u16, address: u32, bytes: &[u8], refusal: u8) {
        let core = self.data(ver, pn, np, address, bytes);
        self.send(&core, refusal);
    }

    /// Seals a key packet and sends it.
    pub fn send_key(&mut self, kt: u8, kv: u8, key: Block, refusal: u8) {
        let core = self.key(kt, kv, key);
        self.send(&core, refusal);
    }

    /// Some calls of each kind on a dark board.
    pub fn while_dark(&mut self) {
        for (letter, number) in [('B', 128), ('B', 0), ('S', 0), ('Q', 0), ('B', 25)] {
            let got = self.call(letter, number);
            self.told(got, 3, &[]);
        }
        self.malformed(b"B        256");
        self.malformed(b"");
    }

    // Packets.

    /// A well-formed IV, never the same twice.
    pub fn iv(&mut self) -> Block {
        let mut iv = self.random.block();
        self.sealed += 1;
        iv[10..14].copy_from_slice(&self.sealed.to_le_bytes());
        for &(place, byte) in Cipher::Ccm.fixed_places() {
            iv[place] = byte;
        }
        iv
    }

    /// A packet of any contents.
    pub fn packet(&mut self, command: u8, key: &Block, contents: &[u8]) -> Vec<u8> {
        let iv = self.iv();
        core(command, Cipher::Ccm, key, &iv, contents)
    }

    pub fn data(&mut self, ver: u8, pn: u16, np: u16, address: u32, bytes: &[u8]) -> Vec<u8> {
        let data = Data { ver, pn, np, rsv: 0, address, bytes: bytes.to_vec() };
        let key = self.data_key;
        self.packet(DATA_PACKET, &key, &data.contents())
    }

    pub fn key(&mut self, kt: u8, kv: u8, key: Block) -> Vec<u8> {
        let kek = self.kek;
        self.packet(KEY_PACKET, &kek, &NewKey { kt, kv, key }.contents())
    }

    /// A version above all before it.
    pub fn next_version(&mut self) -> u8 {
        self.version += 1;
        self.version
    }

    /// The packets of a whole update.
    pub fn update(&mut self, ver: u8, parts: &[(u32, &[u8])]) -> Vec<Vec<u8>> {
        let np = parts.len() as u16;
        let mut cores = Vec::new();
        for (&(address, bytes), pn) in parts.iter().zip(1..) {
            cores.push(self.data(ver, pn, np, address, bytes));
        }
        cores
    }
}
