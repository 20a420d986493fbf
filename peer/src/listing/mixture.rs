//! The pseudo-random part of the listing: well-formed and damaged frames, supplies, silences and questions.
//! It looks at the board that the listing was written on so far, so that many packets are those that it
//! awaits.

use super::script::{Script, NO_END};
use crate::cipher::Cipher;
use crate::packet::{core, frame, Data, NewKey, DATA_PACKET, KEY_PACKET};

const ROUNDS: usize = 800;

/// Where data goes: inside each area, at its borders, outside; often to the vector.
const ADDRESSES: [u32; 24] = [
    0xFFFE, 0xFFFE, 0xFFFE, 0xFFFE, 0xFFFF, 0xFFFD, 0x1800, 0x19FE, 0x1900, 0x4400, 0x4401, 0x8000, 0xEFFE,
    0xFF80, 0xFFC0, 0xFFF0, 0x10000, 0x12345, 0x13FFE, 0x4400, 0x10001, 0xEFFF, 0x13FFF, 0x43FF,
];
const COUNTS: [usize; 12] = [1, 1, 1, 2, 2, 2, 2, 3, 4, 8, 16, 40];

pub fn mixture(s: &mut Script) {
    for round in 0..ROUNDS {
        if s.board.dark && !s.random.once_in(3) {
            for _ in 0..s.random.below(4) {
                any_small_call(s);
            }
            power_up(s);
        }
        match s.random.below(100) {
            0..=59 => data_packet(s),
            60..=71 => key_packet(s),
            72..=76 => command(s, &[0x19]),
            77..=78 => command(s, &[0x25]),
            79..=81 => unknown_command(s),
            82..=92 => any_small_call(s),
            93..=97 => power_up(s),
            _ => erase(s),
        }
        // One whole erase, in the middle.
        if round == ROUNDS / 2 {
            s.power_up(NO_END);
            s.send(&[0x15], 0);
        }
    }
    tidy(s);
}

/// Sends bytes, whatever the answers are.
fn bytes(s: &mut Script, bytes: &[u8]) {
    for &byte in bytes {
        s.call('B', byte as u64);
    }
}

/// Sends a frame, at times with damage on the wire.
fn command(s: &mut Script, core: &[u8]) {
    let mut frame = frame(core);
    let place = s.random.below(frame.len());
    match s.random.below(24) {
        0 => frame[place] ^= 1 << s.random.below(8),
        1 => frame[place] = s.random.byte(),
        2 => {
            frame.remove(place);
        }
        3 => frame.insert(place, s.random.byte()),
        4 => {
            // Cut by a silence, then perhaps sent again.
            bytes(s, &frame[..place]);
            s.call('S', 0);
            if s.random.once_in(2) {
                return;
            }
        }
        5 => {
            // A pause that is none: a question and a malformed line.
            bytes(s, &frame[..place]);
            s.call('Q', 0);
            s.line(b"B        999");
            frame.drain(..place);
        }
        _ => (),
    }
    bytes(s, &frame);
    if s.random.once_in(8) {
        s.call('S', 0);
    }
}

/// Changes a core command before it gets its checksum.
fn damage(s: &mut Script, core: &mut Vec<u8>) {
    let place = s.random.below(core.len());
    match s.random.below(5) {
        0 => core[place] ^= 1 << s.random.below(8),
        1 => core[s.random.pick(&[1, 7, 15, 16])] ^= 1 << s.random.below(8),
        2 => core.truncate(place.max(1)),
        3 if core.len() < 299 => core.push(s.random.byte()),
        _ => {
            let end = core.len();
            core[end - 1 - s.random.below(16)] ^= 1 << s.random.below(8);
        }
    }
}

fn packet(s: &mut Script, command_byte: u8, contents: &[u8]) {
    let which = if command_byte == DATA_PACKET { 0 } else { 1 };
    let mut key = s.board.keys[which].key;
    if s.random.once_in(25) {
        key = s.board.keys[1 - which].key;
    }
    if s.random.once_in(40) {
        key = s.random.block();
    }
    let iv = s.iv();
    let mut sent = core(command_byte, Cipher::Ccm, &key, &iv, contents);
    if s.random.once_in(8) {
        damage(s, &mut sent);
    }
    command(s, &sent);
    // A replay now and then.
    if s.random.once_in(16) {
        command(s, &sent);
    }
}

fn data_packet(s: &mut Script) {
    let held = s.board.version;
    let mark = s.board.mark;
    let mut data = Data {
        ver: if mark { held } else { held + 1 },
        pn: 1,
        np: s.random.pick(&[1, 1, 1, 1, 2, 2, 2, 3, 3, 260]),
        rsv: s.random.pick(&[0, 0, 1, 0xFFFF]),
        address: s.random.pick(&ADDRESSES),
        bytes: Vec::new(),
    };
    if let Some(session) = s.board.session {
        if !s.random.once_in(6) {
            data.pn = session.next;
            data.np = session.np;
        }
    }
    match s.random.below(24) {
        0 => data.ver = data.ver.wrapping_sub(1),
        1 => data.ver += 1,
        2 => data.pn = s.random.below(5) as u16,
        3 => data.np = s.random.below(5) as u16,
        4 => data.pn ^= 256,
        5 => data.address ^= 1 << s.random.below(24),
        _ => (),
    }
    let count = if s.random.once_in(60) { 256 } else { s.random.pick(&COUNTS) };
    data.bytes = if s.random.once_in(2) { vec![0xFF; count] } else { s.random.bytes(count) };
    packet(s, DATA_PACKET, &data.contents());
    if s.random.once_in(3) {
        s.call('Q', 0);
    }
}

fn key_packet(s: &mut Script) {
    let kt = s.random.pick(&[0, 0, 0, 2, 2, 2, 1, 3]);
    let held = s.board.keys[if kt == 2 { 1 } else { 0 }].version;
    let step = s.random.pick(&[1, 1, 1, 1, 1, 2, 0, 255]);
    let kv = held.wrapping_add(step);
    let key = s.random.block();
    packet(s, KEY_PACKET, &NewKey { kt, kv, key }.contents());
}

fn unknown_command(s: &mut Script) {
    let mut core = vec![s.random.pick(&[0x15, 0x19, 0x25, 0x00, 0x32, 0x3B, 0x80, 0xFF])];
    let count = 1 + s.random.below(6);
    core.extend(s.random.bytes(count));
    command(s, &core);
}

fn any_small_call(s: &mut Script) {
    match s.random.below(6) {
        0 | 1 => s.call('Q', 0),
        2 | 3 => s.call('S', 0),
        4 => {
            let byte = s.random.byte();
            s.call('B', byte as u64)
        }
        _ => s.line(b"Q          2"),
    };
}

fn power_up(s: &mut Script) {
    let supply = match s.random.below(8) {
        0..=2 => NO_END,
        3 => NO_END - 1,
        _ => s.random.below(40) as u64,
    };
    s.call('R', supply);
}

/// A mass erase, cut soon.
fn erase(s: &mut Script) {
    let supply = s.random.below(100) as u64;
    s.call('R', supply);
    command(s, &[0x15]);
    s.call('Q', 0);
}

/// Leaves the board as the next topic awaits it.
fn tidy(s: &mut Script) {
    s.power_up(NO_END);
    s.version = s.board.version;
    s.data_key = s.board.keys[0].key;
    s.kek = s.board.keys[1].key;
    let ver = s.next_version();
    s.send_data(ver, 1, 1, 0xFFFE, &[0x00, 0x44], 0);
}
