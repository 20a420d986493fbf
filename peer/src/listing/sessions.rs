//! How sessions begin, go on, end and are replaced.

use super::script::{Script, NO_END};
use crate::board::{APPLICATION, UNFINISHED};
use crate::packet::{frame, Data, DATA_PACKET};

pub fn ended_sessions(s: &mut Script) {
    let parts: [(u32, &[u8]); 3] = [(0x4400, &[1]), (0x1800, &[2]), (0x10000, &[3])];
    // By 25, by a power-up, by going dark.
    let ver = s.next_version();
    let update = s.update(ver, &parts);
    for count in 1..3 {
        s.send_all(&update[..count]);
        s.send(&[0x25], 0);
        s.question(UNFINISHED);
        s.send(&update[count], 22);

        s.send_all(&update[..count]);
        s.power_up(NO_END);
        s.question(UNFINISHED);
        s.send(&update[count], 22);

        s.power_up(if count == 1 { 2 } else { 3 });
        s.send_all(&update[..count]);
        s.send(&update[count], 3);
        s.while_dark();
        s.power_up(NO_END);
        s.question(UNFINISHED);
        s.send(&update[count], 22);
    }
    // By the last packet.
    s.send_all(&update);
    s.question(APPLICATION);
    s.send(&update[2], 22);
    s.send_data(ver, 4, 4, 0x4400, &[1], 22);

    // 25 without a session does nothing; it leaves the supply.
    s.send(&[0x25], 0);
    s.send(&[0x19], 0);
    let ver = s.next_version();
    let update = s.update(ver, &parts);
    s.power_up(1);
    s.send(&[0x25], 0);
    s.send(&update[0], 3);
    s.power_up(NO_END);
    s.question(UNFINISHED);
    s.send_all(&update);
    s.question(APPLICATION);
}

pub fn kept_sessions(s: &mut Script) {
    let ver = s.next_version();
    let parts: [(u32, &[u8]); 4] = [(0x4400, &[1]), (0x1800, &[2]), (0xFF80, &[3]), (0x10000, &[4])];
    let update = s.update(ver, &parts);
    let outside = s.data(ver, 2, 4, 0x1A00, &[1]);
    let again_outside = s.data(ver, 1, 3, 0x1A00, &[1]);
    let higher_outside = s.data(ver + 1, 1, 1, 0x14000, &[1]);
    let bad_number = s.data(ver, 5, 4, 0x4400, &[1]);
    let old = s.data(ver - 1, 1, 4, 0x4400, &[1]);
    let mut bad_iv = update[1].clone();
    bad_iv[15] = 1;
    let mut damaged = update[1].clone();
    damaged[20] ^= 4;

    s.send(&update[0], 0);
    // Noise.
    s.bad_frame(&[0x19], 81);
    s.bad_frame(&[0x80, 1, 0, 0x19, 0, 0], 82);
    s.bad_frame(&[0x80, 0, 0], 83);
    s.bad_frame(&[0x80, 0x2C, 0x01], 84);
    s.beginning(&frame(&update[1])[..30]);
    s.silence();
    s.malformed(b"S          1");
    s.malformed(b"R 4294967296");
    // Commands and questions.
    s.send(&[0x19], 0);
    s.send(&[0x25, 0], 9);
    s.send(&[0x15, 0], 9);
    s.send(&[0x3B, 0x00], 9);
    s.question(UNFINISHED);
    // Refused packets.
    s.send(&update[1][..43], 10);
    s.send(&bad_iv, 11);
    s.send(&damaged, 12);
    s.send(&bad_number, 20);
    s.send(&old, 21);
    s.send(&update[2], 22);
    s.send(&outside, 23);
    // Two that would open an update, but are refused.
    s.send(&again_outside, 23);
    s.send(&higher_outside, 23);
    s.question(UNFINISHED);
    s.send(&update[1], 0);
    // Key packets, refused and taken; then the rest comes under the new key.
    let wrong_type = s.key(1, 9, [1; 16]);
    let old_version = s.key(0, 0, [1; 16]);
    s.send(&wrong_type, 30);
    s.send(&old_version, 31);
    let new_kek = s.random.block();
    s.send_key(2, 1, new_kek, 0);
    s.kek = new_kek;
    s.send(&update[1], 22);
    s.send(&update[2], 0);
    let new_key = s.random.block();
    s.send_key(0, 1, new_key, 0);
    s.send(&update[3], 12);
    s.data_key = new_key;
    let last = s.data(ver, 4, 4, 0x10000, &[4]);
    s.question(UNFINISHED);
    s.send(&last, 0);
    s.question(APPLICATION);
}

pub fn replaced_sessions(s: &mut Script) {
    let parts: [(u32, &[u8]); 3] = [(0x4400, &[1]), (0x1800, &[2]), (0x10000, &[3])];
    // By the same version, with another number of packets.
    let ver = s.next_version();
    let long = s.update(ver, &parts);
    let short = s.update(ver, &parts[..2]);
    s.send_all(&long[..2]);
    s.send(&short[0], 0);
    s.send(&long[2], 22);
    s.send(&long[1], 22);
    s.send(&short[1], 0);
    s.question(APPLICATION);
    // By the same packet again, and by a greater version.
    let ver = s.next_version();
    let first = s.update(ver, &parts);
    let ver = s.next_version();
    let second = s.update(ver, &parts);
    s.send_all(&first[..2]);
    s.send_all(&first[..2]);
    s.send(&second[0], 0);
    s.send(&first[2], 22);
    s.send(&first[1], 22);
    s.send(&first[0], 21);
    s.send(&second[1], 0);
    s.send(&second[2], 0);
    s.question(APPLICATION);
    // By an update of one packet, which is over at once.
    let ver = s.next_version();
    let update = s.update(ver, &parts);
    let single = s.data(ver, 1, 1, 0x4400, &[1]);
    s.send_all(&update[..2]);
    s.send(&single, 0);
    s.question(APPLICATION);
    s.send(&update[2], 22);
    s.send(&update[0], 21);
}

pub fn packet_numbers(s: &mut Script) {
    let ver = s.next_version();
    let bad = [(0, 0), (0, 1), (0, 65535), (1, 0), (2, 1), (2, 0), (256, 255), (65535, 65534), (65535, 0)];
    // Without a session and with one. 20 comes before 21, 22 and 23.
    for round in 0..2 {
        for (pn, np) in bad {
            s.send_data(ver, pn, np, 0x4400, &[1], 20);
        }
        s.send_data(ver - 1, 0, 1, 0, &[1], 20);
        if round == 0 {
            s.question(APPLICATION);
            s.send_data(ver, 1, 2, 0x4400, &[1], 0);
        }
    }
    // RSV may be anything.
    let data = Data { ver, pn: 2, np: 2, rsv: 0xFFFF, address: 0x4400, bytes: vec![1] };
    let key = s.data_key;
    let sent = s.packet(DATA_PACKET, &key, &data.contents());
    s.send(&sent, 0);
    s.question(APPLICATION);
    // Numbers of two bytes: 300 packets, of which the first few come.
    let ver = s.next_version();
    for pn in [1, 2, 3] {
        s.send_data(ver, pn, 300, 0x4400, &[1], 0);
    }
    for (pn, np) in [(260, 300), (3, 300), (5, 300), (4, 44), (4, 299), (4, 301), (4, 556)] {
        s.send_data(ver, pn, np, 0x4400, &[1], 22);
    }
    s.send_data(ver, 4, 300, 0x4400, &[1], 0);
    s.send_data(ver, 1, 65535, 0x4400, &[1], 0);
    s.send_data(ver, 5, 300, 0x4400, &[1], 22);
    s.send_data(ver, 2, 65535, 0x4400, &[1], 0);
    s.send_data(ver, 1, 1, 0x4400, &[1], 0);
    s.question(APPLICATION);
}

pub fn versions(s: &mut Script) {
    // No mark: the held version and those below do not open.
    let held = s.version;
    for ver in [0, 1, held - 1, held] {
        s.send_data(ver, 1, 1, 0x4400, &[1], 21);
        s.send_data(ver, 1, 2, 0x4400, &[1], 21);
    }
    // 21 comes before 23.
    s.send_data(held, 1, 1, 0, &[1], 21);
    s.question(APPLICATION);
    // Some versions are left out; then the mark is set.
    s.version += 3;
    let ver = s.version;
    s.send_data(ver, 1, 2, 0x4400, &[1], 0);
    for old in [0, held, ver - 1] {
        s.send_data(old, 1, 2, 0x4400, &[1], 21);
    }
    s.send_data(ver, 1, 2, 0x4400, &[1], 0);
    s.send_data(ver, 2, 2, 0x4400, &[1], 0);
    s.send_data(ver, 1, 2, 0x4400, &[1], 21);
    s.question(APPLICATION);
}

pub fn turns(s: &mut Script) {
    let ver = s.next_version();
    // Without a session no packet but the first is taken. 22 comes before 23.
    for (pn, np) in [(2, 2), (2, 3), (65535, 65535)] {
        s.send_data(ver, pn, np, 0x4400, &[1], 22);
        s.send_data(ver - 1, pn, np, 0x4400, &[1], 22);
        s.send_data(ver, pn, np, 0, &[1], 22);
    }
    s.question(APPLICATION);
    let parts: [(u32, &[u8]); 4] = [(0x4400, &[1]), (0x1800, &[2]), (0xFF80, &[3]), (0x10000, &[4])];
    let update = s.update(ver, &parts);
    for next in 1..=4u16 {
        // Another number of packets, another version, another packet.
        if next > 1 {
            let others = [
                (ver, next, 5),
                (ver, next, 256 + 4),
                (ver + 1, next, 4),
                (ver - 1, next, 4),
                (0, next, 4),
                (ver, next + 256, 1000),
            ];
            for (ver, pn, np) in others {
                s.send_data(ver, pn, np, 0x4400, &[1], 22);
            }
            for (pn, core) in (1..).zip(&update) {
                if pn != 1 && pn != next {
                    s.send(core, 22);
                }
            }
        }
        s.send(&update[next as usize - 1], 0);
    }
    s.question(APPLICATION);
}
