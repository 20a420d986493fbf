//! Single packets: their lengths, IVs, damage, keys, addresses.

use super::power::set_vector;
use super::script::{Script, NO_END};
use crate::board::{APPLICATION, BLANK};
use crate::packet::{Data, NewKey, DATA_PACKET, KEY_PACKET};

pub fn other_kind(s: &mut Script) {
    // Both keys are made the same.
    let key = s.random.block();
    s.send_key(0, 2, key, 0);
    s.data_key = key;
    s.send_key(2, 2, key, 0);
    s.kek = key;
    // A data packet with 8 data bytes is a key packet, too: VER is KT, the low byte of PN is KV.
    let bytes = [11, 12, 13, 14, 15, 16, 17, 18];
    for (ver, pn, refusal) in [(1, 3, 30), (0, 2, 31), (2, 1, 31), (2, 3, 0)] {
        let data = Data { ver, pn, np: 5, rsv: 9, address: 0x4400, bytes: bytes.to_vec() };
        let sent = s.packet(KEY_PACKET, &key, &data.contents());
        s.send(&sent, refusal);
        if refusal == 0 {
            s.kek = data.contents()[2..].try_into().unwrap();
        }
    }
    // With 7 or 9 it is not.
    for count in [7, 9] {
        let mut sent = s.data(2, 4, 5, 0x4400, &vec![1; count]);
        sent[0] = KEY_PACKET;
        s.send(&sent, 10);
    }
    // The keys differ now.
    let mut sent = s.data(2, 4, 5, 0x4400, &[1; 8]);
    sent[0] = KEY_PACKET;
    s.send(&sent, 12);
    let mut sent = s.key(0, 9, [1; 16]);
    sent[0] = DATA_PACKET;
    s.send(&sent, 12);
    // A key packet as a data packet of 8 data bytes, under the data key: PN 1, NP 1, RSV 7, address 0x4401.
    let ver = s.next_version();
    let key = [0, 1, 0, 7, 0, 0x01, 0x44, 0x00, 1, 2, 3, 4, 5, 6, 7, 8];
    let data_key = s.data_key;
    let sent = s.packet(DATA_PACKET, &data_key, &NewKey { kt: ver, kv: 1, key }.contents());
    s.send(&sent, 0);
    s.question(APPLICATION);
    s.send(&sent, 21);
}

pub fn new_keys(s: &mut Script) {
    // The data key is of version 2, the KEK of version 3.
    for kt in [1, 3, 4, 128, 255] {
        s.send_key(kt, 200, [1; 16], 30);
        s.send_key(kt, 0, [1; 16], 30);
    }
    for (kt, kv) in [(0, 0), (0, 1), (0, 2), (2, 0), (2, 2), (2, 3)] {
        s.send_key(kt, kv, [1; 16], 31);
    }
    // A new data key; its replay; packets under the old and the new one.
    let ver = s.next_version();
    let under_old = s.data(ver, 1, 1, 0x4400, &[1]);
    let key = s.random.block();
    let to_data_key = s.key(0, 3, key);
    s.send(&to_data_key, 0);
    s.send(&to_data_key, 31);
    s.send(&under_old, 12);
    s.data_key = key;
    s.send_data(ver, 1, 1, 0x4400, &[1], 0);
    s.question(APPLICATION);
    // A new KEK; its replay does not open any more. The data key stays.
    let key = s.random.block();
    let to_kek = s.key(2, 5, key);
    let late = s.key(0, 4, [1; 16]);
    s.send(&to_kek, 0);
    s.send(&to_kek, 12);
    s.send(&late, 12);
    s.send(&to_data_key, 12);
    s.kek = key;
    for kv in [0, 4, 5] {
        s.send_key(2, kv, [1; 16], 31);
    }
    let ver = s.next_version();
    s.send_data(ver, 1, 1, 0x4400, &[1], 0);
    // Data packets are not sealed under the KEK, nor key packets under the data key.
    let (data_key, kek) = (s.data_key, s.kek);
    let data = Data { ver: ver + 1, pn: 1, np: 1, rsv: 0, address: 0x4400, bytes: vec![1] };
    let sent = s.packet(DATA_PACKET, &kek, &data.contents());
    s.send(&sent, 12);
    let new = NewKey { kt: 0, kv: 9, key: [1; 16] };
    let sent = s.packet(KEY_PACKET, &data_key, &new.contents());
    s.send(&sent, 12);
    // Cut at the step: the old key stays, and the packet may come again. One step is enough.
    for kt in [0, 2] {
        let key = s.random.block();
        let sent = s.key(kt, 6, key);
        s.power_up(0);
        s.send(&sent, 3);
        s.while_dark();
        s.power_up(1);
        s.send_key(kt, 0, [1; 16], 31);
        s.send(&sent, 0);
        if kt == 0 {
            s.data_key = key;
            s.send(&sent, 31);
        } else {
            s.kek = key;
            s.send(&sent, 12);
        }
        s.power_up(NO_END);
    }
    // The same key under a greater version, and versions that leave some out.
    let key = s.data_key;
    s.send_key(0, 10, key, 0);
    s.send_key(0, 9, key, 31);
    set_vector(s);
}

pub fn packet_lengths(s: &mut Script) {
    let ver = s.next_version();
    let (data_key, kek) = (s.data_key, s.kek);
    let good = s.data(ver, 1, 1, 0x4400, &[1]);
    let contents = [ver, 1, 0, 1, 0, 0, 0, 0x00, 0x44, 0x00];
    // Rightly sealed contents of 0, 9 and 10 bytes.
    for count in [0, 9, 10] {
        let sent = s.packet(DATA_PACKET, &data_key, &contents[..count]);
        s.send(&sent, 10);
    }
    for length in [1, 2, 16, 17, 18, 32, 33, 34, 42, 43] {
        s.send(&good[..length], 10);
    }
    s.question(APPLICATION);
    // The length is looked at before the IV.
    s.send(&[DATA_PACKET; 43], 10);
    s.send(&[DATA_PACKET; 44], 11);
    s.send(&[DATA_PACKET; 299], 11);
    s.send(&[KEY_PACKET; 50], 10);
    s.send(&[KEY_PACKET; 51], 11);
    s.send(&[KEY_PACKET; 52], 10);
    s.send(&[KEY_PACKET; 299], 10);
    // Key packets with contents of 17 and 19 bytes, and others.
    let new = NewKey { kt: 0, kv: 100, key: [1; 16] };
    for count in [0, 2, 17] {
        let sent = s.packet(KEY_PACKET, &kek, &new.contents()[..count]);
        s.send(&sent, 10);
    }
    let mut longer = new.contents();
    longer.push(0);
    let sent = s.packet(KEY_PACKET, &kek, &longer);
    s.send(&sent, 10);
    let whole = s.packet(KEY_PACKET, &kek, &new.contents());
    for length in [1, 17, 33, 43, 44, 50] {
        s.send(&whole[..length], 10);
    }
    // The least and the greatest packet.
    s.send(&good, 0);
    s.question(APPLICATION);
    let ver = s.next_version();
    let bytes = s.random.bytes(256);
    let great = s.data(ver, 1, 1, 0x4400, &bytes);
    assert_eq!(great.len(), 299);
    s.send(&great, 0);
    s.question(APPLICATION);
}

pub fn ivs(s: &mut Script) {
    let ver = s.next_version();
    let good = s.data(ver, 1, 1, 0x4400, &[1]);
    let good_key = s.key(2, 100, [1; 16]);
    for core in [&good, &good_key] {
        // The IV begins at place 1 of the core command.
        for (place, bytes) in [(1, [0x00, 0x02, 0x39]), (15, [0x01, 0x80, 0xFF]), (16, [0x01, 0x80, 0xFF])] {
            for byte in bytes {
                let mut sent = core.clone();
                sent[place] = byte;
                s.send(&sent, 11);
            }
        }
        // The IV is looked at before the body.
        let mut sent = core.clone();
        sent[16] = 3;
        sent[20] ^= 1;
        s.send(&sent, 11);
        // Other nonce bytes make a well-formed IV of another packet.
        for place in [2, 3, 8, 13, 14] {
            let mut sent = core.clone();
            sent[place] ^= 0x40;
            s.send(&sent, 12);
        }
    }
    s.question(APPLICATION);
    s.send(&good, 0);
    s.question(APPLICATION);
}

pub fn damaged_packets(s: &mut Script) {
    let ver = s.next_version();
    let small = s.data(ver, 1, 1, 0x4400, &[1]);
    let bytes = s.random.bytes(30);
    let middle = s.data(ver, 1, 1, 0x4400, &bytes);
    let new_key = s.random.block();
    let key = s.key(0, 20, new_key);
    // Each byte of the smallest body and of a key packet's.
    for core in [&small, &key] {
        for place in 17..core.len() {
            let mut sent = core.clone();
            sent[place] ^= 1 << (place % 8);
            s.send(&sent, 12);
        }
    }
    // A byte of each kind in a longer one: clear fields, data, the last block, the tag.
    let end = middle.len();
    for place in [17, 18, 26, 27, 32, 33, end - 17, end - 16, end - 1] {
        let mut sent = middle.clone();
        sent[place] ^= 0x80;
        s.send(&sent, 12);
    }
    // Shorter and longer than it was sealed, blocks exchanged, no tag.
    s.send(&middle[..end - 1], 12);
    let mut sent = middle.clone();
    sent.push(0);
    s.send(&sent, 12);
    let mut sent = middle.clone();
    sent.remove(30);
    s.send(&sent, 12);
    let mut sent = middle.clone();
    for place in 17..33 {
        sent.swap(place, place + 16);
    }
    s.send(&sent, 12);
    let mut sent = middle.clone();
    sent[end - 16..].fill(0);
    s.send(&sent, 12);
    // Random bytes behind a well-formed IV, of the least and of the greatest length.
    for count in [27, 282] {
        let mut sent = vec![DATA_PACKET];
        sent.extend(s.iv());
        sent.extend(s.random.bytes(count));
        s.send(&sent, 12);
    }
    // Sent as the other kind.
    let mut sent = key.clone();
    sent[0] = DATA_PACKET;
    s.send(&sent, 12);
    s.question(APPLICATION);
    // Whole again.
    s.send(&key, 0);
    s.send(&small, 12);
    s.data_key = new_key;
    s.send_data(ver, 1, 1, 0x4400, &[1], 0);
    s.question(APPLICATION);
}

pub fn borders(s: &mut Script) {
    // The first packet: nothing of it is stored, not even the mark.
    let ver = s.next_version();
    let outside = [
        (0x0000, 1),
        (0x00FF, 256),
        (0x17FF, 1),
        (0x17FF, 2),
        (0x19FF, 2),
        (0x1901, 256),
        (0x1A00, 1),
        (0x43FF, 1),
        (0x43FF, 2),
        (0xEFFF, 2),
        (0xEF01, 256),
        (0xF000, 1),
        (0xFF7F, 1),
        (0xFF7F, 2),
        (0xFF00, 256),
        (0x13FFF, 2),
        (0x13F01, 256),
        (0x14000, 1),
        (0x1FFFE, 2),
        (0x1FFFF, 2),
        (0x24400, 1),
        (0x114400, 1),
        (0xFFFFFF, 1),
        (0xFFFFFF, 2),
        (0xFFFF80, 256),
    ];
    for (address, count) in outside {
        s.send_data(ver, 1, 1, address, &vec![0x55; count], 23);
    }
    s.question(APPLICATION);
    // At no supply, too: there is no step.
    s.power_up(0);
    s.send_data(ver, 1, 1, 0x14000, &[1], 23);
    s.question(APPLICATION);
    s.power_up(NO_END);
    // Inside, with one outside before each.
    let inside = [
        (0x1800, 1),
        (0x1900, 256),
        (0x19FF, 1),
        (0x4400, 1),
        (0xEF00, 256),
        (0xEFFF, 1),
        (0xFF80, 1),
        (0xFF80, 256),
        (0xFFFF, 2),
        (0x10000, 1),
        (0x13F00, 256),
        (0x13FFF, 1),
    ];
    let np = inside.len() as u16;
    let small_outside = outside.iter().filter(|(_, count)| *count <= 2);
    for ((pn, (address, count)), &(bad_address, bad_count)) in (1..).zip(inside).zip(small_outside) {
        s.send_data(ver, pn, np, bad_address, &vec![0x55; bad_count], 23);
        s.send_data(ver, pn, np, address, &vec![0x66; count], 0);
    }
    s.question(APPLICATION);
    // The vector's high byte alone, over the end of the table; then all around it.
    for (address, bytes, found) in [
        (0xFFFE, vec![0xFF; 2], BLANK),
        (0xFFFF, vec![0x44, 0x00], APPLICATION),
        (0xFFC0, vec![0xFF; 65], BLANK),
        (0xFF81, vec![0x00; 256], APPLICATION),
    ] {
        let ver = s.next_version();
        s.send_data(ver, 1, 1, address, &bytes, 0);
        s.question(found);
    }
}
