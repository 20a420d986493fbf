//! Updates and mass erases, whole and cut by the power, and what the board then boots.

use super::script::{Script, NO_END};
use crate::board::{APPLICATION, BLANK, UNFINISHED};

pub fn first_update(s: &mut Script) {
    let ver = s.next_version();
    let (lower, end, mut table) = (s.random.bytes(256), s.random.bytes(16), s.random.bytes(64));
    let (upper, info) = (s.random.bytes(100), s.random.bytes(8));
    table[62..].copy_from_slice(&[0x00, 0x44]);
    let parts: [(u32, &[u8]); 5] =
        [(0x4400, &lower), (0xEFF0, &end), (0xFFC0, &table), (0x10000, &upper), (0x1800, &info)];
    let update = s.update(ver, &parts);
    s.question(BLANK);
    for core in &update[..4] {
        s.send(core, 0);
        s.question(UNFINISHED);
    }
    s.send(&update[4], 0);
    s.question(APPLICATION);

    s.send(&update[0], 21);
    for core in &update[1..] {
        s.send(core, 22);
    }
    s.question(APPLICATION);
    s.send(&[0x19], 0);
}

pub fn cut_updates(s: &mut Script) {
    // 1 + 3, 2, and 3 + 1 steps.
    let ver = s.next_version();
    let parts: [(u32, &[u8]); 3] = [(0x4400, &[1, 2, 3]), (0xFFFE, &[4, 5]), (0x10000, &[6, 7, 8])];
    let update = s.update(ver, &parts);
    for supply in 0..10 {
        let whole_packets = match supply {
            0..=3 => 0,
            4 | 5 => 1,
            _ => 2,
        };
        s.power_up(supply);
        s.send_all(&update[..whole_packets]);
        s.send(&update[whole_packets], 3);
        s.while_dark();
        s.power_up(NO_END);
        s.question(if supply == 0 { APPLICATION } else { UNFINISHED });
        if whole_packets > 0 {
            s.send(&update[whole_packets], 22);
        }
    }
    // Exactly enough; the next step is one too many.
    s.power_up(10);
    s.send_all(&update);
    s.question(APPLICATION);
    s.send(&update[0], 21);
    let ver = s.next_version();
    let next = s.update(ver, &parts);
    s.send(&next[0], 3);
    s.while_dark();
    s.power_up(NO_END);
    s.question(APPLICATION);
    s.send_all(&next);
    s.question(APPLICATION);

    // A great packet of a single-packet update, cut in the middle and at its last step.
    let ver = s.next_version();
    let bytes = s.random.bytes(256);
    let great = s.data(ver, 1, 1, 0x13F00, &bytes);
    for supply in [100, 257] {
        s.power_up(supply);
        s.send(&great, 3);
        s.power_up(NO_END);
        s.question(UNFINISHED);
    }
    s.power_up(258);
    s.send(&great, 0);
    s.question(APPLICATION);
    s.power_up(NO_END);

    // A cut update may be followed by one of a greater version, but not of a lesser one.
    let ver = s.next_version();
    let cut = s.update(ver, &parts);
    s.power_up(2);
    s.send(&cut[0], 3);
    s.power_up(NO_END);
    s.send_data(ver - 1, 1, 1, 0x4400, &[0], 21);
    s.question(UNFINISHED);
    let ver = s.next_version();
    let greater = s.update(ver, &parts[..2]);
    s.send_all(&greater);
    s.send(&cut[0], 21);
    s.question(APPLICATION);
}

pub fn vector(s: &mut Script) {
    // Any byte of the vector that is not 0xFF makes an application.
    for (bytes, found) in [
        ([0xFF, 0xFF], BLANK),
        ([0x00, 0xFF], APPLICATION),
        ([0xFF, 0x44], APPLICATION),
        ([0xFF, 0xFE], APPLICATION),
        ([0xFF, 0xFF], BLANK),
    ] {
        let ver = s.next_version();
        s.send_data(ver, 1, 1, 0xFFFE, &bytes, 0);
        s.question(found);
    }
    // Only half the vector is stored before a cut; the update then ends without it.
    let ver = s.next_version();
    let cut = s.data(ver, 1, 2, 0xFFFE, &[0x12, 0x34]);
    s.power_up(2);
    s.send(&cut, 3);
    s.power_up(NO_END);
    s.question(UNFINISHED);
    s.send_data(ver, 1, 1, 0x4400, &[0], 0);
    s.question(APPLICATION);
    // The same with a byte before the vector: cut before that byte, before the vector, inside it.
    for (supply, found) in [(1, BLANK), (2, BLANK), (3, APPLICATION)] {
        let ver = s.next_version();
        s.send_data(ver, 1, 1, 0xFFFE, &[0xFF, 0xFF], 0);
        s.question(BLANK);
        let ver = s.next_version();
        let cut = s.data(ver, 1, 1, 0xFFFD, &[0x11, 0x12, 0x34]);
        s.power_up(supply);
        s.send(&cut, 3);
        s.power_up(NO_END);
        s.send_data(ver, 1, 1, 0x1000F, &[0], 0);
        s.question(found);
    }
    // Bytes beside the vector do not matter.
    let ver = s.next_version();
    let beside = s.update(ver, &[(0xFFFE, &[0xFF, 0xFF]), (0xFFFD, &[0]), (0x10000, &[0])]);
    s.send_all(&beside);
    s.question(BLANK);
    set_vector(s);
}

/// A small update that makes an application.
pub fn set_vector(s: &mut Script) {
    let ver = s.next_version();
    s.send_data(ver, 1, 1, 0xFFFE, &[0x00, 0x44], 0);
    s.question(APPLICATION);
}

pub fn mass_erase(s: &mut Script) {
    // Not even the vector.
    s.power_up(0);
    s.send(&[0x15], 3);
    s.while_dark();
    s.power_up(NO_END);
    s.question(APPLICATION);
    // The vector alone, then a part of the table, then a part of lower.
    for supply in [1, 62, 1000] {
        s.power_up(supply);
        s.send(&[0x15], 3);
        s.while_dark();
        s.power_up(NO_END);
        s.question(BLANK);
        s.send(&[0x19], 0);
        set_vector(s);
    }
    // All but the last step, and then all.
    s.power_up(60_478);
    s.send(&[0x15], 3);
    s.while_dark();
    s.power_up(60_479);
    s.question(BLANK);
    s.send(&[0x15], 0);
    s.question(BLANK);
    // No step is left. The version was not erased.
    s.send_data(s.version, 1, 1, 0xFFFE, &[0x00, 0x44], 21);
    let ver = s.next_version();
    let next = s.data(ver, 1, 1, 0xFFFE, &[0x00, 0x44]);
    s.send(&next, 3);
    s.while_dark();
    s.power_up(NO_END);
    s.question(BLANK);
    s.send(&next, 0);
    s.question(APPLICATION);

    // A mass erase in the middle of an update ends the session and leaves the mark.
    let ver = s.next_version();
    let update = s.update(ver, &[(0xFFFE, &[1, 2]), (0x4400, &[3]), (0x10000, &[4])]);
    s.send_all(&update[..2]);
    s.send(&[0x15], 0);
    s.question(UNFINISHED);
    s.send(&update[2], 22);
    s.send(&update[1], 22);
    s.send_data(ver, 1, 1, 0x4400, &[3], 0);
    s.question(BLANK);
    // A cut one does so, too.
    let ver = s.next_version();
    let update = s.update(ver, &[(0xFFFE, &[1, 2]), (0x4400, &[3])]);
    s.power_up(5);
    s.send(&update[0], 0);
    s.send(&[0x15], 3);
    s.power_up(NO_END);
    s.question(UNFINISHED);
    s.send(&update[1], 22);
    s.send_all(&update);
    s.question(APPLICATION);
}

pub fn supplies(s: &mut Script) {
    let parts: [(u32, &[u8]); 2] = [(0x4400, &[1]), (0x10000, &[2])];
    for supply in [4_294_967_294, 4_294_967_295, 4, 5] {
        let ver = s.next_version();
        let update = s.update(ver, &parts);
        s.power_up(supply);
        s.send_all(&update);
        s.question(APPLICATION);
    }
    // One step is left. What makes no step goes on without any.
    let ver = s.next_version();
    let first = s.data(ver, 1, 1, 0x4400, &[1]);
    s.send(&first, 3);
    s.while_dark();
    s.power_up(0);
    s.send(&[0x19], 0);
    s.send(&[0x25], 0);
    s.send(&[0x77], 9);
    s.silence();
    s.bad_frame(&[0x19], 81);
    s.question(UNFINISHED);
    s.send_data(ver, 2, 2, 0x4400, &[1], 22);
    s.send_key(0, 0, [1; 16], 31);
    // A new supply on a board that is not dark; a dark board comes up with no step, and goes dark again.
    s.send(&first, 3);
    s.power_up(0);
    s.question(UNFINISHED);
    s.send(&first, 3);
    s.power_up(1);
    s.power_up(2);
    s.send(&first, 3);
    // A malformed power-up is none.
    s.malformed(b"R 4294967296");
    s.while_dark();
    s.power_up(3);
    s.malformed(b"R 9999999999");
    s.send(&first, 0);
    s.question(APPLICATION);
    // None is left.
    s.send_key(0, 30, [1; 16], 3);
    s.while_dark();
    s.power_up(NO_END);
    s.send(&first, 21);
}

pub fn last_versions(s: &mut Script) {
    set_vector(s);
    // Version 255, cut and finished. Behind it no update opens.
    let update = s.update(255, &[(0x4400, &[1]), (0x10000, &[2])]);
    s.power_up(3);
    s.send(&update[0], 0);
    s.send(&update[1], 3);
    s.power_up(NO_END);
    s.question(UNFINISHED);
    s.send_all(&update);
    s.question(APPLICATION);
    for ver in [0, 1, 254, 255] {
        s.send_data(ver, 1, 1, 0x4400, &[1], 21);
    }
    // Key version 255.
    let key = s.random.block();
    s.send_key(0, 255, key, 0);
    s.data_key = key;
    for kv in [0, 1, 254, 255] {
        s.send_key(0, kv, key, 31);
    }
    let key = s.random.block();
    s.send_key(2, 255, key, 0);
    s.kek = key;
    s.send_key(2, 255, key, 31);
    // A mass erase is still done.
    s.power_up(1);
    s.send(&[0x15], 3);
    s.power_up(NO_END);
    s.question(BLANK);
    s.send_data(255, 1, 1, 0xFFFE, &[1, 2], 21);
    s.send(&[0x19], 0);
    s.question(BLANK);
}
