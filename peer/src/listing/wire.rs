//! What comes over the wire before any packet: frames good and bad, unknown commands, and lines that are no
//! calls.

use super::script::{Script, NO_END};
use crate::board::{APPLICATION, BLANK};
use crate::packet::frame;

pub fn version_query(s: &mut Script) {
    s.question(BLANK);
    s.send(&[0x19], 0);
    s.send(&[0x19], 0);
    s.silence();
    s.send(&[0x19], 0);
    s.question(BLANK);
}

pub fn noise(s: &mut Script) {
    for byte in (0..=255).filter(|&byte| byte != 0x80) {
        s.bad_frame(&[byte], 81);
    }
    s.send(&[0x19], 0);
    // Checksums: one bit off in each byte, swapped, none.
    for checksum in [[0xE9, 0x62], [0xE8, 0xE2], [0x62, 0xE8], [0x00, 0x00], [0xFF, 0xFF]] {
        s.bad_frame(&[0x80, 1, 0, 0x19, checksum[0], checksum[1]], 82);
        s.question(BLANK);
    }
    s.bad_frame(&[0x80, 2, 0, 0x19, 0x19, 0xE8, 0x62], 82);
    s.send(&[0x19], 0);
    // Lengths: 0; 300 and more.
    s.bad_frame(&[0x80, 0x00, 0x00], 83);
    for length in [300u16, 301, 511, 512, 0x8000, 0x8080, 0xFF00, 0xFFFF] {
        let [low, high] = length.to_le_bytes();
        s.bad_frame(&[0x80, low, high], 84);
    }
    // What stands behind such a length is no part of a frame.
    s.bad_frame(&[0x80, 0x2C, 0x01], 84);
    s.bad_frame(&[0x19], 81);
    s.bad_frame(&[0xE8], 81);
    s.bad_frame(&[0x80, 0x00, 0x00], 83);
    s.send(&[0x19], 0);
    // Headers inside a frame.
    s.send(&[0x80], 9);
    s.send(&[0x80; 128], 9);
}

pub fn greatest_frames(s: &mut Script) {
    let mut core = s.random.bytes(299);
    core[0] = 0x16;
    s.send(&core, 9);
    s.send(&[0x19; 299], 9);
    s.send(&[0x80; 256], 9);
    let mut bad = frame(&core);
    bad[303] ^= 0x10;
    s.bad_frame(&bad, 82);
    bad[303] ^= 0x10;
    bad[301] ^= 0x01;
    s.bad_frame(&bad, 82);
    bad[301] ^= 0x01;
    s.beginning(&bad[..303]);
    s.silence();
    s.bad_frame(&bad[303..], 81);
    s.send(&[0x19], 0);
}

pub fn cut_frames(s: &mut Script) {
    s.silence();
    let query = frame(&[0x19]);
    for count in 1..6 {
        s.beginning(&query[..count]);
        s.silence();
        s.send(&[0x19], 0);
        // A power-up clears the receiver, too.
        s.beginning(&query[..count]);
        s.power_up(NO_END);
        s.send(&[0x19], 0);
        // A question does not.
        s.beginning(&query[..count]);
        s.question(BLANK);
        s.send_from(count, &[0x19], 0);
    }
    s.beginning(&query[..3]);
    s.silence();
    s.silence();
    for &byte in &query[3..] {
        s.bad_frame(&[byte], 81);
    }
}

pub fn unknown_commands(s: &mut Script) {
    for command in [0x15, 0x19, 0x25] {
        s.send(&[command, 0], 9);
        s.send(&[command, command], 9);
        s.send(&[command, 0, 0], 9);
    }
    let known = [0x15, 0x19, 0x25, 0x30, 0x31];
    for command in (0..=255).filter(|command| !known.contains(command)) {
        s.send(&[command], 9);
    }
    s.send(&[0x3B, 0x00], 9);
    s.send(&[0x3A, 0x00, 0x58, 0x56, 0xB5], 9);
    s.question(BLANK);
}

/// Malformed lines of every kind; each stands alone.
const MALFORMED: [&[u8]; 67] = [
    // Too short and too long.
    b"",
    b" ",
    b"B",
    b"Q",
    b"S0",
    b"B 128",
    b"B128",
    b"B       128",
    b"B         128",
    b"Q          0 ",
    b" Q          0",
    b"B        128B        128",
    b"B                                                128",
    b"128",
    b"            ",
    b"             ",
    // Other letters.
    b"A          1",
    b"C          1",
    b"b          1",
    b"q          0",
    b"r          0",
    b"s          0",
    b"X          0",
    b"           0",
    b"0          0",
    b"#          0",
    b"-          0",
    // Numbers that are too great.
    b"B        256",
    b"B        300",
    b"B      65536",
    b"B 4294967296",
    b"B 4294967424",
    b"B99999999999",
    b"S          1",
    b"S        128",
    b"S 4294967296",
    b"Q          1",
    b"Q 4294967296",
    b"R 4294967296",
    b"R 4294967297",
    b"R 9999999999",
    b"R10000000000",
    b"R42949672950",
    b"R99999999999",
    // No number, digits at the left or in two groups, other signs.
    b"B           ",
    b"R           ",
    b"B128        ",
    b"B          1 ",
    b"B       128 ",
    b"B       12 8",
    b"B1         1",
    b"R 42949 6729",
    b"B         -1",
    b"B         +1",
    b"B       0x80",
    b"B        1.0",
    b"B        1e2",
    b"B        0A0",
    b"B        12/",
    b"B        12:",
    b"B!       128",
    // Tabs and ends of other systems.
    b"B\t        128",
    b"B\t       128",
    b"B\t128",
    b"B        128\r",
    b"B       128\r",
    b"\r",
];

pub fn malformed_lines(s: &mut Script) {
    let foreign: [&[u8]; 5] = [
        b"Q          0\r",
        b"\0          0",
        b"B\0\0\0\0\0\0\0\0\0\x001",
        b"\xFF          0",
        b"B        \xC2\xB2\xC2",
    ];
    for line in MALFORMED.iter().chain(&foreign) {
        s.malformed(line);
    }
    s.malformed(&[b'7'; 1000]);
    s.question(APPLICATION);
    // In the middle of a frame they change nothing.
    let query = frame(&[0x19]);
    s.beginning(&query[..2]);
    for line in MALFORMED {
        s.malformed(line);
    }
    s.send_from(2, &[0x19], 0);
    // On a dark board, too.
    s.power_up(0);
    s.send(&[0x15], 3);
    for line in MALFORMED {
        s.malformed(line);
    }
    s.while_dark();
    s.malformed(b"R 4294967296");
    s.while_dark();
    s.power_up(NO_END);
    // Leading zeros are allowed.
    let found = s.line(b"Q00000000000");
    assert_eq!(found.shown, [APPLICATION]);
    for line in [b"S       0000", b"R04294967295", b"R 0000000010", b"R00000000000"] {
        let got = s.line(line);
        assert_eq!((got.number(), got.shown.len()), (0, 0));
    }
    s.power_up(NO_END);
    for line in [b"B00000000255", b"B       0000", b"B         07"] {
        let got = s.line(line);
        assert_eq!(got.number(), 81);
    }
    s.question(APPLICATION);
}
