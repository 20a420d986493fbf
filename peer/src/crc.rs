//! The checksum of a frame: CRC-CCITT, polynomial 0x1021, start 0xFFFF, bit by bit from the top.

pub fn checksum(bytes: &[u8]) -> u16 {
    let mut register: u16 = 0xFFFF;
    for &byte in bytes {
        register ^= (byte as u16) << 8;
        for _ in 0..8 {
            let out = register & 0x8000 != 0;
            register <<= 1;
            if out {
                register ^= 0x1021;
            }
        }
    }
    register
}

#[cfg(test)]
mod tests {
    use super::*;

    #[test]
    fn examples_of_the_rules() {
        assert_eq!(checksum(&[0x15]), 0xA364);
        assert_eq!(checksum(&[0x19]), 0x62E8);
        assert_eq!(checksum(&[0x25]), 0x9537);
        assert_eq!(checksum(&[0x3B, 0x00]), 0xC460);
        assert_eq!(checksum(&[0x3B, 0x05]), 0x94C5);
    }

    #[test]
    fn the_common_check_value() {
        assert_eq!(checksum(b"123456789"), 0x29B1);
    }
}
