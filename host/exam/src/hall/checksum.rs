//! The checksum of a network, by which a record or a key says what it belongs to.
//!
//! It is the CRC-32 of IEEE 802.3, which gzip, zip and PNG have too, over the
//! bytes of the archive form: reflected polynomial EDB88320, begun with all ones
//! and inverted in the end, written as 8 hexadecimal digits. So every file of one
//! network has the same, and `exam archive NETWORK --raw` writes the bytes for
//! whoever wants to compute it again. It finds papers that were mixed up. It is no
//! seal: whoever means to can make another network with the same one.

use engine::Refusal;

const POLYNOMIAL: u32 = 0xEDB8_8320;

/// The checksum of a network file, by the engine's archive form.
pub fn of_network(file: &[u8]) -> Result<String, Refusal> {
    Ok(format!("{:08x}", crc32(&engine::archive(file)?)))
}

/// Bit by bit: an archive form has 1,331 bytes at most.
fn crc32(bytes: &[u8]) -> u32 {
    let mut rest = u32::MAX;
    for byte in bytes {
        rest ^= u32::from(*byte);
        for _ in 0..8 {
            let polynomial = if rest & 1 == 1 { POLYNOMIAL } else { 0 };
            rest = (rest >> 1) ^ polynomial;
        }
    }
    !rest
}

#[cfg(test)]
mod tests {
    use super::{crc32, of_network};

    /// The first is the check value that every list of CRCs has.
    #[test]
    fn known_values() {
        assert_eq!(crc32(b"123456789"), 0xCBF4_3926);
        assert_eq!(crc32(b""), 0);
        assert_eq!(crc32(b"a"), 0xE8B7_BE43);
        let text = b"The quick brown fox jumps over the lazy dog";
        assert_eq!(crc32(text), 0x414F_A339);
    }

    #[test]
    fn every_file_of_one_network_has_the_same() {
        let of = |text: &[u8]| of_network(engine::typed::read(text).expect("typed").bytes());
        let one = of(b"4C000F 4C0014 4300000008 4301000011 45").expect("accepted");
        let other = of(b"4C000F 4300000008 4C0014 4301000011 45").expect("accepted");
        assert_eq!(one, other);
        let late = of(b"4C000F 4C0014 4300000008 4301000012 45").expect("accepted");
        assert_ne!(one, late);
        let first = of(b"5601 4C000F 4C0014 4300000008 4301000011 45").expect("accepted");
        assert_eq!(one, first);
        let second = of(b"5602 4C000F 4C0014 4300000008 4301000011 45").expect("accepted");
        assert_ne!(one, second);
        assert!(of(b"4C000F").is_err());
    }
}
