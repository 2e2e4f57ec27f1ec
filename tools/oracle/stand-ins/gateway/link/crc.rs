//! 01's stand-in for the check: the reflected CRC-16 with polynomial 0x8408, start 0, by a table of 256 entries
//! that the compiler works out bit by bit.
const POLYNOMIAL: u16 = 0x8408;

const TABLE: [u16; 256] = {
    let mut table = [0; 256];
    let mut i = 0;
    while i < 256 {
        let mut crc = i as u16;
        let mut bit = 0;
        while bit < 8 {
            crc = if crc & 1 == 1 { crc >> 1 ^ POLYNOMIAL } else { crc >> 1 };
            bit += 1;
        }
        table[i] = crc;
        i += 1;
    }
    table
};

pub fn crc(buffer: &[u8]) -> u16 {
    buffer.iter().fold(0, |crc, byte| crc >> 8 ^ TABLE[usize::from(crc as u8 ^ byte)])
}
