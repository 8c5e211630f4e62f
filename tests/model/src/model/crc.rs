//! The two check sums.

/// CRC-8: X^8+X^5+X^4+1, start 0, least significant bit first.
pub fn crc8(bytes: &[u8]) -> u8 {
    crc8_from(0, bytes)
}

/// CRC-8 from a register that need not be 0.
pub fn crc8_from(mut register: u8, bytes: &[u8]) -> u8 {
    for byte in bytes {
        for place in 0..8 {
            let carry = (register & 1) ^ (byte >> place & 1);
            register >>= 1;
            if carry == 1 {
                register ^= 0x8C;
            }
        }
    }
    register
}

/// CRC-16: X^16+X^15+X^2+1, start 0, least significant bit first, not yet inverted.
pub fn crc16(bytes: &[u8]) -> u16 {
    let mut register = 0u16;
    for byte in bytes {
        for place in 0..8 {
            let carry = (register & 1) ^ u16::from(byte >> place & 1);
            register >>= 1;
            if carry == 1 {
                register ^= 0xA001;
            }
        }
    }
    register
}

/// What the check of a code finds.
#[derive(Clone, Copy, PartialEq, Eq, Debug)]
pub enum Check {
    Good,
    Bad,
    /// All 64 bits are 0, as a shorted line reads; asked before the CRC.
    Zeros,
}

/// The check of a code.
pub fn check_of(code: u64) -> Check {
    if code == 0 {
        return Check::Zeros;
    }
    let bytes = code.to_le_bytes();
    if crc8(&bytes[..7]) == bytes[7] {
        Check::Good
    } else {
        Check::Bad
    }
}
