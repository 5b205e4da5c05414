//! Hexadecimal digits.

/// The figure of a hexadecimal digit of either case.
pub fn digit(character: u8) -> Option<u8> {
    match character {
        b'0'..=b'9' => Some(character - b'0'),
        b'A'..=b'F' => Some(character - b'A' + 10),
        b'a'..=b'f' => Some(character - b'a' + 10),
        _ => None,
    }
}

/// Appends the bytes of an even number of digits; none, with some of them
/// appended, if a character is no digit or their number is odd.
#[inline]
pub fn decode(digits: &[u8], bytes: &mut Vec<u8>) -> Option<()> {
    if digits.len() % 2 != 0 {
        return None;
    }
    for pair in digits.chunks_exact(2) {
        bytes.push((digit(pair[0])? << 4) | digit(pair[1])?);
    }
    Some(())
}

/// Appends capital hexadecimal digits.
#[inline(always)]
pub fn put_hex(bytes: &[u8], out: &mut Vec<u8>) {
    const DIGITS: &[u8; 16] = b"0123456789ABCDEF";
    for byte in bytes {
        out.push(DIGITS[usize::from(byte >> 4)]);
        out.push(DIGITS[usize::from(byte & 0xF)]);
    }
}

/// The bytes of a published figure, for tests.
#[cfg(test)]
pub fn bytes<const LENGTH: usize>(digits: &str) -> [u8; LENGTH] {
    let mut bytes = Vec::new();
    decode(digits.as_bytes(), &mut bytes).expect("hexadecimal digits");
    bytes.try_into().expect("as many bytes as asked for")
}
