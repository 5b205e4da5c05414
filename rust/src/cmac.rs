//! CMAC with AES-128, as NIST SP 800-38B writes it.

use crate::aes::{add, Aes, Block};

/// A block as a number, first byte most significant, times x in the field of
/// 128 bits.
fn doubled(block: &Block) -> Block {
    let number = u128::from_be_bytes(*block);
    let carry = if number >> 127 == 0 { 0x00 } else { 0x87 };
    ((number << 1) ^ carry).to_be_bytes()
}

/// The subkeys K1, for a last block that is whole, and K2, for one that is not
/// (section 6.1).
fn subkeys(aes: &Aes) -> (Block, Block) {
    let k1 = doubled(&aes.encrypt(&[0; 16]));
    (k1, doubled(&k1))
}

/// The CMAC of the message that the parts make, one behind the other (section
/// 6.2). The key schedule is computed once.
pub fn cmac(key: &Block, parts: &[&[u8]]) -> Block {
    let aes = Aes::new(key);
    let (k1, k2) = subkeys(&aes);
    let mut block = [0; 16];
    let mut filled = 0;
    for &byte in parts.iter().copied().flatten() {
        // A full block is encrypted only when more follows: the last is special.
        if filled == block.len() {
            block = aes.encrypt(&block);
            filled = 0;
        }
        block[filled] ^= byte;
        filled += 1;
    }
    if filled == block.len() {
        add(&mut block, &k1);
    } else {
        block[filled] ^= 0x80;
        add(&mut block, &k2);
    }
    aes.encrypt(&block)
}

#[cfg(test)]
mod tests {
    use super::*;
    use crate::hex::bytes;

    /// The key of RFC 4493, section 4, and of SP 800-38B, D.1.
    fn key() -> Block {
        bytes("2B7E151628AED2A6ABF7158809CF4F3C")
    }

    /// The message of the examples, whose first bytes each of them takes.
    fn message() -> [u8; 64] {
        bytes(
            "6BC1BEE22E409F96E93D7E117393172AAE2D8A571E03AC9C9EB76FAC45AF8E51\
             30C81C46A35CE411E5FBC1191A0A52EFF69F2445DF4F9B17AD2B417BE66C3710",
        )
    }

    #[test]
    fn published_subkeys() {
        let aes = Aes::new(&key());
        assert_eq!(
            aes.encrypt(&[0; 16]),
            bytes("7DF76B0C1AB899B33E42F047B91B546F")
        );
        assert_eq!(
            subkeys(&aes),
            (
                bytes("FBEED618357133667C85E08F7236A8DE"),
                bytes("F7DDAC306AE266CCF90BC11EE46D513B")
            )
        );
    }

    #[test]
    fn published_macs() {
        for (length, mac) in [
            (0, "BB1D6929E95937287FA37D129B756746"),
            (16, "070A16B46B4D4144F79BDD9DD04A287C"),
            (40, "DFA66747DE9AE63030CA32611497C827"),
            (64, "51F0BEBF7E3B9D92FC49741779363CFE"),
        ] {
            assert_eq!(cmac(&key(), &[&message()[..length]]), bytes(mac));
        }
    }

    #[test]
    fn parts_make_one_message() {
        let message = message();
        let whole = cmac(&key(), &[&message]);
        for cut in 0..=message.len() {
            let (head, tail) = message.split_at(cut);
            assert_eq!(cmac(&key(), &[head, tail]), whole);
        }
    }
}
