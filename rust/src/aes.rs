//! AES-128 as FIPS 197 writes it, byte by byte: the substitution table and
//! `xtime`, and no other table. Names of steps are the standard's.
//!
//! A state is the block itself: its byte r + 4c stands in row r and column c,
//! so a column is four bytes in a row.

/// A block, and a key.
pub type Block = [u8; 16];

/// Rounds of AES-128.
const ROUNDS: usize = 10;

/// The substitution table (figure 7).
#[rustfmt::skip]
const S_BOX_ENTRIES: [u8; 256] = [
    0x63, 0x7C, 0x77, 0x7B, 0xF2, 0x6B, 0x6F, 0xC5, 0x30, 0x01, 0x67, 0x2B, 0xFE, 0xD7, 0xAB, 0x76,
    0xCA, 0x82, 0xC9, 0x7D, 0xFA, 0x59, 0x47, 0xF0, 0xAD, 0xD4, 0xA2, 0xAF, 0x9C, 0xA4, 0x72, 0xC0,
    0xB7, 0xFD, 0x93, 0x26, 0x36, 0x3F, 0xF7, 0xCC, 0x34, 0xA5, 0xE5, 0xF1, 0x71, 0xD8, 0x31, 0x15,
    0x04, 0xC7, 0x23, 0xC3, 0x18, 0x96, 0x05, 0x9A, 0x07, 0x12, 0x80, 0xE2, 0xEB, 0x27, 0xB2, 0x75,
    0x09, 0x83, 0x2C, 0x1A, 0x1B, 0x6E, 0x5A, 0xA0, 0x52, 0x3B, 0xD6, 0xB3, 0x29, 0xE3, 0x2F, 0x84,
    0x53, 0xD1, 0x00, 0xED, 0x20, 0xFC, 0xB1, 0x5B, 0x6A, 0xCB, 0xBE, 0x39, 0x4A, 0x4C, 0x58, 0xCF,
    0xD0, 0xEF, 0xAA, 0xFB, 0x43, 0x4D, 0x33, 0x85, 0x45, 0xF9, 0x02, 0x7F, 0x50, 0x3C, 0x9F, 0xA8,
    0x51, 0xA3, 0x40, 0x8F, 0x92, 0x9D, 0x38, 0xF5, 0xBC, 0xB6, 0xDA, 0x21, 0x10, 0xFF, 0xF3, 0xD2,
    0xCD, 0x0C, 0x13, 0xEC, 0x5F, 0x97, 0x44, 0x17, 0xC4, 0xA7, 0x7E, 0x3D, 0x64, 0x5D, 0x19, 0x73,
    0x60, 0x81, 0x4F, 0xDC, 0x22, 0x2A, 0x90, 0x88, 0x46, 0xEE, 0xB8, 0x14, 0xDE, 0x5E, 0x0B, 0xDB,
    0xE0, 0x32, 0x3A, 0x0A, 0x49, 0x06, 0x24, 0x5C, 0xC2, 0xD3, 0xAC, 0x62, 0x91, 0x95, 0xE4, 0x79,
    0xE7, 0xC8, 0x37, 0x6D, 0x8D, 0xD5, 0x4E, 0xA9, 0x6C, 0x56, 0xF4, 0xEA, 0x65, 0x7A, 0xAE, 0x08,
    0xBA, 0x78, 0x25, 0x2E, 0x1C, 0xA6, 0xB4, 0xC6, 0xE8, 0xDD, 0x74, 0x1F, 0x4B, 0xBD, 0x8B, 0x8A,
    0x70, 0x3E, 0xB5, 0x66, 0x48, 0x03, 0xF6, 0x0E, 0x61, 0x35, 0x57, 0xB9, 0x86, 0xC1, 0x1D, 0x9E,
    0xE1, 0xF8, 0x98, 0x11, 0x69, 0xD9, 0x8E, 0x94, 0x9B, 0x1E, 0x87, 0xE9, 0xCE, 0x55, 0x28, 0xDF,
    0x8C, 0xA1, 0x89, 0x0D, 0xBF, 0xE6, 0x42, 0x68, 0x41, 0x99, 0x2D, 0x0F, 0xB0, 0x54, 0xBB, 0x16,
];

/// The table in one place of memory, where a constant would be copied to each
/// use.
static S_BOX: [u8; 256] = S_BOX_ENTRIES;

/// The substitution table read backwards (figure 14).
static INVERSE_S_BOX: [u8; 256] = {
    let mut inverse = [0; 256];
    let mut byte = 0;
    while byte < 256 {
        inverse[S_BOX_ENTRIES[byte] as usize] = byte as u8;
        byte += 1;
    }
    inverse
};

/// A byte of the field times x (section 4.2.1).
fn xtime(byte: u8) -> u8 {
    (byte << 1) ^ if byte & 0x80 == 0 { 0x00 } else { 0x1B }
}

/// Adds a block to another: AddRoundKey, and the chaining of CBC and CMAC.
pub fn add(block: &mut Block, other: &Block) {
    for (byte, other) in block.iter_mut().zip(other) {
        *byte ^= other;
    }
}

/// SubBytes and ShiftRows: row r is turned left by r places.
fn substitute_and_shift(state: &Block) -> Block {
    let mut next = [0; 16];
    for (at, byte) in next.iter_mut().enumerate() {
        let (row, column) = (at % 4, at / 4);
        *byte = S_BOX[usize::from(state[row + 4 * ((column + row) % 4)])];
    }
    next
}

/// InvShiftRows and InvSubBytes.
fn shift_and_substitute_back(state: &Block) -> Block {
    let mut next = [0; 16];
    for (at, byte) in next.iter_mut().enumerate() {
        let (row, column) = (at % 4, at / 4);
        *byte = INVERSE_S_BOX[usize::from(state[row + 4 * ((column + 4 - row) % 4)])];
    }
    next
}

/// MixColumns: each byte becomes 2 of itself, 3 of the next and 1 of each of
/// the other two, which is all four and 2 of itself and the next less itself.
fn mix_columns(state: &mut Block) {
    for column in state.chunks_exact_mut(4) {
        let [a, b, c, d] = [column[0], column[1], column[2], column[3]];
        let all = a ^ b ^ c ^ d;
        column[0] ^= all ^ xtime(a ^ b);
        column[1] ^= all ^ xtime(b ^ c);
        column[2] ^= all ^ xtime(c ^ d);
        column[3] ^= all ^ xtime(d ^ a);
    }
}

/// InvMixColumns: the coefficients Eh, Bh, Dh, 9h are those of MixColumns after
/// 4 of a byte and of the one opposite have been added to both.
fn mix_columns_back(state: &mut Block) {
    for column in state.chunks_exact_mut(4) {
        let even = xtime(xtime(column[0] ^ column[2]));
        let odd = xtime(xtime(column[1] ^ column[3]));
        column[0] ^= even;
        column[1] ^= odd;
        column[2] ^= even;
        column[3] ^= odd;
    }
    mix_columns(state);
}

/// AES with the round keys of one key.
#[derive(Clone, Debug)]
pub struct Aes {
    round_keys: [Block; ROUNDS + 1],
}

impl Aes {
    /// KeyExpansion (section 5.2): the words of a round key follow from the
    /// last word of the round key before it and from its other words.
    pub fn new(key: &Block) -> Self {
        let mut round_keys = [*key; ROUNDS + 1];
        let mut constant = 0x01;
        for round in 1..=ROUNDS {
            let before = round_keys[round - 1];
            // RotWord and SubWord of the last word, and the round constant.
            let mut word = [13, 14, 15, 12].map(|at: usize| S_BOX[usize::from(before[at])]);
            word[0] ^= constant;
            constant = xtime(constant);
            for (words, old) in round_keys[round]
                .chunks_exact_mut(4)
                .zip(before.chunks_exact(4))
            {
                for at in 0..4 {
                    word[at] ^= old[at];
                }
                words.copy_from_slice(&word);
            }
        }
        Self { round_keys }
    }

    /// Cipher (section 5.1).
    pub fn encrypt(&self, block: &Block) -> Block {
        let mut state = *block;
        add(&mut state, &self.round_keys[0]);
        for round in 1..ROUNDS {
            state = substitute_and_shift(&state);
            mix_columns(&mut state);
            add(&mut state, &self.round_keys[round]);
        }
        state = substitute_and_shift(&state);
        add(&mut state, &self.round_keys[ROUNDS]);
        state
    }

    /// InvCipher (section 5.3).
    pub fn decrypt(&self, block: &Block) -> Block {
        let mut state = *block;
        add(&mut state, &self.round_keys[ROUNDS]);
        for round in (1..ROUNDS).rev() {
            state = shift_and_substitute_back(&state);
            add(&mut state, &self.round_keys[round]);
            mix_columns_back(&mut state);
        }
        state = shift_and_substitute_back(&state);
        add(&mut state, &self.round_keys[0]);
        state
    }

    /// CBC encryption of whole blocks with a zero initial block (NIST SP
    /// 800-38A, section 6.2), without padding.
    pub fn encrypt_chained<const BLOCKS: usize>(&self, plain: [Block; BLOCKS]) -> [Block; BLOCKS] {
        let mut chain = [0; 16];
        plain.map(|mut block| {
            add(&mut block, &chain);
            chain = self.encrypt(&block);
            chain
        })
    }

    /// CBC decryption of whole blocks with a zero initial block.
    pub fn decrypt_chained<const BLOCKS: usize>(&self, secret: [Block; BLOCKS]) -> [Block; BLOCKS] {
        let mut chain = [0; 16];
        secret.map(|block| {
            let mut plain = self.decrypt(&block);
            add(&mut plain, &chain);
            chain = block;
            plain
        })
    }
}

#[cfg(test)]
mod tests {
    use super::*;
    use crate::hex::bytes;

    /// The product of two bytes of the field (section 4.2).
    fn times(mut a: u8, b: u8) -> u8 {
        let mut product = 0;
        for bit in 0..8 {
            if b >> bit & 1 == 1 {
                product ^= a;
            }
            a = xtime(a);
        }
        product
    }

    /// The field inverse, 0 for 0, and then the affine step (section 5.1.1).
    fn by_rule(byte: u8) -> u8 {
        let inverse = (0..=255)
            .find(|&other| times(byte, other) == 1)
            .unwrap_or(0);
        (0..5).fold(0x63, |sum, turn| sum ^ inverse.rotate_left(turn))
    }

    #[test]
    fn the_table_follows_its_rule() {
        for byte in 0..=255 {
            let entry = S_BOX[usize::from(byte)];
            assert_eq!(entry, by_rule(byte));
            assert_eq!(INVERSE_S_BOX[usize::from(entry)], byte);
        }
    }

    #[test]
    fn columns_are_mixed_by_the_coefficients() {
        let column = [0xDB, 0x13, 0x53, 0x45];
        let mut state = [column; 4].concat().try_into().unwrap();
        let product = |coefficients: [u8; 4]| {
            [0, 1, 2, 3].map(|row: usize| {
                (0..4).fold(0, |sum, at| {
                    sum ^ times(coefficients[(at + 4 - row) % 4], column[at])
                })
            })
        };
        let mut back: Block = state;
        mix_columns(&mut state);
        mix_columns_back(&mut back);
        assert_eq!(state, [product([2, 3, 1, 1]); 4].concat()[..]);
        assert_eq!(back, [product([0xE, 0xB, 0xD, 0x9]); 4].concat()[..]);
    }

    /// FIPS 197, A.1: the expansion of the key.
    #[test]
    fn published_key_expansion() {
        let expanded: [&str; ROUNDS + 1] = [
            "2B7E151628AED2A6ABF7158809CF4F3C",
            "A0FAFE1788542CB123A339392A6C7605",
            "F2C295F27A96B9435935807A7359F67F",
            "3D80477D4716FE3E1E237E446D7A883B",
            "EF44A541A8525B7FB671253BDB0BAD00",
            "D4D1C6F87C839D87CAF2B8BC11F915BC",
            "6D88A37A110B3EFDDBF98641CA0093FD",
            "4E54F70E5F5FC9F384A64FB24EA6DC4F",
            "EAD27321B58DBAD2312BF5607F8D292F",
            "AC7766F319FADC2128D12941575C006E",
            "D014F9A8C9EE2589E13F0CC8B6630CA6",
        ];
        let aes = Aes::new(&bytes(expanded[0]));
        assert_eq!(aes.round_keys, expanded.map(bytes));
    }

    #[track_caller]
    fn check(key: &str, plain: &str, secret: &str) {
        let aes = Aes::new(&bytes(key));
        assert_eq!(aes.encrypt(&bytes(plain)), bytes(secret));
        assert_eq!(aes.decrypt(&bytes(secret)), bytes(plain));
    }

    /// FIPS 197, B and C.1.
    #[test]
    fn published_blocks() {
        check(
            "2B7E151628AED2A6ABF7158809CF4F3C",
            "3243F6A8885A308D313198A2E0370734",
            "3925841D02DC09FBDC118597196A0B32",
        );
        check(
            "000102030405060708090A0B0C0D0E0F",
            "00112233445566778899AABBCCDDEEFF",
            "69C4E0D86A7B0430D8CDB78070B4C55A",
        );
    }

    #[test]
    fn decryption_undoes_encryption() {
        let mut block = [0; 16];
        let mut key = [0xFF; 16];
        for _ in 0..1000 {
            let aes = Aes::new(&key);
            key = aes.encrypt(&block);
            assert_eq!(aes.decrypt(&key), block);
            block = aes.decrypt(&block);
        }
    }

    #[test]
    fn chains_begin_with_a_zero_block() {
        let aes = Aes::new(&bytes("000102030405060708090A0B0C0D0E0F"));
        let plain: [Block; 3] = [[0x11; 16], [0x22; 16], [0x11; 16]];
        let secret = aes.encrypt_chained(plain);
        assert_eq!(secret[0], aes.encrypt(&plain[0]));
        let mut second = plain[1];
        add(&mut second, &secret[0]);
        assert_eq!(secret[1], aes.encrypt(&second));
        assert_ne!(secret[2], secret[0]);
        assert_eq!(aes.decrypt_chained(secret), plain);
    }
}
