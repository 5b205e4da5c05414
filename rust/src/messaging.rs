//! Sessions of AuthenticateEV2First and their MACs (request 06), as card and
//! terminal both compute them. Bytes are counted from the first sent.

use crate::aes::{Aes, Block};
use crate::cmac::cmac;

/// Bytes of a MAC as it is sent.
pub const MAC_SIZE: usize = 8;
/// Bytes of the capabilities that card and terminal tell each other.
pub const CAPABILITIES_SIZE: usize = 6;
/// Bytes of a second part, and of its reply.
pub const SECOND_PART_SIZE: usize = 32;

/// A MAC as it is sent.
pub type Mac = [u8; MAC_SIZE];
/// A transaction identifier, TI.
pub type TransactionId = [u8; 4];
/// The terminal's capabilities, PCDcap2, cut or filled with zeros.
pub type Capabilities = [u8; CAPABILITIES_SIZE];
/// The two blocks of a second part, or of its reply.
pub type TwoBlocks = [Block; 2];

/// The card's own capabilities, PDcap2.
const CARD_CAPABILITIES: Capabilities = [0; CAPABILITIES_SIZE];
/// What the session MAC key is derived for.
const FOR_MAC: [u8; 2] = [0x5A, 0xA5];

/// A random number turned left by one byte.
fn turned(random: &Block) -> Block {
    let mut turned = *random;
    turned.rotate_left(1);
    turned
}

/// A session key: the CMAC of its purpose, of a counter and a length that never
/// change, and of both random numbers, the terminal's and the card's.
fn session_key(purpose: [u8; 2], key: &Block, terminal: &Block, card: &Block) -> Block {
    let mut vector = Vec::with_capacity(32);
    vector.extend_from_slice(&purpose);
    vector.extend_from_slice(&[0x00, 0x01, 0x00, 0x80]);
    vector.extend_from_slice(&terminal[..2]);
    vector.extend(terminal[2..8].iter().zip(&card[..6]).map(|(a, b)| a ^ b));
    vector.extend_from_slice(&card[6..]);
    vector.extend_from_slice(&terminal[8..]);
    cmac(key, &[&vector])
}

/// The reply to a first part: the card's random number, encrypted.
pub fn first_reply(key: &Block, card: &Block) -> Block {
    Aes::new(key).encrypt(card)
}

/// The second part, as the terminal makes it from both random numbers.
pub fn second_part(key: &Block, terminal: &Block, card: &Block) -> TwoBlocks {
    Aes::new(key).encrypt_chained([*terminal, turned(card)])
}

/// The reply to a second part.
fn second_reply(
    aes: &Aes,
    transaction: TransactionId,
    terminal: &Block,
    capabilities: Capabilities,
) -> TwoBlocks {
    let mut plain = Vec::with_capacity(SECOND_PART_SIZE);
    plain.extend_from_slice(&transaction);
    plain.extend_from_slice(&turned(terminal));
    plain.extend_from_slice(&CARD_CAPABILITIES);
    plain.extend_from_slice(&capabilities);
    aes.encrypt_chained(two_blocks(&plain).expect("4, 16, 6 and 6 bytes"))
}

/// The blocks of 32 bytes, and none of any other number.
pub fn two_blocks(bytes: &[u8]) -> Option<TwoBlocks> {
    if bytes.len() != SECOND_PART_SIZE {
        return None;
    }
    let block = |at: usize| bytes[at..at + 16].try_into().expect("sixteen bytes");
    Some([block(0), block(16)])
}

/// An accepted first part that waits for its second.
#[derive(Clone, Copy, Debug, PartialEq, Eq)]
pub struct FirstPart {
    /// The number of the key, 0 to 4.
    pub key_number: u8,
    /// The card's random number, RndB.
    pub random: Block,
    /// The transaction identifier of the session to come.
    pub transaction: TransactionId,
    /// The terminal's capabilities.
    pub capabilities: Capabilities,
}

impl FirstPart {
    /// The terminal's random number in a second part, or none if the part
    /// fails: it must bring the card's random number back, turned by a byte.
    pub fn terminal_random(&self, key: &Block, second: TwoBlocks) -> Option<Block> {
        let [terminal, brought_back] = Aes::new(key).decrypt_chained(second);
        (brought_back == turned(&self.random)).then_some(terminal)
    }

    /// The session of a second part with this random number of the terminal,
    /// and the reply.
    pub fn finished(&self, key: &Block, terminal: &Block) -> (RealSession, TwoBlocks) {
        let session = RealSession {
            key_number: self.key_number,
            mac_key: session_key(FOR_MAC, key, terminal, &self.random),
            transaction: self.transaction,
            counter: 0,
        };
        let aes = Aes::new(key);
        let reply = second_reply(&aes, self.transaction, terminal, self.capabilities);
        (session, reply)
    }
}

/// A session opened by AuthenticateEV2First.
#[derive(Clone, Copy, Debug, PartialEq, Eq)]
pub struct RealSession {
    /// The number of the key, 0 to 4.
    pub key_number: u8,
    /// The session MAC key.
    pub mac_key: Block,
    /// The transaction identifier.
    pub transaction: TransactionId,
    /// The command counter.
    pub counter: u16,
}

impl RealSession {
    /// The MAC of a command: of INS, counter, transaction identifier and the
    /// data field less the MAC.
    pub fn command_mac(&self, instruction: u8, data: &[u8]) -> Mac {
        self.mac(instruction, data)
    }

    /// The MAC of the reply to a command that the counter has counted already.
    pub fn reply_mac(&self, data: &[u8]) -> Mac {
        self.mac(0x00, data)
    }

    /// Of the sixteen bytes of the CMAC, every second one is sent.
    fn mac(&self, first: u8, data: &[u8]) -> Mac {
        let [low, high] = self.counter.to_le_bytes();
        let [a, b, c, d] = self.transaction;
        let whole = cmac(&self.mac_key, &[&[first, low, high, a, b, c, d], data]);
        [1, 3, 5, 7, 9, 11, 13, 15].map(|at: usize| whole[at])
    }
}

#[cfg(test)]
mod tests {
    use super::*;
    use crate::hex::bytes;

    const KEY: Block = [0; 16];

    /// The first part of the published exchange, on the card's side.
    fn first() -> FirstPart {
        FirstPart {
            key_number: 0,
            random: bytes("B9E2FC789B64BF237CCCAA20EC7E6E48"),
            transaction: bytes("9D00C4DF"),
            capabilities: [0; CAPABILITIES_SIZE],
        }
    }

    /// The terminal's random number of the published exchange.
    fn terminal() -> Block {
        bytes("13C5DB8A5930439FC3DEF9A4C675360F")
    }

    /// The second part of the published exchange.
    fn second() -> [u8; SECOND_PART_SIZE] {
        bytes("35C3E05A752E0144BAC0DE51C1F22C56B34408A23D8AEA266CAB947EA8E0118D")
    }

    #[test]
    fn published_first_reply_and_second_part() {
        assert_eq!(
            first_reply(&KEY, &first().random),
            bytes("A04C124213C186F22399D33AC2A30215")
        );
        assert_eq!(
            second_part(&KEY, &terminal(), &first().random).concat(),
            second()
        );
    }

    #[test]
    fn published_session() {
        let blocks = two_blocks(&second()).unwrap();
        let random = first().terminal_random(&KEY, blocks).unwrap();
        assert_eq!(random, terminal());
        let (session, reply) = first().finished(&KEY, &random);
        assert_eq!(
            reply.concat(),
            bytes::<SECOND_PART_SIZE>(
                "3FA64DB5446D1F34CD6EA311167F5E4985B89690C04A05F17FA7AB2F08120663"
            )
        );
        assert_eq!(
            session,
            RealSession {
                key_number: 0,
                mac_key: bytes("4C6626F5E72EA694202139295C7A7FC7"),
                transaction: bytes("9D00C4DF"),
                counter: 0,
            }
        );
    }

    /// The other session key, whose vector differs in its first two bytes.
    #[test]
    fn published_encryption_key() {
        assert_eq!(
            session_key([0xA5, 0x5A], &KEY, &terminal(), &first().random),
            bytes("1309C877509E5A215007FF0ED19CA564")
        );
    }

    #[test]
    fn a_second_part_fails_in_any_bit_of_what_it_brings_back() {
        let sent = [terminal(), turned(&first().random)];
        for bit in 0..128 {
            let mut wrong = sent;
            wrong[1][bit / 8] ^= 1 << (bit % 8);
            let blocks = Aes::new(&KEY).encrypt_chained(wrong);
            assert_eq!(first().terminal_random(&KEY, blocks), None);
        }
    }

    #[test]
    fn published_macs() {
        let mut session = RealSession {
            key_number: 0,
            mac_key: bytes("8248134A386E86EB7FAF54A52E536CB6"),
            transaction: bytes("7A21085E"),
            counter: 0,
        };
        assert_eq!(
            session.command_mac(0xF5, &[0x02]),
            bytes("6597A457C8CD442C")
        );
        session.counter += 1;
        let data: [u8; 25] = bytes("0040EEEE000100D1FE001F00004400004400002000006A0000");
        assert_eq!(session.reply_mac(&data), bytes("2A474282E7A47986"));
    }

    #[test]
    fn the_counter_is_sent_least_significant_byte_first() {
        let session = RealSession {
            key_number: 0,
            mac_key: [0x11; 16],
            transaction: [1, 2, 3, 4],
            counter: 0x0102,
        };
        let whole = cmac(&[0x11; 16], &[&[0xC7, 0x02, 0x01, 1, 2, 3, 4]]);
        let sent: Vec<u8> = whole.iter().skip(1).step_by(2).copied().collect();
        assert_eq!(session.command_mac(0xC7, &[]), sent[..]);
    }
}
