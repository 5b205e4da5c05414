//! Commands and statuses in words, for people who watch a run.

use crate::frames::{hex_line, ins};
use std::borrow::Cow;

/// The name of the command that an APDU carries, or its first bytes where the
/// card has no such command.
pub fn command(apdu: &[u8]) -> Cow<'static, str> {
    let instruction = match apdu {
        [] => return "empty frame".into(),
        [0x90, instruction, ..] => *instruction,
        _ => return unknown(apdu),
    };
    Cow::Borrowed(match instruction {
        ins::READ_DATA => "ReadData",
        ins::WRITE_DATA => "WriteData",
        ins::GET_VALUE => "GetValue",
        ins::CREDIT => "Credit",
        ins::DEBIT => "Debit",
        ins::LIMITED_CREDIT => "LimitedCredit",
        ins::READ_RECORDS => "ReadRecords",
        ins::WRITE_RECORD => "WriteRecord",
        ins::CLEAR_RECORD_FILE => "ClearRecordFile",
        ins::COMMIT => "CommitTransaction",
        ins::ABORT => "AbortTransaction",
        ins::GET_FILE_SETTINGS => "GetFileSettings",
        ins::FIRST_PART => "AuthenticateEV2First",
        ins::SECOND_PART => "AuthenticateEV2First, second part",
        _ => return unknown(apdu),
    })
}

fn unknown(apdu: &[u8]) -> Cow<'static, str> {
    let first = hex_line(b"", &apdu[..apdu.len().min(4)]);
    Cow::Owned(format!("unknown {}", String::from_utf8_lossy(&first)))
}

/// What a status means.
pub fn status(status: u16) -> &'static str {
    match status {
        0x9100 => "done",
        0x91AF => "second part awaited",
        0x6700 => "wrong length of the frame",
        0x6A86 => "wrong P1 or P2",
        0x6E00 => "wrong class",
        0x910C => "nothing pending",
        0x911C => "unknown command",
        0x911E => "wrong MAC",
        0x917E => "wrong length of the data",
        0x919D => "not permitted",
        0x919E => "wrong parameter",
        0x91AE => "not granted",
        0x91BE => "outside",
        0x91CA => "authentication broken off",
        0x91F0 => "no such file",
        _ => "unknown status",
    }
}

/// The line that shows an APDU and its reply.
pub fn line(apdu: &[u8], reply: &[u8]) -> String {
    let word = match reply {
        [.., high, low] => u16::from_be_bytes([*high, *low]),
        _ => 0,
    };
    format!("{}: {word:04X}, {}", command(apdu), status(word))
}

#[cfg(test)]
mod tests {
    use super::*;
    use crate::bench::answers;
    use crate::frames::frame;
    use crate::hex;
    use crate::scripts::Writer;

    #[test]
    fn every_command_of_the_table_has_a_name_of_its_own() {
        let mut names = ins::ALL.map(|known| command(&frame(known, &[]))).to_vec();
        assert!(names.iter().all(|name| !name.starts_with("unknown")));
        names.sort_unstable();
        names.dedup();
        assert_eq!(names.len(), ins::ALL.len());
    }

    #[test]
    fn every_status_that_is_met_has_a_word() {
        let script = Writer::new(1).script(20_000).bytes();
        let mut met = Vec::new();
        for answer in answers(&script).split(|&character| character == b'\n') {
            let mut reply = Vec::new();
            if let (Some(()), [.., high, low]) = (hex::decode(answer, &mut reply), &reply[..]) {
                met.push(u16::from_be_bytes([*high, *low]));
            }
        }
        met.sort_unstable();
        met.dedup();
        assert_eq!(met.len(), 15, "{met:04X?}");
        assert!(met.iter().all(|&word| status(word) != "unknown status"));
    }

    #[test]
    fn a_line_has_command_status_and_meaning() {
        let apdu = frame(ins::GET_VALUE, &[0x03]);
        let reply = [0x64, 0x00, 0x00, 0x00, 0x91, 0x00];
        assert_eq!(line(&apdu, &reply), "GetValue: 9100, done");
        let select = [0x00, 0xA4, 0x04, 0x00, 0x00];
        assert_eq!(
            line(&select, &[0x6E, 0x00]),
            "unknown 00A40400: 6E00, wrong class"
        );
        assert_eq!(
            line(&[], &[0x67, 0x00]),
            "empty frame: 6700, wrong length of the frame"
        );
    }
}
