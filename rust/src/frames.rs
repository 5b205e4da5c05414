//! Frames and lines of scripts.

use crate::hex::put_hex;

/// The instructions of the command table.
pub mod ins {
    #![allow(missing_docs)]
    pub const READ_DATA: u8 = 0xAD;
    pub const WRITE_DATA: u8 = 0x8D;
    pub const GET_VALUE: u8 = 0x6C;
    pub const CREDIT: u8 = 0x0C;
    pub const DEBIT: u8 = 0xDC;
    pub const LIMITED_CREDIT: u8 = 0x1C;
    pub const READ_RECORDS: u8 = 0xAB;
    pub const WRITE_RECORD: u8 = 0x8B;
    pub const CLEAR_RECORD_FILE: u8 = 0xEB;
    pub const COMMIT: u8 = 0xC7;
    pub const ABORT: u8 = 0xA7;
    pub const GET_FILE_SETTINGS: u8 = 0xF5;
    pub const FIRST_PART: u8 = 0x71;
    pub const SECOND_PART: u8 = 0xAF;
    pub const ALL: [u8; 14] = [
        READ_DATA,
        WRITE_DATA,
        GET_VALUE,
        CREDIT,
        DEBIT,
        LIMITED_CREDIT,
        READ_RECORDS,
        WRITE_RECORD,
        CLEAR_RECORD_FILE,
        COMMIT,
        ABORT,
        GET_FILE_SETTINGS,
        FIRST_PART,
        SECOND_PART,
    ];
    pub const WITH_AMOUNT: [u8; 3] = [CREDIT, DEBIT, LIMITED_CREDIT];
    pub const WITHOUT_FILE: [u8; 4] = [COMMIT, ABORT, FIRST_PART, SECOND_PART];

    /// The place of an instruction in [`ALL`].
    pub fn place(instruction: u8) -> Option<usize> {
        ALL.iter().position(|&known| known == instruction)
    }
}

/// The largest figure of three bytes.
pub const LARGEST_3: u64 = 0xFF_FFFF;
/// The most bytes a write command has room for.
pub const LONGEST_WRITE: u64 = 255 - 7;

/// A well-formed frame of an instruction and a data field of at most 255 bytes.
pub fn frame(instruction: u8, data: &[u8]) -> Vec<u8> {
    let mut frame = vec![0x90, instruction, 0x00, 0x00];
    if !data.is_empty() {
        frame.push(data.len() as u8);
        frame.extend_from_slice(data);
    }
    frame.push(0x00);
    frame
}

fn put_3(data: &mut Vec<u8>, figure: u64) {
    data.extend_from_slice(&figure.to_le_bytes()[..3]);
}

/// A frame of "file, offset 3, length 3" or "file, entry 3, count 3".
pub fn read_frame(instruction: u8, file: u8, first: u64, second: u64) -> Vec<u8> {
    let mut data = vec![file];
    put_3(&mut data, first);
    put_3(&mut data, second);
    frame(instruction, &data)
}

/// A frame of "file, offset 3, length 3, bytes".
pub fn write_frame(instruction: u8, file: u8, offset: u64, length: u64, bytes: &[u8]) -> Vec<u8> {
    let mut data = vec![file];
    put_3(&mut data, offset);
    put_3(&mut data, length);
    data.extend_from_slice(bytes);
    frame(instruction, &data)
}

/// A frame of "file, amount 4".
pub fn amount_frame(instruction: u8, file: u8, amount: u32) -> Vec<u8> {
    let mut data = vec![file];
    data.extend_from_slice(&amount.to_le_bytes());
    frame(instruction, &data)
}

/// The line of some bytes in capital hexadecimal digits.
pub fn hex_line(prefix: &[u8], bytes: &[u8]) -> Vec<u8> {
    let mut line = prefix.to_vec();
    put_hex(bytes, &mut line);
    line
}

/// A script: lines without their LF.
#[derive(Clone, Debug, Default)]
pub struct Script {
    /// The lines.
    pub lines: Vec<Vec<u8>>,
    /// Whether the last line has an LF (one that is empty has it always).
    pub last_lf: bool,
}

impl Script {
    /// The script as a bench program reads it.
    pub fn bytes(&self) -> Vec<u8> {
        join(&self.lines, self.last_lf)
    }
}

/// Lines with an LF after each, the last one only if it is empty or `last_lf`.
pub fn join(lines: &[Vec<u8>], last_lf: bool) -> Vec<u8> {
    let mut bytes = Vec::with_capacity(lines.iter().map(|line| line.len() + 1).sum());
    for line in lines {
        bytes.extend_from_slice(line);
        bytes.push(b'\n');
    }
    if !last_lf && lines.last().map_or(false, |line| !line.is_empty()) {
        bytes.pop();
    }
    bytes
}
