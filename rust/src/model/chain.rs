//! Chains (request 07): a WriteData that comes as a chain of frames. An opening
//! announces it, and each file frame brings some of its bytes, which are in the
//! file at once.

use super::{
    file_and_two, parse_frame, put_status, write_range, BenchRefusal, Card, DataRole, Instruction,
    Refusal, Reply, Role, Session, Status, REPLY_ROOM,
};

/// The most bytes in one file frame.
pub const LONGEST_FILE_FRAME: usize = 128;

/// An open chain. Its range lies inside the file, and at least one byte is left.
#[derive(Clone, Copy, Debug, PartialEq, Eq)]
pub struct Chain {
    /// The file, which its opening named by its number.
    pub file: DataRole,
    /// The first place that is written.
    pub offset: usize,
    /// The announced length.
    pub length: usize,
    /// How many bytes are still to come.
    pub left: usize,
}

impl Chain {
    /// The place of the next byte in the file.
    fn next_place(&self) -> usize {
        self.offset + self.length - self.left
    }
}

impl Card {
    /// Opens a chain with a frame of WriteData that ends behind the length. A
    /// refusal is replied as that of a command, an accepted opening replies
    /// nothing; the result has the reply's length.
    pub fn open_chain(&mut self, frame: &[u8], reply: &mut [u8]) -> Result<Reply, BenchRefusal> {
        if reply.len() < REPLY_ROOM {
            return Err(BenchRefusal::ReplyRoom);
        }
        Ok(Reply::of_length(match self.answer_opening(frame) {
            Ok(()) => 0,
            Err(refusal) => put_status(refusal.status(), 0, reply),
        }))
    }

    /// A file frame. A refusal is replied, and the last frame of a chain; the
    /// others reply nothing. The result has the reply's length.
    pub fn file_frame(&mut self, bytes: &[u8], reply: &mut [u8]) -> Result<Reply, BenchRefusal> {
        if reply.len() < REPLY_ROOM {
            return Err(BenchRefusal::ReplyRoom);
        }
        Ok(Reply::of_length(match self.answer_file_frame(bytes) {
            Ok(None) => 0,
            Ok(Some(status)) => put_status(status.word(), 0, reply),
            Err(refusal) => put_status(refusal.status(), 0, reply),
        }))
    }

    /// An opening without a reply: the refusal, whose effect has then taken
    /// place.
    pub fn answer_opening(&mut self, frame: &[u8]) -> Result<(), Refusal> {
        let outcome = self.opened(frame);
        self.settle(outcome).map(|chain| self.chain = Some(chain))
    }

    /// A file frame without a reply: the status of the last one, none before, or
    /// the refusal, whose effect has then taken place.
    pub fn answer_file_frame(&mut self, bytes: &[u8]) -> Result<Option<Status>, Refusal> {
        let outcome = self.deliver(bytes);
        self.settle(outcome)
    }

    /// All places of an opening: the chain that it opens. No MAC comes off its
    /// data field, and place 6 asks for file, offset and length alone.
    fn opened(&self, frame: &[u8]) -> Result<Chain, Refusal> {
        let write = Instruction::WriteData;
        let (byte, data) = parse_frame(frame)?;
        if byte != write as u8 {
            return Err(Refusal::Instruction);
        }
        if self.is_unfinished() {
            return Err(Refusal::Interrupted);
        }
        let (number, offset, length) = file_and_two(data)?;
        let file = match self.named(number)? {
            Role::Data(file) => file,
            Role::Value | Role::Log => return Err(Refusal::KindOrNever),
        };
        self.check_access(write, Role::Data(file))?;
        if self.in_mac_mode(write, data) {
            return Err(Refusal::ChainInMacMode);
        }
        self.check_counter()?;
        write_range(offset, length, file.size())?;
        Ok(Chain {
            file,
            offset,
            length,
            left: length,
        })
    }

    /// Puts the bytes of a file frame into the file. A refusal changes nothing
    /// here. The last frame ends the chain, and the session counts the chain
    /// there as one command.
    fn deliver(&mut self, bytes: &[u8]) -> Result<Option<Status>, Refusal> {
        let chain = self.chain.ok_or(Refusal::Instruction)?;
        if !(1..=LONGEST_FILE_FRAME.min(chain.left)).contains(&bytes.len()) {
            return Err(Refusal::DataLength);
        }
        let start = chain.next_place();
        let file = &mut self.data[chain.file.place()];
        file.bytes[start..start + bytes.len()].copy_from_slice(bytes);
        let left = chain.left - bytes.len();
        if left > 0 {
            self.chain = Some(Chain { left, ..chain });
            return Ok(None);
        }
        self.chain = None;
        if let Session::Real(session) = &mut self.session {
            session.counter += 1;
        }
        Ok(Some(Status::Done))
    }

    /// The open chain.
    pub fn chain(&self) -> Option<&Chain> {
        self.chain.as_ref()
    }
}
