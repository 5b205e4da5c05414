//! The messages of vsmartcard's virtual reader, vpcd: two bytes of length, most
//! significant first, then the message. The reader listens, and the card, which
//! this is, connects.

use std::io::{self, ErrorKind, Read, Write};
use std::net::{Ipv4Addr, SocketAddr, TcpStream};
use std::thread;
use std::time::{Duration, Instant};

/// The port that the virtual reader listens at as Debian installs it.
pub const PORT: u16 = 35963;

/// The pause between two attempts to connect.
pub const PAUSE: Duration = Duration::from_millis(100);

/// What a reader asks for.
#[derive(Debug, PartialEq, Eq)]
pub enum Message {
    /// Power off, power on or a reset: each is a power-up to the card. None is
    /// answered.
    PowerUp,
    /// The answer to reset.
    Atr,
    /// A command string, of any length.
    Apdu(Vec<u8>),
}

impl Message {
    fn of(bytes: Vec<u8>) -> Self {
        match bytes.as_slice() {
            [0x00..=0x02] => Self::PowerUp,
            [0x04] => Self::Atr,
            _ => Self::Apdu(bytes),
        }
    }
}

/// A connection to a reader.
pub struct Connection {
    stream: TcpStream,
    /// How long the first message, and the rest of one that has begun, may take.
    patience: Duration,
    idle: Option<Duration>,
}

impl Connection {
    /// Connects to a port of this machine; none if nothing listens there up to
    /// the time given.
    pub fn open(port: u16, patience: Duration, until: Instant) -> Option<Self> {
        let address = SocketAddr::from((Ipv4Addr::LOCALHOST, port));
        while let Some(left) = until.checked_duration_since(Instant::now()) {
            if let Ok(stream) = connect(address, left.max(PAUSE)) {
                return Some(Self {
                    stream,
                    patience,
                    idle: Some(patience),
                });
            }
            thread::sleep(PAUSE);
        }
        None
    }

    /// The next message; none if the reader closed the connection before it.
    pub fn receive(&mut self) -> io::Result<Option<Message>> {
        self.stream.set_read_timeout(self.idle)?;
        let mut first = [0];
        if read_some(&mut self.stream, &mut first)? == 0 {
            return Ok(None);
        }
        self.stream.set_read_timeout(Some(self.patience))?;
        let mut second = [0];
        self.read(&mut second)?;
        let mut bytes = vec![0; usize::from(u16::from_be_bytes([first[0], second[0]]))];
        self.read(&mut bytes)?;
        self.idle = None;
        Ok(Some(Message::of(bytes)))
    }

    /// The rest of a message that has begun.
    fn read(&mut self, bytes: &mut [u8]) -> io::Result<()> {
        self.stream.read_exact(bytes).map_err(|error| {
            let what = "it broke off in the middle of a message";
            io::Error::new(error.kind(), what)
        })
    }

    /// Sends an answer, which has at most 65,535 bytes.
    pub fn send(&mut self, answer: &[u8]) -> io::Result<()> {
        let length = u16::try_from(answer.len())
            .map_err(|_| io::Error::new(ErrorKind::InvalidInput, "the answer is too long"))?;
        // In one piece, so that it is not held back for more to come.
        self.stream
            .write_all(&[&length.to_be_bytes()[..], answer].concat())
    }
}

/// Reads what there is, up to the end.
fn read_some(stream: &mut TcpStream, bytes: &mut [u8]) -> io::Result<usize> {
    loop {
        match stream.read(bytes) {
            Err(error) if error.kind() == ErrorKind::Interrupted => {}
            result => return result,
        }
    }
}

fn connect(address: SocketAddr, patience: Duration) -> io::Result<TcpStream> {
    let stream = TcpStream::connect_timeout(&address, patience)?;
    // Where nothing listens, a connection can be given the same port at both
    // ends: it then reaches itself.
    if stream.local_addr()? == stream.peer_addr()? {
        return Err(ErrorKind::ConnectionRefused.into());
    }
    stream.set_nodelay(true)?;
    stream.set_write_timeout(Some(patience))?;
    Ok(stream)
}

#[cfg(test)]
mod tests {
    use super::*;

    #[test]
    fn one_byte_asks_for_power_or_the_atr_and_all_else_is_an_apdu() {
        for byte in 0..=0xFF {
            let message = Message::of(vec![byte]);
            match byte {
                0x00..=0x02 => assert_eq!(message, Message::PowerUp),
                0x04 => assert_eq!(message, Message::Atr),
                _ => assert_eq!(message, Message::Apdu(vec![byte])),
            }
        }
        for bytes in [&[][..], &[0x00, 0x00], &[0x04, 0x04], &[0x01; 600]] {
            assert_eq!(Message::of(bytes.to_vec()), Message::Apdu(bytes.to_vec()));
        }
    }
}
