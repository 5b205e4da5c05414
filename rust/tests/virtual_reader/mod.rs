//! A virtual reader, the program `reader` beside it, and its recordings.

use card_reference::frames::hex_line;
use card_reference::{bench, hex};
use std::fs;
use std::io::{Read, Write};
use std::net::{TcpListener, TcpStream};
use std::path::{Path, PathBuf};
use std::process::{Child, Command, Stdio};
use std::thread;
use std::time::{Duration, Instant};

const READER: &str = env!("CARGO_BIN_EXE_reader");
pub const REFBENCH: &str = env!("CARGO_BIN_EXE_refbench");

/// Longer than anything takes here: a test fails then, and does not hang.
const LONG: Duration = Duration::from_secs(30);

/// The example program that dies with the argument `crash`.
pub fn faulty() -> String {
    let path = Path::new(READER).with_file_name("examples").join("faulty");
    path.to_str().unwrap().to_owned()
}

pub fn bytes(digits: &str) -> Vec<u8> {
    let mut bytes = Vec::new();
    hex::decode(digits.as_bytes(), &mut bytes).unwrap();
    bytes
}

/// The side of vpcd: a port that cards connect to.
pub struct VirtualReader(TcpListener);

impl VirtualReader {
    pub fn new() -> Self {
        Self(TcpListener::bind("127.0.0.1:0").unwrap())
    }

    pub fn port(&self) -> u16 {
        self.0.local_addr().unwrap().port()
    }

    /// Nothing listens at the port from here on.
    pub fn close(self) -> u16 {
        self.port()
    }

    pub fn accept(&self) -> Slot {
        self.accept_before(Instant::now() + LONG)
            .expect("a card in the reader")
    }

    pub fn accept_before(&self, until: Instant) -> Option<Slot> {
        self.0.set_nonblocking(true).unwrap();
        while Instant::now() < until {
            if let Ok((stream, _)) = self.0.accept() {
                stream.set_nonblocking(false).unwrap();
                stream.set_read_timeout(Some(LONG)).unwrap();
                return Some(Slot(stream));
            }
            thread::sleep(Duration::from_millis(10));
        }
        None
    }
}

/// A connection with a card.
pub struct Slot(TcpStream);

impl Slot {
    pub fn send_raw(&mut self, bytes: &[u8]) {
        self.0.write_all(bytes).unwrap();
    }

    pub fn send(&mut self, message: &[u8]) {
        let length = u16::try_from(message.len()).unwrap().to_be_bytes();
        self.send_raw(&[&length[..], message].concat());
    }

    pub fn send_apdu(&mut self, digits: &str) {
        self.send(&bytes(digits));
    }

    /// The next answer; none if the card is gone.
    fn try_receive(&mut self) -> Option<Vec<u8>> {
        let mut length = [0; 2];
        self.0.read_exact(&mut length).ok()?;
        let mut answer = vec![0; usize::from(u16::from_be_bytes(length))];
        self.0.read_exact(&mut answer).ok()?;
        Some(answer)
    }

    pub fn receive(&mut self) -> Vec<u8> {
        self.try_receive().expect("an answer")
    }

    /// The digits of the reply to an APDU; none if the card is gone.
    pub fn try_reply(&mut self, digits: &str) -> Option<String> {
        self.send_apdu(digits);
        let reply = hex_line(b"", &self.try_receive()?);
        Some(String::from_utf8(reply).unwrap())
    }

    pub fn reply(&mut self, digits: &str) -> String {
        self.try_reply(digits).expect("a reply")
    }

    /// Whether the card is gone, once all it sent is read.
    pub fn is_closed(&mut self) -> bool {
        while self.try_receive().is_some() {}
        true
    }
}

/// The program `reader`, which ends with this.
pub struct Program(Child);

impl Program {
    /// Starts it for a virtual reader, with a bench program.
    pub fn start(reader: &VirtualReader, options: &[&str], bench: &[&str]) -> Self {
        Self::start_at(reader.port(), options, bench)
    }

    pub fn start_at(port: u16, options: &[&str], bench: &[&str]) -> Self {
        Self::start_by(&[], port, options, bench)
    }

    /// The same with words in front of its command line.
    pub fn start_by(words: &[&str], port: u16, options: &[&str], bench: &[&str]) -> Self {
        let port = port.to_string();
        let line = [words, &[READER, "--port", &port], options, &["--"], bench].concat();
        let child = Command::new(line[0])
            .args(&line[1..])
            .stdin(Stdio::null())
            .stderr(Stdio::piped())
            .spawn();
        Self(child.unwrap())
    }

    /// Closes the other end of its standard error.
    pub fn look_away(&mut self) {
        drop(self.0.stderr.take());
    }

    /// Waits for its end: it has this exit status, and a message with these words.
    pub fn assert_ends(mut self, status: i32, message: &str) {
        let until = Instant::now() + LONG;
        let ended = loop {
            match self.0.try_wait().unwrap() {
                Some(ended) => break ended,
                None => assert!(Instant::now() < until, "it does not end: {message}"),
            }
            thread::sleep(Duration::from_millis(10));
        };
        let mut shown = String::new();
        let mut errors = self.0.stderr.take().unwrap();
        errors.read_to_string(&mut shown).unwrap();
        assert!(shown.contains(message), "{message} is not in: {shown}");
        assert!(!shown.contains("panicked"), "{shown}");
        assert_eq!(ended.code(), Some(status), "{shown}");
    }
}

impl Drop for Program {
    fn drop(&mut self) {
        let _ = self.0.kill();
        let _ = self.0.wait();
    }
}

/// A new folder, which is removed with this.
pub struct Folder(PathBuf);

impl Folder {
    pub fn new(name: &str) -> Self {
        let folder =
            std::env::temp_dir().join(format!("card-reader-{}-{name}", std::process::id()));
        fs::create_dir(&folder).unwrap();
        Self(folder)
    }

    pub fn path(&self, name: &str) -> PathBuf {
        self.0.join(name)
    }

    pub fn name(&self, name: &str) -> String {
        self.path(name).to_str().unwrap().to_owned()
    }

    pub fn lines(&self, name: &str) -> Vec<String> {
        let text = fs::read_to_string(self.path(name)).unwrap();
        assert!(
            text.is_empty() || text.ends_with('\n'),
            "a line is not whole: {text}"
        );
        text.lines().map(str::to_owned).collect()
    }

    /// A bench answers the recording's lines with its answers, to the byte.
    pub fn assert_plays_again(&self, name: &str) {
        let [sent, answered] =
            ["txt", "out"].map(|ending| fs::read(self.path(name).with_extension(ending)).unwrap());
        assert_eq!(
            bench::answers(&sent).escape_ascii().to_string(),
            answered.escape_ascii().to_string()
        );
    }
}

impl Drop for Folder {
    fn drop(&mut self) {
        let _ = fs::remove_dir_all(&self.0);
    }
}
