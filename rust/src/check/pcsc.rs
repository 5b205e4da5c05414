//! A pcscd of the check's own, and the programs that speak to it.

use super::shown::{by_opensc_tool, by_scriptor, bytes};
use super::{run, Running};
use crate::reader::PATIENCE;
use std::env;
use std::fs::{self, File};
use std::io::{self, Write};
use std::net::{Ipv4Addr, TcpListener};
use std::os::unix::net::UnixStream;
use std::path::{Path, PathBuf};
use std::process::{Command, Stdio};
use std::thread;
use std::time::{Duration, Instant};

/// The programs that are needed, and Debian's packages that have them.
const PROGRAMS: [(&str, &str); 3] = [
    ("pcscd", "pcscd"),
    ("opensc-tool", "opensc"),
    ("scriptor", "pcsc-tools"),
];

/// The driver of the virtual reader, and its package.
const DRIVER: &str = "/usr/lib/pcsc/drivers/serial/libifdvpcd.so";
const DRIVER_PACKAGE: &str = "vsmartcard-vpcd";

/// The socket of the one pcscd that can run on a machine.
const SOCKET: &str = "/run/pcscd/pcscd.comm";

/// The reader's name; pcscd puts the numbers of reader and slot behind it.
const READER: &str = "Amberdrone check";
const SLOT: &str = "Amberdrone check 00 00";

/// Where a program is. An ordinary user's path may lack the folder of daemons.
fn program(name: &str) -> Option<PathBuf> {
    let path = env::var_os("PATH").unwrap_or_default();
    let mut folders = env::split_paths(&path).chain(["/usr/sbin".into()]);
    folders.find_map(|folder| Some(folder.join(name)).filter(|file| file.is_file()))
}

/// What keeps a pcscd with a virtual reader from being started here.
pub fn hindrance() -> Option<String> {
    let programs = PROGRAMS.iter().filter(|(name, _)| program(name).is_none());
    let mut missing: Vec<_> = programs.map(|(_, package)| *package).collect();
    if !Path::new(DRIVER).is_file() {
        missing.push(DRIVER_PACKAGE);
    }
    if !missing.is_empty() {
        let packages = missing.join(" ");
        return Some(format!(
            "missing: {packages}; as root, run: apt-get install {packages}"
        ));
    }
    let free = match UnixStream::connect(SOCKET) {
        Ok(_) => false,
        Err(error) => matches!(
            error.kind(),
            io::ErrorKind::NotFound | io::ErrorKind::ConnectionRefused
        ),
    };
    (!free).then(|| {
        format!("a pcscd listens at {SOCKET}: end it, as by systemctl stop pcscd.socket pcscd")
    })
}

/// Asks something again and again, up to ten seconds.
pub fn wait_for<T>(mut ask: impl FnMut() -> Option<T>) -> Option<T> {
    let until = Instant::now() + PATIENCE;
    while Instant::now() < until {
        if let Some(answer) = ask() {
            return Some(answer);
        }
        thread::sleep(Duration::from_millis(100));
    }
    None
}

/// A port of which the one behind it is free too: the virtual reader has two
/// slots.
fn free_port() -> io::Result<u16> {
    let listen = |port| TcpListener::bind((Ipv4Addr::LOCALHOST, port));
    for _ in 0..100 {
        let first = listen(0)?;
        let port = first.local_addr()?.port();
        if port < u16::MAX && listen(port + 1).is_ok() {
            return Ok(port);
        }
    }
    Err(io::ErrorKind::AddrInUse.into())
}

/// The pcscd, where it is started, and its virtual reader.
pub struct Pcsc {
    folder: PathBuf,
    port: u16,
    pcscd: Option<Running>,
}

impl Pcsc {
    /// A reader at a free port; the folder is for what the programs write.
    pub fn new(folder: &Path) -> Result<Self, String> {
        Ok(Self {
            folder: folder.to_owned(),
            port: free_port().map_err(|error| format!("no free port: {error}"))?,
            pcscd: None,
        })
    }

    /// The port of the virtual reader.
    pub fn port(&self) -> u16 {
        self.port
    }

    /// Starts pcscd and waits until it shows the card.
    pub fn start(&mut self) -> Result<(), String> {
        let port = self.port;
        let readers = self.folder.join("readers");
        let text = format!(
            "FRIENDLYNAME \"{READER}\"\nDEVICENAME /dev/null:0x{port:04X}\n\
             LIBPATH {DRIVER}\nCHANNELID 0x{port:04X}\n"
        );
        let log = self.folder.join("pcscd.log");
        let start = || {
            fs::create_dir_all(&readers)?;
            fs::write(readers.join("reader"), text)?;
            let output = File::create(&log)?;
            Command::new(program("pcscd").unwrap_or_default())
                .args(["--foreground", "--config"])
                .arg(&readers)
                .stdin(Stdio::null())
                .stdout(output.try_clone()?)
                .stderr(output)
                .spawn()
        };
        self.pcscd = Some(Running(start().map_err(|error| format!("pcscd: {error}"))?));
        wait_for(|| self.atr().ok().filter(|atr| !atr.is_empty()))
            .map(drop)
            .ok_or_else(|| {
                let said = fs::read(&log).unwrap_or_default();
                let said = String::from_utf8_lossy(&said);
                format!("pcscd, which has to be run as root, shows no card: {said}")
            })
    }

    /// Ends pcscd as its service would: the reader's connections are cut.
    pub fn end(&mut self) {
        if let Some(mut pcscd) = self.pcscd.take() {
            let kill = format!("kill {}", pcscd.0.id());
            let _ = Command::new("sh").args(["-c", &kill]).status();
            let _ = pcscd.wait(PATIENCE);
        }
    }

    fn opensc_tool(&self, arguments: &[&str]) -> Result<String, String> {
        let mut tool = Command::new("opensc-tool");
        tool.args(["--card-driver", "default", "--reader", SLOT])
            .args(arguments);
        let written = run(&mut tool, "/dev/null".as_ref(), &self.folder)?;
        if written.status.success() {
            Ok(String::from_utf8_lossy(&written.output).into_owned())
        } else {
            Err(format!("{}: {}", written.status, written.errors))
        }
    }

    /// The answer to reset, as opensc-tool has it.
    pub fn atr(&self) -> Result<Vec<u8>, String> {
        Ok(bytes(&self.opensc_tool(&["--atr"])?.replace(':', " ")))
    }

    /// Sends frames with opensc-tool: the replies.
    pub fn send_by_opensc_tool(&self, frames: &[String]) -> Result<Vec<Vec<u8>>, String> {
        let arguments: Vec<&str> = frames.iter().flat_map(|frame| ["-s", frame]).collect();
        Ok(by_opensc_tool(&self.opensc_tool(&arguments)?))
    }

    /// Sends frames with scriptor, and does something before it lets the card go:
    /// the replies.
    pub fn send_by_scriptor(
        &mut self,
        frames: &[String],
        before_the_end: impl FnOnce(&mut Self) -> Result<(), String>,
    ) -> Result<Vec<Vec<u8>>, String> {
        let output = self.folder.join("scriptor.log");
        let start = || {
            let shown = File::create(&output)?;
            let mut child = Command::new("scriptor")
                .args(["-r", SLOT, "-p", "T=1"])
                .stdin(Stdio::piped())
                .stderr(shown.try_clone()?)
                .stdout(shown)
                .spawn()?;
            let mut input = child.stdin.take().expect("standard input is piped");
            let child = Running(child);
            writeln!(input, "{}", frames.join("\n"))?;
            Ok((child, input))
        };
        let failed = |error: io::Error| format!("scriptor: {error}");
        let (mut scriptor, input) = start().map_err(failed)?;
        let done = before_the_end(self);
        drop(input);
        // One that does not see that its pcscd is gone is ended, well before the
        // reader has waited for long enough.
        let _ = scriptor.wait(PATIENCE / 2).map_err(failed)?;
        drop(scriptor);
        done?;
        let shown = fs::read(&output).map_err(failed)?;
        Ok(by_scriptor(&String::from_utf8_lossy(&shown)))
    }
}
