//! Plays a script on the card by a call, without a pipe.
//!
//!     embedded [ROOM] < SCRIPT > ANSWERS
//!
//! With ROOM, one call with that much room for the answers; else as much room as
//! all answers take. Says on standard error how many characters of the script
//! were answered.
//!
//! It has a C main, so that it also runs under an emulator that does not bear
//! the start of Rust's runtime. A program for x86-64 alone needs none.

#![no_main]

use std::env;
use std::error::Error;
use std::io::{self, Read, Write};

// As include/amberdrone.h has it, and its promise.
#[link(name = "embedded", kind = "static")]
extern "C" {
    fn amberdrone_bench(
        script: *const u8,
        script_length: usize,
        out: *mut u8,
        out_length: usize,
        read: &mut usize,
    ) -> usize;
}

/// Plays the lines of a script on a new bench as far as their answers fit: how
/// many characters were answered, and the answers.
fn play<'a>(script: &[u8], out: &'a mut [u8]) -> (usize, &'a [u8]) {
    let mut read = 0;
    // SAFETY: slices are never null, and an exclusive one overlaps no other. The
    // function keeps no pointer and reads and writes within the lengths given.
    let written = unsafe {
        amberdrone_bench(
            script.as_ptr(),
            script.len(),
            out.as_mut_ptr(),
            out.len(),
            &mut read,
        )
    };
    (read, &out[..written])
}

fn run() -> Result<(), Box<dyn Error>> {
    let room: Option<u32> = env::args_os()
        .nth(1)
        .map(|room| room.to_string_lossy().parse())
        .transpose()?;
    let mut script = Vec::new();
    io::stdin().read_to_end(&mut script)?;
    let last_lf = script.iter().rposition(|&character| character == b'\n');
    let whole_lines = last_lf.map_or(0, |at| at + 1);
    let mut out = vec![0; room.unwrap_or(4096) as usize];
    loop {
        let (read, answers) = play(&script, &mut out);
        if room.is_some() || read == whole_lines {
            io::stdout().write_all(answers)?;
            io::stdout().flush()?;
            let length = script.len();
            writeln!(io::stderr(), "{read} of {length} characters answered")?;
            return Ok(());
        }
        out.resize(2 * out.len(), 0);
    }
}

#[no_mangle]
pub extern "C" fn main() -> i32 {
    match run() {
        Ok(()) => 0,
        Err(error) => {
            let _ = writeln!(io::stderr(), "embedded: {error}");
            1
        }
    }
}
