//! Tries the card with the programs of others.

#![forbid(unsafe_code)]

use card_reference::check::library::try_library;
use card_reference::check::till::try_reader;
use card_reference::check::{Place, Tally};
use std::ffi::OsString;
use std::fs;
use std::process::ExitCode;

const HELP: &str = "\
check: tries the card in a reader and as a library

Usage: check REPOSITORY -- BENCH [ARGUMENTS...]

Builds the examples of the library in C and in Rust and plays scripts through
them. Starts a pcscd of its own with a virtual reader, has the program reader
play the card in it, plays sales through opensc-tool and scriptor, and plays the
recording again. REPOSITORY has the proved programs and the archive at hand, and
BENCH and its arguments run the bench. Nothing is installed, and what is started
is ended.

Prints a line for each trial and 'N passed, 0 failed' last; where a program or a
package is missing, it names it. Exit status: 0 if all passed, 1 if one failed,
2 if it was started wrongly, 3 if something is missing.
";

fn main() -> ExitCode {
    let arguments: Vec<OsString> = std::env::args_os().skip(1).collect();
    let (root, bench) = match arguments.as_slice() {
        [only] if only == "--help" || only == "-h" => {
            print!("{HELP}");
            return ExitCode::SUCCESS;
        }
        [root, dashes, bench @ ..] if dashes == "--" && !bench.is_empty() => (root, bench),
        _ => {
            eprint!("{HELP}");
            return ExitCode::from(2);
        }
    };
    let folder = std::env::temp_dir().join(format!("card-check-{}", std::process::id()));
    let reader = std::env::current_exe().map(|check| check.with_file_name("reader"));
    let reader = match fs::create_dir(&folder).and(reader) {
        Ok(reader) => reader,
        Err(error) => {
            eprintln!("check: {}: {error}", folder.display());
            return ExitCode::from(2);
        }
    };
    let place = Place {
        root: root.into(),
        folder,
        bench: bench.to_vec(),
    };
    let mut tally = Tally::default();
    try_library(&mut tally, &place);
    try_reader(&mut tally, &place, &reader);
    if tally.has_failed() {
        println!(
            "what was written on the way stands in {}",
            place.folder.display()
        );
    } else {
        let _ = fs::remove_dir_all(&place.folder);
    }
    ExitCode::from(tally.finish())
}
