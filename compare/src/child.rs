//! Runs the Rust in a child process, where it may die: on an alias that never ends it overflows its stack.

use std::io::{ErrorKind, Read, Write};
use std::process::{Command, ExitStatus, Stdio};

use crate::case::Case;
use crate::second::Call;

/// The hidden subcommand.
pub const SUBCOMMAND: &str = "ask-the-rust";

/// A call on a child's command line.
pub fn letter(call: Call) -> &'static str {
    match call {
        Call::ProjectImpl => "P",
        Call::ExpectedSignatures => "S",
    }
}

pub fn call(letter: &str) -> Call {
    match letter {
        "P" => Call::ProjectImpl,
        _ => Call::ExpectedSignatures,
    }
}

/// Asks the Rust about a case in a child process, which is this program again.
pub fn ask(case: &Case) -> Result<ExitStatus, String> {
    let call = letter(case.call);
    let program = std::env::current_exe().map_err(|error| error.to_string())?;
    let mut child = Command::new(program)
        .args([SUBCOMMAND, call, &case.row.to_string()])
        .stdin(Stdio::piped())
        .stdout(Stdio::null())
        .stderr(Stdio::null())
        .spawn()
        .map_err(|error| format!("cannot start a child process: {error}"))?;
    let mut input = child.stdin.take().ok_or("a child process without input")?;
    // A child that ends before it has read all has still a status, which counts.
    input.write_all(&case.image).or_else(|error| match error.kind() {
        ErrorKind::BrokenPipe => Ok(()),
        _ => Err(error.to_string()),
    })?;
    drop(input);
    child.wait().map_err(|error| error.to_string())
}

/// The child: an image on standard input, one question to the Rust.
pub fn answer(letter: &str, row: &str) -> Result<(), String> {
    let mut image = vec![];
    std::io::stdin().read_to_end(&mut image).map_err(|error| error.to_string())?;
    let loaded = oracle::load(&image)?;
    let row = row.parse().map_err(|_| "a row is a number")?;
    let told = match call(letter) {
        Call::ProjectImpl => loaded.project_impl(row),
        Call::ExpectedSignatures => loaded.expected_signatures(row),
    };
    println!("{told:?}");
    Ok(())
}
