//! The command lines of the programs here: -h or --help prints a program's help, and a wrong call gets the help's first line.
use std::process::{exit, ExitCode};

/// The program's words; one that asks for help ends it.
pub fn words(help: &str) -> Vec<String> {
    let words: Vec<String> = std::env::args_os().skip(1).map(|word| word.to_string_lossy().into()).collect();
    if words.iter().any(|word| word == "-h" || word == "--help") {
        print!("{}", help);
        exit(0);
    }
    words
}

/// Ends a wrong call.
pub fn wrong(help: &str) -> ExitCode {
    eprintln!("{}", help.lines().next().unwrap_or_default());
    ExitCode::from(2)
}
