//! Runs `collect` on standard input.

use collect_rust::{run, Failure};
use std::io;
use std::process::ExitCode;

fn main() -> ExitCode {
    match run(io::stdin().lock(), io::stdout().lock()) {
        Ok(()) => return ExitCode::SUCCESS,
        Err(Failure::Input(error)) => eprintln!("collect: cannot read standard input: {error}"),
        Err(Failure::Output(error)) => {
            eprintln!("collect: cannot write standard output: {error}")
        }
    }
    ExitCode::FAILURE
}
