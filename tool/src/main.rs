//! `mooringeye`: a collector that runs at a plant and survives what happens to it, and the tools for its archives.
//!
//! Every decision is made by the proved library; this program reads, writes, locks, syncs and reports.
#![deny(unsafe_code)]

mod appender;
mod archive;
mod args;
mod bad;
mod batch;
mod closings;
mod collect;
mod copy;
mod disk;
mod failure;
mod files;
mod generate;
mod heard;
mod help;
mod journal;
mod keeper;
mod list;
mod logs;
mod metrics;
mod names;
mod options;
mod out;
mod page;
mod picture;
mod plans;
#[cfg(test)]
mod powercut;
mod progress;
mod reach;
mod receptions;
mod rows;
mod signals;
mod state;
mod status;
mod store;
mod streams;
mod sys;
mod telegrams;
mod text;
mod times;

use args::Args;
use failure::{complain, Failure};
use help::Asked;
use std::ffi::OsString;
use std::process::ExitCode;
use streams::{quietly, Output};

fn main() -> ExitCode {
    sys::ignore_file_size_signal();
    match run(std::env::args_os().skip(1).collect()) {
        Ok(()) => ExitCode::SUCCESS,
        Err(failure) => {
            complain(failure.text());
            ExitCode::from(failure.status())
        }
    }
}

fn run(words: Vec<OsString>) -> Result<(), Failure> {
    match Asked::of(&words)? {
        Asked::Run(command, rest) => {
            let args = Args::of(command, rest)?;
            failure::set_quiet(args.has("quiet"));
            (command.run)(&args)
        }
        Asked::Help(text) => say(&text),
        Asked::Version => say_version(),
    }
}

fn version(args: &Args) -> Result<(), Failure> {
    args.no_rest()?;
    say_version()
}

fn say_version() -> Result<(), Failure> {
    say(&format!("mooringeye {}, library {}", env!("CARGO_PKG_VERSION"), mooringeye::version()))
}

/// Prints a text.
fn say(text: &str) -> Result<(), Failure> {
    quietly(Output::standard()?.write(format!("{text}\n").as_bytes()))
}
