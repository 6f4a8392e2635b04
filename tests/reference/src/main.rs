//! The second program: what Mooringeye's test programs must read and print, written from the papers
//! alone. README.md says how it is run.

mod archive;
mod archive_calls;
mod bursts;
mod clerk;
mod codec;
mod collect;
mod erp2;
mod erp2_records;
mod given;
mod hash;
mod hex;
mod history;
mod image;
mod inputs;
mod random;
mod repack;
mod repack_calls;
mod repeater;
mod report;
mod report_calls;
mod rules;
mod sample;
mod scenarios;
mod site;
mod slots;
mod subtelegram;
mod telegrams;

#[cfg(test)]
mod archive_faults;
#[cfg(test)]
mod cases;
#[cfg(test)]
mod faults;
#[cfg(test)]
mod isolation;
#[cfg(test)]
mod repack_faults;
#[cfg(test)]
mod report_faults;
mod rows;
#[cfg(test)]
mod sameness;

use std::io::{Read, Write};

fn main() {
    let words: Vec<String> = std::env::args().skip(1).collect();
    let words: Vec<&str> = words.iter().map(String::as_str).collect();
    let text = match words[..] {
        ["codec", "stdin"] => codec::stdin().into_bytes(),
        ["codec", "stdout"] => codec::stdout().into_bytes(),
        ["slots", "stdout"] => slots::stdout().into_bytes(),
        ["rules", "stdout"] => rules::stdout().into_bytes(),
        ["site", "stdin"] => site::stdin().into_bytes(),
        ["site", "stdout"] => site::stdout().into_bytes(),
        ["collect", "stdout"] => collect::run(&input()).into_bytes(),
        ["rows", "csv"] => rows::as_csv(&input()).into_bytes(),
        ["rows", "json"] => rows::as_json(&input()).into_bytes(),
        ["closings", "stdout"] => rows::closings(&input()),
        ["sample", "stdout"] => sample::plant().into_bytes(),
        ["inputs", name, "stdin"] => inputs::stdin(name).unwrap_or_else(usage),
        ["inputs", "names"] => (inputs::NAMES.join("\n") + "\n").into_bytes(),
        ["inputs", "stdout"] => inputs::stdout().into_bytes(),
        ["erp2", "stdin"] => erp2_records::stdin().into_bytes(),
        ["erp2", "stdout"] => erp2_records::stdout().into_bytes(),
        ["archive", "stdin"] => (archive_calls::stdin() + &report_calls::stdin()).into_bytes(),
        ["archive", "stdout"] => (archive_calls::stdout() + &report_calls::stdout()).into_bytes(),
        ["history", "stdin"] => history::stdin().into_bytes(),
        ["history", "stdout"] => history::stdout().into_bytes(),
        ["long", "stdin"] => history::text(&scenarios::long_calls()).into_bytes(),
        ["long", "stdout"] => {
            history::show(&scenarios::long_calls(), &mut clerk::Clerk::new()).into_bytes()
        }
        _ => usage(),
    };
    std::io::stdout().write_all(&text).expect("standard output");
}

/// All of standard input.
fn input() -> Vec<u8> {
    let mut input = Vec::new();
    std::io::stdin()
        .read_to_end(&mut input)
        .expect("standard input");
    input
}

fn usage<T>() -> T {
    eprintln!("reference archive|codec|erp2|history|long|site stdin|stdout,");
    eprintln!("reference slots|rules|collect|sample|closings stdout,");
    eprintln!("reference rows csv|json,");
    eprintln!("reference inputs names|stdout,");
    eprintln!(
        "reference inputs NAME stdin, NAME one of {}",
        inputs::NAMES.join(", ")
    );
    std::process::exit(2);
}
