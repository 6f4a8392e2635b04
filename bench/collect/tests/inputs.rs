//! The hand-written program prints what the second program prints, however its input is cut.

use std::fs;
use std::io::Read;
use std::path::Path;

/// Hands out at most this many bytes at once.
struct Pieces<'a>(&'a [u8], usize);

impl Read for Pieces<'_> {
    fn read(&mut self, buffer: &mut [u8]) -> std::io::Result<usize> {
        let n = self.1.min(buffer.len()).min(self.0.len());
        buffer[..n].copy_from_slice(&self.0[..n]);
        self.0 = &self.0[n..];
        Ok(n)
    }
}

fn check(name: &str, text: &[u8], expected: &[u8]) {
    for size in [1, 7, 100, 4096, usize::MAX] {
        let mut output = Vec::new();
        assert!(collect_rust::run(Pieces(text, size), &mut output).is_ok());
        assert!(output == expected, "{name} in pieces of {size}");
    }
}

fn read(path: &str) -> Vec<u8> {
    let root = Path::new(env!("CARGO_MANIFEST_DIR")).join("../..");
    fs::read(root.join(path)).unwrap()
}

#[test]
fn the_sample_and_the_scope() {
    check(
        "sample",
        &read("samples/plant.txt"),
        &read("samples/plant.expected"),
    );
    check(
        "scope",
        &read("crates/collect/stdin"),
        &read("crates/collect/stdout"),
    );
}

/// The rows of each input come after a line with its name; no row begins like that line.
#[test]
fn further_inputs() {
    let stored = String::from_utf8(read("crates/collect_runs/stdout")).unwrap();
    let parts: Vec<&str> = stored.split("== ").skip(1).collect();
    assert!(parts.len() >= 8);
    for part in parts {
        let (name, expected) = part.split_once('\n').unwrap();
        let text = read(&format!("crates/collect_runs/data/{name}"));
        check(name, &text, expected.as_bytes());
    }
}
