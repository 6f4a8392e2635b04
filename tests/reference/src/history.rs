//! Histories with checkpoints and cuts, and what the clerk shows after every call
//! (document 01, "One history, and the clerk who writes it down", "Merging" and "Parked
//! collector"). The lines of both files are in README.md.

use crate::bursts::{self, Burst, Place};
use crate::clerk::{Answer, Clerk, Totals};
use crate::given;
use crate::hex::{hex, hex_or_dash};
#[cfg(test)]
use crate::image::Entry;
use crate::image::{reload, IMAGE};
use crate::repeater::sent_for;
use crate::scenarios::calls;
use crate::subtelegram::{Refusal, OUTPUT_SHORT};
use std::fmt::Write;

#[derive(Debug, Clone, PartialEq)]
pub enum Call {
    /// A collector started fresh, whose caller keeps this setting: a new history.
    Start(u8),
    Reception(u64, Vec<u8>),
    /// A checkpoint into this many bytes.
    Park(usize),
    /// A checkpoint into 2,560 bytes and its restore into another collector, started fresh. The
    /// number has no effect.
    Cut(u8),
    /// A restore of the present image with one bit of this byte changed; for 2,560, of the
    /// image without its last byte.
    Spoiled(usize),
    /// A restore of these bytes. If they are accepted, a history of its own continues from them.
    Given(Vec<u8>),
    /// A burst.
    Burst(Burst),
    /// The copies of the telegram with this index are asked for.
    Ask(u64),
}

// What must be shown.

/// For each history, this many images of checkpoints are shown in full.
pub const SHOWN: usize = 3;
/// An output is filled with this before the call.
const FILL: u8 = 0xEE;

/// What answers the calls: the clerk here, others in the tests.
pub trait Model {
    /// The setting is the caller's; no collector should read it.
    fn start(&mut self, setting: u8);
    fn take(&mut self, time: u64, bytes: &[u8]) -> Answer;
    /// What the caller sends for a reception with this answer, at its setting.
    fn sent(&self, setting: u8, answer: Answer, bytes: &[u8]) -> Vec<u8> {
        sent_for(setting, answer, bytes)
    }
    fn totals(&self) -> Totals;
    /// The number of the answer, and the copies of the telegram with this index, 0 with a refusal.
    fn copies(&mut self, place: u64) -> (Refusal, u16);
    fn image(&self) -> Vec<u8>;
    /// The open telegrams, as the image has them.
    #[cfg(test)]
    fn opened(&self) -> Vec<Entry> {
        reload(&self.image()).map_or(Vec::new(), |state| state.entries)
    }
    /// The restore of this image into a collector started fresh, with which the history continues;
    /// the number has no effect.
    fn restore(&mut self, image: &[u8], number: u8) -> u8;
    /// The restore of an image in the input; if it is accepted, the history continues from it.
    fn restore_given(&mut self, image: &[u8]) -> u8;
    /// A burst: its number, and the second list after it.
    fn burst(&mut self, burst: &Burst, places: &mut [Place]) -> u8
    where
        Self: Sized,
    {
        bursts::deliver(self, burst, places)
    }
}

impl Model for Clerk {
    fn start(&mut self, _setting: u8) {
        *self = Clerk::new();
    }

    fn take(&mut self, time: u64, bytes: &[u8]) -> Answer {
        Clerk::take(self, time, bytes)
    }

    fn totals(&self) -> Totals {
        Clerk::totals(self)
    }

    fn copies(&mut self, place: u64) -> (Refusal, u16) {
        Clerk::copies(self, place).map_or_else(|number| (number, 0), |copies| (0, copies))
    }

    fn image(&self) -> Vec<u8> {
        Clerk::image(self)
    }

    #[cfg(test)]
    fn opened(&self) -> Vec<Entry> {
        self.entries()
    }

    /// The clerk is unchanged: it is fed the receptions and nothing else. The number is that of the
    /// conditions of a reload.
    fn restore(&mut self, image: &[u8], _number: u8) -> u8 {
        restore_number(image)
    }

    fn restore_given(&mut self, image: &[u8]) -> u8 {
        match reload(image) {
            Ok(state) => {
                *self = Clerk::going_on(state);
                0
            }
            Err(number) => number,
        }
    }
}

/// A checkpoint into n bytes: its number and the output after the call.
fn park(model: &impl Model, n: usize) -> (u8, Vec<u8>) {
    let mut output = vec![FILL; n];
    if n < IMAGE {
        return (OUTPUT_SHORT, output);
    }
    output[..IMAGE].copy_from_slice(&model.image());
    (0, output)
}

/// A number made of all the bytes, in order: for each byte, 31 times the number so far, plus the
/// byte, in 32 bits.
fn digest(bytes: &[u8]) -> u32 {
    bytes.iter().fold(0, |h: u32, b| {
        h.wrapping_mul(31).wrapping_add(u32::from(*b))
    })
}

fn restore_number(image: &[u8]) -> u8 {
    reload(image).map_or_else(|number| number, |_| 0)
}

pub fn spoil(mut image: Vec<u8>, k: usize) -> Vec<u8> {
    if k < IMAGE {
        image[k] ^= 0x01;
    } else {
        image.truncate(IMAGE - 1);
    }
    image
}

pub fn word(answer: Answer) -> String {
    match answer {
        Answer::Kept => "KEPT".to_string(),
        Answer::Copy => "COPY".to_string(),
        Answer::Loose => "LOOSE".to_string(),
        Answer::Refused(number) => number.to_string(),
    }
}

/// The lines for a list of calls.
pub fn show(calls: &[Call], model: &mut impl Model) -> String {
    let mut out = String::new();
    let (mut parked, mut setting) = (0, 0);
    for call in calls {
        match call {
            Call::Start(kept) => {
                setting = *kept;
                model.start(setting);
                parked = 0;
                writeln!(out, "L 0").unwrap();
            }
            Call::Reception(time, bytes) => {
                let answer = model.take(*time, bytes);
                let sent = hex_or_dash(&model.sent(setting, answer, bytes));
                writeln!(out, "R {} {sent} {}", word(answer), model.totals().text()).unwrap();
            }
            Call::Park(n) => {
                let (number, output) = park(model, *n);
                let digest = digest(&output);
                writeln!(out, "P {number} {digest:08X} {}", model.totals().text()).unwrap();
                parked += 1;
                if number == 0 && parked <= SHOWN {
                    writeln!(out, "I {}", hex(&output[..IMAGE])).unwrap();
                }
            }
            Call::Cut(any) => {
                let (number, output) = park(model, IMAGE);
                let restored = model.restore(&output, *any);
                writeln!(out, "C {number} {restored} {}", model.totals().text()).unwrap();
            }
            Call::Spoiled(k) => {
                let number = restore_number(&spoil(model.image(), *k));
                writeln!(out, "X {number} {}", model.totals().text()).unwrap();
            }
            Call::Given(image) => {
                let number = model.restore_given(image);
                writeln!(out, "W {number} {}", model.totals().text()).unwrap();
            }
            Call::Burst(burst) => out += &bursts::show(burst, model),
            Call::Ask(place) => {
                let (number, copies) = model.copies(*place);
                writeln!(out, "A {number} {copies} {}", model.totals().text()).unwrap();
            }
        }
    }
    out
}

/// The records of a call: one, and for given bytes and for a burst those that hold them.
fn records(call: &Call) -> Vec<[u8; 64]> {
    let mut all = vec![record(call)];
    match call {
        Call::Given(image) => all.extend(given::parts(image)),
        Call::Burst(burst) => all.extend(bursts::parts(burst)),
        _ => {}
    }
    all
}

/// A call as a record of 64 bytes: the operation, a number of eight bytes, and a length and bytes.
pub fn record(call: &Call) -> [u8; 64] {
    let places = match call {
        Call::Burst(burst) => (burst.places as u16).to_be_bytes(),
        _ => [0; 2],
    };
    let (operation, number, bytes): (u8, u64, &[u8]) = match call {
        Call::Start(setting) => (1, u64::from(*setting), &[]),
        Call::Reception(time, bytes) => (2, *time, bytes),
        Call::Park(n) => (3, *n as u64, &[]),
        Call::Cut(any) => (4, u64::from(*any), &[]),
        Call::Spoiled(k) => (5, *k as u64, &[]),
        Call::Burst(burst) => (6, burst.records.len() as u64, &places),
        Call::Ask(place) => (7, *place, &[]),
        Call::Given(image) => (8, image.len() as u64, &[]),
    };
    let mut record = [0; 64];
    record[0] = operation;
    record[1..9].copy_from_slice(&number.to_be_bytes());
    record[9] = bytes.len() as u8;
    record[10..10 + bytes.len()].copy_from_slice(bytes);
    if let Call::Burst(burst) = call {
        record[12] = burst.setting;
    }
    record
}

pub fn stdin() -> String {
    text(&calls())
}

pub fn stdout() -> String {
    show(&calls(), &mut Clerk::new())
}

/// The records of the calls, a line each.
pub fn text(calls: &[Call]) -> String {
    let records = calls.iter().flat_map(records);
    records.map(|record| hex(&record) + "\n").collect()
}
