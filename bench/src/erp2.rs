//! ERP2 telegrams of 14, 60 and 255 bytes: read, and read and built again, compared with the same job in Rust with the same table-driven CRC.
use crate::{report, time, Random};
use collect_rust::hash::crc;
use std::hint::black_box;

// A slice passes as a pointer and a length. Nothing checks these lines against the Rattle source.
extern "C" {
    fn bench_erp2_read(bytes: *const u8, len: usize) -> u64;
    fn bench_erp2_again(bytes: *const u8, len: usize, out: *mut u8, capacity: usize) -> usize;
}

const MAX_DATA: usize = 250;
const MAX_OPTIONAL: usize = 15;
const LONGEST: usize = 256;

struct Header {
    control: u8,
    extended: bool,
    kind: u8,
}

struct Telegram {
    short: u8,
    header: Header,
    extension: Option<(u8, u8)>,
    subtype: Option<u8>,
    originator: u64,
    destination: Option<u32>,
    payload: [u8; MAX_DATA],
    len: usize,
    optional: [u8; MAX_OPTIONAL],
}

fn id_bytes(control: u8) -> usize {
    [3, 4, 4, 6][usize::from(control)]
}

fn number(bytes: &[u8]) -> u64 {
    bytes.iter().fold(0, |n, &b| n << 8 | u64::from(b))
}

fn next<'a>(rest: &mut &'a [u8], n: usize) -> Option<&'a [u8]> {
    let (front, behind) = rest.split_at_checked(n)?;
    *rest = behind;
    Some(front)
}

fn read(bytes: &[u8]) -> Option<Telegram> {
    let (&length, data_pl) = bytes.split_first()?;
    if length == 0 || data_pl.len() != usize::from(length) {
        return None;
    }
    let mut t = Telegram {
        short: 0,
        header: Header {
            control: 0,
            extended: false,
            kind: 0,
        },
        extension: None,
        subtype: None,
        originator: 0,
        destination: None,
        payload: [0; MAX_DATA],
        len: 0,
        optional: [0; MAX_OPTIONAL],
    };
    if length <= 6 {
        let (id, data) = data_pl.split_at([0, 1, 1, 2, 3, 4, 4][usize::from(length)]);
        t.short = length;
        t.originator = number(id);
        t.payload[..data.len()].copy_from_slice(data);
        t.len = data.len();
        return Some(t);
    }
    let (&last, mut rest) = data_pl.split_last()?;
    if crc(rest) != last {
        return None;
    }
    let first = next(&mut rest, 1)?[0];
    t.header = Header {
        control: first >> 5,
        extended: first & 0x10 != 0,
        kind: first & 0x0F,
    };
    if t.header.control > 3 {
        return None;
    }
    if t.header.extended {
        let byte = next(&mut rest, 1)?[0];
        t.extension = Some((byte >> 4, byte & 0x0F));
    }
    if t.header.kind == 15 {
        t.subtype = Some(next(&mut rest, 1)?[0]);
    }
    t.originator = number(next(&mut rest, id_bytes(t.header.control))?);
    if t.header.control == 2 {
        t.destination = Some(number(next(&mut rest, 4)?) as u32);
    }
    let announced = t.extension.map_or(0, |(_, n)| usize::from(n));
    t.len = rest.len().checked_sub(announced)?;
    let (data, optional) = rest.split_at(t.len);
    t.payload[..t.len].copy_from_slice(data);
    t.optional[..announced].copy_from_slice(optional);
    Some(t)
}

/// Puts bytes after the others.
fn put(out: &mut [u8], at: &mut usize, bytes: &[u8]) -> Option<()> {
    out.get_mut(*at..*at + bytes.len())?.copy_from_slice(bytes);
    *at += bytes.len();
    Some(())
}

fn build(t: &Telegram, out: &mut [u8]) -> Option<usize> {
    let h = &t.header;
    let long = t.short == 0;
    let id = if long {
        id_bytes(h.control.min(3))
    } else {
        [0, 1, 1, 2, 3, 4, 4][usize::from(t.short.min(6))]
    };
    let (hops, announced) = t.extension.unwrap_or((0, 0));
    if t.short > 6
        || h.control > 7
        || h.kind > 15
        || hops > 15
        || announced > 15
        || t.originator >> (8 * id) != 0
    {
        return None;
    }
    let differ = |there: bool, header: bool| there != (long && header);
    if differ(t.extension.is_some(), h.extended)
        || differ(t.subtype.is_some(), h.kind == 15)
        || differ(t.destination.is_some(), h.control == 2)
    {
        return None;
    }
    let optional = usize::from(announced);
    let fields = id + t.len + optional;
    let flags = usize::from(t.extension.is_some())
        + usize::from(t.subtype.is_some())
        + 4 * usize::from(t.destination.is_some());
    let size = if long { 2 + flags + fields } else { fields };
    let fits = if long {
        h.control <= 3 && (7..=255).contains(&size)
    } else {
        size == usize::from(t.short)
    };
    if !fits || t.len > MAX_DATA || out.len() < 1 + size {
        return None;
    }
    out[0] = size as u8;
    let mut at = 1;
    if long {
        put(
            out,
            &mut at,
            &[h.control << 5 | u8::from(h.extended) << 4 | h.kind],
        )?;
    }
    if t.extension.is_some() {
        put(out, &mut at, &[hops << 4 | announced])?;
    }
    if let Some(value) = t.subtype {
        put(out, &mut at, &[value])?;
    }
    put(out, &mut at, &t.originator.to_be_bytes()[8 - id..])?;
    if let Some(destination) = t.destination {
        put(out, &mut at, &destination.to_be_bytes())?;
    }
    put(out, &mut at, &t.payload[..t.len])?;
    put(out, &mut at, &t.optional[..optional])?;
    if long {
        let last = crc(&out[1..at]);
        put(out, &mut at, &[last])?;
    }
    Some(at)
}

fn by_hand_read(bytes: &[u8]) -> u64 {
    read(bytes).map_or(0, |t| {
        t.originator
            .wrapping_add(u64::from(t.payload[0]) + u64::from(t.payload[249]))
    })
}

fn by_hand_again(bytes: &[u8], out: &mut [u8]) -> usize {
    read(bytes).and_then(|t| build(&t, out)).unwrap_or(0)
}

fn proved_read(bytes: &[u8]) -> u64 {
    unsafe { bench_erp2_read(bytes.as_ptr(), bytes.len()) }
}

fn proved_again(bytes: &[u8], out: &mut [u8]) -> usize {
    unsafe { bench_erp2_again(bytes.as_ptr(), bytes.len(), out.as_mut_ptr(), out.len()) }
}

/// A telegram of this many bytes with its length byte: header 5F, an extended header that announces two bytes, both IDs.
fn telegram(bytes: usize, random: &mut Random) -> Vec<u8> {
    let mut t = vec![bytes as u8 - 1, if bytes < 18 { 0x21 } else { 0x5F }];
    if bytes >= 18 {
        t.push(0x12);
    }
    t.resize_with(bytes - 1, || random.next() as u8);
    t.push(crc(&t[1..]));
    t
}

pub fn bench() {
    let mut random = Random::new();
    for bytes in [14, 60, 255] {
        let input = telegram(bytes, &mut random);
        let (mut out, mut other) = ([0; LONGEST], [0; LONGEST]);
        assert_eq!(proved_again(&input, &mut out), bytes);
        assert_eq!(by_hand_again(&input, &mut other), bytes);
        assert_eq!((&out[..bytes], &other[..bytes]), (&input[..], &input[..]));
        assert_eq!(proved_read(&input), by_hand_read(&input));
        let calls = 1_000;
        let reading = |function: fn(&[u8]) -> u64| {
            time(calls, || {
                for _ in 0..calls {
                    black_box(function(black_box(&input)));
                }
            })
        };
        report(
            &format!("ERP2 read, {bytes} bytes"),
            reading(proved_read),
            reading(by_hand_read),
        );
        let again = |function: fn(&[u8], &mut [u8]) -> usize| {
            let mut out = [0; LONGEST];
            time(calls, || {
                for _ in 0..calls {
                    black_box(function(black_box(&input), black_box(&mut out)));
                }
            })
        };
        report(
            &format!("ERP2 read and built again, {bytes} bytes"),
            again(proved_again),
            again(by_hand_again),
        );
    }
}
