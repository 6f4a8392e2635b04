//! Records for a test of the ERP2 codec and their answers. The layout of a record is in
//! README.md.

use crate::erp2::{id_bytes, Codec, Extension, Header, Refusal, Telegram, SHORT, SHORT_IDS};
use crate::hash::crc;
use crate::hex::{hex, hex_or_dash};
use crate::random::Random;

pub const RECORD: usize = 320;
pub type Record = [u8; RECORD];

const READ: u8 = 1;
const BUILD: u8 = 2;

/// An output is filled with this before the call.
const FILL: u8 = 0xEE;

/// How many bytes of data, and of optional data, a record holds.
const DATA: usize = 250;
const OPTIONAL: usize = 15;

// Making records.

fn read_record(bytes: &[u8]) -> Record {
    let mut record = [0; RECORD];
    record[0] = READ;
    record[1..3].copy_from_slice(&(bytes.len() as u16).to_be_bytes());
    record[8..8 + bytes.len()].copy_from_slice(bytes);
    record
}

/// The telegram that a record describes: every value, whether its flag is set or not.
#[derive(Clone, Debug)]
struct Order {
    capacity: usize,
    short: u8,
    control: u8,
    extended: bool,
    kind: u8,
    extension: bool,
    hops: u8,
    announced: u8,
    subtype: bool,
    value: u8,
    originator: u64,
    destination: bool,
    id: u32,
    length: usize,
    optional: Vec<u8>,
    data: Vec<u8>,
}

impl Order {
    /// A long form with this header byte, with this many bytes of data and of optional data.
    fn long(header: u8, length: usize, announced: u8, random: &mut Random) -> Order {
        let header = Header::of(header);
        let announced = if header.extended { announced } else { 0 };
        Order {
            capacity: 300,
            short: 0,
            control: header.control,
            extended: header.extended,
            kind: header.kind,
            extension: header.extended,
            hops: if header.extended {
                random.byte() >> 4
            } else {
                0
            },
            announced,
            subtype: header.kind == 15,
            value: if header.kind == 15 { random.byte() } else { 0 },
            originator: random.next() >> (64 - 8 * id_bytes(header.control)),
            destination: header.control == 2,
            id: if header.control == 2 {
                random.next() as u32
            } else {
                0
            },
            length,
            optional: random.bytes(usize::from(announced)),
            data: random.bytes(length.min(DATA)),
        }
    }

    fn short(form: u8, length: usize, random: &mut Random) -> Order {
        let id = SHORT_IDS.get(usize::from(form)).copied().unwrap_or(1);
        Order {
            short: form,
            originator: random.next() >> (64 - 8 * id.max(1)),
            ..Order::long(0, length, 0, random)
        }
    }

    /// The length of Data_PL without the data.
    fn overhead(&self) -> usize {
        if self.short != 0 {
            return SHORT_IDS[usize::from(self.short)];
        }
        2 + usize::from(self.extension) * (1 + usize::from(self.announced))
            + usize::from(self.subtype)
            + id_bytes(self.control)
            + 4 * usize::from(self.destination)
    }

    fn record(&self) -> Record {
        let mut record = [0; RECORD];
        record[0] = BUILD;
        record[1..3].copy_from_slice(&(self.capacity as u16).to_be_bytes());
        record[3] = self.short;
        record[4] = self.control;
        record[5] = u8::from(self.extended);
        record[6] = self.kind;
        record[7] = u8::from(self.extension);
        record[8] = self.hops;
        record[9] = self.announced;
        record[10] = u8::from(self.subtype);
        record[11] = self.value;
        record[12..20].copy_from_slice(&self.originator.to_be_bytes());
        record[20] = u8::from(self.destination);
        record[21..25].copy_from_slice(&self.id.to_be_bytes());
        record[25..27].copy_from_slice(&(self.length as u16).to_be_bytes());
        let optional = &self.optional[..self.optional.len().min(OPTIONAL)];
        record[27..27 + optional.len()].copy_from_slice(optional);
        record[42..42 + self.data.len()].copy_from_slice(&self.data);
        record
    }
}

/// The telegram that a record describes.
fn ordered(record: &Record) -> Telegram {
    let announced = record[9];
    let two = |at: usize| usize::from(u16::from_be_bytes([record[at], record[at + 1]]));
    let number = |from: usize, to: usize| {
        let bytes = record[from..to].iter();
        bytes.fold(0u64, |n, &b| n << 8 | u64::from(b))
    };
    let mut data = record[42..42 + DATA].to_vec();
    data.resize(two(25), 0);
    let extension = (record[7] == 1).then_some(Extension {
        hops: record[8],
        announced,
    });
    let optional = extension.map_or(0, |_| usize::from(announced).min(OPTIONAL));
    Telegram {
        short: record[3],
        header: Header {
            control: record[4],
            extended: record[5] == 1,
            kind: record[6],
        },
        extension,
        subtype: (record[10] == 1).then_some(record[11]),
        originator: number(12, 20),
        destination: (record[20] == 1).then_some(number(21, 25) as u32),
        data,
        optional: record[27..27 + optional].to_vec(),
    }
}

// The answer to a record, from its bytes alone.

fn shown(result: Result<Telegram, Refusal>) -> String {
    let (number, t) = match result {
        Ok(t) => (0, t),
        Err(number) => (number, Telegram::default()),
    };
    let extension = t.extension.unwrap_or(Extension {
        hops: 0,
        announced: 0,
    });
    format!(
        "READ {number} {} {} {} {} {} {} {} {} {:02X} {:012X} {} {:08X} {} {}",
        t.short,
        t.header.control,
        u8::from(t.header.extended),
        t.header.kind,
        u8::from(t.extension.is_some()),
        extension.hops,
        extension.announced,
        u8::from(t.subtype.is_some()),
        t.subtype.unwrap_or(0),
        t.originator,
        u8::from(t.destination.is_some()),
        t.destination.unwrap_or(0),
        hex_or_dash(&t.data),
        hex_or_dash(&t.optional)
    )
}

pub fn answer(codec: &Codec, record: &Record) -> String {
    let n = usize::from(u16::from_be_bytes([record[1], record[2]]));
    match record[0] {
        READ => shown(codec.read(&record[8..8 + n])),
        _ => {
            let mut output = vec![FILL; n];
            let (number, length) = match codec.build(&ordered(record), &mut output) {
                Ok(length) => (0, length),
                Err(number) => (number, 0),
            };
            format!("BUILD {number} {length} {}", hex_or_dash(&output))
        }
    }
}

// The records to read.

/// The length byte, and Data_PL with its CRC.
fn sealed(body: &[u8]) -> Vec<u8> {
    let mut bytes = vec![body.len() as u8 + 1];
    bytes.extend(body);
    bytes.push(crc(body));
    bytes
}

/// A long form of that Length: the header byte, and any bytes.
fn long(header: u8, length: usize, random: &mut Random) -> Vec<u8> {
    let mut body = vec![header];
    body.extend(random.bytes(length - 2));
    sealed(&body)
}

/// A long form with all fields of its header, and this many bytes after them.
fn fitting(header: u8, announced: u8, data: usize, random: &mut Random) -> Vec<u8> {
    let parts = Header::of(header);
    let mut body = vec![header];
    if parts.extended {
        body.push(random.byte() << 4 | announced);
    }
    let fields = usize::from(parts.kind == 15)
        + id_bytes(parts.control)
        + 4 * usize::from(parts.control == 2);
    let optional = if parts.extended {
        usize::from(announced)
    } else {
        0
    };
    body.extend(random.bytes(fields + data + optional));
    sealed(&body)
}

/// The bytes with another last one.
fn wrong_crc(mut bytes: Vec<u8>) -> Vec<u8> {
    *bytes.last_mut().expect("a CRC") ^= 0x01;
    bytes
}

fn header_records(random: &mut Random) -> Vec<Vec<u8>> {
    let mut all = Vec::new();
    for length in [7, 8, 10, 12, 25] {
        for header in 0..=255 {
            all.push(long(header, length, random));
        }
    }
    all
}

/// Every announced length at the Length that exactly fits, and one byte less, with a right CRC.
fn announced_records(random: &mut Random) -> Vec<Vec<u8>> {
    let mut all = Vec::new();
    for announced in 0..16 {
        for header in [0x12, 0x3F, 0x54, 0x7E] {
            let just = fitting(header, announced, 0, random);
            let n = just.len();
            if n > 8 {
                all.push(sealed(&just[1..n - 2]));
            }
            all.push(just);
        }
    }
    all
}

/// Length against the bytes: off by one both ways, none, and the longest.
fn length_records(random: &mut Random) -> Vec<Vec<u8>> {
    let mut all = vec![vec![], vec![0], vec![0, 0], random.bytes(300)];
    for length in 1..=SHORT as u8 {
        for bytes in [length - 1, length, length, length, length + 1] {
            let mut short = vec![length];
            short.extend(random.bytes(usize::from(bytes)));
            all.push(short);
        }
    }
    for length in [7, 8, 59, 60, 254, 255] {
        let right = long(0x20, length, random);
        let mut more = right.clone();
        more.push(random.byte());
        all.push(right[..length].to_vec());
        all.push(vec![length as u8]);
        all.push(right);
        all.push(more);
    }
    // A length byte that wraps: 256 and 257 bytes after it.
    for wrapped in [0, 1] {
        let mut bytes = vec![wrapped];
        bytes.extend(random.bytes(256 + usize::from(wrapped)));
        all.push(bytes);
    }
    // The CRC over the Length too, and over the header only.
    let right = long(0x21, 9, random);
    let mut other = right.clone();
    other[9] = crc(&right[..9]);
    all.push(other.clone());
    other[9] = crc(&right[1..2]);
    all.push(other);
    all
}

/// Two things wrong at once: each pair of the order.
fn order_records(random: &mut Random) -> Vec<Vec<u8>> {
    let mut all = Vec::new();
    for control in 4..8 {
        let reserved = long(control << 5 | 0x01, 20, random);
        // An extended header that announces more than there is.
        let mut overrun = vec![control << 5 | 0x10, 0x0F];
        overrun.extend(random.bytes(8));
        let overrun = sealed(&overrun);
        all.push(wrong_crc(reserved.clone()));
        all.push(wrong_crc(overrun.clone()));
        all.push(reserved);
        all.push(overrun);
    }
    for header in [0x4F, 0x5F, 0x60, 0x70] {
        let overrun = long(header, 7, random);
        all.push(wrong_crc(overrun.clone()));
        let mut longer = overrun;
        longer.push(0);
        all.push(longer);
    }
    all
}

fn random_reads(random: &mut Random) -> Vec<Vec<u8>> {
    let mut all = Vec::new();
    for _ in 0..80 {
        let header = random.byte() & 0x7F;
        let announced = random.byte() & 0x0F;
        let data = if random.chance(30) {
            0
        } else {
            random.below(228)
        };
        let right = fitting(header, announced, data, random);
        if right.len() > 7 {
            let mut damaged = right.clone();
            let at = random.below(damaged.len());
            damaged[at] ^= 1 << random.below(8);
            if random.chance(50) {
                all.push(damaged);
            }
        }
        all.push(right);
    }
    all
}

// The records to build.

/// Each value at its greatest right and smallest wrong number.
fn value_orders(random: &mut Random) -> Vec<Order> {
    let mut all = Vec::new();
    let base = Order::long(0x5F, 3, 2, random);
    for short in [6, 7, 255] {
        all.push(Order::short(short, 2, random));
    }
    for control in [3, 4, 7, 8, 255] {
        let mut order = Order::long(0x21, 4, 0, random);
        order.control = control;
        all.push(order);
    }
    for kind in [14, 15, 16, 255] {
        let mut order = Order::long(0x21, 4, 0, random);
        order.kind = kind;
        order.subtype = kind == 15;
        all.push(order);
    }
    for hops in [0, 15, 16, 255] {
        all.push(Order {
            hops,
            ..base.clone()
        });
    }
    for announced in [0, 14, 15, 16, 17, 255] {
        let optional = random.bytes(OPTIONAL.min(usize::from(announced)));
        all.push(Order {
            announced,
            optional,
            ..base.clone()
        });
    }
    // An ID that fills its bits, and the next number.
    for short in 1..=SHORT as u8 {
        let id = SHORT_IDS[usize::from(short)];
        let order = Order::short(short, usize::from(short) - id, random);
        for originator in [(1u64 << (8 * id)) - 1, 1u64 << (8 * id)] {
            all.push(Order {
                originator,
                ..order.clone()
            });
        }
    }
    for control in 0..8 {
        let order = Order::long(control << 5 | 0x02, 4, 0, random);
        let limit = 1u64 << (8 * id_bytes(control));
        for originator in [0, limit - 1, limit, u64::MAX] {
            all.push(Order {
                originator,
                ..order.clone()
            });
        }
    }
    all
}

/// Each flag against its header, in a long form and in a short one.
fn flag_orders(random: &mut Random) -> Vec<Order> {
    let mut all = Vec::new();
    let mut flags = |order: Order| {
        for turned in 0..8 {
            let mut other = order.clone();
            other.extension ^= turned & 1 != 0;
            other.subtype ^= turned & 2 != 0;
            other.destination ^= turned & 4 != 0;
            all.push(other);
        }
    };
    for header in [0x21, 0x31, 0x2F, 0x41, 0x5F] {
        flags(Order::long(header, 6, 2, random));
    }
    // The header of a short form is not read.
    for header in [0x00, 0x5F] {
        let mut order = Order::long(header, 1, 1, random);
        order.short = 5;
        order.originator &= 0xFFFF_FFFF;
        flags(order);
    }
    // Values whose flags are not set are not read.
    for _ in 0..12 {
        let mut order = Order::long(0x21, random.range(1, 9), 0, random);
        if random.chance(40) {
            order = Order::short(5, 1, random);
            order.control = random.byte();
            order.extended = random.chance(50);
            order.kind = random.byte();
        }
        order.hops = random.byte();
        order.announced = random.byte();
        order.optional = random.bytes(OPTIONAL);
        order.value = random.byte();
        order.id = random.next() as u32;
        order.data = random.bytes(DATA);
        all.push(order);
    }
    all
}

/// Every size at its edges: 6, 7, 255 and 256 bytes of Data_PL, and an output one short.
fn size_orders(random: &mut Random) -> Vec<Order> {
    let mut all = Vec::new();
    for header in [0x00, 0x10, 0x2F, 0x42, 0x5F, 0x61, 0x7F] {
        let order = Order::long(header, 0, 3, random);
        for size in [6, 7, 8, 254, 255, 256] {
            if size < order.overhead() {
                continue;
            }
            let length = size - order.overhead();
            let sized = Order {
                length,
                data: random.bytes(length.min(DATA)),
                ..order.clone()
            };
            for capacity in [size, 1 + size, 300] {
                all.push(Order {
                    capacity: capacity.min(300),
                    ..sized.clone()
                });
            }
        }
    }
    for short in 1..=SHORT as u8 {
        let right = usize::from(short) - SHORT_IDS[usize::from(short)];
        for length in [right.wrapping_sub(1), right, right + 1, 250] {
            if length > DATA {
                continue;
            }
            let order = Order::short(short, length, random);
            for capacity in [0, usize::from(short), 1 + usize::from(short), 20] {
                all.push(Order {
                    capacity,
                    ..order.clone()
                });
            }
        }
    }
    for length in [249, 250, 251, 255, 256, 506, 65_535] {
        all.push(Order::long(0x00, length, 0, random));
        all.push(Order::short(6, length, random));
    }
    all
}

/// Two things wrong at once: each pair of the order 10, 14, 15, 6.
fn pair_orders(random: &mut Random) -> Vec<Order> {
    let mut all = Vec::new();
    for wrong in 0u8..16 {
        let control = if wrong & 2 != 0 { 5 } else { 3 };
        let length = if wrong & 4 != 0 { 250 } else { 9 };
        let mut order = Order::long(control << 5 | 0x01, length, 0, random);
        if wrong & 1 != 0 {
            order.kind = 16;
        }
        if wrong & 8 != 0 {
            order.capacity = 8;
        }
        all.push(order.clone());
        // Against the header, and not a value.
        order.kind = 1;
        order.subtype = wrong & 1 != 0;
        all.push(order);
        let mut short = Order::short(4, if wrong & 4 != 0 { 2 } else { 1 }, random);
        short.destination = wrong & 1 != 0;
        short.control = control;
        short.capacity = if wrong & 8 != 0 { 4 } else { 12 };
        all.push(short);
    }
    all
}

fn random_orders(random: &mut Random) -> Vec<Order> {
    let mut all = Vec::new();
    for _ in 0..120 {
        let announced = random.byte() & 0x0F;
        let length = random.below(40);
        let header = random.byte() & 0x7F;
        let mut order = Order::long(header, length, announced, random);
        let size = 1 + order.overhead() + length;
        order.capacity = random.range(size.saturating_sub(1), size + 3);
        all.push(order);
    }
    all
}

pub fn records() -> Vec<Record> {
    let mut random = Random::new(0x0E_4B_02);
    let mut all = vec![vec![5, 1, 2, 3, 4, 0xAA]];
    all.extend(header_records(&mut random));
    all.extend(announced_records(&mut random));
    all.extend(length_records(&mut random));
    all.extend(order_records(&mut random));
    all.extend(random_reads(&mut random));
    let mut records: Vec<Record> = all.iter().map(|bytes| read_record(bytes)).collect();
    let mut orders = value_orders(&mut random);
    orders.extend(flag_orders(&mut random));
    orders.extend(size_orders(&mut random));
    orders.extend(pair_orders(&mut random));
    orders.extend(random_orders(&mut random));
    records.extend(orders.iter().map(Order::record));
    records
}

pub fn stdin() -> String {
    records().iter().map(|record| hex(record) + "\n").collect()
}

pub fn stdout() -> String {
    let codec = Codec::default();
    let lines = records();
    lines
        .iter()
        .map(|record| answer(&codec, record) + "\n")
        .collect()
}

#[cfg(test)]
mod tests {
    use super::*;
    use std::collections::BTreeMap;

    #[test]
    fn each_number_often() {
        let mut seen: BTreeMap<String, usize> = BTreeMap::new();
        let codec = Codec::default();
        for record in records() {
            let text = answer(&codec, &record);
            let words: Vec<&str> = text.split(' ').collect();
            *seen.entry(words[..2].join(" ")).or_default() += 1;
        }
        for key in [
            "READ 0", "READ 1", "READ 13", "READ 14", "READ 15", "BUILD 0", "BUILD 6", "BUILD 10",
            "BUILD 14", "BUILD 15",
        ] {
            assert!(seen.get(key).is_some_and(|&n| n >= 10), "{key}: {seen:?}");
        }
        assert_eq!(seen.len(), 10, "{seen:?}");
        println!("{seen:?}");
    }

    /// What is read builds the same bytes, and what is built reads back.
    #[test]
    fn round_trips() {
        let codec = Codec::default();
        for record in records() {
            let mut output = [0; 300];
            let n = usize::from(u16::from_be_bytes([record[1], record[2]]));
            if record[0] == READ {
                let bytes = &record[8..8 + n];
                if let Ok(t) = codec.read(bytes) {
                    assert_eq!(codec.build(&t, &mut output), Ok(n));
                    assert_eq!(output[..n], *bytes);
                }
            } else if let Ok(n) = codec.build(&ordered(&record), &mut output) {
                let mut t = ordered(&record);
                if t.short != 0 {
                    t.header = Header::default();
                }
                assert_eq!(codec.read(&output[..n]), Ok(t));
            }
        }
    }

    /// Wrong programs: each answers some record otherwise.
    #[test]
    fn faults_show() {
        let right = stdout();
        let right: Vec<&str> = right.lines().collect();
        let records = records();
        for fault in [
            "Length counts itself",
            "CRC of Length too",
            "Length 7 read as short",
            "address control 4 taken",
            "type 14 extended",
            "announced length from the high bits",
            "Destination-ID first",
            "optional data in front of data",
            "14 before 13",
            "15 before 14",
            "15 before 13",
            "a short form of 4 with two bytes of ID",
            "data never empty",
            "256 bytes built",
            "6 bytes built as a long form",
            "an extended header not compared with its flag",
            "an extended type not compared with its flag",
            "a Destination-ID not compared with its flag",
            "repeater count 16 taken",
            "a 24-bit ID not tested",
            "a byte past the result written",
            "the lowest byte of an ID first",
            "14 before 10",
            "15 before 10",
            "15 before 14, building",
            "6 before 15",
        ] {
            let codec = Codec { fault };
            let other = |i: usize| answer(&codec, &records[i]) != right[i];
            let shown = (0..records.len()).filter(|&i| other(i)).count();
            assert!(shown > 0, "no record shows: {fault}");
            println!("{fault}: {shown}");
        }
    }

    #[test]
    fn sizes() {
        let records = records();
        assert!((1500..=2200).contains(&records.len()), "{}", records.len());
        assert_eq!(stdin(), stdin());
    }
}
