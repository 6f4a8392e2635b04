//! ERP2 telegrams: the length byte and Data_PL, from the tables of source document 004 (4.4 to
//! 4.6) and the refusals of document 02, A4.

use crate::hash::crc;

pub type Refusal = u8;

pub const LENGTH: Refusal = 1;
pub const OUTPUT: Refusal = 6;
pub const ARGUMENT: Refusal = 10;
pub const CRC: Refusal = 13;
pub const RESERVED: Refusal = 14;
pub const MISFIT: Refusal = 15;

/// Figure 9: the bytes of the Originator-ID of a short form, by Length; there is no Length 0.
pub const SHORT_IDS: [usize; 7] = [0, 1, 1, 2, 3, 4, 4];

/// The most bytes of Data_PL without a header, and with one.
pub const SHORT: usize = 6;
pub const LONGEST: usize = 255;

/// Figure 11.
#[derive(Clone, Copy, Debug, Default, PartialEq)]
pub struct Header {
    /// Bits 5 to 7: address control.
    pub control: u8,
    /// Bit 4: extended header available.
    pub extended: bool,
    /// Bits 0 to 3: telegram type.
    pub kind: u8,
}

/// Figure 12.
#[derive(Clone, Copy, Debug, PartialEq)]
pub struct Extension {
    /// Bits 4 to 7: repeater count.
    pub hops: u8,
    /// Bits 0 to 3: length of optional data.
    pub announced: u8,
}

#[derive(Clone, Debug, Default, PartialEq)]
pub struct Telegram {
    /// The Length of a short form, 0 for a long one.
    pub short: u8,
    pub header: Header,
    pub extension: Option<Extension>,
    pub subtype: Option<u8>,
    pub originator: u64,
    pub destination: Option<u32>,
    pub data: Vec<u8>,
    pub optional: Vec<u8>,
}

impl Header {
    pub fn of(byte: u8) -> Header {
        Header {
            control: byte >> 5,
            extended: byte & 0x10 != 0,
            kind: byte & 0x0F,
        }
    }

    fn byte(self) -> u8 {
        (self.control << 5) | (u8::from(self.extended) << 4) | self.kind
    }
}

/// Bytes of the Originator-ID by address control; for a reserved one at most 48 bits.
pub fn id_bytes(control: u8) -> usize {
    match control {
        0 => 3,
        1 | 2 => 4,
        _ => 6,
    }
}

/// Takes n bytes off the front.
fn next<'a>(rest: &mut &'a [u8], n: usize) -> &'a [u8] {
    let (front, behind) = rest.split_at(n);
    *rest = behind;
    front
}

/// A number of bytes, the highest first.
fn number(bytes: &[u8]) -> u64 {
    bytes.iter().fold(0, |n, &b| n << 8 | u64::from(b))
}

/// The last n bytes of a number, the highest first.
fn bytes(n: usize, number: u64) -> Vec<u8> {
    number.to_be_bytes()[8 - n..].to_vec()
}

/// The codec. A fault can be set, for the tests: the stored records must show each.
#[derive(Default)]
pub struct Codec {
    pub fault: &'static str,
}

impl Codec {
    fn is(&self, fault: &str) -> bool {
        self.fault == fault
    }

    fn most_short(&self) -> usize {
        if self.is("Length 7 read as short") {
            7
        } else {
            SHORT
        }
    }

    fn short_id(&self, length: usize) -> usize {
        match length {
            4 if self.is("a short form of 4 with two bytes of ID") => 2,
            _ => SHORT_IDS.get(length).copied().unwrap_or(0),
        }
    }

    fn is_reserved(&self, header: Header) -> bool {
        let first = if self.is("address control 4 taken") {
            5
        } else {
            4
        };
        header.control >= first
    }

    /// "available, if bits 0...3 in Header are all set".
    fn is_type_extended(&self, header: Header) -> bool {
        header.kind == if self.is("type 14 extended") { 14 } else { 15 }
    }

    fn is_addressed(&self, header: Header) -> bool {
        header.control == 2
    }

    fn announced(&self, byte: u8) -> u8 {
        if self.is("announced length from the high bits") {
            byte >> 4
        } else {
            byte & 0x0F
        }
    }

    fn crc_of(&self, length: u8, body: &[u8]) -> u8 {
        if self.is("CRC of Length too") {
            return crc(&[&[length], body].concat());
        }
        crc(body)
    }

    // Reading.

    pub fn read(&self, bytes: &[u8]) -> Result<Telegram, Refusal> {
        let length = usize::from(*bytes.first().unwrap_or(&0));
        let expected = length + usize::from(!self.is("Length counts itself"));
        if length == 0 || bytes.len() != expected {
            return Err(LENGTH);
        }
        let data_pl = &bytes[1..];
        if length <= self.most_short() {
            return Ok(self.read_short(data_pl));
        }
        let (last, body) = data_pl.split_last().expect("a long form");
        let header = Header::of(body[0]);
        let tests = [
            (CRC, *last != self.crc_of(bytes[0], body)),
            (RESERVED, self.is_reserved(header)),
            (
                MISFIT,
                self.needed(header, self.announced(body[1])) > body.len(),
            ),
        ];
        let order = match self.fault {
            "14 before 13" => [1, 0, 2],
            "15 before 14" => [0, 2, 1],
            "15 before 13" => [2, 0, 1],
            _ => [0, 1, 2],
        };
        for test in order {
            let (number, fails) = tests[test];
            if fails {
                return Err(number);
            }
        }
        Ok(self.read_long(body))
    }

    /// How many bytes before the CRC a header needs, with this many bytes of optional data; data
    /// may be empty.
    fn needed(&self, header: Header, announced: u8) -> usize {
        let least = usize::from(self.is("data never empty"));
        let mut needed = 1 + id_bytes(header.control) + least;
        if header.extended {
            needed += 1 + usize::from(announced);
        }
        if self.is_type_extended(header) {
            needed += 1;
        }
        if self.is_addressed(header) {
            needed += 4;
        }
        needed
    }

    fn read_short(&self, data_pl: &[u8]) -> Telegram {
        let (id, data) = data_pl.split_at(self.short_id(data_pl.len()));
        Telegram {
            short: data_pl.len() as u8,
            originator: number(id),
            data: data.to_vec(),
            ..Telegram::default()
        }
    }

    fn read_long(&self, body: &[u8]) -> Telegram {
        let mut rest = body;
        let header = Header::of(next(&mut rest, 1)[0]);
        let extension = header.extended.then(|| next(&mut rest, 1)[0]);
        let subtype = self.is_type_extended(header).then(|| next(&mut rest, 1)[0]);
        let swapped = self.is("Destination-ID first") && self.is_addressed(header);
        let early = next(&mut rest, if swapped { 4 } else { 0 });
        let originator = number(next(&mut rest, id_bytes(header.control)));
        let destination = self.is_addressed(header).then(|| {
            let id = if swapped { early } else { next(&mut rest, 4) };
            number(id) as u32
        });
        let extension = extension.map(|byte| Extension {
            hops: byte >> 4,
            announced: self.announced(byte),
        });
        let announced = extension.map_or(0, |e| usize::from(e.announced));
        let (data, optional) = if self.is("optional data in front of data") {
            let (optional, data) = rest.split_at(announced);
            (data, optional)
        } else {
            rest.split_at(rest.len() - announced)
        };
        Telegram {
            short: 0,
            header,
            extension,
            subtype,
            originator,
            destination,
            data: data.to_vec(),
            optional: optional.to_vec(),
        }
    }

    // Building.

    pub fn build(&self, t: &Telegram, output: &mut [u8]) -> Result<usize, Refusal> {
        let length = self.length(t);
        let room = output.len() < 1 + length;
        let tests = [
            (ARGUMENT, self.is_unholdable(t) || self.is_against_header(t)),
            (RESERVED, t.short == 0 && self.is_reserved(t.header)),
            (MISFIT, self.is_misfitting(t, length)),
            (OUTPUT, room),
        ];
        let order = match self.fault {
            "14 before 10" => [1, 0, 2, 3],
            "15 before 10" => [2, 0, 1, 3],
            "15 before 14, building" => [0, 2, 1, 3],
            "6 before 15" => [0, 1, 3, 2],
            _ => [0, 1, 2, 3],
        };
        for test in order {
            let (number, fails) = tests[test];
            if fails {
                return Err(number);
            }
        }
        let bytes = self.bytes_of(t, length as u8);
        output[..bytes.len()].copy_from_slice(&bytes);
        if self.is("a byte past the result written") && output.len() > bytes.len() {
            output[bytes.len()] = 0;
        }
        Ok(bytes.len())
    }

    fn id_bytes_of(&self, t: &Telegram) -> usize {
        if t.short != 0 {
            self.short_id(usize::from(t.short))
        } else {
            id_bytes(t.header.control)
        }
    }

    /// The length of Data_PL: the bytes of the fields that are present.
    fn length(&self, t: &Telegram) -> usize {
        let fields = self.id_bytes_of(t) + t.data.len();
        if t.short != 0 {
            return fields;
        }
        let header_and_crc = 2;
        header_and_crc
            + t.extension.map_or(0, |e| 1 + usize::from(e.announced))
            + t.subtype.map_or(0, |_| 1)
            + t.destination.map_or(0, |_| 4)
            + fields
    }

    fn is_unholdable(&self, t: &Telegram) -> bool {
        let id_over = t.originator >> (8 * self.id_bytes_of(t)) != 0;
        if self.is("a 24-bit ID not tested") && t.short == 0 && t.header.control == 0 {
            return false;
        }
        if t.short != 0 {
            return id_over || usize::from(t.short) > SHORT;
        }
        let most_hops = if self.is("repeater count 16 taken") {
            16
        } else {
            15
        };
        let extension_over = t
            .extension
            .is_some_and(|e| e.hops > most_hops || e.announced > 15);
        id_over || t.header.control > 7 || t.header.kind > 15 || extension_over
    }

    /// Whether an optional field is present or missing against the header; a short form has none.
    fn is_against_header(&self, t: &Telegram) -> bool {
        let long = t.short == 0;
        let wrong = [
            t.extension.is_some() != (long && t.header.extended),
            t.subtype.is_some() != (long && self.is_type_extended(t.header)),
            t.destination.is_some() != (long && self.is_addressed(t.header)),
        ];
        let looked_at = match self.fault {
            "an extended header not compared with its flag" => [false, true, true],
            "an extended type not compared with its flag" => [true, false, true],
            "a Destination-ID not compared with its flag" => [true, true, false],
            _ => [true, true, true],
        };
        (0..3).any(|i| looked_at[i] && wrong[i])
    }

    fn is_misfitting(&self, t: &Telegram, length: usize) -> bool {
        if t.short != 0 {
            return length != usize::from(t.short);
        }
        let least = if self.is("6 bytes built as a long form") {
            6
        } else {
            7
        };
        let most = if self.is("256 bytes built") {
            256
        } else {
            LONGEST
        };
        length < least || length > most
    }

    fn bytes_of(&self, t: &Telegram, length: u8) -> Vec<u8> {
        let mut body = Vec::new();
        if t.short == 0 {
            body.push(t.header.byte());
        }
        if let Some(e) = t.extension {
            body.push(e.hops << 4 | e.announced);
        }
        body.extend(t.subtype);
        let mut id = bytes(self.id_bytes_of(t), t.originator);
        if self.is("the lowest byte of an ID first") {
            id.reverse();
        }
        body.extend(id);
        body.extend(t.destination.into_iter().flat_map(u32::to_be_bytes));
        body.extend(&t.data);
        body.extend(&t.optional);
        if t.short == 0 {
            body.push(self.crc_of(length, &body));
        }
        body.insert(0, length);
        body
    }
}

#[cfg(test)]
mod tests {
    use super::*;
    use crate::hex::{hex, unhex};

    fn read(text: &str) -> Result<Telegram, Refusal> {
        Codec::default().read(&unhex(text.as_bytes()).unwrap())
    }

    fn built(t: &Telegram) -> Vec<u8> {
        let mut output = vec![0; 256];
        let n = Codec::default().build(t, &mut output).unwrap();
        output[..n].to_vec()
    }

    /// Our own three cases: 004 has no worked example.
    #[test]
    fn our_cases() {
        let short = read("0501020304AA").unwrap();
        assert_eq!((short.short, short.originator), (5, 0x0102_0304));
        assert_eq!(short.data, [0xAA]);

        let one_byte = read("072101020304098A").map(|t| (t.header.kind, t.originator, t.data));
        assert_eq!(one_byte, Ok((1, 0x0102_0304, vec![0x09])));
    }

    #[test]
    fn what_is_built_with_its_crc_has_crc_0() {
        let t = Telegram {
            header: Header::of(0x5F),
            extension: Some(Extension {
                hops: 1,
                announced: 2,
            }),
            subtype: Some(0x32),
            originator: 0x0102_0304,
            destination: Some(0xF1F2_F3F4),
            data: vec![0xAA],
            optional: vec![0xBB, 0xCC],
            ..Telegram::default()
        };
        let bytes = built(&t);
        assert_eq!(hex(&bytes), "0F5F123201020304F1F2F3F4AABBCC23");
        assert_eq!(crc(&bytes[1..]), 0);
        assert_eq!(Codec::default().read(&bytes), Ok(t));
    }
}
