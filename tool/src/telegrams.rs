//! `mooringeye read` and `mooringeye build`: the codec for people.
use crate::args::{parsed, Args};
use crate::failure::Failure;
use crate::streams::Output;
use crate::text;
use mooringeye::{Erp2, Extension, Fields, Telegram};

fn hex_of(bytes: &[u8]) -> String {
    let mut out = Vec::new();
    text::put_hex(&mut out, bytes);
    String::from_utf8(out).expect("digits")
}

const HEX: &str = "bytes of two hexadecimal digits";
const BYTE: &str = "two hexadecimal digits";
const ID: &str = "eight hexadecimal digits";

fn byte(text: &str) -> Option<u8> {
    match text::bytes_of_hex(text)?[..] {
        [byte] => Some(byte),
        _ => None,
    }
}

/// A number of up to twelve digits, without leading zeros if they are left out.
fn originator_of(text: &str) -> Option<u64> {
    let digits = if text.len() % 2 == 1 { format!("0{text}") } else { text.into() };
    let bytes = text::bytes_of_hex(&digits).filter(|bytes| (1..=6).contains(&bytes.len()))?;
    Some(bytes.iter().fold(0, |n, byte| n << 8 | u64::from(*byte)))
}

fn small(text: &str) -> Option<u8> {
    text::number(text).and_then(|n| n.try_into().ok())
}

pub fn read(args: &Args) -> Result<(), Failure> {
    let [word] = args.exactly()?;
    let bytes = parsed(word, "a telegram", HEX, text::bytes_of_hex)?;
    let refused = |why| Failure::refused(word.display(), why);
    let printed = match args.has("erp2") {
        true => erp2_text(&Erp2::read(&bytes).map_err(refused)?),
        false => fields_text(&Telegram::new(&bytes).map_err(refused)?.fields()),
    };
    Output::standard()?.write(printed.as_bytes())
}

fn fields_text(fields: &Fields) -> String {
    let Fields { rorg, data, destid, txid, status } = fields;
    let mut out = format!("RORG   {rorg:02X}\nDATA   {}\n", hex_of(data));
    if let Some(destid) = destid {
        out += &format!("DESTID {}\n", hex_of(destid));
    }
    let hash = if status & 0x80 == 0 { "sum" } else { "CRC" };
    out + &format!("TXID   {}\nSTATUS {status:02X} (level {}, flags {}, {hash})\n", hex_of(txid), fields.level(), status >> 4 & 7)
}

fn erp2_text(telegram: &Erp2) -> String {
    match telegram {
        Erp2::Short { length, originator, data } => {
            let width = 2 * [1, 1, 2, 3, 4, 4][usize::from(length - 1)];
            format!("short form\nORIGINATOR {originator:0width$X}\nDATA       {}\n", hex_of(data))
        }
        Erp2::Long { control, kind, extension, subtype, originator, destination, data } => {
            let width = 2 * [3, 4, 4, 6][usize::from(*control)];
            let mut out = format!("long form\nCONTROL    {control}\nTYPE       {kind}\n");
            if let Some(Extension { hops, optional }) = extension {
                out += &format!("HOPS       {hops}\nOPTIONAL   {}\n", hex_of(optional));
            }
            if let Some(subtype) = subtype {
                out += &format!("SUBTYPE    {subtype:02X}\n");
            }
            out += &format!("ORIGINATOR {originator:0width$X}\n");
            if let Some(destination) = destination {
                out += &format!("TO         {destination:08X}\n");
            }
            out + &format!("DATA       {}\n", hex_of(data))
        }
    }
}

pub fn build(args: &Args) -> Result<(), Failure> {
    let bytes = if args.has("erp2") { build_erp2(args)? } else { build_erp1(args)? };
    Output::standard()?.write(format!("{}\n", hex_of(&bytes)).as_bytes())
}

fn build_erp1(args: &Args) -> Result<Vec<u8>, Failure> {
    let [rorg, data, txid] = args.exactly()?;
    let fields = Fields {
        rorg: parsed(rorg, "RORG", BYTE, byte)?,
        data: parsed(data, "DATA", HEX, text::bytes_of_hex)?,
        destid: args.value("to", ID, text::identity)?.map(u32::to_be_bytes),
        txid: parsed(txid, "TXID", ID, text::identity)?.to_be_bytes(),
        status: args.value("status", BYTE, byte)?.unwrap_or(0),
    };
    let telegram = Telegram::build(&fields).map_err(|why| Failure::refused("these fields", why))?;
    Ok(telegram.as_bytes().to_vec())
}

fn build_erp2(args: &Args) -> Result<Vec<u8>, Failure> {
    let [control, kind, originator, data] = args.exactly()?;
    let hops = args.value("hops", "a number", small)?;
    let optional = args.value("optional", HEX, text::bytes_of_hex)?;
    let has_extension = hops.is_some() || optional.is_some();
    let telegram = Erp2::Long {
        control: parsed(control, "CONTROL", "a number", small)?,
        kind: parsed(kind, "TYPE", "a number", small)?,
        extension: has_extension.then(|| Extension { hops: hops.unwrap_or(0), optional: optional.unwrap_or_default() }),
        subtype: args.value("subtype", BYTE, byte)?,
        originator: parsed(originator, "ORIGINATOR", "up to twelve hexadecimal digits", originator_of)?,
        destination: args.value("to", ID, text::identity)?,
        data: parsed(data, "DATA", HEX, text::bytes_of_hex)?,
    };
    telegram.build().map_err(|why| Failure::refused("these fields", why))
}
