//! The rows of a run as CSV and as JSON lines, and how often each telegram was received when it
//! closes (docs/FORMATS.md, "Text of mooringeye").

use crate::clerk::{Answer, Clerk, CEILING, OPEN_FOR};
use crate::collect::{reception, setting};
use crate::hex::hex;
use crate::image::{write_entry, Entry};
use crate::repeater::sent_for;
use crate::subtelegram::{level, read};

/// The values in the row of a line; only `answer` for a BAD line.
#[derive(Default)]
struct Row {
    time: Option<u64>,
    answer: &'static str,
    refusal: Option<u8>,
    telegram: Option<String>,
    send: Option<String>,
    txid: Option<String>,
    rorg: Option<String>,
    level: Option<u8>,
}

fn row(setting: u8, clerk: &mut Clerk, line: &[u8]) -> Row {
    let Some((time, bytes)) = reception(line) else {
        return Row {
            answer: "BAD",
            ..Row::default()
        };
    };
    let answer = clerk.take(time, &bytes);
    let (word, refusal) = match answer {
        Answer::Kept => ("KEPT", None),
        Answer::Copy => ("COPY", None),
        Answer::Loose => ("LOOSE", None),
        Answer::Refused(number) => ("REFUSED", Some(number)),
    };
    let sent = sent_for(setting, answer, &bytes);
    let fields = read(&bytes).ok();
    Row {
        time: Some(time),
        answer: word,
        refusal,
        telegram: Some(hex(&bytes)),
        send: (!sent.is_empty()).then(|| hex(&sent)),
        txid: fields.as_ref().map(|f| hex(&f.transmitter)),
        rorg: fields.as_ref().map(|f| hex(&[f.rorg])),
        level: fields.as_ref().map(|_| level(&bytes)),
    }
}

fn csv(row: &Row) -> String {
    let number = |n: Option<u64>| n.map_or(String::new(), |n| n.to_string());
    let text = |t: &Option<String>| t.clone().unwrap_or_default();
    [
        number(row.time),
        row.answer.to_string(),
        number(row.refusal.map(u64::from)),
        text(&row.telegram),
        text(&row.send),
        text(&row.txid),
        text(&row.rorg),
        number(row.level.map(u64::from)),
    ]
    .join(",")
}

fn json(row: &Row) -> String {
    let number = |name: &str, n: Option<u64>| n.map(|n| format!("\"{name}\":{n}"));
    let text = |name: &str, t: &Option<String>| t.as_ref().map(|t| format!("\"{name}\":\"{t}\""));
    let members = [
        number("time", row.time),
        text("answer", &Some(row.answer.to_string())),
        number("refusal", row.refusal.map(u64::from)),
        text("telegram", &row.telegram),
        text("send", &row.send),
        text("txid", &row.txid),
        text("rorg", &row.rorg),
        number("level", row.level.map(u64::from)),
    ];
    let members: Vec<String> = members.into_iter().flatten().collect();
    format!("{{{}}}", members.join(","))
}

/// The lines of an input after its first one, which has the setting.
fn lines(input: &[u8]) -> Option<(u8, impl Iterator<Item = &[u8]>)> {
    let text = input.strip_suffix(b"\n").unwrap_or(input);
    let mut lines = text.split(|&c| c == b'\n');
    let setting = setting(lines.next())?;
    Some((setting, lines))
}

fn rows(input: &[u8], heading: &str, bad: &str, put: fn(&Row) -> String) -> String {
    let Some((setting, lines)) = lines(input) else {
        return format!("{bad}\n");
    };
    let mut clerk = Clerk::new();
    let mut out = heading.to_string();
    for line in lines {
        out += &put(&row(setting, &mut clerk, line));
        out.push('\n');
    }
    out
}

pub fn as_csv(input: &[u8]) -> String {
    let heading = "time,answer,refusal,telegram,send,txid,rorg,level\n";
    rows(input, heading, ",BAD,,,,,,", csv)
}

pub fn as_json(input: &[u8]) -> String {
    rows(input, "", "{\"answer\":\"BAD\"}", json)
}

/// The telegrams that close, in order, each as the 32 bytes of a parked entry: a reception that is KEPT, COPY or LOOSE at t
/// closes those KEPT ones that are open at the latest time before it and not at t.
pub fn closings(input: &[u8]) -> Vec<u8> {
    let mut out = Vec::new();
    let Some((_, lines)) = lines(input) else {
        return out;
    };
    let mut clerk = Clerk::new();
    for (time, bytes) in lines.filter_map(reception) {
        let latest = clerk.latest();
        let before = clerk.noted.len();
        if !clerk.take(time, &bytes).accepted() {
            continue;
        }
        for at in 0..before {
            let noted = &clerk.noted[at];
            let is_open = |t: u64| t - noted.time <= OPEN_FOR;
            if noted.answer == Answer::Kept && is_open(latest) && !is_open(time) {
                let copies = clerk.noted.iter().filter(|n| n.opening == Some(at)).count();
                out.extend(write_entry(&Entry {
                    time: noted.time,
                    bytes: noted.bytes.clone(),
                    copies: copies.min(CEILING.into()) as u16,
                }));
            }
        }
    }
    out
}

#[cfg(test)]
mod tests {
    use super::*;

    const LOG: &[u8] =
        b"level 1\n1000 D5090102030400E8\n1012 d5090102030401e9\n1102 D5090102030400E7\n?\n1103 \n\
        1104 A6A500000008F1F2F3F4010203040027\n1000 D5090102030400E8\n";

    #[test]
    fn comma_separated() {
        assert_eq!(
            as_csv(LOG),
            "time,answer,refusal,telegram,send,txid,rorg,level\n\
             1000,KEPT,,D5090102030400E8,D5090102030401E9,01020304,D5,0\n\
             1012,COPY,,D5090102030401E9,,01020304,D5,1\n\
             1102,REFUSED,2,D5090102030400E7,,,,\n\
             ,BAD,,,,,,\n\
             1103,REFUSED,1,,,,,\n\
             1104,KEPT,,A6A500000008F1F2F3F4010203040027,A6A500000008F1F2F3F4010203040128,01020304,A5,0\n\
             1000,REFUSED,7,D5090102030400E8,,01020304,D5,0\n"
        );
    }

    #[test]
    fn json_lines() {
        let json = as_json(LOG);
        let lines: Vec<&str> = json.lines().collect();
        assert_eq!(
            lines[0],
            r#"{"time":1000,"answer":"KEPT","telegram":"D5090102030400E8","send":"D5090102030401E9","txid":"01020304","rorg":"D5","level":0}"#
        );
        assert_eq!(
            lines[2],
            r#"{"time":1102,"answer":"REFUSED","refusal":2,"telegram":"D5090102030400E7"}"#
        );
        assert_eq!(lines[3], r#"{"answer":"BAD"}"#);
        assert_eq!(lines.len(), 7);
    }

    #[test]
    fn what_closes() {
        let closed = closings(LOG);
        assert_eq!(
            hex(&closed),
            "00000000000003E808D5090102030400E8000000000000000000000000000001"
        );
        assert!(closings(b"level 3\n").is_empty());
    }
}
