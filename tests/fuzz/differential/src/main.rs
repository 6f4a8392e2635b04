//! Compares the library with the second program on random inputs; the first difference in their answers ends the run.
//!
//! differential SECONDS [SEED]
use mooringeye::{raw, Answer as Said, Archive, Collector, Fields, FirstLine, Report, Telegram};
use random::Random;
use std::time::{Duration, Instant};

// The second program's own files, which keep their own layout.
#[allow(dead_code)]
#[rustfmt::skip]
#[path = "../../../reference/src/archive.rs"]
mod archive;
#[allow(dead_code)]
#[rustfmt::skip]
#[path = "../../../reference/src/clerk.rs"]
mod clerk;
#[allow(dead_code)]
#[rustfmt::skip]
#[path = "../../../reference/src/collect.rs"]
mod collect;
#[allow(dead_code)]
#[rustfmt::skip]
#[path = "../../../reference/src/hash.rs"]
mod hash;
#[allow(dead_code)]
#[rustfmt::skip]
#[path = "../../../reference/src/hex.rs"]
mod hex;
#[allow(dead_code)]
#[rustfmt::skip]
#[path = "../../../reference/src/image.rs"]
mod image;
#[allow(dead_code)]
#[rustfmt::skip]
#[path = "../../../reference/src/random.rs"]
mod random;
#[allow(dead_code)]
#[rustfmt::skip]
#[path = "../../../reference/src/repack.rs"]
mod repack;
#[allow(dead_code)]
#[rustfmt::skip]
#[path = "../../../reference/src/repeater.rs"]
mod repeater;
#[allow(dead_code)]
#[rustfmt::skip]
#[path = "../../../reference/src/report.rs"]
mod report;
#[allow(dead_code)]
#[rustfmt::skip]
#[path = "../../../reference/src/slots.rs"]
mod slots;
#[allow(dead_code)]
#[rustfmt::skip]
#[path = "../../../reference/src/subtelegram.rs"]
mod subtelegram;
#[allow(dead_code)]
#[rustfmt::skip]
#[path = "../../../reference/src/telegrams.rs"]
mod telegrams;

const BLOCK: usize = Archive::BLOCK;

/// A telegram of one of few transmitters, so some are open already; sometimes a damaged one, or bytes of any length.
fn bytes(random: &mut Random) -> Vec<u8> {
    let mut telegram = match random.below(4) {
        0 => telegrams::valid(random),
        _ => {
            let mut t = vec![0xF6, random.below(2) as u8, 0, 0, 0, random.below(90) as u8, 0x30 + random.below(3) as u8, 0];
            subtelegram::renew_hash(&mut t);
            t
        }
    };
    if random.chance(5) {
        let at = random.below(telegram.len());
        telegram[at] ^= 1 << random.below(8);
    }
    if random.chance(2) {
        let n = random.below(30);
        telegram = random.bytes(n);
    }
    telegram
}

/// Receptions, checkpoints, restores of right and damaged images.
fn histories(random: &mut Random) {
    let (mut ours, mut theirs, mut time) = (Collector::new(), clerk::Clerk::new(), 0u64);
    let step = random.pick(&[1, 4, 20, 60]);
    for _ in 0..200 {
        time = (time + random.below(step) as u64).saturating_sub(if random.chance(3) { 5 } else { 0 });
        let received = bytes(random);
        let said = match ours.take(&received, time) {
            Ok(Said::Kept) => clerk::Answer::Kept,
            Ok(Said::Copy) => clerk::Answer::Copy,
            Ok(Said::Loose) => clerk::Answer::Loose,
            Err(why) => clerk::Answer::Refused(why.number()),
        };
        assert_eq!(said, theirs.take(time, &received), "{received:02X?} at {time}");
        let place = random.below(66);
        assert_eq!(ours.copies(place), theirs.copies(place as u64).ok(), "copies of {place}");
    }
    let mut image = ours.checkpoint().to_vec();
    assert_eq!(image, theirs.image());
    if random.chance(70) {
        let at = random.below(image.len());
        image[at] ^= random.byte();
        if random.chance(50) {
            let block = at / BLOCK * BLOCK;
            image[block + BLOCK - 1] = raw::crc8(&image[block..block + BLOCK - 1]);
        }
    }
    assert_eq!(Collector::restore(&image).map(|_| ()).map_err(|e| e.number()), image::reload(&image).map(|_| ()), "an image");
}

/// What `collect` prints for a text, by the calls on lines.
fn collected(text: &[u8]) -> Vec<u8> {
    let mut whole = text.to_vec();
    if !text.is_empty() && !text.ends_with(b"\n") {
        whole.push(b'\n');
    }
    let FirstLine::Level { setting, used } = FirstLine::of(&whole) else { return b"BAD\n".to_vec() };
    let (mut c, mut at, mut out) = (Collector::new(), used, Vec::new());
    let (mut room, mut moments, mut rows) = (vec![0; 1_000], vec![0; 7], vec![0; 7 * raw::ROW]);
    loop {
        let taken = c.lines(setting, &whole[at..], 100, &mut room, &mut moments, &mut rows).expect("a right call");
        out.extend(&room[..taken.written]);
        at += taken.used;
        if taken.lines == 0 {
            break;
        }
    }
    let t = c.totals();
    out.extend(format!("RECEIVED {} KEPT {} COPIES {} ", t.received, t.kept, t.copies).into_bytes());
    out.extend(format!("LOOSE {} DAMAGED {} LATE {}\n", t.loose, t.damaged, t.late).into_bytes());
    out
}

fn texts(random: &mut Random) {
    let levels = if random.chance(5) { 5 } else { 3 };
    let mut text = format!("level {}\n", random.below(levels)).into_bytes();
    let mut time = random.next() >> random.below(64);
    for _ in 0..random.below(60) {
        time = time.wrapping_add(random.below(50) as u64);
        text.extend(format!("{time} {}\n", hex::hex(&bytes(random))).into_bytes());
        if random.chance(5) {
            let at = random.below(text.len());
            text[at] = random.pick(b"\n 0aGx9F\0\r");
        }
    }
    text.truncate(if random.chance(30) { random.below(text.len() + 1) } else { text.len() });
    assert_eq!(String::from_utf8_lossy(&collected(&text)), collect::run(&text), "{}", String::from_utf8_lossy(&text));
}

fn codecs(random: &mut Random) {
    for _ in 0..100 {
        let (a, b) = (bytes(random), bytes(random));
        assert_eq!(raw::check(&a), subtelegram::check(&a).err().unwrap_or(0), "{a:02X?}");
        let Ok(t) = Telegram::new(&a) else { continue };
        let fields = subtelegram::read(&a).expect("what is valid is read");
        let read = Fields { rorg: fields.rorg, data: fields.data, destid: fields.destination, txid: fields.transmitter, status: fields.status };
        assert_eq!(t.fields(), read);
        assert_eq!(Telegram::build(&read).unwrap(), t);
        let (mut out, destid) = ([0; 21], [random.byte(), 2, 3, 4]);
        let theirs = subtelegram::encapsulate(&a, destid, &mut out).map(|n| out[..n].to_vec());
        assert_eq!(t.encapsulate(destid).map(|t| t.as_bytes().to_vec()).map_err(|e| e.number()), theirs);
        let theirs = subtelegram::decapsulate(&a, &mut out).map(|n| out[..n].to_vec());
        assert_eq!(t.decapsulate().map(|t| t.as_bytes().to_vec()).map_err(|e| e.number()), theirs);
        let setting = random.below(4) as u8;
        let sent = t.repeat(setting).map(|s| s.map(|t| t.as_bytes().to_vec())).map_err(|e| e.number());
        assert_eq!(sent, repeater::ask(setting, &a));
        if let Ok(other) = Telegram::new(&b) {
            assert_eq!(t.is_same(&other), subtelegram::same(&a, &b));
        }
        let (level, duration, draw) = (random.below(4) as u8, random.below(20_000) as u32, random.next());
        let answer = raw::plan(level, duration, draw).to_be_bytes();
        let theirs = slots::plan(level, duration, draw).map_or_else(|n| [n, 0, 0, 0], |s| [0, s[0] as u8, s[1] as u8, s[2] as u8]);
        assert_eq!(answer, theirs, "plan {level} {duration} {draw}");
    }
}

fn archives(random: &mut Random) {
    let rows: Vec<archive::Row> =
        (0..random.below(80)).map(|i| archive::Row { bytes: telegrams::valid(random), time: i as u64 * 7, loose: random.chance(30) }).collect();
    let mut buffer = archive::room(6 * BLOCK, &rows);
    if random.chance(60) {
        let at = random.below(buffer.len());
        buffer[at] ^= 1 << random.below(8);
        if random.chance(50) {
            let block = at / BLOCK * BLOCK;
            buffer[block + BLOCK - 1] = raw::crc8(&buffer[block..block + BLOCK - 1]);
        }
    }
    let read = archive::read(&buffer);
    let opened = Archive::open(&mut buffer.clone()).map(|a| a.len()).map_err(|r| (r.why.number(), r.position));
    assert_eq!(opened, read.as_ref().map(Vec::len).map_err(|e| *e));
    let (mut out, mut list) = (vec![0; buffer.len()], vec![0; 6]);
    let theirs = repack::salvage(&buffer, &mut out, &mut list).expect("whole blocks");
    let ours = Archive::salvage(&buffer).unwrap();
    assert_eq!((ours.buffer, ours.dropped, ours.rows), (out, theirs.0, theirs.1));
    let mut sheet = report::Sheet::default();
    let mut whole = Report::new();
    assert_eq!(whole.add(&buffer).map_err(|r| (r.why.number(), r.position)), report::add(&mut sheet, &buffer));
    let lines: Vec<[u64; 5]> = whole.lines().map(|l| [l.identity.into(), l.kept, l.loose, l.earliest, l.latest]).collect();
    assert_eq!(lines, sheet.lines.iter().map(|l| [l.identity, l.kept, l.loose, l.earliest, l.latest]).collect::<Vec<_>>());
    let some: Vec<u32> = rows.iter().filter(|_| random.chance(10)).map(archive::identity).take(32).collect();
    let (mut mine, mut other) = (buffer.clone(), buffer);
    let freed = Archive::open(&mut mine).and_then(|mut a| a.remove(&some).map_err(|why| mooringeye::Refused { why, position: 0 }));
    assert_eq!(freed.map_err(|r| (r.why.number(), r.position)), repack::remove(&mut other, &some));
    assert_eq!(mine, other);
}

fn main() {
    let words: Vec<u64> = std::env::args().skip(1).map(|w| w.parse().expect("a number")).collect();
    let seconds = words.first().copied().unwrap_or(20);
    let mut random = Random::new(words.get(1).copied().unwrap_or(1));
    let (start, mut rounds) = (Instant::now(), 0);
    while start.elapsed() < Duration::from_secs(seconds) {
        for compare in [histories, texts, codecs, archives] {
            compare(&mut random);
        }
        rounds += 1;
    }
    println!("differential: {rounds} rounds of histories, texts, codecs and archives, no difference");
}
