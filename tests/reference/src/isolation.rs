//! One noisy sensor does not touch another's rows (document 02, A13): the statement, run over
//! histories that fulfil its premises, and over some that break one and must differ.

use crate::bursts;
use crate::clerk::{Answer, Clerk, PLACES};
use crate::faults::PlainClerk;
use crate::history::{Call, Model};
use crate::random::Random;
use crate::scenarios::{calls, histories};
use crate::subtelegram::{read, write, Fields};
use crate::telegrams::{at_level, valid, with_bit};
use std::collections::BTreeSet;

type Reception = (u64, Vec<u8>);
type Transmitter = [u8; 4];

/// The transmitter of a valid reception.
fn transmitter(bytes: &[u8]) -> Option<Transmitter> {
    read(bytes).ok().map(|fields| fields.transmitter)
}

/// What is seen of X: the answer to a valid reception of X, and, asked directly after it, each open
/// telegram of X in opening order, as it was first received and when, with its copies. Places are
/// not compared.
#[derive(Debug, PartialEq)]
struct Seen {
    answer: Answer,
    open: Vec<(u64, Vec<u8>, u16)>,
}

/// What a model shows of X for the receptions, from a fresh start.
fn seen_of(x: Transmitter, receptions: &[Reception], model: &mut impl Model) -> Vec<Seen> {
    model.start(0);
    let mut seen = Vec::new();
    for (time, bytes) in receptions {
        let answer = model.take(*time, bytes);
        if transmitter(bytes) == Some(x) {
            let open = open_of(x, model);
            seen.push(Seen { answer, open });
        }
    }
    seen
}

/// The open telegrams of X, each with the copies that the question for its place gives.
fn open_of(x: Transmitter, model: &mut impl Model) -> Vec<(u64, Vec<u8>, u16)> {
    let mut open = Vec::new();
    for (place, entry) in model.opened().into_iter().enumerate() {
        if transmitter(&entry.bytes) == Some(x) {
            let (number, copies) = model.copies(place as u64);
            assert_eq!(number, 0, "a place that is open");
            open.push((entry.time, entry.bytes, copies));
        }
    }
    open
}

/// "striking out every reception that isn't a valid one of transmitter X"
fn struck(x: Transmitter, receptions: &[Reception]) -> Vec<Reception> {
    let of_x = |reception: &&Reception| transmitter(&reception.1) == Some(x);
    receptions.iter().filter(of_x).cloned().collect()
}

fn transmitters(receptions: &[Reception]) -> BTreeSet<Transmitter> {
    let heard = receptions.iter();
    heard.filter_map(|(_, bytes)| transmitter(bytes)).collect()
}

/// Whether X sees no difference.
fn isolated(x: Transmitter, receptions: &[Reception], model: &mut impl Model) -> bool {
    let whole = seen_of(x, receptions, model);
    whole == seen_of(x, &struck(x, receptions), model)
}

/// "in which times never go back and no answer is LOOSE"
fn is_quiet(receptions: &[Reception]) -> bool {
    let in_order = receptions.windows(2).all(|pair| pair[0].0 <= pair[1].0);
    in_order && !is_crowded(receptions)
}

fn is_crowded(receptions: &[Reception]) -> bool {
    let mut clerk = Clerk::new();
    let mut answers = receptions.iter().map(|(t, bytes)| clerk.take(*t, bytes));
    answers.any(|answer| answer == Answer::Loose)
}

/// The receptions of a history's calls, up to an image accepted from elsewhere, which belongs to no
/// history. "A refused burst stands for no reception."
fn receptions_of(history: &[Call]) -> Vec<Reception> {
    let mut all = Vec::new();
    for call in history {
        match call {
            Call::Reception(time, bytes) => all.push((*time, bytes.clone())),
            Call::Burst(burst) if bursts::number(burst) == 0 => {
                all.extend(burst.records.iter().map(|r| (r.time, r.handed())));
            }
            Call::Given(image) if crate::image::reload(image).is_ok() => break,
            _ => {}
        }
    }
    all
}

/// The same without the receptions that break a premise: those earlier than one before them, and
/// those that the clerk answers LOOSE.
fn quietened(receptions: &[Reception]) -> Vec<Reception> {
    let mut clerk = Clerk::new();
    let mut quiet: Vec<Reception> = Vec::new();
    for (time, bytes) in receptions {
        let back = quiet.last().is_some_and(|(before, _)| time < before);
        // A damaged one far ahead would leave nothing after it.
        let far = read(bytes).is_err() && *time > clerk.latest().saturating_add(1_000);
        let full = clerk.entries().len() == PLACES;
        if back || far || full && clerk.clone().take(*time, bytes) == Answer::Loose {
            continue;
        }
        clerk.take(*time, bytes);
        quiet.push((*time, bytes.clone()));
    }
    quiet
}

/// Few transmitters, each with telegrams that are near those of the others: the same data from two
/// of them, plain and addressed, one bit different; one of them chatters.
fn noisy(random: &mut Random) -> Vec<Reception> {
    let pool = neighbours(random);
    let chatterer = pool[random.below(pool.len())].clone();
    let mut receptions = Vec::new();
    let mut now = random.next() >> 30;
    for _ in 0..random.range(20, 90) {
        now += random.pick(&[0, 0, 1, 3, 9, 20, 39, 40, 41, 60, 99, 100, 101]);
        let level = random.pick(&[0, 0, 0, 1, 1, 2, 15]);
        let any = random.below(pool.len());
        let mut bytes = match random.below(10) {
            0..=3 => at_level(&chatterer, level),
            _ => at_level(&pool[any], level),
        };
        if random.chance(5) {
            // Damaged, or another telegram of any transmitter.
            bytes = match random.below(3) {
                0 => bytes[1..].to_vec(),
                1 => with_bit(&bytes, bytes.len() - 3, random.below(8)),
                _ => valid(random),
            };
        }
        receptions.push((now, bytes));
    }
    receptions
}

/// Telegrams of up to four transmitters: the same data sent by each, and other data.
fn neighbours(random: &mut Random) -> Vec<Vec<u8>> {
    let base = read(&valid(random)).unwrap();
    let mut pool = Vec::new();
    for x in 0..random.range(2, 4) as u8 {
        let mut transmitter = base.transmitter;
        transmitter[usize::from(x)] ^= 1 << x;
        let fields = Fields {
            transmitter,
            ..base.clone()
        };
        pool.push(write(&fields));
        let other = random.byte();
        let mut data = base.data.clone();
        data[0] = other;
        pool.push(write(&Fields { data, ..fields }));
    }
    pool
}

/// What was compared.
#[derive(Default, Debug)]
struct Figures {
    histories: usize,
    transmitters: usize,
    answers: usize,
    asks: usize,
    copies: u64,
}

fn compare(receptions: &[Reception], figures: &mut Figures) {
    assert!(is_quiet(receptions));
    figures.histories += 1;
    for x in transmitters(receptions) {
        let whole = seen_of(x, receptions, &mut Clerk::new());
        let alone = seen_of(x, &struck(x, receptions), &mut Clerk::new());
        assert_eq!(whole, alone);
        figures.transmitters += 1;
        figures.answers += whole.len();
        figures.asks += whole.iter().map(|seen| seen.open.len()).sum::<usize>();
        let copies = |seen: &Seen| seen.open.iter().map(|(_, _, n)| u64::from(*n)).sum::<u64>();
        figures.copies += whole.iter().map(copies).sum::<u64>();
    }
}

/// The stored histories that fulfil the premises, unchanged; the others without what breaks one.
#[test]
fn stored_histories_are_isolated() {
    let (mut whole, mut quiet) = (Figures::default(), Figures::default());
    for history in histories(calls()) {
        let receptions = receptions_of(&history);
        if is_quiet(&receptions) {
            compare(&receptions, &mut whole);
        } else {
            compare(&quietened(&receptions), &mut quiet);
        }
    }
    println!("as they stand: {whole:?}\nwithout what breaks a premise: {quiet:?}");
    assert!(whole.histories >= 5 && whole.answers >= 300, "{whole:?}");
    assert!(quiet.histories >= 40 && quiet.answers >= 2_000, "{quiet:?}");
}

/// Transmitters that send the data of the others, with a button among them that chatters.
#[test]
fn noisy_histories_are_isolated() {
    let mut random = Random::new(0x4131_334D_6F6F_7269);
    let mut figures = Figures::default();
    for _ in 0..2_000 {
        compare(&noisy(&mut random), &mut figures);
    }
    println!("{figures:?}");
    assert!(figures.transmitters >= 4_000, "{figures:?}");
    assert!(
        figures.answers >= 50_000 && figures.asks >= 50_000,
        "{figures:?}"
    );
    assert!(figures.copies >= 50_000, "{figures:?}");
}

fn gate() -> Vec<u8> {
    telegram([0x05, 0x83, 0xA1, 0xC0], 0x08)
}

fn telegram(transmitter: Transmitter, data: u8) -> Vec<u8> {
    write(&Fields {
        rorg: 0xD5,
        data: vec![data],
        destination: None,
        transmitter,
        status: 0,
    })
}

/// This many others at one time.
fn crowd(time: u64, n: usize) -> Vec<Reception> {
    let other = |i: usize| (time, telegram([0, 0, 0, i as u8], 0x09));
    (0..n).map(other).collect()
}

/// A crowd of 64 before the gate hides it; one of 63 does not.
#[test]
fn a_crowd_breaks_it() {
    let x = transmitter(&gate()).unwrap();
    for (n, fits) in [(PLACES - 1, true), (PLACES, false)] {
        let mut receptions = crowd(1_000, n);
        receptions.push((1_050, gate()));
        assert_eq!(is_quiet(&receptions), fits);
        assert_eq!(isolated(x, &receptions, &mut Clerk::new()), fits);
    }
    // The gate's second event is LOOSE; otherwise a copy of it would have been counted for it.
    let mut receptions = vec![(1_000, gate())];
    receptions.extend(crowd(1_000, PLACES - 1));
    receptions.extend([(1_041, gate()), (1_042, at_level(&gate(), 1))]);
    assert!(!is_quiet(&receptions));
    assert!(!isolated(x, &receptions, &mut Clerk::new()));
}

/// If another's clock is ahead, the gate is late; at an equal time it is not.
#[test]
fn a_clock_that_goes_back_breaks_it() {
    let x = transmitter(&gate()).unwrap();
    let other = telegram([0, 0, 0, 1], 0x09);
    for (time, fits) in [(1_000, true), (999, false)] {
        let receptions = [(1_000, other.clone()), (time, gate())];
        assert_eq!(is_quiet(&receptions), fits);
        assert_eq!(isolated(x, &receptions, &mut Clerk::new()), fits);
    }
    // The gate is received again in the past of another: no COPY, and one fewer is counted.
    let receptions = [(990, gate()), (1_000, other), (999, at_level(&gate(), 1))];
    assert!(!is_quiet(&receptions));
    assert!(!isolated(x, &receptions, &mut Clerk::new()));
}

/// "asked directly after a valid reception of X": later another's reception has closed X's telegram.
#[test]
fn asked_later_it_differs() {
    let x = transmitter(&gate()).unwrap();
    let receptions = [(1_000, gate()), (1_101, telegram([0, 0, 0, 1], 0x09))];
    assert!(is_quiet(&receptions));
    let open_after = |receptions: &[Reception]| {
        let mut clerk = Clerk::new();
        for (time, bytes) in receptions {
            clerk.take(*time, bytes);
        }
        open_of(x, &mut clerk).len()
    };
    assert_eq!(open_after(&receptions), 0);
    assert_eq!(open_after(&struck(x, &receptions)), 1);
}

/// Wrong collectors, in which the noise of one transmitter reaches another's rows: some history
/// shows each.
#[test]
fn faults_of_isolation_are_seen() {
    let shown = |fault: &'static str| {
        let mut random = Random::new(0x4131_334D_6F6F_7269);
        (0..2_000).all(|_| {
            let receptions = noisy(&mut random);
            let mut all = transmitters(&receptions).into_iter();
            all.all(|x| isolated(x, &receptions, &mut PlainClerk::new(fault)))
        })
    };
    for fault in [
        "TXID left out",
        "the latest of all credited",
        "the first of all credited",
    ] {
        assert!(!shown(fault), "{fault}");
    }
}
