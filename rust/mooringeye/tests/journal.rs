//! The calls of the journal of the plant's tool: its state file, and what a start and a batch decide.
use mooringeye::{raw, Block, Collector};

const PRESS: [u8; 8] = [0xD5, 0x09, 1, 2, 3, 4, 0, 0xE8];
const OLD: usize = 3_584;

/// What a state file keeps.
#[derive(Clone, PartialEq, Debug)]
struct Kept {
    numbers: [u64; raw::STATE_NUMBERS],
    name: [u8; raw::STATE_NAME],
    last: [u8; raw::BLOCK],
    image: [u8; raw::IMAGE],
    tail: [u8; raw::STATE_TAIL],
}

impl Kept {
    /// A collector with one row, which is the 16th of its archive's file; with a log and a file for rows, or without.
    fn new(with_log: bool) -> Kept {
        let mut collector = Collector::new();
        collector.take(&PRESS, 1_000).unwrap();
        let mut last = Block::default();
        last.put(15, &PRESS, 1_000, false).unwrap();
        let mut kept = Kept {
            numbers: [7, 0, 15, 3, 5, 0, 0, 0, 0, 0, 0, 0, 0, 0],
            name: [0; raw::STATE_NAME],
            last: *last.as_bytes(),
            image: collector.checkpoint(),
            tail: [0; raw::STATE_TAIL],
        };
        kept.name[..5].copy_from_slice(b"a.arc");
        if with_log {
            kept.numbers[5..].copy_from_slice(&[1, 300, 11, 12, 300, 1, 99, 13, 14]);
            kept.tail[..300].fill(b'x');
        }
        kept
    }

    fn write(&self) -> Result<[u8; raw::STATE], u8> {
        let mut out = [0xEE; raw::STATE];
        match raw::state_write(&self.numbers, &self.name, &self.last, &self.image, &self.tail, &mut out) {
            0 => Ok(out),
            number => {
                assert!(out == [0xEE; raw::STATE]);
                Err(number)
            }
        }
    }

    fn accept(bytes: &[u8]) -> Result<Kept, u8> {
        let mut kept = Kept { numbers: [1; 14], name: [2; 255], last: [3; 512], image: [4; 2_560], tail: [5; 512] };
        let before = kept.clone();
        match raw::state_accept(bytes, &mut kept.numbers, &mut kept.name, &mut kept.last, &mut kept.image, &mut kept.tail) {
            0 => Ok(kept),
            number => {
                assert!(kept == before);
                Err(number)
            }
        }
    }
}

/// The same state in a file of version 1.
fn old(bytes: &[u8; raw::STATE]) -> Vec<u8> {
    let mut bytes = bytes[..OLD].to_vec();
    bytes[7] = 1;
    bytes[511] = mooringeye::crc8(&bytes[..511]);
    bytes
}

#[test]
fn a_state_reads_back() {
    for kept in [Kept::new(false), Kept::new(true)] {
        assert_eq!(Kept::accept(&kept.write().unwrap()), Ok(kept));
    }
}

#[test]
fn a_state_of_version_1_is_read() {
    let kept = Kept::new(false);
    assert_eq!(Kept::accept(&old(&kept.write().unwrap())), Ok(kept));
    assert_eq!(Kept::accept(&old(&Kept::new(true).write().unwrap())), Err(11));
}

#[test]
fn no_bit_can_flip_and_no_byte_can_be_missing() {
    let bytes = Kept::new(true).write().unwrap();
    for bit in 0..8 * raw::STATE {
        let mut other = bytes;
        other[bit / 8] ^= 1 << (bit % 8);
        assert_eq!(Kept::accept(&other), Err(11), "bit {bit}");
    }
    for n in (0..raw::STATE).filter(|n| *n != OLD) {
        assert_eq!(Kept::accept(&bytes[..n]), Err(16));
    }
    assert_eq!(Kept::accept(&bytes[..OLD]), Err(11));
}

#[test]
fn what_is_not_lawful_is_not_written() {
    let wrong: [fn(&mut Kept); 8] = [
        |k| k.numbers[2] = 16,
        |k| k.numbers[1] = 2,
        |k| k.numbers[4] = 4,
        |k| k.numbers[5] = 2,
        |k| k.numbers[9] = 299,
        |k| k.numbers[10] = 0,
        |k| k.last = [0; raw::BLOCK],
        |k| k.image[0] = 1,
    ];
    for change in wrong {
        let mut kept = Kept::new(true);
        change(&mut kept);
        assert_eq!(kept.write(), Err(11));
    }
}

#[test]
fn a_block_is_judged() {
    let mut copy = Block::default();
    copy.put(0, &PRESS, 1, false).unwrap();
    let mut more = copy.clone();
    more.put(1, &PRESS, 2, true).unwrap();
    let mut torn = *more.as_bytes();
    torn[200] ^= 1;
    let judge = |block: &[u8]| raw::journal_judge(copy.as_bytes(), 1, block);
    assert_eq!([copy.as_bytes(), more.as_bytes(), &torn, &[0; raw::BLOCK]].map(|b| judge(b)), [0, 1, 2, 3]);
}

#[test]
fn leftovers_are_compared() {
    let row = |loose: u8| [&[loose, 8][..], &PRESS, &[0; 13]].concat();
    let compare = |rows: &[u8], left: &[u8]| {
        let (mut agreed, mut going) = (77, 77);
        let times = |rows: &[u8]| (0..rows.len() as u64 / 23).collect::<Vec<_>>();
        let number = raw::journal_compare(&times(rows), rows, &times(left), left, &mut agreed, &mut going);
        (number, agreed, going)
    };
    let (kept, loose) = (row(0), row(1));
    let left = [&kept[..], &loose, &kept].concat();
    assert_eq!(compare(&left[..46], &left), (0, 2, 0));
    assert_eq!(compare(&[&kept[..], &kept].concat(), &left), (0, 1, 2));
    assert_eq!(compare(&[&left[..], &kept].concat(), &left), (0, 3, 0));
    assert_eq!(compare(&left[..45], &left), (16, 77, 77));
}

#[test]
fn blocks_are_read_up_to_the_first_that_does_not_belong() {
    let mut full = Block::default();
    for n in 0..15 {
        full.put(n, &PRESS, n as u64, false).unwrap();
    }
    let mut short = Block::default();
    short.put(15, &PRESS, 15, false).unwrap();
    let file = [&full.as_bytes()[..], short.as_bytes(), &[0xEE; raw::BLOCK]].concat();
    let mut numbers = [1 << 32, 0, 0, 0, 0];
    for piece in file.chunks(raw::BLOCK) {
        assert_eq!(raw::journal_scan(&mut numbers, piece), 0);
    }
    assert_eq!(numbers, [1 << 32, 2, 2, 16, 1]);
    assert_eq!(raw::journal_scan(&mut numbers, &file[1..]), 16);
    assert_eq!(raw::journal_scan(&mut [0; raw::RUN_NUMBERS], &file), 11);
}
