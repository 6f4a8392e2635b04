//! samples/plant.txt: a morning at a cold store, as the log of a receiver hands it to `collect`.

use crate::hex::hex;
use crate::random::Random;
use crate::subtelegram::{encapsulate, write, Fields, LONGEST};
use crate::telegrams::{at_level, with_bit};

// Transmitters.
const GATE: u32 = 0x0583_A1C0;
const BUTTON: u32 = 0xFEF1_B2C3;
const METER: u32 = 0x0194_E3B9;
const DRIVE: u32 = 0x051A_0B66;
/// The first of the thermometers, and of the lamps.
const THERMOMETERS: u32 = 0x0181_4D10;
const LAMPS: u32 = 0x0500_7700;

/// STATUS of a telegram that carries the sum, or the CRC.
const SUM: u8 = 0x00;
const CRC: u8 = 0x80;

fn telegram(rorg: u8, data: &[u8], transmitter: u32, status: u8) -> Vec<u8> {
    write(&Fields {
        rorg,
        data: data.to_vec(),
        destination: None,
        transmitter: transmitter.to_be_bytes(),
        status,
    })
}

fn gate_open() -> Vec<u8> {
    telegram(0xD5, &[0x08], GATE, SUM)
}

fn gate_closed() -> Vec<u8> {
    telegram(0xD5, &[0x09], GATE, SUM)
}

fn pressed() -> Vec<u8> {
    telegram(0xF6, &[0x50], BUTTON, 0x30)
}

fn released() -> Vec<u8> {
    telegram(0xF6, &[0x00], BUTTON, 0x20)
}

fn temperature(sensor: u32, value: u8) -> Vec<u8> {
    telegram(0xA5, &[0x00, 0x00, value, 0x08], THERMOMETERS + sensor, SUM)
}

fn meter(reading: u16) -> Vec<u8> {
    let [high, low] = reading.to_be_bytes();
    telegram(0xD2, &[0x07, 0x60, 0x00, 0x00, high, low], METER, CRC)
}

fn lamp(number: u8) -> Vec<u8> {
    telegram(0xD2, &[0x04, 0x60, number], LAMPS + u32::from(number), CRC)
}

/// A command of the button's controller to the gate's drive.
fn command(status: u8) -> Vec<u8> {
    let mut output = [0; LONGEST];
    let bytes = telegram(0xD2, &[0x01, 0x00, 0x64], BUTTON, status);
    let n = encapsulate(&bytes, DRIVE.to_be_bytes(), &mut output).expect("a short command");
    output[..n].to_vec()
}

struct Log {
    text: String,
    now: u64,
    random: Random,
}

impl Log {
    fn line(&mut self, line: &str) {
        self.text.push_str(line);
        self.text.push('\n');
    }

    /// Received this many ms after the present.
    fn heard(&mut self, after: u64, bytes: &[u8]) {
        self.line(&format!("{} {}", self.now + after, hex(bytes)));
    }

    /// By a receiver that writes lower-case digits.
    fn heard_lower(&mut self, after: u64, bytes: &[u8]) {
        self.line(&format!(
            "{} {}",
            self.now + after,
            hex(bytes).to_lowercase()
        ));
    }

    /// The telegram's three subtelegrams and a repeater's two; each is sometimes lost.
    fn transmission(&mut self, bytes: &[u8]) {
        let first = self.random.range(1, 9);
        let second = self.random.range(20, 39);
        let mut heard = vec![(0, 0), (first, 0), (second, 0)];
        heard.push((self.random.range(10, 19), 1));
        heard.push((self.random.range(20, 29), 1));
        heard.sort();
        for (after, level) in heard {
            if self.random.chance(65) {
                self.heard(after as u64, &at_level(bytes, level));
            }
        }
    }

    /// A short excursion, a press received through two repeaters, damage, a clock that went back, a
    /// line that is not a reception, and a release whose first subtelegrams were lost.
    fn opening(&mut self) {
        self.now = 1000;
        self.heard(0, &gate_open());
        self.heard(6, &gate_open());
        self.heard(60, &gate_closed());
        self.heard(120, &gate_open());
        self.now = 1500;
        self.heard(0, &pressed());
        self.heard(12, &at_level(&pressed(), 1));
        self.heard(24, &at_level(&pressed(), 2));
        let mut noisy = pressed();
        noisy[1] ^= 0x20;
        self.heard(31, &noisy);
        self.heard(19, &pressed());
        self.line("gateway restarted");
        self.now = 1700;
        self.heard(10, &at_level(&released(), 1));
        self.heard(22, &at_level(&released(), 2));
    }

    /// Six thermometers and the meter report, the meter by CRC.
    fn round(&mut self, number: u16) {
        for sensor in 0..6 {
            let drift = self.random.below(4) as u8;
            self.transmission(&temperature(sensor, 0x70 + sensor as u8 * 3 + drift));
            self.now += self.random.range(45, 400) as u64;
        }
        self.transmission(&meter(0x1F40 + 3 * number));
        self.now += 5000;
    }

    /// A button that is stuck: one press every 40 ms for half a second.
    fn chatter(&mut self) {
        for _ in 0..13 {
            self.heard(0, &pressed());
            self.now += 40;
        }
        self.transmission(&released());
        self.now += 2000;
    }

    /// The drive is told to open the gate; the second receiver writes lower-case digits.
    fn addressed(&mut self) {
        self.heard(0, &command(SUM));
        self.heard_lower(3, &command(SUM));
        self.heard_lower(14, &at_level(&command(SUM), 1));
        self.heard(150, &command(CRC));
        self.heard_lower(152, &command(CRC));
        self.heard(900, &gate_open());
        self.heard_lower(902, &gate_open());
        self.now += 3000;
    }

    /// Power returns, and 80 lamps report within 80 ms; some are received twice.
    fn burst(&mut self) {
        for number in 0..80 {
            self.heard(u64::from(number), &lamp(number));
            if number % 8 == 7 {
                self.heard(u64::from(number), &at_level(&lamp(number - 3), 1));
            }
        }
        // The first lamps are no longer open here, so these two, LOOSE before, are KEPT.
        for number in [70, 71] {
            self.heard(105, &lamp(number));
        }
        self.now += 1000;
    }

    /// Cut short, run together, hit in a bit, and addressed inside addressed.
    fn damage(&mut self) {
        let whole = temperature(0, 0x71);
        self.heard(0, &whole);
        self.heard(5, &whole[..7]);
        self.heard(9, &[]);
        self.heard(14, &[whole.clone(), whole.clone()].concat());
        for bit in 0..4 {
            let mut hit = whole.clone();
            hit[3] ^= 1 << bit;
            self.heard(20 + bit, &hit);
        }
        let mut command = command(CRC);
        self.heard(40, &command);
        command[10] ^= 0x81;
        self.heard(41, &command);
        self.heard(50, &telegram(0xA6, &[0xA6; 6], BUTTON, SUM));
        self.heard(51, &telegram(0xA6, &[0xA6; 6], BUTTON, CRC));
        let mut hit = telegram(0xA6, &[0xA6; 6], BUTTON, CRC);
        hit[4] ^= 0x08;
        self.heard(52, &hit);
        // Addressed by its first byte, but too short for that.
        self.heard(60, &telegram(0xA6, &[0x01], BUTTON, SUM));
        self.now += 1000;
    }

    /// A second receiver whose clock is 40 ms behind.
    fn late(&mut self) {
        for sensor in 0..5 {
            self.now += 150;
            let bytes = temperature(sensor, 0x75);
            self.heard(40, &bytes);
            self.heard(0, &bytes);
            self.heard(52, &at_level(&bytes, 1));
        }
        // Another bit of STATUS, and so another telegram at the same moment.
        let bytes = temperature(4, 0x75);
        let status = bytes.len() - 2;
        self.heard(52, &with_bit(&bytes, status, 4));
        self.now += 1000;
    }

    /// What a log can hold besides receptions.
    fn noise(&mut self) {
        let (now, gate) = (self.now, hex(&gate_closed()));
        self.heard(0, &gate_closed());
        self.line("");
        self.line("level 2");
        self.line(&format!("0{now} {gate}"));
        self.line(&format!("-{now} {gate}"));
        self.line(&format!("{now}  {gate}"));
        self.line(&format!("{now} {gate}0"));
        self.line(&format!("{now} {gate}\r"));
        self.line(&format!("{now} {}", gate.replace('D', "?")));
        self.line(&format!("{now} {}", "00".repeat(65)));
        self.heard(100, &gate_closed());
        self.heard(101, &gate_closed());
        self.now += 1000;
    }
}

pub fn plant() -> String {
    let mut log = Log {
        text: "level 1\n".to_string(),
        now: 0,
        random: Random::new(0x706C_616E_7431),
    };
    log.opening();
    log.now = 10_000;
    for number in 0..4 {
        log.round(number);
    }
    log.chatter();
    log.addressed();
    log.round(4);
    log.burst();
    log.damage();
    log.round(5);
    log.late();
    log.noise();
    log.round(6);
    log.text
}

#[cfg(test)]
mod tests {
    use super::*;
    use crate::clerk::Clerk;
    use crate::collect;

    #[test]
    fn opening_rows() {
        let rows = collect::run(plant().as_bytes());
        let words: Vec<&str> = rows.lines().take(12).collect();
        let expected = [
            "1000 KEPT SEND D5080583A1C001C7",
            "1006 COPY",
            "1060 KEPT SEND D5090583A1C001C8",
            "1120 KEPT SEND D5080583A1C001C7",
            "1500 KEPT SEND F650FEF1B2C331DB",
            "1512 COPY",
            "1524 COPY",
            "1531 REFUSED 2",
            "1519 REFUSED 7",
            "BAD",
            "1710 KEPT",
            "1722 COPY",
        ];
        assert_eq!(words, expected);
    }

    #[test]
    fn every_kind_of_row() {
        let text = plant();
        let rows = collect::run(text.as_bytes());
        for kind in [
            " KEPT SEND ",
            " KEPT\n",
            " COPY\n",
            " LOOSE\n",
            " REFUSED 1\n",
            " REFUSED 2\n",
            " REFUSED 3\n",
            " REFUSED 7\n",
            "BAD\n",
        ] {
            assert!(rows.matches(kind).count() >= 2, "{kind:?}");
        }
        assert!((300..400).contains(&text.lines().count()));
        // A row for each line but the first, and the totals.
        assert_eq!(rows.lines().count(), text.lines().count());
    }

    /// The figures that docs/API.md shows: the copies of each open telegram (document 02, A8), asked for
    /// after the receptions up to a time.
    #[test]
    fn copies_as_documented() {
        let text = plant();
        let asked_after = |end: u64| -> Vec<u16> {
            let mut clerk = Clerk::new();
            let heard = text
                .lines()
                .filter_map(|l| collect::reception(l.as_bytes()));
            for (time, bytes) in heard.take_while(|(time, _)| *time <= end) {
                clerk.take(time, &bytes);
            }
            let places = (0..).map(|place| clerk.copies(place));
            places.map_while(Result::ok).collect()
        };
        assert_eq!(asked_after(1_524), [2]);
        assert_eq!(asked_after(10_034), [4]);
        let lamps: Vec<u16> = (0..64).map(|lamp| u16::from(lamp % 8 == 4)).collect();
        assert_eq!(asked_after(47_680), lamps);
        assert_eq!(lamps.iter().filter(|&&copies| copies == 0).count(), 56);
    }
}
